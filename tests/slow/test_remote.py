"""Local nodes while a peer of another host takes all connections that it can get. Its connections are silent (`silent`), send a byte of a
request of 200 bytes once a second (`drips`), are opened again at once when the daemon closes them (`again`), or do both (`both`). Beside it
50 nodes of this host register and leave, and 50 look-ups are made, each within a second. Look-ups of the other host succeed again soon after
the peer has left."""
import contextlib, os, select, signal, socket, subprocess, sys, time, unittest

from case import Case
from daemon import look_up, register

HERE, THERE = "10.77.0.1", "10.77.0.2"
SPACE, OURS, THEIRS = f"epmd{os.getpid()}", f"ep{os.getpid()}h", f"ep{os.getpid()}p"  # A network namespace, and a pair of devices.
WANTED = 3000  # Connections that the peer tries to have.
TRIES, STEP = 50, 0.1
SOON, AGAIN = 1.0, 2.0  # Seconds for each local request, and until those of the other host are answered after the peer has left.


def attack(port, kind):
    """Takes all connections that it can get until SIGTERM; prints how many are open then, how many the daemon closed, and how many requests
    for a connection still wait."""
    going = [True]
    signal.signal(signal.SIGTERM, lambda *_: going.clear())
    polled, open_now, waiting, closed = select.epoll(), {}, {}, 0

    def start():
        s = socket.socket()
        s.setblocking(False)
        s.connect_ex((HERE, int(port)))
        waiting[s.fileno()] = s
        polled.register(s.fileno(), select.EPOLLOUT)

    for _ in range(WANTED):
        start()
    next_byte = time.monotonic()
    while going:
        for fd, events in polled.poll(0.1):
            if fd in waiting and not events & (select.EPOLLERR | select.EPOLLHUP):
                s = open_now[fd] = waiting.pop(fd)
                polled.modify(fd, select.EPOLLIN | select.EPOLLRDHUP)
                if kind in ("drips", "both"):
                    with contextlib.suppress(OSError):
                        s.send(b"\0\xc8")
                continue
            closed += fd in open_now
            s = open_now.pop(fd, None) or waiting.pop(fd)
            polled.unregister(fd)
            s.close()
            if kind in ("again", "both"):
                start()
        if kind in ("drips", "both") and time.monotonic() >= next_byte:
            next_byte = time.monotonic() + 1
            for s in open_now.values():
                with contextlib.suppress(OSError):
                    s.send(b"n")
    print(len(open_now), closed, len(waiting), flush=True)


def look(port):
    """Looks a name up once a tenth of a second, and prints when each look-up began, and when it was answered (or 0)."""
    while True:
        start, stop = time.monotonic(), 0
        with contextlib.suppress(OSError), socket.create_connection((HERE, int(port)), 0.5) as s:
            s.sendall(b"\0\7zsteady")
            stop = time.monotonic() if s.recv(2) == b"w\0" else 0
        print(start, stop, flush=True)
        time.sleep(0.1)


@unittest.skipUnless(os.getuid() == 0, "only root can make a network namespace by name")
class Remote(Case):
    FILES = 8192

    @classmethod
    def setUpClass(cls):
        super().setUpClass()
        for words in ["netns", "del", SPACE], ["link", "del", OURS]:
            cls.addClassCleanup(subprocess.run, ["ip", *words], stderr=subprocess.DEVNULL)
        for words in (f"netns add {SPACE}", f"link add {OURS} type veth peer name {THEIRS}", f"link set {THEIRS} netns {SPACE}",
                      f"addr add {HERE}/24 dev {OURS}", f"link set {OURS} up", f"-n {SPACE} addr add {THERE}/24 dev {THEIRS}",
                      f"-n {SPACE} link set {THEIRS} up", f"-n {SPACE} link set lo up"):
            done = subprocess.run(["ip", *words.split()], capture_output=True, text=True)
            if done.returncode:
                raise unittest.SkipTest(f"refused: ip {words}: {done.stderr.strip()}")

    @contextlib.contextmanager
    def there(self, *words):
        """A process of this script on the other host meanwhile."""
        words = ["ip", "netns", "exec", SPACE, sys.executable, "-c", f"import sys; sys.path[:] = {sys.path!r}; import test_remote; "
                 "getattr(test_remote, sys.argv[1])(*sys.argv[2:])", *map(str, words)]
        with subprocess.Popen(words, stdout=subprocess.PIPE, text=True) as process:
            try:
                yield process
            finally:
                process.kill()

    def timed(self, call, *words):
        start = time.monotonic()
        result = call(*words, seconds=SOON)
        took = time.monotonic() - start
        self.assertLessEqual(took, SOON)
        return result, took

    def local_requests(self, port):
        """Each is right within a second. The most that one took."""
        most = 0.0
        for count in range(TRIES):
            own, took = self.timed(register, port, b"local%d" % count)
            self.assertIsInstance(own, socket.socket)
            is_found, took_look = self.timed(look_up, port, b"steady")
            self.assertIs(is_found, True)
            own.close()
            most = max(most, took, took_look)
            time.sleep(STEP)
        return most

    def attacked(self, workers, kind):
        daemon = self.daemon("-workers", workers, limits={"RLIMIT_NOFILE": 8192}, address=None)
        self.hold(daemon, b"steady")
        with self.there("look", daemon.port) as looking:
            time.sleep(1)
            with self.there("attack", daemon.port, kind) as peer:
                most = self.local_requests(daemon.port)
                peer.terminate()
                counts = peer.stdout.read().strip()
            gone = time.monotonic()
            time.sleep(AGAIN + 3)
            looking.kill()
            rows = [tuple(map(float, row)) for row in map(str.split, looking.stdout) if len(row) == 2]
        late = [stop for start, stop in rows if stop and start >= gone - 0.5 and stop > gone]
        after = [stop for start, stop in rows if start >= gone + AGAIN]
        self.assertTrue(late and late[0] - gone <= AGAIN and after and all(after), (gone, rows))
        self.assertTrue(daemon.runs(), daemon.how())
        self.measured += f"workers {workers}, {kind}: at most {most:.2f} s; open, closed, waiting {counts}; again after {late[0] - gone:.1f} s; "

    def test_attacks(self):
        for workers in "1", "4":
            for kind in "silent", "drips", "again", "both":
                with self.subTest(workers=workers, kind=kind):
                    self.attacked(workers, kind)
