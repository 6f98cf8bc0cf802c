"""The daemon as a process: limits of memory, descriptors and threads, signals, the terminal that started it, and closed standard streams."""
import contextlib, itertools, os, pty, re, resource, select, signal, subprocess, time, unittest
from concurrent.futures import ThreadPoolExecutor

from case import EPMD, FAR, NEVER, PATIENCE, TOP, OwnNetwork
from daemon import OUT_OF_MEMORY, ask as ask_leniently, listens
from recorded import RecordCase
from shim import FOR_EVER
from system import connections, eventually, stopped, threads
from wire import (KILL, NAMES, NOT_FOUND, TAKEN, alive, ask, dial, ending, ending_of, found, is_open, is_registered, listed, port_please,
                  register, rest, result)

FEWER = re.compile(r"epmd: at most (\d+) connections, since the limit of descriptors is (\d+)")
NO_PROGRAM = "error while loading shared libraries"


def reply_of(daemon, request):
    """The reply of a daemon that may end: no byte if it does."""
    with contextlib.suppress(ConnectionError):
        return ending_of(daemon.port, request)
    return b""


class Serves(RecordCase):
    def serves(self, daemon):
        with register(daemon.port, b"one"):
            for _ in range(10):
                self.assertEqual(ask(daemon.port, port_please(b"one")), found(b"one"), daemon.how())
                self.assertEqual(ask(daemon.port, NAMES), listed(daemon.port, b"one"), daemon.how())
        self.leaves(daemon, b"one")

    def is_out_of_memory(self, daemon, file=None):
        """The status and the last line of a daemon that ended by itself. Its recording is a run, if there is one."""
        self.assertEqual(daemon.ended(PATIENCE)[0], OUT_OF_MEMORY[0])
        self.assertEqual(daemon.lines()[-1:], [OUT_OF_MEMORY[1]])
        if file and os.path.exists(file) and os.path.getsize(file):
            self.entries(file)

    def serves_or_ends(self, daemon, file=None):
        """Whether each reply is right, or none, and the daemon then runs or is out of memory. The number of requests without a reply."""
        refused = 0
        with contextlib.suppress(ConnectionError), dial(daemon.port) as own:
            with contextlib.suppress(ConnectionError):
                own.sendall(alive(b"one"))
            wholes = {NAMES: listed(daemon.port), port_please(b"one"): NOT_FOUND}
            if result(own) == 0:
                wholes = {NAMES: listed(daemon.port, b"one"), port_please(b"one"): found(b"one")}
            for request, whole in 10 * list(wholes.items()):
                reply = ending_of(daemon.port, request)
                self.assertIn(reply, (whole, b""), daemon.how())
                refused += reply == b""
        if not daemon.runs():
            self.is_out_of_memory(daemon, file)
        return refused


# ---- memory


class Memory(Serves):
    def test_a_limit_from_the_start(self):
        for name in "RLIMIT_AS", "RLIMIT_DATA":
            for mb in 1, 2, 4, 8, 12, 16, 24, 32, 48, 64, 128:
                with self.subTest(name=name, mb=mb):
                    daemon = self.daemon(limits={name: mb << 20})
                    if daemon.ended() and NO_PROGRAM in daemon.text():
                        continue  # The system had no memory for the program.
                    if daemon.ended() == (-signal.SIGSEGV, "") and name == "RLIMIT_AS" and mb < 8:
                        continue  # Nor for what loads it.
                    refused = self.serves_or_ends(daemon)
                    if mb >= 64:
                        self.assertEqual((refused, daemon.ended(), daemon.lines()), (0, None, []))
                    daemon.stop()

    def test_a_limit_that_is_reached(self):
        """Many names with many bytes: the names from before stay, and once the others have left all is well."""
        daemon = self.daemon(*NEVER, "-record", self.file, env={"MALLOC_ARENA_MAX": "1"})
        names = [b"held%d" % number for number in range(20)]
        self.hold(daemon, *names)
        rows = listed(daemon.port, *names)
        daemon.limit("RLIMIT_DATA", daemon.kb("VmData") * 1024)
        flood, refused = [], 0
        for number in range(600):
            try:
                s = dial(daemon.port)
            except ConnectionError:
                break  # It ends.
            with contextlib.suppress(ConnectionResetError, BrokenPipeError):
                s.sendall(alive(b"flood%d" % number, extra=bytes(8000)))
            answer = result(s)
            self.assertIn(answer, (0, None))
            refused += answer is None
            flood.append(s)
            if not daemon.runs():
                break
        if daemon.listens():
            self.assertGreater(refused, 0)
            for name in names:  # It is found, or the request is refused by a close.
                self.assertIn(reply_of(daemon, port_please(name)), (found(name), b""))
            for s in flood:
                s.close()
        self.is_well_again(daemon, rows)

    def is_well_again(self, daemon, rows):
        """Once there is memory again a daemon serves beside its names, or it has ended."""
        eventually(lambda: not daemon.runs() or reply_of(daemon, NAMES) == rows, "the list of the names")
        if not daemon.runs():
            return self.is_out_of_memory(daemon, self.file)
        eventually(daemon.lines, "a line")
        for line in daemon.lines():
            self.assertRegex(line, r"^epmd: (memory is short, [1-9]\d* requests were refused|cannot accept connections|recording .+)$")
        self.registers(daemon, b"one")
        self.assertEqual(ask(daemon.port, NAMES), rows + b"name one at port 5000\n")
        return None

    def test_a_request_that_is_read_without_memory_for_its_reply(self):
        """A worker that once had more connections has room for one without memory: it reads the request, and can't answer it."""
        faults = self.faults("memory", 1, run=FOR_EVER, on=False)
        daemon = self.daemon(*NEVER, "-workers", "1", "-record", self.file, env=faults.env)
        with contextlib.ExitStack() as once:
            for number in range(8):
                once.enter_context(register(daemon.port, b"name%d" % number))
        self.leaves(daemon, b"name7")
        time.sleep(2)  # The log is drained once a second.
        faults.on = 1
        until = time.monotonic() + PATIENCE
        while daemon.runs() and time.monotonic() < until:
            self.assertEqual(reply_of(daemon, port_please(b"one")), b"")
        self.is_out_of_memory(daemon, self.file)

    def test_memory_exhausted_for_seconds(self):
        faults = self.faults("memory", 1, run=FOR_EVER, on=False)
        daemon = self.daemon(*NEVER, "-record", self.file, env=faults.env)
        self.hold(daemon, b"held")
        faults.on = 1
        began = time.monotonic()
        answers = [(b"", began)]

        def asks(_):
            while daemon.runs() and time.monotonic() < min(began + PATIENCE, answers[-1][1] + PATIENCE / 2):
                if answer := reply_of(daemon, port_please(b"held")):
                    answers.append((answer, time.monotonic()))

        # It ends after five seconds in a row in each of which a request had no reply, so eight threads ask without pause.
        with ThreadPoolExecutor(8) as askers:
            list(askers.map(asks, range(8)))
        self.assertLessEqual({answer for answer, _ in answers}, {b"", found(b"held")})
        self.assertTrue(not daemon.runs() or answers[-1][1] + PATIENCE / 2 > time.monotonic(), daemon.how())
        faults.on = 0
        self.assertGreater(faults.refused, 0)
        self.is_well_again(daemon, listed(daemon.port, b"held"))


class LastEntries(Serves):
    """No memory from some moment of the end on. What was answered is recorded, or the status and a line say that entries are missing."""

    def test_the_end_of_a_recording(self):
        for nth in range(1, 200):
            with self.subTest(nth=nth):
                file = self.path(f"session{nth}")
                faults = self.faults("memory", nth, run=FOR_EVER, on=False)
                daemon = self.daemon("-workers", "1", "-record", file, env=faults.env)
                self.serves(daemon)
                # A thread of its own makes the file, perhaps after the first replies.
                eventually(lambda: os.path.exists(file) and os.path.getsize(file), "the recording")
                faults.on = 1
                answer = reply_of(daemon, KILL)
                if answer != b"OK":  # It was refused, so it is asked again.
                    self.assertEqual(answer, b"")
                    faults.on = 0
                    eventually(lambda: not daemon.runs() or reply_of(daemon, KILL) == b"OK", "the end")
                status, text = daemon.ended(PATIENCE)
                if status == 0:
                    _, played, _ = self.run_epmd("-play", file)
                    self.assertRegex(played, rb"(?s) get 00016b say 4f4b \w+\n(\d+ closed? \d+\n)*run of \d+ entries\n$", text)
                else:
                    self.assertEqual(status, 3)
                    self.assertRegex(text, "^epmd: (recording failed: .+|out of memory)$")
                    self.entries(file)
                if not faults.refused:
                    return
        self.fail("memory was refused at each of 199 places")


# ---- descriptors


class Places(Serves):
    FILES = 4096

    def places(self, limit, *words, **how):
        """A daemon with that many descriptors, and its places by the one line that it prints."""
        daemon = self.daemon(*NEVER, *words, limits={"RLIMIT_NOFILE": limit}, **how)
        line, = eventually(daemon.lines, "a line")
        self.prints(daemon, line)
        places, named = map(int, FEWER.fullmatch(line).groups())
        self.assertEqual(named, limit)
        self.assertTrue(limit // 2 < places < limit, places)
        return daemon, places


class Descriptors(Places):
    def test_the_number_of_its_places(self):
        """That many nodes register, and no more."""
        for limit, *words in (64,), (64, "-workers", "1"), (100, "-workers", "2"), (256, "-workers", "16"), (1024,), (64, "-record", self.file):
            with self.subTest(limit=limit, words=words):
                daemon, places = self.places(limit, *words)
                names = [b"node%d" % number for number in range(places)]
                held = self.hold(daemon, *names)
                for request in NAMES, alive(b"more"):
                    self.assertEqual(ending_of(daemon.port, request), b"")
                held.pop().close()
                eventually(lambda: ending_of(daemon.port, NAMES) == listed(daemon.port, *names[:-1]))
                self.prints(daemon, *daemon.lines()[:1])
        self.has(38)

    def test_the_line_without_a_thread_for_lines(self):
        faults = self.faults("pthread_create", 1, "EAGAIN")
        daemon = self.daemon(limits={"RLIMIT_NOFILE": 256}, env=faults.env)
        line, = eventually(daemon.lines)
        self.assertRegex(line, FEWER)

    def test_a_limit_that_is_high_enough(self):
        for limit in 2000, 4096:
            daemon = self.daemon(limits={"RLIMIT_NOFILE": limit})
            self.serves(daemon)
            self.ends(daemon)

    def prompt(self, daemon, request):
        """A connection that has sent this request at once. One that is silent for a second, as on a busy machine, may be evicted."""
        while True:
            began = time.monotonic()
            s = self.enterContext(dial(daemon.port))
            s.sendall(request)
            if time.monotonic() - began < 0.5:
                return s
            s.close()

    def test_a_limit_that_is_lowered(self):
        """If descriptors run out before places, the oldest silent peers are evicted as if no place were free."""
        daemon = self.daemon(*NEVER)
        hard = resource.prlimit(daemon.pid, resource.RLIMIT_NOFILE)[1]
        resource.prlimit(daemon.pid, resource.RLIMIT_NOFILE, (len(os.listdir(f"/proc/{daemon.pid}/fd")) + 20, hard))
        for _ in range(60):
            self.enterContext(dial(daemon.port))
        for number in range(5):
            name = b"node%d" % number
            self.assertEqual(result(self.prompt(daemon, alive(name))), 0)
            self.assertEqual(rest(self.prompt(daemon, port_please(name))), found(name))

    def test_too_few_to_begin(self):
        for limit in range(3, 30, 3):
            with self.subTest(limit=limit):
                daemon = self.daemon(limits={"RLIMIT_NOFILE": limit})
                line = eventually(daemon.lines, "a line")[0]  # It may listen already, and end yet.
                if not FEWER.fullmatch(line) and NO_PROGRAM not in line:
                    self.assertIn(daemon.ended(PATIENCE), (
                        (3, "epmd: polling failed"), *((1, f"epmd: cannot listen on {a}:{daemon.port}: Too many open files")
                                                       for a in ("127.0.0.1", "[::1]"))))


class DescriptorsOfOtherHosts(Places, OwnNetwork):
    """Peers of this host keep their share of few places."""

    def test_local_peers_keep_their_share(self):
        daemon, places = self.places(64, address=None)
        for _ in range(places + 20):
            self.enterContext(dial(daemon.port, *FAR))
        names = [b"near%d" % number for number in range(places)]
        self.hold(daemon, *names[:places // 8])
        time.sleep(1.2)  # By now any peer of this host displaces those of another host.
        self.hold(daemon, *names[places // 8:])
        self.assertEqual(connections(daemon.pid), places)
        self.assertEqual(len(daemon.lines()), 1)


# ---- watches


class Watches(Serves):
    def test_a_connection_that_the_poll_refuses_to_watch(self):
        """It ends. A registration is watched first, so it has no reply. Other requests that are there at once have theirs, and earlier
        connections are served."""
        faults = self.faults("epoll_ctl", 1, "ENOSPC", FOR_EVER, on=False)
        daemon = self.daemon(*NEVER, "-workers", "1", env=faults.env)
        own, = self.hold(daemon, b"own")
        self.assertEqual(ask(daemon.port, NAMES), listed(daemon.port, b"own"))  # The only worker has watched the node by now.
        with stopped(daemon.pid):
            faults.on = 1
            node, asking, part = (self.enterContext(dial(daemon.port)) for _ in range(3))
            for s, request in (node, alive(b"two")), (asking, port_please(b"own")), (part, NAMES[:1]):
                s.sendall(request)
        self.assertEqual(ending(node), (b"", "end"))
        self.assertEqual(ending(asking), (found(b"own"), "end"))
        self.assertEqual(ending(part), (b"", "end"))
        faults.on = 0
        self.assertGreaterEqual(faults.refused, 2)
        self.assertEqual(ask(daemon.port, NAMES), listed(daemon.port, b"own"))
        self.assertTrue(is_open(own))
        self.registers(daemon, b"two")


# ---- threads


class Threads(Serves):
    WORKERS, MANY = (1, 4), 100  # A number of look-ups, after which the log is drained.
    MEMORY_MOST = 6 * 1024  # KB.

    def test_the_threads_before_the_first_that_cannot_be_started_serve(self):
        for workers in self.WORKERS:
            for nth, run in itertools.product(range(1, workers + 3), (1, FOR_EVER)):
                with self.subTest(workers=workers, nth=nth, run=run):
                    faults = self.faults("pthread_create", nth, "EAGAIN", run)
                    daemon = self.daemon("-workers", str(workers), env=faults.env)
                    # The first thread writes lines, and without it the main thread does. A worker is needed.
                    if nth == 2 or (nth, run) == (1, FOR_EVER):
                        self.assertEqual(daemon.ended(PATIENCE), OUT_OF_MEMORY)
                        continue
                    self.serves(daemon)
                    wanted = workers + 1 if nth == 1 else nth
                    eventually(lambda: threads(daemon.pid) == wanted)
                    self.assertEqual(self.asked(daemon, self.MANY, b"zone"), [self.MANY, 0, 0])
                    self.assertLess(daemon.kb("VmRSS"), self.MEMORY_MOST)
                    self.assertEqual(daemon.lines(), [])
                    daemon.stop()

    def test_the_thread_of_a_recording_cannot_be_started(self):
        faults = self.faults("pthread_create", 2, "EAGAIN")
        daemon = self.daemon("-record", self.file, env=faults.env)
        self.serves(daemon)
        self.ends_at_once(daemon, 3, f"epmd: recording failed: {self.file}: Resource temporarily unavailable")

    @unittest.skipUnless(os.getuid() == 0, "only root can be another user, who has no process")
    def test_a_limit_of_processes(self):
        # Numbers from 60,000 to 64,999 are nobody's on Debian. Two tests at a time have two of them.
        user = 60_000 + os.getpid() % 5_000
        for workers, most in itertools.product(self.WORKERS, range(1, 8)):
            with self.subTest(workers=workers, most=most):
                try:
                    daemon = self.daemon("-workers", str(workers), limits={"RLIMIT_NPROC": most}, before=lambda: os.setuid(user))
                except (PermissionError, subprocess.SubprocessError) as error:
                    self.skipTest(f"another user can't call the program: {error}")
                self.assertTrue(self.serves_or_ends(daemon) == 0 or not daemon.runs(), daemon.how())
                daemon.stop()

    def test_workers(self):
        for workers in 1, 2, 64:
            with self.subTest(workers=workers):
                daemon = self.daemon("-workers", str(workers))
                self.serves(daemon)
                eventually(lambda: threads(daemon.pid) == 2 + workers)


# ---- signals


class Signals(Serves):
    def test_it_ends_at_once_by_a_signal(self):
        for number in signal.SIGTERM, signal.SIGINT, signal.SIGHUP:
            with self.subTest(number=number):
                self.file = self.path(f"session{number}")
                daemon = self.daemon("-d", "-record", self.file, before=lambda: signal.signal(number, signal.SIG_DFL))
                with register(daemon.port, b"one") as own:
                    self.has(38)
                    daemon.process.send_signal(number)
                    self.assertEqual(daemon.ended(PATIENCE), (-number, ""))  # In a shell it is 128 and the number.
                    self.assertEqual(ending(own)[0], b"")
                self.assertGreaterEqual(self.entries(), 1)
                self.serves(self.daemon(port=daemon.port))

    def test_it_ends_at_once_by_a_request(self):
        """Without a request it checks at least each ten seconds whether it is to end: it does not wait for that."""
        for workers in "1", "4", "64":
            with self.subTest(workers=workers):
                daemon = self.daemon("-workers", workers)
                self.serves(daemon)
                began = time.monotonic()
                self.ends(daemon)
                self.assertLess(time.monotonic() - began, 8.0)


# ---- the terminal


class Terminal(Serves):
    def test_a_daemon_outlives_its_terminal(self):
        port = self.free_port()
        words = [os.path.join(TOP, "contrib", "epmd"), "-daemon", "-port", str(port), "-address", "127.0.0.1"]
        child, terminal = pty.fork()
        if child == 0:
            os.environ["EPMD"] = EPMD
            os.execv(words[0], words)
        self.addCleanup(ask_leniently, port, b"k")  # A failed test leaves it.
        text = b""
        with contextlib.suppress(OSError):  # The end of a terminal is an error.
            while select.select([terminal], [], [], PATIENCE)[0] and (piece := os.read(terminal, 4096)):
                text += piece
        _, status = os.waitpid(child, 0)
        self.assertEqual((os.waitstatus_to_exitcode(status), text), (0, b""))
        self.assertEqual(ask(port, NAMES), listed(port))  # It is up once the wrapper has ended.
        with register(port, b"one"):
            os.close(terminal)
            time.sleep(0.5)
            self.assertEqual(ask(port, NAMES), listed(port, b"one"))
        eventually(lambda: not is_registered(port, b"one"))
        self.assertEqual(ask(port, KILL), b"OK")
        eventually(lambda: not listens(port))


# ---- standard streams


class Closed(Serves):
    """No socket and no file gets the number of a standard stream that is closed."""

    def run_closed(self, *words, closed):
        """The status, and the bytes on standard error if that is open."""
        status, _, err = self.run_epmd(*words, preexec_fn=lambda: [os.close(number) for number in closed])
        return status, err

    def test_a_daemon(self):
        for closed in (0,), (1,), (2,), (0, 1), (1, 2), (0, 2), (0, 1, 2):
            with self.subTest(closed=closed):
                daemon = self.daemon(before=lambda: [os.close(number) for number in closed])
                self.serves(daemon)
                for number in closed:
                    self.assertEqual(os.readlink(f"/proc/{daemon.pid}/fd/{number}"), "/dev/null")
                self.ends(daemon)

    def test_lines_of_a_daemon_harm_no_peer(self):
        """With standard error closed its lines come to no connection and to no file."""
        daemon = self.daemon("-record", self.file, before=lambda: [os.close(number) for number in range(3)])
        with register(daemon.port, b"one") as own:
            self.assertEqual(ask(daemon.port, alive(b"one")), TAKEN)
            time.sleep(2.5)
            self.assertTrue(is_open(own))
            own.setblocking(False)
            self.assertRaises(BlockingIOError, own.recv, 1)
        self.leaves(daemon, b"one")
        self.ends(daemon)
        self.entries()

    def test_commands(self):
        failed = 3, b"epmd: input or output failed\n"
        daemon = self.daemon()
        port = "-port", str(daemon.port)
        for words, closed, wanted in (
                ([*port, "-names"], [1], failed), ([*port, "-dump"], [1], failed), ([*port, "-names"], [0], (0, b"")),
                (["-once"], [0], failed), (["-once"], [0, 1], failed), ([*port, "-foo"], [2], (2, b"")),
                ([*port, "-address", "127.0.0.1"], [2], (1, b"")), ([*port, "-kill"], [1], failed)):
            with self.subTest(words=words, closed=closed):
                self.assertEqual(self.run_closed(*words, closed=closed), wanted)
        self.assertEqual(daemon.ended(PATIENCE), (0, ""))
