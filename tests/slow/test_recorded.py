"""Recordings of full files, of a million entries, and over files that stall or are full, under load."""
import os, resource, signal, subprocess, time

import daemon as lenient
from case import EPMD, beside
from daemon import SILENCE, hold, preload
from load import look_ups
from nodes import Nodes
from recorded import LONG, RecordCase, content, write
from records import Session, beginning, local_part, transcript, workers_of
from system import eventually
from wire import KILL, ask

PING = """
[begin io:get_line(""), io:format("~p~n", [net_adm:ping('{0}')]), erlang:disconnect_node('{0}') end || _ <- [1, 2]],
"""


class Follows(RecordCase):
    def follow(self, count, may_be_cut):
        """Each file is a run, and begins at the position at which the one before it ended, with the names of that."""
        position = 0
        for number in range(count):
            with open(self.part(number), "rb") as file:
                head = file.read(37)
            first, active, _, _ = beginning(head)
            self.assertEqual((head[4], first, active == 0), (2, position, number == 0))
            if number < count - 1 or not may_be_cut:
                position += self.entries(self.part(number))
        status, out, err = self.run_epmd("-audit", self.file)
        self.assertEqual(status, 0, err)
        self.assertRegex(out, rb"^run of \d+ entries in %d files\n$" % count)
        self.assertIn(err, (b"", b"epmd: %s is cut in an entry\n" % self.part(count - 1).encode() if may_be_cut else b""))


class FullFiles(Follows):
    def audited(self, count):
        """The status and the text of -audit, its seconds, and its most memory in MB."""
        before = time.monotonic()
        process = subprocess.Popen([EPMD, "-audit", self.file], stdout=subprocess.PIPE, stderr=subprocess.STDOUT, text=True)
        text = process.stdout.read()
        _, status, usage = os.wait4(process.pid, 0)
        self.assertEqual((os.waitstatus_to_exitcode(status), f" in {count} files\n" in text), (0, True), text)
        self.measured += f"{text.strip()} in {time.monotonic() - before:.1f} s and {usage.ru_maxrss / 1024:.0f} MB; "

    def changes(self, number):
        """One byte in the start of a file, among its entries and at its end: the change is seen, or -check does not see it either."""
        path = self.part(number)
        size = os.path.getsize(path)
        for at in 44, size // 2, size - 1:
            with open(path, "r+b") as file:
                file.seek(at)
                byte = file.read(1)
                for other in bytes([byte[0] ^ 1]), byte:
                    file.seek(at)
                    file.write(other)
                    file.flush()
                    if other != byte and self.run_epmd("-audit", self.file)[0] == 0:
                        self.assertEqual(self.run_epmd("-check", path)[0], 0, (number, at))

    def test_ten_files_of_a_daemon_that_is_killed(self):
        daemon = self.daemon("-workers", "4", "-relaxed_command_check", "-record", self.file)
        self.hold(daemon, *LONG)

        def load(number, over):
            count = 0
            while not over.is_set() and daemon.runs():  # So slowly that a disk can follow.
                lenient.ask(daemon.port, b"n", 10)
                held = lenient.register(daemon.port, b"guest-%d-%d" % (number, count))
                lenient.look_up(daemon.port, LONG[count % len(LONG)])
                if held:
                    held.close()
                count += 1
                time.sleep(0.15)
        with beside(load, 4):
            until = time.monotonic() + 1200
            while time.monotonic() < until and not os.path.exists(self.part(9)) and not daemon.lines():
                time.sleep(0.2)
            time.sleep(1.5)
            daemon.process.kill()
            self.assertEqual(daemon.ended(10), (-signal.SIGKILL, ""))
        self.follow(10, True)
        self.audited(10)
        for number in range(10):
            self.changes(number)
        aside, middle, last = self.path("aside"), self.part(5), self.part(9)
        wrong = "{}.%d does not go on where the file before it ends: another place\n"
        os.rename(middle, aside)
        self.says("-audit", 1, "", wrong % 6)
        os.rename(last, middle)
        os.rename(aside, last)
        self.says("-audit", 1, "", wrong % 5)
        os.rename(last, aside)
        os.rename(middle, last)
        os.rename(aside, middle)
        os.remove(self.file)
        self.assertIn(f"the files before {self.part(1)} are gone".encode(), self.run_epmd("-audit", self.file)[2])
        self.audited(9)


class FullFilesOfNodes(Nodes, Follows):
    """Nodes ping each other before and after the second file is there."""

    def test_ended_by_a_request(self):
        daemon = self.daemon("-relaxed_command_check", "-record", self.file)
        names = "one", "two"
        one, two = (self.node(daemon, name, PING.format(f"{other}@{self.address}")) for name, other in zip(names, names[::-1]))
        eventually(lambda: sorted(self.names(daemon)) == [b"one", b"two"])

        def ping():
            one.stdin.write("\n")
            one.stdin.flush()
            self.assertEqual(one.stdout.readline(), "pong\n")
        ping()
        self.hold(daemon, *LONG)
        self.grow(daemon)
        ping()
        for node in one, two:
            node.communicate("\n\n\n\n", timeout=10)
        self.ends(daemon)
        with open(self.file, "rb") as file:
            self.measured = f"workers {sorted(workers_of(file.read()))}"
        self.follow(2, False)


class Million(RecordCase):
    def test_a_million_entries(self):
        """-local takes at most half as long again as -check, by the least processor time of five runs each."""
        record, least = Session(0, lists=False).made(1_000_000), {}
        write(self.file, record)
        for word in 5 * ("-check", "-local"):
            before = sum(resource.getrusage(resource.RUSAGE_CHILDREN)[:2])
            with open(self.path(word), "wb") as out:
                subprocess.run([EPMD, word, self.file], stdout=out, check=True)
            took = sum(resource.getrusage(resource.RUSAGE_CHILDREN)[:2]) - before
            least[word] = min(least.get(word, took), took)
        left = content(self.path("-local"))
        self.assertEqual(content(self.path("-check")), b"run of 1000000 entries\n")
        self.assertTrue(left == local_part(record))
        played = self.run_epmd("-play", self.path("-local"))
        self.assertTrue(played == (0, transcript(left), b"") and b"remote" not in played[1])
        self.measured = f"{len(record)} bytes: -check {least['-check']:.2f} s, -local {least['-local']:.2f} s"
        self.assertLessEqual(least["-local"], 1.5 * least["-check"])


class Stalls(RecordCase):
    """A file that stalls, is full or has reached a limit: look-ups, memory and the end. The lists have 27 KB each, so that 70 MB are to be
    recorded."""

    MEMORY_MOST = 48 * 1024  # KB: 16 MB may wait for the file, and a copy of it be in the making.

    def case(self, what, file, fails=True, **how):
        """Look-ups while this is recorded, and a KILL once the names have left."""
        with self.subTest(what):
            daemon = self.daemon("-record", file, **how)
            held, _ = hold(daemon.port, [b"%0250d" % i for i in range(100)], bear=2)
            names = list(held)[:1] * 100
            served = look_ups(daemon.port, names)[0], self.asked(daemon, 20_000, b"z" + names[0])[0], self.asked(daemon, 2600, b"n")[0]
            rss = daemon.kb("VmRSS")
            time.sleep(3)
            self.assertEqual((*served, look_ups(daemon.port, names)[0]), (100, 20_000, 2600, 100))
            self.assertLess(rss, self.MEMORY_MOST)
            for s in held.values():
                s.close()
            time.sleep(0.5)
            self.assertEqual(ask(daemon.port, KILL), b"OK")
            began = time.monotonic()
            eventually(lambda: not daemon.listens())
            self.measured += f"{what}: {rss} KB, port gone after {time.monotonic() - began:.1f} s; "
            ended = daemon.ended(SILENCE)
            if not fails:
                self.assertEqual(ended, (0, ""))
            elif ended:
                self.assertEqual((ended[0], ended[1].startswith("epmd: recording failed: ")), (3, True), ended)
            if os.path.isfile(file) and os.path.getsize(file):
                self.entries(file)
            daemon.stop()

    def read_for(self, path, seconds, over):
        """Opens a FIFO, reads for that many seconds, and keeps it open."""
        with open(os.open(path, os.O_RDONLY | os.O_NONBLOCK), "rb", buffering=0) as fifo:
            until = time.monotonic() + seconds
            while time.monotonic() < until:
                fifo.read(65536)
                time.sleep(0.01)
            over.wait()

    def test_each(self):
        self.case("a file", self.path("file"), False)
        for name in "nobody", "stops":
            os.mkfifo(self.path(name))
        self.case("a FIFO without a reader", self.path("nobody"))
        with beside(lambda _, over: self.read_for(self.path("stops"), 1.5, over), 1):
            self.case("a FIFO whose reader stops", self.path("stops"))
        for seconds, after in ("0", "0"), ("0", "3"), ("20", "3"):
            file = self.path(f"stalls{seconds}-{after}")
            env = {"LD_PRELOAD": preload("stall"), "STALL_PATH": file, "STALL_AFTER": after, "STALL_SECONDS": seconds}
            self.case(f"writes wait {seconds} s, 0 for ever, after the first {after}", file, env=env)
        self.case("a full device", "/dev/full")
        self.case("a limit of file sizes", self.path("ignored"), limits={"RLIMIT_FSIZE": 300_000},
                  before=lambda: signal.signal(signal.SIGXFSZ, signal.SIG_IGN))
        os.mkdir(self.path("small"))
        if subprocess.run(["mount", "-t", "tmpfs", "-o", "size=256k", "tmpfs", self.path("small")]).returncode:
            self.skipTest("no small disk can be mounted")
        self.addCleanup(subprocess.run, ["umount", "-l", self.path("small")])
        self.case("a full disk of 256 KB", self.path("small/file"))
