"""The lines that an operator reads of a daemon that runs: their text, on standard error, each kind at most once in ten seconds with the
number of times since the line before."""
import contextlib, os, random, resource, shutil, time, unittest

from case import FAR, Case, OwnNetwork
from daemon import CANNOT_ACCEPT
from recorded import content
from records import local_part, transcript
from shim import FOR_EVER
from system import eventually
from wire import (DUMP, KILL, NAMES, NOT_FOUND, TAKEN, TAKEN_SHORT, alive, ask, dial, ending_of, found, framed, listed, port_please, rest,
                  stop)

QUIET = 10  # Seconds between two lines of a kind, at least.
RELAXED = "-relaxed_command_check"
IN_USE = "epmd: name one is in use"


class NoticeCase(Case):
    def refused(self, daemon, *names):
        """Asks for names that are in use."""
        for name in names:
            self.assertEqual(ask(daemon.port, alive(name)), TAKEN)


class NamesInUse(NoticeCase):
    def test_the_line_comes_again_after_ten_seconds(self):
        daemon = self.daemon(RELAXED)
        self.hold(daemon, b"one", b"two")
        began = time.monotonic()
        self.refused(daemon, b"one")
        self.prints(daemon, IN_USE)
        self.refused(daemon, b"two", b"one", b"two", b"one")
        self.prints(daemon, IN_USE, "epmd: name two is in use, and 3 more")
        # The first line came later than `began`, and the second one ten seconds after it.
        self.assertGreater(time.monotonic() - began, QUIET - 0.1)
        self.ends(daemon, 0, " / ".join(daemon.lines()))

    def test_the_name_in_the_line(self):
        for name, shown, taken, *request in (
                (b"one", "name one", TAKEN), ("caf\u00e9".encode(), "name caf\u00e9", TAKEN), (b"\xff\xfe", r"name \xff\xfe", TAKEN),
                ("\u200b".encode(), r"name \u200b", TAKEN), (b"name one is in use", "name name one is in use", TAKEN),
                ("turn\u202eback \u00e9".encode() + b"\xff", "name turn\\u202eback \u00e9\\xff", TAKEN),
                (b"one", "name one", TAKEN_SHORT, alive(b"one", highest=5)), (b"one", "a name", TAKEN, alive(b"one")[:5], alive(b"one")[5:])):
            with self.subTest(shown=shown, taken=taken):
                daemon = self.daemon(RELAXED)
                self.hold(daemon, name)
                for other, reply in (port_please(b"none"), NOT_FOUND), (framed(b"q"), b""), (stop(b"none"), b"NOEXIST"):
                    self.assertEqual(ask(daemon.port, other), reply)  # These print no line.
                with dial(daemon.port) as s:
                    for part in request or [alive(name)]:
                        s.sendall(part)
                        time.sleep(0.2)
                    self.assertEqual(rest(s), taken)
                line = f"epmd: {shown} is in use"
                self.prints(daemon, line)
                self.ends(daemon, 0, line)


class StandardError(NoticeCase):
    """Standard error is full, closed or without a reader: the daemon serves."""

    def piped(self, *words):
        """A daemon with a name that is in use, whose line waits; and the other end of the pipe."""
        reader, writer = os.pipe()
        self.addCleanup(os.close, reader)
        self.addCleanup(os.close, writer)
        os.set_blocking(writer, False)
        with contextlib.suppress(BlockingIOError):
            while True:
                os.write(writer, bytes(4096))
        os.set_blocking(writer, True)
        return self.daemon(RELAXED, *words, before=lambda: os.dup2(writer, 2)), reader

    def read(self, reader, word):
        """All bytes up to the end of a line with this word."""
        got = b""
        while word not in got or not got.endswith(b"\n"):
            got += os.read(reader, 65536)
        return got

    def test_a_full_pipe_delays_neither_the_log_nor_the_end(self):
        daemon, _ = self.piped()
        self.hold(daemon, b"one")
        self.refused(daemon, b"one")
        time.sleep(2)
        self.log_is_drained(daemon)

    def test_lines_come_once_it_is_read(self):
        daemon, reader = self.piped()
        self.hold(daemon, b"one")
        self.refused(daemon, b"one")
        self.assertEqual(self.read(reader, b"epmd").lstrip(b"\0"), IN_USE.encode() + b"\n")

    def test_lines_without_room_are_counted(self):
        name, file = b"\x80" * 1020, self.path("/".join(["none", *["x" * 250] * 14]))
        daemon, reader = self.piped("-record", file)
        self.hold(daemon, name)
        until = time.monotonic() + 4 * QUIET  # A line each ten seconds, and there is room for two.
        while time.monotonic() < until:
            self.refused(daemon, name)
            time.sleep(0.5)
        self.assertRegex(self.read(reader, b" lost, "), rb"\nepmd: [1-9]\d* more lines are lost, since standard error was not read\n")

    def serves(self, prepare):
        daemon = self.daemon(RELAXED, "-record", self.path("none/session"), before=prepare)
        self.hold(daemon, b"one")
        self.refused(daemon, b"one")
        began = time.monotonic()
        while time.monotonic() < began + 2.5:  # Its lines are due within a second.
            self.assertEqual(ask(daemon.port, port_please(b"one")), found(b"one"))
            time.sleep(0.05)
        self.hold(daemon, b"two")
        self.assertEqual(ask(daemon.port, NAMES), listed(daemon.port, b"one", b"two"))
        self.ends(daemon, 3)

    def test_a_pipe_without_a_reader(self):
        reader, writer = os.pipe()
        os.close(reader)
        self.addCleanup(os.close, writer)
        self.serves(lambda: os.dup2(writer, 2))

    def test_a_full_device(self):
        self.serves(lambda: os.dup2(os.open("/dev/full", os.O_WRONLY), 2))

    def test_it_is_closed(self):
        self.serves(lambda: os.close(2))


class PeersOfOtherHosts(OwnNetwork):
    def refused(self, daemon, *requests):
        for request in requests:
            self.assertEqual(ending_of(daemon.port, request, *FAR), b"")

    def test_each_request(self):
        for request, what in (alive(b"far"), "a registration"), (DUMP, "a DUMP"), (KILL, "a KILL"), (stop(b"near"), "a STOP"):
            for words in (), (RELAXED,):
                with self.subTest(what=what, words=words):
                    daemon = self.daemon(*words, address=None)
                    self.refused(daemon, request)
                    line = f"epmd: {what} from another host was refused"
                    self.prints(daemon, line)
                    self.ends(daemon, 0, line)

    def test_the_line_comes_again_after_ten_seconds(self):
        daemon = self.daemon(RELAXED, address=None)
        self.hold(daemon, b"near")
        self.assertEqual(ask(daemon.port, port_please(b"near"), *FAR), found(b"near"))
        self.assertEqual(ask(daemon.port, NAMES, *FAR), listed(daemon.port, b"near"))
        self.refused(daemon, framed(b"q"))
        began = time.monotonic()
        self.refused(daemon, stop(b"near"))
        first = "epmd: a STOP from another host was refused"
        self.prints(daemon, first)
        self.refused(daemon, DUMP, alive(b"near"), KILL)
        self.prints(daemon, first, "epmd: a DUMP from another host was refused, and 2 more")
        self.assertGreater(time.monotonic() - began, QUIET - 0.1)
        self.assertEqual(ask(daemon.port, port_please(b"near"), *FAR), found(b"near"))
        self.ends(daemon, 0, " / ".join(daemon.lines()))

    def test_the_local_part_of_a_recording(self):
        file = self.path("session")
        daemon = self.daemon(RELAXED, "-record", file, address=None)
        self.hold(daemon, b"near")
        for request, reply in ((port_please(b"near"), found(b"near")), (NAMES, listed(daemon.port, b"near")), (port_please(b"none"), NOT_FOUND),
                               *((request, b"") for request in (DUMP, KILL, alive(b"far"), stop(b"near"), framed(b"q"), b"\0\0", b"\xff\xff"))):
            self.assertEqual(ending_of(daemon.port, request, *FAR), reply)
            with dial(daemon.port, *FAR) as s:
                s.sendall(request[:-1])
            self.assertEqual(ask(daemon.port, port_please(b"far")), NOT_FOUND)
        self.assertEqual(ask(daemon.port, KILL), b"OK")
        self.assertEqual(daemon.process.wait(60), 0)
        record = content(file)
        self.assertEqual(transcript(record).count(b" remote\n"), 20)
        self.assertEqual(self.run_epmd("-play", file), (0, transcript(record), b""))
        self.assertEqual(self.run_epmd("-local", file), (0, local_part(record), b""))


class OutOfMemoryOrDescriptors(Case):
    @unittest.skipUnless(shutil.which("gcc"), "no gcc")
    def test_refused_requests(self):
        """Each request for memory fails for a moment, in which a node comes."""
        faults = self.faults("memory", 1, run=FOR_EVER, on=False)
        daemon = self.daemon(RELAXED, env=faults.env)
        self.hold(daemon, b"one")

        def lines():
            faults.on = 1
            with contextlib.suppress(OSError), dial(daemon.port, seconds=1.0) as s:
                s.sendall(alive(b"two"))
                rest(s)
            time.sleep(0.05)
            faults.on = 0
            time.sleep(1 + random.random())
            return daemon.lines()
        line, = eventually(lines, "the line")
        self.assertRegex(line, r"^epmd: memory is short, [1-9]\d* requests were refused$")
        self.assertEqual(ask(daemon.port, port_please(b"one")), found(b"one"))
        self.registers(daemon, b"three")
        self.ends(daemon, 0, line)

    def test_no_descriptor_is_left(self):
        daemon = self.daemon("-workers", "1")
        self.hold(daemon, b"one")
        used = len(os.listdir(f"/proc/{daemon.pid}/fd"))
        _, most = resource.prlimit(daemon.pid, resource.RLIMIT_NOFILE)
        began = time.monotonic()
        resource.prlimit(daemon.pid, resource.RLIMIT_NOFILE, (used, most))
        with dial(daemon.port) as waits:
            waits.sendall(port_please(b"one"))
            self.prints(daemon, CANNOT_ACCEPT)
            self.prints(daemon, CANNOT_ACCEPT, CANNOT_ACCEPT)
            self.assertGreater(time.monotonic() - began, QUIET - 0.1)
            resource.prlimit(daemon.pid, resource.RLIMIT_NOFILE, (used + 50, most))
            self.assertEqual(rest(waits), found(b"one"))
        self.assertEqual(ask(daemon.port, port_please(b"one")), found(b"one"))
        self.assertLessEqual(len(daemon.lines()), 3)
