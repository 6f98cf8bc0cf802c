"""What `-record` leaves: runs of the port mapper, which `-check`, `-play` and `-local` read, and a recording whose file cannot be made,
fails, is full or stalls."""
import contextlib, ctypes, os, random, shutil, signal, stat, struct, subprocess, threading, time, unittest
from concurrent.futures import ThreadPoolExecutor

from case import beside
from recorded import FILE_FULL, LONG, RecordCase, content, write
from records import Mapper, Session, beginning, entries_of, header_of, local_part, transcript, workers_of
from system import PATIENCE, eventually, listener
from wire import (DUMP, KILL, NAMES, NOT_FOUND, alive, ask, dial, exactly, framed, found, is_open, is_registered, listed, port_please,
                  register, rest, stop)

DEVICE = "epmd: input or output failed\n"
BAD = "epmd: bad record\nepmd: in {}\n"
FAILED, AGAIN = "epmd: recording failed: ", "epmd: recording again: "
FILE_MOST = 268_435_456
UNREAD_MOST = 32 << 20  # Bytes of a connection: more than the system holds unread.
END = (1 << 64) - 1  # In FILE.times, the position in the row of an end in order.
WORDS = "-check", "-play", "-local"

# The record of 109 bytes and that of 85 bytes of docs/FORMATS.md.
SESSION = bytes.fromhex(
    "45 50 4D 53 01 00 11 11 00 00 00 02 00 00 00 02"
    "01 01 00 00 00 00 00 00 00 00"
    "02 00 00 00 00 00 00 00 00 00 10 00 0E 78 13 88 4D 00 00 06 00 05 00 01 61 00 00 00 00 00 00 06 76 00 00 00 00 04"
    "01 01 00 00 00 00 00 00 00 01"
    "02 00 00 00 00 00 00 00 01 00 04 00 02 7A 61 01 00 00 00 0F 77 00 13 88 4D 00 00 06 00 05 00 01 61 00 00"
)
MIDDLE = bytes.fromhex(
    "45 50 4D 53 02 00 11 11 00 00 00 02 00 00 00 02"
    "00 00 00 00 00 00 00 02 00 00 00 00 01 00 00 00 00 00 00 00 01"
    "13 88 4D 00 00 06 00 05 00 01 61 00 00 00 00 00 04 00 00 00 00 00 00 00 00"
    "00 00 00 00 00 00 00 00 01 01"
    "00 00 00 02 03 00 00 00 00 00 00 00 00"
)
SESSION_LINES = (b"0 connect 0 local\n1 piece 0 get 000e7813884d00000600050001610000 say 760000000004 stay\n2 connect 1 local\n"
                 b"3 piece 1 get 00027a61 say 770013884d00000600050001610000 close\n")
IS_ROOT = os.getuid() == 0


def mode(path):
    return stat.S_IMODE(os.stat(path).st_mode)


class Read(RecordCase):
    """Records that a test writes."""

    def read(self, data, word, status, out, err=""):
        write(self.file, data)
        with self.subTest(word=word, data=data[:200]):
            self.says(word, status, out, err)

    def is_bad(self, data, *words):
        for word in words or WORDS:
            self.read(data, word, 2, "", BAD)

    def test_runs_and_a_session_that_is_no_run(self):
        both, wrong, remote = Mapper(places=2, names=2), SESSION[:-1] + b"\1", Mapper()
        for slot, request in enumerate((alive(b"a"), port_please(b"a"))):
            both.connect(slot)
            both.say(slot, request)
        self.assertEqual(len(both.file), 146)
        other = b"\1\0" + bytes(7) + b"\1" + SESSION[74:] + b"\3" + bytes(7) + b"\1"
        remote.connect(0, local=False)
        remote.begin()
        for data, word, *wanted in (
                (SESSION, "-check", 0, "run of 4 entries\n"), (SESSION, "-play", 0, SESSION_LINES + b"run of 4 entries\n"),
                (SESSION, "-local", 0, SESSION),
                (MIDDLE, "-check", 0, "run of 1 entries\n"), (MIDDLE, "-play", 0, "0 close 0\nrun of 1 entries\n"),
                (MIDDLE, "-local", 0, MIDDLE), (MIDDLE[:72], "-check", 0, "run of 0 entries\n"),
                (wrong, "-check", 1, "broken at entry 3\n"), (wrong, "-local", 1, "", "broken at entry 3\n"),
                (wrong, "-play", 1, SESSION_LINES.replace(b"0000 close", b"0001 close") + b"broken at entry 3\n"),
                # The versions say the same.
                (both.file, "-play", 0, SESSION_LINES + b"run of 4 entries\n"), (both.file, "-local", 0, bytes(both.file)),
                # A remote peer is left out, unless it is there at the start.
                (SESSION[:64] + other + SESSION[64:], "-check", 0, "run of 7 entries\n"),
                (SESSION[:64] + other + SESSION[64:], "-local", 0, SESSION),
                (remote.file, "-check", 0, "run of 0 entries\n"), (remote.file, "-local", 2, "", BAD)):
            self.read(data, word, *wanted)

    def test_each_prefix(self):
        for record, ends in (SESSION, (16, 26, 64, 74, 109)), (MIDDLE, (72, 85)):
            for size in range(len(record)):
                if size in ends:
                    self.read(record[:size], "-check", 0, f"run of {ends.index(size)} entries\n")
                else:
                    self.is_bad(record[:size])

    def test_bad_records(self):
        for at in 53, 70:
            self.is_bad(MIDDLE[:at] + b"\0" + MIDDLE[at + 1:], "-check")
        self.is_bad(b"text")
        for at, other in ((3, b"X"), (4, b"\0"), (4, b"\3"), (5, b"\2"), (11, b"\0"), (8, b"\0\1\0\0"), (15, b"\0"), (16, b"\0"), (16, b"\6"),
                          (17, b"\2")):
            self.is_bad(SESSION[:at] + other + SESSION[at + len(other):])

    def test_files_that_cannot_be_read(self):
        for word in WORDS:
            for path, why in *((path, "No such file or directory") for path in (self.path("none"), "")), (self.folder, "is a directory"):
                self.says(word, 3, "", f"{DEVICE}epmd: {path}: {why}\n", path)

    def test_a_pipe(self):
        for word, out in ("-check", "run of 4 entries\n"), ("-play", SESSION_LINES + b"run of 4 entries\n"), ("-local", SESSION):
            self.says(word, 0, out, "", "/dev/stdin", input=SESSION)
        self.says("-check", 2, "", "epmd: bad record\nepmd: in /dev/stdin\n", "/dev/stdin", input=b"x")

    def test_more_bytes_than_a_session_may_have(self):
        write(self.file, SESSION)
        os.truncate(self.file, FILE_MOST + 1)
        self.says("-check", 3, "", DEVICE + "epmd: in {}\n")

    def is_left(self, record):
        """Whether the commands and the reader of the tests agree about a run."""
        left, out = local_part(record), transcript(record)
        for word, out in ("-check", out[out.rindex(b"run of"):]), ("-play", out), ("-local", left):
            self.read(record, word, 0, out)
        self.read(left, "-play", 0, transcript(left))
        self.assertNotIn(b"remote", transcript(left))

    def test_sessions_by_chance(self):
        self.is_left(Session(0).made(0))
        for seed in range(20):
            self.is_left(Session(seed).made(200 + 100 * seed))
        self.is_left(Session(77, lists=False).made(30_000))


class Recorded(RecordCase):
    """The recording of a daemon."""

    def talk(self, port, *requests):
        """Requests with their replies and fates, one connection after the other; that of a node stays open until the end."""
        said, nodes = [], []
        for request in requests:
            s = dial(port)
            s.sendall(request)
            if request[2:3] == b"x":
                said.append((request, exactly(s, 6), "stay"))
                nodes.append(s)
            else:
                said.append((request, rest(s), "halt" if request == KILL else "close"))
                s.close()
        for node in nodes:
            node.close()
        return said

    def is_played(self, path=None):
        """The recording and its transcript, which is the one of the reader of the tests."""
        record = content(path or self.file)
        self.says("-play", 0, transcript(record), path=path)
        return record, transcript(record)

    def test_requests_and_replies(self):
        for workers in "1", "2", "4":
            with self.subTest(workers=workers):
                file = self.path(f"by{workers}")
                daemon = self.daemon("-workers", workers, "-relaxed_command_check", "-record", file)
                said = self.talk(daemon.port, port_please(b"a"), alive(b"a", extra=b"more"), port_please(b"a"), NAMES, DUMP, stop(b"b"),
                                 alive(b"b") + b"more", stop(b"a"), NAMES, framed(b"q"), KILL)
                self.assertEqual(daemon.ended(PATIENCE), (0, ""))
                record, played = self.is_played(file)
                self.assertEqual(header_of(record), b"EPMS" + struct.pack(">BBHIIQBIII", 2, 1, daemon.port, 1024, 4096, 0, 0, 0, 0, 0))
                self.assertLessEqual(workers_of(record), set(range(1, int(workers) + 1)))
                lines = [line.split() for line in played.decode().splitlines()[:-1]]
                self.assertEqual({line[3] for line in lines if line[1] == "connect"}, {"local"})
                pieces = [(line[4], line[6], line[7]) for line in lines if line[1] == "piece"]
                self.assertEqual(pieces, [(got.hex(), reply.hex() or "-", fate) for got, reply, fate in said])
                self.says("-local", 0, record, path=file)

    def test_bytes_after_a_registration(self):
        """A node that sends many bytes after its reply keeps its name until its end. No byte of these is in the recording."""
        daemon = self.daemon("-record", self.file)
        names = {b"a": 100_000, b"b": UNREAD_MOST}
        for name, count in names.items():
            with register(daemon.port, name) as node:
                node.sendall(b"\xff" * count)
                self.assertEqual(ask(daemon.port, NAMES), listed(daemon.port, name))
                self.assertTrue(is_open(node))
            self.leaves(daemon, name)
        self.ends(daemon)
        self.assertLess(os.path.getsize(self.file), 100_000)
        pieces = {line.split()[4] for line in self.is_played()[1].decode().splitlines() if " piece " in line}
        self.assertEqual(pieces, {request.hex() for request in (NAMES, KILL, *map(alive, names), *map(port_please, names))})

    def test_many_peers_at_once(self):
        daemon = self.daemon("-workers", "2", "-relaxed_command_check", "-record", self.file)

        def peer(number):
            for _ in range(30):
                with register(daemon.port, b"node%d" % number):
                    self.assertTrue(is_registered(daemon.port, b"node%d" % number))
        with ThreadPoolExecutor(6) as pool:
            list(pool.map(peer, range(6)))
        self.ends(daemon)
        self.assertEqual(self.is_played()[1].count(b" get 00067a6e6f6465"), 180)

    def test_it_can_be_read_meanwhile(self):
        daemon = self.daemon("-record", self.file)
        for count in 3, 6, 9:
            self.assertEqual(ask(daemon.port, port_please(b"a")), NOT_FOUND)
            for word, more in ("-check", b""), ("-audit", b" in 1 files"):
                wanted = 0, b"run of %d entries%s\n" % (count, more), b""
                eventually(lambda: self.run_epmd(word, self.file) == wanted, "the recording")

    def test_the_file_is_its_owners_alone(self):
        write(self.path("new2"), SESSION * 1000)
        os.chmod(self.path("new2"), 0o644)
        for number, umask in enumerate((0, 0o777, 0)):
            self.file = self.path(f"new{number}")
            daemon = self.daemon("-record", self.file, before=lambda: os.umask(umask))
            eventually(lambda: os.path.exists(self.file) and mode(self.file) == 0o600, "the recording")
            self.ends(daemon)
            self.assertEqual((mode(self.file), beginning(content(self.file))), (0o600, (0, 0, 0, 0)))
            self.assertGreaterEqual(self.entries(), 2)

    def test_to_a_pipe_that_is_read(self):
        os.mkfifo(self.file)
        with ThreadPoolExecutor() as pool:
            reader = pool.submit(content, self.file)
            daemon = self.daemon("-record", self.file)
            self.assertEqual(ask(daemon.port, port_please(b"a")), NOT_FOUND)
            self.ends(daemon)
            got = reader.result()
        self.says("-play", 0, transcript(got), path="/dev/stdin", input=got)
        self.assertIn(b" get 00027a61 say 7701 close\n", transcript(got))
        self.assertTrue(stat.S_ISFIFO(os.stat(self.file).st_mode))
        self.assertEqual(os.listdir(self.folder), ["session"])  # A pipe has no times.

    def test_to_a_device(self):
        for device in "/dev/null", self.file:
            if device == self.file:
                try:
                    os.mknod(device, stat.S_IFCHR | 0o666, os.makedev(1, 3))
                    os.chown(device, 1, 1)
                except PermissionError:
                    self.skipTest("no device of another user can be made")
            daemon = self.daemon("-record", device)
            self.assertEqual(ask(daemon.port, port_please(b"a")), NOT_FOUND)
            self.ends(daemon)
            self.assertTrue(stat.S_ISCHR(os.stat(device).st_mode))


class Times(RecordCase):
    """FILE.times beside a file of a recording says by when its entries happened."""

    def rows(self):
        """The rows of the times of the file: a position in the log, and microseconds."""
        path = self.file + ".times"
        data = content(path) if os.path.exists(path) else b""
        self.assertIn(data[:16], (b"EPMT\2" + bytes(11), b""))
        return list(struct.iter_unpack(">QQ", data[16:len(data) - len(data) % 16]))

    def asks(self, daemon, count):
        """Looks a name up, again each time that the three entries of the look-up before have a row. For each look-up the microseconds before
        it was asked, and once there was a row."""
        asked = []
        for number in range(count):
            before = time.time_ns() // 1000
            self.assertEqual(ask(daemon.port, port_please(b"a")), NOT_FOUND)
            eventually(lambda: (rows := self.rows()) and rows[-1][0] >= 3 * number + 3, "a row")
            asked.append((before, time.time_ns() // 1000))
            time.sleep(1.2)  # The next one is of another batch.
        return asked

    def are_right(self, rows, began, asked):
        """Whether rows rise, and whether each look-up has the time of a moment after it was asked and before its row was there."""
        positions, times = zip(*rows)
        self.assertEqual((positions[0], sorted(set(positions))), (0, list(positions)))
        self.assertTrue(began <= times[0] and list(times) == sorted(times), (began, times))
        for number, (before, after) in enumerate(asked):
            row = next(row for row, position in enumerate(positions) if position > 3 * number + 1)
            self.assertTrue(before <= times[row] <= min(after, before + 30e6), (number, before, times[row], after))
            self.assertLessEqual(times[row - 1], after)

    def test_each_entry_has_one_and_so_has_an_end_in_order(self):
        for is_killed in False, True:
            self.file, began = self.path(f"session{is_killed}"), time.time_ns() // 1000
            daemon = self.daemon("-record", self.file)
            asked = self.asks(daemon, 4)
            if is_killed:
                daemon.stop()
                self.are_right(self.rows(), began, asked)
                continue
            self.ends(daemon)
            *rows, end = self.rows()
            self.assertEqual(rows[-1][0], self.entries())
            self.are_right(rows, began, asked)
            self.assertEqual(end[0], END)
            self.assertTrue(rows[-1][1] <= end[1] <= time.time_ns() // 1000, (rows, end))
            self.assertEqual(mode(self.file + ".times"), 0o600)

    def test_a_minute_without_entries_has_a_row(self):
        daemon = self.daemon("-record", self.file)
        self.asks(daemon, 2)
        time.sleep(2)  # The last batch is written.
        before = self.rows()
        time.sleep(53)
        self.assertEqual(self.rows(), before)
        eventually(lambda: self.rows() != before, "the row")
        *rows, alive_row = self.rows()
        self.assertEqual((rows, alive_row[0]), (before, before[-1][0]))
        self.assertTrue(before[-1][1] + 59e6 <= alive_row[1] <= time.time_ns() // 1000, (before[-1], alive_row))

    def test_anything_but_a_plain_file_is_left_and_not_waited_for(self):
        path = self.file + ".times"
        for make in os.mkdir, os.mkfifo, lambda path: os.symlink(self.path("none"), path), lambda path: os.symlink("/dev/full", path):
            make(path)
            was = os.lstat(path)
            daemon = self.daemon("-record", self.file)
            self.assertEqual(ask(daemon.port, NAMES), listed(daemon.port))
            self.ends(daemon)
            self.assertGreater(self.entries(), 0)
            self.assertEqual((os.lstat(path), os.path.exists(self.path("none"))), (was, False))
            os.rmdir(path) if make is os.mkdir else os.remove(path)


class Failed(RecordCase):
    """A file that cannot be made or written: a line names it with the system's reason, the daemon serves, and its status is 3."""

    def fails(self, path, reason):
        daemon = self.daemon("-record", path)
        line = f"{FAILED}{path}: {reason}"
        self.assertEqual(ask(daemon.port, NAMES), listed(daemon.port))
        self.prints(daemon, line)
        self.assertEqual(ask(daemon.port, NAMES), listed(daemon.port))
        self.ends_at_once(daemon, 3, line)

    def test_files_that_cannot_be_made(self):
        self.fails(self.path("none/session"), "No such file or directory")
        self.fails(self.folder, "Is a directory")
        self.fails("/dev/full", "No space left on device")

    @unittest.skipIf(IS_ROOT, "root may write everywhere")
    def test_a_folder_that_may_not_be_written(self):
        os.mkdir(self.path("closed"), 0o500)
        self.fails(self.path("closed/session"), "Permission denied")

    def test_a_symbolic_link(self):
        write(self.path("other"), b"text")
        for name in "other", "none":
            with self.subTest(to=name):
                os.symlink(self.path(name), self.file)
                self.fails(self.file, "Too many levels of symbolic links")
                self.assertTrue(os.path.islink(self.file))
                os.remove(self.file)
        self.assertEqual(content(self.path("other")), b"text")
        self.assertFalse(os.path.exists(self.path("none")))

    @unittest.skipUnless(IS_ROOT, "only root can give a file to another user")
    def test_a_file_of_another_user(self):
        write(self.file, b"text")
        os.chmod(self.file, 0o666)
        os.chown(self.file, 1, 1)
        self.fails(self.file, "Operation not permitted")
        self.assertEqual((content(self.file), mode(self.file)), (b"text", 0o666))
        os.remove(self.file)
        os.mkfifo(self.file)
        os.chown(self.file, 1, 1)
        self.fails(self.file, "Operation not permitted")


class Stalled(RecordCase):
    """A pipe that nobody reads delays nobody."""

    def test_nobody_opens_it(self):
        """The sockets are closed at once. A failure that is found at the end is printed before the daemon ends."""
        os.mkfifo(self.file)
        daemon = self.daemon("-record", self.file)
        with register(daemon.port, b"a"):
            for _ in range(100):
                self.assertEqual(ask(daemon.port, port_please(b"a")), found(b"a"))
        self.leaves(daemon, b"a")
        self.assertEqual(daemon.lines(), [])
        self.assertEqual(ask(daemon.port, KILL), b"OK")
        eventually(lambda: not daemon.listens(), "the end of the port")
        self.assertTrue(daemon.runs(), "it waits for the last write, and the port is closed before")
        self.assertEqual(daemon.ended(PATIENCE), (3, f"{FAILED}{self.file}: the last write takes longer than 5 seconds"))

    def test_more_bytes_wait_than_may(self):
        """The reader stops, and reads on once the recording has failed: it gets a run up to the last whole entry."""
        os.mkfifo(self.file)
        reads_on, got = threading.Event(), bytearray()

        def read(*_):
            with open(self.file, "rb", buffering=0) as pipe:
                got.extend(pipe.read(1000))
                reads_on.wait()
                while piece := pipe.read(65536):
                    got.extend(piece)
        with beside(read, 1):
            daemon = self.daemon("-relaxed_command_check", "-record", self.file)
            try:
                self.hold(daemon, *LONG)
                # Lines are printed once a second, and a fast machine answers more than 2,000 lists in that time.
                asked, until, line = 0, time.monotonic() + PATIENCE, f"{FAILED}{self.file}: more than 16 MiB wait to be written"
                while not daemon.lines():
                    self.assertEqual(ask(daemon.port, NAMES), listed(daemon.port, *LONG))
                    asked += 1
                    self.assertLess(time.monotonic(), until)
                self.assertEqual(daemon.lines(), [line])
                # A list has 305,704 bytes, and the registrations have less than two lists.
                self.assertGreater((asked + 2) * 305_704, 16 * 1024 * 1024)
                self.assertLess(daemon.kb("VmRSS"), 96 * 1024)
                for _ in range(20):
                    self.assertEqual(ask(daemon.port, port_please(LONG[0])), found(LONG[0]))
                reads_on.set()
                self.ends(daemon, 3, line)
            finally:
                reads_on.set()
                daemon.stop()
        write(self.path("got"), got)
        self.is_audited(self.path("got"))


class BegunAgain(RecordCase):
    """A recording that failed continues in the next file once it can, with a line; the status and `-audit` say that entries are missing."""

    LIMIT = {"RLIMIT_FSIZE": 100_000}

    def is_begun_again(self, daemon, path, active, failed):
        """The recording continues in this file, with that many names. Returns the position at which it begins, and all its numbers."""
        again = AGAIN + path
        self.prints(daemon, failed, again)
        self.assertEqual(ask(daemon.port, port_please(b"a")), NOT_FOUND if active == 40 else found(b"a"))
        self.ends(daemon, 3, f"{failed} / {again}")
        place, *numbers = beginning(content(path))
        self.assertEqual(numbers[0], active)
        self.assertIn(b" get 00027a61 ", self.run_epmd("-play", path)[1])
        return place, numbers

    def fill(self, daemon):
        self.hold(daemon, *LONG[:40])
        while daemon.runs() and not daemon.lines():
            self.list(daemon, lambda: daemon.lines() or not daemon.runs())

    def fails_and_continues(self, daemon, reason, mend=lambda: None):
        """The first file ends with a whole entry, and the second one begins later."""
        self.fill(daemon)
        failed = f"{FAILED}{self.file}: {reason}"
        self.assertEqual(daemon.lines(), [failed])
        for _ in range(20):
            self.assertEqual(ask(daemon.port, port_please(LONG[0])), found(LONG[0]))
        count = self.entries()
        self.assertEqual(sum(1 for _ in entries_of(content(self.file))), count)
        mend()
        self.assertGreater(self.is_begun_again(daemon, self.part(1), 40, failed)[0], count)
        self.assertEqual(self.entries(), count)
        self.says("-audit", 1, "", "{}.1 does not go on where the file before it ends: another place\n")

    def test_a_folder_that_is_made_later(self):
        self.file, began = self.path("later/session"), time.monotonic()
        daemon = self.daemon("-relaxed_command_check", "-record", self.file)
        self.hold(daemon, b"a", b"b")
        failed = f"{FAILED}{self.file}: No such file or directory"
        self.prints(daemon, failed)
        os.mkdir(self.path("later"))
        place, numbers = self.is_begun_again(daemon, self.file, 2, failed)
        self.assertGreater(time.monotonic() - began, 9)  # It is tried every ten seconds.
        self.assertGreaterEqual(place, 4)
        self.assertEqual(numbers, [2, 0, 2])
        count = self.entries()
        self.assertGreaterEqual(count, 2)
        self.says("-audit", 0, f"run of {count} entries in 1 files\n", "epmd: the files before {} are gone\n")

    def test_a_limit_of_file_sizes_whose_signal_is_ignored(self):
        self.fails_and_continues(
            self.daemon("-relaxed_command_check", "-record", self.file, limits=self.LIMIT,
                        before=lambda: signal.signal(signal.SIGXFSZ, signal.SIG_IGN)), "File too large")
        self.assertLessEqual(os.path.getsize(self.file), self.LIMIT["RLIMIT_FSIZE"])

    def test_a_limit_of_file_sizes_whose_signal_ends_it(self):
        daemon = self.daemon("-record", self.file, limits=self.LIMIT, before=lambda: signal.signal(signal.SIGXFSZ, signal.SIG_DFL))
        with contextlib.suppress(OSError):  # The last list has no connection, or is cut.
            self.fill(daemon)
        self.assertEqual(daemon.ended(PATIENCE), (-signal.SIGXFSZ, ""))

    @unittest.skipUnless(IS_ROOT and shutil.which("mount"), "only root can mount a small disk")
    def test_a_disk_that_is_full_for_a_while(self):
        disk = self.path("disk")
        os.mkdir(disk)
        ways = ["--make-rprivate", "/"], ["-t", "tmpfs", "-o", "size=1m", "tmpfs", disk]
        # CLONE_NEWNS: this process sees mounts of its own, which go with it.
        if ctypes.CDLL(None).unshare(0x00020000) or any(subprocess.run(["mount", *way], stderr=subprocess.DEVNULL).returncode for way in ways):
            self.skipTest("nothing can be mounted")
        self.addCleanup(subprocess.run, ["umount", "-l", disk], check=True)
        self.file, ballast = os.path.join(disk, "session"), os.path.join(disk, "ballast")
        write(ballast, bytes(900_000))
        self.fails_and_continues(self.daemon("-relaxed_command_check", "-record", self.file), "No space left on device",
                                 lambda: os.remove(ballast))


class Killed(RecordCase):
    """SIGKILL under load, again and again: the file is a run, or one whose last entry is cut."""

    def test_killed_under_load(self):
        random.seed(5)
        for number in range(6):
            self.answered, self.file = 0, self.path(f"killed{number}")
            daemon = self.daemon("-workers", "24"[number % 2], "-record", self.file)
            self.hold(daemon, *LONG[:60])

            def load(peer, over):
                name = b"node%d" % peer
                try:
                    while not over.is_set():
                        self.list(daemon, lambda: over.is_set() or not daemon.runs())
                        with register(daemon.port, name):
                            self.assertEqual(ask(daemon.port, port_please(name)), found(name))
                except (OSError, AssertionError):
                    if not killed:
                        raise
            killed = []
            with beside(load, 4):
                self.has(500_000)
                time.sleep(random.random() / 10)
                killed.append(True)
                daemon.process.kill()
                self.assertEqual(daemon.ended(PATIENCE), (-signal.SIGKILL, ""))
            self.assertGreater(self.is_audited(), 99)


class Files(RecordCase):
    """A recording of more than one file."""

    def is_followed(self, daemon):
        """Each file is a run, and the second begins where the first ends."""
        self.hold(daemon, *LONG)
        self.grow(daemon)
        self.assertEqual(ask(daemon.port, port_please(LONG[-1])), found(LONG[-1]))
        self.ends(daemon)
        self.assertTrue(FILE_FULL <= os.path.getsize(self.file) <= FILE_MOST)
        count, more = self.entries(), self.entries(self.part(1))
        with open(self.part(1), "rb") as further:
            self.assertEqual(beginning(further.read(37))[:2], (count, len(LONG)))
        self.says("-audit", 0, f"run of {count + more} entries in 2 files\n")
        self.assertEqual(mode(self.part(1)), 0o600)
        self.assertFalse(os.path.exists(self.part(2)))

    def test_a_full_file_is_followed(self):
        self.is_followed(self.daemon("-relaxed_command_check", "-workers", "2", "-record", self.file))


class FilesOverPassedSockets(Files):
    def test_a_full_file_is_followed(self):
        with listener("127.0.0.1") as s:
            self.is_followed(self.handed([s], "-relaxed_command_check", "-record", self.file))
