"""The base of the tests of recordings: files that a test writes or a daemon records, and what the commands say of them."""
import os, pathlib, threading

from case import Case
from system import eventually
from wire import KILL, NAMES, ask

BEHIND = 4_000_000  # Bytes that may wait to be written: fewer than end a recording.
FILE_FULL = 240 * 1024 * 1024
LONG = [b"%01000d" % number for number in range(300)]


def content(path):
    return pathlib.Path(path).read_bytes()


def write(path, data):
    pathlib.Path(os.fsdecode(path)).write_bytes(data)


class RecordCase(Case):
    def setUp(self):
        super().setUp()
        self.file, self.answered, self.counting = self.path("session"), 0, threading.Lock()

    def part(self, number):
        """The path of a file of the recording."""
        return f"{self.file}.{number}" if number else self.file

    def says(self, word, status, out, err="", path=None, **how):
        """What a command says of a file. {} is the path of the first file in the text of standard error."""
        out = out if isinstance(out, bytes) else out.encode()
        wanted = status, out, err.replace("{}", self.file).encode()
        self.assertEqual(self.run_epmd(word, self.file if path is None else path, **how), wanted, (word, path))

    def entries(self, path=None):
        """The number of entries of a file, which is a run."""
        status, out, err = self.run_epmd("-check", path or self.file)
        self.assertEqual((status, err), (0, b""), path)
        self.assertRegex(out, rb"^run of \d+ entries\n$")
        return int(out.split()[2])

    def is_audited(self, path=None):
        """The number of entries of a recording in one file after SIGKILL, whose last entry may be cut."""
        path = path or self.file
        status, out, err = self.run_epmd("-audit", path)
        self.assertEqual(status, 0, err)
        self.assertRegex(out, rb"^run of \d+ entries in 1 files\n$")
        if err:
            self.assertEqual(err, b"epmd: %s is cut in an entry\n" % path.encode())
            self.says("-check", 2, "", f"epmd: bad record\nepmd: in {path}\n", path)
        else:
            self.says("-check", 0, out.replace(b" in 1 files", b""), path=path)
        return int(out.split()[2])

    def ends_at_once(self, daemon, status, text):
        """Ends a daemon while another one waits five seconds for the last write of its own recording."""
        pipe = self.path("unread")
        if not os.path.exists(pipe):
            os.mkfifo(pipe)
        other = self.daemon("-record", pipe)
        self.assertEqual(ask(other.port, KILL), b"OK")
        self.ends(daemon, status, text)
        self.assertTrue(other.runs(), "a daemon that has nothing to write ends as late as one that waits for a write")

    def has(self, size):
        """Waits until the recording has that many bytes."""
        eventually(lambda: os.path.exists(self.file) and os.path.getsize(self.file) >= size, "the recording")

    def list(self, daemon, is_over=lambda: False):
        """Asks for a list, once nearly all earlier replies are in a file, so that no slow disk is too far behind."""
        file = self.file

        def is_near():
            sizes = [os.path.getsize(path) for path in (file, f"{file}.1") if os.path.exists(path)]
            return is_over() or sizes and sum(sizes) > self.answered - BEHIND
        eventually(is_near, "the recording")
        size = len(ask(daemon.port, NAMES))
        with self.counting:
            self.answered += size

    def grow(self, daemon, number=1):
        """Asks for lists until the recording has a file of this number."""
        while not os.path.exists(self.part(number)):
            self.assertTrue(daemon.runs(), daemon.how())
            self.list(daemon, lambda: os.path.exists(self.part(number)))
            self.assertLess(self.answered, (number + 1) * FILE_FULL)
