"""The counters that the daemon writes once a second to the file that `-figures` names."""
import contextlib, os, shutil, stat, unittest

from case import FAR, Case, OwnNetwork
from daemon import preload
from recorded import content, write
from system import eventually
from wire import DUMP, NAMES, NOT_FOUND, alive, ask, dial, ending_of, framed, listed, port_please, register, rest

# Each counter in the order of FORMATS, with the name that `comes_to` has for it. No test moves `no_room`: more names may be known than there
# are connections.
COUNTED = {
    "accepted": "epmd_accepted_total", "found": 'epmd_lookups_total{result="found"}', "missing": 'epmd_lookups_total{result="missing"}',
    "registered": "epmd_registrations_total", "in_use": 'epmd_refusals_total{reason="in_use"}',
    "no_room": 'epmd_refusals_total{reason="no_room"}', "remote": 'epmd_refusals_total{reason="remote"}', "lists": "epmd_lists_total",
    "malformed": "epmd_malformed_total", "timeouts": "epmd_timeouts_total",
}
MALFORMED = framed(b"?")


class FiguresCase(Case):
    def setUp(self):
        super().setUp()
        self.file = self.path("epmd.prom")

    def comes_to(self, **values):
        """Waits until the file has these counters, and 0 for the others."""
        lines = "".join(f"{name} {values.get(key, 0)}\n" for key, name in COUNTED.items())

        eventually(lambda: os.path.exists(self.file) and content(self.file) == lines.encode(), f"{values}")

    def counting(self, *words, **how):
        daemon = self.daemon("-figures", self.file, *words, **how)
        self.comes_to()
        return daemon


class Figures(FiguresCase):
    def test_each_reply_counts_once(self):
        daemon = self.counting()
        self.hold(daemon, b"alpha")
        self.comes_to(accepted=1, registered=1)
        for request in alive(b"alpha"), port_please(b"alpha"), port_please(b"beta"), NAMES, DUMP, MALFORMED:
            ask(daemon.port, request)
        self.comes_to(accepted=7, registered=1, found=1, missing=1, in_use=1, lists=2, malformed=1)

    def test_a_request_in_pieces_is_one(self):
        daemon = self.counting()
        for piece in range(1, 7):
            with dial(daemon.port) as s:
                request = port_please(b"beta")
                s.sendall(request[:piece])
                self.comes_to(accepted=piece, missing=piece - 1)
                s.sendall(request[piece:])
                self.comes_to(accepted=piece, missing=piece)

    def test_bytes_after_a_request_are_not_counted(self):
        daemon = self.counting()
        with dial(daemon.port) as s:
            s.sendall(MALFORMED)
            s.sendall(MALFORMED)
            self.comes_to(accepted=1, malformed=1)
        with dial(daemon.port):
            pass
        self.comes_to(accepted=2, malformed=1)

    def test_a_timeout_is_counted(self):
        daemon = self.counting("-packet_timeout", "1")
        with dial(daemon.port) as s:
            self.assertEqual(rest(s), b"")
        self.comes_to(accepted=1, timeouts=1)

    def test_the_file_is_complete_and_readable_by_all(self):
        other = self.path("other")
        for path in other, self.file:
            write(path, b"mine")
        os.symlink(other, self.file + ".new")
        self.counting(before=lambda: os.umask(0o077))
        was = os.lstat(self.file)
        self.assertEqual(stat.filemode(was.st_mode), "-rw-r--r--")
        eventually(lambda: os.lstat(self.file).st_ino != was.st_ino)
        self.assertEqual(content(other), b"mine")

    def test_a_file_that_cannot_be_written(self):
        file = self.path("none/epmd.prom")
        daemon = self.daemon("-figures", file)
        self.prints(daemon, f"epmd: cannot write the counters: {file}: No such file or directory")
        self.assertEqual(ask(daemon.port, port_please(b"beta")), NOT_FOUND)

    def test_another_file_is_put_there_later(self):
        daemon = self.counting()
        os.symlink(self.path("none"), self.path("link"))
        os.rename(self.path("link"), self.file)
        self.prints(daemon, f"epmd: cannot write the counters: {self.file}: File exists")
        self.assertEqual((os.path.islink(self.file), os.path.exists(self.path("none"))), (True, False))
        os.remove(self.file)
        self.comes_to()

    @unittest.skipUnless(shutil.which("gcc"), "no gcc")
    def test_a_disk_that_stalls_delays_neither_the_log_nor_the_end(self):
        env = {"LD_PRELOAD": preload("stall"), "STALL_PATH": self.file + ".new", "STALL_AFTER": "1", "STALL_SECONDS": "0"}
        daemon = self.daemon("-relaxed_command_check", "-figures", self.file, env=env)
        eventually(lambda: os.path.exists(self.file + ".new") and not os.path.getsize(self.file + ".new"), "a write that waits")
        self.log_is_drained(daemon)


class OfOtherHosts(FiguresCase, OwnNetwork):
    def test_a_refused_registration_counts_once(self):
        daemon = self.counting(address=None)
        with register(daemon.port, b"near"):
            for request in alive(b"far"), alive(b"near"), MALFORMED:
                self.assertEqual(ending_of(daemon.port, request, *FAR), b"")
            self.comes_to(accepted=4, registered=1, remote=2, malformed=1)
            self.assertEqual(ask(daemon.port, NAMES, *FAR), listed(daemon.port, b"near"))
            self.comes_to(accepted=5, registered=1, remote=2, malformed=1, lists=1)


class Refused(FiguresCase):
    EACH = "the recording and the counters need a file each"

    def refused(self, reason, file, *words):
        was = os.lstat(file) if os.path.lexists(file) else None
        ended = self.run_epmd("-port", str(self.free_port()), "-address", "127.0.0.1", "-figures", file, *words)
        self.assertEqual(ended, (1, b"", f"epmd: {file}: {reason}\n".encode()))
        self.assertEqual(os.lstat(file) if os.path.lexists(file) else None, was)

    def test_anything_but_a_plain_file(self):
        os.symlink(self.path("none"), self.path("link"))
        os.mkfifo(self.path("pipe"))
        os.mkdir(self.path("folder"))
        made = ["link", "pipe", "folder"]
        with contextlib.suppress(PermissionError):
            os.mknod(self.path("device"), stat.S_IFCHR | 0o666, os.makedev(1, 3))
            made.append("device")
        for name in made:
            with self.subTest(what=name):
                self.refused("what is there is not a plain file", self.path(name))
        self.assertEqual(sorted(os.listdir(self.folder)), sorted(made))

    def test_the_file_of_the_recording(self):
        self.refused(self.EACH, self.file, "-record", self.file)
        write(self.file, b"mine")
        for same in self.file, os.path.join(self.folder, ".", "epmd.prom"):
            self.refused(self.EACH, self.file, "-record", same)
        self.assertEqual(content(self.file), b"mine")
