"""The base of the end-to-end tests: a folder for each test, daemons that end with it, and runs of the program. The program is build/epmd,
or the one that the variable EPMD names."""
import contextlib, os, subprocess, tempfile, threading, unittest
from concurrent.futures import ThreadPoolExecutor

from daemon import Daemon, Handed, built
from shim import Faults
from system import PATIENCE, eventually, free_port, many_files, own_network, stopped
from wire import KILL, NAMES, ask, dial, is_registered, listed, register, rest

TOP = os.path.dirname(os.path.dirname(os.path.dirname(os.path.abspath(__file__))))
EPMD = os.path.abspath(os.environ.get("EPMD") or os.path.join(TOP, "build", "epmd"))
NEVER = "-packet_timeout", "86400"  # No connection times out.
FAR = "10.78.0.1", "10.78.0.2"  # An address of this host, and the one from which a peer of another host connects.


@contextlib.contextmanager
def beside(call, count):
    """Calls in that many threads meanwhile, each with its number and an event that is set at the end of the block. What they raise is
    raised."""
    over = threading.Event()
    with ThreadPoolExecutor(count) as pool:
        calls = [pool.submit(call, number, over) for number in range(count)]
        try:
            yield over
        finally:
            over.set()
        for each in calls:
            each.result()


class Case(unittest.TestCase):
    maxDiff = None
    measured = ""  # Figures of a test, which the runner prints.
    FILES = 0  # Descriptors that the tests of a class and their daemons need, if more than usual.

    @classmethod
    def setUpClass(cls):
        many_files(cls.FILES)

    def setUp(self):
        folder = tempfile.TemporaryDirectory()
        self.addCleanup(folder.cleanup)
        self.folder = folder.name

    def path(self, name):
        return os.path.join(self.folder, name)

    def free_port(self):
        """A port that no other test has until the end of this one."""
        port, kept = free_port()
        self.addCleanup(kept.close)
        return port

    def daemon(self, *words, **how):
        """A daemon on a port of its own (see `Daemon`) that serves already. It is killed at the end of the test if it still runs."""
        daemon = Daemon(EPMD, *words, **{"patience": PATIENCE, **how})
        self.addCleanup(daemon.stop)
        return daemon

    def handed(self, sockets, *words, **how):
        """A daemon that gets these sockets (see `Handed`)."""
        daemon = Handed(EPMD, sockets, *words, **how)
        self.addCleanup(daemon.stop)
        return daemon

    def faults(self, *refused, on=True, **how):
        """Faults for a daemon, by default from its start on (see `Faults.refuse`)."""
        faults = self.enterContext(Faults())
        if refused:
            faults.refuse(*refused, **how)
            faults.on = on
        return faults

    def hold(self, daemon, *names, **fields):
        """The connections that hold these names until the end of the test."""
        return [self.enterContext(register(daemon.port, name, **fields)) for name in names]

    def registers(self, daemon, name):
        """Waits until a name can be registered, and holds it until the end of the test."""
        def registered():
            with contextlib.suppress(OSError, AssertionError):
                return self.hold(daemon, name)
        eventually(registered, "a registration")

    def leaves(self, daemon, name, *at):
        """Waits until a name is free."""
        eventually(lambda: not is_registered(daemon.port, name, *at), f"the end of {name}")

    def prints(self, daemon, *lines):
        """Waits until the daemon has printed these lines, and no others."""
        eventually(lambda: len(daemon.lines()) >= len(lines) or not daemon.runs(), f"line {len(lines)}")
        self.assertEqual((daemon.lines(), daemon.printed()), ([*lines], 0))

    def ends(self, daemon, status=0, text="", at="127.0.0.1"):
        """Ends the daemon by a request, with this status and text."""
        self.assertEqual(ask(daemon.port, KILL, at), b"OK")
        self.assertEqual((daemon.ended(PATIENCE), daemon.printed()), ((status, text), 0))

    def log_is_drained(self, daemon):
        """Whether the log is drained and the daemon ends, whatever it waits for: a log of 16 MB would be seen."""
        before = daemon.kb("VmRSS")
        for _ in range(2000):
            register(daemon.port, b"busy", extra=bytes(8000)).close()
        self.assertLess(daemon.kb("VmRSS") - before, 6000)
        self.ends(daemon)
        self.assertFalse(daemon.listens())

    def answers_a_burst(self, daemon, address):
        """Whether connections that came before it accepts are answered."""
        with stopped(daemon.pid):
            burst = [self.enterContext(dial(daemon.port, address)) for _ in range(100)]
        for s in burst:
            s.sendall(NAMES)
        for s in burst:
            self.assertEqual(rest(s), listed(daemon.port))

    @contextlib.contextmanager
    def flood(self, daemon, body, threads=4, address="127.0.0.1"):
        """Asks this without pause meanwhile."""
        words = [built("asker"), str(daemon.port), str(threads), "1000000000", body.hex(), address]
        with subprocess.Popen(words, stdout=subprocess.DEVNULL) as asker:
            try:
                yield
            finally:
                asker.kill()

    def asked(self, daemon, count, body):
        """How many of that many requests, four at a time, had a reply, a close and silence."""
        words = [built("asker"), str(daemon.port), "4", str(count), body.hex()]
        return [*map(int, subprocess.run(words, capture_output=True, text=True).stdout.split())]

    def run_epmd(self, *words, env=None, **how):
        """Runs the program to its end: its status, standard output and standard error, as bytes."""
        if "input" not in how:
            how.setdefault("stdin", subprocess.DEVNULL)
        done = subprocess.run([EPMD, *words], capture_output=True, timeout=PATIENCE, env={**os.environ, **(env or {})}, **how)
        return done.returncode, done.stdout, done.stderr


class OwnNetwork(Case):
    """Tests in a network of their own, where peers of another host connect (`FAR`)."""

    @classmethod
    def setUpClass(cls):
        super().setUpClass()
        own_network(*FAR)
