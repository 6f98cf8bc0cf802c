"""A daemon on a port of loopback with a look at its memory, what gcc makes, and requests whose refusal and silence are results too."""
import contextlib, fcntl, os, resource, socket, subprocess, sys, tempfile, time

from system import free_port
from wire import dial, framed, node, read_most

HERE = os.path.dirname(os.path.abspath(__file__))
PRODUCTS = os.path.join(tempfile.gettempdir(), f"epmd-tests-{os.getuid()}")  # What gcc makes.
SILENCE = 6.0  # A daemon may be silent for 5 seconds before it ends; one more for a machine that is shared.
OUT_OF_MEMORY = (3, "epmd: out of memory")
CANNOT_ACCEPT = "epmd: cannot accept connections"


def built(name, *words, folder=HERE):
    """The path of what gcc makes of NAME.c: a program, or a library to preload (with -shared)."""
    os.makedirs(PRODUCTS, exist_ok=True)
    path = os.path.join(PRODUCTS, f"lib{name}.so" if "-shared" in words else name)
    source = os.path.join(folder, name + ".c")
    if not os.path.exists(path) or os.path.getmtime(path) < os.path.getmtime(source):
        made = f"{path}.{os.getpid()}"
        subprocess.run(["gcc", "-O2", "-Wall", *words, "-o", made, source, "-lpthread", "-ldl"], check=True)
        os.rename(made, path)
    return path


def preload(name, folder=HERE):
    return built(name, "-shared", "-fPIC", folder=folder)


class Daemon:
    """A daemon that was started, with its lines on standard error. Limits are by the names of `resource`. Without an address it listens at
    all, and without a port at a free one."""

    def __init__(self, path, *words, env=None, limits=None, before=None, patience=5.0, address="127.0.0.1", port=None):
        self.port, self.kept = (port, None) if port else free_port()
        limits = limits or {}

        def prepare():
            for name, most in limits.items():
                which = getattr(resource, name)
                resource.setrlimit(which, (most, resource.getrlimit(which)[1]))
            if before:
                before()

        words = ["-port", str(self.port), *(("-address", address) if address else ()), *words]
        self.start([path, *words], env={**os.environ, **(env or {})}, preexec_fn=prepare)
        while patience and time.monotonic() < self.started + patience and self.runs() and not self.listens():
            time.sleep(0.02)

    def start(self, words, **how):
        self.out_file, self.text_file, self.started = tempfile.TemporaryFile(), tempfile.TemporaryFile(), time.monotonic()
        self.process = subprocess.Popen(words, stdin=subprocess.DEVNULL, stdout=self.out_file, stderr=self.text_file, **how)

    def __enter__(self):
        return self

    def __exit__(self, *_):
        self.stop()

    @property
    def pid(self):
        return self.process.pid

    def runs(self):
        return self.process.poll() is None

    def listens(self):
        return listens(self.port)

    def kb(self, field):
        """A field of /proc/PID/status in KB; 0 after the end."""
        with contextlib.suppress(OSError), open(f"/proc/{self.pid}/status") as lines:
            for line in lines:
                if line.startswith(field + ":"):
                    return int(line.split()[1])
        return 0

    def limit(self, name, most):
        if self.runs():
            resource.prlimit(self.pid, getattr(resource, name), (most, resource.RLIM_INFINITY))

    def lines(self):
        """Its lines on standard error."""
        # The daemon writes at the offset of this descriptor, so nothing may move it.
        return os.pread(self.text_file.fileno(), 1 << 24, 0).decode(errors="replace").splitlines()

    def printed(self):
        """The number of bytes on standard output, where a daemon prints nothing."""
        return os.fstat(self.out_file.fileno()).st_size

    def text(self):
        """The same, without the lines that it could not accept connections for a while."""
        return " / ".join(line for line in self.lines() if line != CANNOT_ACCEPT)

    def ended(self, patience=0.0):
        """How it ended, as (status, text); None while it runs. A signal is a negative status."""
        with contextlib.suppress(subprocess.TimeoutExpired):
            status = self.process.wait(patience) if patience else self.process.poll()
            return None if status is None else (status, self.text())
        return None

    def how(self, patience=0.0):
        """The same in words."""
        status, text = self.ended(patience) or (None, "")
        return "runs" if status is None else f"ended with status {status} and text '{text}'"

    def stop(self):
        if self.runs():
            self.process.kill()
        self.process.wait()
        if self.kept:
            self.kept.close()


# Moves the sockets to descriptor 3 and those after it, says that they are for its own process, and becomes the daemon. Only the daemon is
# preloaded.
LAUNCH = """
import os, sys
numbers, own, path, *words = sys.argv[1:]
for place, number in enumerate(numbers.split(",") if numbers else []):
    os.dup2(int(number), 3 + place)
if own:
    os.environ["LISTEN_PID"] = str(os.getpid()) if own == "own" else own
os.environ.update({"LD_PRELOAD": value for key, value in os.environ.items() if key == "PRELOAD"})
os.execv(path, [path, *words])
"""


class Handed(Daemon):
    """A daemon that gets sockets as from a service manager: that many by LISTEN_FDS, for the process of LISTEN_PID, by default its own."""

    def __init__(self, path, sockets, *words, count=None, own="own", env=None):
        is_known = sockets and getattr(sockets[0], "family", None) in (socket.AF_INET, socket.AF_INET6)
        self.kept, self.port = None, sockets[0].getsockname()[1] if is_known else None
        numbers = [fcntl.fcntl(s.fileno(), fcntl.F_DUPFD, 100) for s in sockets]  # Above all that they are moved to.
        count = str(len(sockets)) if count is None else count
        place = {key: value for key, value in os.environ.items() if not key.startswith(("ERL_EPMD", "LISTEN_"))}
        env = {key.replace("LD_PRELOAD", "PRELOAD"): value for key, value in (env or {}).items()}
        self.start([sys.executable, "-I", "-S", "-c", LAUNCH, ",".join(map(str, numbers)), own, path, *words], pass_fds=numbers,
                   env={**place, **({"LISTEN_FDS": count} if count else {}), **env})
        for number in numbers:
            os.close(number)


def listens(port):
    """Whether a socket listens at this port, by the system's table."""
    wanted = f"0100007F:{port:04X}", f"00000000:{port:04X}"
    with open("/proc/net/tcp") as lines:
        return any(line.split()[1] in wanted and line.split()[3] == "0A" for line in lines)


# ---- requests whose refusal and silence are results too


def alive(name, extra=b"", number=5000):
    """The body that registers a name."""
    return b"x" + node(name, number=number, extra=extra)


def ask(port, body, seconds=2.0):
    """The reply to a request; empty after a close without one, None after silence or without a connection."""
    try:
        with dial(port, seconds=seconds) as s:
            s.sendall(framed(body))
            return read_most(s)
    except OSError as error:
        return b"" if isinstance(error, ConnectionResetError) else None


def register(port, name, extra=b"", seconds=2.0):
    """The connection that holds the name; b'' after a refusal, None after silence."""
    try:
        s = dial(port, seconds=seconds)
    except OSError:
        return None
    with contextlib.suppress(OSError):
        s.sendall(framed(alive(name, extra)))
        answer = read_most(s, 6)
        if answer and len(answer) == 6 and answer[:2] == b"v\0":
            return s
        s.close()
        return answer and b""
    s.close()
    return b""


def hold(port, names, extra=b"", bear=5):
    """Registers names until that many in a row are refused or silent: the connections by their names, and how many failed."""
    held, failed, row = {}, 0, 0
    for name in names:
        s = register(port, name, extra, 0.5)
        if isinstance(s, socket.socket):
            held[name], row = s, 0
        else:
            failed, row = failed + 1, row + 1
            if row == bear:
                break
    return held, failed


def look_up(port, name, seconds=2.0):
    """Whether the name is found; b'' after a close without a reply, None after silence."""
    answer = ask(port, b"z" + name, seconds)
    return answer[1:2] == b"\0" if answer else answer
