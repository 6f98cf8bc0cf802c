"""A session at a port mapper, step by step: two nodes register, one is looked up, both are listed, and they leave. Each step checks that its
reply is complete, or a prefix of it with the end of the connection; anything else is wrong."""
import contextlib, struct, time
from wire import KILL, NAMES, NOT_FOUND, alive, dial, ending, found, is_open, listed, port_please

PATIENCE = 30.0  # A daemon may be silent for 5 seconds before it ends. The rest is for a machine on which all processors are busy.


class Wrong(Exception):
    """What no fault excuses."""


def lacking(got, port, before, after):
    """Whether a list lacks a name that it should have, being a prefix of that list. None if the list is wrong."""
    names = iter(before)
    *lines, rest = got[4:].split(b"\n")
    if not struct.pack(">I", port).startswith(got[:4]):
        return None
    for line in lines:
        for name in names:
            if line == b"name %s at port 5000" % name:
                break
            if name in after:
                return None
        else:
            return None
    left = list(names)
    if rest and not any((b"name %s at port 5000" % name).startswith(rest) for name in left):
        return None
    return len(got) < 4 or rest != b"" or any(name in after for name in left)


class Session:
    """Nodes that hold their names by connections, at one daemon. It counts the replies that were cut."""

    def __init__(self, daemon):
        self.daemon, self.nodes, self.cut = daemon, {}, 0
        self.is_sent = self.is_killed = False  # Whether the last request was sent, and whether a KILL was.

    def __enter__(self):
        return self

    def __exit__(self, *_):
        for node in self.nodes.values():
            node.close()

    def open_names(self):
        """The names whose connections are open, by the system, in the order in which they came."""
        return [name for name, node in self.nodes.items() if is_open(node)]

    def send(self, step, *parts, room=None, pause=0.0):
        """A connection on which these parts were sent, with a pause after each; None if the daemon ends."""
        self.is_sent = False
        try:
            s = dial(self.daemon.port, room=room, seconds=PATIENCE)
        except TimeoutError:
            raise Wrong(f"{step}: no connection in {PATIENCE:.0f} s")
        except OSError:
            # A daemon that ends has no port, and may wait for the last write of its recording.
            if self.daemon.ended(PATIENCE) is None:
                raise Wrong(f"{step}: the port does not listen")
            return None
        with contextlib.suppress(ConnectionResetError, BrokenPipeError):
            for part in parts:
                s.sendall(part)
                time.sleep(pause)
            self.is_sent = True
        return s

    def read(self, step, s, most=1 << 40):
        try:
            return ending(s, most)[0] if s else b""
        except TimeoutError:
            raise Wrong(f"{step}: silence, {self.daemon.how()}")

    def reply(self, step, s, rights, more=0, most=1 << 40):
        """One of these replies, with that many bytes after it, or None if there is a prefix of one with the end of the connection."""
        got = self.read(step, s, most)
        for right in rights:
            if len(got) == len(right) + more and got.startswith(right):
                return right
        if any(len(got) < len(right) + more and right.startswith(got[:len(right)]) for right in rights):
            self.cut += 1
            return None
        raise Wrong(f"{step}: {got[:60]!r} in place of {rights[0][:60]!r}")

    def ask(self, step, request, *rights):
        """The reply to a request, if it came whole."""
        s = self.send(step, request)
        with s or contextlib.nullcontext():
            return self.reply(step, s, rights)

    def register(self, name, at_once=True):
        """A node comes, with its request in one piece or in two."""
        step, request = f"register {name.decode()}", alive(name)
        s = self.send(step, *([request] if at_once else [request[:3], request[3:]]), pause=0.0 if at_once else 0.03)
        # Result 0, and a creation of four bytes.
        if self.reply(step, s, [b"v\0"], 4, 6):
            self.nodes[name] = s
        elif s:
            s.close()

    def leave(self, name):
        node = self.nodes.pop(name, None)
        if node:
            node.close()

    def look_up(self, name):
        """A name is found while its connection is open, and at no other time."""
        step, before = f"look up {name.decode()}", name in self.open_names()
        reply = self.ask(step, port_please(name), found(name), NOT_FOUND)
        after = name in self.open_names()
        if reply == NOT_FOUND and before and after:
            raise Wrong(f"{step}: it is not there, and its connection is open")
        if reply and reply != NOT_FOUND and not before and not after:
            raise Wrong(f"{step}: it is there, and its connection is closed")

    def list(self, step="list", room=None, pause=0.0):
        """The names whose connections are open are listed, in their order; one whose connection ends meanwhile may be."""
        before = self.open_names()
        s = self.send(step, NAMES, room=room, pause=pause)
        with s or contextlib.nullcontext():
            got = self.read(step, s)
        rest = lacking(got, self.daemon.port, before, self.open_names())
        if rest is None:
            raise Wrong(f"{step}: {got!r}, and open were {before}, then {self.open_names()}")
        self.cut += rest

    def until(self, what, wanted):
        """Waits until this holds, or the daemon has ended."""
        until = time.monotonic() + PATIENCE
        while self.daemon.runs() and not wanted():
            if time.monotonic() > until:
                raise Wrong(f"{what} after {PATIENCE:.0f} s")
            time.sleep(0.01)

    def is_gone(self, name):
        step = f"look up {name.decode()}, which left"
        self.until(f"{name.decode()} is still there", lambda: self.ask(step, port_please(name), NOT_FOUND, found(name)) == NOT_FOUND)

    def whole(self):
        """Registers, looks up, lists and leaves."""
        self.register(b"one")
        self.look_up(b"one")
        self.register(b"two", False)
        self.list()
        self.leave(b"one")
        self.is_gone(b"one")
        self.look_up(b"two")

    def slow(self):
        """A reader that takes its time, and a look-up beside it."""
        self.list("slow list", 2048, 0.2)
        self.look_up(b"two")

    def end(self):
        """All leave, and the daemon is killed by a request. Whether that had a reply."""
        for name in list(self.nodes):
            self.leave(name)

        def is_empty():
            s = self.send("list", NAMES)
            with s or contextlib.nullcontext():
                return self.read("list", s) == listed(self.daemon.port)
        self.until("names are still listed", is_empty)
        reply = self.ask("kill", KILL, b"OK")
        self.is_killed |= self.is_sent
        return reply is not None

    def runs_on(self):
        """Whether the daemon replies after a KILL whose reply was cut. Waits until it does or has ended."""
        self.until("it neither replies nor ends", lambda: self.ask("look up after a kill", port_please(b"none"), NOT_FOUND) is not None)
        return self.daemon.runs()
