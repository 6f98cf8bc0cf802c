"""Requests and replies in bytes as docs/FORMATS.md has them, and what comes over a connection."""
import contextlib, select, socket, struct

from system import PATIENCE, family_of

NOT_FOUND = b"w\1"
TAKEN, TAKEN_SHORT = b"v\1\0\0\0\0", b"y\1\0\0"


# ---- bytes


def framed(body):
    return struct.pack(">H", len(body)) + body


def node(name, number=5000, kind=77, protocol=0, highest=6, lowest=5, extra=b""):
    """The fields of a node, from its port to its extra bytes."""
    return struct.pack(">HBBHHH", number, kind, protocol, highest, lowest, len(name)) + name + struct.pack(">H", len(extra)) + extra


def alive(name, **fields):
    """The whole request that registers a node."""
    return framed(b"x" + node(name, **fields))


def port_please(name):
    return framed(b"z" + name)


def stop(name):
    return framed(b"s" + name)


def found(name, **fields):
    return b"w\0" + node(name, **fields)


def listed(port, *nodes):
    """The reply to NAMES, of nodes by their names, or by their names and ports."""
    return struct.pack(">I", port) + b"".join(
        b"name %s at port %d\n" % (each if isinstance(each, tuple) else (each, 5000)) for each in nodes)


NAMES, DUMP, KILL = framed(b"n"), framed(b"d"), framed(b"k")


# ---- connections


def dial(port, address="127.0.0.1", source=None, room=None, seconds=PATIENCE):
    """A connection, if given from this address, and with that much room for unread bytes."""
    s = socket.socket(family_of(address))
    try:
        s.settimeout(seconds)
        if room:
            s.setsockopt(socket.SOL_SOCKET, socket.SO_RCVBUF, room)
        s.setsockopt(socket.IPPROTO_TCP, socket.TCP_NODELAY, 1)
        if source:
            s.bind((source, 0))
        s.connect((address, port))
    except OSError:
        s.close()
        raise
    return s


def exactly(s, count):
    """That many bytes, or fewer if the other end closes. A reset is an error."""
    got = b""
    while len(got) < count and (piece := s.recv(min(65536, count - len(got)))):
        got += piece
    return got


def rest(s):
    """All bytes until the other end closes. A reset is an error."""
    return exactly(s, 1 << 40)


def ending(s, most=1 << 40):
    """At most that many bytes, and whether the connection then has an `end` or a `reset`."""
    got = b""
    try:
        while len(got) < most and (piece := s.recv(min(65536, most - len(got)))):
            got += piece
    except (ConnectionResetError, BrokenPipeError):
        return got, "reset"
    return got, "end"


def read_most(s, most=1 << 40):
    """The bytes of `ending`, or None if the peer is silent."""
    try:
        return ending(s, most)[0]
    except TimeoutError:
        return None


def ask(port, request, *at):
    """The whole reply to the bytes of a request."""
    with dial(port, *at) as s:
        s.sendall(request)
        return rest(s)


def ending_of(port, request, *at):
    """The bytes that come back until a close or a reset. More may have been sent than is read, so after no byte a reset is right too."""
    with dial(port, *at) as s:
        with contextlib.suppress(ConnectionResetError, BrokenPipeError):
            s.sendall(request)
        return ending(s)[0]


def result(s):
    """The result of a registration: 0, 1 or 2. None if the connection was closed or reset without one."""
    head = ending(s, 2)[0]
    if len(head) == 2:
        exactly(s, {b"v": 4, b"y": 2}[head[:1]])
        return head[1]
    return None


def register(port, name, *at, **fields):
    """The connection that holds a name, as soon as it does."""
    s = dial(port, *at)
    s.sendall(alive(name, **fields))
    answer = result(s)
    if answer != 0:
        s.close()
        raise AssertionError(f"the registration of {name!r} at {at} had the result {answer}")
    return s


def is_registered(port, name, *at):
    return ask(port, port_please(name), *at) != NOT_FOUND


def is_open(s):
    """Whether the peer has this connection open, as far as this end knows."""
    poll = select.poll()
    poll.register(s, select.POLLIN)
    with contextlib.suppress(OSError):
        return not poll.poll(0) or s.recv(1, socket.MSG_PEEK) != b""
    return False


def reset(s):
    """Closes a connection by a reset."""
    s.setsockopt(socket.SOL_SOCKET, socket.SO_LINGER, struct.pack("ii", 1, 0))
    s.close()

