#!/usr/bin/env python3
"""Registers a node until its input ends, looks one up, or lists all of them, at the port mapper of this host.

    ./example.py register PORT-OF-EPMD NAME PORT
    ./example.py lookup PORT-OF-EPMD NAME
    ./example.py names PORT-OF-EPMD

The library is looked for where the system looks, or at the path in EPMD_CLIENT.
"""
import ctypes
import os
import socket
import struct
import sys

OK, REFUSED, NOT_REGISTERED, LIST_END, BUFFER_TOO_SMALL = 0, 8, 9, 11, 18
BODY_MOST = 8192


class Node(ctypes.Structure):
    """The numbers that a node registers."""
    _fields_ = [("port", ctypes.c_uint16), ("highest", ctypes.c_uint16), ("lowest", ctypes.c_uint16), ("kind", ctypes.c_uint8),
                ("protocol", ctypes.c_uint8)]


class Text(ctypes.Structure):
    """Where a text lies in bytes."""
    _fields_ = [("at", ctypes.c_size_t), ("size", ctypes.c_size_t)]

    def within(self, data):
        return data[self.at:self.at + self.size]


class Found(ctypes.Structure):
    """What is registered under a name."""
    _fields_ = [("name", Text), ("extra", Text), ("node", Node)]


class Alive(ctypes.Structure):
    """What a port mapper answered to a registration."""
    _fields_ = [("creation", ctypes.c_uint32), ("code", ctypes.c_uint8)]


class Line(ctypes.Structure):
    """A line of the list of names."""
    _fields_ = [("name", Text), ("port", ctypes.c_uint16)]


class Fault(Exception):
    """A call failed, with this status of epmd_client.h, and for a registration that was refused with its result."""


LIBRARY = ctypes.CDLL(os.environ.get("EPMD_CLIENT", "libepmd_client.so.0"))
INT, SIZE, BYTES, PLACE = ctypes.c_int32, ctypes.c_size_t, ctypes.c_char_p, ctypes.POINTER(ctypes.c_size_t)
for call, words in {"register": [INT, ctypes.POINTER(Node), BYTES, SIZE, BYTES, SIZE, ctypes.POINTER(Alive)],
                    "lookup": [INT, BYTES, SIZE, BYTES, SIZE, ctypes.POINTER(Found)],
                    "names": [INT, BYTES, SIZE, PLACE],
                    "read_list": [BYTES, SIZE, ctypes.POINTER(ctypes.c_uint32), PLACE],
                    "read_names_line": [BYTES, SIZE, PLACE, ctypes.POINTER(Line)]}.items():
    getattr(LIBRARY, f"epmd_{call}").argtypes = words


def connected(port):
    """A connection for one call. One read or write waits for 10 ms, and a call for at most 1,000 of them."""
    stream = socket.create_connection(("127.0.0.1", port))
    for side in socket.SO_RCVTIMEO, socket.SO_SNDTIMEO:
        stream.setsockopt(socket.SOL_SOCKET, side, struct.pack("ll", 0, 10000))
    return stream


def register(stream, name, node, extra=b""):
    """Registers a node until the connection is closed, and gives its creation."""
    alive = Alive()
    status = LIBRARY.epmd_register(stream.fileno(), node, name, len(name), extra, len(extra), alive)
    if status != OK:
        raise Fault(status, alive.code)
    return alive.creation


def lookup(stream, name):
    """What is registered under a name, its name and its extra bytes; none where nothing is."""
    texts, found = ctypes.create_string_buffer(BODY_MOST), Found()
    status = LIBRARY.epmd_lookup(stream.fileno(), name, len(name), texts, len(texts), found)
    if status == NOT_REGISTERED:
        return None
    if status != OK:
        raise Fault(status)
    return found.node, found.name.within(texts.raw), found.extra.within(texts.raw)


def names(connect):
    """The registered names and their ports. A list that is larger than there was room for is asked for again."""
    room = 4096
    while True:
        with connect() as stream:
            out, size = ctypes.create_string_buffer(room), SIZE()
            status = LIBRARY.epmd_names(stream.fileno(), out, room, size)
        if status == OK:
            return lines(out.raw[:size.value])
        if status != BUFFER_TOO_SMALL:
            raise Fault(status)
        room = 2 * size.value


def lines(data):
    port, at, line, found = ctypes.c_uint32(), SIZE(), Line(), []
    status = LIBRARY.epmd_read_list(data, len(data), port, at)
    while status == OK:
        status = LIBRARY.epmd_read_names_line(data, len(data), at, line)
        if status == OK:
            found.append((line.name.within(data), line.port))
    if status != LIST_END:
        raise Fault(status)
    return found


def main(words):
    match words:
        case ["register", epmd_port, name, port]:
            with connected(int(epmd_port)) as stream:
                try:
                    print("creation", register(stream, name.encode(), Node(int(port), 6, 5, 72, 0)), flush=True)
                except Fault as fault:
                    if fault.args[0] != REFUSED:
                        raise
                    print("refused", fault.args[1])
                    return 1
                sys.stdin.read()
        case ["lookup", epmd_port, name]:
            with connected(int(epmd_port)) as stream:
                found = lookup(stream, name.encode())
            if found is None:
                print("not registered")
            else:
                node, own, extra = found
                print(f"{own.decode()} at port {node.port}, kind {node.kind}, versions {node.lowest} to {node.highest}, {len(extra)} extra bytes")
        case ["names", epmd_port]:
            for name, port in names(lambda: connected(int(epmd_port))):
                print(f"{name.decode()} at port {port}")
        case _:
            print(__doc__, file=sys.stderr)
            return 2
    return 0


if __name__ == "__main__":
    sys.exit(main(sys.argv[1:]))
