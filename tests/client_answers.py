"""Reads replies by the client for C and by a reader that knows nothing but how FORMATS spells them, which have to agree: each prefix of each
reply, and many that were changed at some places. `make client` makes build/libepmd_client.so.

usage: client_answers.py [how many changed replies]"""
import ctypes, os, random, struct, sys

HERE = os.path.dirname(os.path.abspath(__file__))
sys.path.append(os.path.join(HERE, "helpers"))
from wire import listed, node

OK, SHORT, BAD_TAG, STRANGE, REFUSED, NOT_REGISTERED, STRANGE_LINE, LIST_END = 0, 5, 6, 7, 8, 9, 10, 11
U32, SIZE = ctypes.c_uint32, ctypes.c_size_t
# The structs of the header: creation, code; name, extra (each an offset and a size), port, highest, lowest, kind, protocol; name, port.
ALIVE, FOUND, LINE = struct.Struct("@IB3x"), struct.Struct("@4N3H2B"), struct.Struct("@2NH6x")


# ---- what the library returns


def called(call, data, *places):
    return call(ctypes.c_char_p(bytes(data)), SIZE(len(data)), *map(ctypes.byref, places))


def library_alive(library, data):
    alive = ctypes.create_string_buffer(ALIVE.pack(77, 77), ALIVE.size)
    return called(library.epmd_alive_missing, data), called(library.epmd_read_alive, data, alive), *ALIVE.unpack(alive)


def library_port2(library, data):
    found = ctypes.create_string_buffer(FOUND.size)
    status = called(library.epmd_read_port2, data, found)
    name, name_size, extra, extra_size, port, highest, lowest, kind, protocol = FOUND.unpack(found)
    fields = port, kind, protocol, highest, lowest, data[name:name + name_size], data[extra:extra + extra_size]
    return called(library.epmd_port2_missing, data), status, fields if status == OK else None


def library_names(library, data):
    port, place, line, lines = U32(77), SIZE(77), ctypes.create_string_buffer(LINE.size), []
    status = called(library.epmd_read_list, data, port, place)
    head = status, port.value, place.value
    if status != OK:
        place.value = 0
    while (status := called(library.epmd_read_names_line, data, place, line)) == OK:
        at, size, number = LINE.unpack(line)
        lines.append((data[at:at + size], number))
    return head, status, lines


# ---- what FORMATS says


def is_name(name):
    return 1 <= len(name) <= 1020 and all(b >= 32 and b != 127 for b in name)


def missing(data, size):
    """How many bytes are missing of that many, with the status of a short reply; None if none is."""
    return (size - len(data), SHORT) if len(data) < size else None


def own_alive(data):
    short = missing(data, 1) or (data[0] not in (118, 121) and (0, BAD_TAG)) or missing(data, 2)
    if not short and data[1]:
        return 0, REFUSED, 0, data[1]
    size = 6 if data[:1] == b"v" else 4
    short = short or missing(data, size)
    return (*short, 77, 77) if short else (0, OK, int.from_bytes(data[2:size], "big"), 0)


def own_port2(data):
    # The fields are PortNo 2, NodeType 1, Protocol 1, HighestVersion 2, LowestVersion 2, Nlen 2, name, Elen 2, extra.
    short = (missing(data, 1) or (data[0] != 119 and (0, BAD_TAG)) or missing(data, 2) or (data[1] and (0, NOT_REGISTERED))
             or missing(data, 14))
    if short:
        return *short, None
    *numbers, name_size = struct.unpack(">HBBHHH", data[2:12])
    short = missing(data, 14 + name_size)
    if short:
        return *short, None
    extra_size, = struct.unpack(">H", data[12 + name_size:14 + name_size])
    short = missing(data, 14 + name_size + extra_size)
    if short:
        return *short, None
    name, extra = data[12:12 + name_size], data[14 + name_size:14 + name_size + extra_size]
    if not is_name(name) or 13 + name_size + extra_size > 8192:
        return 0, STRANGE, None
    return 0, OK, (*numbers, name, extra)


def own_line(text):
    """A line without its byte 10: `name NAME at port PORT`, the last ` at port ` being the one between the two."""
    start, middle, digits = text.rpartition(b" at port ")
    if not middle or not start.startswith(b"name ") or not is_name(start[5:]):
        return None
    if not 1 <= len(digits) <= 5 or any(b not in b"0123456789" for b in digits) or int(digits) > 65535:
        return None
    return start[5:], int(digits)


def own_names(data):
    if len(data) < 4:
        return (SHORT, 77, 77), SHORT, []
    head, lines, rest = (OK, int.from_bytes(data[:4], "big"), 4), [], data[4:]
    while rest:
        text, ended, rest = rest.partition(b"\n")
        line = own_line(text) if ended else None
        if line is None:
            return head, STRANGE_LINE, lines
        lines.append(line)
    return head, LIST_END, lines


# ---- replies


def port2(name, extra, number=5000, kind=77, highest=6, lowest=5, protocol=0):
    return b"w\0" + node(name, number, kind, protocol, highest, lowest, extra)


REPLIES = {
    "alive": (library_alive, own_alive, [b"v\0\0\0\0\4", b"v\0\xff\xff\xff\xff", b"v\1\0\0\0\0", b"y\0\0\3", b"y\2\0\0"]),
    "port2": (library_port2, own_port2, [b"w\1", port2(b"a", b""), port2(b"n\xc3\xa9 at port 7", b"\0\1\n"), port2(b"x" * 1020, b"e" * 7159),
                                         port2(b"long" * 8, b"more" * 5, 65535, 72, 0, 65535, 255)]),
    "names": (library_names, own_names, [listed(4369), listed(4369, b"a"), listed(0xFFFFFFFF, (b"a at port 5", 7)) + b"name b at port 00012\n",
                                         listed(4369, *((b"n%d" % i, 60000 + i) for i in range(9)))]),
}
# What a change inserts: bytes that mean something.
BYTES = bytes([0, 1, 2, 3, 5, 9, 10, 31, 32, 48, 57, 58, 110, 112, 118, 119, 121, 126, 127, 128, 255])


def changed(chance, data):
    data = bytearray(data[:300]) if chance.random() < 0.9 else bytearray(data)
    for _ in range(chance.choice((1, 1, 1, 2, 3, 6))):
        place = chance.randrange(len(data) + 1)
        way = chance.randrange(4)
        if way == 0 and data:
            data[min(place, len(data) - 1)] = chance.choice(BYTES)
        elif way == 1:
            data[place:place] = bytes(chance.choice(BYTES) for _ in range(chance.randint(1, 4)))
        elif way == 2:
            del data[place:place + chance.randint(1, 8)]
        else:
            data = data[:place]
    return bytes(data)


def main(most=100_000):
    library, chance, text = ctypes.CDLL(os.path.join(HERE, "..", "build", "libepmd_client.so")), random.Random(49), ""
    library.epmd_alive_missing.restype = library.epmd_port2_missing.restype = SIZE
    for kind, (by_library, own, replies) in REPLIES.items():
        cases = [data[:size] for data in replies for size in range(len(data) + 1)]
        cases += [changed(chance, chance.choice(replies)) for _ in range(most // len(REPLIES) + 1)]
        read = 0
        for data in cases:
            wanted, got = own(data), by_library(library, data)
            assert got == wanted, f"{kind}: {data.hex()}: {got}, not {wanted}"
            read += wanted[1] in (OK, LIST_END)
        text += f"{kind}: {len(cases)} replies, {read} of them read; "
    return text


if __name__ == "__main__":
    print(main(*map(int, sys.argv[1:])))
