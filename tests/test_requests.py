"""The reply to each request, over sockets of both families: the bytes of replies, requests that come in parts or one after another, and
malformed requests. The wanted bytes are those of docs/FORMATS.md and docs/PROTOCOL.md."""
import re, struct, time

from case import NEVER, Case
from system import eventually, listening_at, loopbacks
from wire import (DUMP, KILL, NAMES, NOT_FOUND, TAKEN, TAKEN_SHORT, alive, ask, dial, ending, ending_of, exactly, found, framed, is_open,
                  listed, node, port_please, rest, stop)

NAME_MOST, BODY_MOST = 1020, 8192
EXAMPLE = bytes.fromhex("000e 78 1388 4d 00 0006 0005 0001 61 0000")  # The one of docs/FORMATS.md.


class OverIPv4(Case):
    """The tests, at an address of one family."""

    address, WORDS = "127.0.0.1", ()

    def setUp(self):
        super().setUp()
        if self.address not in loopbacks():
            self.skipTest("the host has no IPv6")
        self.served = self.start()

    def start(self, *words, **how):
        daemon = self.daemon(*NEVER, *self.WORDS, *words, **how)
        eventually(lambda: (self.address, daemon.port) in listening_at(daemon.pid) or not daemon.runs())
        return daemon

    def ask(self, request):
        return ask(self.served.port, request, self.address)

    def dial(self, *data):
        s = self.enterContext(dial(self.served.port, self.address))
        for piece in data:
            s.sendall(piece)
        return s

    def holds(self, name, **fields):
        """The connection that holds a name, and the creation."""
        s = self.dial(alive(name, **fields))
        size = 6 if fields.get("highest", 6) >= 6 else 4
        answer = exactly(s, size)
        self.assertEqual(answer[:2], b"v\0" if size == 6 else b"y\0")
        return s, int.from_bytes(answer[2:], "big")

    def is_dropped(self, data):
        """Whether the connection is closed without a reply."""
        self.assertEqual(ending_of(self.served.port, data, self.address), b"", data[:40])

    def closes(self, s, name):
        s.close()
        self.leaves(self.served, name, self.address)

    def lists(self, *nodes):
        self.assertEqual(self.ask(NAMES), listed(self.served.port, *nodes))

    # ---- replies

    def test_the_example(self):
        s = self.dial(EXAMPLE)
        answer = exactly(s, 6)
        self.assertEqual(answer[:2], b"v\0")
        self.assertGreaterEqual(int.from_bytes(answer[2:], "big"), 4)
        self.assertEqual(self.ask(bytes.fromhex("0002 7a 61")), bytes.fromhex("77 00 1388 4d 00 0006 0005 0001 61 0000"))
        self.assertEqual(self.ask(bytes.fromhex("0001 6e")), struct.pack(">I", self.served.port) + b"name a at port 5000\n")

    def test_the_version_selects_the_reply(self):
        for highest in 0, 5, 6, 7, 65535:
            with self.subTest(highest=highest):
                name = b"v%d" % highest
                s, creation = self.holds(name, highest=highest)
                self.assertTrue(creation >= 4 if highest >= 6 else 1 <= creation <= 3, creation)
                again = self.dial(alive(name, highest=highest))
                self.assertEqual(rest(again), TAKEN if highest >= 6 else TAKEN_SHORT)
                self.closes(s, name)

    def test_fields_come_back_as_they_came(self):
        for number, fields in enumerate((
            {"number": 0, "kind": 0, "protocol": 0, "highest": 0, "lowest": 0},
            {"number": 65535, "kind": 255, "protocol": 255, "highest": 65535, "lowest": 65535},
            {"kind": 72, "protocol": 1, "highest": 5, "lowest": 6},
            {"extra": bytes(range(256))}, {"extra": b"\n" * 1000},
        )):
            with self.subTest(fields=fields):
                name = b"n%d" % number
                self.holds(name, **fields)
                self.assertEqual(self.ask(port_please(name)), found(name, **fields))

    def test_names(self):
        names = [b"a", b"A", b"x" * NAME_MOST, b" ", b"name a at port 5000", b"\x80\xff\xfe", "\u00e9\u4e2d".encode(), b"~!@#$%^&*()"]
        for name in names:
            with self.subTest(name=name[:20]):
                self.holds(name, number=1)
                self.assertEqual(self.ask(port_please(name)), found(name, number=1))
        self.lists(*((name, 1) for name in names))
        for name in b"b", b"x" * (NAME_MOST - 1), b"aa", b"\x80\xff":
            self.assertEqual(self.ask(port_please(name)), NOT_FOUND)

    def test_bad_names(self):
        for name in b"", b"x" * (NAME_MOST + 1), b"\0", b"a\nb", b"a\x1f", b"\x7f", b"a\x7fb":
            with self.subTest(name=name[:20]):
                for request in alive(name), port_please(name), stop(name):
                    self.is_dropped(request)
        self.lists()

    def test_lists_are_in_order_of_registration(self):
        self.lists()
        held = {name: self.holds(name, number=ord(name))[0] for name in (b"c", b"a", b"d", b"b")}
        self.lists((b"c", 99), (b"a", 97), (b"d", 100), (b"b", 98))
        for name in b"d", b"c":
            self.closes(held.pop(name), name)
        self.lists((b"a", 97), (b"b", 98))
        self.assertEqual(self.dumped(), [(b"a", 97, True), (b"b", 98, True), (b"d", 100, False), (b"c", 99, False)])
        held[b"d"], _ = self.holds(b"d", number=1)
        self.lists((b"a", 97), (b"b", 98), (b"d", 1))
        self.assertEqual(self.dumped(), [(b"a", 97, True), (b"b", 98, True), (b"d", 1, True), (b"c", 99, False)])

    def dumped(self):
        """The names of a DUMP, with their ports and whether they are active. No two of these have the same connection."""
        text = self.ask(DUMP)
        self.assertEqual(text[:4], struct.pack(">I", self.served.port))
        lines = re.fullmatch(rb"((active name     \S+ at port \d+, fd = \d+|old/unused name \S+ at port \d+, fd = -1)\n)*", text[4:])
        self.assertTrue(lines, text)
        rows = re.findall(rb"(\S+) name +(\S+) at port (\d+), fd = (-?\d+)\n", text[4:])
        slots = [slot for _, _, _, slot in rows if slot != b"-1"]
        self.assertEqual(len(slots), len(set(slots)), text)
        return [(name, int(port), state == b"active") for state, name, port, _ in rows]

    def test_a_long_list(self):
        names = [b"%04d" % number + b"x" * 900 for number in range(300)]
        for name in names:
            self.holds(name)
        self.lists(*names)
        self.assertEqual(self.dumped(), [(name, 5000, True) for name in names])

    # ---- creations

    def test_a_creation_is_never_the_last_one_of_its_name(self):
        seen = []
        for _ in range(20):
            s, creation = self.holds(b"one")
            seen.append(creation)
            self.closes(s, b"one")
        self.assertTrue(all(4 <= creation < 1 << 32 for creation in seen), seen)
        self.assertTrue(all(a != b for a, b in zip(seen, seen[1:])), seen)

    def test_short_creations_go_round(self):
        seen = []
        for highest in 5, 5, 5, 5, 6, 5, 5:
            s, creation = self.holds(b"one", highest=highest)
            seen.append(creation)
            self.closes(s, b"one")
        self.assertEqual(seen[:4] + seen[5:], [1, 2, 3, 1, 1, 2])

    def test_two_names_have_their_own_creations(self):
        (_, one), (_, two) = (self.holds(name) for name in (b"one", b"two"))
        self.assertEqual(two, one + 1 if one < (1 << 32) - 1 else 4)

    def test_a_daemon_that_starts_again_gives_other_creations(self):
        creations = set()
        for _ in range(3):
            creations.add(self.holds(b"one")[1])
            self.served = self.start()
        self.assertEqual(len(creations), 3)  # Each begins at the nanoseconds of its start.

    # ---- KILL and STOP

    def test_kill(self):
        """Strict, and relaxed by a word or by the environment."""
        for words, env in ((), {}), (("-relaxed_command_check",), {}), ((), {"ERL_EPMD_RELAXED_COMMAND_CHECK": ""}):
            with self.subTest(words=words, env=env):
                self.served = self.start(*words, env=env)
                s, _ = self.holds(b"one")
                if not words and not env:
                    self.assertEqual(self.ask(KILL), b"NO")
                    self.lists(b"one")
                    self.closes(s, b"one")
                    s = self.dial(b"\0")
                self.ends(self.served, at=self.address)
                self.assertEqual(ending(s)[0], b"")

    def test_stop(self):
        self.holds(b"one")
        self.is_dropped(stop(b"one"))
        self.is_dropped(stop(b"two"))
        self.lists(b"one")

    def test_stop_if_checks_are_relaxed(self):
        self.served = self.start("-relaxed_command_check")
        owner, first = self.holds(b"one")
        self.holds(b"two")
        self.assertEqual(self.ask(stop(b"on")), b"NOEXIST")
        self.assertEqual(self.ask(stop(b"one")), b"STOPPED")
        self.assertEqual(ending(owner)[0], b"")
        self.assertEqual(self.ask(stop(b"one")), b"NOEXIST")
        self.assertEqual(self.dumped(), [(b"two", 5000, True), (b"one", 5000, False)])
        _, again = self.holds(b"one")
        self.assertNotEqual(again, first)

    # ---- pieces

    def cut(self, *requests):
        """The connections of requests that come in two parts, each cut one byte later than the one before."""
        cut = [(self.dial(request[:at]), request[at:]) for at, request in enumerate(requests, 1)]
        time.sleep(0.1)  # Enough for the first parts to be read alone mostly. If not the replies are the same.
        for s, more in cut:
            s.sendall(more)
        return [s for s, _ in cut]

    def test_cut_at_each_place(self):
        self.holds(b"one", extra=b"more")
        for request, wanted in ((NAMES, listed(self.served.port, b"one")), (port_please(b"one"), found(b"one", extra=b"more")),
                                (port_please(b"other"), NOT_FOUND), (KILL, b"NO"), (stop(b"one"), b"")):
            with self.subTest(request=request):
                for s in self.cut(*[request] * (len(request) - 1)):
                    self.assertEqual(rest(s), wanted)
        for s in self.cut(DUMP, DUMP):
            self.assertRegex(rest(s), rb"(?s)^.{4}active name     one at port 5000, fd = \d+\n$")
        names = [b"cut%02d" % at for at in range(1, len(alive(b"cut00", extra=b"extra")))]
        for s in self.cut(*(alive(name, extra=b"extra") for name in names)):
            self.assertEqual(exactly(s, 6)[:2], b"v\0")
        for name in names:
            self.assertEqual(self.ask(port_please(name)), found(name, extra=b"extra"))

    def test_byte_by_byte(self):
        asking = [(self.dial(), request) for request in (alive(b"one"), port_please(b"nobody"), NAMES)]
        for at in range(max(len(request) for _, request in asking)):
            for s, request in asking:
                if at < len(request):
                    s.sendall(request[at:at + 1])
            time.sleep(0.005)
        self.assertEqual(exactly(asking[0][0], 6)[:2], b"v\0")
        self.assertEqual(rest(asking[1][0]), NOT_FOUND)
        self.assertEqual(rest(asking[2][0]), listed(self.served.port))

    def test_the_longest_request(self):
        extra = bytes(range(256)) * 32
        extra = extra[:BODY_MOST - len(b"x" + node(b"one"))]
        request = alive(b"one", extra=extra)
        self.assertEqual(len(request), 2 + BODY_MOST)
        s = self.dial(request[:5000])
        time.sleep(0.05)
        s.sendall(request[5000:])
        self.assertEqual(exactly(s, 6)[:2], b"v\0")
        self.assertEqual(self.ask(port_please(b"one")), found(b"one", extra=extra))
        self.is_dropped(alive(b"two", extra=extra + b"x"))

    def test_a_request_that_ends_early(self):
        for request in alive(b"one"), NAMES, port_please(b"one"):
            for at in range(len(request)):
                with self.subTest(request=request, at=at):
                    s = self.dial(request[:at])
                    s.shutdown(1)
                    self.assertEqual(ending(s)[0], b"")
        self.lists()

    def test_a_peer_that_sends_no_more_is_answered(self):
        self.holds(b"one")
        for request, wanted in (NAMES, listed(self.served.port, b"one")), (port_please(b"one"), found(b"one")), (alive(b"one"), TAKEN):
            s = self.dial(request)
            s.shutdown(1)
            self.assertEqual(rest(s), wanted)

    def test_bytes_after_a_request_are_dropped(self):
        self.holds(b"one")
        for request, wanted in (NAMES, listed(self.served.port, b"one")), (port_please(b"one"), found(b"one")), (KILL, b"NO"):
            for more in request, alive(b"two"), b"\0", b"\xff" * 5000:
                with self.subTest(request=request, more=more[:20]):
                    self.assertEqual(ending(self.dial(request + more))[0], wanted)
        self.lists(b"one")

    def test_bytes_of_a_registered_node_are_dropped(self):
        for number, more in enumerate((NAMES, alive(b"other"), KILL, b"\0", b"\xff" * 100_000)):
            with self.subTest(more=more[:20]):
                name = b"one%d" % number
                s = self.dial(alive(name) + more)
                self.assertEqual(exactly(s, 6)[:2], b"v\0")
                s.sendall(more)
                self.assertEqual(self.ask(port_please(name)), found(name))
                self.assertTrue(is_open(s))
        self.assertEqual(self.ask(port_please(b"other")), NOT_FOUND)
        self.assertTrue(self.served.runs())

    # ---- malformed requests

    def test_a_bad_length_is_refused_at_once(self):
        for length in 0, BODY_MOST + 1, 0xFFFF:
            with self.subTest(length=length):
                s = self.dial(struct.pack(">H", length))
                self.assertEqual(rest(s), b"")
        s = self.dial(struct.pack(">H", BODY_MOST))  # The longest is kept open.
        self.is_dropped(b"\0\0")
        self.assertTrue(is_open(s))

    def test_malformed_requests(self):
        self.holds(b"one")
        fields = node(b"two")
        bodies = [bytes([tag]) + rest for tag in range(256) if tag not in b"nzxdks" for rest in (b"", b"one")]
        bodies += [tag + b"x" for tag in (b"n", b"d", b"k")] + [tag + b"\0" for tag in (b"n", b"d", b"k")]
        bodies += [b"x" + fields[:at] for at in range(len(fields))]
        bodies += [b"x" + fields + b"\0", b"x" + fields[:-2] + b"\0\1", b"x" + fields[:-2] + b"\xff\xff", b"x" + fields + b"extra"]
        bodies += [b"x" + fields[:8] + struct.pack(">H", length) + b"two" + b"\0\0" for length in (0, 2, 4, 5, 0xFFFF)]
        for body in bodies:
            self.is_dropped(framed(body))
        self.lists(b"one")


class OverIPv6(OverIPv4):
    address = "::1"


class OneWorker(OverIPv4):
    WORDS = "-workers", "1"
