"""Sockets that a service manager passes: which are served, which are refused, the line about -port and -address, and that the sockets outlive
the daemon."""
import os, socket, tempfile

from case import FAR, Case, OwnNetwork, beside
from shim import CALLS
from system import backlog_most, backlogs, eventually, has_ipv6, listener, listening_at, loopbacks, needs_ipv6
from wire import NAMES, alive, ask, dial, ending, ending_of, is_registered, listed, register, rest

WITHOUT_EFFECT = "epmd: sockets were handed over, so port and addresses are theirs"
RESTARTS = 6


class HandingCase(Case):
    def listener(self, address="127.0.0.1", port=0, only=False):
        return self.enterContext(listener(address, port, only))

    def both(self):
        """Two sockets of one port, one for each family."""
        port = self.free_port()
        return [self.listener("127.0.0.1", port), self.listener("::1", port, only=True)]

    def serves(self, daemon, sockets, *lines):
        """Whether it serves at each of these sockets, replies with the port of the first one, listens at no other, and prints these lines."""
        there = [s.getsockname()[:2] for s in sockets]
        for address, port in there:
            address = "::1" if address == "::" else address
            self.assertEqual(ask(port, NAMES, address), listed(there[0][1]), daemon.how())
            with register(port, b"one", address):
                self.assertTrue(is_registered(port, b"one", address))
            eventually(lambda: not is_registered(port, b"one", address))
        self.assertEqual(listening_at(daemon.pid), set(there))
        self.assertEqual(daemon.lines(), [*lines])

    def serves_itself(self, daemon, port):
        """Whether it serves at a socket of its own, and prints no line."""
        eventually(lambda: ("127.0.0.1", port) in listening_at(daemon.pid) or not daemon.runs())
        self.assertEqual(ask(port, NAMES), listed(port))
        self.assertEqual(daemon.lines(), [])


class Served(HandingCase):
    def test_one(self):
        for address in loopbacks():
            for blocks in True, False:
                for workers in "1", "4":
                    with self.subTest(address=address, blocks=blocks, workers=workers):
                        s = self.listener(address)
                        s.setblocking(blocks)
                        self.serves(self.handed([s], "-workers", workers), [s])

    def test_counters_that_cannot_be_written_close_no_port(self):
        s, pipe = self.listener(), self.path("pipe")
        os.mkfifo(pipe)
        self.serves(self.handed([s], "-figures", pipe), [s], f"epmd: {pipe}: what is there is not a plain file")

    @needs_ipv6
    def test_one_for_both_families(self):
        s = self.listener("::")
        daemon = self.handed([s])
        self.serves(daemon, [s])
        for address in loopbacks():  # A peer that comes by IPv4 is one of this host too.
            with register(daemon.port, b"one", address):
                self.assertEqual(ask(daemon.port, NAMES, address), listed(daemon.port, b"one"))
            self.leaves(daemon, b"one")

    def test_several(self):
        """Two of which the second blocks, nine, and two of one port."""
        blocks, nine = [self.listener(), self.listener()], [self.listener(loopbacks()[number % len(loopbacks())]) for number in range(9)]
        blocks[0].setblocking(False)
        for sockets, *words in (blocks, "-workers", "1"), (nine,), *([(self.both(),)] if has_ipv6() else []):
            self.serves(self.handed(sockets, *words), sockets)

    def test_a_burst_before_it_accepts(self):
        for address in loopbacks():
            s = self.listener(address)
            s.listen(7)
            daemon = self.handed([s])
            self.serves(daemon, [s])
            self.answers_a_burst(daemon, address)
            self.assertEqual(backlogs(daemon.port), [backlog_most()])

    @needs_ipv6
    def test_commands_find_one_at_ipv6(self):
        s = self.listener("::1", self.free_port())
        daemon = self.handed([s])
        self.serves(daemon, [s])
        head = f"epmd: up and running on port {daemon.port} with data:\n".encode()
        with register(daemon.port, b"one", "::1"):
            self.assertEqual(self.run_epmd("-port", str(daemon.port), "-names"), (0, head + b"name one at port 5000\n", b""))

    def test_earlier_connections_are_answered(self):
        """Those from before the daemon's start, also after the KILL of the daemon before it."""
        s = self.listener()
        port = s.getsockname()[1]
        for number in range(2):
            early = [self.enterContext(dial(port)) for _ in range(20)]
            for one in early:
                one.sendall(NAMES)
            daemon = self.handed([s])
            for one in early:
                self.assertEqual(rest(one), listed(port))
            self.ends(daemon)


class NotHanded(HandingCase):
    """Sockets of another process are left unchanged, and the daemon has its own."""

    def has_its_own(self, **how):
        s = self.listener()
        waits = self.enterContext(dial(s.getsockname()[1]))
        waits.sendall(NAMES)
        port = self.free_port()
        self.serves_itself(self.handed([s], "-port", str(port), "-address", "127.0.0.1", **how), port)
        waits.settimeout(0.3)  # The daemon had all the time of the later request.
        self.assertRaises(TimeoutError, waits.recv, 1)

    def test_of_another_process_or_no_sockets(self):
        for key, value in [("own", own) for own in ("1", "0", "-1", "x", "", "9" * 20)] + [("count", count) for count in ("0", "", "x")]:
            with self.subTest(key, value=value):
                self.has_its_own(**{key: value})


class Refused(HandingCase):
    def is_refused(self, sockets, number, **how):
        daemon = self.handed(sockets, **how)
        self.assertEqual(daemon.ended(60), (1, f"epmd: descriptor {number} is no listening socket"))

    def test_anything_but_a_listening_socket(self):
        good = self.listener()
        near, far = socket.socketpair()
        unix, datagrams, unbound = (socket.socket(*kind) for kind in (
            (socket.AF_UNIX,), (socket.AF_INET, socket.SOCK_DGRAM), (socket.AF_INET,)))
        unix.bind(self.path("socket"))
        unix.listen()
        datagrams.bind(("127.0.0.1", 0))
        connected = dial(good.getsockname()[1])
        things = {"a file": tempfile.TemporaryFile(), "one of a pair": near, "a Unix socket": unix, "datagrams": datagrams,
                  "a connection": connected, "a socket without an address": unbound}
        for name, thing in things.items():
            self.enterContext(thing)
            with self.subTest(name):
                self.is_refused([thing], 3)
                self.is_refused([good, thing], 4)
        far.close()

    def test_fewer_than_the_count(self):
        self.is_refused([self.listener()], 4, count="2")
        self.is_refused([self.listener() for _ in range(8)], 11, count="9")

    def test_a_socket_that_the_system_cannot_describe(self):
        s = self.listener()
        for error in CALLS["getsockopt"].split():
            with self.subTest(error=error):
                faults = self.faults("getsockopt", 1, error)
                self.is_refused([s], 3, env=faults.env)
                self.assertEqual(faults.refused, 1)


class WithoutEffect(HandingCase):
    """The line that port and addresses have no effect comes once if one of them was given, and not otherwise."""

    def test_the_line(self):
        for words, env, lines in (
                (("-port", "4371"), {}, 1), (("-address", "127.0.0.2"), {}, 1), ((), {"ERL_EPMD_PORT": "4371"}, 1),
                (("-port", "4371", "-address", "127.0.0.2"), {"ERL_EPMD_PORT": "4372"}, 1),
                (("-workers", "2", "-address", "127.0.0.1,127.0.0.2"), {}, 1),
                ((), {}, 0), (("-workers", "2", "-packet_timeout", "30", "-d", "-daemon"), {}, 0),
                (("-relaxed_command_check",), {"ERL_EPMD_RELAXED_COMMAND_CHECK": "yes"}, 0), ((), {"ERL_EPMD": "4371"}, 0)):
            with self.subTest(words=words, env=env):
                s = self.listener()
                self.serves(self.handed([s], *words, env=env), [s], *[WITHOUT_EFFECT] * lines)

    def test_no_line_without_sockets(self):
        port = self.free_port()
        for words, env in ((("-port", str(port), "-address", "127.0.0.1"), {}), (("-address", "127.0.0.1"), {"ERL_EPMD_PORT": str(port)})):
            with self.subTest(words=words, env=env):
                daemon = self.handed([], *words, count="", own="", env=env)
                self.serves_itself(daemon, port)
                daemon.stop()


class Outlasts(HandingCase):
    """One daemon after another serves at the same sockets. No connection is refused meanwhile."""

    def outlasts(self, sockets, addresses):
        port, counts = sockets[0].getsockname()[1], {"whole": 0, "cut": 0}
        wholes = listed(port), listed(port, b"one")

        def asks(number, over):
            while not over.is_set():
                try:
                    with dial(port, addresses[number]) as s:
                        s.sendall(NAMES)
                        counts["whole" if ending(s)[0] in wholes else "cut"] += 1
                except (ConnectionResetError, BrokenPipeError):
                    counts["cut"] += 1
        with beside(asks, len(addresses)):
            for _ in range(RESTARTS):
                before = counts["whole"]
                with self.handed(sockets) as daemon:
                    eventually(lambda: counts["whole"] >= before + 50 or not daemon.runs(), f"a reply of {counts}")
                    with register(port, b"one", addresses[0]):
                        self.assertTrue(is_registered(port, b"one", addresses[0]))
                    self.assertEqual(daemon.lines(), [])
            last = self.handed(sockets)
            eventually(lambda: ask(port, NAMES) == listed(port))
        # Only replies in the making are cut when a daemon is killed.
        self.assertLessEqual(counts["cut"], RESTARTS * len(addresses), counts)
        self.ends(last)

    def test_one_socket(self):
        self.outlasts([self.listener()], ["127.0.0.1"] * 4)

    @needs_ipv6
    def test_one_socket_for_both_families(self):
        self.outlasts([self.listener("::")], loopbacks() * 2)

    @needs_ipv6
    def test_two_sockets(self):
        self.outlasts(self.both(), loopbacks() * 2)


class FromAnotherHost(HandingCase, OwnNetwork):
    """A socket for both families gives peers of IPv4 an address of IPv6: by it the daemon finds which are of another host."""

    def test_only_peers_of_this_host_register(self):
        if not has_ipv6():
            self.skipTest("the host has no IPv6")
        daemon = self.handed([self.listener("::")])
        for address in "127.0.0.1", FAR[0]:
            with register(daemon.port, b"one", address, address):
                self.assertTrue(is_registered(daemon.port, b"one"))
            self.leaves(daemon, b"one")
        self.assertEqual(ask(daemon.port, NAMES, *FAR), listed(daemon.port))
        self.assertEqual(ending_of(daemon.port, alive(b"far"), *FAR), b"")
        self.assertFalse(is_registered(daemon.port, b"far"))
