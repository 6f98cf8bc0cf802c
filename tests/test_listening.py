"""Where the daemon listens: by default and by -address, at IPv6 beside IPv4, on a system without IPv6, and where an address is taken."""
import errno, os, subprocess, unittest

from case import EPMD, Case
from shim import CALLS
from system import (add_address, backlog_most, backlogs, drop_address, eventually, has_ipv6, listener, listening_at, loopbacks, needs_ipv6,
                    own_network)
from wire import DUMP, KILL, NAMES, NOT_FOUND, alive, ask, dial, ending_of, found, is_open, listed, port_please, register, stop

NOBODYS = "198.51.100.1"  # An address for documentation (RFC 5737), which no host has.
WITH = {"0.0.0.0": "::", "127.0.0.1": "::1"}  # The IPv6 address at which it listens beside that of IPv4.


def reached_at(address):
    """Where a socket that listens there is reached."""
    return {"0.0.0.0": ["127.0.0.1", "127.0.0.9"], "::": ["::1"]}.get(address, [address])


class Listening(Case):
    def serves_at(self, daemon, wanted):
        """Whether it listens at these addresses and no others, and serves at each."""
        beside = [WITH[address] for address in wanted if address in WITH and has_ipv6()]
        wanted = {(address, daemon.port) for address in [*wanted, *beside]}
        eventually(lambda: not daemon.runs() or len(listening_at(daemon.pid)) >= len(wanted), f"{sorted(wanted)}")
        self.assertEqual(listening_at(daemon.pid), wanted, daemon.how())
        places = [place for address, _ in sorted(wanted) for place in reached_at(address)]
        for number, place in enumerate(places):
            name = b"node%d" % number
            with register(daemon.port, name, place):
                for other in places:
                    self.assertEqual(ask(daemon.port, NAMES, other), listed(daemon.port, name), (place, other))
            self.leaves(daemon, name, place)
        self.assertEqual(daemon.lines(), [])

    def everywhere(self, *words, **how):
        """A daemon that listens at both families already."""
        daemon = self.daemon(*words, address=None, **how)
        eventually(lambda: len(listening_at(daemon.pid)) == len(loopbacks()))
        return daemon


class Addresses(Listening):
    def test_addresses(self):
        for given, wanted in (
                (None, ["0.0.0.0"]), ("127.0.0.1", ["127.0.0.1"]),
                ("127.0.0.2", ["127.0.0.2", "127.0.0.1"]),  # Loopback is beside any other.
                *((given, ["127.0.0.1", "127.0.0.2", "127.0.0.3"]) for given in (
                    "127.0.0.2,127.0.0.3", "127.0.0.3,127.0.0.1,127.0.0.2", "127.0.0.2,127.0.0.3,127.0.0.2", "127.000.00.2,127.0.0.003")),
                *((given, ["0.0.0.0"]) for given in ("0.0.0.0", "127.0.0.2,0.0.0.0", "0.0.0.0,127.0.0.1"))):
            for words in ((), ("-workers", "1")) if given in (None, "127.0.0.2") else ((),):
                with self.subTest(given=given, words=words):
                    self.serves_at(self.daemon(*words, address=given), wanted)
        self.serves_at(self.daemon("-address", "127.0.0.3", address="127.0.0.2"), ["127.0.0.3", "127.0.0.1"])  # The last list counts.

    def test_lists_that_are_refused(self):
        for given in ("", ",", "127.0.0.1,", ",127.0.0.1", "127.0.0.2,,127.0.0.1", "127.0.0", "127.0.0.1.1", "256.0.0.1",
                      "127.0.0.1000", "0127.0.0.1", "+127.0.0.1", " 127.0.0.1", "127.0.0.1 ", "127.0.0.1:80", "127.0.0.x", "localhost",
                      "::1", "[::1]", "::", "127..0.1"):
            with self.subTest(given=given):
                line = f'epmd: -address needs IPv4 addresses separated by commas, not "{given}"; see epmd -help\n'
                self.assertEqual(self.run_epmd("-port", "1", "-address", given), (2, b"", line.encode()))

    def test_a_burst_before_it_accepts(self):
        daemon = self.daemon()
        for address in loopbacks():
            eventually(lambda: (address, daemon.port) in listening_at(daemon.pid))
            with self.subTest(address=address):
                self.answers_a_burst(daemon, address)
        self.assertEqual(backlogs(daemon.port), [backlog_most()] * len(loopbacks()))


class Taken(Listening):
    def refused_at(self, line, port, *words, address=None, reason="Address already in use", **how):
        """Whether a daemon ends with this line and status 1."""
        words = ("-port", str(port), *words, *(("-address", address) if address else ()))
        self.assertEqual(self.run_epmd(*words, **how), (1, b"", f"epmd: cannot listen on {line}:{port}: {reason}\n".encode()))

    def refused_beside(self, only, *rows):
        """The same where another program has an address, for each address with the list and the address in the line."""
        for taken, given, line in rows:
            with self.subTest(taken=taken, given=given), listener(taken, self.free_port(), only) as other:
                self.refused_at(line, other.getsockname()[1], address=given)

    def test_an_address_of_another_program(self):
        self.refused_beside(False, ("127.0.0.1", "127.0.0.1", "127.0.0.1"), ("127.0.0.2", "127.0.0.3,127.0.0.2", "127.0.0.2"),
                            ("0.0.0.0", None, "0.0.0.0"), ("0.0.0.0", "127.0.0.1", "127.0.0.1"))

    @needs_ipv6
    def test_an_ipv6_address_of_another_program(self):
        self.refused_beside(True, ("::1", "127.0.0.1", "[::1]"), ("::1", "127.0.0.2", "[::1]"), ("::", None, "[::]"),
                            ("::", "127.0.0.2,0.0.0.0", "[::]"))

    def test_another_port_mapper_is_not_disturbed(self):
        file = self.path("session")
        first = self.daemon("-record", file)
        with register(first.port, b"one"):
            self.refused_at("127.0.0.1", first.port, "-record", file, address="127.0.0.1")
            self.refused_at("0.0.0.0", first.port, "-record", file)
            self.assertEqual(ask(first.port, NAMES), listed(first.port, b"one"))
        self.leaves(first, b"one")
        self.ends(first)
        self.assertEqual(self.run_epmd("-check", file)[0], 0)

    def test_an_address_of_another_host(self):
        with open("/proc/sys/net/ipv4/ip_nonlocal_bind") as setting:
            if setting.read().strip() != "0":
                self.skipTest("the host lets any address be bound")
        self.refused_at(NOBODYS, 4369, address=NOBODYS, reason="Cannot assign requested address")

    def test_a_port_of_the_system(self):
        with open("/proc/sys/net/ipv4/ip_unprivileged_port_start") as setting:
            if int(setting.read()) <= 7:
                self.skipTest("the host lets anybody listen at any port")
        try:
            self.refused_at("0.0.0.0", 7, reason="Permission denied", **{"preexec_fn": lambda: os.setuid(65534)} if os.getuid() == 0 else {})
        except PermissionError:
            self.skipTest("another user can't call the program")

    def test_it_starts_again_at_once(self):
        for address in "127.0.0.1", None:
            with self.subTest(address=address):
                daemon = self.daemon(address=address)
                eventually(lambda: len(listening_at(daemon.pid)) == len(loopbacks()))
                held = [register(daemon.port, b"at%d" % number, place) for number, place in enumerate(loopbacks())]
                for place in loopbacks():  # The daemon is the first to close these.
                    ask(daemon.port, NAMES, place)
                daemon.process.kill()
                daemon.process.wait()
                again = self.daemon(address=address, port=daemon.port)
                self.serves_at(again, [address or "0.0.0.0"])
                for s in held:
                    s.close()


class WithoutIPv6(Listening):
    """A system refuses the second socket, or its address: that of IPv6."""

    def test_each_refusal(self):
        """It serves IPv4 without a line if there is no IPv6. Any other refusal ends it."""
        lacking = {"EAFNOSUPPORT", "EADDRNOTAVAIL"}
        rows = [("socket", "EAFNOSUPPORT"), ("bind", "EADDRNOTAVAIL")]
        rows += [(call, error) for call in ("socket", "bind") for error in sorted(set(CALLS[call].split()) - lacking)]
        for call, error in rows:
            with self.subTest(call=call, error=error):
                faults = self.faults(call, 2, error)
                daemon = self.daemon(env=faults.env)
                if error in lacking:
                    with register(daemon.port, b"one"):
                        self.assertEqual(ask(daemon.port, NAMES), listed(daemon.port, b"one"))
                    self.assertEqual((listening_at(daemon.pid), daemon.lines()), ({("127.0.0.1", daemon.port)}, []))
                else:
                    line = f"epmd: cannot listen on [::1]:{daemon.port}: {os.strerror(getattr(errno, error))}"
                    self.assertEqual(daemon.ended(60), (1, line))
                self.assertEqual(faults.refused, 1)


class OwnNetwork(Listening):
    """In a network of their own these tests have the usual port, and addresses of their choice."""

    OWN = "10.78.0.1", "fd78::1"
    OTHERS = "10.78.0.2", "fd78::2"

    @classmethod
    def setUpClass(cls):
        own_network()
        if not has_ipv6():
            raise unittest.SkipTest("the host has no IPv6")
        for place, address in enumerate((*cls.OWN, *cls.OTHERS), 1):
            add_address(address, place)

    def test_the_port(self):
        place = {key: value for key, value in os.environ.items() if not key.startswith("ERL_EPMD")}
        for words, env, port in (((), {}, 4369), ((), {"ERL_EPMD_PORT": "4370"}, 4370),
                                 (("-port", "4371"), {"ERL_EPMD_PORT": "4370"}, 4371), (("-port", "4370", "-port", "004372"), {}, 4372)):
            with subprocess.Popen([EPMD, *words], stdin=subprocess.DEVNULL, env={**place, **env}) as process, self.subTest(words=words, env=env):
                try:
                    eventually(lambda: listening_at(process.pid) == {("0.0.0.0", port), ("::", port)}, f"port {port}")
                    for address in (*loopbacks(), *self.OWN):
                        self.assertEqual(ask(port, NAMES, address), listed(port))
                finally:
                    process.kill()

    def test_loopback_is_not_the_other_addresses_of_the_host(self):
        daemon = self.daemon()
        self.serves_at(daemon, ["127.0.0.1"])
        for address in self.OWN:
            with self.assertRaises(ConnectionRefusedError):
                dial(daemon.port, address)
        self.serves_at(self.daemon(address=self.OWN[0]), [self.OWN[0], "127.0.0.1"])

    def test_a_peer_at_another_address_of_the_host_is_local(self):
        daemon = self.everywhere()
        for address in (*self.OWN, *self.OTHERS):
            with register(daemon.port, b"one", address, address):
                self.assertEqual(ask(daemon.port, NAMES, address), listed(daemon.port, b"one"))
            self.leaves(daemon, b"one")

    def test_other_hosts_may_only_look_up_and_list(self):
        daemon = self.everywhere("-relaxed_command_check")
        with register(daemon.port, b"one") as own:
            for here, there in zip(self.OWN, self.OTHERS):
                for request, reply in ((NAMES, listed(daemon.port, b"one")), (port_please(b"one"), found(b"one")),
                                       (port_please(b"two"), NOT_FOUND), (alive(b"two"), b""), (DUMP, b""), (KILL, b""), (stop(b"one"), b"")):
                    self.assertEqual(ending_of(daemon.port, request, here, there), reply, request)
            self.assertEqual(ask(daemon.port, NAMES), listed(daemon.port, b"one"))
            self.assertTrue(is_open(own))
        self.assertTrue(daemon.runs())

    def test_ipv6_is_switched_off(self):
        drop_address("::1")
        try:
            self.serves_at(self.daemon(), ["127.0.0.1"])
        finally:
            add_address("::1")

    def test_ipv6_is_switched_off_for_all(self):
        name = "/proc/sys/net/ipv6/conf/all/disable_ipv6"
        try:
            with open(name, "w") as setting:
                setting.write("1")
        except OSError as error:
            self.skipTest(f"IPv6 can't be switched off: {error.strerror}")
        try:
            daemon = self.daemon(address=None)
            for address in "127.0.0.1", self.OWN[0]:
                self.assertEqual(ask(daemon.port, NAMES, address), listed(daemon.port))
            self.assertEqual(daemon.lines(), [])
            self.serves_at(self.daemon(), ["127.0.0.1"])
        finally:
            with open(name, "w") as setting:
                setting.write("0")
            eventually(has_ipv6, "loopback of IPv6")
            for address in self.OWN[1], self.OTHERS[1]:
                add_address(address)
