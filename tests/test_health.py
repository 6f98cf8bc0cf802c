"""The health check: `epmd -health` at port mappers that work, at none, and at servers of the test's own that fail in one way each."""
import concurrent.futures, contextlib, ctypes, errno, functools, os, socket, struct, subprocess, threading, time, unittest

import test_commands
from daemon import listens
from system import PATIENCE, drop_address, eventually, has_ipv6, listening_at, needs_ipv6, own_network
from wire import NOT_FOUND, found, node, register, rest

HEALTHY = 0, b"", b""
OTHER = "/usr/bin/epmd"
NAMES = {b"epmd-health-%d" % number for number in range(16)}
FIELDS = {"number": 1, "kind": 72}
GRANTED, REFUSED = b"v\0\0\0\0\4", b"v\1\0\0\0\0"


def nothing(name):
    return NOT_FOUND


def failed(text, port, address="127.0.0.1"):
    return 1, b"", f"epmd: {text} {address}:{port}\n".encode()


class PortMapper:
    """The replies of a server that knows one name. A test changes its fields: the number of registrations that are refused first, and the
    number of look-ups that still find a closed name. The reply to a look-up may be a function of the name."""

    def __init__(self):
        self.known, self.closed = None, threading.Event()
        self.registered, self.found, self.missing, self.refusals, self.late = GRANTED, None, NOT_FOUND, 0, 0

    def __call__(self, s, body):
        if body[:1] == b"z":
            if self.known and self.closed.is_set():
                self.late -= 1
                self.known = self.known if self.late >= 0 else None
            answer = b"w\0" + self.known if self.known else self.missing
            s.sendall(answer if self.found is None else self.found(body[1:]))
            return
        self.refusals -= 1
        answer = REFUSED if self.refusals >= 0 else self.registered
        if answer == GRANTED:
            self.known = body[1:]
            self.closed.clear()
        s.sendall(answer)
        if answer == GRANTED:
            rest(s)
            self.closed.set()


class HealthCase(test_commands.CommandCase):
    def check(self, port, **how):
        return self.ask(port, "-health", **how)

    def served(self, **fields):
        """A server at 127.0.0.1, and at ::1 if the host has it, with these fields."""
        mapper = PortMapper()
        vars(mapper).update(fields)
        server = self.stand_in(mapper)
        if has_ipv6():
            self.stand_in(mapper, address="::1", port=server.port)
        return server


class Healthy(HealthCase):
    def test_a_daemon(self):
        for words in (), ("-workers", "1"), ("-relaxed_command_check",):
            with self.subTest(words=words):
                daemon = self.daemon(*words)
                for _ in range(20):
                    self.assertEqual(self.check(daemon.port), HEALTHY)
                self.lists(daemon)
                status, out, err = self.ask(daemon.port, "-dump")
                left = [line.removeprefix(b"old/unused name ").removesuffix(b" at port 1, fd = -1") for line in out.splitlines()[1:]]
                self.assertEqual((status, set(left) - NAMES, len(left) - len(set(left)), err), (0, set(), 0, b""))
                self.assertEqual(daemon.lines(), [])

    def test_the_port_of_the_environment(self):
        daemon = self.daemon()
        self.assertEqual(self.run_epmd("-health", env={"ERL_EPMD_PORT": str(daemon.port)}), HEALTHY)

    @unittest.skipUnless(os.access(OTHER, os.X_OK), f"no {OTHER}")
    def test_the_port_mapper_of_another_project(self):
        port = self.free_port()
        with subprocess.Popen([OTHER, "-port", str(port)], stdin=subprocess.DEVNULL) as process:
            self.addCleanup(process.kill)
            eventually(lambda: listens(port) or listening_at(process.pid), "the port")
            for _ in range(5):
                self.assertEqual(self.check(port), HEALTHY)
            process.kill()

    def test_a_server_of_this_test(self):
        server = self.served()
        self.assertEqual(self.check(server.port), HEALTHY)
        name = server.asked[1][1:]
        self.assertIn(name, NAMES)
        self.assertEqual(server.asked[:3], [b"x" + node(name, **FIELDS), b"z" + name, b"z" + name])

    def test_checks_at_the_same_moment(self):
        daemon = self.daemon()
        with concurrent.futures.ThreadPoolExecutor(60) as pool:
            self.assertEqual(set(pool.map(lambda _: self.check(daemon.port), range(60))), {HEALTHY})

    def test_a_name_that_is_not_held(self):
        daemon = self.daemon()
        self.hold(daemon, b"epmd-health", *NAMES - {b"epmd-health-9"})
        self.assertEqual(self.check(daemon.port), HEALTHY)

    def test_a_name_that_is_in_use_for_a_while_or_freed_late(self):
        for fields in {"refusals": 15}, {"late": 15}:
            self.assertEqual(self.check(self.served(**fields).port), HEALTHY, fields)


class Unhealthy(HealthCase):
    def fails(self, text, **fields):
        server = self.served(**fields)
        self.assertEqual(self.check(server.port), failed(text, server.port), fields)

    def test_nobody_listens(self):
        port = self.free_port()
        self.assertEqual(self.check(port), failed("cannot connect to", port))

    def test_names_that_stay_in_use(self):
        daemon = self.daemon()
        self.hold(daemon, *NAMES)
        self.assertEqual(self.check(daemon.port), failed("cannot register epmd-health at", daemon.port))

    def test_each_wrong_reply(self):
        for answer in REFUSED, b"v\x02\0\0\0\0", b"y\1\0\0":
            self.fails("cannot register epmd-health at", registered=answer)
        for answer in b"", b"v\0", b"v\0\0\0\0", b"w\0\0\0\0\4", b"OK":
            self.fails("strange answer from", registered=answer)
        for answer in b"", b"w", b"v\0\0\0\0\4":
            self.fails("strange answer from", found=lambda name: answer)
        self.fails("strange answer from", found=lambda name: found(name, **FIELDS)[:-1])
        for wrong in {"number": 2}, {"kind": 77}, {"protocol": 1}, {"highest": 5}, {"lowest": 6}, {"extra": b"x"}:
            self.fails("cannot find epmd-health at", found=lambda name: found(name, **FIELDS | wrong))
        self.fails("cannot find epmd-health at", found=lambda name: found(name.upper(), **FIELDS))
        self.fails("cannot find epmd-health at", found=nothing)
        self.fails("cannot free epmd-health at", found=lambda name: found(name, **FIELDS))
        self.fails("cannot free epmd-health at", late=1000)
        self.fails("strange answer from", missing=b"")  # Once a name is closed the port mapper works no more.

    def test_twenty_registrations_are_tried(self):
        server, began = self.served(registered=REFUSED), time.monotonic()
        self.check(server.port)
        names = [body[11:-2] for body in server.asked]
        self.assertEqual((set(names), names[:4]), (NAMES, names[16:]))
        self.assertEqual(server.asked, [b"x" + node(name, **FIELDS) for name in names])
        self.assertGreater(time.monotonic() - began, 19 * 0.05)

    def test_all_places_are_taken(self):
        daemon = self.daemon(limits={"RLIMIT_NOFILE": 64})
        held = []
        with contextlib.suppress(OSError, AssertionError):
            while len(held) < 100:
                held.append(register(daemon.port, b"node%d" % len(held)))
        self.assertLess(len(held), 100)
        self.assertEqual(self.check(daemon.port), failed("strange answer from", daemon.port))
        for s in held:
            s.close()
        eventually(lambda: self.check(daemon.port) == HEALTHY)

    def test_silence(self):
        """A request is aborted after 10 to 20 seconds, and so is a check at one address."""
        ended = threading.Event()
        self.addCleanup(ended.set)

        def silent(granted, s, body):
            s.sendall(granted if body[:1] == b"x" else b"")
            ended.wait(PATIENCE)
        servers = [self.stand_in(functools.partial(silent, granted)) for granted in (b"", GRANTED)]
        began = time.monotonic()
        with concurrent.futures.ThreadPoolExecutor() as pool:
            results = list(pool.map(lambda server: self.check(server.port), servers))
        self.assertEqual(results, [failed("strange answer from", server.port) for server in servers])
        self.assertGreater(time.monotonic() - began, 9)

    @needs_ipv6
    def test_ipv6_alone_fails(self):
        four = self.stand_in(PortMapper())
        self.assertEqual(self.check(four.port), failed("cannot connect to", four.port, "[::1]"))
        wrong = PortMapper()
        wrong.found = nothing
        self.stand_in(wrong, address="::1", port=four.port)
        self.assertEqual(self.check(four.port), failed("cannot find epmd-health at", four.port, "[::1]"))

    @needs_ipv6
    def test_ipv6_does_not_stand_for_ipv4(self):
        six = self.stand_in(PortMapper(), address="::1")
        self.assertEqual(self.check(six.port), failed("cannot connect to", six.port))


class WithoutIPv6(HealthCase):
    @classmethod
    def setUpClass(cls):
        own_network()
        if has_ipv6():
            drop_address("::1")

    def test_ipv4_alone_has_to_pass(self):
        self.assertFalse(has_ipv6())
        daemon = self.daemon()
        self.assertEqual(listening_at(daemon.pid), {("127.0.0.1", daemon.port)})
        self.assertEqual(self.check(daemon.port), HEALTHY)
        server, port = self.stand_in(PortMapper()), self.free_port()
        server.serve.found = nothing
        self.assertEqual(self.check(server.port), failed("cannot find epmd-health at", server.port))
        self.assertEqual(self.check(port), failed("cannot connect to", port))


def refuse_ipv6():
    """Has the system refuse sockets of IPv6 to this process and its children, as a system without IPv6 does. A class calls it before its
    tests, and is skipped if that is not permitted."""
    call = {"x86_64": 41, "aarch64": 198}.get(os.uname().machine)
    if call is None:
        raise unittest.SkipTest(f"the number of the call socket on {os.uname().machine}")
    load, test, end = 0x20, 0x15, 0x06
    program = b"".join(struct.pack("HBBI", *each) for each in (
        (load, 0, 0, 0), (test, 0, 3, call), (load, 0, 0, 16), (test, 0, 1, socket.AF_INET6),
        (end, 0, 0, 0x50000 | errno.EAFNOSUPPORT), (end, 0, 0, 0x7FFF0000)))
    libc, rows = ctypes.CDLL(None, use_errno=True), ctypes.create_string_buffer(program)
    if libc.prctl(38, 1, 0, 0, 0) or libc.prctl(22, 2, struct.pack("HP", len(program) // 8, ctypes.addressof(rows))):
        raise unittest.SkipTest(f"no filter of calls: {os.strerror(ctypes.get_errno())}")


class WithoutTheFamily(WithoutIPv6):
    @classmethod
    def setUpClass(cls):
        refuse_ipv6()
