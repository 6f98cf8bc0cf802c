"""What the system says of a process: its sockets, threads and limits. And a network of a test's own."""
import contextlib, ctypes, errno, fcntl, os, random, re, resource, signal, socket, struct, time, unittest

PATIENCE = 60.0  # Seconds until a test fails, if the time itself is not the point.
NEW_USER, NEW_NETWORK = 0x10000000, 0x40000000
BACKLOG = 4096  # Connections that may wait at a listener, if the system allows as many.


def eventually(wanted, what="the expected state"):
    """Waits until `wanted` returns something true, and returns that."""
    until = time.monotonic() + PATIENCE
    while not (got := wanted()):
        if time.monotonic() > until:
            raise AssertionError(f"{what} did not come within {PATIENCE:.0f} seconds")
        time.sleep(0.02)
    return got


# ---- addresses and ports


def family_of(address):
    return socket.AF_INET6 if ":" in address else socket.AF_INET


def has_ipv6():
    with contextlib.suppress(OSError), socket.socket(socket.AF_INET6) as s:
        s.bind(("::1", 0))
        return True
    return False


needs_ipv6 = unittest.skipUnless(has_ipv6(), "the host has no IPv6")


def loopbacks():
    """The loopback addresses of this host."""
    return ("127.0.0.1", "::1") if has_ipv6() else ("127.0.0.1",)


def listener(address, port=0, only=False, listens=True):
    """A socket that listens: at `::` for both families, or for IPv6 only."""
    s = socket.socket(family_of(address))
    s.setsockopt(socket.SOL_SOCKET, socket.SO_REUSEADDR, 1)
    if s.family == socket.AF_INET6:
        s.setsockopt(socket.IPPROTO_IPV6, socket.IPV6_V6ONLY, only)
    s.bind((address, port))
    if listens:
        s.listen(BACKLOG)
    return s


def backlog_most():
    """The backlog of a listener of the daemon on this system."""
    with open("/proc/sys/net/core/somaxconn") as setting:
        return min(BACKLOG, int(setting.read()))


def is_free(address, port):
    """Whether nobody has this port there. Without IPv6 nobody has one."""
    try:
        listener(address, port, only=True, listens=False).close()
    except OSError as error:
        return error.errno in (errno.EAFNOSUPPORT, errno.EADDRNOTAVAIL)
    return True


def free_port():
    """A port of 15000 to 15999 that nobody has at 127.0.0.1 and ::1, and a Unix socket whose name reserves the port among the tests."""
    for port in random.SystemRandom().sample(range(15000, 16000), 1000):
        kept = socket.socket(socket.AF_UNIX)
        with contextlib.suppress(OSError):
            kept.bind(f"\0epmd-scripts-{port}")
            if is_free("127.0.0.1", port) and is_free("::1", port):
                return port, kept
        kept.close()
    raise AssertionError("no port is free")


# ---- processes


def address_in(text):
    """An address of the system's table of sockets."""
    octets = bytes.fromhex(text)
    if len(octets) == 4:
        return socket.inet_ntop(socket.AF_INET, octets[::-1])
    return socket.inet_ntop(socket.AF_INET6, b"".join(octets[at:at + 4][::-1] for at in range(0, 16, 4)))


def sockets_of(pid):
    """The TCP sockets of a process: the own end and the state of each."""
    own, rows = set(), []
    with contextlib.suppress(OSError):
        for number in os.listdir(f"/proc/{pid}/fd"):
            with contextlib.suppress(OSError):
                own |= set(re.findall(r"^socket:\[(\d+)\]$", os.readlink(f"/proc/{pid}/fd/{number}")))
    for table in "tcp", "tcp6":
        with contextlib.suppress(OSError), open(f"/proc/{pid}/net/{table}") as lines:
            rows += [(row[1], row[3]) for row in map(str.split, lines) if row[9] in own]
    return rows


def listening_at(pid):
    """The addresses and ports at which a process listens."""
    ends = (end.split(":") for end, state in sockets_of(pid) if state == "0A")
    return {(address_in(address), int(port, 16)) for address, port in ends}


def connections(pid):
    """How many connections a process has."""
    return sum(state != "0A" for _, state in sockets_of(pid))


def backlogs(port):
    """How many connections may wait at each socket that listens at a port, as the kernel says (inet_diag)."""
    found = []
    with socket.socket(socket.AF_NETLINK, socket.SOCK_RAW, 4) as s:  # NETLINK_SOCK_DIAG
        for family in socket.AF_INET, socket.AF_INET6:
            # SOCK_DIAG_BY_FAMILY with NLM_F_REQUEST and NLM_F_DUMP, for TCP sockets in the state LISTEN.
            s.send(struct.pack("=IHHIIBBBxI48x", 72, 20, 0x301, 1, 0, family, socket.IPPROTO_TCP, 0, 1 << 10))
            is_over = False
            while not is_over:
                data = s.recv(1 << 16)
                while data and not is_over:
                    size, kind = struct.unpack_from("=IH", data)
                    is_over = kind != 20
                    if not is_over and struct.unpack_from(">H", data, 20)[0] == port:
                        found.append(struct.unpack_from("=I", data, 76)[0])
                    data = data[size + 3 & ~3:]
    return found


def threads(pid):
    """How many threads a process has."""
    return len(os.listdir(f"/proc/{pid}/task"))


def states(pid):
    """The states of all threads of a process."""
    found = set()
    for task in os.listdir(f"/proc/{pid}/task"):
        with contextlib.suppress(OSError), open(f"/proc/{pid}/task/{task}/stat") as line:
            found.add(line.read().rpartition(")")[2].split()[0])
    return found


@contextlib.contextmanager
def stopped(pid):
    """Stops a process meanwhile."""
    os.kill(pid, signal.SIGSTOP)
    try:
        eventually(lambda: states(pid) == {"T"}, "the stop of all threads")
        yield
    finally:
        os.kill(pid, signal.SIGCONT)


def many_files(wanted):
    """Lets this process and its children have that many descriptors. A class is skipped if that is not permitted."""
    soft, hard = resource.getrlimit(resource.RLIMIT_NOFILE)
    if hard != resource.RLIM_INFINITY and hard < wanted:
        raise unittest.SkipTest(f"the limit of descriptors is {hard}")
    if soft != resource.RLIM_INFINITY and soft < wanted:
        resource.setrlimit(resource.RLIMIT_NOFILE, (wanted, hard))


# ---- a network of its own


def own_network(*addresses):
    """Puts this process into a network of its own: loopback with these addresses. A class calls it before its tests, and is skipped if that
    is not permitted."""
    libc = ctypes.CDLL(None, use_errno=True)
    try:
        if libc.unshare(NEW_NETWORK if os.getuid() == 0 else NEW_USER | NEW_NETWORK):
            raise OSError(ctypes.get_errno(), os.strerror(ctypes.get_errno()))
        with socket.socket(socket.AF_INET, socket.SOCK_DGRAM) as s:
            fcntl.ioctl(s, 0x8914, struct.pack("16sH22x", b"lo", 0x41))  # SIOCSIFFLAGS: up and running.
    except OSError as error:
        raise unittest.SkipTest(f"no network of its own: {error.strerror}")
    for place, address in enumerate(addresses, 1):
        add_address(address, place)


def add_address(address, place=1):
    """Gives loopback one more address. Each of IPv4 has a number of its own."""
    with socket.socket(family_of(address), socket.SOCK_DGRAM) as s:
        if s.family == socket.AF_INET:
            row = struct.pack("16sHH4s16x", b"lo:%d" % place, socket.AF_INET, 0, socket.inet_aton(address))
        else:
            row = struct.pack("16sIi", socket.inet_pton(socket.AF_INET6, address), 128, 1)
        fcntl.ioctl(s, 0x8916, row)  # SIOCSIFADDR


def drop_address(address):
    """Removes an IPv6 address from loopback."""
    with socket.socket(socket.AF_INET6, socket.SOCK_DGRAM) as s:
        fcntl.ioctl(s, 0x8936, struct.pack("16sIi", socket.inet_pton(socket.AF_INET6, address), 128, 1))  # SIOCDIFADDR
