"""Peers that are slow, silent or flood the daemon, and peers that read nothing, with honest peers beside them: each honest
request is answered. A timeout is compared with connections that stay open."""
import contextlib, errno, re, select, socket, time

from case import FAR, NEVER, Case, OwnNetwork, beside
from shim import FOR_EVER
from system import connections, eventually, stopped
from wire import (DUMP, NAMES, NOT_FOUND, alive, ask, dial, ending, ending_of, exactly, found, is_open, listed, port_please, register, reset,
                  rest)

CROWD = 400
PLACES = 1024  # Connections (README.md, Limits).
UNREAD_LEFT, UNREAD_MOST = 24 << 20, 30 << 20  # Bytes of replies that wait to be read for long, and in all.
RESET = re.compile(r"epmd: (\d+) connections that did not read their replies were reset")


class Peers(Case):
    FILES = 4096

    def honest(self, daemon, rounds=10, known=()):
        """Whether a node beside the others registers, is found and listed, and leaves. `known` are the names that are registered."""
        for number in range(rounds):
            name = b"honest%d" % number
            with register(daemon.port, name):
                self.assertEqual(ask(daemon.port, port_please(name)), found(name))
                self.assertEqual(ask(daemon.port, port_please(b"nobody")), NOT_FOUND)
                if known is not None:
                    self.assertEqual(ask(daemon.port, NAMES), listed(daemon.port, *known, name))
            self.leaves(daemon, name)

    def dial(self, daemon, *data, at=(), **how):
        s = self.enterContext(dial(daemon.port, *at, **how))
        for piece in data:
            s.sendall(piece)
        return s

    def small(self, *words, count=400, size=250, **env):
        """Faults that leave little room for unread bytes in the system; a daemon with long names; and the list of these."""
        faults = self.faults()
        daemon = self.daemon(*words, env={**faults.env, **env})
        faults.room = 4096
        names = [b"%0*d" % (size, number) for number in range(count)]
        self.hold(daemon, *names)
        return faults, daemon, names, listed(daemon.port, *names)


class Slow(Peers):
    def test_silent_peers(self):
        daemon = self.daemon(*NEVER)
        silent = [self.dial(daemon) for _ in range(300)] + [self.dial(daemon, alive(b"slow")[:at]) for at in range(1, 16)]
        self.honest(daemon)
        self.assertTrue(all(map(is_open, silent)))
        for s in silent[:100]:
            s.sendall(NAMES)
        for s in silent[:100]:
            self.assertEqual(rest(s), listed(daemon.port))

    def test_slow_peers(self):
        daemon = self.daemon(*NEVER)
        requests = [port_please(b"nobody" * 20)] * 20 + [NAMES] * 20
        slow = [(self.dial(daemon), request) for request in requests]
        for at in range(max(map(len, requests))):
            for s, request in slow:
                if at < len(request):
                    s.sendall(request[at:at + 1])
            for s, request in slow:
                if at == len(request) - 1:
                    self.assertEqual(rest(s), listed(daemon.port) if request == NAMES else NOT_FOUND)
            if at % 10 == 0:
                self.honest(daemon, 1)

    def test_silent_peers_have_all_places(self):
        """The oldest of them gives its place to a new one, once it is older than a second."""
        for workers in "1", "4":
            with self.subTest(workers=workers):
                daemon = self.daemon(*NEVER, "-workers", workers)
                silent = [dial(daemon.port) for _ in range(PLACES)]
                eventually(lambda: connections(daemon.pid) >= PLACES, "that all are accepted")
                time.sleep(1.2)
                self.honest(daemon, 5)
                are_open = [is_open(s) for s in silent]
                for s in silent:
                    s.close()
                self.assertIn(False, are_open)
                self.assertGreater(are_open.count(True), PLACES // 2)
                if workers == "1":  # Each of several takes its own oldest one.
                    self.assertEqual(are_open, sorted(are_open))

    def test_registered_nodes_keep_their_places(self):
        daemon = self.daemon(*NEVER)
        names = [b"node%04d" % number for number in range(PLACES)]
        held = self.hold(daemon, *names)
        time.sleep(1.2)
        for request in NAMES, port_please(b"node0000"), alive(b"more"):
            self.assertEqual(ending_of(daemon.port, request), b"")
        held.pop().close()
        eventually(lambda: ending_of(daemon.port, NAMES) == listed(daemon.port, *names[:-1]))
        self.assertTrue(all(map(is_open, held)))


class TimedOut(Peers):
    """With a timeout of two seconds. No node is closed by it that has registered."""

    SECONDS = 2

    def test_silent_peers_are_closed(self):
        daemon = self.daemon("-packet_timeout", str(self.SECONDS))
        own, = self.hold(daemon, b"one")
        began = time.monotonic()
        for s in [self.dial(daemon, data) for data in (b"", b"\0", alive(b"two")[:-1])]:
            self.assertEqual(ending(s)[0], b"")
        self.assertGreater(time.monotonic() - began, self.SECONDS - 0.2)
        self.assertTrue(is_open(own))
        self.honest(daemon, 1, [b"one"])

    def test_each_byte_of_a_local_peer_gives_it_more_time(self):
        daemon = self.daemon("-packet_timeout", "3")
        silent = self.dial(daemon)
        s, longest, last = self.dial(daemon), 0.0, time.monotonic()
        request = port_please(b"x" * 12)
        for at in range(len(request)):
            with contextlib.suppress(OSError):
                s.sendall(request[at:at + 1])
            longest, last = max(longest, time.monotonic() - last), time.monotonic()
            time.sleep(0.5)
        self.assertFalse(is_open(silent))
        if longest < 2.9:  # Else this test itself was delayed, and may have let the time pass.
            self.assertEqual(rest(s), NOT_FOUND)

    def test_requests_while_the_daemon_is_stopped_are_answered(self):
        daemon = self.daemon("-packet_timeout", str(self.SECONDS))
        self.hold(daemon, b"one")
        asking = [self.dial(daemon, port_please(b"one")[:3]) for _ in range(20)]
        with stopped(daemon.pid):
            for s in asking:
                s.sendall(port_please(b"one")[3:])
            asking += [self.dial(daemon, port_please(b"one")) for _ in range(20)]
            reset(self.dial(daemon, NAMES))
            time.sleep(self.SECONDS + 1)
        for s in asking:
            self.assertEqual(rest(s), found(b"one"))
        self.honest(daemon, 1, [b"one"])

    def test_a_peer_that_reads_no_reply_is_reset(self):
        """A prefix of a list never looks like a whole list."""
        _, daemon, names, whole = self.small("-packet_timeout", str(self.SECONDS), count=600)
        began = time.monotonic()
        s = self.dial(daemon, NAMES, room=2048)
        head = exactly(s, 1)
        eventually(lambda: connections(daemon.pid) == len(names), "that it is closed")
        self.assertGreater(time.monotonic() - began, self.SECONDS - 0.2)
        got, how = ending(s)
        self.assertEqual(how, "reset")
        self.assertLess(len(head + got), len(whole))
        self.assertTrue(whole.startswith(head + got))
        self.assertEqual(ask(daemon.port, NAMES), whole)


class Floods(Peers):
    def test_nodes_that_send_without_end(self):
        daemon = self.daemon(*NEVER)
        names = [b"flood%d" % number for number in range(4)]
        held = self.hold(daemon, *names)

        def send(number, over):
            while not over.is_set():
                held[number].sendall(b"\xff" * 65536)
        with beside(send, 4):
            self.honest(daemon, 10, names)
        self.assertTrue(all(map(is_open, held)))

    def test_requests_without_end(self):
        """Look-ups at another address, and malformed requests."""
        for body, threads, address, *words in (
                (b"zone", 16, "127.0.0.2", "-workers", "1"), (b"zone", 16, "127.0.0.2", "-workers", "4"), (b"\xff\xff", 8, "127.0.0.1")):
            with self.subTest(body=body, words=words):
                daemon = self.daemon(*words, address="127.0.0.2,127.0.0.1")
                self.hold(daemon, b"one")
                with self.flood(daemon, body, threads, address):
                    self.honest(daemon, 10, [b"one"])

    def test_peers_that_reset_their_connections(self):
        daemon = self.daemon()
        names = [b"%0250d" % number for number in range(100)]
        self.hold(daemon, *names)
        for number in range(200):
            s = dial(daemon.port)
            s.sendall((NAMES, alive(b"reset"), NAMES[:1], b"")[number % 4])
            reset(s)
        self.honest(daemon, 5, None)  # A busy machine may still serve some of them.
        eventually(lambda: ask(daemon.port, NAMES) == listed(daemon.port, *names), "that the names of those that reset left")


class Unread(Peers):
    def test_unread_replies_have_a_bound(self):
        _, daemon, _, whole = self.small(*NEVER, size=1000, MALLOC_ARENA_MAX="1")
        self.assertEqual(ask(daemon.port, NAMES), whole)
        before = daemon.kb("VmRSS")
        unread = [self.dial(daemon, NAMES, room=2048) for _ in range(200)]
        were_reset = set()

        def resets():
            for s in set(unread) - were_reset:
                error = s.getsockopt(socket.SOL_SOCKET, socket.SO_ERROR)
                self.assertIn(error, (0, errno.ECONNRESET))
                if error:
                    were_reset.add(s)
            return len(were_reset)

        eventually(daemon.lines, "a line")
        # A peer that has read nothing for a second is reset while more bytes wait than may for long: the check comes once a second.
        before_last, last = -1, 0
        while before_last != last:
            time.sleep(5)
            before_last, last = last, resets()
        # Beside what waits there are the lists that four workers make, and what the C library keeps. Without a bound it were 80 MB.
        self.assertLess(daemon.kb("VmHWM") - before, UNREAD_MOST * 3 // 2 // 1024)
        self.honest(daemon, 3, None)
        self.assertEqual(ask(daemon.port, NAMES), whole)
        counted = sum(int(RESET.fullmatch(line)[1]) for line in daemon.lines())
        self.assertTrue(1 <= counted <= resets(), (counted, resets()))
        # The others have the whole list, and as many are left as have room.
        kept = [s for s in unread if s not in were_reset]
        self.assertGreaterEqual(len(kept), UNREAD_LEFT // len(whole) - 1)
        for s in kept[-2:]:
            s.setsockopt(socket.SOL_SOCKET, socket.SO_RCVBUF, 1 << 20)
            self.assertEqual(ending(s), (whole, "end"))

    def test_fewer_bytes_may_wait(self):
        _, daemon, _, whole = self.small("-relaxed_command_check", size=1000)
        waiting = [self.dial(daemon, room=4096) for _ in range(60)]
        for s in waiting:
            s.sendall(NAMES)
        time.sleep(2)
        for s in waiting:
            self.assertEqual(rest(s), whole)
        self.ends(daemon)

    def test_a_slow_reader_has_the_whole_list(self):
        _, daemon, names, whole = self.small(*NEVER)
        slow = [self.dial(daemon, room=4096) for _ in range(3)]
        self.honest(daemon, 1, names)  # By then the daemon waits for their requests.
        for s in slow:
            s.sendall(NAMES)
            self.assertEqual(exactly(s, 4), whole[:4])
        self.honest(daemon, 3, names)
        for s in slow:
            self.assertEqual(rest(s), whole[4:])

    def test_a_slow_reader_costs_no_calls(self):
        """While a reply waits for its reader, the daemon asks the poll for it once, and not over and over."""
        faults, daemon, _, whole = self.small(*NEVER)
        slow = [self.dial(daemon, room=2048) for _ in range(3)]
        time.sleep(0.5)
        faults.refuse("memory", FOR_EVER)
        faults.on = 1
        for s in slow:
            s.sendall(NAMES)
        time.sleep(3)
        counts = faults.counts()
        faults.on = 0
        # Some for each of them and for each accepted connection; a thousand if it tried once in a millisecond.
        self.assertLess(counts["epoll_ctl"], 100, counts)
        self.assertLess(counts["send"], 100, counts)
        for s in slow:
            self.assertEqual(rest(s), whole)

    def test_a_slow_reader_that_the_poll_refuses_is_reset(self):
        """A prefix of a list never looks like a whole list."""
        faults, daemon, names, whole = self.small(*NEVER, "-workers", "1")
        slow = self.dial(daemon, NAMES[:1], room=2048)
        self.assertEqual(ask(daemon.port, NAMES), whole)  # By then the poll reports the rest of the slow peer's request.
        faults.refuse("epoll_ctl", 1, "ENOSPC", FOR_EVER)
        faults.on = 1
        slow.sendall(NAMES[1:])
        got, how = ending(slow)
        self.assertEqual((how, whole.startswith(got)), ("reset", True))
        self.assertLess(len(got), len(whole))
        faults.on = 0
        self.assertGreaterEqual(faults.refused, 1)
        self.honest(daemon, 3, names)


class Crowd(Peers):
    def test_look_ups_do_not_wait_behind_lists(self):
        """Hundreds of peers ask for long lists and read nothing. Between two look-ups, one after the other, few of them get a list."""
        daemon = self.daemon(*NEVER, "-workers", "1")
        for number in range(3000):
            register(daemon.port, b"%01000d" % number).close()
        with register(daemon.port, b"one"):
            with stopped(daemon.pid):
                peers = [self.dial(daemon, DUMP, room=2048) for _ in range(CROWD)]
            waiting, most, looked_up = peers, 0, 0
            while waiting and looked_up < 10_000:
                self.assertEqual(ask(daemon.port, port_please(b"one")), found(b"one"))
                begun = select.select(waiting, [], [], 0)[0]
                waiting = [peer for peer in waiting if peer not in begun]
                most, looked_up = max(most, len(begun)), looked_up + 1
        self.assertEqual(waiting, [])
        self.assertLess(most, CROWD // 3, f"of {CROWD} lists while {looked_up} look-ups were made")


class OtherHosts(Peers, OwnNetwork):
    """Peers of another host take all places that they get. Those of this host are served."""

    def test_they_leave_an_eighth_of_the_places(self):
        daemon = self.daemon(*NEVER, address=None)
        far = [self.dial(daemon, at=FAR) for _ in range(PLACES)]
        most = PLACES - PLACES // 8
        eventually(lambda: sum(map(is_open, far)) == connections(daemon.pid) == most, f"that {most} are open")
        self.hold(daemon, *(b"near%d" % number for number in range(PLACES // 8)))
        self.assertLessEqual(sum(map(is_open, far)), most)
        for s in far:
            s.close()
        eventually(lambda: ending_of(daemon.port, port_please(b"near0"), *FAR) == found(b"near0"))

    def test_their_time_counts_from_the_connect(self):
        daemon = self.daemon("-packet_timeout", "3", address=None)
        own, = self.hold(daemon, b"one")
        began = time.monotonic()
        s, request = self.dial(daemon, at=FAR), port_please(b"x" * 1000)
        with contextlib.suppress(OSError):
            for at in range(len(request)):
                s.sendall(request[at:at + 1])
                time.sleep(0.1)
                if not is_open(s):
                    break
        self.assertLess(at, len(request) - 1)
        self.assertGreater(time.monotonic() - began, 2.8)
        self.assertTrue(is_open(own))

    def test_they_are_evicted_before_local_peers(self):
        daemon = self.daemon(*NEVER, "-workers", "1", address=None)
        near, far = [], []
        for count, of, at in (PLACES // 2, near, ()), (PLACES // 4, far, FAR), (PLACES // 4, near, ()):
            of += [self.dial(daemon, at=at) for _ in range(count)]
            eventually(lambda: connections(daemon.pid) == len(near) + len(far))
        time.sleep(1.2)
        self.honest(daemon, 10)
        self.assertTrue(all(map(is_open, near)))
        self.assertFalse(all(map(is_open, far)))
