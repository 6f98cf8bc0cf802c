"""Times under load: refusals of a name that is taken, an address beside a flooded one, nodes that come back, and the calls of the system that
each request costs."""
import os, re, shutil, signal, statistics, subprocess, tempfile, time, unittest

from case import Case
from load import looking_up
from nodes import Nodes
from system import eventually
from wire import TAKEN, alive, ask, dial, exactly, found, port_please, register

ASKING = 100


def in_ms(seconds):
    """Their number, median and maximum."""
    return f"{len(seconds)} in {statistics.median(seconds) * 1000:.2f} ms, at most {max(seconds) * 1000:.1f}" if seconds else "none"


class Duplicates(Case):
    """100 connections at once ask for a name that another one holds. Each is refused and closed within 0.2 s, and look-ups of it succeed."""

    def all_ask(self, port):
        """The seconds until each reply and until each close, and when all that began and ended."""
        asking = [(dial(port), []) for _ in range(ASKING)]
        start = time.monotonic()
        for s, times in asking:
            times.append(time.monotonic())
            s.sendall(alive(b"a"))
        for s, times in asking:
            for wanted in TAKEN, b"":
                self.assertEqual(exactly(s, 6), wanted)
                times.append(time.monotonic() - times[0])
            s.close()
        _, answered, closed = zip(*(times for _, times in asking))
        return answered, closed, start, time.monotonic()

    def test_they_are_refused_soon(self):
        for workers in 5 * ("1",) + 5 * ("2",) + 5 * ("4",):
            with self.subTest(workers=workers):
                daemon = self.daemon("-workers", workers)
                with register(daemon.port, b"a"), looking_up(daemon.port, b"a") as looks:
                    time.sleep(0.5)
                    answered, closed, start, stop = self.all_ask(daemon.port)
                register(daemon.port, b"a").close()
                during = [end - begin for begin, end, _ in looks if begin < stop and end > start]
                self.assertTrue(all(right for _, _, right in looks))
                self.measured += f"workers {workers}: refused {in_ms(answered)}, closed {in_ms(closed)}; look-ups meanwhile {in_ms(during)}; "
                self.assertLessEqual(max(answered + closed), 0.2)


class Starved(Case):
    def test_an_address_beside_a_flooded_one(self):
        """Look-ups take at most twice as long, and 4 ms, as at the address that is flooded."""
        for workers in "1", "2", "4":
            with self.subTest(workers=workers):
                daemon = self.daemon("-workers", workers, address="127.0.0.2,127.0.0.1")
                self.hold(daemon, b"one")
                took = {"127.0.0.2": [], "127.0.0.1": []}
                with self.flood(daemon, b"zone", 32, "127.0.0.2"):
                    time.sleep(1)
                    until = time.monotonic() + 6
                    while time.monotonic() < until:
                        for address, times in took.items():
                            start = time.monotonic()
                            self.assertEqual(ask(daemon.port, port_please(b"one"), address), found(b"one"))
                            times.append(time.monotonic() - start)
                flooded, other = map(statistics.median, took.values())
                self.measured += f"workers {workers}: flooded {in_ms(took['127.0.0.2'])}, beside it {in_ms(took['127.0.0.1'])}; "
                self.assertLessEqual(other, 2 * flooded + 0.004)


class NodeAgain(Nodes):
    def test_two_thousand_starts(self):
        self.comes_back(2000, "1", "2", "4")


@unittest.skipUnless(shutil.which("strace"), "no strace")
class Calls(Case):
    """The calls of the system by name for a look-up, and for a registration with its end: 2,000 of each, one at a time, each when the daemon
    is idle."""

    COUNT, PAUSE = 2000, 0.001

    def finds(self, port, number):
        self.assertEqual(ask(port, port_please(b"held%d" % (number % 10))), found(b"held%d" % (number % 10)))

    def comes_and_goes(self, port, number):
        with register(port, b"own%d" % (number % 100)):
            time.sleep(self.PAUSE)

    def is_traced(self, daemon):
        tasks = f"/proc/{daemon.pid}/task"
        return all("TracerPid:\t0\n" not in open(f"{tasks}/{task}/status").read() for task in os.listdir(tasks))

    def test_calls(self):
        for workers in "1", "4":
            for what, act in ("look-up", self.finds), ("registration with its end", self.comes_and_goes):
                daemon = self.daemon("-workers", workers)
                self.hold(daemon, *(b"held%d" % number for number in range(10)))
                with tempfile.NamedTemporaryFile("r") as counts:
                    strace = subprocess.Popen(["strace", "-c", "-f", "-o", counts.name, "-p", str(daemon.pid)], stderr=subprocess.DEVNULL)
                    eventually(lambda: self.is_traced(daemon))
                    for number in range(self.COUNT):
                        act(daemon.port, number)
                        time.sleep(self.PAUSE)
                    time.sleep(0.05)
                    strace.send_signal(signal.SIGINT)
                    strace.wait()
                    rows = re.findall(r"^ *[\d.]+ +[\d.]+ +\d+ +(\d+) +(?:\d+ +)?(\w+)$", counts.read(), re.M)
                each = sorted(((int(number) / self.COUNT, name) for number, name in rows if name != "total"), reverse=True)
                self.assertTrue(each)
                self.measured += f"workers {workers}, {what}: {', '.join(f'{name} {number:.2f}' for number, name in each if number >= 0.005)}; "
