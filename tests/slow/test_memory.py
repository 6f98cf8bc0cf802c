"""Memory and threads that run out: names held, floods of names under a limit, and the most memory that the daemon takes."""
import concurrent.futures, itertools, os, resource, statistics, time

import daemon as lenient
import test_process
from case import Case, beside
from daemon import OUT_OF_MEMORY, SILENCE, hold
from load import watch
from shim import FOR_EVER
from wire import DUMP, ask, is_registered, port_please, register

FLOOD = [b"flood%d" % i for i in range(600)]
STEPS = 0, 128, 256, 384, 512, 768, 1024, 1536, 2048, 4096  # KB above those of an idle daemon.


class MemoryCase(Case):
    FILES = 4096


class OutOfMemory(MemoryCase):
    def is_well(self, daemon, silence, well):
        """It ended for lack of memory, or it was silent for at most six seconds, and served all within six once there was memory again."""
        if (daemon.ended() or (None,))[0] != OUT_OF_MEMORY[0] or daemon.lines()[-1:] != [OUT_OF_MEMORY[1]]:
            self.assertTrue(daemon.runs() and silence <= SILENCE and well is not None and well <= SILENCE, (daemon.how(), silence, well))

    def test_every_request_refused_for_eight_seconds(self):
        faults = self.faults("memory", 1, run=FOR_EVER, on=False)
        daemon = self.daemon(env=faults.env)
        self.hold(daemon, b"one")
        faults.on = 1
        seen, _, silence = watch(daemon, [b"one"], 8)
        faults.on = 0
        after, well, _ = watch(daemon, [b"one"], 8, True)
        self.is_well(daemon, silence, well)
        self.measured = f"found {seen}, silent for {silence:.1f} s; then {after}; {daemon.how()}"

    def flooded(self, limit, kb, names, flood, then):
        """A limit from the start, or, without a number, at the memory that is used once the names are held. After the flood its names leave, or
        the limit is lifted, and a KILL ends the daemon."""
        daemon = self.daemon(limits={limit: kb * 1024} if kb is not None else {}, patience=5.0)
        held, _ = hold(daemon.port, [b"held%d" % i for i in range(names)])
        if kb is None:
            daemon.limit(limit, daemon.kb("VmData") * 1024)

        def lists(_, over):
            while not over.is_set() and daemon.runs():
                lenient.ask(daemon.port, b"n", 0.5)
                over.wait(0.1)
        with beside(lists, 1):
            flooded, _ = hold(daemon.port, flood, bytes(2048))
            _, _, silence = watch(daemon, list(held)[:100] or [b"nobody"], 15)
        if then == "lifted":
            daemon.limit(limit, resource.RLIM_INFINITY)
        else:
            for s in flooded.values():
                s.close()
        _, well, _ = watch(daemon, list(held)[:100] or [b"nobody"], 8, True)
        self.is_well(daemon, silence, well)
        for s in [*held.values(), *flooded.values()]:
            s.close()
        start = time.monotonic()
        while daemon.runs():
            self.assertLess(time.monotonic() - start, SILENCE, "a KILL has no effect")
            lenient.ask(daemon.port, b"k", 0.5)
            time.sleep(0.2)
        return f"{limit} {kb}, {names} names, flood {len(flood)}, {then}: held {len(held)}, flooded {len(flooded)}, {daemon.how()}"

    def test_floods_under_a_limit(self):
        idle = self.daemon().kb("VmData")
        rows = [("RLIMIT_DATA", None, 100, FLOOD, then) for then in ("left", "lifted")]
        rows += [("RLIMIT_DATA", idle + kb, 300, FLOOD, then) for kb in STEPS for then in ("left", "lifted")]
        rows += [("RLIMIT_AS", mb * 1024, 300, *more) for mb in (16, 24, 32, 48) for more in (((), "lifted"), (FLOOD, "left"))]
        with concurrent.futures.ThreadPoolExecutor(6) as pool:
            self.measured = "; ".join(pool.map(lambda row: self.flooded(*row), rows))


class Threads(test_process.Threads):
    """With more workers, and 20,000 look-ups after which the log is drained. Limits of memory lower than those of test_process.py."""

    WORKERS, MANY = (1, 2, 4), 20_000

    def test_limits_of_memory(self):
        for workers, kb in itertools.product(self.WORKERS, (500, 1000, 2000, 4000, 8000, 12_000, 16_000, 24_000, 32_000, 40_000)):
            with self.subTest(workers=workers, kb=kb):
                daemon = self.daemon("-workers", str(workers), limits={"RLIMIT_DATA": kb * 1024})
                if daemon.ended() is None or test_process.NO_PROGRAM not in daemon.text():
                    self.assertTrue(self.serves_or_ends(daemon) == 0 or not daemon.runs(), daemon.how())
                self.assertLess(daemon.kb("VmRSS"), self.MEMORY_MOST)
                daemon.stop()


class Most(MemoryCase):
    """The memory at its most, in KB."""

    def test_names_of_8_kb(self):
        """They take at most twice what is held, and half of it five seconds after they left."""
        daemon = self.daemon()
        idle = daemon.kb("VmRSS")
        held, _ = hold(daemon.port, [b"big%d" % i for i in range(1000)], bytes(8192 - 13 - 6))
        size, peak = len(held) * 8, daemon.kb("VmHWM")
        for s in held.values():
            s.close()
        time.sleep(5)
        left = daemon.kb("VmRSS")
        self.measured = f"{len(held)} names of {size} KB: {idle} KB before, at most {peak}, {left} after five seconds"
        self.assertLessEqual(peak, idle + 2 * size)
        self.assertLessEqual(left, idle + size // 2)

    def test_lists(self):
        daemon = self.daemon()
        self.hold(daemon, *(b"%0250d" % i for i in range(500)))
        self.measured = f"{self.asked(daemon, 20_000, b'n')}: at most {daemon.kb('VmHWM')} KB"
        self.assertLessEqual(daemon.kb("VmHWM"), 8 * 1024)

    def test_a_million_look_ups(self):
        daemon = self.daemon()
        self.hold(daemon, b"one")
        self.measured = "; ".join(f"{self.asked(daemon, count, b'zone')}: {daemon.kb('VmRSS')} KB" for count in (100_000, 900_000))
        self.assertLessEqual(daemon.kb("VmRSS"), 3 * 1024)


class Forgotten(MemoryCase):
    """Names that come and go, and the processor time of registrations and look-ups by the number of known names."""

    KNOWN, NAMES, TURNS = 4096, 100_000, 3000

    def test_a_hundred_thousand_names(self):
        """They register and leave one after another beside 50 that stay. Memory at the end is at most 1.3 times that with all places taken,
        since the memory that the C library keeps varies."""
        daemon, stay = self.daemon(), [b"stay%02d" % i for i in range(50)]
        self.hold(daemon, *stay)
        for i in range(self.NAMES):
            register(daemon.port, b"n%06d" % i).close()
            if i == 4 * self.KNOWN:
                early = daemon.kb("VmRSS")
        time.sleep(0.5)
        late = daemon.kb("VmRSS")
        self.measured = f"{early} KB after {4 * self.KNOWN} names, {late} KB at the end"
        self.assertLessEqual(late, early * 1.3)
        lines = [line.split() for line in ask(daemon.port, DUMP)[4:].splitlines()]
        self.assertEqual([line[2] for line in lines if line[0] == b"active"], stay)
        newest = [b"n%06d" % i for i in range(self.NAMES - self.KNOWN + len(stay), self.NAMES)]
        self.assertEqual([line[2] for line in lines if line[0] != b"active"], newest)
        name = ("\u00e9" * 255).encode()
        self.hold(daemon, name)
        self.assertTrue(is_registered(daemon.port, name))

    def costs(self, known):
        """Microseconds of the daemon's processors for each act, with that many known names."""
        daemon = self.daemon()
        tasks = f"/proc/{daemon.pid}/task"

        def used():
            return sum(int(open(f"{tasks}/{task}/schedstat").read().split()[0]) for task in os.listdir(tasks))

        def measure(act):
            before = used()
            for i in range(self.TURNS):
                act(i)
            time.sleep(0.1)
            return (used() - before) / self.TURNS / 1000
        held = self.hold(daemon, *(b"held%04d" % i for i in range(min(known // 2, 500))))
        left = known - len(held)
        for i in range(left):
            register(daemon.port, b"old%05d" % i).close()
        time.sleep(0.3)
        return [measure(act) for act in (
            lambda i: ask(daemon.port, port_please(b"held%04d" % (i % len(held)))),
            lambda _: register(daemon.port, b"old%05d" % (left - 1)).close(), lambda i: register(daemon.port, b"old%05d" % (i % left)).close(),
            lambda i: register(daemon.port, b"new%05d" % i).close())]

    def test_costs(self):
        for known in 10, 100, 1000, self.KNOWN:
            medians = map(statistics.median, zip(*(self.costs(known) for _ in range(3))))
            named = zip(("look-up", "newest back", "oldest back", "new"), medians)
            self.measured += f"{known} known: {', '.join(f'{what} {cost:.1f}' for what, cost in named)} microseconds; "
