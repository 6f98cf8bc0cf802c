"""Names that are taken and freed: a node that closes its connection gets its name again at once, a name in use is refused, and of many that
wait for one name one gets it. The line of a name in use is in test_notices.py."""
import contextlib, multiprocessing, socket, subprocess, time

from case import Case
from daemon import built
from load import looking_up
from system import eventually, listening_at, loopbacks, stopped
from wire import (NAMES, TAKEN, TAKEN_SHORT, alive, ask, dial, exactly, found, is_registered, listed, port_please, register, reset, rest,
                  result)

PROGRAMS, ROUNDS = 4, 500  # Each program comes back in each round.
ASKING = 50


class ComesBack(Case):
    """Four programs, each with a name of its own, close their connections and register again at once. None is refused."""

    workers = "1"

    def comes_back(self, way, body=None):
        daemon = self.daemon("-workers", self.workers)
        names = [b"held%d" % number for number in range(200)]
        self.hold(daemon, *names)
        words = [built("again"), str(daemon.port)]
        with self.flood(daemon, body) if body else contextlib.nullcontext():
            programs = [
                subprocess.Popen([*words, f"own{number}", str(ROUNDS), way], stdout=subprocess.PIPE, text=True) for number in range(PROGRAMS)]
            for program in programs:
                self.addCleanup(program.kill)
            # Each prints how many rounds were refused, and how many had no reply.
            self.assertEqual([program.communicate()[0].split()[:2] for program in programs], [["0", "0"]] * PROGRAMS, daemon.how())
            eventually(lambda: ask(daemon.port, NAMES) == listed(daemon.port, *names))
            self.assertEqual(daemon.lines(), [])

    def test_a_close_before_the_connect(self):
        self.comes_back("a")

    def test_a_connect_before_the_close(self):
        self.comes_back("b")

    def test_beside_look_ups(self):
        self.comes_back("b", b"zheld0")


class ComesBackToFour(ComesBack):
    workers = "4"


class Freed(Case):
    def test_a_name_is_free_once_its_connection_is_closed(self):
        daemon = self.daemon()

        def holds(writer):
            with register(daemon.port, b"one"):
                writer.send(True)
                time.sleep(1000)

        def killed():
            reader, writer = multiprocessing.Pipe(False)
            process = multiprocessing.Process(target=holds, args=(writer,))
            process.start()
            self.assertTrue(reader.recv())
            yield
            process.kill()
            process.join()

        def by(close):
            s = register(daemon.port, b"one")
            yield
            close(s)
            s.close()

        ways = {"a close": by(socket.socket.close), "a reset": by(reset), "a half-close": by(lambda s: s.shutdown(1)),
                "the end of both directions": by(lambda s: s.shutdown(2)), "the end of its process": killed()}
        for name, way in ways.items():
            with self.subTest(name):
                next(way)
                self.assertEqual(ask(daemon.port, port_please(b"one")), found(b"one"))
                next(way, None)
                with register(daemon.port, b"one"):  # At once, as a node that comes back.
                    pass
                self.leaves(daemon, b"one")

    def test_a_node_comes_back_by_the_other_family(self):
        daemon = self.daemon()
        places = loopbacks()
        eventually(lambda: len(listening_at(daemon.pid)) == len(places))
        for number in range(100):
            register(daemon.port, b"one", places[number % len(places)]).close()


class InUse(Case):
    def test_a_name_in_use_is_refused(self):
        daemon = self.daemon()
        with register(daemon.port, b"one"):
            for request, reply in 5 * ((alive(b"one", number=1), TAKEN), (alive(b"one", highest=5), TAKEN_SHORT)):
                self.assertEqual(ask(daemon.port, request), reply)
            self.assertEqual(ask(daemon.port, port_please(b"one")), found(b"one"))
            with dial(daemon.port) as s:  # In two parts.
                s.sendall(alive(b"one")[:5])
                time.sleep(0.05)
                s.sendall(alive(b"one")[5:])
                self.assertEqual(rest(s), TAKEN)
        register(daemon.port, b"one").close()


class Many(Case):
    def results(self, asking):
        """The result of each registration: those that are refused are closed."""
        results = []
        for s in asking:
            reply = exactly(s, 6)
            self.assertIn(reply[:2], (b"v\0", b"v\1"))
            if reply[1]:
                self.assertEqual((reply, rest(s)), (TAKEN, b""))
            results.append(reply[1])
        return results

    def all_ask(self, daemon, name, count=ASKING, first=lambda: None):
        """That many connections, on which a name is asked for after `first`."""
        asking = [self.enterContext(dial(daemon.port)) for _ in range(count)]
        first()
        for s in asking:
            s.sendall(alive(name))
        return asking

    def one_has(self, daemon, name, asking):
        """Exactly one gets the name, and loses it by its close."""
        results = self.results(asking)
        self.assertEqual(results.count(0), 1, results)
        self.assertTrue(is_registered(daemon.port, name))
        asking[results.index(0)].close()
        register(daemon.port, name).close()

    def test_one_of_many_gets_a_free_name(self):
        for workers in "1", "4":
            with self.subTest(workers=workers):
                daemon = self.daemon("-workers", workers)
                for number in range(5):
                    name = b"one%d" % number
                    owner = register(daemon.port, name)
                    self.one_has(daemon, name, self.all_ask(daemon, name, first=owner.close))

    def test_one_of_many_that_wait_gets_the_name(self):
        """The requests come before the owner's close, and the daemon sees all at the same time."""
        for workers in "1", "4":
            with self.subTest(workers=workers):
                daemon = self.daemon("-workers", workers)
                for number in range(5):
                    name = b"one%d" % number
                    owner = register(daemon.port, name)
                    with stopped(daemon.pid):
                        asking = self.all_ask(daemon, name)
                        owner.close()
                    self.one_has(daemon, name, asking)

    def test_all_are_refused_beside_look_ups(self):
        daemon = self.daemon()
        with register(daemon.port, b"one"), looking_up(daemon.port, b"one") as looks:
            self.assertEqual(self.results(self.all_ask(daemon, b"one", 100)), [1] * 100)
        self.assertEqual({is_found for _, _, is_found in looks}, {True})
        register(daemon.port, b"one").close()

    def test_each_of_many_names_goes_to_one(self):
        daemon = self.daemon()
        asking = [(b"name%d" % (number % 20), self.enterContext(dial(daemon.port))) for number in range(100)]
        for name, s in asking:
            s.sendall(alive(name))
        results = [(name, result(s)) for name, s in asking]
        self.assertEqual(sorted(name for name, result in results if result == 0), sorted(b"name%d" % number for number in range(20)))
        self.assertEqual(sum(result == 1 for _, result in results), 80)
