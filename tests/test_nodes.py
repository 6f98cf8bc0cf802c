"""Nodes of Erlang/OTP at the daemon, over both families: they register, find each other, come back, and outlive the daemon."""
from nodes import Nodes
from system import PATIENCE, eventually
from wire import NAMES, ask, listed, port_please


class Inet(Nodes):
    def test_nodes_find_each_other(self):
        daemon = self.daemon()
        one = self.up(daemon, "one")
        self.assertEqual(self.names(daemon), [b"one"])
        asked = ask(daemon.port, port_please(b"one"), self.address)
        self.assertEqual((asked[:2], asked[4:5]), (b"w\0", b"M"))  # It is there, as a normal node.
        two = self.node(daemon, "two", f"io:format(\"~p~n\", [net_adm:ping('one@{self.address}')]), ")
        self.assertEqual([two.stdout.readline() for _ in range(2)], ["pong\n", "up\n"])
        self.assertEqual(self.names(daemon), [b"one", b"two"])
        self.end(daemon, one, b"one")
        self.assertEqual(self.names(daemon), [b"two"])
        one = self.up(daemon, "one")
        self.assertEqual(self.names(daemon), [b"two", b"one"])
        self.end(daemon, two, b"two")
        self.end(daemon, one, b"one")
        self.assertEqual(ask(daemon.port, NAMES, self.address), listed(daemon.port))
        self.assertEqual(daemon.lines(), [])

    def test_a_name_in_use(self):
        daemon = self.daemon()
        one = self.up(daemon, "one")
        other = self.node(daemon, "one")
        text, _ = other.communicate("", timeout=PATIENCE)
        self.assertIn(f"the name one@{self.address} seems to be in use by another Erlang node", text)
        self.assertEqual(self.names(daemon), [b"one"])
        self.prints(daemon, "epmd: name one is in use")
        self.end(daemon, one, b"one")

    def test_a_node_that_is_killed(self):
        daemon = self.daemon()
        one = self.up(daemon, "one")
        one.kill()
        again = self.up(daemon, "one")
        self.end(daemon, again, b"one")

    def test_a_daemon_that_ends_and_comes_back(self):
        daemon = self.daemon()
        nodes = [self.up(daemon, name) for name in ("one", "two")]
        daemon.process.kill()
        daemon.process.wait()
        daemon = self.daemon(port=daemon.port)
        eventually(lambda: sorted(self.names(daemon)) == [b"one", b"two"], "that both are there again")
        for process, name in zip(nodes, (b"one", b"two")):
            self.end(daemon, process, name)


class Inet6(Inet):
    carrier = "inet6_tcp"


class Again(Nodes):
    def test_a_node_that_comes_back(self):
        self.comes_back(200, "1", "4")


class Again6(Again):
    carrier = "inet6_tcp"
