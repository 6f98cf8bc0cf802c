"""The base of the tests with nodes of Erlang/OTP."""
import os, re, shutil, subprocess, unittest

from case import Case
from system import PATIENCE, eventually, loopbacks
from wire import NAMES, ask

ADDRESSES = {"inet_tcp": "127.0.0.1", "inet6_tcp": "::1"}
# Stops and starts the distribution over and over, and prints how often that failed.
AGAIN = """
ok = logger:set_primary_config(level, none),
Again = fun F(0, Errors) -> Errors;
            F(N, Errors) ->
                net_kernel:stop(),
                case net_kernel:start(['%s', longnames]) of
                    {ok, _} -> F(N - 1, Errors);
                    _ -> F(N - 1, Errors + 1)
                end
        end,
io:format("~b~n", [Again(%d, 0)]),
"""


@unittest.skipUnless(shutil.which("erl"), "there is no erl on the path")
class Nodes(Case):
    carrier = "inet_tcp"

    def setUp(self):
        super().setUp()
        self.address = ADDRESSES[self.carrier]
        if self.address not in loopbacks():
            self.skipTest("the host has no IPv6")

    def node(self, daemon, name, code="", named=True):
        """A node, which ends with its standard input. With a name it registers at its start."""
        words = ["-name", f"{name}@{self.address}"] if named else []
        process = subprocess.Popen(
            ["erl", "-noshell", "-start_epmd", "false", "-proto_dist", self.carrier, *words, "-setcookie", "tests", "-eval",
             code + 'io:format("up~n"), io:get_line(""), halt().'],
            env={**os.environ, "ERL_EPMD_PORT": str(daemon.port), "HOME": self.folder}, cwd=self.folder,
            stdin=subprocess.PIPE, stdout=subprocess.PIPE, stderr=subprocess.STDOUT, text=True)
        for end in process.stdout.close, process.stdin.close, process.wait, process.kill:
            self.addCleanup(end)
        return process

    def up(self, daemon, name, code=""):
        process = self.node(daemon, name, code)
        self.assertEqual(process.stdout.readline(), "up\n")
        return process

    def names(self, daemon):
        return re.findall(rb"^name (\S+) at port \d+$", ask(daemon.port, NAMES, self.address)[4:], re.M)

    def end(self, daemon, process, name):
        text, _ = process.communicate("\n", timeout=PATIENCE)
        self.assertEqual((text, process.returncode), ("", 0))
        eventually(lambda: name not in self.names(daemon), f"the end of {name}")

    def comes_back(self, rounds, *workers):
        """A node that stops and starts its distribution always gets its name again."""
        for number in workers:
            with self.subTest(workers=number):
                daemon = self.daemon("-workers", number)
                node = self.node(daemon, "one", AGAIN % (f"one@{self.address}", rounds), named=False)
                self.assertEqual([node.stdout.readline() for _ in range(2)], ["0\n", "up\n"])
                self.assertEqual(self.names(daemon), [b"one"])
                self.end(daemon, node, b"one")
                self.assertEqual(daemon.lines(), [])
