"""The commands of the program: what each one asks the port mapper, what it prints on which stream, and its status. The port mapper is a
daemon, or a server of the test's own that answers what no port mapper does."""
import contextlib
import fcntl
import os
import re
import shutil
import socket
import struct
import subprocess
import sys
import threading
import time
import unittest

from case import EPMD, PATIENCE, TOP, Case, eventually
from daemon import alive, ask, framed, free_port, listens, preload, read_most, register

sys.path.append(os.path.join(os.path.dirname(os.path.abspath(__file__)), "..", "faults"))
from shim import Faults

PIPE_ROOM = 4096
REFUSALS_MOST = 1000
LIST_MOST = 16_777_216
STRANGE = 1, b"", b"epmd: strange answer\n"
NOBODY = 1, b"", b"epmd: Cannot connect to local epmd\n"
NO_KILL = 1, b"", b"epmd: kill not allowed: names are registered, and the port mapper runs without -relaxed_command_check\n"
NO_STOP = 1, b"", b"epmd: stop not allowed: the port mapper runs without -relaxed_command_check\n"
DEVICE = b"epmd: input or output failed\n"
COMMANDS = ["-names"], ["-kill"], ["-stop", "a"], ["-dump"]

# Names with what a terminal may obey, and how they are printed: those that UTF-8 spells with what it hides, bytes that are no UTF-8 (a
# surrogate and a longer spelling among them), and what is printed as it is.
SHOWN = {
    "c1\u0085\u009f".encode(): rb"c1\x85\x9f",
    "soft\u00ad".encode(): rb"soft\xad",
    "letter\u061cmark".encode(): rb"letter\u061cmark",
    "vowel\u180e".encode(): rb"vowel\u180e",
    "zero\u200b\u200f".encode(): rb"zero\u200b\u200f",
    "lines\u2028\u2029".encode(): rb"lines\u2028\u2029",
    "turn\u202a\u202eback".encode(): rb"turn\u202a\u202eback",
    "join\u2060\u2066\u2069".encode(): rb"join\u2060\u2066\u2069",
    "mark\ufeff".encode(): rb"mark\ufeff",
    "note\ufff9\ufffb".encode(): rb"note\ufff9\ufffb",
    "tag\U000e0001\U000e007f".encode(): rb"tag\U000e0001\U000e007f",
    b"raw\xff\xfe": rb"raw\xff\xfe",
    b"long\xc0\xafend": rb"long\xc0\xafend",
    b"half\xe2\x80": rb"half\xe2\x80",
    b"surrogate\xed\xa0\x80": rb"surrogate\xed\xa0\x80",
    b"beyond\xf4\x90\x80\x80": rb"beyond\xf4\x90\x80\x80",
    "h\u00e9 \u4e2d\U0001f600 \u2018x\u2019 \u200a\u2010\u2027\u202f\u205f\ufffd".encode():
        "h\u00e9 \u4e2d\U0001f600 \u2018x\u2019 \u200a\u2010\u2027\u202f\u205f\ufffd".encode(),
    rb"\x41 at port 7": rb"\x41 at port 7",
}


def head(port):
    return b"epmd: up and running on port %d with data:\n" % port


def reply(text, port=4369):
    return struct.pack(">I", port) + text


def has_ipv6():
    with contextlib.suppress(OSError), socket.create_server(("::1", 0), family=socket.AF_INET6):
        return True
    return False


class StandIn:
    """A server in the place of a port mapper. It reads the request of each connection and hands both to `serve`."""

    def __init__(self, serve, address="127.0.0.1", port=None):
        self.serve, self.asked = serve, []
        self.port, self.kept = (port, socket.socket()) if port else free_port()
        family = socket.AF_INET6 if ":" in address else socket.AF_INET
        self.listener = socket.create_server((address, self.port), family=family)
        self.thread = threading.Thread(target=self.run, daemon=True)
        self.thread.start()

    def __enter__(self):
        return self

    def __exit__(self, *_):
        # The thread ends before its descriptor is another listener's.
        self.listener.shutdown(socket.SHUT_RDWR)
        self.thread.join()
        self.listener.close()
        self.kept.close()

    def run(self):
        while True:
            try:
                s, _ = self.listener.accept()
            except OSError:
                return
            threading.Thread(target=self.answer, args=(s,), daemon=True).start()

    def answer(self, s):
        with s, contextlib.suppress(OSError):
            s.settimeout(PATIENCE)
            size, = struct.unpack(">H", read_most(s, 2))
            body = read_most(s, size)
            self.asked.append(body)
            self.serve(s, body)


class CommandCase(Case):
    def ask(self, port, *words, **how):
        return self.run_epmd("-port", str(port), *words, **how)

    def held(self, daemon, *names):
        """Connections that hold these names, which are closed at the end of the test."""
        for name in names:
            s = register(daemon.port, name, seconds=PATIENCE)
            self.assertTrue(s, name)
            self.addCleanup(s.close)
            yield s

    def lists(self, daemon, *names):
        """Waits until exactly these names are listed."""
        wanted = reply(b"".join(b"name %s at port 5000\n" % name for name in names), daemon.port)
        eventually(lambda: ask(daemon.port, b"n", PATIENCE) == wanted)

    def stand_in(self, serve, **how):
        server = StandIn(serve, **how)
        self.addCleanup(server.__exit__)
        return server

    def answered(self, answer, *words):
        """What a command prints that is answered so, and what it has asked."""
        with StandIn(lambda s, _: s.sendall(answer)) as server:
            return self.ask(server.port, *words), server.asked


# What the value of each word has to be, and a value that is not so. Any word is the path of a file.
NEEDED = {"-port": "a number from 1 to 65535", "-address": "IPv4 addresses separated by commas", "-workers": "a number from 1 to 64",
          "-packet_timeout": "a number of seconds from 1 to 86400", "-stop": "a name of 1 to 1020 bytes without control characters",
          **dict.fromkeys(("-record", "-figures", "-check", "-play", "-local", "-audit"), "the path of a file")}
WRONG = {"-port": "0", "-address": "1.2.3", "-workers": "-names", "-packet_timeout": "86401", "-stop": ""}


class Words(CommandCase):
    """Words and the environment. Commands that ask nobody show whether words are taken."""

    def refused(self, line, *words, **how):
        self.assertEqual(self.run_epmd(*words, **how), (2, b"", f"epmd: {line}; see epmd -help\n".encode()), words)

    def unknown(self, word, *words, **how):
        self.refused(f'unknown word "{word}"', *words, **how)

    def lacks(self, word, *words):
        self.refused(f"{word} lacks its value, {NEEDED[word]}", *words, word)

    def wrong(self, word, value, *words, shown=None):
        """With this value behind the word, and with more words behind both."""
        self.refused(f'{word} needs {NEEDED[word]}, not "{value if shown is None else shown}"', word, value, *words)

    def taken(self, *words, **how):
        """With these words an incomplete request is answered by nothing."""
        self.assertEqual(self.run_epmd(*words, "-once", **how), (0, b"", b""), words)

    def test_a_word_that_is_unknown(self):
        for word in ("-foo", "foo", "", "-", "--names", "-Names", "-names ", "-port=5", "-h", "--help", "--version",
                     "-systemd", "-delay_accept", "-delay_write", "-relaxed", "-debugx", "-p"):
            with self.subTest(word=word):
                self.unknown(word, word)
                self.unknown(word, "-d", word)
                self.unknown(word, "-port", "5", "-names", word)

    def test_each_word_with_a_value_is_tried(self):
        """The words with a value are those of the help."""
        values = dict(re.findall(r"(-\w+) ([A-Z]+)", self.run_epmd("-help")[1].decode()))
        self.assertEqual(set(values), set(NEEDED))
        self.assertEqual({word for word, value in values.items() if value != "FILE"}, set(WRONG))

    def test_a_word_that_lacks_its_value(self):
        for word in NEEDED:
            with self.subTest(word=word):
                self.lacks(word)
                self.lacks(word, "-debug")

    def test_a_word_with_a_wrong_value(self):
        for word, value in WRONG.items():
            with self.subTest(word=word):
                self.wrong(word, value)
                self.wrong(word, value, "-d", "-foo")

    def test_words_and_values_are_escaped(self):
        for word, shown in ("-\x1b[31m", r"-\x1b[31m"), ("\u202e\u00e9", "\\u202e\u00e9"):
            with self.subTest(word=word):
                self.unknown(shown, word)
                self.wrong("-workers", word, shown=shown)
        self.wrong("-stop", "a\x1f", shown=r"a\x1f")

    def test_numbers(self):
        bounds = {"-port": (1, 65535), "-packet_timeout": (1, 86400), "-workers": (1, 64)}
        for word, (least, most) in bounds.items():
            self.assertIn(f" from {least} to {most}", NEEDED[word])
            bad = (0, most + 1, f"+{least}", f"-{least}", "", " 1", "1 ", "1x", "x", "0x1", "1.0", "0000000001", "999999999", 2**32 + least)
            for number in bad:
                with self.subTest(word=word, number=number):
                    self.wrong(word, str(number), "-once")
            for number in (least, most, f"{least:09}"):
                with self.subTest(word=word, number=number):
                    self.taken(word, str(number))

    def test_addresses(self):
        for bad in ("", "1", "1.2.3", "1.2.3.4.5", "1.2.3.256", "1.2.3.0004", "1.2.3.-4", "a.b.c.d", "localhost", "::1", "1.2.3.4,",
                    ",1.2.3.4", "1.2.3.4,,5.6.7.8", "1.2.3.4 ", "1.2.3.4;5.6.7.8", "1..2.3"):
            with self.subTest(list=bad):
                self.wrong("-address", bad, "-once")
        for good in "1.2.3.4", "001.020.000.255", "1.2.3.4,1.2.3.4", "0.0.0.0,127.0.0.1":
            with self.subTest(list=good):
                self.taken("-address", good)

    def test_names(self):
        for bad in "", "a\nb", "a" * 1021:
            with self.subTest(name=bad):
                self.wrong("-stop", bad)
        self.wrong("-stop", "a\x7f", shown=r"a\x7f")

    def test_a_second_command(self):
        for second in (["-names"], ["-kill"], ["-dump"], ["-health"], ["-once"], ["-help"], ["-stop", "a"], ["-check", "f"], ["-play", "f"],
                       ["-local", "f"], ["-audit", "f"]):
            with self.subTest(second=second):
                for first in ["-names"], ["-check", "f"], ["-stop", "a", "-d"]:
                    self.refused(f"{second[0]} is a second command", *first, *second)
                self.refused(f"{second[0]} is a second command", "-once", second[0])
        self.refused("-stop is a second command", "-names", "-stop", "")

    def test_the_first_fault_counts(self):
        self.wrong("-port", "0", "-foo")
        self.unknown("-foo", "-foo", "-port", "0")
        self.lacks("-workers", "-port", "1")
        self.refused(f'-workers needs {NEEDED["-workers"]}, not "0"', "-port", "1", "-workers", "0", "-names", "-names")

    def test_a_value_begins_with_anything(self):
        self.taken("-record", "-names")
        self.taken("-record", "-foo", "-record", "")

    def test_options_without_effect_are_taken(self):
        self.taken("-port", "1", "-address", "10.0.0.1", "-packet_timeout", "1", "-workers", "2", "-record", "/none/f",
                   "-relaxed_command_check", "-d", "-debug", "-daemon")
        self.assertFalse(os.path.exists("/none"))

    def test_the_last_value_counts(self):
        daemon = self.daemon()
        self.assertEqual(self.run_epmd("-port", "1", "-names", "-port", str(daemon.port)), (0, head(daemon.port), b""))

    def test_a_word_that_is_not_utf_8(self):
        for words in ["-port", "1", b"\xff"], [b"-stop", b"\xc3"], [b"\xff", "-foo"]:
            self.refused("a word is not UTF-8", *words)

    def test_the_port_of_the_environment(self):
        refused = 2, b"", b"epmd: ERL_EPMD_PORT needs a number from 1 to 65535\n"
        for bad in "0", "65536", "", "abc", " 1", "+1", "0000000001", b"\xff":
            with self.subTest(port=bad):
                for words in (["-names"], ["-once"], ["-check", "/none"], []):
                    self.assertEqual(self.run_epmd(*words, env={"ERL_EPMD_PORT": bad}), refused, words)
                self.taken("-port", "1", env={"ERL_EPMD_PORT": bad})
                self.unknown("-foo", "-foo", env={"ERL_EPMD_PORT": bad})
        self.taken(env={"ERL_EPMD_PORT": "000000001"})

    def test_version_and_help_are_the_wrappers(self):
        for word in "-version", "-help":
            done = subprocess.run([os.path.join(TOP, "contrib", "epmd"), word], capture_output=True, timeout=PATIENCE)
            self.assertEqual(self.run_epmd(word), (done.returncode, done.stdout, done.stderr))
            self.assertEqual(self.run_epmd("-port", "1", word, "-d")[0], 0)

    def test_addresses_of_the_environment_are_the_wrappers(self):
        self.taken(env={"ERL_EPMD_ADDRESS": "no address"})

    def test_the_environment_says_at_which_port(self):
        port, kept = free_port()
        env = {"ERL_EPMD_PORT": str(port)}
        with kept, subprocess.Popen([EPMD, "-address", "127.0.0.1"], env={**os.environ, **env}, stdin=subprocess.DEVNULL) as daemon:
            self.addCleanup(daemon.kill)
            eventually(lambda: listens(port), "the port")
            self.assertEqual(self.run_epmd("-names", env=env), (0, head(port), b""))
            self.assertEqual(self.run_epmd("-names", "-port", "1", env=env), NOBODY)
            self.assertEqual(self.run_epmd("-kill", "-port", str(port), env={"ERL_EPMD_PORT": "1"}), (0, b"Killed\n", b""))
            self.assertEqual(daemon.wait(PATIENCE), 0)


class Asked(CommandCase):
    """Each command at a daemon."""

    def test_names_and_kill(self):
        for workers in "1", "2", "4":
            with self.subTest(workers=workers):
                daemon = self.daemon("-workers", workers)
                self.assertEqual(self.ask(daemon.port, "-names"), (0, head(daemon.port), b""))
                two, one = self.held(daemon, b"two", b"one")
                lines = b"name two at port 5000\nname one at port 5000\n"
                self.assertEqual(self.ask(daemon.port, "-names"), (0, head(daemon.port) + lines, b""))
                self.assertEqual(self.ask(daemon.port, "-kill"), NO_KILL)
                two.close()
                one.close()
                self.lists(daemon)
                self.assertEqual(self.ask(daemon.port, "-kill"), (0, b"Killed\n", b""))
                self.assertEqual(daemon.ended(PATIENCE), (0, ""))
                self.assertEqual(self.ask(daemon.port, "-names"), NOBODY)

    def test_dump(self):
        daemon = self.daemon()
        list(self.held(daemon, b"stays"))
        leaves, = self.held(daemon, b"leaves")
        leaves.close()
        self.lists(daemon, b"stays")
        status, out, err = self.ask(daemon.port, "-dump")
        self.assertEqual((status, err), (0, b""))
        self.assertRegex(out, b"^%sactive name     stays at port 5000, fd = \\d+\n"
                              b"old/unused name leaves at port 5000, fd = -1\n$" % head(daemon.port))

    def test_stop(self):
        strict, relaxed = self.daemon(), self.daemon("-relaxed_command_check")
        list(self.held(strict, b"a"))
        self.assertEqual(self.ask(strict.port, "-stop", "a"), NO_STOP)
        self.assertEqual(self.ask(strict.port, "-stop", "b"), NO_STOP)
        self.lists(strict, b"a")
        node, = self.held(relaxed, b"a")
        self.assertEqual(self.ask(relaxed.port, "-stop", "b"), (1, b"NOEXIST\n", b""))
        self.assertEqual(self.ask(relaxed.port, "-stop", "a"), (0, b"STOPPED\n", b""))
        self.assertEqual(read_most(node), b"")
        self.assertEqual(self.ask(relaxed.port, "-names"), (0, head(relaxed.port), b""))
        self.assertEqual(self.ask(relaxed.port, "-stop", "a"), (1, b"NOEXIST\n", b""))

    def test_the_longest_name(self):
        daemon = self.daemon("-relaxed_command_check")
        name = "\u00e9" * 510
        list(self.held(daemon, name.encode()))
        self.assertEqual(self.ask(daemon.port, "-names"), (0, head(daemon.port) + b"name %s at port 5000\n" % name.encode(), b""))
        self.assertEqual(self.ask(daemon.port, "-stop", name), (0, b"STOPPED\n", b""))

    def test_kill_of_a_relaxed_daemon(self):
        for words, env in ((["-relaxed_command_check"], {}), ([], {"ERL_EPMD_RELAXED_COMMAND_CHECK": ""}),
                           ([], {"ERL_EPMD_RELAXED_COMMAND_CHECK": "no"}), ([], {"ERL_EPMD_RELAXED_COMMAND_CHECK": b"\xff"})):
            with self.subTest(words=words, env=env):
                daemon = self.daemon(*words, env=env)
                list(self.held(daemon, b"a"))
                self.assertEqual(self.ask(daemon.port, "-kill"), (0, b"Killed\n", b""))
                self.assertEqual(daemon.ended(PATIENCE), (0, ""))

    def test_relaxing_the_command_relaxes_nothing(self):
        daemon = self.daemon()
        list(self.held(daemon, b"a"))
        self.assertEqual(self.ask(daemon.port, "-relaxed_command_check", "-kill", env={"ERL_EPMD_RELAXED_COMMAND_CHECK": "1"}), NO_KILL)

    def test_nobody_listens(self):
        port, kept = free_port()
        with kept:
            for words in COMMANDS:
                self.assertEqual(self.ask(port, *words), NOBODY, words)

    def test_what_a_terminal_may_obey_is_escaped(self):
        daemon = self.daemon()
        list(self.held(daemon, *SHOWN))
        lines = b"".join(b"name %s at port 5000\n" % shown for shown in SHOWN.values())
        self.assertEqual(self.ask(daemon.port, "-names"), (0, head(daemon.port) + lines, b""))
        status, out, err = self.ask(daemon.port, "-dump")
        self.assertEqual((status, err), (0, b""))
        for shown in SHOWN.values():
            self.assertIn(b"\nactive name     %s at port 5000, fd = " % shown, out)

    def test_how_many_events_each_worker_has_served(self):
        for word, workers in ("-d", 1), ("-debug", 3):
            with self.subTest(word=word):
                file = self.path(f"record{word}")
                daemon = self.daemon(word, "-workers", str(workers), "-record", file)
                for number in range(40):
                    self.assertEqual(ask(daemon.port, b"zname%d" % number, PATIENCE), b"w\1")
                self.assertEqual(self.ask(daemon.port, "-kill"), (0, b"Killed\n", b""))
                self.assertEqual(daemon.process.wait(PATIENCE), 0)
                lines = daemon.lines()
                for number, line in enumerate(lines, 1):
                    self.assertRegex(line, rf"^epmd: worker {number} served \d+$")
                self.assertEqual(len(lines), workers)
                served = sum(int(line.split()[-1]) for line in lines)
                self.assertEqual(self.run_epmd("-check", file), (0, b"run of %d entries\n" % served, b""))

    def test_a_daemon_prints_nothing_on_standard_output(self):
        with open(self.path("out"), "w+b") as out:
            daemon = self.daemon("-d", before=lambda: os.dup2(out.fileno(), 1))
            self.assertEqual(self.ask(daemon.port, "-kill"), (0, b"Killed\n", b""))
            self.assertEqual(daemon.process.wait(PATIENCE), 0)
            self.assertEqual(out.read(), b"")

    def test_a_port_that_is_taken(self):
        first = self.daemon()
        status, out, err = self.run_epmd("-port", str(first.port), "-address", "127.0.0.1")
        self.assertEqual((status, out, err), (1, b"", b"epmd: cannot listen on 127.0.0.1:%d: Address already in use\n" % first.port))

    def test_a_daemon_whose_files_can_not_be_made_does_not_go_into_the_background(self):
        port, kept = free_port()
        wrapper, env = os.path.join(TOP, "contrib", "epmd"), {**os.environ, "EPMD": EPMD}
        os.symlink("none", self.path("link"))
        self.addCleanup(kept.close)
        for word, name, told, reason in (("-record", "none/a", "none/a", "No such file or directory"),
                                         ("-figures", "none/a", "none/a.new", "No such file or directory"),
                                         ("-record", "", "", "Is a directory"),
                                         ("-record", "link", "link", "Too many levels of symbolic links")):
            with self.subTest(word=word, name=name):
                words = ["-daemon", "-port", str(port), "-address", "127.0.0.1", word, self.path(name)]
                done = subprocess.run([wrapper, *words], capture_output=True, timeout=PATIENCE, env=env)
                self.assertEqual((done.returncode, done.stdout, done.stderr), (1, b"", f"epmd: {self.path(told)}: {reason}\n".encode()))
                self.assertFalse(listens(port))
        self.assertEqual(os.listdir(self.folder), ["link"])

    def test_a_daemon_in_the_background_leaves_what_is_there_until_it_listens(self):
        first, file = self.daemon(), self.path("session")
        with open(file, "w") as there:
            there.write("mine")
        words = ["-port", str(first.port), "-address", "127.0.0.1", "-record", file, "-figures", self.path("new")]
        status, out, err = self.run_epmd("-daemon", *words)
        self.assertEqual((status, out, os.listdir(self.folder)), (1, b"", ["session"]))
        self.assertRegex(err, b"^epmd: cannot listen on ")
        with open(file) as there:
            self.assertEqual(there.read(), "mine")


class Answered(CommandCase):
    """Answers of a server that is no port mapper of ours."""

    def test_what_is_asked(self):
        for words, body in zip(COMMANDS, (b"n", b"k", b"sa", b"d")):
            self.assertEqual(self.answered(b"", *words)[1], [body])

    def test_lists_of_names(self):
        longest = b"n" * 1020
        for text, printed in ((b"", b""), (b"name a at port 0\n", b"name a at port 0\n"),
                              (b"name a at port 65535\nname b at port 1\n", b"name a at port 65535\nname b at port 1\n"),
                              (b"name a at port 5 at port 00012\n", b"name a at port 5 at port 12\n"),
                              (b"name  at port at port 1\n", b"name  at port at port 1\n"),
                              (b"name %s at port 1\n" % longest, b"name %s at port 1\n" % longest),
                              ("name \u202e at port 1\n".encode(), b"name \\u202e at port 1\n")):
            for port in 1, 4369, 2**32 - 1:
                with self.subTest(text=text, port=port):
                    self.assertEqual(self.answered(reply(text, port), "-names")[0], (0, head(port) + printed, b""))

    def test_strange_lists_of_names(self):
        good = b"name a at port 5000\n"
        for text in (b"name a at port 5000", b"name a at port 65536\n", b"name a at port \n", b"name a at port 000001\n",
                     b"name  at port 1\n", b"name a at port +1\n", b"name a at port 1 \n", b"Name a at port 1\n", b"name a  at port1\n",
                     b"\n", b"name a\n",
                     b"name a\x1b at port 1\n", b"name a\x7f at port 1\n", b"name %s at port 1\n" % (b"n" * 1021), b"x",
                     b"active name     a at port 5000, fd = 5\n", b"name a at port 1\r\n", b"name \0 at port 1\n"):
            for answer in reply(text), reply(good + text):
                with self.subTest(answer=answer):
                    self.assertEqual(self.answered(answer, "-names")[0], STRANGE)

    def test_answers_that_are_cut(self):
        for words in ["-names"], ["-dump"]:
            for answer in b"", b"\0", b"\0\0\x11":
                with self.subTest(words=words, answer=answer):
                    self.assertEqual(self.answered(answer, *words)[0], STRANGE)
        whole = reply(b"name a at port 50\nname b at port 77\n")
        for size in range(4, len(whole)):
            wanted = (0, head(4369) + whole[4:size], b"") if size in (4, 22) else STRANGE
            self.assertEqual(self.answered(whole[:size], "-names")[0], wanted, size)

    def test_dumps(self):
        for text, printed in ((b"", b""), (b"what is not looked at", b"what is not looked at"),
                              (b"a\x1b[2J\x07\tb\r\n\x7f\0\n", rb"a\x1b[2J\x07\x09b\x0d" + b"\n" + rb"\x7f\x00" + b"\n"),
                              ("\u202e\U000e0020\u00e9".encode() + b"\x80", rb"\u202e\U000e0020" + "\u00e9".encode() + rb"\x80")):
            with self.subTest(text=text):
                self.assertEqual(self.answered(reply(text, 7), "-dump")[0], (0, head(7) + printed, b""))

    def test_answers_to_a_kill(self):
        for answer, told in ((b"OK", (0, b"Killed\n", b"")), (b"OKAY", (0, b"Killed\n", b"")), (b"NO", NO_KILL), (b"", NO_KILL),
                             (b"O", STRANGE), (b"N", STRANGE), (b"ok", STRANGE), (b"ON", STRANGE), (b"\0\0", STRANGE)):
            with self.subTest(answer=answer):
                self.assertEqual(self.answered(answer, "-kill")[0], told)

    def test_answers_to_a_stop(self):
        for answer, told in ((b"STOPPED", (0, b"STOPPED\n", b"")), (b"STOPPED.", (0, b"STOPPED\n", b"")),
                             (b"NOEXIST", (1, b"NOEXIST\n", b"")), (b"", NO_STOP), (b"STOPPE", STRANGE),
                             (b"NOEXISt", STRANGE), (b"S", STRANGE), (b"OK", STRANGE)):
            with self.subTest(answer=answer):
                self.assertEqual(self.answered(answer, "-stop", "a")[0], told)

    def test_a_connection_that_is_reset(self):
        def reset(s, body):
            s.sendall(reply(b"name a at port 1\n")[:9])
            s.setsockopt(socket.SOL_SOCKET, socket.SO_LINGER, struct.pack("ii", 1, 0))
        server = self.stand_in(reset)
        for words in ["-names"], ["-dump"]:
            self.assertEqual(self.ask(server.port, *words), STRANGE, words)

    def test_an_answer_in_single_bytes(self):
        def drip(s, body):
            s.setsockopt(socket.IPPROTO_TCP, socket.TCP_NODELAY, 1)
            for byte in reply(b"name slow at port 1\n"):
                s.sendall(bytes([byte]))
                time.sleep(0.03)
        self.assertEqual(self.ask(self.stand_in(drip).port, "-names"), (0, head(4369) + b"name slow at port 1\n", b""))

    @unittest.skipUnless(has_ipv6(), "no IPv6")
    def test_ipv6_is_tried_where_ipv4_is_refused(self):
        six = self.stand_in(lambda s, _: s.sendall(reply(b"name six at port 6\n")), address="::1")
        self.assertEqual(self.ask(six.port, "-names"), (0, head(4369) + b"name six at port 6\n", b""))

    @unittest.skipUnless(has_ipv6(), "no IPv6")
    def test_ipv6_is_not_tried_where_ipv4_answers(self):
        four = self.stand_in(lambda s, _: s.sendall(reply(b"name four at port 4\n")))
        with socket.create_server(("::1", four.port), family=socket.AF_INET6) as six:
            self.assertEqual(self.ask(four.port, "-names"), (0, head(4369) + b"name four at port 4\n", b""))
            six.setblocking(False)
            self.assertRaises(BlockingIOError, six.accept)


class Endless(CommandCase):
    """Answers that are too long."""

    LINE = b"name %01000d at port 5000\n" % 7

    def test_a_list_without_an_end(self):
        def flood(s, body):
            s.sendall(reply(b""))
            while True:
                s.sendall(self.LINE * 100)
        server = self.stand_in(flood)
        for words in ["-names"], ["-dump"]:
            self.assertEqual(self.ask(server.port, *words), STRANGE, words)

    def test_the_longest_text(self):
        text = b"x" * (LIST_MOST - 5) + b"\n"
        status, out, err = self.answered(reply(text), "-dump")[0]
        self.assertEqual((status, err), (0, b""))
        self.assertTrue(out == head(4369) + text)
        self.assertEqual(self.answered(reply(text + b"x"), "-dump")[0], STRANGE)

    def test_a_kill_answered_without_an_end(self):
        def flood(s, body):
            while True:
                s.sendall(b"OK" * 5000)
        self.assertEqual(self.ask(self.stand_in(flood).port, "-kill"), (0, b"Killed\n", b""))


class Silent(CommandCase):
    """A port mapper that says nothing, or no more, holds a command for 10 to 20 seconds."""

    def test_silence(self):
        ended = threading.Event()
        self.addCleanup(ended.set)

        def silent(s, body):
            s.sendall({b"d": b"\0\0\x11\x11active", b"sb": b"STOP"}.get(body, b""))
            ended.wait(PATIENCE)
        server, told = self.stand_in(silent), {}

        def run(words):
            began = time.monotonic()
            told[" ".join(words)] = self.ask(server.port, *words), time.monotonic() - began
        threads = [threading.Thread(target=run, args=(words,)) for words in (*COMMANDS, ["-stop", "b"])]
        for thread in threads:
            thread.start()
        for thread in threads:
            thread.join()
        self.assertEqual({words: result for words, (result, _) in told.items()},
                         {words: STRANGE for words in ("-names", "-kill", "-stop a", "-stop b", "-dump")})
        self.assertGreater(min(seconds for _, seconds in told.values()), 9)


class Once(CommandCase):
    """One request from standard input."""

    def once(self, *pieces, words=(), env=None):
        with subprocess.Popen([EPMD, *words, "-once"], stdin=subprocess.PIPE, stdout=subprocess.PIPE, stderr=subprocess.PIPE,
                              env={**os.environ, **(env or {})}) as process:
            with contextlib.suppress(BrokenPipeError):
                for piece in pieces:
                    process.stdin.write(piece)
                    process.stdin.flush()
                    time.sleep(0.01 if len(pieces) > 1 else 0)
            out, err = process.communicate(timeout=PATIENCE)
            return process.returncode, out, err

    def test_each_request(self):
        old = struct.pack(">BHBBHHH", 120, 5000, 77, 0, 5, 5, 1) + b"a\0\0"
        rows = {alive(b"a"): b"v\0\0\0\0\4", old: b"y\0\0\1", b"za": b"w\1", b"n": b"\0\0\x11\x11", b"d": b"\0\0\x11\x11",
                b"k": b"OK", b"sa": b""}
        for body, answer in rows.items():
            with self.subTest(body=body):
                self.assertEqual(self.once(framed(body)), (0, answer, b""))
                self.assertEqual(self.once(framed(body) + b"more"), (0, answer, b""))
                self.assertEqual(self.once(*(bytes([byte]) for byte in framed(body))), (0, answer, b""))

    def test_words_and_environment_have_no_effect(self):
        words, env = ["-port", "5000", "-relaxed_command_check"], {"ERL_EPMD_RELAXED_COMMAND_CHECK": "1", "ERL_EPMD_PORT": "5001"}
        self.assertEqual(self.once(framed(b"n"), words=words, env=env), (0, b"\0\0\x11\x11", b""))
        self.assertEqual(self.once(framed(b"sa"), words=words, env=env), (0, b"", b""))

    def test_no_request(self):
        for data in (b"", b"\0", b"\0\4", b"\0\4zab", b"\0\0", b"\xff\xff", b"\x20\1" + bytes(10), framed(b"q"), framed(b"z"),
                     framed(b"nn"), framed(b"za\n")):
            with self.subTest(data=data):
                self.assertEqual(self.once(data), (0, b"", b""))


class Output(CommandCase):
    """Streams that take nothing, or little at a time."""

    def to(self, out, *words, err=subprocess.PIPE, **how):
        """The status, and what reaches standard error, with standard output going there."""
        done = subprocess.run([EPMD, *words], stdin=subprocess.DEVNULL, stdout=out, stderr=err, timeout=PATIENCE, **how)
        return done.returncode, done.stderr

    def record(self):
        """A recording of one entry."""
        with open(self.path("record"), "wb") as file:
            file.write(b"EPMS" + struct.pack(">BBHII", 1, 0, 4369, 2, 2) + b"\1\1" + bytes(8))
        return file.name

    def outputs(self):
        """What takes nothing: a full device, and a pipe that nobody reads any more."""
        with open("/dev/full", "wb") as full:
            yield "a full device", full
        reader, writer = os.pipe()
        os.close(reader)
        with open(writer, "wb") as gone:
            yield "a reader that went", gone

    def test_standard_output_takes_nothing(self):
        record = self.record()
        for what, out in self.outputs():
            daemon = self.daemon("-relaxed_command_check")
            list(self.held(daemon, b"a"))
            port = ["-port", str(daemon.port)]
            for words in (["-names"], ["-dump"], ["-stop", "b"], ["-stop", "a"], ["-check", record], ["-play", record], ["-local", record],
                          ["-audit", record], ["-kill"]):
                with self.subTest(words=words, out=what):
                    self.assertEqual(self.to(out, *port, *words), (3, DEVICE))
            self.assertEqual(daemon.ended(PATIENCE), (0, ""))

    def test_once_whose_output_takes_nothing(self):
        for what, out in self.outputs():
            with self.subTest(out=what):
                done = subprocess.run([EPMD, "-once"], input=framed(b"n"), stdout=out, stderr=subprocess.PIPE, timeout=PATIENCE)
                self.assertEqual((done.returncode, done.stderr), (3, DEVICE))

    def test_standard_error_takes_nothing(self):
        port, kept = free_port()
        with kept:
            for what, err in self.outputs():
                with self.subTest(err=what):
                    self.assertEqual(self.to(subprocess.DEVNULL, "-foo", err=err), (2, None))
                    self.assertEqual(self.to(subprocess.DEVNULL, "-port", str(port), "-names", err=err), (1, None))
                    self.assertEqual(self.to(subprocess.DEVNULL, "-check", "/none", err=err), (3, None))

    def piped(self, count, prepare, *words, **how):
        """What reaches a reader that takes little at a time, of a command whose standard output is a small pipe."""
        lines = b"".join(b"name n%d at port %d\n" % (number, number) for number in range(count))
        server = self.stand_in(lambda s, _: s.sendall(reply(lines)))
        reader, writer = os.pipe()
        fcntl.fcntl(writer, fcntl.F_SETPIPE_SZ, PIPE_ROOM)
        prepare(writer)
        words = [EPMD, "-port", str(server.port), *words]
        with subprocess.Popen(words, stdin=subprocess.DEVNULL, stdout=writer, stderr=subprocess.PIPE, **how) as process:
            os.close(writer)
            with open(reader, "rb", buffering=0) as pipe:
                got = b""
                while piece := pipe.read(700):
                    got += piece
                    time.sleep(0.001)
            err = process.stderr.read()
            self.assertEqual((process.wait(PATIENCE), err), (0, b""))
        self.assertTrue(got == head(4369) + lines, f"{len(got)} bytes of {len(head(4369) + lines)}")

    def test_a_long_list_through_a_slow_pipe(self):
        self.piped(5000, lambda _: None, "-names")

    def test_a_long_list_through_a_slow_pipe_that_does_not_wait(self):
        self.piped(5000, lambda writer: os.set_blocking(writer, False), "-names")

    @unittest.skipUnless(shutil.which("gcc"), "no gcc")
    def test_a_long_list_byte_by_byte(self):
        for word in "-names", "-dump":
            self.piped(1500, lambda _: None, word, env={**os.environ, "LD_PRELOAD": preload("dribble")})


@unittest.skipUnless(shutil.which("gcc"), "no gcc")
class WantOfMemory(CommandCase):
    """Each request of a command for memory is refused in one run. The command does what it should, or says that memory ran out."""

    def refused(self, told, *words, env=None, **how):
        """How often memory was refused to a command that prints this if it is not."""
        with Faults() as faults:
            for nth in range(1, REFUSALS_MOST):
                faults.page[:] = bytes(len(faults.page))
                faults.refuse("memory", nth)
                faults.on = 1
                got = self.run_epmd(*words, env={**(env or {}), **faults.env}, **how)
                if not faults.refused:
                    self.assertEqual(got, told, words)
                    return nth - 1
                if got != told:
                    status, out, err = got
                    self.assertEqual((status, out), (3, b""), (words, nth))
                    self.assertRegex(err, b"^epmd: out of memory\n(epmd: .*\n)?$", (words, nth))
        self.fail("there is no end of requests for memory")

    def test_the_port_of_the_environment(self):
        daemon = self.daemon()
        list(self.held(daemon, b"a", b"b"))
        told = 0, head(daemon.port) + b"name a at port 5000\nname b at port 5000\n", b""
        self.assertGreater(self.refused(told, "-names", env={"ERL_EPMD_PORT": str(daemon.port)}), 5)

    def test_a_bad_word(self):
        self.assertGreater(self.refused((2, b"", b'epmd: unknown word "-foo"; see epmd -help\n'), "-foo"), 2)
        told = 2, b"", b'epmd: -workers needs a number from 1 to 64, not "x"; see epmd -help\n'
        self.assertGreater(self.refused(told, "-workers", "x"), 3)

    def test_a_name(self):
        daemon = self.daemon("-relaxed_command_check")
        told = 1, b"NOEXIST\n", b""
        self.assertGreater(self.refused(told, "-port", str(daemon.port), "-stop", "name", "-address", "127.0.0.1,10.0.0.1"), 5)

    def test_files(self):
        with open(self.path("record"), "wb") as file:
            file.write(b"EPMS" + struct.pack(">BBHII", 1, 0, 4369, 2, 2) + b"\1\1" + bytes(8))
        for word, told in (("-check", b"run of 1 entries\n"), ("-play", b"0 connect 0 local\nrun of 1 entries\n"),
                           ("-audit", b"run of 1 entries in 1 files\n")):
            with self.subTest(word=word):
                self.assertGreater(self.refused((0, told, b""), word, file.name), 5)
        with self.subTest(word="-local"):
            status, told, _ = self.run_epmd("-local", file.name)
            self.assertEqual((status, told[:4]), (0, b"EPMS"))
            self.assertGreater(self.refused((0, told, b""), "-local", file.name), 5)

    def test_once(self):
        self.assertGreater(self.refused((0, b"w\1", b""), "-once", input=framed(b"za")), 1)


if __name__ == "__main__":
    unittest.main()
