"""What bash and zsh complete of the words of epmd and its tools: keys are pressed in a shell that runs in a terminal,
where stand-ins for the commands print the words that came of it."""
import fcntl
import os
import pty
import re
import select
import shutil
import struct
import tempfile
import termios
import time
import unittest

import programs
from programs import CONTRIB, TOOLS, TOP, needs, python, read, write

COMPLETIONS = os.path.join(CONTRIB, "completions")
COMMANDS = "epmd", *TOOLS
STAND_IN = '#!/bin/sh\nprintf "called"\nfor word in "$@"; do printf " <%s>" "$word"; done\necho\n'
TAB, LINE_AWAY = "\t", "\x15"
# Of each command the words that take a file, and those that take another value.
FILES = {"epmd": ["-record", "-figures", "-check", "-play", "-local", "-audit"],
         "epmd-metrics": ["-recording", "-state", "-figures"], "epmd-report": ["-epmd"]}
VALUES = {"epmd": ["-port", "-address", "-packet_timeout", "-workers", "-stop"], "epmd-log": ["-n", "-event", "-since", "-until"],
          "epmd-prune": ["-keep"], "epmd-report": ["-since", "-until"]}


def help_of(command):
    words = [os.path.join(CONTRIB, command), "-help"] if command == "epmd" else python(command, "--help")
    return programs.run(words, env=programs.environment(EPMD=shutil.which("true"))).stdout


def words_of(command):
    """The words that the help of a command has, in sets of those of one meaning."""
    if command == "epmd":
        return [{word} for word in re.findall(r"(?<![\w(-])-\w+", help_of(command))]
    options = help_of(command).partition("\noptions:\n")[2]
    return [set(re.findall(r"(?<!\S)--?\w+", line)) for line in re.findall(r"(?m)^  (-.*?)(?:  .*)?$", options)]


class Shell:
    """A shell in a terminal that is wide and high enough for each list."""
    WORDS = {"bash": ["--norc", "--noprofile", "-i"], "zsh": ["-f", "-i"]}
    SETUP = {
        "bash": [f". {COMPLETIONS}/epmd", "bind 'set show-all-if-ambiguous on'", "bind 'set bell-style none'"],
        "zsh": [f"fpath=({COMPLETIONS} $fpath)", "autoload -Uz compinit", "compinit -u -D", "unsetopt beep"],
    }

    def __init__(self, name, folder):
        own, theirs = pty.openpty()
        fcntl.ioctl(theirs, termios.TIOCSWINSZ, struct.pack("HHHH", 200, 200, 0, 0))
        env = programs.environment(TERM="dumb", INPUTRC="/dev/null", HOME=folder)
        env["PATH"] = f"{folder}/bin:{env['PATH']}"
        self.process = programs.start([shutil.which(name), *self.WORDS[name]], env=env, cwd=f"{folder}/work",
                                      stdin=theirs, stdout=theirs, stderr=theirs, start_new_session=True)
        os.close(theirs)
        self.terminal, self.count = own, 0
        for line in ["unset HISTFILE; PS1='' PS2=''", *self.SETUP[name]]:
            self.press(line + "\n")

    def press(self, keys):
        """What is shown from these keys on until the line that they left has been taken away."""
        self.count += 1
        until = time.monotonic() + programs.SILENCE
        # Between two lines the terminal would take LINE_AWAY itself, with all that the shell has not read.
        while termios.tcgetattr(self.terminal)[3] & termios.ICANON and time.monotonic() < until:
            time.sleep(0.001)
        os.write(self.terminal, f"{keys}{LINE_AWAY}echo end-$((0 + {self.count}))\n".encode())
        shown = b""
        while f"end-{self.count}\r\n".encode() not in shown:
            if not select.select([self.terminal], [], [], max(0, until - time.monotonic()))[0]:
                raise AssertionError(f"the shell does not come to the end of {keys!r}: {shown!r}")
            shown += os.read(self.terminal, 65536)
        return shown.decode()

    def end(self):
        self.process.kill()
        self.process.wait()
        os.close(self.terminal)


class Completions:
    """The tests of each shell."""

    @classmethod
    def setUpClass(cls):
        folder = tempfile.TemporaryDirectory()
        cls.addClassCleanup(folder.cleanup)
        for name in COMMANDS:
            write(os.path.join(folder.name, "bin", name), STAND_IN, 0o755)
        for name in ("recorded", "sessions/other"):
            write(os.path.join(folder.name, "work", name), "")
        cls.shell = Shell(cls.NAME, folder.name)
        cls.addClassCleanup(cls.shell.end)

    def listed(self, typed):
        """The words that are offered after this was typed."""
        shown = re.sub(" -- .*", "", self.shell.press(typed + TAB).partition("\n")[2].rpartition("echo end")[0])
        return set(re.findall(r"(?<!\S)--?[a-z_]+(?!\S)", shown))

    def called(self, typed):
        """The words with which the command is called once what is typed was completed."""
        return re.findall(r"<(.*?)>", re.search(r"(?m)^called(.*?)\r?$", self.shell.press(typed + TAB + "\n"))[1])

    def test_each_word_of_the_help_is_offered_and_no_other(self):
        for command in COMMANDS:
            with self.subTest(command=command):
                wanted, offered = words_of(command), self.listed(f"{command} -")
                self.assertGreaterEqual(len(wanted), 3)
                self.assertEqual([words for words in wanted if not words & offered], [])
                self.assertEqual(offered - set().union(*wanted), set())

    def test_the_help_of_the_wrapper_has_its_options_and_its_commands(self):
        some = {"-port", "-systemd", "-packet_timeout", "-d", "-debug", "-names", "-stop", "-audit", "-once", "-version"}
        self.assertLessEqual(some, set().union(*words_of("epmd")))
        self.assertEqual(words_of("epmd-prune"), [{"-h", "--help"}, {"-version", "--version"}, {"-keep"}])

    def test_behind_a_command_no_other_is_offered(self):
        offered = self.listed("epmd -names -")
        self.assertIn("-port", offered)
        self.assertEqual(offered & {"-dump", "-kill", "-stop", "-audit", "-once"}, set())

    def test_a_word_that_has_begun_is_completed_behind_others_too(self):
        self.assertEqual(self.called("epmd -port 5000 -rel"), ["-port", "5000", "-relaxed_command_check"])
        self.assertEqual(self.called("epmd-log -f -j"), ["-f", "-json"])

    def test_a_file_is_completed_where_one_is_expected(self):
        rows = [(command, [word]) for command, words in FILES.items() for word in words]
        for command, words in [*rows, ("epmd-log", []), ("epmd-log", ["-f"]), ("epmd-prune", ["-keep", "8"]), ("epmd-metrics", []), ("epmd-report", []),
                               ("epmd-report", ["recorded"])]:
            with self.subTest(command=command, words=words):
                self.assertEqual(self.called(" ".join([command, *words, "rec"])), [*words, "recorded"])
                self.assertEqual(self.called(" ".join([command, *words, "sessions/o"])), [*words, "sessions/other"])

    def test_neither_a_file_nor_a_word_is_completed_where_another_value_is_expected(self):
        for command, words in VALUES.items():
            for word in words:
                with self.subTest(command=command, word=word):
                    self.assertEqual(self.called(f"{command} {word} rec"), [word, "rec"])
                    self.assertEqual(self.listed(f"{command} {word} -"), set())

    def test_each_word_that_takes_a_value_is_one_of_these(self):
        for command in COMMANDS:
            taking = set(re.findall(r"(-\w+) [A-Z]+\b", help_of(command).partition("\n\n")[0]))
            self.assertEqual(taking, {*FILES.get(command, []), *VALUES.get(command, [])}, command)


class Manual(unittest.TestCase):
    def test_the_synopsis_has_each_word_of_the_help_and_no_other(self):
        synopsis = re.search(r"\.Sh SYNOPSIS\n([\s\S]*?)\n\.Sh ", read(TOP, "docs", "epmd.1"))[1]
        words = re.findall(r"(?:\bFl|\|) ([a-z_]+)", synopsis)
        self.assertEqual({f"-{word}" for word in words}, set().union(*words_of("epmd")))


class Bash(Completions, unittest.TestCase):
    NAME = "bash"


@needs("zsh")
class Zsh(Completions, unittest.TestCase):
    NAME = "zsh"
