"""How the tests call programs: each has an environment that is the same wherever the tests run, and time enough on a busy machine."""
import contextlib
import importlib.machinery
import importlib.util
import io
import os
import re
import shutil
import signal
import socket
import subprocess
import sys
import tempfile
import threading
import unittest
import unittest.mock

TOP = os.path.join(os.path.dirname(os.path.abspath(__file__)), "..", "..")
CONTRIB = os.path.join(TOP, "contrib")
sys.path.append(CONTRIB)  # Where the module is that the tools share.
TOOLS = "epmd-log", "epmd-metrics", "epmd-prune", "epmd-report"
# Seconds after which a program counts as hung, and after which one that is to write a line counts as silent. A test waits so long only
# where it fails.
PATIENCE, SILENCE = 300, 60
# What a program gets of the environment around the tests. PYTHON*, EPMD*, ERL_*, LISTEN_* and what `make` sets are not among it.
PASSED = "PATH", "HOME", "TMPDIR", "CARGO_HOME", "RUSTUP_HOME"
# The zone of India, five and a half hours before UTC, in the form that needs no list of zones: a local time is seen.
OWN = {"LC_ALL": "C.UTF-8", "TZ": "IST-5:30"}

# A shell has its background jobs ignore SIGINT, and a program would inherit that. A signal that has a handler is reset in it.
signal.signal(signal.SIGINT, signal.default_int_handler)


def environment(**more):
    return {**{name: os.environ[name] for name in PASSED if name in os.environ}, **OWN, **more}


def run(words, env=None, **more):
    """Runs a program to its end, and returns what it printed as text unless `more` says otherwise."""
    how = {"capture_output": True, "text": True, "timeout": PATIENCE, **more}
    return subprocess.run(words, env=environment() if env is None else env, **how)


def start(words, env=None, **more):
    return subprocess.Popen(words, env=environment() if env is None else env, text=True, **more)


def python(name, *words):
    """The words that call a tool of contrib."""
    return [sys.executable, os.path.join(CONTRIB, name), *words]


def tool(name):
    """A tool of contrib as a module, in which a test may replace a constant or a function."""
    loader = importlib.machinery.SourceFileLoader(name.replace("-", "_"), os.path.join(CONTRIB, name))
    module = importlib.util.module_from_spec(importlib.util.spec_from_loader(loader.name, loader))
    loader.exec_module(module)
    return module


def closed_port(test):
    """A port of loopback that is taken until the test ends, and at which no process listens."""
    taken = socket.socket()
    test.addCleanup(taken.close)
    taken.bind(("127.0.0.1", 0))
    return taken.getsockname()[1]


def read(*path):
    with open(os.path.join(*path), encoding="utf-8") as file:
        return file.read()


def write(path, text, mode=0o644):
    os.makedirs(os.path.dirname(path), exist_ok=True)
    with open(path, "w", encoding="utf-8") as file:
        file.write(text)
    os.chmod(path, mode)


def needs(*programs):
    absent = [program for program in programs if not shutil.which(program)]
    return unittest.skipIf(absent, f"no {', '.join(absent)}")


def noting(answers=None):
    """A script that notes its name and its words in $NOTES. Then it does what `answers` has for the first pattern that fits its words."""
    arms = "".join(f"    {pattern}) {does} ;;\n" for pattern, does in (answers or {"*": "true"}).items())
    return f'#!/bin/sh\necho "${{0##*/}} $*" >> "$NOTES"\ncase "$*" in\n{arms}esac\n'


class Case(unittest.TestCase):
    """A test with a folder of its own, in which it may put programs in place of others."""

    def setUp(self):
        folder = tempfile.TemporaryDirectory()
        self.addCleanup(folder.cleanup)
        self.folder = folder.name
        self.notes, self.bin = self.inside("notes"), self.inside("bin")

    def inside(self, *names):
        return os.path.join(self.folder, *names)

    def stand_in(self, name, does):
        """A program on the path of `stood_in`. `does` is its text, or what `noting` takes."""
        write(os.path.join(self.bin, name), does if isinstance(does, str) else noting(does), 0o755)

    def stood_in(self, **more):
        """An environment in which stand-ins are called first."""
        return environment(**{"PATH": f"{self.bin}:{os.environ['PATH']}", "NOTES": self.notes, **more})

    def noted(self):
        return read(self.notes).splitlines() if os.path.exists(self.notes) else []

    @staticmethod
    def forget(path):
        with contextlib.suppress(FileNotFoundError):
            os.remove(path)

    def ends(self, words, status=0, out="", err="", **how):
        """Runs a program, which ends with this status and has printed this, or what a pattern finds in it. Returns its output."""
        done = run(words, **how)
        self.is_so((done.returncode, done.stdout, done.stderr), status, out, err)
        return done.stdout

    def has_help(self, name, *texts):
        """The help of a tool has these texts."""
        shown = self.ends(python(name, "--help"), out=re.compile(f"^usage: {name}"))
        self.assertEqual([text for text in texts if text not in shown], [])

    def is_so(self, done, status, *wanted):
        self.assertEqual(done[0], status, done)
        for text, printed in zip(done[1:], wanted):
            if isinstance(printed, re.Pattern):
                self.assertRegex(text, printed)
            else:
                self.assertEqual(text, printed)

    def called(self, name, *words, **replaced):
        """Calls a tool in this process, with some of what it has replaced. Its status, its output, and what it printed on standard error."""
        out, err = io.TextIOWrapper(io.BytesIO(), encoding="utf-8"), io.StringIO()
        module = tool(name)
        vars(module).update(replaced)
        with contextlib.redirect_stdout(out), contextlib.redirect_stderr(err), unittest.mock.patch.object(sys, "argv", [name, *words]):
            try:
                status = module.main()
            except SystemExit as end:
                status = end.code
            out.flush()
        return status, out.buffer.getvalue().decode(), err.getvalue()

    def running(self, words, seconds=SILENCE, **how):
        """A program that is started, and ends with the test, or after this number of seconds: a read that waits for it ends then."""
        process = start(words, stdout=subprocess.PIPE, stderr=subprocess.PIPE, **how)
        patience = threading.Timer(seconds, process.kill)
        patience.start()
        for each in (process.stdout.close, process.stderr.close, process.wait, process.kill, patience.cancel):
            self.addCleanup(each)
        return process
