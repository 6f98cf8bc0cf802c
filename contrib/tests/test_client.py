"""The client for C: its header beside the source, and each example beside our port mapper and another one, where they are there."""
import contextlib
import ctypes
import errno
import glob
import os
import re
import shutil
import socket
import struct
import subprocess
import sys
import threading
import time
import unittest

import programs
from programs import TOP, Case, read

BUILD = os.path.join(TOP, "build")
CLIENT = os.path.join(TOP, "contrib", "client")
BY_HAND = os.path.join(TOP, "tests")
LIBRARY = os.path.join(BUILD, "libepmd_client.so")
TYPES = {"u8": "uint8_t", "u16": "uint16_t", "u32": "uint32_t", "usize": "size_t", "EpmdText": "struct epmd_text", "EpmdNode": "struct epmd_node"}


def source(crate, module):
    return read(TOP, "crates", crate, "src", module)


def constant(crate, module, name):
    return int(re.search(rf"const {name}: \w+ = ([\d_]+);", source(crate, module))[1].replace("_", ""))


class Header(unittest.TestCase):
    """The numbers and the fields of the header are those of the source."""

    HEADER = read(TOP, "include", "epmd_client.h")

    def test_the_statuses_are_those_of_the_source(self):
        numbers = re.findall(r"const (EPMD_\w+): i32 = (\d+);", source("portmap_client_c", "status.rt"))
        self.assertEqual(re.findall(r"^    (EPMD_\w+) = (\d+)", self.HEADER, re.M), numbers)
        self.assertEqual([int(number) for _, number in numbers], list(range(len(numbers))))

    def test_the_limits_are_those_of_the_source(self):
        body = constant("portmap_wire", "request.rt", "BODY_MOST")
        limits = {"NAME": constant("portmap_wire", "name.rt", "NAME_MOST"), "BODY": body, "REQUEST": body + 2,
                  "LIST": constant("portmap_client", "exchange.rt", "LIST_MOST")}
        self.assertEqual({name: int(number) for name, number in re.findall(r"#define EPMD_(\w+)_MOST (\d+)", self.HEADER)}, limits)

    def test_the_fields_are_those_of_the_source(self):
        structs = re.findall(r"pub struct (\w+) \{(.*?)\n\}", source("portmap_client_c", "node.rt"), re.S)
        wanted = {"epmd_" + name[4:].lower(): [(TYPES[kind], field) for field, kind in re.findall(r"pub (\w+): (\w+)", fields)]
                  for name, fields in structs}
        found = re.findall(r"^struct (\w+) \{(.*?)^\};", self.HEADER, re.S | re.M)
        self.assertEqual({name: re.findall(r"^    ((?:struct )?\w+) (\w+);", fields, re.M) for name, fields in found}, wanted)

    def test_each_call_is_declared(self):
        paths = glob.glob(os.path.join(TOP, "crates", "portmap_client_c", "src", "*.rt"))
        exported = {name for path in paths for name in re.findall(r'pub extern "C" fn (\w+)', read(path))}
        self.assertEqual(set(re.findall(r"^(?:int32_t|size_t) (epmd_\w+)\(", self.HEADER, re.M)), exported)


def listens(port):
    with socket.socket() as probe:
        return probe.connect_ex(("127.0.0.1", int(port))) == 0


@contextlib.contextmanager
def served(program):
    """The port of a port mapper of its own."""
    with socket.create_server(("127.0.0.1", 0)) as listener:
        port = str(listener.getsockname()[1])
    with programs.start([program, "-port", port], stdout=subprocess.DEVNULL, stderr=subprocess.DEVNULL) as process:
        try:
            comes(lambda: process.poll() is not None or listens(port), True)
            assert process.poll() is None, f"{program} does not listen"
            yield port
        finally:
            process.kill()


def comes(look, wanted):
    """Looks again and again, until this is seen. What was seen last."""
    until = time.monotonic() + programs.SILENCE
    while (seen := look()) != wanted and time.monotonic() < until:
        time.sleep(0.05)
    return seen


def missing(*reasons):
    """Says once why examples are not run."""
    for absent, reason in reasons:
        if absent:
            print(f"test_client: not run: {reason}", file=sys.stderr)
            return reason
    return None


@unittest.skipIf(missing((not os.path.exists(LIBRARY), "no build/libepmd_client.so, which `make client` makes")), "no library")
class Examples(Case):
    """Each example registers a node, which others find as long as its process runs."""

    @classmethod
    def setUpClass(cls):
        cls.mappers = [program for program in [os.path.join(BUILD, "epmd"), *glob.glob("/usr/lib/erlang/erts-*/bin/epmd")[:1]] if os.path.exists(program)]
        missing((len(cls.mappers) < 2, f"beside {2 - len(cls.mappers)} of build/epmd and the port mapper of erlang-base"))

    def built(self, *words):
        if missing((not shutil.which(words[0]), f"no {words[0]}")):
            self.skipTest(words[0])
        self.ends([*words, "-o", self.inside("built")], out=re.compile(""))
        return [self.inside("built")]

    def said(self, example, *words):
        done = programs.run([*example, *words], env=programs.environment(EPMD_CLIENT=LIBRARY))
        self.assertEqual(done.stderr, "")
        return done.returncode, done.stdout

    def registers(self, example, port, end):
        words = [*example, "register", port, "node", "5000"]
        with programs.start(words, env=programs.environment(EPMD_CLIENT=LIBRARY), stdin=subprocess.PIPE, stdout=subprocess.PIPE) as process:
            self.assertRegex(process.stdout.readline(), r"^creation [1-9]\d*\n$")
            self.assertEqual(self.said(example, "lookup", port, "node"), (0, "node at port 5000, kind 72, versions 5 to 6, 0 extra bytes\n"))
            self.assertEqual(self.said(example, "names", port), (0, "node at port 5000\n"))
            self.assertEqual(self.said(example, "register", port, "node", "5001"), (1, "refused 1\n"))
            end(process)
        absent = 0, "not registered\n"
        self.assertEqual(comes(lambda: self.said(example, "lookup", port, "node"), absent), absent)
        self.assertEqual(self.said(example, "names", port), (0, ""))

    def runs(self, example):
        for program in self.mappers:
            with self.subTest(mapper=program), served(program) as port:
                self.assertEqual(self.said(example, "lookup", port, "node"), (0, "not registered\n"))
                self.registers(example, port, lambda process: process.stdin.close())
                self.registers(example, port, lambda process: process.kill())

    def test_c(self):
        archive = os.path.join(BUILD, "libepmd_client.a")
        self.runs(self.built("cc", "-Wall", "-Wextra", "-Wpedantic", "-Werror", "-I", BUILD, os.path.join(CLIENT, "example.c"), archive))

    def test_rust(self):
        self.runs(self.built("rustc", os.path.join(CLIENT, "example.rs"), "-L", BUILD, "-l", "static=epmd_client"))

    def test_python(self):
        self.runs([sys.executable, os.path.join(CLIENT, "example.py")])

    def test_each_call_has_the_expected_result(self):
        program = self.built("cc", "-I", BUILD, os.path.join(BY_HAND, "client_rounds.c"), os.path.join(BUILD, "libepmd_client.a"))
        for mapper in self.mappers:
            with self.subTest(mapper=mapper), served(mapper) as port:
                self.assertRegex(programs.run([*program, port, "3"]).stdout, r"^\d+ calls, 0 wrong\n$")

    def test_answers_are_read_as_by_another_reader(self):
        done = programs.run([sys.executable, os.path.join(BY_HAND, "client_answers.py"), "3000"])
        self.assertEqual((done.returncode, done.stderr), (0, ""), done.stdout)


OK, NOT_REGISTERED, WRITE, READ = 0, 9, 12, 13


class Found(ctypes.Structure):
    """struct epmd_found, of which the tests read the port alone."""
    _fields_ = [("texts", ctypes.c_size_t * 4), ("port", ctypes.c_uint16), ("rest", ctypes.c_uint8 * 14)]


@unittest.skipIf(not os.path.exists(LIBRARY), "no library")
class Errors(unittest.TestCase):
    """A call over a socket goes by the error of its own reads and writes, whatever an earlier call of the thread has left in errno."""

    LEFT = errno.EAGAIN, errno.EINTR, errno.ECONNRESET, errno.EBADF, 0
    TURN = struct.pack("ll", 0, 10_000)
    ANSWER = b"w\0" + struct.pack(">HBBHHH", 5000, 77, 0, 6, 5, 4) + b"node\0\0"

    @classmethod
    def setUpClass(cls):
        cls.library = ctypes.CDLL(LIBRARY, use_errno=True)

    def look_up(self, peer, left):
        """The status of a look-up over this socket, and the port that is found, with that error left by an earlier call."""
        texts, found = ctypes.create_string_buffer(8192), Found()
        ctypes.set_errno(left)
        status = self.library.epmd_lookup(peer.fileno(), b"node", ctypes.c_size_t(4), texts, ctypes.c_size_t(len(texts)), ctypes.byref(found))
        return status, found.port

    def pairs(self):
        """For each error that is left both ends of a connection, the first of which waits for 10 milliseconds in each read and write."""
        for left in self.LEFT:
            with socket.create_server(("127.0.0.1", 0)) as listener:
                ours = socket.create_connection(listener.getsockname())
                theirs, _ = listener.accept()
            for end in ours, theirs:
                self.addCleanup(end.close)
            ours.setblocking(True)
            for option in socket.SO_RCVTIMEO, socket.SO_SNDTIMEO:
                ours.setsockopt(socket.SOL_SOCKET, option, self.TURN)
            yield left, ours, theirs

    def beside(self, serve, *words):
        thread = threading.Thread(target=serve, args=words)
        thread.start()
        self.addCleanup(thread.join)

    def test_a_read_that_waits(self):
        def late(theirs):
            theirs.recv(100)
            for part in self.ANSWER[:9], self.ANSWER[9:]:
                time.sleep(0.1)
                theirs.sendall(part)
        for left, ours, theirs in self.pairs():
            self.beside(late, theirs)
            self.assertEqual(self.look_up(ours, left), (OK, 5000), left)

    def test_a_read_that_fails(self):
        def reset(theirs):
            theirs.recv(100)
            theirs.setsockopt(socket.SOL_SOCKET, socket.SO_LINGER, struct.pack("ii", 1, 0))
            theirs.close()
        for left, ours, theirs in self.pairs():
            self.beside(reset, theirs)
            self.assertEqual(self.look_up(ours, left)[0], READ, left)

    def test_a_write_that_waits(self):
        def late(theirs, junk):
            time.sleep(0.1)
            while junk > 0:
                junk -= len(theirs.recv(min(junk, 65536)))
            theirs.recv(100)
            theirs.sendall(b"w\1")
        for left, ours, theirs in self.pairs():
            junk = 0
            with contextlib.suppress(BlockingIOError):
                while True:
                    junk += ours.send(bytes(65536), socket.MSG_DONTWAIT)
            self.beside(late, theirs, junk)
            self.assertEqual(self.look_up(ours, left)[0], NOT_REGISTERED, left)

    def test_a_write_that_fails(self):
        for left, ours, _ in self.pairs():
            ours.shutdown(socket.SHUT_WR)
            self.assertEqual(self.look_up(ours, left)[0], WRITE, left)
