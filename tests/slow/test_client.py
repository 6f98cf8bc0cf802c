"""The client for C, which `make client` leaves in build: its readers beside a reader of the tests, its look-up beside that of erl_interface,
and each call under valgrind."""
import glob, os, shutil, statistics, subprocess, time, unittest

import client_answers
from case import TOP, Case
from daemon import PRODUCTS

BUILD = os.path.join(TOP, "build")
ARCHIVE = os.path.join(BUILD, "libepmd_client.a")
EI = glob.glob("/usr/lib/erlang/lib/erl_interface-*/lib")


def program(name, source, *words):
    """The path of what gcc makes of a source."""
    os.makedirs(PRODUCTS, exist_ok=True)
    path = os.path.join(PRODUCTS, name)
    subprocess.run(["gcc", "-Wall", "-I", BUILD, "-o", path, os.path.join(TOP, "tests", source), *words], check=True)
    return path


@unittest.skipUnless(os.path.exists(ARCHIVE) and shutil.which("gcc"), "no libepmd_client.a, or no gcc")
class Client(Case):
    def test_a_hundred_thousand_replies(self):
        self.measured = client_answers.main()

    @unittest.skipUnless(EI and shutil.which("erl"), "no erl_interface: install erlang-dev")
    def test_look_ups_beside_those_of_erl_interface(self):
        """How long one takes, in seven turns of 5,000, and how large the program is."""
        flags = "-O2", "-s"
        programs = {"epmd_client": program("client_lookup", "client_lookup.c", ARCHIVE, *flags),
                    "erl_interface": program("client_lookup_ei", "client_lookup.c", "-DEI", "-L", EI[0], "-lei", "-lpthread", *flags)}
        times, daemon = {name: [] for name in programs}, self.daemon()
        self.hold(daemon, b"held")
        for _ in range(7):
            for name, path in programs.items():
                found, nanoseconds = subprocess.run([path, str(daemon.port), "held", "5000"], check=True, capture_output=True, text=True,
                                                    env={**os.environ, "ERL_EPMD_PORT": str(daemon.port)}).stdout.split()
                self.assertEqual(found, "5000")
                times[name].append(float(nanoseconds) / 1000)
        for name, path in programs.items():
            sizes = subprocess.run(["size", path], check=True, capture_output=True, text=True).stdout.split("\n")[1].split()
            self.measured += (f"{name}: {statistics.median(times[name]):.1f} us, {min(times[name]):.1f} to {max(times[name]):.1f}; a program of "
                          f"{os.path.getsize(path)} bytes, {int(sizes[0]) + int(sizes[1])} of them code and data; ")

    @unittest.skipUnless(shutil.which("valgrind"), "no valgrind")
    def test_each_call_under_valgrind(self):
        """valgrind sees accesses beside a buffer, and memory that is not freed."""
        path, daemon = program("client_rounds", "client_rounds.c", ARCHIVE, "-g", "-O1"), self.daemon()
        words = ["valgrind", "--quiet", "--leak-check=full", "--show-leak-kinds=all", "--track-fds=yes", "--error-exitcode=9", path]
        began = time.monotonic()
        done = subprocess.run([*words, str(daemon.port), "10000"], capture_output=True, text=True)
        self.assertEqual(done.returncode, 0, done.stdout + done.stderr)
        self.measured = f"10,000 rounds in {time.monotonic() - began:.0f} s: {done.stdout.strip()}; {done.stderr.strip()}"
