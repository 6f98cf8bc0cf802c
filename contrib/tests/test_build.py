"""`make epmd`, `client` and `try`: what they call and print, in a copy of the checkout, with a stand-in for the toolchain."""
import os
import re
import shutil
import socket

from programs import TOP, read, write
from test_install import Checkout, uses

# Notes its words and the folder. As `ci` it proves the crates of crates.txt, lowest first, but those that $KEPT has from earlier runs, and
# leaves a library or a program of each. As `try` it prints that nothing is proved. As a module it has what marks libraries as up to date.
RT = """#!/usr/bin/env python3
import os, sys
class Crate:
    def __init__(self, folder):
        self.folder = folder
    def makes_rlib(self):
        return os.path.exists(f"{self.folder}/src/lib.rt")
    def stamp(self):
        return os.path.basename(self.folder)
class rtlib:
    def crates_below(top):
        return [Crate(f"{top}/crates/{name}") for name in os.listdir(f"{top}/crates")]
def processors():
    return 1
def main(words):
    if words[0] == "doc":
        return print(f"{os.environ['KIT']}/START.md")
    if words[0] == "version":
        return print("rattle-kit-7")
    with open(os.environ["NOTES"], "a") as notes:
        notes.write(f"{os.path.basename(os.getcwd())}: {' '.join(words)}\\n")
    if words[0] == "try":
        return "proved=no"
    fails = os.environ.get("FAILS")
    if words[0] == "lib" and os.path.basename(os.getcwd()) == fails:
        return "fn link: not proved"
    if words[0] == "ci":
        assert processors() > os.cpu_count()
        with open("crates.txt") as file:
            lines = [line.split(":") for line in file if not line.startswith("#")]
        uses, done = {name.split()[0]: used.split() for name, used in lines}, set()
        return any([prove(name, uses, done, fails) for name in uses])
def prove(name, uses, done, fails):
    if any([prove(each, uses, done, fails) for each in uses.get(name, [])]) or name not in uses or name in done:
        return name in uses and name not in done
    if name == fails:
        return print(f"fn link: not proved\\nrt: {name} NOT PROVED") or True
    done.add(name)
    kept = f"{os.environ['KEPT']}/{name}"
    print(f"rt: {name} is kept: as before" if os.path.exists(kept) else f"== {name}\\nrt: {name} proved", flush=True)
    os.makedirs(kept, exist_ok=True)
    os.makedirs(f"crates/{name}/out/rlib")
    open(f"crates/{name}/out/{name}", "w").close()
    return False
if __name__ == "__main__":
    sys.exit(main(sys.argv[1:]))
"""
# Of ours, what crates.txt has the program and the client stand on, themselves among them.
OF_PROGRAM, OF_CLIENT = 15, 6
NO_RT = "there is no rt on the path, the command of the Rattle toolchain: README.md names its kit under Install"


def reached(first):
    """A crate and those of ours below it."""
    found, listed = set(), uses()
    waiting = [first]
    while waiting:
        name = waiting.pop()
        if name in listed and name not in found:
            found.add(name)
            waiting += listed[name]
    return found


class Build(Checkout):
    def setUp(self):
        super().setUp()
        self.stand_in("rt", RT)
        self.kept, self.kit = self.inside("kept"), self.inside("kit")
        os.mkdir(self.kept)
        write(os.path.join(self.kit, "bin", "rt"), RT)
        shutil.copy(os.path.join(TOP, "HANDLES"), self.top)
        for crate in uses():
            write(os.path.join(self.top, "crates", crate, "src", "main.rt" if crate == "epmd" else "lib.rt"), crate)
        # What the client for C is made with does nothing here.
        for name in ("ld", "objcopy", "ar", "cc"):
            self.stand_in(name, f'#!/bin/sh\necho {name} >> "$NOTES"\ntouch build/client.o\n')

    def env(self, **more):
        return super().env(**{"KEPT": self.kept, "KIT": self.kit, **more})

    def lines(self, target, **env):
        """The crate, what became of it, the number and the sum of each line."""
        text = self.made(target, **env)
        return [(name, word, int(at), int(of)) for name, word, at, of in re.findall(r"(?m)^(\w+): (proved|kept) \((\d+) of (\d+)\), \d+ s$", text)]

    def test_each_crate_of_the_program_has_one_line_that_says_how_far_it_is(self):
        lines = self.lines("epmd")
        self.assertEqual({line[0] for line in lines}, reached("epmd"))
        self.assertEqual([line[1:] for line in lines], [("proved", number, OF_PROGRAM) for number in range(1, OF_PROGRAM + 1)])
        self.assertTrue(os.path.exists(os.path.join(self.top, "build", "epmd")))

    def test_the_client_for_c_is_proved_over_libraries_that_are_marked(self):
        lines = self.lines("client")
        self.assertEqual([line[2:] for line in lines], [(number, OF_CLIENT) for number in range(1, OF_CLIENT + 1)])
        self.assertEqual({line[0] for line in lines}, reached("portmap_client"))
        self.assertEqual(self.noted()[1:], ["portmap_client_c: lib", "ld", "objcopy", "ar", "cc"])
        self.assertEqual(os.readlink(os.path.join(self.top, "build", "libepmd_client.so.0")), "libepmd_client.so")
        for crate in reached("portmap_client"):
            self.assertEqual(read(self.top, "crates", crate, "out", "rlib", "stamp"), crate)

    def test_what_is_kept_from_an_earlier_run_is_called_kept(self):
        for name in reached("portmap_core"):
            os.mkdir(os.path.join(self.kept, name))
        words = {name: word for name, word, _, _ in self.lines("client")}
        proved = {name for name, word in words.items() if word == "proved"}
        self.assertEqual(proved, {"portmap_link", "portmap_client"})

    def test_what_has_not_changed_is_proved_once(self):
        self.made("epmd")
        calls = len(self.noted())
        self.assertEqual(self.made("epmd"), "epmd: proved before, and nothing has changed\n")
        self.assertEqual(len(self.noted()), calls)
        for path in ("crates/portmap_wire/src/lib.rt", "HANDLES", "crates/epmd/stdout"):
            path = os.path.join(self.top, path)
            write(path, (read(path) if os.path.exists(path) else "") + "\n")
            self.assertEqual(len(self.lines("epmd")), OF_PROGRAM, path)
            self.assertEqual(self.lines("epmd"), [], path)
        # A crate that the program does not use has no part in it.
        write(os.path.join(self.top, "crates", "stories", "src", "lib.rt"), "other")
        self.assertEqual(self.lines("epmd"), [])

    def test_a_copy_is_left_nowhere(self):
        os.mkdir(self.inside("temporary"))
        for target in ("epmd", "client"):
            self.lines(target, TMPDIR=self.inside("temporary"))
        self.assertEqual(os.listdir(self.inside("temporary")), [])

    def test_a_failure_is_printed_and_leaves_the_program_that_was_there(self):
        before = os.stat(os.path.join(self.top, "build", "epmd"))
        for target, crate, log in (("epmd", "portmap_record", "epmd"), ("client", "portmap_client_c", "portmap_client_c")):
            done = self.make(target, FAILS=crate)
            self.assertEqual(done.returncode, 2)
            self.assertIn("fn link: not proved\n", done.stdout)
            self.assertIn(f"\n{log}: failed, all of it is in build/log/{log}\n", done.stdout)
        self.assertEqual(self.noted()[-1], "portmap_client_c: lib")
        self.assertEqual(os.stat(os.path.join(self.top, "build", "epmd")), before)

    def test_without_the_toolchain_one_sentence_says_what_is_missing_and_where_it_is_named(self):
        os.remove(os.path.join(self.bin, "rt"))
        for target in ("epmd", "run", "client", "try", "test", "quick", "attack"):
            done = self.make(target)
            self.assertEqual((done.returncode, done.stdout), (2, ""), target)
            self.assertRegex(done.stderr, rf"^Makefile:\d+: \*\*\* {NO_RT}\.  Stop\.\n$")
        install = read(TOP, "README.md").split("\n## Install\n")[1]
        self.assertIn("\nThe toolchain is kit `rattle-kit-", install.split("\n## ")[0])

    def test_a_try_says_that_it_is_not_proved_and_serves_at_its_port(self):
        for words, rest in (["PORT=24400"], ""), (["PORT=24400", "WORDS=-record s"], " -record s"):
            done = self.make("try", *words)
            said = "serves on 127.0.0.1:24400 in a minute or two, for 1,000 seconds at most"
            self.assertEqual(done.stderr.splitlines()[:2], [f"epmd: this program is NOT proved, and {said}", "proved=no"])
            self.assertEqual(done.stdout, "")
            self.assertEqual(self.noted(), [f"epmd: try --seconds 1000 -- -port 24400 -address 127.0.0.1{rest}"])
            os.remove(self.notes)
        self.assertEqual(os.listdir(self.kept), [])

    def test_a_try_says_when_it_serves_and_that_its_port_is_taken(self):
        self.stand_in("rt", "#!/bin/sh\nexec python3 -c 'import socket, time; s = socket.create_server((\"127.0.0.1\", 24401)); time.sleep(2)'\n")
        self.assertEqual(self.make("try", "PORT=24401").stderr.splitlines()[1], "epmd: serves on 127.0.0.1:24401")
        with socket.create_server(("127.0.0.1", 24402)):
            done = self.make("try", "PORT=24402")
        self.assertEqual(done.stderr.splitlines()[0], "epmd: port 24402 is in use: take another, as `make try PORT=24369`")
        self.assertEqual(self.noted(), [])

    def test_a_port_of_the_environment_is_not_that_of_a_try(self):
        self.assertIn("PORT = 4369\n", read(TOP, "Makefile"))
        self.make("try", PORT="24403")
        self.assertNotIn("24403", "".join(self.noted()))
