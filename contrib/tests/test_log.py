"""The lines that epmd-log prints of recorded bytes, and the files of a recording that it reads, in which order."""
import calendar
import json
import os
import re
import shutil
import signal
import time
import unittest

import programs
from programs import CONTRIB, SILENCE, TOOLS, TOP, needs, python, read
from epmd_recording import BODY_MOST, KINDS, NAME_MOST, Recording
from recorded import (ABSENT, FOUND, GRANTED, IN_USE, NO_ROOM, SCENES, WORKER, Written, alive, asked, close, connect, held, late, number, piece, register,
                      sized, start, visit)

STAMP = r"\d{4}-\d\d-\d\dT\d\d:\d\d:\d\d\.\d{6}Z "
PORT = number(4369, 4)
WHOLE = sized(alive(b"a", 5000))
LONG = alive(b"a" * NAME_MOST, 5000)[:-2]  # Without the length of its extra bytes.
MALFORMED = [b"\0\0", b"\x20\x01", number(5, 2) + b"za", sized(b"a"), sized(b"nn"), sized(b"z"), sized(b"z\n"), sized(b"z" + b"a" * 1021),
             sized(b"z\x7f"), sized(alive(b"a", 1) + b"a"), sized(b"x" + bytes(11)), sized(alive(b"a", 1))[:2] + b"x\0\1\x4d\0\0\6\0\5\0\2a\0\0"]
REPLIES = {b"\x1b[2J": "\\x1b[2J", b"a\nb": "a\\nb", b"a\rb": "a\\rb", b"\x9b": "\\x9b"}
# Of each recording the entries from place 0 on, and the lines behind the one of the start.
LINES = {
    "a node registers, is looked up and leaves": (
        register(0, b"a") + asked(1, b"za", FOUND, local=0) + close(1) + close(0),
        ["1 register a port 5000 creation 4", "3 lookup a by a remote peer: port 5000", "5 leave a port 5000"]),
    "a request in pieces": (
        connect(0) + piece(0, WHOLE[:1], 0) + piece(0, WHOLE[1:9], 0) + piece(0, WHOLE[9:], 0, GRANTED) + close(0, 4),
        ["3 register a port 5000 creation 4", "4 leave a port 5000 (fault)"]),
    "each reason of a refusal": (
        asked(0, alive(b"a", 1), IN_USE) + asked(1, alive(b"b", 2), NO_ROOM) + asked(2, alive(b"c", 3), local=0),
        ["1 refuse a port 1: the name is in use", "3 refuse b port 2: no room for the name", "5 refuse c port 3: a peer of another host"]),
    "a refusal names the port of the node that has the name": (
        register(0, b"a") + asked(1, alive(b"a", 1), IN_USE) + asked(2, b"sa", b"STOPPED") + asked(3, alive(b"a", 2), IN_USE)
        + register(4, b"a", 6000) + asked(5, alive(b"a", 3), IN_USE) + close(0) + close(4),
        ["1 register a port 5000 creation 4", "3 refuse a port 1: the name is in use, held at port 5000", "5 stop a by a local peer: STOPPED",
         "7 refuse a port 2: the name is in use", "9 register a port 6000 creation 4",
         "11 refuse a port 3: the name is in use, held at port 6000", "13 leave a port 6000"]),
    "a reply is no command to a terminal": (
        b"".join(asked(0, b"k", reply) + asked(1, b"sn", reply) for reply in REPLIES),
        [line for place, shown in zip(range(1, 17, 4), REPLIES.values())
         for line in (f"{place} kill by a local peer: {shown}", f"{place + 2} stop n by a local peer: {shown}")]),
    "lists, dumps, stops and kills": (
        b"".join(asked(slot, body, reply, local) for slot, (local, body, reply) in enumerate([
            (0, b"n", PORT), (1, b"d", PORT), (0, b"d", b""), (1, b"sa", b"STOPPED"), (1, b"sb", b"NOEXIST"), (1, b"sa", b""), (1, b"k", b"NO"),
            (0, b"k", b""), (1, b"zq", ABSENT)])),
        ["1 list by a remote peer", "3 dump by a local peer", "5 dump by a remote peer: refused", "7 stop a by a local peer: STOPPED",
         "9 stop b by a local peer: NOEXIST", "11 stop a by a local peer: refused", "13 kill by a local peer: NO",
         "15 kill by a remote peer: refused", "17 lookup q by a local peer: not registered"]),
    "a name that was stopped does not leave": (
        register(0, b"a") + register(2, b"b", 5001) + asked(1, b"sa", b"STOPPED") + close(0) + close(2),
        ["1 register a port 5000 creation 4", "3 register b port 5001 creation 4", "5 stop a by a local peer: STOPPED", "7 leave b port 5001"]),
    "requests of the greatest lengths, and bytes behind a request": (
        connect(0) + piece(0, sized(LONG + sized(bytes(BODY_MOST - len(LONG) - 2))), 0, GRANTED)
        + connect(1) + piece(1, sized(b"za") + b"b", 1, FOUND),
        [f"1 register {'a' * NAME_MOST} port 5000 creation 4", "3 lookup a by a local peer: port 5000"]),
    "malformed requests": (
        b"".join(connect(slot) + piece(slot, request, 1) for slot, request in enumerate(MALFORMED)),
        [f"{2 * slot + 1} malformed request by a local peer: {request[:40].hex()}" for slot, request in enumerate(MALFORMED)]),
    "a silent connection": (connect(0, 0) + piece(0, b"\0", 0) + late(0) + late(0) + close(0), ["2 timeout of a remote connection"]),
    "a name is no command to a terminal": (
        visit("\x9b\u202eé".encode() + b"\xff"), ["1 lookup \\x9b\\u202eé\\xff by a local peer: not registered"]),
}
# The examples of docs/FORMATS.md.
ONE = """45 50 4D 53 01 00 11 11 00 00 00 02 00 00 00 02 01 01 00 00 00 00 00 00 00 00
    02 00 00 00 00 00 00 00 00 00 10 00 0E 78 13 88 4D 00 00 06 00 05 00 01 61 00 00 00 00 00 00 06 76 00 00 00 00 04
    01 01 00 00 00 00 00 00 00 01
    02 00 00 00 00 00 00 00 01 00 04 00 02 7A 61 01 00 00 00 0F 77 00 13 88 4D 00 00 06 00 05 00 01 61 00 00"""
TWO = """45 50 4D 53 02 00 11 11 00 00 00 02 00 00 00 02 00 00 00 00 00 00 00 02 00 00 00 00 01 00 00 00 00 00 00 00 01
    13 88 4D 00 00 06 00 05 00 01 61 00 00 00 00 00 04 00 00 00 00 00 00 00 00 00 00 00 00 00 00 00 00 01 01
    00 00 00 02 03 00 00 00 00 00 00 00 00"""
OF_VERSION_1 = b"EPMS\1\0" + number(4369, 2) + number(2, 4) + number(2, 4)
BEGAN = ["0 start", "1 register a port 5000 creation 4"]
# Of each recording the files in the order in which they are written, and their lines.
FILES = {
    "an example": ({"": bytes.fromhex(ONE)}, [*BEGAN, "3 lookup a by a local peer: port 5000"]),
    "another example": ({"": bytes.fromhex(TWO)}, ["2 leave a port 5000"]),
    "one of version 1": (
        {"": OF_VERSION_1 + register(0, b"a").replace(WORKER + b"\1\1", b"\1\1").replace(WORKER + b"\2", b"\2")}, BEGAN),
    "one that begins in a state": (
        {"": start(70, [(b"a", 5000, 9, 3)], [(b"b", 6000, 2)], [(2, 0, 0, b"\0\2z"), (3, 1, 1, b""), (4, 1, 2, b"")])
             + piece(2, b"a", 1, FOUND) + close(3) + piece(4, b"x", 1)}, ["70 lookup a by a remote peer: port 5000", "71 leave a port 5000"]),
    "one that begins with a name that is held": (
        {"": held(9, b"b") + asked(1, alive(b"b", 8), IN_USE)}, ["10 refuse b port 8: the name is in use, held at port 5000"]),
    "one that continues in a further file": (
        {".1": held(2, b"a") + close(0), "": start() + register(0, b"a")}, [*BEGAN, "2 leave a port 5000"]),
    "one whose first files are gone": (
        {".9": start(70) + visit(b"a"), ".10": start(73) + visit(b"b")},
        ["71 lookup a by a local peer: not registered", "74 lookup b by a local peer: not registered"]),
}
LOST = "it is being written, or its end was lost"
FAULTS = [
    ({}, 2, ": no such file"),
    ({".1": start(9), "": start() + connect(0)}, 2, ".1: begins at position 9, and the file before it ends at 1: another run wrote it"),
    ({"": start() + connect(0), ".1": start() + connect(0)}, 2, ".1: begins at position 0, and the file before it ends at 1: another run wrote it"),
    ({"": start()[:20]}, 1, f" is cut off in its start: {LOST}"),
    ({"": start() + connect(0)[:-1]}, 1, f" is cut off at position 0: {LOST}"),
    ({"": start() + connect(0), ".1": start(1) + connect(1)[:-1]}, 1, f".1 is cut off at position 1: {LOST}"),
    ({"": b"EPMX" + bytes(33)}, 2, ": not a recording"),
    ({"": b"EPMS\3" + bytes(33)}, 2, ": a recording of version 3, which these tools do not know"),
    ({"": start() + WORKER + b"\6"}, 2, ": entry 0 is of the unknown kind 6"),
]


class Limits(unittest.TestCase):
    def test_they_are_those_of_the_source(self):
        for name, limit in ("name", NAME_MOST), ("request", BODY_MOST):
            source = read(TOP, "crates", "portmap_wire", "src", name + ".rt")
            self.assertEqual(re.findall(r"pub const \w+_MOST: u\w+ = ([\d_]+);", source), [f"{limit:_}"])


class Logged(Written):
    """What a call of epmd-log prints. It is called in this process."""

    def log(self, *words, status=0, err=""):
        done = self.called("epmd-log", *words, self.path)
        self.is_so(done, status, done[1], err)
        return done[1].splitlines()

    def short(self, *words):
        """The lines without who asked."""
        return [line.partition(" by")[0] for line in self.log(*words)]

    def objects(self, *words):
        return [json.loads(line) for line in self.log("-json", *words)]

    def follower(self, *words):
        return self.running(python("epmd-log", "-f", *words, self.path))

    def prints(self, process, *lines):
        self.assertEqual([process.stdout.readline() for _ in lines], [f"{line}\n" for line in lines])


class Lines(Logged):
    def test_each_recording_has_its_lines(self):
        for what, (entries, lines) in LINES.items():
            with self.subTest(what):
                self.write(start() + entries)
                self.assertEqual(self.log(), ["0 start", *lines])

    def files(self, files):
        """These files of a recording and no others, each written later than the one before."""
        for each in os.listdir(self.folder):
            os.remove(self.inside(each))
        for behind, data in files.items():
            self.write(data, behind)

    def test_each_recording_of_files_has_its_lines(self):
        for what, (files, lines) in FILES.items():
            with self.subTest(what):
                self.files(files)
                self.assertEqual(self.log(), lines)

    def test_each_fault_of_files_is_reported(self):
        for files, status, said in FAULTS:
            self.files(files)
            self.log(status=status, err=f"epmd-log: {self.path}{said}\n")

    def test_events_of_some_kinds_or_of_one_name_alone(self):
        self.write(start() + register(0, b"a", 1) + visit(b"b") + close(0) + asked(0, b"n", PORT))
        for words, lines in {
            "-event leave,lookup": ["3 lookup b", "5 leave a port 1"], "-event leave": ["5 leave a port 1"],
            "-event start -event register": ["0 start", "1 register a port 1 creation 4"], "-event lookup -n a": [],
            "-n a": ["0 start", "1 register a port 1 creation 4", "5 leave a port 1"],
        }.items():
            self.assertEqual(self.short(*words.split()), lines, words)
        for word in ("refused", "", "leave,,"):
            said = re.compile(f"{word!r} is not a kind of event: write register, refuse, leave, held, lookup,")
            self.assertEqual(self.log("-event", word, status=2, err=said), [])

    def test_the_manual_has_each_kind(self):
        keys = re.search(r"(?s)\n\.It event\n(.*?)\n\.It ", read(TOP, "docs", "epmd-log.1"))[1]
        self.assertEqual(re.findall(r"(?m)^\.Ql (\w+)", keys), KINDS)

    def test_health_checks_are_left_out_unless_they_are_asked_for(self):
        checks = [b"epmd-health", b"epmd-health-4711", b"epmd-health4711"]
        nodes = [b"epmd-healthy", b"epmd-health-b", b"epmd-healt"]
        self.write(start() + b"".join(register(0, name) + visit(name) + close(0) for name in checks) + b"".join(map(visit, nodes)))
        self.assertEqual(self.short(), ["0 start", *(f"{place} lookup {name.decode()}" for place, name in zip((19, 22, 25), nodes))])
        self.assertEqual([len(self.log(*words)) for words in (["-health"], ["-n", "epmd-health"])], [1 + 9 + 3, 1 + 3])

    def test_several_recordings_are_printed_one_behind_the_other(self):
        self.write(start() + register(0, b"n"), "-20261128T040632Z")
        self.visits("a")
        self.visits("b", 3, ".1")
        files = [self.path + behind for behind in ("-20261128T040632Z", "", ".1")]
        done = self.called("epmd-log", *files)
        self.assertEqual([line.partition(" by")[0] for line in done[1].splitlines()], [
            "0 start", "1 register n port 5000 creation 4", "0 start", "0 leave n port 5000 (restart)", "1 lookup a", "4 lookup b"])
        self.is_so(done, 0, done[1], "")
        self.is_so(self.called("epmd-log", "-f", *files), 2, "", re.compile("\nepmd-log: error: with -f, name one FILE\n$"))

    def test_a_file_that_is_not_a_recording_is_named(self):
        self.write(b"root:x:0:0:root:/root:/bin/sh\n")
        self.write(b"EPMT", ".times")
        for path, said in ((self.folder, " is a folder, not a file"), (self.path, ": not a recording"), (self.path + "1", ": no such file"),
                           (self.path + ".times", f": the times of a recording: name {self.path} instead")):
            self.is_so(self.called("epmd-log", path), 2, "", re.compile(f"^(usage: .*\nepmd-log: error: argument FILE: |epmd-log: ){path}{said}\n$"))

    def test_a_link_to_itself_is_passed_over(self):
        self.visits("a")
        os.symlink(self.path + ".1", self.path + ".1")
        self.assertEqual(self.short(), ["0 start", "1 lookup a"])

    def test_a_recording_that_began_again_has_a_gap(self):
        self.write(start() + connect(0) + connect(1)[:-1])
        self.write(held(9, b"a") + close(0), ".1")
        self.visits("b", 12, ".2")
        lines = ["0 start", "1 gap: 8 entries are missing", "9 leave a port 5000", "10 gap: 2 entries are missing",
                 "13 lookup b by a local peer: not registered"]
        self.assertEqual((self.log(), self.log("-n", "a")), (lines, lines[:4]))
        self.assertEqual(self.objects()[1], {"place": 1, "event": "gap", "missing": 8})

    def test_each_event_as_json(self):
        self.write(start() + register(0, b"a") + asked(1, b"za", FOUND, local=0) + asked(2, alive(b"a", 1), IN_USE)
                   + connect(3) + late(3) + close(0, 4) + asked(4, b"n", PORT) + asked(5, b"d", PORT) + asked(6, b"sq", b"NOEXIST") + asked(7, b"k", b"NO") + asked(8, b"zq", ABSENT)
                   + connect(9) + piece(9, bytes(50), 1))
        self.assertEqual(self.objects(), [
            {"place": 0, "event": "start"},
            {"place": 1, "event": "register", "name": "a", "port": 5000, "creation": 4, "peer": "local"},
            {"place": 3, "event": "lookup", "name": "a", "port": 5000, "peer": "remote"},
            {"place": 5, "event": "refuse", "name": "a", "port": 1, "peer": "local", "reason": "in_use", "held_port": 5000},
            {"place": 7, "event": "timeout", "peer": "local"},
            {"place": 8, "event": "leave", "name": "a", "port": 5000, "peer": "local", "reason": "fault"},
            {"place": 10, "event": "list", "peer": "local"},
            {"place": 12, "event": "dump", "peer": "local", "answer": "listed"},
            {"place": 14, "event": "stop", "name": "q", "peer": "local", "answer": "NOEXIST"},
            {"place": 16, "event": "kill", "peer": "local", "answer": "NO"},
            {"place": 18, "event": "lookup", "name": "q", "peer": "local"},
            {"place": 20, "event": "malformed", "peer": "local", "request": "00" * 40},
        ])

    def test_a_name_that_is_not_text_is_restored_from_json_and_asked_for(self):
        name = b"\xff" + "é\u202e".encode() + b"\xfe"
        self.write(start() + visit(name))
        self.assertTrue("".join(self.log("-json")).isascii())
        self.assertEqual(bytes.fromhex(self.objects()[1]["name_hex"]), name)
        self.visits(["é\ufffd"])
        self.assertEqual(self.objects()[1], {"place": 1, "event": "lookup", "name": "é\ufffd", "peer": "local"})
        self.write(start() + visit(b"a\xff") + visit(b"a"))
        self.ends(python("epmd-log", "-n", b"a\xff", self.path), out="0 start\n1 lookup a\\xff by a local peer: not registered\n")

    def test_a_letter_that_the_locale_lacks_is_printed_by_its_number(self):
        self.visits(["aé\u4e00"])
        for encoding, shown in (("ascii", "a\\xe9\\u4e00"), ("latin-1", "a\xe9\\u4e00"), ("utf-8", "aé\u4e00")):
            wanted = f"0 start\n1 lookup {shown} by a local peer: not registered\n".encode(encoding)
            self.ends(python("epmd-log", self.path), out=wanted, err=b"", env=programs.environment(PYTHONIOENCODING=encoding), text=False)


class Tools(Written):
    """All tools, each called as a user does."""

    def test_help_is_complete(self):
        self.has_help("epmd-log", "status is 0", "-json", "-f ", "-n NAME")

    @needs("mypy")
    def test_types_agree(self):
        words = ["mypy", "--check-untyped-defs", "--scripts-are-modules", "--cache-dir", self.inside("cache")]
        paths = [os.path.join(CONTRIB, name) for name in (*TOOLS, "sbom", "epmd_recording.py")]
        self.ends([*words, *paths], out=f"Success: no issues found in {len(paths)} source files\n", env=programs.environment(MYPYPATH=CONTRIB))

    def test_each_has_a_version_and_names_the_module_that_it_lacks(self):
        lacking = ("import sys, runpy; sys.modules['argparse'] = None; del sys.argv[0]; sys.path[0] = sys.argv[0].rpartition('/')[0]; "
                   "runpy.run_path(sys.argv[0], run_name='__main__')")
        for name in TOOLS:
            for word in ("-version", "--version"):
                self.ends(python(name, word), out=f"{name} {read(TOP, 'VERSION').strip()}\n")
            interpreter, path = python(name)
            said = re.compile(f"^{name}: a module of python3 is missing, [^\n]*argparse[^\n]*\n$")
            self.ends([interpreter, "-c", lacking, path], 2, err=said)

    def test_installed_it_finds_what_the_tools_share_and_leaves_nothing_beside_it(self):
        places = [self.inside(*each) for each in (("bin",), ("lib", "epmd-proved"), ("links",))]
        for place in places:
            os.makedirs(place)
        shutil.copy(os.path.join(CONTRIB, "epmd_recording.py"), places[1])
        for name in TOOLS:
            shutil.copy(os.path.join(CONTRIB, name), places[0])
            os.symlink(os.path.join(places[0], name), os.path.join(places[2], name))
            for place in (places[0], places[2]):
                self.ends(python(os.path.join(place, name), "-h"), out=re.compile(f"^usage: {name} "))
        self.assertEqual(os.listdir(places[1]), ["epmd_recording.py"])


class Live(Logged):
    """A recording or a pipe that is being written while a process reads it."""

    def test_a_recording_is_followed_across_a_restart(self):
        running = self.follower()
        self.assertEqual(running.stderr.readline(), f"epmd-log: {self.path} is not there yet\n")
        time.sleep(0.5)
        self.write(start() + visit(b"a") + register(0, b"n"))
        self.prints(running, "0 start", "1 lookup a by a local peer: not registered", "4 register n port 5000 creation 4")
        self.rename("20261128T040632Z", "")
        self.visits("b")
        self.prints(running, "0 start", "0 leave n port 5000 (restart)", "1 lookup b by a local peer: not registered")
        running.send_signal(signal.SIGINT)
        self.assertEqual((running.wait(SILENCE), running.stderr.read()), (0, ""))

    def test_a_recording_is_followed_into_the_next_file(self):
        self.write(start())
        running = self.follower("-all")
        self.prints(running, "0 start")
        self.add(connect(0))
        time.sleep(0.5)
        self.add(register(0, b"a")[len(connect(0)):])
        self.prints(running, "1 register a port 5000 creation 4")
        self.write(held(2, b"a") + close(0), ".1")
        self.prints(running, "2 leave a port 5000")
        running.send_signal(signal.SIGINT)
        self.assertEqual(running.wait(SILENCE), 0)

    def piped(self, *words):
        """A process that reads a pipe."""
        os.mkfifo(self.path)
        return self.running(python("epmd-log", *words, self.path))

    def test_a_pipe_is_read_to_its_end(self):
        for words in ([], ["-f"]):
            running, began = self.piped(*words), int(time.time())
            with open(self.path, "wb") as pipe:
                pipe.write(start() + register(0, b"a"))
            text = running.stdout.read()
            self.assertRegex(text, f"^{STAMP}0 start\n{STAMP}1 register a port 5000 creation 4\n$")
            stamp = calendar.timegm(time.strptime(text.split(".")[0], "%Y-%m-%dT%H:%M:%S"))
            self.assertTrue(began <= stamp <= time.time(), text)
            self.assertEqual((running.wait(SILENCE), running.stderr.read()), (0, ""))
            os.remove(self.path)

    def test_an_event_of_a_pipe_is_printed_at_once(self):
        running = self.piped()
        with open(self.path, "wb", buffering=0) as pipe:
            pipe.write(start() + visit(b"a") + visit(b"b")[:-20])
            self.assertRegex(running.stdout.readline(), f"^{STAMP}0 start")
            self.assertRegex(running.stdout.readline(), f"^{STAMP}1 lookup a ")
            pipe.write(visit(b"b")[-20:])
            self.assertRegex(running.stdout.readline(), f"^{STAMP}4 lookup b ")

    def test_where_the_reader_of_its_lines_has_gone_it_ends_well(self):
        self.visits("a" * 5000)
        running = self.running(python("epmd-log", self.path))
        running.stdout.close()
        self.assertEqual((running.stderr.read(), running.wait(SILENCE)), ("", 0))


class Followed(Written):
    """Which files a live recording is read from, look by look."""

    def setUp(self):
        super().setUp()
        self.recording = self.opened(self.path, True)

    def opened(self, *words, **more):
        recording = Recording(*words, **more)
        self.addCleanup(recording.close)
        return recording

    def at_the_next_look(self, before=lambda: None, after=lambda: None):
        """What happens just before or after it looks which files there are."""
        look = self.recording.following

        def following():
            self.recording.following = look
            before()
            found = look()
            after()
            return found

        self.recording.following = following

    def seen(self):
        """What happened to names, and gaps."""
        return [f"{event.place} {event.name.decode() if event.name else f'gap {event.missing}'}"
                for event in self.recording.events() if event.name or event.missing]

    def test_what_is_incomplete_is_waited_for(self):
        whole = start(0, [(b"n", 1, 4, 3)], [(b"o", 2, 5)], [(2, 1, 0, b"\0"), (3, 1, 1, b"")]) + visit(b"a") + late(2) + close(3)
        for size in range(len(whole)):
            self.write(whole[:size])
            recording = Recording(self.path, True)
            first = [event.event for event in recording.events()]
            self.add(whole[size:])
            self.assertEqual(first + [event.event for event in recording.events()], ["start", "lookup", "timeout", "leave"], size)
            self.assertFalse(recording.is_cut())
            recording.close()

    def test_each_scene(self):
        for scene, look, seen in self.scenes(SCENES):
            if look == 0:
                self.recording = self.opened(self.path, True)
            with self.subTest(scene, look=look):
                self.sees(*seen)

    def test_the_open_file_is_renamed_before_the_others(self):
        self.visits("a")
        self.visits("b", 3, ".1", ["1 a", "4 b"])
        self.visits("c", 6, ".2")
        seen = []
        for each in (".1", "", ".2"):
            self.rename("20261128T040632Z", each)
            seen += self.seen()
        self.assertEqual(seen, ["7 c"])

    def test_an_entry_between_a_read_and_a_look_is_seen(self):
        self.visits("a", sees=["1 a"])
        self.rename("20261128T040632Z", "")
        self.visits("c")
        self.at_the_next_look(before=lambda: self.add(visit(b"b"), "-20261128T040632Z"))
        self.sees("4 b", "1 c")

    def test_a_file_that_is_renamed_between_a_look_and_its_opening_is_looked_for_again(self):
        self.visits("a")
        self.at_the_next_look(after=lambda: (self.rename("20261128T040632Z", ""), self.visits("b")))
        self.assertEqual(self.seen() + self.seen(), ["1 b"])
        self.at_the_next_look(before=lambda: self.add(visit(b"c")))
        self.assertEqual(self.seen() + self.seen(), ["4 c"])

    def test_what_was_written_before_a_newer_file_is_read_first_and_is_no_gap(self):
        self.visits("a", sees=["1 a"])
        self.at_the_next_look(before=lambda: (self.add(visit(b"b")), self.visits("c", 6, ".1")))
        self.sees("4 b", "7 c")
        self.add(visit(b"c"), ".1", sees=["10 c"])

    def test_a_gap_is_no_reason_to_read_more_than_was_asked_for(self):
        recording = self.opened(self.path, True, most=1)
        self.visits("a")
        self.visits("b", 7, ".1")
        self.assertEqual([event.event for event in recording.events()], ["start", "lookup"])
        self.assertTrue(recording.is_spent())
        following = self.opened(self.path, True, kept=recording.kept())
        self.assertEqual([(event.place, event.event) for event in following.events()], [(3, "gap"), (8, "lookup")])

    def test_a_file_that_was_not_read_yet_is_pruned(self):
        self.visits("a", sees=["1 a"])
        self.add(visit(b"b"))
        os.remove(self.path)
        self.visits("d", 70, ".2", ["4 b", "71 d"])

    def test_where_the_clock_was_set_back_a_copy_of_a_later_name_hides_nothing(self):
        self.visits("a", sees=["1 a"])
        for action in ("renamed 04: .", "back", "at 0: d"):
            self.do(action)
        self.sees("1 d")
        for action in ("at 0: o in -05", "renamed 03: .", "back", "at 0: ee"):
            self.do(action)
        self.assertEqual(self.seen()[-2:], ["1 e", "4 e"])
        self.sees()
