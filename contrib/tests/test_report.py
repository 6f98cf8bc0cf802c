"""What epmd-report shows of recordings with known events: the values in the page, and the page itself in a browser without a window."""
import fcntl
import json
import os
import re
import select
import subprocess
import tempfile
import types

import programs
from programs import PATIENCE, needs, python
from recorded import (BEGAN, MINUTE, NO_ROOM, SECOND, Written, asked, close, connect, held, late, looked_up, piece, refused, register, start,
                      times, visit)

EARLIER = "-20241128T000100Z"
HOSTILE = ["</script><script>document.title = 'taken'</script>", "<img src=x onerror=\"document.title = 'taken'\">",
           "a\u202eb\u2066c\u200d", "\x85\x9b31m", "\u2028\ufeff&lt;b&gt;", "THE-DATA", "'\"><svg onload=alert(1)>"]


class Reported(Written):
    """Recordings, and the pages that are made of them."""

    def report(self, *words, status=0, err="", **limits):
        """The page of a call in this process, in which no epmd is found."""
        which = types.SimpleNamespace(which=lambda *_, **__: None)
        done = self.called("epmd-report", *(words or [self.path]), shutil=which, **limits)
        self.is_so(done, status, done[1], err)
        return done[1]

    def values(self, *words, **more):
        return json.loads(re.search('<script type="application/json" id="data">(.*?)</script>', self.report(*words, **more), re.S)[1])

    def lane(self, data, name):
        row, = (row for row in data["lanes"]["rows"] if row[0] == name)
        return dict(zip(("spells", "refused", "absent", "found", "registered"), row[1:]))

    def spells(self, data, *names):
        return [self.lane(data, name)["spells"] for name in names]

    def program(self, text):
        """The words that name a program to ask for a verdict."""
        programs.write(self.inside("program"), f"#!/bin/sh\n{text}\n", 0o755)
        return "-epmd", self.inside("program"), self.path

    def in_minutes(self, *rows, behind="", version=1):
        """The times of a file, with the minutes after BEGAN in each row."""
        self.timed(*((place, 60 * minutes) for place, minutes in rows), behind=behind, version=version)

    def day(self):
        """A run of ten minutes: a is registered from minute 1 to 5 and once more from 6 on. It is refused three times in minute 3, and
        looked up twice while absent in minute 5. b is registered from minute 2 on. The daemon ends at minute 10."""
        rows, data = [(0, 0)], b""
        for at_minute, entries, count in (
            (1, register(0, b"a"), 2), (2, register(1, b"b", 5001), 2), (3, refused(b"a") * 3, 9), (4, looked_up(b"a") + visit(b"c"), 6),
            (5, close(0) + visit(b"a") * 2, 7), (6, register(0, b"a", 5002), 2),
            (7, connect(2) + connect(3) + late(2) + close(2) + close(3), 5),
        ):
            data += entries
            rows.append((rows[-1][0] + count, at_minute))
        self.write(start() + data)
        self.in_minutes(*rows, (rows[-1][0], 10))


class Shown(Reported):
    """The values in the page."""

    def test_known_events_are_known_facts(self):
        self.day()
        data = self.values(COLUMNS=11)
        self.assertEqual((data["isTimed"], data["first"], data["span"]), (True, BEGAN // 1000, 600_000))
        self.assertEqual(self.lane(data, "a"), {
            "spells": [[60_000, 300_000, 5000, 4, "close"], [360_000, 600_000, 5002, 4, "end"]], "refused": [[3, 3]],
            "absent": [[5, 2]], "found": 1, "registered": 2})
        self.assertEqual(self.spells(data, "b"), [[[120_000, 600_000, 5001, 4, "end"]]])
        self.assertEqual(self.lane(data, "c"), {"spells": [], "refused": [], "absent": [[4, 1]], "found": 0, "registered": 0})
        self.assertEqual([row[0] for row in data["lanes"]["rows"]], ["a", "b", "c"])
        self.assertEqual(data["refusals"], [[180_000, 180_000, 3, "a", 6000, "in_use", 5000, 60_000]])
        self.assertEqual(data["marks"], [[0, "start", None], [600_000, "end", None]])
        self.assertEqual(data["columns"], {"begin": 0, "width": 60_000, "per": 1, "rows": [  # Registered, refused, found, absent, most connections.
            0, [1, 0, 0, 0, 1], [1, 0, 0, 0, 2], [0, 3, 0, 0, 3], [0, 0, 1, 1, 3], [0, 0, 0, 2, 2], [1, 0, 0, 0, 2],
            [0, 0, 0, 0, 4], [0, 0, 0, 0, 2], [0, 0, 0, 0, 2], [0, 0, 0, 0, 2]]})
        self.assertEqual(data["worst"], [
            [180_000, 0, 3, 0, 0, 3], [300_000, 0, 0, 0, 2, 2], [240_000, 0, 0, 1, 1, 3],
            [60_000, 1, 0, 0, 0, 1], [120_000, 1, 0, 0, 0, 2], [360_000, 1, 0, 0, 0, 2]])
        self.assertEqual([data["counts"][each] for each in ("starts", "ends in order", "ends not in order")], [1, 1, 0])
        self.assertEqual((data["verdicts"], data["notes"]),
                         ([], ["Each mark is for all refusals, or all look-ups while absent, in 1/11 of the time line."]))

    def test_a_short_recording_has_columns_of_seconds_and_the_worst_minutes(self):
        self.day()
        data = self.values()
        self.assertEqual((data["columns"]["width"], data["columns"]["per"], len(data["columns"]["rows"])), (1000, 1, 601))
        rows = [row or [0] * 5 for row in data["columns"]["rows"]]
        self.assertEqual([rows[second] for second in (0, 59, 60, 179, 180, 181, 599)], [
            [0] * 5, [0] * 5, [1, 0, 0, 0, 1], [0, 0, 0, 0, 2], [0, 3, 0, 0, 3], [0, 0, 0, 0, 2], [0, 0, 0, 0, 2]])
        self.assertEqual(data["worst"][:2], [[180_000, 0, 3, 0, 0, 3], [300_000, 0, 0, 0, 2, 2]])
        self.assertEqual((self.lane(data, "a")["refused"], data["notes"]), ([[180 * 4800 // 601, 3]], []))

    def test_each_sum_counts_what_it_says(self):
        self.write(start() + (register(0, b"a") + close(0, 4)) * 3 + register(0, b"a") + refused(b"a") * 5 + looked_up(b"a") + visit(b"x") * 6
                   + (asked(9, b"n", bytes(4)) + close(9)) * 8 + asked(9, b"d", bytes(4)) + close(9)
                   + (connect(9) + piece(9, b"\0\0", 1) + close(9)) * 10 + (connect(9) + late(9) + close(9)) * 9)
        self.assertEqual(self.values()["counts"], {
            "names": 2, "registrations": 4, "refusals": 5, "look-ups": 7, "of these while absent": 6, "lists": 8,
            "connections that failed": 3, "timeouts": 9, "malformed requests": 10, "connections at once": 2, "starts": 1,
            "ends in order": 0, "ends not in order": 0, "gaps": 0})

    def test_a_name_is_held_until_it_is_stopped(self):
        self.write(start() + register(0, b"a") + asked(1, b"sa") + asked(1, b"sa", b"STOPPED"))
        self.assertEqual(self.spells(self.values(), "a"), [[[1, 5, 5000, 4, "stop"]]])

    def test_without_times_the_axis_is_the_number_of_the_entry(self):
        self.write(start() + register(0, b"a") + refused(b"a", NO_ROOM) * 2 + close(0))
        self.write(b"", ".times")
        data = self.values()
        self.assertEqual((data["isTimed"], data["first"], data["span"], data["columns"]["width"]), (False, 0, 8, 1000))
        self.assertEqual(self.spells(data, "a"), [[[1, 8, 5000, 4, "close"]]])
        self.assertEqual(data["refusals"], [[3, 6, 2, "a", 6000, "no_room", 5000, 1]])
        self.assertIn("has no times: the axis is the number of the entry", data["notes"][0])

    def test_without_times_a_further_recording_is_behind_the_one_before(self):
        self.write(start() + register(0, b"a"), EARLIER)
        self.write(start() + register(0, b"b"))
        data = self.values(self.path + EARLIER, self.path)
        self.assertEqual(self.spells(data, "a", "b"), [[[1, 1, 5000, 4, "restart"]], [[3, None, 5000, 4, None]]])
        self.assertEqual(data["marks"], [[0, "start", None], [2, "start", 1]])

    def test_an_event_without_a_time_is_at_the_last_one_known_and_is_counted(self):
        self.write(start() + register(0, b"a") + visit(b"x") + register(1, b"b"))
        self.in_minutes((0, 0), (2, 1))
        data = self.values()
        self.assertEqual(self.spells(data, "b"), [[[60_000, None, 5000, 4, None]]])
        self.assertIn("2 events have no time, and are shown at the last known time before.", data["notes"])
        self.in_minutes((0, 0), (5, 3), (6, 1))
        self.assertEqual(self.values()["notes"][0], "1 event has no time, and is shown at the last known time before.")

    def test_what_comes_before_all_known_times_is_at_the_first_one(self):
        self.write(start() + register(0, b"a") + refused(b"a") + close(0) + register(0, b"b"), EARLIER)
        self.write(start() + register(0, b"c"))
        self.timed((0, 9), (2, 20))
        data = self.values(self.path + EARLIER, self.path)
        self.assertEqual((data["first"], data["span"], data["columns"]["begin"]), (BEGAN // 1000 + 9000, 11_000, 0))
        self.assertEqual((data["columns"]["rows"][0][:2], len(data["columns"]["rows"])), ([2, 1], 12))
        self.assertEqual(self.spells(data, *"abc"), [
            [[0, 0, 5000, 4, "close"]], [[0, 0, 5000, 4, "restart"]], [[11_000, None, 5000, 4, None]]])

    def test_a_part_of_the_time_alone(self):
        self.day()
        since, until = "2024-11-28T00:03:00Z", "2024-11-28T00:05:00Z"
        data = self.values("-since", since, "-until", until, self.path)
        self.assertEqual((data["first"] - BEGAN // 1000, data["span"]), (180_000, 120_000))
        self.assertEqual([row[0] for row in data["lanes"]["rows"]], ["a", "b", "c"])
        self.assertEqual(self.spells(data, "a"), [[[-120_000, None, 5000, 4, None]]])
        self.assertEqual([data["counts"][each] for each in ("refusals", "look-ups", "registrations", "starts")], [3, 2, 0, 0])
        self.assertEqual((data["refusals"][0][:3], data["refusals"][0][6:]), ([0, 0, 3], [5000, -120_000]))
        self.assertEqual([row[4] if row else 0 for row in data["columns"]["rows"]][:2], [3, 2])
        data = self.values("-since", "2024-11-28T00:05:30Z", self.path)
        self.assertEqual([(row[0], [spell[:2] for spell in row[1]]) for row in data["lanes"]["rows"]],
                         [("a", [[30_000, 270_000]]), ("b", [[-210_000, 270_000]])])
        self.assertEqual((data["marks"], data["columns"]["rows"][0]), ([[270_000, "end", None]], [0, 0, 0, 0, 1]))
        data = self.values("-until", "2024-11-28T00:02:00Z", self.path)
        self.assertEqual((data["span"], [row[0] for row in data["lanes"]["rows"]]), (120_000, ["a"]))
        data = self.values("-since", "1h", self.path)
        self.assertEqual((data["lanes"]["rows"], data["counts"]["names"]), ([], 0))
        os.remove(self.path + ".times")
        said = f"epmd-report: {self.path}: it has no times, so -since and -until can't be used\n"
        self.assertEqual(self.report("-since", since, self.path, status=2, err=said), "")

    def test_health_checks_are_left_out_unless_they_are_asked_for(self):
        self.write(held(5, b"epmd-health") + register(1, b"a") + register(2, b"epmd-health-7") + visit(b"epmd-health-8"))
        for words, names in (([], ["a"]), (["-health"], ["a", "epmd-health", "epmd-health-7", "epmd-health-8"])):
            data = self.values(*words, self.path)
            self.assertEqual(sorted(row[0] for row in data["lanes"]["rows"]), names)
            self.assertEqual((data["counts"]["names"], data["counts"]["look-ups"]), (len(names), len(words)))

    def test_a_clock_that_was_set_back(self):
        self.visits("xxxxx")
        for later, said in ((2, "once"), (0, "2 times")):
            self.timed((0, 0), (3, 9), (6, 5), (9, 6), (12, 5 + later), (15, 8))
            self.assertIn(f"The clock was set back {said}: times are shown as the clock had them.", self.values()["notes"])
        self.timed((0, 9), (3, 10), (15, 0))
        data = self.values()
        self.assertEqual((data["first"], data["span"], data["marks"]), (BEGAN // 1000, 10_000, [[9000, "start", None]]))
        self.write(start() + register(0, b"a") + close(0))
        self.timed((0, 0), (2, 10), (3, 5))
        self.assertEqual(self.spells(self.values(), "a"), [[[10_000, 5000, 5000, 4, "close"]]])

    def test_a_minute_begins_at_its_second_whenever_the_recording_begins(self):
        self.visits("xx")
        for begun in (0, 1, 999, 1000, 41_010_708, 59_999_999):
            self.write(times((0, begun), (3, begun), (6, begun + 2 * MINUTE)), ".times")
            data = self.values()
            shown = data["columns"]["begin"], *(row[0] for row in data["worst"]), data["span"]
            wanted = BEGAN + begun // SECOND * SECOND, BEGAN, BEGAN + 2 * MINUTE, BEGAN + begun + 2 * MINUTE
            self.assertEqual([data["first"] + each for each in shown], [each // 1000 for each in wanted], begun)

    def test_a_crash_and_a_restart(self):
        self.write(start() + register(0, b"a") + register(1, b"b"), EARLIER)
        self.write(start() + register(0, b"a", 7000))
        self.in_minutes((0, 1), (2, 2))
        for rows, version, seen in (([], 1, 1000), ([(4, 31), (4, 41)], 2, 41_000)):
            self.timed((0, 0), (4, 1), *rows, behind=EARLIER, version=version)
            data = self.values(self.path + EARLIER, self.path)
            self.assertEqual(self.spells(data, "a", "b"), [[[1000, seen, 5000, 4, "restart"], [120_000, None, 7000, 4, None]],
                                                           [[1000, seen, 5000, 4, "restart"]]])
            self.assertEqual((data["marks"], data["counts"]["ends not in order"]), ([[0, "start", None], [60_000, "start", seen]], 1))
        self.assertEqual([row[4] for row in (row or [0] * 5 for row in data["columns"]["rows"])][39:43], [2, 2, 2, 0])

    def test_between_two_runs_no_connection_is_held(self):
        self.write(start() + register(0, b"a"), EARLIER)
        self.in_minutes((0, 0), (2, 1), (2, 2), behind=EARLIER)
        self.write(start() + register(0, b"a") + register(1, b"b") + close(0))
        self.in_minutes((0, 5), (2, 6), (4, 7), (5, 8))
        data = self.values(self.path + EARLIER, self.path, COLUMNS=9)
        self.assertEqual([row and row[4] for row in data["columns"]["rows"]], [0, 1, 1, 0, 0, 0, 1, 2, 2])

    def test_connections_are_held_through_minutes_in_which_their_number_does_not_change(self):
        self.write(start() + register(0, b"a"))
        self.in_minutes((0, 0), (1, 1), (2, 2), (2, 4))
        self.assertEqual([row and row[4] for row in self.values(COLUMNS=5)["columns"]["rows"]], [0, 1, 1, 1, 1])

    def test_a_recording_that_begins_in_a_state_and_one_with_a_gap(self):
        state = [(b"a", 5000, 4, 0), (b"b", 5001, 4, 1)], (), [(0, 1, 1, b""), (1, 1, 1, b"")]
        self.write(start(70, *state) + close(0), ".3")
        self.in_minutes((70, 0), (71, 1), behind=".3")
        self.write(start(90, [(b"c", 5002, 4, 0)], (), [(0, 1, 1, b"")]) + visit(b"x"), ".4")
        self.in_minutes((90, 5), (93, 6), behind=".4")
        data = self.values()
        self.assertEqual(self.spells(data, *"abc"), [
            [[0, 60_000, 5000, None, "close"]], [[0, 60_000, 5001, None, "gap"]], [[300_000, None, 5002, None, None]]])
        self.assertEqual((data["marks"], data["counts"]["gaps"]), ([[60_000, "gap", 19], [300_000, "again", None]], 1))
        self.write(start(94) + register(0, b"c"), ".9")
        self.rename("20241128T000100Z", ".3", ".4")
        data = self.values(self.path + EARLIER, self.path)
        self.assertEqual([spell[2:] for spell in self.lane(data, "c")["spells"]], [[5002, None, "gap"], [5000, 4, None]])

    def test_a_state_behind_which_nothing_happened(self):
        self.write(held(70, b"a"))
        self.assertEqual(self.spells(self.values(), "a"), [[[0, None, 5000, None, None]]])

    def test_where_the_first_files_were_pruned_the_clock_was_not_set_back(self):
        self.visits("x", 70, ".3")
        self.in_minutes((70, 0), (73, 1), behind=".3")
        data = self.values()
        self.assertEqual((data["notes"], data["span"], self.lane(data, "x")["absent"]), ([], 60_000, [[60 * 4800 // 61, 1]]))

    def test_names_are_text_and_nothing_else(self):
        names = [name.encode() for name in HOSTILE] + [b"\xff\xfe"]
        self.write(start() + b"".join(register(slot, name) for slot, name in enumerate(names)))
        page = self.report()
        self.assertEqual((page.count("<script"), page.count("</script>")), (2, 2))
        self.assertIsNone(re.search("<img|<svg|taken'<", page))
        self.assertTrue(all(each.isprintable() or each == "\n" for each in page))
        self.assertEqual({row[0] for row in self.values()["lanes"]["rows"]}, {
            HOSTILE[0], HOSTILE[1], "a\\u202eb\\u2066c\\u200d", "\\x85\\x9b31m", "\\u2028\\ufeff&lt;b&gt;", "THE-DATA", HOSTILE[6], "\\xff\\xfe"})

    def test_of_much_a_part_is_shown_and_that_is_said(self):
        data = b"".join(register(0, b"a" * 9) + refused(b"a" * 9) + refused(b"b") + refused(b"other") * 2 + visit(b"%d" % (number % 7)) + close(0)
                        for number in range(8))
        self.write(start() + data)
        self.in_minutes(*((18 * number, number) for number in range(9)))
        data = self.values(NAMES_MOST=2, SPELLS_MOST=3, REFUSALS_MOST=1, LETTERS_MOST=5, STRANGERS_MOST=4, COLUMNS=4, MARKS_MOST=2)
        self.assertEqual([row[0] for row in data["lanes"]["rows"]], ["aaaaa… (9 bytes)", "other"])
        self.assertEqual(self.lane(data, "other")["refused"], [[0, 16]])
        spells = self.lane(data, "aaaaa… (9 bytes)")["spells"]
        self.assertEqual([spell[:2] for spell in spells], [[minute * 60_000] * 2 for minute in (6, 7, 8)])
        self.assertEqual(data["refusals"], [[480_000, 480_000, 2, "other", 6000, "in_use"]])
        self.assertEqual([data["columns"][each] for each in ("width", "per")], [60_000, 3])
        self.assertEqual([row[:4] for row in data["columns"]["rows"]], [[1, 4, 0, 1]] * 3)
        self.assertEqual(data["notes"], [
            "2 of 4 names have a lane, those of refusals first.",
            "The last 3 registrations of a name are shown, at most.",
            "Each mark is for all refusals, or all look-ups while absent, in 1/1 of the time line.",
            "The table has the last 1 of 24 rows of refusals.",
            "6 look-ups of further names that were never there have no lane."])

    def test_words_that_name_no_recording_of_their_own(self):
        self.day()
        self.visits("x", 33, ".1")
        self.in_minutes((33, 11), behind=".1")
        data = self.values(*(self.path + behind for behind in ("", ".1", ".1.times", ".times")))
        self.assertEqual((data["files"], data["counts"]["registrations"], data["counts"]["look-ups"]), ([self.path], 3, 5))
        os.remove(self.path + ".1.times")
        self.assertTrue(self.values()["isTimed"])

    def test_what_can_not_be_read(self):
        self.assertEqual(self.report(status=2, err=f"epmd-report: {self.path}: no such file\n"), "")
        self.write(b"root:x:0:0:root:/root:/bin/sh\n")
        self.assertEqual(self.report(status=2, err=f"epmd-report: {self.path}: not a recording\n"), "")
        self.rename("passwd", "")
        self.write(start() + register(0, b"a"))
        fault = f"{self.path}-passwd: not a recording: the rest is left out"
        data = self.values(self.path, self.path + "-passwd", status=1, err=f"epmd-report: {fault}\n")
        self.assertEqual((data["notes"][0], data["counts"]["registrations"]), (fault, 1))
        self.ends(python("epmd-report", self.folder), 2, err=re.compile(f"\nepmd-report: error: .*{self.folder} is a folder, not a file\n$"))
        for entries, said in ((connect(1)[:-1], " ends in the middle of an entry: it is being written, or its end was lost"),
                              (b"\0\0\0\1\x09", ": entry 2 is of the unknown kind 9: the rest is left out")):
            self.write(start() + register(0, b"a") + entries)
            data = self.values(status=1, err=f"epmd-report: {self.path}{said}\n")
            self.assertIn(self.path + said, data["notes"])
            self.assertEqual(data["counts"]["registrations"], 1)
        os.rename(self.path, self.path + "\x9b")
        data = self.values(self.path + "\x9b", status=1, err=f"epmd-report: {self.path}\x9b{said}\n")
        self.assertIn(f"{self.path}\\x9b{said}", data["notes"])

    def test_the_verdict_is_that_of_the_program(self):
        self.day()
        for text, wanted in (("echo run of 5 entries in 1 files", [0, ["run of 5 entries in 1 file"]]), ("seq 7", [0, [*"12345"]]),
                             ("echo run of 1 entries in 5211 files", [0, ["run of 1 entry in 5,211 files"]]),
                             ("echo \"$1 ${2##*/} is <b>\" >&2; exit 1", [1, ["-audit session is <b>"]])):
            self.assertEqual(self.values(*self.program(text))["verdicts"], [[self.path, *wanted]])
        for words in (("-epmd", self.inside("none"), self.path), self.program("exec sleep 600")):
            verdict, = self.values(*words, AUDIT_SECONDS=0.1)["verdicts"]
            self.assertEqual(verdict[:2], [self.path, None])

    def test_wrong_words_and_help(self):
        for words in ([], ["-x"], ["-epmd"]):
            self.ends(python("epmd-report", *words), 2, err=re.compile("^usage: epmd-report"))
        self.has_help("epmd-report", "-epmd PROGRAM", "status is 0")


class Browser:
    """A browser that is driven over a pipe, in messages of JSON that a byte 0 ends."""

    def __init__(self, folder):
        (self.own_in, out), (into, self.own_out) = os.pipe(), os.pipe()
        theirs = [fcntl.fcntl(each, fcntl.F_DUPFD, 10) for each in (into, out)]
        words = ["chromium", "--headless", "--no-sandbox", "--disable-gpu", "--disable-dev-shm-usage", "--no-first-run",
                 "--remote-debugging-pipe", f"--user-data-dir={folder}/profile", "about:blank"]
        with open(os.path.join(folder, "log"), "wb") as log:
            words = ["bash", "-c", f'exec "$@" 3<&{theirs[0]} 4>&{theirs[1]}', "bash", *words]
            self.process = programs.start(words, stdin=subprocess.DEVNULL, stdout=log, stderr=log, pass_fds=theirs,
                                          env=programs.environment(HOME=folder))
        for each in (into, out, *theirs):
            os.close(each)
        self.data, self.number, self.session, self.events = b"", 0, None, []
        target = self.ask("Target.createTarget", url="about:blank")["targetId"]
        self.session = self.ask("Target.attachToTarget", targetId=target, flatten=True)["sessionId"]
        for domain in ("Page", "Runtime", "Log", "Network"):
            self.ask(f"{domain}.enable")

    def message(self):
        while b"\0" not in self.data:
            more = os.read(self.own_in, 1 << 16) if select.select([self.own_in], [], [], PATIENCE)[0] else b""
            if not more:
                raise AssertionError("the browser has ended, or is silent")
            self.data += more
        message, _, self.data = self.data.partition(b"\0")
        return json.loads(message)

    def ask(self, method, **parameters):
        self.number += 1
        asked = {"id": self.number, "method": method, "params": parameters}
        os.write(self.own_out, json.dumps({**asked, "sessionId": self.session} if self.session else asked).encode() + b"\0")
        while True:
            message = self.message()
            if message.get("id") == self.number:
                if "error" in message:
                    raise AssertionError(message["error"])
                return message["result"]
            self.events.append(message)

    def load(self, path, width=1000, scheme="light"):
        """Loads a page, and returns what went wrong in it and what it fetched beside itself."""
        self.ask("Emulation.setDeviceMetricsOverride", width=width, height=800, deviceScaleFactor=1, mobile=width < 500)
        self.ask("Emulation.setEmulatedMedia", features=[{"name": "prefers-color-scheme", "value": scheme}])
        self.events = []
        self.ask("Page.navigate", url=f"file://{path}")
        while not any(event.get("method") == "Page.loadEventFired" for event in self.events):
            self.events.append(self.message())
        faulty = "Runtime.exceptionThrown", "Log.entryAdded", "Runtime.consoleAPICalled"
        faults = [event for event in self.events if event.get("method") in faulty]
        urls = [event["params"]["request"]["url"] for event in self.events if event.get("method") == "Network.requestWillBeSent"]
        return faults + [url for url in urls if url != f"file://{path}"]

    def value(self, expression):
        done = self.ask("Runtime.evaluate", expression=expression, returnByValue=True)
        if "exceptionDetails" in done:
            raise AssertionError(done["exceptionDetails"])
        return done["result"].get("value")

    def press(self, key, text=None):
        code = {"Tab": 9, "Enter": 13, "ArrowRight": 39}.get(key, 0)
        letters = {"text": text} if text else {}
        self.ask("Input.dispatchKeyEvent", type="keyDown", key=key, code=key, windowsVirtualKeyCode=code, **letters)
        self.ask("Input.dispatchKeyEvent", type="keyUp", key=key, code=key)

    def end(self):
        self.process.kill()
        self.process.wait()
        os.close(self.own_in)
        os.close(self.own_out)


NAMES, OF_FIRST, RUNS, WORST, REFUSED = (
    ".lane > button", "#lanes li:nth-child(2)", "#runs-table tbody tr", "#worst-table tbody", "#refusals-table tbody td:last-child")
CURSOR = "getComputedStyle(e).display"  # Of the line at the column that was chosen: whether it is there.
DAY = "2024-11-28 00:"


@needs("chromium")
class InABrowser(Reported):
    """The page itself."""

    @classmethod
    def setUpClass(cls):
        folder = tempfile.TemporaryDirectory(ignore_cleanup_errors=True)
        cls.addClassCleanup(folder.cleanup)
        cls.browser = Browser(folder.name)
        cls.addClassCleanup(cls.browser.end)

    def load(self, *words, **more):
        programs.write(self.inside("report.html"), self.report(*words))
        self.assertEqual(self.browser.load(self.inside("report.html"), **more), [])
        self.assertEqual(self.value("[document.documentElement.dataset.state, document.documentElement.dataset.fault]"), ["shown", None])

    def load_day(self):
        self.day()
        self.load()

    def value(self, expression):
        return self.browser.value(expression)

    def all(self, selector, what="e.textContent"):
        """What an expression has for each element that a selector finds."""
        return self.value(f"[...document.querySelectorAll({json.dumps(selector)})].map(e => {what})")

    def has(self, selector, *wanted, what="e.textContent"):
        self.assertEqual(self.all(selector, what), list(wanted), selector)

    def first(self, selector, wanted, what="e.textContent"):
        self.assertEqual(self.all(selector, what)[0], wanted, selector)

    def click(self, selector):
        self.value(f"document.querySelector({json.dumps(selector)}).click()")

    def test_it_shows_what_happened(self):
        self.load_day()
        self.has(NAMES, "a", "b", "c")
        self.has(f"{OF_FIRST} .held", f"registered at port 5000 from {DAY}01:00Z to {DAY}05:00Z",
                 f"registered at port 5002 from {DAY}06:00Z to {DAY}10:00Z", what="e.title")
        (begin, whole), (left, width) = self.all(
            f"{OF_FIRST} .bar, {OF_FIRST} .held:first-child", "(r => [r.left, r.width])(e.getBoundingClientRect())")
        self.assertAlmostEqual((left - begin) / whole, 0.1, 2)
        self.assertAlmostEqual(width / whole, 0.4, 2)
        self.has(f"{OF_FIRST} .bar", "registered: 2 times; refused: 3 times; looked up while absent: 2 times", what="e.getAttribute('aria-label')")
        self.has("#refusals-table tbody tr",
                 f"{DAY}03:00Zaport 6000: the name was in use, held at port 5000 since 00:01:00Z, 3 times until 00:03:00Z")
        self.has("#worst-table th", "minute", "refused", "looked up while absent", "found", "registered", "most connections")
        self.first(f"{WORST} tr", f"{DAY}03:00Z30003")
        self.assertIn("No program was asked", self.all("#verdicts")[0])
        self.has(RUNS, f"{DAY}00:00ZThe port mapper began.", f"{DAY}10:00ZThe port mapper ended in order.")
        self.assertEqual(len(self.all(".chart .pin.start, .chart .pin.end")), 6)
        self.has("#mapper .run", f"served from {DAY}00:00Z to {DAY}10:00Z", what="e.title")
        self.assertAlmostEqual(self.all("#lanes .refused", "parseFloat(e.style.left)")[0], 29.9, 1)
        self.first(".chart .bad", "M400.00 100v-50h3.33V100zM500.00 100v-100h3.33V100z", "e.getAttribute('d')")
        self.has("#charts h3", "Look-ups a second, those while absent in red (at most 2)",
                 "Registrations and refusals a second, refusals in red (at most 3)", "Connections held (at most 4)")
        self.has("#per", "A column is the busiest of 2 seconds.")
        self.has(".chart", ["1", "2"], ["1", "2", "3"], ["1", "2", "3", "4"], what="[...e.querySelectorAll('.level')].map(e => e.textContent)")
        self.has("#counts > div", "refusals3", "look-ups while absent3", "ends of the port mapper not in order0")
        self.has("#others", "3 names · 3 registrations · 4 look-ups · 1 timeout · 4 connections at once · 1 start · 1 end in order")
        self.first(".cursor", "none", CURSOR)
        self.assertRegex(self.all("#about")[0], r" Made at \d{4}-\d\d-\d\d \d\d:\d\d:\d\dZ by ")

    def test_a_line_is_where_a_run_begins_or_ends_and_where_the_recording_has_a_gap(self):
        self.visits("x")
        self.in_minutes((0, 0), (3, 1))
        self.visits("x", 90, ".1")
        self.in_minutes((90, 2), (93, 4), (93, 4), behind=".1")
        self.load()
        self.has("#mapper .pin", ["pin start", f"start at {DAY}00:00Z", "0%"], ["pin gap", f"gap at {DAY}01:00Z", "25%"],
                 ["pin again", f"recording again at {DAY}02:00Z", "50%"], ["pin end", f"end at {DAY}04:00Z", "100%"],
                 what="[e.className, e.title, e.style.left]")
        self.has(".chart", *[["0%", "25%", "50%", "100%"]] * 3, what="[...e.querySelectorAll('.pin')].map(pin => pin.style.left)")
        failed = "The recording failed here, and continued at 00:02:00Z. 87 entries are missing."
        self.has(RUNS, f"{DAY}00:00ZThe port mapper began.", f"{DAY}01:00Z{failed}", f"{DAY}04:00ZThe port mapper ended in order.")
        self.assertEqual(len(self.all("#mapper .run")), 1)
        self.visits("x", 4, ".1")  # One entry is missing.
        self.in_minutes((4, 2), (7, 4), behind=".1")
        self.load()
        self.assertIn("00:02:00Z. 1 entry is missing.", self.all(RUNS)[1])

    def test_of_a_run_that_did_not_end_in_order_the_last_time_is_shown(self):
        self.visits("x", behind=EARLIER)
        self.visits("x")
        self.in_minutes((0, 3), (3, 4))
        last = "The run before it was last seen at 00:01:00Z. It did not end in order, or its end was not recorded."
        for rows, lines in (([], [f"{DAY}03:00ZThe port mapper began. {last}"]),
                            ([(3, 2)], [f"{DAY}02:00ZThe port mapper ended in order.", f"{DAY}03:00ZThe port mapper began."])):
            self.in_minutes((0, 0), (3, 1), *rows, behind=EARLIER)
            self.load(self.path + EARLIER, self.path)
            self.has(RUNS, f"{DAY}00:00ZThe port mapper began.", *lines)

    def test_a_refusal_names_the_date_of_its_holder_where_it_is_another_one(self):
        self.write(start() + register(0, b"a") + refused(b"a") * 2)
        self.in_minutes((0, 0), (2, 1), (5, 1441), (8, 1441.5))
        self.load()
        self.has(REFUSED, f"port 6000: the name was in use, held at port 5000 since {DAY}01:00Z, 2 times until 00:01:30Z")

    def test_a_recording_that_begins_without_a_start_has_a_lane_from_its_beginning(self):
        self.write(held(70, b"a") + visit(b"x"))
        self.in_minutes((70, 0), (73, 4))
        self.load()
        self.has("#mapper .run", f"served from {DAY}00:00Z to {DAY}04:00Z", what="e.title")

    def test_a_name_is_searched_for(self):
        nodes = refused(b"other0") + b"".join(register(slot, b"node%d" % slot) for slot in range(180)) + refused(b"node7")
        self.write(start() + nodes + b"".join(refused(b"other%d" % each) for each in range(1, 120)))
        self.load()
        found = "#found, #refusals-found"
        self.assertEqual(len(self.all(NAMES)), 100)
        self.has(found, "100 of 300 names shown", "100 of 121 rows shown")
        self.click("#more")
        self.assertEqual(len(self.all(NAMES)), 300)
        self.click("#more-refusals")
        self.has(found, "300 of 300 names shown", "121 of 121 rows shown")
        self.has("#more, #more-refusals", True, True, what="e.hidden")
        for order, first in (("name", ["node0", "node1", "node10"]), ("begin", ["other0", "node0", "node1"]), ("bad", ["node7", "other0", "other1"])):
            self.value(f"(e => {{ e.value = '{order}'; e.dispatchEvent(new Event('change')); }})(document.getElementById('order'))")
            self.assertEqual(self.all(NAMES)[:3], first)
            self.has(found, "100 of 300 names shown", "100 of 121 rows shown")
        self.value("document.getElementById('search').focus()")
        for letter in "NODE7":
            self.browser.press(letter, letter)
        self.has(found, "11 of 11 names shown", "1 of 1 row shown")
        self.first("#lanes button", "node7")

    def test_all_is_reached_by_the_keyboard(self):
        self.load_day()
        found = []
        for _ in range(40):
            self.browser.press("Tab")
            here = self.value("(e => e.id || e.className || e.textContent)(document.activeElement)")
            if here in ("a", "chart") and here not in found:
                self.browser.press(*{"a": ("Enter", "\r"), "chart": ("ArrowRight",)}[here])
            found.append(here)
        self.assertLessEqual({"Load", "Refusals", "chart", "search", "order", "a", "b", "refusals-table", "worst-table"}, set(found))
        self.has(f"{OF_FIRST} > button", "true", what="e.getAttribute('aria-expanded')")
        self.assertIn(f"{DAY}05:00Z5000" + "4" + "its connection was closed", self.all("#lanes .detail tbody tr")[0])
        self.has("#readout", f"{DAY}00:00Z: 0 look-ups, of these 0 while absent, 0 registrations, 0 refusals, 0 connections")
        self.first(".cursor", "block", CURSOR)
        self.value("document.querySelector('.chart').focus()")
        for key, time in (("End", "10:00"), ("ArrowRight", "10:00"), ("ArrowLeft", "09:58"), ("ArrowLeft", "09:56"), ("Home", "00:00"),
                          ("ArrowLeft", "00:00")):
            self.browser.press(key)
            self.assertIn(f"{DAY}{time}Z: ", self.all("#readout")[0])
        for key, shown in (("+", f"{DAY}02:30Z to {DAY}07:30Z"), ("-", f"{DAY}00:00Z to {DAY}10:00Z")):
            self.browser.press(key)
            self.has("#readout", shown)
            self.assertEqual(self.value("document.activeElement.className"), "chart")

    def test_a_chart_is_read_by_the_pointer(self):
        self.load_day()
        self.value("""(box => box.dispatchEvent(new PointerEvent("pointermove", {
            bubbles: true, clientX: box.getBoundingClientRect().left + box.clientWidth * 0.401})))(document.querySelector(".chart"))""")
        self.has("#readout", f"{DAY}04:00Z: 2 look-ups, of these 1 while absent, 0 registrations, 0 refusals, 3 connections")

    def test_what_is_drawn_over_is_shown_alone(self):
        self.load_day()

        def draw(selector, begin, end):
            self.value("(box => { for (const [kind, part] of %s) box.dispatchEvent(new PointerEvent(kind, {bubbles: true, button: 0, buttons: 1,"
                       "clientX: box.getBoundingClientRect().left + box.getBoundingClientRect().width * part})); })(document.querySelector('%s'))" % (
                           json.dumps([["pointerdown", begin], ["pointermove", end], ["pointerup", end]]), selector))
        draw(".chart", 0.2, 0.4)
        self.assertRegex(self.all("#readout")[0], f"^{DAY}0(2:00|1:59)Z to {DAY}0(4:00|3:59)Z$")
        self.value("zoom(120_000, 240_000)")  # The same, to the very second.
        self.has(NAMES, "a", "b", "c")
        self.has("#lanes .lane:not(#mapper) .held", *(f"registered at port 500{port}0%calc(100%)" for port in (0, 1)),
                 what="e.title.slice(0, 23) + e.style.left + e.style.width")
        self.has("#axis span", "00:02:00 UTC", "00:02:15", "00:02:30", "00:02:45", "00:03:00", "00:03:15", "00:03:30", "00:03:45")
        self.has("#refusals-found", "1 of 1 row shown")
        self.click("#later")
        self.has("#readout", f"{DAY}03:00Z to {DAY}05:00Z")
        draw("#over", 0.75, 0.995)
        self.has("#refusals-found", "0 of 0 rows shown")
        draw("#lanes button", 0.2, 0.9)  # What is behind the names is no part of the axis.
        draw("#over", 0.5, 0.503)
        self.assertRegex(self.all("#readout")[0], rf"^{DAY}04:\d\dZ: ")
        self.click("#all")
        self.has("#readout", f"{DAY}00:00Z to {DAY}10:00Z")
        self.has("#all", True, what="e.disabled")

    def test_behind_what_was_last_seen_of_a_run_that_was_killed_a_lane_is_hatched(self):
        self.write(start() + register(0, b"a"), EARLIER)
        self.in_minutes((0, 0), (2, 1), (2, 2), behind=EARLIER, version=2)
        self.visits("x")
        self.in_minutes((0, 3), (3, 4))
        bars, shown = " .bar i:not(.absent)", "[e.className.trim(), e.style.left, e.title]"
        self.load(self.path + EARLIER, self.path)
        self.has("#mapper" + bars, ["held run", "0%", f"served from {DAY}00:00Z to {DAY}02:00Z"],
                 ["unknown run", "50%", f"not known from {DAY}02:00Z to {DAY}03:00Z"],
                 ["held run", "75%", f"served from {DAY}03:00Z to {DAY}04:00Z"], what=shown)
        self.has(OF_FIRST + bars, ["held", "25%", f"registered at port 5000 from {DAY}01:00Z to {DAY}02:00Z"],
                 ["unknown", "50%", f"not known from {DAY}02:00Z to {DAY}03:00Z"], what=shown)
        self.visits("x", 90, EARLIER + ".1")  # The recording failed, and a has left when it continues.
        self.in_minutes((90, 3), (93, 4), behind=EARLIER + ".1")
        self.load(self.path + EARLIER)
        self.has(OF_FIRST + bars, ["held", "25%"], ["unknown", "50%"], what=f"{shown}.slice(0, 2)")
        os.remove(self.path + EARLIER + ".1")
        self.load(self.path + EARLIER, self.path)
        self.click(f"{OF_FIRST} button")
        self.assertIn("00:02:00Z50004the port mapper was killed, or ended unrecorded", self.all("#lanes .detail tbody tr")[0])

    def test_local_times_are_beside_those_of_utc(self):
        self.day()
        self.browser.ask("Emulation.setTimezoneOverride", timezoneId="Asia/Kolkata")
        self.addCleanup(self.browser.ask, "Emulation.setTimezoneOverride", timezoneId="UTC")
        self.load()
        self.has("#readout", f"{DAY}00:00Z (05:30:00+05:30) to {DAY}10:00Z (05:40:00+05:30)")
        self.first("#axis span", "11-28 UTC\n05:30 local")
        self.first(f"{WORST} td", f"{DAY}03:00Z")
        self.click("#local")
        self.first(f"{WORST} td", "2024-11-28 05:33:00+05:30")
        self.assertIn("since 05:31:00+05:30, 3 times", self.all(REFUSED)[0])
        self.assertIn(f"Of {self.path}: 2024-11-28 05:30:00+05:30 (00:00:00Z) to ", self.all("#about")[0])

    def test_bars_are_printed(self):
        self.load_day()
        self.browser.ask("Emulation.setEmulatedMedia", media="print", features=[{"name": "prefers-color-scheme", "value": "dark"}])
        self.addCleanup(self.browser.ask, "Emulation.setEmulatedMedia", media="")
        self.assertEqual(set(self.all(".bar i, .bar, .chart", "getComputedStyle(e).printColorAdjust")), {"exact"})
        self.has("body", "rgb(28, 35, 41)", what="getComputedStyle(e).color")
        self.assertEqual([text for text, width in self.all("button, input, select", "[e.textContent, e.offsetWidth]") if width], ["a", "b", "c"])

    def test_a_day_has_times_of_the_day_on_its_axis(self):
        self.visits("xx")
        self.in_minutes((0, 0), (3, 30), (6, 1439))
        self.load()
        self.has("#axis span", "11-28 UTC", *(f"{hour:02}:00" for hour in range(3, 24, 3)))
        self.has("#per", "A column is the busiest of 3 minutes.")
        self.value("zoom(3_600_000, 4_200_000)")
        self.has("#axis span", "01:00 UTC", "01:02", "01:04", "01:06", "01:08")
        self.has("#per", "A column is a minute.")

    def test_what_the_program_says_of_the_files(self):
        self.day()
        for status, said, kind in ((0, "The files are one run: ", ""), (1, "The files are not one run: ", "fault"), (2, "There is no verdict: ", "")):
            self.load(*self.program(f"seq 2; exit {status}"))
            self.has("#verdicts", f"epmd -audit {self.path}. {said}1; 2")
            self.has("#verdicts p", kind, what="e.className")

    def test_hostile_names_are_text(self):
        names = [name.encode() for name in HOSTILE]
        self.write(start() + b"".join(register(slot, name) for slot, name in enumerate(names)) + b"".join(map(refused, names)))
        self.load()
        self.assertEqual((self.value("document.title"), self.all("img, main svg[onload], main script")), ("Port mapper report", []))
        self.assertEqual(sorted(self.all(f"{NAMES} bdi")), sorted(row[0] for row in self.values()["lanes"]["rows"]))
        self.all(NAMES, "e.click()")
        self.assertEqual(len(self.all(".detail")), len(HOSTILE))
        self.assertTrue(all(each.isprintable() or each in "\n\t " for each in self.value("document.body.innerText")))

    def test_it_fits_a_phone_in_light_and_dark(self):
        self.path += "-of-a-host-with-a-long-name" * 3
        self.day()
        long = b"a-name-that-is-as-long-as-no-name-should-be-" * 4
        self.add(register(4, long) + refused(long))
        for scheme, ground, color in (("light", "rgb(255, 255, 255)", "rgb(28, 35, 41)"), ("dark", "rgb(20, 24, 28)", "rgb(230, 234, 237)")):
            self.load(width=360, scheme=scheme)
            self.assertEqual(self.value("[innerWidth, document.documentElement.scrollWidth]"), [360, 360])
            self.has("#refusals-table", 0, what="e.scrollWidth - e.clientWidth")
            self.assertLess(self.all("#refusals-table td", "e.offsetWidth")[0], 100)  # A date, and the time below it.
            self.has("body", [ground, color], what="[getComputedStyle(e).backgroundColor, getComputedStyle(e).color]")

    def test_a_recording_without_times_says_so(self):
        self.write(start() + register(0, b"a") + close(0) + register(0, b"b") + refused(b"b"))
        self.load()
        self.assertIn("the axis is the number of the entry", self.all("#notes")[0])
        self.has(REFUSED, "port 6000: the name was in use, held at port 5000 since entry 4")
        self.has("#lanes li:last-child .held", "registered at port 5000 from entry 1 to entry 2", what="e.title")
        self.assertAlmostEqual(*self.all(f"{OF_FIRST} :is(.bar, .held)", "e.getBoundingClientRect().right"), 1)
        self.click("#lanes button")
        self.has("#lanes .detail", "registered fromtoportcreationwhat ended itentry 4still there50004"
                 "Refused entry 6: port 6000: the name was in use, held at port 5000 since entry 4Looked up and found: 0 times")
