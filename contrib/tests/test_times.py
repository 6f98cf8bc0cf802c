"""The times that epmd-log prints of a recording, from files of times; starts and ends of the port mapper; and where a follower begins."""
import datetime
import json
import os
import re
import threading
import time
import unittest.mock

import programs
from programs import TOP, read
from epmd_recording import HOLD, Recording, time_of
from recorded import BEGAN, ENDED, IN_USE, SECOND, Written, alive, asked, at, close, held, register, start, times, visit
from test_log import Logged

NOT_TIMED = ["0 start", "1 lookup a", "4 lookup b", "7 lookup c"]


class Timed(Logged):
    """The times of lines."""

    def setUp(self):
        super().setUp()
        self.addCleanup(time.tzset)
        patch = unittest.mock.patch.dict(os.environ, programs.OWN)
        patch.start()
        self.addCleanup(patch.stop)
        time.tzset()

    def three(self, *rows, version=1):
        """Three visits: look-ups at places 1, 4 and 7."""
        self.visits("abc")
        self.timed(*rows, version=version)

    def prints_at(self, *seconds, end=()):
        """The lines of three visits, at these times, and one of an end."""
        lines = [f"{at(each)} {line}" if each is not None else line for each, line in zip(seconds, NOT_TIMED)]
        self.assertEqual(self.short(), lines + [f"{at(each)} 9 end" for each in end])

    def places(self, *words):
        return [int(line.split(" ")[1]) for line in self.log(*words)]

    def test_an_entry_has_the_time_of_the_first_row_whose_place_is_above_its_own(self):
        for rows, seconds in (([(1, 1), (2, 2), (4, 3), (9, 4.000001)], (0, 2, 4.000001, 4.000001)), ([(3, 1)], (0, 1, None, None)),
                              ([(9, 1e12)], (0, None, None, None))):  # A time beyond all years is left out.
            self.three((0, 0), *rows)
            self.prints_at(*seconds)
        self.three((0, 60), (3, 1), (6, 30), (5, 31), (9, 32))  # Times may fall, but places that fall end the times.
        self.prints_at(60, 1, 30, None)

    def test_no_time_is_lost_where_the_rows_are_read_in_parts(self):
        self.three((0, 0), (1, 1), (4, 2), (7, 3), (9, 4), (9, 5))
        for rows in range(2, 8):
            with self.subTest(rows), unittest.mock.patch("epmd_recording.CHUNK", 16 * rows):
                self.prints_at(0, 2, 3, 4, end=[5])

    def test_since_names_the_earlier_runs_that_may_have_lines_too(self):
        for run in "123":
            for number in ("", ".1"):
                self.visits("x", behind=f"-20281128T000{run}00Z{number}")
        self.three((0, 0), (9, 1))
        written = self.now - 7  # The first of these files.
        for later, runs in ((0, "123"), (1, "123"), (2, "23"), (4, "3"), (5, "3"), (6, "")):
            wanted = [f"epmd-log: an earlier run was recorded since then too: add {self.path}-20281128T000{run}00Z\n" for run in runs]
            stated = datetime.datetime.fromtimestamp(written + later, datetime.timezone.utc).isoformat()
            self.assertEqual(self.log("-since", stated, err="".join(wanted)), [], later)
        for words in ([], ["-until", "2024-11-28T00:00:02Z"]):
            self.log(*words)
        self.log("-since", "1d", "-until", "1s", err=re.compile("^(epmd-log: an earlier run was recorded since then too: .*\n){3}$"))

    def test_what_is_behind_the_last_row_has_no_time(self):
        self.three((0, 0), (3, 1))
        self.prints_at(0, 1, None, None)
        self.assertEqual([event.get("time", "none") for event in self.objects()], [at(0), at(1), "none", "none"])

    def test_a_file_that_is_not_times_is_left_aside(self):
        rows = (0, 0), (9, SECOND)
        good = times(*rows)
        for data in (times(*rows, version=3), b"EPMS" + good[4:], times((1, 0), (9, SECOND)), good[:31], good[:9], b"", good[:8] + b"\1" + good[9:]):
            self.visits("abc")
            self.write(data, ".times")
            self.assertEqual(self.short(), NOT_TIMED)
        os.remove(self.path + ".times")
        os.mkfifo(self.path + ".times")
        self.assertEqual(self.short(), NOT_TIMED)

    def test_bytes_of_an_incomplete_row_do_not_count(self):
        self.three((0, 0), (3, 1), (9, 2))
        os.truncate(self.path + ".times", 63)
        self.prints_at(0, 1, None, None)

    def test_each_file_has_times_of_its_own(self):
        for number, name in enumerate("abc"):
            self.visits(name, 3 * number, f".{number}" if number else "")
        self.timed((0, 0), (3, 1))
        self.timed((2, 2), (6, 3), behind=".1")  # It is of another run.
        self.timed((6, 3), (9, 4), behind=".2")
        self.prints_at(0, 1, None, 4)

    def test_a_gap_has_the_times_between_which_nothing_was_recorded(self):
        def missing(time, since, entry):
            return [f"{time}3 gap: 6 entries are missing{since}", f"{entry}10 lookup b"]
        self.visits("a")
        self.write(b"", ".1")  # One that failed as it began.
        self.visits("b", 9, ".2")
        self.timed((9, 5), (12, 6), behind=".2")
        self.assertEqual(self.short()[2:], missing(f"{at(5)} ", "", f"{at(6)} "))
        self.timed((0, 0), (2, 1), (3, 2))
        since = f" since {at(2)}"
        self.assertEqual(self.short()[2:], missing(f"{at(5)} ", since, f"{at(6)} "))
        gap = self.objects()[2]
        self.assertEqual((gap["time"], gap["since"]), (at(5), at(2)))
        os.remove(self.path + ".1")
        self.assertEqual(self.short()[2:], missing(f"{at(5)} ", since, f"{at(6)} "))
        os.remove(self.path + ".2.times")
        self.assertEqual(self.short()[2:], missing("", since, ""))

    def test_an_end_is_a_row_at_the_place_of_the_one_before(self):
        for rows, end in (([(9, 1), (9, 3)], [f"{at(3)} 9 end"]), ([(9, 1)], []), ([(12, 1), (12, 3)], []), ([(6, 1), (6, 3)], [])):
            self.three((0, 0), *rows)
            self.assertEqual((self.short()[4:], self.short("-n", "b")[2:]), (end, end))
        self.write(start())
        self.timed((0, 0), (0, 1))
        self.assertEqual(self.log(), [f"{at(0)} 0 start", f"{at(1)} 0 end"])

    def test_in_version_2_a_row_may_say_that_the_daemon_is_there_and_one_ends(self):
        rows = [(0, 0), (1, 1), (1, 61), (4, 62), (9, 63), (9, 123), (9, 183)]
        for more, end in (([], []), ([ENDED], [200]), ([ENDED, (12, 201)], [200])):
            self.three(*rows, *more, version=2)
            self.prints_at(0, 62, 63, 63, end=end)
        self.three(*rows[:4], ENDED, *rows[4:], version=2)
        self.prints_at(0, 62, None, None)

    def test_since_begins_with_the_names_that_are_held_then(self):
        self.write(start() + register(0, b"a") + register(1, b"b", 5001) + close(0) + asked(2, alive(b"b", 6000), IN_USE) + visit(b"c"))
        rows = (0, 0), (2, 1), (4, 2), (5, 5), (7, 6), (10, 7)
        self.timed(*rows)
        a, b = (f"held {name} port {port} since {at(since)}" for name, port, since in (("a", 5000, 1), ("b", 5001, 2)))
        refusal = f"{at(6)} 6 refuse b port 6000: the name is in use, held at port 5001 since {at(2)}"
        for since, lines in ((0, [f"{at(0)} 0 start", f"{at(1)} 1 register a port 5000 creation 4"]),
                             (2, [f"{at(2)} 2 {a}", f"{at(2)} 3 register b port 5001 creation 4"]),
                             (4, [f"{at(4)} 4 {a}", f"{at(4)} 4 {b}", f"{at(5)} 4 leave a port 5000", refusal]),
                             (6, [f"{at(6)} 5 {b}", refusal]), (7, [f"{at(7)} 7 {b}", f"{at(7)} 8 lookup c"]), (9, [f"{at(7)} 10 {b}"])):
            self.assertEqual(self.short("-since", at(since))[:len(lines)], lines)
        self.assertEqual(self.log("-since", at(4), "-until", at(5), "-n", "b"), [f"{at(4)} 4 {b}"])
        self.assertEqual(self.log("-since", at(6), "-event", "refuse"), [refusal])
        self.assertEqual(self.objects("-since", at(6))[0], {
            "time": at(6), "place": 5, "event": "held", "name": "b", "port": 5001, "peer": "local", "since": at(2)})
        self.assertEqual(self.log("-until", at(1)), [f"{at(0)} 0 start"])
        self.timed(*rows, (10, 8))
        self.assertEqual(self.log("-since", at(9)), [])
        self.write(held(70, b"a") + close(0))  # Those before were pruned.
        self.timed((70, 5), (71, 6))
        self.assertEqual(self.log("-since", at(1)), [f"{at(5)} 70 held a port 5000", f"{at(6)} 70 leave a port 5000"])

    def test_of_several_recordings_the_names_that_are_held_are_printed_once(self):
        earlier = "-20241128T000001Z"
        self.write(start() + register(0, b"a"), earlier)
        self.timed((0, 0), (2, 1), behind=earlier)
        self.write(start() + register(0, b"b", 5001))
        self.timed((0, 5), (2, 6))
        for since, lines in ((9, [f"{at(6)} 2 held b port 5001 since {at(6)}"]),
                             (5, [f"{at(5)} 0 start", f"{at(5)} 0 leave a port 5000 (restart)", f"{at(6)} 1 register b port 5001 creation 4"])):
            self.assertEqual(self.log("-since", at(since), self.path + earlier), lines)

    def test_a_pipe_in_the_place_of_times_is_not_opened(self):
        self.visits("a")
        os.mkfifo(self.path + ".times")
        opened = threading.Event()
        threading.Thread(target=lambda: (open(self.path + ".times", "wb").close(), opened.set()), daemon=True).start()
        self.assertEqual(self.short(), ["0 start", "1 lookup a"])
        self.assertFalse(opened.wait(0.2))
        with open(self.path + ".times", "rb"):
            opened.wait()

    def test_since_and_until_compare_with_the_time_of_the_line(self):
        self.three((0, 0), (3, 1), (6, 2), (9, 3.5), (9, 10))
        # The zone of the tests is five and a half hours before UTC.
        for words, places in (
            (["-since", "2024-11-28T05:30:01"], [1, 4, 7, 9]), (["-since", "2024-11-28T05:30:01.000001"], [4, 7, 9]),
            (["-until", "2024-11-28T05:30:02"], [0, 1]),
            (["-since", "2024-11-28T00:00:02Z", "-until", "2024-11-28 00:00:04+00:00"], [4, 7]),
            (["-since", "2024-11-28"], [0, 1, 4, 7, 9]), (["-until", "2024-11-28"], []), (["-since", "2024-11-29"], []),
            (["-since", "1s"], []), (["-until", "00:00"], [0, 1, 4, 7, 9]), (["-until", "00:00:00.250"], [0, 1, 4, 7, 9]),
        ):
            self.assertEqual(self.places(*words), places, words)

    def test_ages_and_times_of_today(self):
        now = (time.time_ns() // 1000 - BEGAN) / SECOND
        self.visits("ab")
        self.timed((0, now - 7300), (3, now - 3500), (6, now))
        for age, places in (("3h", [0, 1, 4]), ("58m1h", [1, 4]), ("3000s", [4]), ("1d", [0, 1, 4])):
            self.assertEqual(self.places("-since", age), places, age)
        for text in ("", "2", "2w", "h", "25:00", "3:12", "2026-13-01", "yesterday", "-1h", "9999-12-31T23:59:59-23:59"):
            forms = "2026-11-28T03:12:00, 2026-11-28T03:12, 2026-11-28, 03:12:00 or 03:12 of today, or an age:"
            self.assertEqual(self.log(f"-since={text}", status=2, err=re.compile(f"{text!r} is not a time: write {forms}")), [])

    def test_today_is_that_of_the_zone(self):
        os.environ["TZ"] = "XXX-12" if time.gmtime().tm_hour >= 12 else "XXX12"  # There it is another day than at UTC.
        time.tzset()
        self.assertEqual(time_of("03:12"), time_of(time.strftime("%Y-%m-%dT03:12")))

    def test_an_entry_waits_as_long_as_the_manual_says(self):
        self.assertEqual(HOLD, 2)
        self.assertIn("\nAn entry waits for its time, for at most two seconds.\n", read(TOP, "docs", "epmd-log.1"))

    def test_a_line_without_a_time_is_left_out_and_that_is_said(self):
        self.three((0, 0), (3, 1))
        lines = self.log("-since", "2024-01-01", status=1, err="epmd-log: events without a time are left out, from position 4 on\n")
        self.assertEqual(lines[1:], [f"{at(1)} 1 lookup a by a local peer: not registered"])


# As those of `recorded`, with the seconds after BEGAN of what is seen, or a mark where it has no time.
SCENES = {
    "rows that say that the daemon is there are passed over": [
        "at 0: a; alive 0@0 3@1 3@61 -> start 0, lookup a 1", "alive 0@0 3@1 3@61 3@121 ->",
        "more: b; alive 0@0 3@1 3@61 3@121 6@122 6@182 -> lookup b 122", "alive 0@0 3@1 3@61 3@121 6@122 6@182 end@200 -> end 200", "->"],
    "it waits for some seconds and then does without": [
        "at 0: a ->", "hold 0 -> start ?, lookup a ?", "times 0@0 3@1; more: b -> lookup b ?", "hold 1000000; more: c ->", "times 0@0 3@1 9@2 -> lookup c 2"],
    "where a further file is there nothing is waited for": [
        "at 0: a; times 0@0 -> start 0", "times 3@1 6@2 in .1; at 3: b in .1 -> lookup a ?, lookup b 2"],
    "after a crash names leave": [
        "times 0@0 4@1; nodes ab -> start 0, register a 1, register b 1",
        "renamed 04: . .times; times 0@9 2@10; nodes b -> start 9, leave a 9, leave b 9, register b 10"],
    "a run that overwrites the file is a start": [
        "times 0@0 2@1 2@2; nodes a -> start 0, register a 1, end 2", "times 0@5 3@6 3@7; at 0: c -> start 5, leave a 5, lookup c 6, end 7"],
    "times that were overwritten are not those of the open file": [
        "times 0@0 3@1; at 0: a -> start 0, lookup a 1", "times 0@50 1@51 9@52; hold 0; more: b -> lookup b ?"],
    "files that are pruned before they are read are no start": [
        "times 0@0 3@1; at 0: a -> start 0, lookup a 1", "removed .; removed .times; times 70@5 73@6 in .2; at 70: b in .2 -> lookup b 6",
        "removed .2; removed .2.times; times 73@7 76@8 in .3; at 73: c in .3 -> lookup c 8",
        "removed .3; removed .3.times; times 40@7 43@8 in .1; at 40: c in .1 -> start 7, lookup c 8"],
    "times of a name that another run has meanwhile are not taken": [
        "at 0: a ->", "renamed 04: .; times 0@50 9@52 ->", "at 0: b -> start ?, lookup a ?, start 50, lookup b 52"],
}


class TimedAndFollowed(Written):
    """The events of a live recording with their seconds after BEGAN, look by look."""

    def setUp(self):
        super().setUp()
        self.recording = Recording(self.path, True, is_timed=True)
        self.addCleanup(self.recording.close)
        self.hold(10 ** 6)

    def hold(self, seconds):
        patch = unittest.mock.patch("epmd_recording.HOLD", seconds)
        patch.start()
        self.addCleanup(patch.stop)

    def do(self, action):
        """Beside those of `recorded`: for how many seconds an entry waits for its time."""
        if action.startswith("hold "):
            self.hold(int(action[5:]))
        else:
            super().do(action)

    def seen(self):
        return [(" ".join([event.event, *([event.name.decode()] if event.name else [])]), event.time and (event.time - BEGAN) / SECOND)
                for event in self.recording.events()]

    def test_an_entry_waits_for_its_row(self):
        self.visits("a", sees=[])
        self.write(times((0, 0))[:20], ".times", sees=[])
        self.write(times((0, 0)), ".times", sees=[("start", 0)])
        self.write(times((0, 0), (3, SECOND))[:-1], ".times", sees=[])
        self.timed((0, 0), (3, 1))
        self.add(visit(b"b"), sees=[("lookup a", 1)])
        self.sees()
        self.timed((0, 0), (3, 1), (6, 2), (6, 2.5))
        self.sees(("lookup b", 2), ("end", 2.5))
        self.sees()
        self.assertIsNone(self.recording.held_since)

    def test_each_scene(self):
        for scene, look, seen in self.scenes(SCENES):
            if look == 0:
                self.recording = Recording(self.path, True, is_timed=True)
                self.addCleanup(self.recording.close)
                self.hold(10 ** 6)
            with self.subTest(scene, look=look):
                self.sees(*((event[:-2], None) if event.endswith("?") else (event.rpartition(" ")[0], float(event.rpartition(" ")[2])) for event in seen))

    def test_a_name_that_the_new_run_knows_does_not_leave(self):
        for action in ("times 0@0 4@1", "nodes ab"):
            self.do(action)
        self.sees(("start", 0), ("register a", 1), ("register b", 1))
        for action in ("renamed 04: . .times", "times 70@9 71@10 in .3"):
            self.do(action)
        self.write(held(70, b"b") + close(0), ".3", sees=[("start", 9), ("leave a", 9), ("leave b", 10)])


class Begun(Logged):
    """Where a follower begins."""

    def setUp(self):
        super().setUp()
        self.write(start() + visit(b"a") + register(0, b"n") + visit(b"b")[:-len(close(9))])
        self.rows = (0, 0), (5, 1), (8, 2), (11, 3), (12, 4)
        self.timed(*self.rows)

    def continued(self):
        """What is recorded then, and its lines."""
        self.add(close(9) + visit(b"c") + close(0))
        return f"{at(3)} 9 lookup c by a local peer: not registered", f"{at(4)} 11 leave n port 5000"

    def test_with_all_it_prints_first_what_there_is(self):
        running = self.follower("-all")
        self.prints(running, f"{at(0)} 0 start", f"{at(1)} 1 lookup a by a local peer: not registered",
                    f"{at(1)} 4 register n port 5000 creation 4", f"{at(2)} 6 lookup b by a local peer: not registered")
        self.prints(running, *self.continued())

    def test_with_a_time_it_prints_first_what_there_is_since(self):
        running = self.follower("-since", "2024-11-28T00:00:02Z")
        self.prints(running, f"{at(2)} 5 held n port 5000 since {at(1)}", f"{at(2)} 6 lookup b by a local peer: not registered")
        self.prints(running, *self.continued())

    def test_where_nothing_came_since_the_names_that_are_held_are_printed_first(self):
        self.prints(self.follower("-since", "2024-11-28T00:00:50Z"), f"{at(2)} 7 held n port 5000 since {at(1)}")

    def test_it_begins_at_the_end(self):
        self.timed(*self.rows[:2])
        looks = [[]]

        def pause(_):
            """Between two looks. At the first one the last entry waits for its time, and behind the second the file is overwritten."""
            looks.append([])
            if len(looks) == 2:
                self.timed(*self.rows)
                self.continued()
            if len(looks) == 3:
                self.timed((0, 5), (3, 6))
                self.visits("z")
            if len(looks) == 4:
                raise KeyboardInterrupt
        replaced = {"time": unittest.mock.Mock(sleep=pause), "print": lambda line, **_: looks[-1].append(line)}
        self.is_so(self.called("epmd-log", "-f", self.path, **replaced), 0, "", "")
        self.assertEqual(looks[:3], [
            [], [f"{at(3)} 9 lookup c by a local peer: not registered", f"{at(4)} 11 leave n port 5000"],
            [f"{at(5)} 0 start", f"{at(6)} 1 lookup z by a local peer: not registered"]])

    def test_a_list_of_names_that_is_kept_from_json_is_right_after_a_crash(self):
        running = self.follower("-all", "-json")
        names = {}

        def keep(until):
            while True:
                event = json.loads(running.stdout.readline())
                if event["event"] == "register":
                    names[event["name"]] = event["port"]
                if event["event"] == "leave":
                    del names[event["name"]]
                if event["event"] == "lookup" and event["name"] == until:
                    return event
        keep("b")
        self.assertEqual(names, {"n": 5000})
        self.rename("20261128T000001Z", "", ".times")
        self.timed((0, 20), (5, 21))
        self.write(start() + register(0, b"m", 6000) + visit(b"z"))
        self.assertEqual(keep("z")["time"], at(21))
        self.assertEqual(names, {"m": 6000})
