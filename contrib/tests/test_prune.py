"""What epmd-prune removes of the files of a recording, and what stays."""
import os
import re
import unittest.mock

import programs
from programs import Case, python

DAY = "s-20261128T"
TIMED = [f"s{number}{times}" for number in ("", ".1", ".2", ".10") for times in ("", ".times")]
RUNS = [f"{DAY}{run}{times}" for run in ("000000Z", "000000Z.1", "000000Za") for times in ("", ".times")] + ["s", "s.times"]
OLDER = [DAY + "000000Z", DAY + "000000Z.1", DAY + "000000Z.10", DAY + "000000Za", DAY + "000000Zaa.2", DAY + "235959Z", "s", "s.1", "s.2"]
LONELY = ["s.times", "s.3.times", DAY + "000000Z.times", DAY + "000000Z.12.times"]
OTHER_TIMES = ["s.01.times", "s.last.times", "s-.times", "t.times", "s.1.times.copy", "s.0.times"]
OTHERS = ["s-", "s-2026", "s-20261128", DAY + "000000", DAY + "000000z", DAY + "000000Zb", DAY + "000000Z.0", "s-.1", "s.-1", "ss", "s.last", "s.01",
          "s.1.last", "t"]
# How many files are kept of these, in the order in which they are written, and which are left. Those at the end are written once more.
LEFT = {
    "the newest": [(2, ["s", "s.1", "s.2", "s.9", "s.10"], ["s.9", "s.10"]), (1, ["s", "s.1"], ["s.1"])],
    "few": [(2, ["s", "s.1"], ["s", "s.1"]), (4, TIMED, TIMED)],
    "times, which are no files of the recording": [
        (2, TIMED, TIMED[4:]), (2, RUNS, RUNS[4:]), (1, ["s", "s.1", "s.1.times", "s.times", "s.times"], ["s.1", "s.1.times"]),
        (1, ["s.times", "s.1.times"], []), (8, ["s.1", *LONELY], ["s.1"])],
    "files of other names": [
        (1, ["s", *OTHERS], ["s", *OTHERS]), (1, ["s", *OTHER_TIMES], ["s", *OTHER_TIMES]), (1, ["s", "s.1", "s.2", "s.last"], ["s.2", "s.last"])],
    "earlier runs": [*((keep, OLDER, OLDER[-keep:]) for keep in (1, 3, 4, 6, 8, 9, 10)), (1, [DAY + "000000Z.3", DAY + "000001Z"], [DAY + "000001Z"])],
    "a file that is overwritten": [
        (2, ["s", "s.1", "s.2", "s.3", "s"], ["s", "s.3"]), (1, ["s", "s.1", "s.2", "s.3", "s", "s.1"], ["s.1", "s.3"])],
}


class Prune(Case):
    def files(self, *names):
        """Empty files, each written later than the one before, in place of those that were there."""
        for name in os.listdir(self.folder):
            os.remove(self.inside(name))
        for time, name in enumerate(names):
            with open(self.inside(name), "w"):
                os.utime(self.inside(name), (time, time))

    def prunes(self, keep="1", files=("s",), status=0, err="", **replaced):
        self.is_so(self.called("epmd-prune", "-keep", keep, *map(self.inside, files), **replaced), status, "", err)
        return sorted(os.listdir(self.folder))

    def test_each_list_of_files(self):
        for what, rows in LEFT.items():
            for keep, names, left in rows:
                self.files(*names)
                self.assertEqual(self.prunes(str(keep)), sorted(left), what)

    def test_no_letter_of_its_name_is_a_pattern(self):
        self.files("s[1]+", "s[1]+.1", "s[1]+.3.times", "s1+", "s1+.3.times")
        self.assertEqual(self.prunes(files=["s[1]+"]), ["s1+", "s1+.3.times", "s[1]+.1"])

    def test_what_is_not_a_recording_is_named_and_the_others_are_pruned(self):
        self.files("s", "s.1")
        self.assertEqual(self.prunes(files=["t", "s"], status=1, err=f"epmd-prune: {self.folder}/t: no such file\n"), ["s.1"])
        self.prunes(files=[""], status=2, err=re.compile(f"\nepmd-prune: error: argument FILE: {self.folder}/ is a folder, not a file\n$"))

    def test_pipes_and_links_are_no_files_of_it(self):
        self.files("s.1")
        os.mkfifo(self.inside("s"))
        for name, to in (("s.2", "s.2"), ("s.3", "nothing"), ("s.bak", "s.bak")):
            os.symlink(to, self.inside(name))
        self.assertEqual(self.prunes(), ["s", "s.1", "s.2", "s.3", "s.bak"])

    def test_where_the_number_is_not_one_from_1_on_nothing_is_removed(self):
        self.files("s", "s.1")
        for keep in ("0", "-1", "", "x", "1.5", " 1", "0000000001"):
            said = f"epmd-prune: nothing is removed: -keep '{keep}' is not a number from 1 on\n"
            self.assertEqual(self.prunes(keep, status=2, err=said), ["s", "s.1"])

    def test_a_file_that_is_removed_meanwhile_is_no_fault(self):
        find = programs.tool("epmd-prune").files_of

        def found_too_late(recording):
            parts = find(recording)
            os.remove(recording)
            return parts
        self.files("s", "s.1", "s.2")
        self.assertEqual(self.prunes(files_of=found_too_late), ["s.2"])

    def test_a_file_that_can_not_be_removed_is_named(self):
        self.files("s", "s.1")
        with unittest.mock.patch("os.remove", side_effect=PermissionError(f"{self.folder}/s: refused")):
            self.prunes(status=1, err=f"epmd-prune: {self.folder}/s: refused\n")

    def test_wrong_words_and_help(self):
        for words in ([], ["-keep", "1"], ["-keep", "x", "s"], ["s"]):
            self.ends(python("epmd-prune", *words), 2, err=re.compile("^(usage: epmd-prune|epmd-prune: )"))
        self.has_help("epmd-prune", "always stays", "status is 0", "-keep N")
