"""What `-audit` says of the files of a recording that the test writes as docs/FORMATS.md has them. Those of a daemon are in
test_recordings.py."""
import contextlib, functools, os, re, struct, threading

from recorded import LONG, RecordCase, write
from records import CLOSED, FAULTED, Mapper
from wire import NAMES, alive

FILES = 17
DEVICE = "epmd: input or output failed\n"
FOLLOWS = "{}.%d does not go on where the file before it ends: another %s\n"


def made(count=FILES, port=4369, seed=0):
    """The files of a recording, each with the offsets of bytes that may be others, the number of its entries, and the size of its start.
    Every file ends with a node, an incomplete request and a connection with its reply; the next one begins with those."""
    mapper, files = Mapper(port=port), []
    for number in range(count):
        base = 10 * (number + seed)
        mapper.worker = 1 + number % 4
        for slot in sorted(mapper.open)[:-3]:
            mapper.close(slot, FAULTED)
        mapper.connect(base)
        mapper.say(base, alive(b"node%d" % base, extra=b"extra" * (number % 3)))
        mapper.asked(base + 1, b"node%d" % base)
        mapper.asked(base + 1, b"none")
        mapper.connect(base + 1, local=number % 2 == 0)
        mapper.say(base + 1, NAMES)
        mapper.connect(base + 2)
        mapper.say(base + 2, b"\0\5zno")
        files.append((bytes(mapper.file), set(mapper.loose), mapper.count, mapper.start_size))
        mapper.begin()
    return files


class AuditCase(RecordCase):
    def setUp(self):
        super().setUp()
        self.files, self.loose, self.counts, self.starts = zip(*made())
        self.write(dict(enumerate(self.files)))

    def write(self, files):
        """Writes files by their numbers; None removes one."""
        for number, data in files.items():
            if data is not None:
                write(self.part(number), data)
            elif os.path.exists(self.part(number)):
                os.remove(self.part(number))

    @contextlib.contextmanager
    def others(self, files):
        """Other bytes in some files meanwhile."""
        self.write(files)
        with self.subTest(files={number: data and data[:20] for number, data in files.items()}):
            yield
        self.write({number: self.files[number] for number in files})

    def is_run(self, numbers=range(FILES), err="", lost=0, **how):
        """These files are a run, whose last entries are lost."""
        count = sum(self.counts[number] for number in numbers) - lost
        self.says("-audit", 0, f"run of {count} entries in {len(numbers)} files\n", err, **how)


class Made(AuditCase):
    def test_runs(self):
        self.is_run()
        for number, count in enumerate(self.counts):
            self.says("-check", 0, f"run of {count} entries\n", path=self.part(number))
        for path in "session", "./session", f"../{os.path.basename(self.folder)}/session":
            self.is_run(path=path, cwd=self.folder)
        os.rename(self.part(16), self.part((1 << 64) - 1))
        self.is_run()
        os.rename(self.part(7), self.path("elsewhere"))
        os.symlink("elsewhere", self.part(7))
        self.is_run()

    def test_files_that_do_not_follow(self):
        place, settings = "place", "configuration"
        rows = [({number: None}, number + 1, place) for number in (1, 9, 15)]
        rows += [({one: self.files[two], two: self.files[one]}, max(one, 1), place) for one, two in ((3, 4), (2, 10), (0, 1), (15, 16))]
        for at in 5, 7, 11, 15:
            data = bytearray(self.files[5])
            data[at] ^= 1
            rows.append(({5: data}, 5, settings))
        rows += [({6: made(port=4370)[6][0]}, 6, settings), ({6: made(seed=FILES)[6][0]}, 6, "state")]
        for files, number, what in rows:
            with self.others(files):
                self.says("-audit", 1, "", FOLLOWS % (number, what))
        with self.others({4: None}):
            self.says("-audit", 1, "", FOLLOWS.replace("{}", "session") % (5, place), path="session", cwd=self.folder)

    def test_bad_records(self):
        rows = [(11, b"text"), (16, b"text"), (2, self.files[2][:4] + b"\3" + self.files[2][5:])]
        rows += [(number, self.files[number][:size]) for number in (0, 8) for size in (len(self.files[number]) - 1, 20, 0)]
        for number, data in rows:
            with self.others({number: data}):
                self.says("-audit", 2, "", f"epmd: {self.part(number)}: bad record\n")

    def test_the_oldest_files_are_gone(self):
        for first in 1, 9, 16:
            self.write(dict.fromkeys(range(first)))
            self.is_run(range(first, FILES), f"epmd: the files before {{}}.{first} are gone\n")

    def test_the_last_file_is_cut(self):
        last, start, all_before = self.files[-1], self.starts[-1], self.counts[-1]
        cut, none = "epmd: {}.16 is cut in an entry\n", "epmd: {}.16 is cut before its first entry\n"
        rows = [(size, FILES - 1, 0, none) for size in (0, 3, 4, 16, 36, 37, start - 1)]
        for size, files, lost, err in (*rows, (len(last) - 1, FILES, 1, cut), (len(last) - 8, FILES, 1, cut), (start, FILES, all_before, ""),
                                       (start + 1, FILES, all_before, cut)):
            with self.others({16: last[:size]}):
                self.is_run(range(files), err, lost)
        self.write(dict.fromkeys(range(1, FILES)))
        self.write({0: self.files[0][:-1]})
        self.is_run(range(1), "epmd: {} is cut in an entry\n", 1)
        self.write({0: self.files[0][:20]})
        self.says("-audit", 2, "", "epmd: {}: bad record\n")

    def test_an_entry_that_may_not_follow(self):
        mapper = Mapper()
        mapper.asked(0, b"a")
        one = bytes(mapper.file)
        mapper.begin()
        mapper.asked(0, b"a")
        mapper.put(CLOSED, struct.pack(">Q", 0))
        mapper.asked(0, b"a")
        self.write({0: one, 1: bytes(mapper.file), **dict.fromkeys(range(2, FILES))})
        self.says("-audit", 1, "", "broken at entry 3 of {}.1\n")
        self.says("-check", 1, "broken at entry 3\n", path=self.part(1))

    def test_names_of_other_files(self):
        for name in (b"session.0", b"session.01", b"session.1x", b"session.x", b"session.", b"session1", b"session.18446744073709551616",
                     b"session.-1", b"session.+1", b"session.1.1", b"session. 1", b"Session.20", b"session.\xff", b"\xff\xfe",
                     b"session\xff.1", b"other.18", "session.\u0661".encode(), b"a\nb"):
            write(os.path.join(os.fsencode(self.folder), name), b"no record")
        self.is_run()

    def test_a_further_file_that_is_not_a_file(self):
        for make in os.mkdir, os.mkfifo, functools.partial(os.symlink, "/dev/zero"), functools.partial(os.symlink, "/none/file"):
            for number in 1, 12, 16:
                with self.subTest(make=make, number=number):
                    os.remove(self.part(number))
                    make(self.part(number))
                    self.says("-audit", 3, "", "epmd: {}.%d: input or output failed\n" % number)
                    os.rmdir(self.part(number)) if make is os.mkdir else os.remove(self.part(number))
                    write(self.part(number), self.files[number])

    def test_the_first_file_is_a_pipe_or_a_folder(self):
        os.remove(self.file)
        os.mkfifo(self.file)
        threading.Thread(target=write, args=(self.file, self.files[0]), daemon=True).start()
        self.is_run()
        os.remove(self.file)
        os.mkdir(self.file)
        self.says("-audit", 3, "", DEVICE + "epmd: {}: is a directory\n")

    def test_no_file_is_there(self):
        self.write(dict.fromkeys(range(FILES)))
        self.says("-audit", 3, "", DEVICE + "epmd: {}: No such file or directory\n")
        self.says("-audit", 3, "", f"{DEVICE}epmd: {self.path('none')}: No such file or directory\n", self.path("none/session"))
        self.write({0: self.files[0]})
        self.says("-audit", 3, "", DEVICE + "epmd: {}: Not a directory\n", self.path("session/session"))


class Changed(AuditCase):
    """One byte of a file is changed. Each change is seen, unless it is of the number of a worker, whether a peer that only asks is local, or
    a name that nobody has."""

    def changed(self, number, step, offset=0):
        """The line names the file, or the next one, which then does not follow."""
        data = self.files[number]
        name, further = re.escape(self.part(number)), re.escape(self.part(number + 1))
        broken = rf"(broken at entry \d+ of {name}|({name}|{further}) does not go on where the file before it ends: another \w+)\n"
        for at in range(offset, len(data), step):
            if at not in self.loose[number]:
                other = bytearray(data)
                other[at] ^= 1
                write(self.part(number), other)
                status, out, err = self.run_epmd("-audit", self.file)
                line = {1: broken, 2: rf"epmd: {name}: bad record\n"}.get(status, "a status of 1 or 2")
                self.assertEqual(out, b"", (number, at))
                self.assertRegex(err.decode(), f"^{line}$", (number, at))
        write(self.part(number), data)

    def test_the_first_and_the_last_file_but_one(self):
        self.changed(0, 3)
        self.changed(15, 3, 2)

    def test_a_file_in_the_middle_and_the_start_of_a_file(self):
        self.changed(9, 3, 1)
        self.changed(12, 1, self.starts[12] - 40)


class Large(RecordCase):
    """Recordings with more than a small one has."""

    def is_run(self, entries, *files):
        for number, data in enumerate(files):
            write(self.part(number), data)
        self.says("-audit", 0, f"run of {entries} entries in {len(files)} files\n")

    def test_many_entries_in_a_file(self):
        mapper, files = Mapper(), []
        for _ in range(2):
            for number in range(4000):
                mapper.asked(number % 9, b"name-that-is-not-there-%d" % number)
            files.append(bytes(mapper.file))
            mapper.begin()
        self.assertGreater(len(files[0]), 300_000)
        self.is_run(24_000, *files)
        self.says("-check", 0, "run of 12000 entries\n")

    def test_a_transcript_of_many_entries(self):
        mapper, lines = Mapper(), []
        for number in range(5000):
            mapper.asked(number % 2, b"x")
            at, slot = 3 * number, number % 2
            lines += [b"%d connect %d local\n" % (at, slot), b"%d piece %d get 00027a78 say 7701 close\n" % (at + 1, slot),
                      b"%d close %d\n" % (at + 2, slot)]
        write(self.file, mapper.file)
        status, out, err = self.run_epmd("-play", self.file)
        self.assertEqual((status, err), (0, b""))
        self.assertTrue(out == b"".join(lines) + b"run of 15000 entries\n")

    def test_a_start_with_many_names_and_connections(self):
        mapper = Mapper(places=5000)
        for number in range(1500):
            mapper.connect(number)
            mapper.say(number, alive(b"gone%d" % number))
            mapper.close(number)
        for number in range(2400):
            mapper.connect(number)
            mapper.say(number, alive(b"name%d" % number) if number < 1200 else b"\0\7zna")
        first, count = bytes(mapper.file), mapper.count
        mapper.begin()
        mapper.asked(3000, b"name700")
        mapper.close(700)
        mapper.asked(3000, b"name700")
        self.assertEqual((len(mapper.active), len(mapper.retired), len(mapper.open)), (1199, 1501, 2399))
        self.is_run(count + mapper.count, first, bytes(mapper.file))
        self.says("-check", 0, "run of 7 entries\n", path=self.part(1))

    def test_a_list_of_many_bytes(self):
        mapper = Mapper(places=5000)
        for number, name in enumerate(LONG):
            mapper.connect(number)
            mapper.say(number, alive(name, extra=bytes(100)))
        for _ in range(10):
            mapper.connect(400)
            mapper.say(400, NAMES)
            mapper.close(400)
        self.assertGreater(len(mapper.file), 3_000_000)
        self.is_run(mapper.count, bytes(mapper.file))
