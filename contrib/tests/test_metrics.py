"""What epmd-metrics prints of a port mapper that a test plays, what it counts in recorded bytes, and what its service writes."""
import contextlib
import io
import json
import os
import re
import shlex
import socket
import subprocess
import sys
import threading
import time
import unittest.mock

import programs
from programs import CONTRIB, TOP, closed_port, python, read
from recorded import (ABSENT, IN_USE, NO_ROOM, SCENES, Written, alive, asked, close, connect, late, looked_up, piece, refused, register, sized,
                      start, visit)

DUMP = b"\0\0\x11\x11active name     a at port 1, fd = 3\nactive name     b at port 2, fd = 4\nold/unused name c at port 3, fd = -1\n"
OLD = "epmd_up 0\n"
SILENT = {"epmd_up": 0, "epmd_connections": 0}  # The figures where no port mapper answers.
MISSING = '{result="missing"}'


def figures(text):
    """The values by their names and labels, where each name has its two lines of comment before it."""
    for name in {line.split("{")[0].split(" ")[0] for line in text.splitlines() if not line.startswith("#")}:
        kind = "counter" if name.endswith("_total") else "gauge"
        assert re.search(f"^# HELP {name} .+\n# TYPE {name} {kind}\n{name}[ {{]", text, re.M), name
        assert text.count(f"# TYPE {name} ") == 1, name
    return {line.rsplit(" ", 1)[0]: float(line.rsplit(" ", 1)[1]) for line in text.splitlines() if not line.startswith("#")}


def counts(found):
    """The counters among figures."""
    return {name: value for name, value in found.items() if "_total" in name}


def counters_of_the_daemon():
    """The names of the counters in the file that the daemon writes, as their page has them."""
    return re.search(r"(?s)\n## Counters\n.*?\n```text\n(.*?)\n```\n", read(TOP, "docs", "FORMATS.md"))[1].split("\n")


class Played:
    """A port mapper that answers one request, before which it does something."""

    def __init__(self, answer=DUMP, does=lambda: None):
        self.listener = socket.create_server(("127.0.0.1", 0))
        self.port = self.listener.getsockname()[1]
        self.answer, self.does, self.asked = answer, does, []
        self.thread = threading.Thread(target=self.serve, daemon=True)

    def serve(self):
        stream, _ = self.listener.accept()
        with stream, contextlib.suppress(OSError):
            self.asked.append(stream.recv(16))
            self.does()
            self.answer(stream) if callable(self.answer) else stream.sendall(self.answer)

    def __enter__(self):
        self.thread.start()
        return self

    def __exit__(self, *_):
        self.thread.join(programs.PATIENCE)
        self.listener.close()


class Measured(Written):
    """What calls of epmd-metrics print."""

    def setUp(self):
        super().setUp()
        self.state = self.inside("state")
        self.recorded = "-recording", self.path, "-state", self.state

    def printed(self, *words, port=None, status=0, err="", **env):
        """The text of a call that asks at this port, or at one at which no process listens."""
        return self.ends(python("epmd-metrics", *words), status, re.compile(""), err,
                         env=programs.environment(ERL_EPMD_PORT=str(closed_port(self) if port is None else port), **env))

    def figures(self, *words, **how):
        return figures(self.printed(*words, **how))

    def of_played(self, *words, answer=DUMP, **more):
        """The figures of a port mapper that answers so, and with them how many names are active and retired."""
        with Played(answer, **more) as played:
            found = self.figures(*words, port=played.port)
        self.assertEqual(played.asked, [b"\0\1d"])
        return found, [found.get(f'epmd_names{{state="{state}"}}') for state in ("active", "retired")]


class Metrics(Measured):
    def test_a_port_mapper_that_answers(self):
        found, names = self.of_played()
        self.assertEqual((found["epmd_up"], found["epmd_options_ignored"], names), (1, 0, [2, 1]))
        self.assertTrue(0 < found["epmd_answer_seconds"] < 10)
        self.assertTrue(found["epmd_open_descriptors"] >= 4 and found["epmd_resident_bytes"] > 1_000_000)
        self.assertNotIn("epmd_recording_moves", found)

    def test_names_are_counted_in_each_dump(self):
        for answer, wanted in ((DUMP.replace(b"\n", b"\n\0"), (1, [2, 1])),  # That of Erlang/OTP has a byte 0 behind each line.
                               (DUMP[:4], (1, [0, 0])), (b"\0\0\x11", (0, [None, None])),
                               (DUMP[:4] + b"active name     old/unused name at port 1, fd = 3\nold name c at port 3\n", (1, [1, 0]))):
            found, names = self.of_played(answer=answer)
            self.assertEqual((found["epmd_up"], names), wanted, answer)

    def test_connections_are_those_of_its_own_port(self):
        held = []
        with Played(does=lambda: held.append(socket.create_connection(("127.0.0.1", played.port)))) as played:
            found = self.figures(port=played.port)
        held[0].close()
        self.assertEqual(found["epmd_connections"], 1)

    def holder(self, listener, name):
        """A process of this name that holds a socket."""
        named = f"import time; open('/proc/self/comm', 'w').write('{name}'); print(flush=True); time.sleep(600)"
        process = self.running([sys.executable, "-c", named], programs.PATIENCE, pass_fds=[listener.fileno()])
        process.stdout.readline()
        return process

    def test_the_service_manager_is_not_the_port_mapper(self):
        tool = programs.tool("epmd-metrics")
        with socket.create_server(("127.0.0.1", 0)) as listener:
            port = listener.getsockname()[1]
            own, _ = self.holder(listener, "epmd"), self.holder(listener, "systemd")
        self.assertEqual(tool.process_at(port)[0], f"/proc/{own.pid}")
        own.kill()
        own.wait()
        self.assertIsNone(tool.process_at(port))

    def test_a_process_of_that_name_ignores_its_options(self):
        for name, ignores in (("/usr/lib/epmd-proved/epmd-all-options-ignored", True), ("/usr/lib/epmd-proved/epmd", False)):
            process = self.running([name, "-c", "echo; read line"], executable="/bin/sh", stdin=subprocess.PIPE)
            self.addCleanup(process.stdin.close)
            process.stdout.readline()  # Before it runs it has no words yet.
            self.assertEqual(programs.tool("epmd-metrics").ignores_options(f"/proc/{process.pid}"), ignores)

    def test_a_recording_that_is_not_there_is_named(self):
        said = f"epmd-metrics: no counters: {self.path}: no such recording, or this user can't see it\n"
        self.assertEqual(counts(self.figures(*self.recorded, err=said)), {})

    def test_where_no_port_mapper_answers(self):
        self.assertEqual(self.figures(), SILENT)
        self.write(start())
        tool = programs.tool("epmd-metrics")
        tool.moves = lambda *_: True  # As where another one writes to it.
        values = {name: value for name, _, _, value in tool.figures(closed_port(self), self.path, self.state, None)}
        self.assertEqual(values["epmd_recording_moves"], {"": 0})

    def test_an_answer_that_comes_too_slowly_does_not_count(self):
        def drip(stream):
            for _ in range(40):
                stream.sendall(b"a")
                time.sleep(0.05)
        tool = programs.tool("epmd-metrics")
        for answer, tool.PATIENCE in ((drip, 0.3), (DUMP, programs.PATIENCE)):
            with Played(answer) as played:
                self.assertEqual(tool.dump_of(played.port) is None, answer == drip)

    def test_sockets_are_those_of_both_tables_at_this_port_and_in_this_state(self):
        head = "  sl  local_address rem_address   st tx_queue rx_queue tr tm->when retrnsmt   uid  timeout inode\n"
        row = "   0: {}:{} 00000000:0000 {} 00000000:00000000 00:00000000 00000000     0        0 {} 1\n"
        tables = {"/proc/net/tcp": [("0100007F", "1111", "0A", 1), ("0100007F", "1112", "0A", 2), ("0100007F", "1111", "01", 3)],
                  "/proc/net/tcp6": [("0" * 31 + "1", "1111", "0A", 4), ("0" * 32, "1111", "06", 5)]}
        tool = programs.tool("epmd-metrics")
        for absent, listening, established in ((None, ["1", "4"], ["3"]), ("/proc/net/tcp6", ["1"], ["3"]), ("/proc/net/tcp", ["4"], [])):
            def opened(path):
                if path == absent:
                    raise FileNotFoundError(path)
                return io.StringIO(head + "".join(row.format(*each) for each in tables[path]))
            tool.open = opened
            self.assertEqual([tool.sockets_at(0x1111, state) for state in (tool.LISTENS, tool.ESTABLISHED)], [listening, established])

    def test_its_memory_is_printed_in_bytes(self):
        programs.write(self.inside("status"), "Name:\tepmd\nVmHWM:\t    9000 kB\nVmRSS:\t    1234 kB\nRssAnon:\t     500 kB\n")
        self.assertEqual(programs.tool("epmd-metrics").memory_of(self.folder), 1234 * 1024)

    def test_a_recording_moves_in_its_file_or_into_the_next_one(self):
        for does, moves in ((lambda: self.add(b"more"), 1), (lambda: self.write(b"EPMS", ".1"), 1), (lambda: None, 0)):
            self.write(b"EPMS")
            self.assertEqual(self.of_played(*self.recorded, does=does)[0]["epmd_recording_moves"], moves)


class Published(Measured):
    """The counters of a file that the daemon writes."""

    def published(self, err=""):
        return self.figures("-figures", self.path, err=err)

    def test_each_is_printed_with_its_value(self):
        wanted = {name: value for value, name in enumerate(counters_of_the_daemon(), 1)}
        self.write("".join(f"{name} {value}\n" for name, value in wanted.items()).encode())
        ages = []
        for written in (time.time(), 1, 1e10):
            os.utime(self.path, (written, written))
            found = self.published()
            self.assertEqual(counts(found), wanted)
            ages.append(found["epmd_figures_age_seconds"])
        self.assertTrue(ages[0] < programs.PATIENCE and ages[1] > 1e9 and ages[2] == 0, ages)

    def test_a_line_of_another_text_is_no_counter(self):
        self.write(b"epmd_lists_total 1 2\nepmd_lists_total -1\nepmd_accepted_total\nepmd_other_total 1\nepmd_timeouts_total 7\n")
        self.assertEqual(counts(self.published()), {"epmd_timeouts_total": 7})

    def test_what_is_no_plain_file_is_not_waited_for(self):
        os.mkfifo(self.path)
        for path, *words in ((self.path, "-figures", self.path), ("/dev/zero", "-figures", "/dev/zero"),
                             (self.path, "-recording", self.inside("none"), "-state", self.path)):
            found = self.figures(*words, err=f"epmd-metrics: no counters: {path}: not a plain file\n")
            self.assertEqual({name: found[name] for name in SILENT} | counts(found), SILENT)
        for words in (["-figures"], ["-recording"], []):
            said = re.compile(f"{self.folder} is a folder, not a file\n$")
            self.assertEqual(self.printed(*words, self.folder, status=2, err=said), "")

    def test_a_file_that_cannot_be_read_is_named(self):
        self.assertEqual(self.published(f"epmd-metrics: no counters: {self.path}: No such file or directory\n"), SILENT)
        self.write(b"\xff")
        self.assertEqual(self.published(re.compile("^epmd-metrics: no counters: .+\n$")), SILENT)


class Counted(Measured):
    """The counters, call by call. What is seen is the number of look-ups of names that are not registered."""

    def setUp(self):
        super().setUp()
        self.tool = programs.tool("epmd-metrics")

    def given(self):
        return {name: values for name, _, _, values in self.tool.counters(self.path, self.state)}

    def seen(self):
        return self.given()["epmd_lookups_total"][MISSING]

    def sees(self, *numbers):
        """At one look after the other."""
        self.assertEqual([self.seen() for _ in numbers], list(numbers))

    def test_each_counter_moves_by_what_it_counts(self):
        self.write(start())
        zeros = self.figures(*self.recorded)
        self.add(register(0, b"a") + looked_up(b"a") + visit(b"q") * 2 + refused(b"a", IN_USE) + refused(b"b", NO_ROOM)
                 + asked(4, alive(b"c", 1), local=0) + connect(5) + late(5) + connect(6) + piece(6, b"\0\0", 1) + close(0))
        found = self.figures(*self.recorded)
        self.assertEqual({name: (zeros[name], count) for name, count in counts(found).items()}, {
            'epmd_lookups_total{result="found"}': (0, 1), 'epmd_lookups_total{result="missing"}': (0, 2), "epmd_registrations_total": (0, 1),
            'epmd_refusals_total{reason="in_use"}': (0, 1), 'epmd_refusals_total{reason="no_room"}': (0, 1),
            'epmd_refusals_total{reason="remote"}': (0, 1), "epmd_timeouts_total": (0, 1), "epmd_malformed_total": (0, 1)})
        self.assertEqual(found["epmd_recording_counted"], 1)

    def test_a_file_alone_is_a_recording(self):
        self.visits("a")
        for words in ([self.path], ["-recording", self.path]):
            self.assertEqual(self.figures(*words, "-state", self.state)["epmd_lookups_total" + MISSING], 1)

    def test_health_checks_count_only_where_they_are_asked_for(self):
        self.visits(["a", "epmd-health", "epmd-health-4711"])
        for words, count in (([], 1), (["-health"], 3)):
            self.assertEqual(self.figures(*words, self.path, "-state", self.state + str(count))["epmd_lookups_total" + MISSING], count)

    def test_each_scene_is_counted(self):
        for scene, look, seen in self.scenes(SCENES):
            if look == 0:
                self.state, count = self.path + "-state", 0
            count += sum("gap" not in event for event in seen)
            with self.subTest(scene, look=look):
                self.assertEqual(self.given().get("epmd_lookups_total", {}).get(MISSING, 0), count)

    def test_a_state_of_version_1_1_0_is_read_on(self):
        self.visits(["old"], behind="-20261128T050000Z")
        self.visits("a")
        self.visits("b", 3, ".1", 2)
        kept, first = json.loads(read(self.state)), os.stat(self.path)
        kept["format"], kept["at"]["first"] = 1, ["now", 0, self.path, first.st_ino, first.st_mtime_ns, first.st_size]
        del kept["at"]["passed"], kept["at"]["older"]
        programs.write(self.state, json.dumps(kept))
        self.rename("20261128T060000Z", "", ".1")
        self.visits("c")
        self.sees(3, 3)

    def test_a_recording_that_is_cut_anywhere_is_counted_once(self):
        whole = start() + connect(0) + piece(0, b"\0", 0) + piece(0, b"\2z", 0) + piece(0, b"a", 1, ABSENT) + close(0) + visit(b"b")
        for size in range(len(whole)):
            with self.subTest(size):
                self.write(whole[:size])
                self.given()
                self.add(whole[size:])
                self.sees(2, 2)
                os.remove(self.state)

    def test_a_call_reads_only_what_is_new(self):
        self.visits("a" * 200, sees=200)
        self.tool.BYTES_MOST = len(visit(b"b"))
        self.add(visit(b"b"))
        self.sees(201, 201)
        self.assertEqual(self.given()["epmd_recording_counted"], {"": 1})

    def test_a_call_reads_no_more_than_it_is_to(self):
        self.tool.BYTES_MOST = 1000
        self.visits("a" * 1000)
        with unittest.mock.patch("epmd_recording.CHUNK", 1000), unittest.mock.patch("os.pread", wraps=os.pread) as pread:
            self.assertEqual(self.given()["epmd_recording_counted"], {"": 0})
        self.assertLess(sum(call.args[1] for call in pread.call_args_list), 10_000)

    def test_the_new_state_is_written_beside_the_old_one(self):
        self.visits("a")
        with unittest.mock.patch("os.replace", wraps=os.replace) as replace:
            self.given()
        (new, path), = (call.args for call in replace.call_args_list)
        self.assertEqual((os.path.dirname(new), path), (os.path.dirname(self.state), self.state))

    def test_a_long_recording_is_counted_over_several_calls(self):
        self.tool.BYTES_MOST = 1
        self.visits("a")
        self.visits("b", 3, ".1")
        for _ in range(2):
            self.assertEqual(self.given(), {"epmd_recording_counted": {"": 0}})
        for is_whole, count in ((1, 2), (0, 3)):
            found = self.given()
            self.assertEqual((found["epmd_recording_counted"][""], found["epmd_lookups_total"][MISSING]), (is_whole, count))
            self.add(visit(b"c"), ".1")

    def test_a_run_is_read_to_its_end_over_several_calls(self):
        self.tool.BYTES_MOST = 100
        self.visits("a" * 20)
        with unittest.mock.patch("epmd_recording.CHUNK", 100):
            self.given()
            self.rename("20261128T040632Z", "")
            self.visits("b")
            for _ in range(20):
                self.given()
        self.sees(21)

    def test_a_long_start_is_read_whole(self):
        self.tool.BYTES_MOST = 1
        slots = range(10)
        self.write(start(0, [(bytes([65 + slot]) * 1000, 1, 4, slot) for slot in slots], (), [(slot, 1, 1, b"") for slot in slots]) + visit(b"a"))
        with unittest.mock.patch("epmd_recording.CHUNK", 1000):
            self.given()
            self.given()
        self.sees(1)

    def test_what_was_open_is_known_at_the_next_call(self):
        self.write(start() + connect(0, 0) + piece(0, sized(b"z\xff\xfe")[:4], 0) + register(1, b"a"))
        self.given()
        self.add(piece(0, b"\xfe", 1, ABSENT) + close(0) + close(1), sees=1)
        source = self.tool.Recording(self.path, True)
        self.addCleanup(source.close)
        self.assertEqual([event.event for event in source.events()], ["start", "register", "lookup", "leave"])
        self.assertEqual(json.loads(read(self.state))["at"]["session"], source.session.kept())

    def test_without_its_state_it_begins_again(self):
        self.visits("a")
        self.sees(1, 1)
        list(self.tool.counters(os.path.relpath(self.path), self.state))
        kept = json.loads(read(self.state))
        self.assertEqual(kept["recording"], self.path)
        kept["counts"]["epmd_lookups_total"]["missing"] = 7
        for state in ("", "{", "[]", "{}", json.dumps({**kept, "format": 0}), json.dumps({**kept, "recording": "/another"})):
            programs.write(self.state, state)
            self.sees(1)

    def test_no_recording_has_no_counters(self):
        self.assertEqual(self.given(), {})
        os.mkfifo(self.path)
        self.assertEqual(self.given(), {})
        self.assertFalse(os.path.exists(self.state))

    def test_what_can_not_be_read_or_kept_is_reported(self):
        for data, state in ((b"EPMS\3\0" + bytes(40), self.state), (start(), os.path.join(self.path, "state"))):
            self.write(data)
            found = self.figures("-recording", self.path, "-state", state, err=re.compile("^epmd-metrics: no counters: .+\n$"))
            self.assertEqual((counts(found), found["epmd_up"]), ({}, 0))

    def test_the_state_is_kept_for_its_owner_alone_and_beside_no_recording(self):
        self.write(start())
        state = self.inside("home", "epmd-metrics", self.path.replace("/", "%2F"))
        for _ in range(2):
            self.printed("-recording", self.path, XDG_STATE_HOME=self.inside("home"))
        self.assertEqual(os.listdir(os.path.dirname(state)), [os.path.basename(state)])
        self.assertEqual([os.stat(path).st_mode & 0o777 for path in (os.path.dirname(state), state)], [0o700, 0o600])

    def test_the_state_of_root_outlasts_a_boot(self):
        for user, folder in ((0, "/var/lib"), (1000, "/home/own/.local/state")):
            with unittest.mock.patch("os.geteuid", lambda: user), unittest.mock.patch.dict(os.environ, {"HOME": "/home/own"}):
                os.environ.pop("XDG_STATE_HOME", None)
                self.assertEqual(self.tool.default_state("/a/session"), f"{folder}/epmd-metrics/%2Fa%2Fsession")

    def test_wrong_words_and_help(self):
        for port in ("0", "65536", "70000", "-1", "x", "1" * 10):
            said = f"epmd-metrics: bad port in environment: ERL_EPMD_PORT is '{port}', not a number from 1 to 65535\n"
            self.assertEqual(self.printed(port=port, status=2, err=said), "")
        for port in ("", "65535"):
            self.printed(port=port)
        self.printed("-nothing", status=2, err=re.compile("^usage: epmd-metrics"))
        self.has_help("epmd-metrics", "cd FOLDER && epmd-metrics", "status is 0", "-recording FILE", "-state FILE")


def lines(name):
    """What is behind each key of the service; the last counts."""
    return dict(line.split("=", 1) for line in read(CONTRIB, "units", name).splitlines() if re.match(r"\w+=", line))


class Textfile(Written):
    """What the service writes for a node exporter: the command of its unit, which asks a port mapper that a test plays."""

    def setUp(self):
        super().setUp()
        self.unit = lines("epmd-proved-metrics.service")
        # A blank in its name parts no word.
        self.place = self.inside("node exporter")
        os.mkdir(self.place)

    def call(self, options="", status=0, err="", port=None, place=None):
        """Runs the command as the service manager does, for which two dollars are one."""
        command = self.unit["ExecStart"].replace("$$", "$").replace("/usr/local/bin", CONTRIB)
        env = programs.environment(ERL_EPMD_PORT=str(port or closed_port(self)), EPMD_METRICS=options, EPMD_TEXTFILES=place or self.place)
        self.ends(shlex.split(command), status, err=err, env=env, cwd=self.folder, umask=int(self.unit["UMask"], 8))

    def written(self):
        path = os.path.join(self.place, "epmd.prom")
        self.assertEqual((os.listdir(self.place), os.stat(path).st_mode & 0o777), (["epmd.prom"], 0o644))
        return read(path)

    def test_the_figures_are_there_for_all_to_read(self):
        with Played() as played:
            self.call(port=played.port)
        self.assertEqual(figures(self.written())["epmd_up"], 1)

    def test_each_call_replaces_them_in_one_step(self):
        path = os.path.join(self.place, "epmd.prom")
        programs.write(path, OLD)
        with open(path, encoding="utf-8") as exporter:
            self.call()
            self.assertEqual(exporter.read(), OLD)
        self.assertEqual(figures(self.written()), SILENT)

    def test_the_words_of_the_settings_are_those_of_the_tool(self):
        self.write(start())
        self.call(f"-recording {self.path} -state {self.path}.state")
        self.assertEqual(figures(self.written())["epmd_registrations_total"], 0)

    def test_a_call_that_fails_leaves_the_figures_that_were_there(self):
        self.call()
        before = self.written()
        self.call("-bogus", 2, re.compile("^usage: epmd-metrics"))
        self.assertEqual(read(self.place, "epmd.prom"), before)

    def test_without_the_folder_nothing_is_written(self):
        before = os.listdir(self.folder)
        self.call(status=2, err=re.compile(self.place + "/none"), place=self.place + "/none")
        self.assertEqual(os.listdir(self.folder), before)

    def test_it_may_write_where_it_is_to(self):
        place = re.search(r"EPMD_TEXTFILES=(\S+)", self.unit["Environment"])[1]
        self.assertEqual(self.unit["ReadWritePaths"], "-" + place)
        with unittest.mock.patch("os.geteuid", return_value=0), unittest.mock.patch.dict(os.environ, XDG_STATE_HOME=""):
            kept = programs.tool("epmd-metrics").default_state("session")
        self.assertEqual(kept, f"/var/lib/{self.unit['StateDirectory']}/session")

    def test_it_is_off_until_it_is_enabled_as_the_page_says(self):
        timer = "epmd-proved-metrics.timer"
        self.assertEqual(lines(timer)["WantedBy"], "timers.target")
        self.assertIn(f"\n.Dl systemctl enable --now {timer}\n", read(TOP, "docs", "epmd-metrics.1"))
        for path in ("Makefile", "contrib/debian/preinst", "contrib/debian/postinst"):
            self.assertIsNone(re.search(r"enable\b[^\n]*metrics", read(TOP, path)), path)
