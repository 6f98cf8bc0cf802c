"""What the wrapper calls, with a stand-in for the port mapper that notes its words."""
import os
import re
import shutil
import signal
import subprocess
import time

import programs
from programs import CONTRIB, TOP, Case, read, write

WRAPPER = os.path.join(CONTRIB, "epmd")

# Names a word that it does not know and an address that is wrong, does nothing with -once, and notes its words. With -names it ends
# well once it is up, or was asked $UP_AT times. Else it prints what the test has set, and ends or stays.
STAND_IN = """#!/bin/sh
is_once=no
for word in "$@"; do
    case $word in
        -bogus) echo "epmd: unknown word \\"-bogus\\"; see epmd -help" >&2; exit 2 ;;
        *.300) echo "epmd: -address needs IPv4 addresses separated by commas, not \\"$word\\"; see epmd -help" >&2; exit 2 ;;
        -port) is_port_given=yes ;;
        -once) is_once=yes ;;
    esac
done
if [ -z "$is_port_given" ] && [ "$ERL_EPMD_PORT" = x ]; then echo "epmd: ERL_EPMD_PORT needs a number from 1 to 65535" >&2; exit 2; fi
if [ $is_once = yes ]; then exit 0; fi
echo "$@" >> "$FOLDER/words"
for word in "$@"; do
    if [ "$word" = -names ]; then
        if [ "$(grep -c -e -names "$FOLDER/words")" -ge "${UP_AT:-1000}" ]; then exit 0; fi
        [ -e "$FOLDER/up" ]; exit
    fi
done
if [ -n "$TELLS" ]; then echo $$; fi
if [ -n "$LIMITS" ]; then echo "$0 $(ulimit -S -n) $(ulimit -H -n) $MALLOC_ARENA_MAX $MALLOC_MMAP_THRESHOLD_"; fi
if [ -n "$FAILS" ]; then echo "epmd: $FAILS" >&2; exit "${STATUS:-3}"; fi
if [ -n "$STAYS" ]; then
    echo $$ > "$FOLDER/pid.new"
    mv "$FOLDER/pid.new" "$FOLDER/pid"
    /bin/sleep "$DELAY"
    if [ -z "$UP_AT" ]; then touch "$FOLDER/up"; fi
    exec /bin/sleep 60
fi
"""


class Wrapper(Case):
    def setUp(self):
        super().setUp()
        self.program, self.temporary = self.inside("program"), self.inside("temporary")
        write(self.program, STAND_IN, 0o755)
        os.mkdir(self.temporary)

    def staying(self):
        """The process of a program that stays, which ends with the test."""
        while not os.path.exists(os.path.join(self.folder, "pid")):
            time.sleep(0.01)
        pid = int(read(self.inside("pid")))
        self.addCleanup(os.kill, pid, signal.SIGKILL)
        return pid

    def env(self, **env):
        return programs.environment(**{"EPMD": self.program, "FOLDER": self.folder, "DELAY": "0", **env})

    def call(self, *words, wrapper=WRAPPER, **env):
        return programs.run([wrapper, *words], env=self.env(**env))

    def words(self):
        return read(self.inside("words")).splitlines()

    def test_words_are_passed_on(self):
        self.assertEqual(self.call("-port", "5000", "-stop", "a b").returncode, 0)
        self.assertEqual(self.words(), ["-port 5000 -stop a b"])

    def test_its_status_and_its_line_are_those_of_the_program(self):
        for words in ([], ["-kill"]):
            done = self.call(*words, FAILS="out of memory")
            self.assertEqual((done.returncode, done.stderr), (3, "epmd: out of memory\n"))

    def refused(self, line, *words, **env):
        done = self.call(*words, **env)
        self.assertEqual((done.returncode, done.stdout, done.stderr), (2, "", f"epmd: {line}\n"))
        self.assertFalse(os.path.exists(os.path.join(self.folder, "words")))

    BOGUS = 'unknown word "-bogus"; see epmd -help'
    BAD_PORT = 'ERL_EPMD_PORT needs a number from 1 to 65535, not "x"'

    def test_a_bad_word_is_told_as_the_program_tells_it(self):
        self.refused(self.BOGUS, "-d", "-bogus")
        self.refused(self.BOGUS, "-d", "-bogus", ERL_EPMD_ADDRESS="10.0.0.5")
        self.refused(self.BOGUS, "-bogus", "-daemon")
        self.refused(self.BOGUS, "-port", "1", "-bogus", "-names")
        self.refused(self.BOGUS, "-names", "-bogus", ERL_EPMD_ADDRESS="10.0.0.5")

    def test_what_is_bad_in_the_environment_is_told(self):
        for words in [["-d"], ["-names"], ["-address", "10.0.0.5"], ["-address", "10.0.0.300"], ["-bogus"]]:
            for env in {}, {"ERL_EPMD_PORT": "x"}:
                line = 'ERL_EPMD_ADDRESS needs addresses separated by commas, not "10.0.0.300"'
                self.refused(line, *words, ERL_EPMD_ADDRESS="10.0.0.300", **env)
        for env in {}, {"ERL_EPMD_ADDRESS": "10.0.0.5"}, {"ERL_EPMD_ADDRESS": "10.0.0.5", "ERL_EPMD_PORT": "x"}:
            for words in ["-address", "10.0.0.300"], ["-names", "-address", "10.0.0.300"]:
                self.refused('-address needs IPv4 addresses separated by commas, not "10.0.0.300"; see epmd -help', *words, **env)
        for words in ([], ["-names"]):
            self.refused(self.BAD_PORT, *words, ERL_EPMD_PORT="x")

    def test_sockets_of_another_process_are_not_its_own(self):
        path = os.path.join(self.folder, "session")
        for process in ("1", ""):
            self.left("session")
            self.refused(self.BOGUS, "-record", path, "-bogus", LISTEN_PID=process, LISTEN_FDS="1")
            self.assertEqual(self.call("-record", path, LISTEN_PID=process, LISTEN_FDS="1").returncode, 0)
            self.assertEqual(self.files(), ["session"])
            os.remove(os.path.join(self.folder, "words"))

    def handed(self, *words, **env):
        """What it says and calls where sockets are handed over to it."""
        call = ["sh", "-c", 'LISTEN_PID=$$ exec "$@"', "sh", WRAPPER, *words]
        done = programs.run(call, env=self.env(LISTEN_FDS="1", **env))
        self.assertEqual((done.returncode, done.stdout), (0, ""))
        return done.stderr, self.words()

    def test_with_sockets_that_are_handed_over_it_serves_whatever_the_words(self):
        self.assertEqual(self.handed("-systemd", "-d", "-bogus"), (f"epmd: {self.BOGUS}: no option counts\n", [""]))
        self.assertEqual(self.handed("-d", ERL_EPMD_PORT="x"), (f"epmd: {self.BAD_PORT}: no option counts\n", ["", ""]))
        self.assertEqual(self.handed("-d"), ("", ["", "", "-d"]))

    def test_where_no_option_counts_the_process_says_so(self):
        os.symlink("program", os.path.join(self.folder, "epmd-all-options-ignored"))
        call = ["sh", "-c", 'LISTEN_PID=$$ exec "$@"', "sh", WRAPPER]
        for words, name in (["-systemd", "-bogus"], "epmd-all-options-ignored"), (["-names"], "epmd-all-options-ignored"), (["-d"], "program"):
            done = programs.run(call + words, env=self.env(LISTEN_FDS="1", LIMITS="yes"))
            self.assertEqual(os.path.basename(done.stdout.split(" ")[0]), name)

    def limits(self, soft, hard, **env):
        script = f'ulimit -S -n {soft} && ulimit -H -n {hard} && exec "$@"'
        done = programs.run(["sh", "-c", script, "sh", WRAPPER], env=self.env(LIMITS="yes", **env))
        self.assertEqual((done.returncode, done.stderr), (0, ""))
        return done.stdout.split()[1:]

    def test_it_raises_its_limit_of_descriptors_as_far_as_it_may(self):
        for soft, hard, becomes in (("1024", "8192", "4096"), ("1024", "4096", "4096"), ("512", "600", "600"), ("700", "700", "700"), ("5000", "8192", "5000")):
            self.assertEqual(self.limits(soft, hard), [becomes, hard, "1", "131072"])

    def test_all_threads_have_one_heap_unless_it_is_said_otherwise(self):
        for said, becomes in (("4", ["4", "131072"]), ("", ["131072"])):
            self.assertEqual(self.limits("1024", "8192", MALLOC_ARENA_MAX=said)[2:], becomes)
        self.assertEqual(self.limits("1024", "8192", MALLOC_MMAP_THRESHOLD_="")[2:], ["1"])

    def test_the_program_is_called_by_the_path_that_it_has(self):
        place = os.path.join(self.folder, "usr", "lib", "epmd-proved")
        os.makedirs(place)
        os.makedirs(os.path.join(self.folder, "usr", "bin"))
        for here, there in ((WRAPPER, "usr/bin/epmd"), (self.program, "usr/lib/epmd-proved/epmd")):
            shutil.copy(here, os.path.join(self.folder, there))
        done = self.call(wrapper=os.path.join(self.folder, "usr/bin/epmd"), EPMD="", LIMITS="yes")
        self.assertEqual(done.stdout.split()[0], os.path.join(os.path.realpath(place), "epmd"))

    def test_with_such_sockets_no_command_is_carried_out(self):
        self.assertEqual(self.handed("-systemd", "-record", "a", "-names"), ("epmd: -names is a command: no option counts\n", [""]))

    def left(self, name, count=38, written=1000000000):
        with open(os.path.join(self.folder, name), "wb") as file:
            file.write(bytes(count))
        os.utime(os.path.join(self.folder, name), (0, written))

    def files(self):
        return sorted(name for name in os.listdir(self.folder) if name.startswith("session"))

    def test_a_service_keeps_what_the_run_before_has_recorded(self):
        words = ["-record", "other", "-record", os.path.join(self.folder, "session")]
        self.handed(*words)
        self.assertEqual(self.files(), [])
        for number, name in enumerate(("session", "session.1", "session.12")):
            self.left(name, written=999999998 + number)
        self.handed(*words)
        first = [f"session-20010909T014640Z{number}" for number in ("", ".1", ".12")]
        self.assertEqual(self.files(), first)
        self.left("session.3")
        self.left("session.3.copy")
        self.call("-systemd", *words)
        self.assertEqual(self.files(), first + ["session-20010909T014640Za.3", "session.3.copy"])

    def test_the_times_beside_a_recording_are_kept_with_it(self):
        words = ["-record", os.path.join(self.folder, "session")]
        for name in ("session", "session.1", "session.1.times", "session.2", "session.2.times", "session.3.times", "session.times"):
            self.left(name, written=1000000000 + len(name), count=100 + len(name))
        self.handed(*words)
        first = "session-20010909T014649Z"
        kept = [first, f"{first}.1", f"{first}.1.times", f"{first}.2", f"{first}.2.times", f"{first}.times"]
        self.assertEqual(self.files(), [*kept, "session.3.times"])
        self.assertEqual([os.path.getsize(os.path.join(self.folder, name)) for name in kept], [107, 109, 115, 109, 115, 113])

    def test_times_are_no_recording(self):
        words = ["-record", os.path.join(self.folder, "session")]
        self.left("session", count=37)
        for name in ("session.times", "session.1.times"):
            self.left(name, count=64)
        self.handed(*words)
        self.assertEqual(self.files(), ["session", "session.1.times", "session.times"])

    def test_a_pipe_beside_files_stays_where_it_is(self):
        self.left("session")
        os.mkfifo(os.path.join(self.folder, "session.1"))
        self.handed("-record", os.path.join(self.folder, "session"))
        self.assertEqual(self.files(), ["session-20010909T014640Z", "session.1"])

    def test_a_recording_is_left_where_no_option_counts(self):
        self.left("session")
        self.handed("-record", os.path.join(self.folder, "session"), "-bogus")
        self.assertEqual(self.files(), ["session"])

    def test_a_recording_without_an_entry_is_not_kept_nor_one_of_no_service(self):
        self.left("session", count=37)
        words = ["-record", os.path.join(self.folder, "session")]
        self.handed(*words)
        self.left("session")
        self.call(*words)
        self.assertEqual(self.files(), ["session"])
        os.remove(os.path.join(self.folder, "session"))
        os.mkfifo(os.path.join(self.folder, "session"))
        self.handed(*words)
        self.assertEqual(self.files(), ["session"])

    def test_addresses_of_the_environment_are_passed_on(self):
        self.call("-port", "1", ERL_EPMD_ADDRESS="10.0.0.5,10.0.0.6")
        self.assertEqual(self.words(), ["-address 127.0.0.1,10.0.0.5,10.0.0.6 -port 1"])

    def test_addresses_of_IPv6_are_left_out_aloud_but_for_those_that_come_with_others(self):
        done = self.call(ERL_EPMD_ADDRESS="fd09::1,::1,10.0.0.5,::")
        self.assertEqual(self.words(), ["-address 127.0.0.1,10.0.0.5,0.0.0.0"])
        self.assertEqual(done.stderr, "epmd: fd09::1 of ERL_EPMD_ADDRESS is left out\n")
        self.assertEqual(self.call("-kill", ERL_EPMD_ADDRESS="fd09::1").stderr, "")

    def test_where_only_those_are_given_it_listens_on_loopback(self):
        self.call(ERL_EPMD_ADDRESS="::1")
        self.assertEqual(self.words(), ["-address 127.0.0.1"])

    def test_a_daemon_goes_into_the_background_and_is_up_then(self):
        done = self.call("-daemon", "-port", "1", STAYS="yes", DELAY="0.5", TMPDIR=self.temporary)
        self.assertEqual((done.returncode, done.stdout, done.stderr), (0, "", ""))
        self.assertTrue(os.path.exists(os.path.join(self.folder, "up")))
        # It is asked at the port that it has.
        self.assertEqual(set(self.words()), {"-daemon -port 1", "-daemon -port 1 -names"})
        # It runs on, in a session of its own, and holds no input or output of its caller.
        pid = self.staying()
        self.assertEqual(os.getsid(pid), pid)
        self.assertEqual([os.readlink(f"/proc/{pid}/fd/{each}") for each in (0, 1)], ["/dev/null"] * 2)
        self.assertEqual(os.listdir(self.temporary), [])

    def paused(self, **env):
        """The status of a start, and how many seconds of pauses it took: `sleep` ends at once, and notes for how long it was called."""
        self.stand_in("sleep", '#!/bin/sh\necho "$1" >> "$FOLDER/pauses"\n')
        done = self.call("-daemon", STAYS="yes", PATH=f"{self.bin}:{os.environ['PATH']}", **env)
        self.staying()
        return done.returncode, sum(map(float, read(self.inside("pauses")).splitlines()))

    def test_a_start_may_take_its_time(self):
        status, seconds = self.paused(UP_AT="90")
        self.assertEqual(status, 0)
        self.assertGreater(seconds, 4)

    def test_the_wait_for_one_that_never_answers_ends_after_five_seconds(self):
        status, seconds = self.paused(UP_AT="100000")
        self.assertEqual((status, round(seconds)), (3, 5))

    def test_a_daemon_that_fails_is_told(self):
        for folder, status in (self.temporary, 1), ("/none", 3):
            done = self.call("-daemon", FAILS="cannot listen on 0.0.0.0:4369", STATUS=str(status), TMPDIR=folder)
            self.assertEqual((done.returncode, done.stderr), (status, "epmd: cannot listen on 0.0.0.0:4369\n"))
        self.assertEqual(os.listdir(self.temporary), [])

    def test_where_nothing_can_be_written_its_status_is_told(self):
        self.stand_in("mktemp", "#!/bin/sh\nexit 1\n")
        path = f"{self.bin}:{os.environ['PATH']}"
        done = self.call("-daemon", FAILS="polling failed", PATH=path)
        self.assertEqual((done.returncode, done.stderr), (3, "epmd: the start failed with status 3\n"))
        self.assertEqual(self.call("-daemon", STAYS="yes", PATH=path).returncode, 0)
        self.staying()

    def test_where_one_is_up_a_daemon_is_well(self):
        open(os.path.join(self.folder, "up"), "w").close()
        done = self.call("-daemon", FAILS="cannot listen on 0.0.0.0:4369")
        self.assertEqual((done.returncode, done.stderr), (0, ""))

    def test_where_the_service_manager_starts_it_it_stays_in_the_foreground(self):
        done = self.call("-systemd", "-daemon", "-record", "a b", FAILS="polling failed")
        self.assertEqual((done.returncode, done.stderr), (3, "epmd: polling failed\n"))
        self.assertEqual(self.words(), ["-record a b"])

    def test_the_program_is_the_process_that_the_service_manager_started(self):
        process = programs.start([WRAPPER, "-systemd"], stdout=subprocess.PIPE, env=self.env(TELLS="yes"))
        self.assertEqual(process.communicate(timeout=programs.PATIENCE)[0], f"{process.pid}\n")

    def test_a_command_is_asked_in_the_foreground(self):
        self.call("-daemon", "-kill")
        self.assertEqual(self.words(), ["-daemon -kill"])

    def test_it_knows_each_command_of_the_program(self):
        arms = re.findall(r'(.*) => (?:Word::Act\(|Some\(Use::Action\))', read(TOP, "crates", "portmap_command", "src", "items.rt"))
        acts = re.findall(r'"(-\w+)"', " ".join(arms))
        self.assertLessEqual({"-names", "-audit"}, set(acts))
        for word in acts:
            self.assertIn(word, self.call("-help").stdout)
            self.assertEqual(self.call(word, "x", ERL_EPMD_ADDRESS="fe80::1").stderr, "", word)

    def test_it_does_not_call_itself(self):
        self.program = copy = self.inside("epmd")
        write(copy, read(WRAPPER), 0o755)
        for words in ([], ["-daemon"], ["-names"]):
            done = self.call(*words)
            self.assertEqual(done.returncode, 3, words)
            self.assertEqual(done.stderr, f"epmd: {copy} is this wrapper again\n")

    def test_a_program_that_is_missing_is_told(self):
        self.program = os.path.join(self.folder, "none")
        done = self.call()
        self.assertEqual((done.returncode, done.stderr), (3, f"epmd: no port mapper at {self.program}\n"))

    def test_it_tells_its_version_and_its_words(self):
        version = read(TOP, "VERSION").strip()
        for word in ("-version", "--version"):
            self.assertEqual(self.call(word).stdout, f"epmd-proved {version}\n")
        for word in ("-help", "--help", "-h"):
            self.assertIn("-packet_timeout SECONDS", self.call(word).stdout)

    def test_it_does_so_without_a_program(self):
        for word in ("-version", "-help"):
            done = self.call(word, EPMD="/nowhere")
            self.assertEqual((done.returncode, done.stderr), (0, ""))
            self.assertIn("epmd", done.stdout)

    def test_a_command_without_an_output_ends_as_the_program_does(self):
        done = programs.run(["sh", "-c", f"{WRAPPER} -kill >&-"], env=self.env(FAILS="is closed"))
        self.assertEqual((done.returncode, done.stderr), (3, "epmd: is closed\n"))
