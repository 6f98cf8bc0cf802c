"""Which processes `renew` ends, that it waits for their end, and what it prints. It has a process table of its own, of processes that the
test started, and stand-ins for the service manager and the port mapper."""
import os
import re
import signal

import programs
from programs import CONTRIB, Case, noting, read, write

STAND_INS = {
    # $ACTIVE is the unit whose socket is open, $LISTEN its addresses.
    "bin/systemctl": noting({'"--quiet is-active $ACTIVE.socket"': "exit 0", "*is-active*": "exit 3", "show*": "printf '%s\\n' \"$LISTEN\""}),
    # It prints what it has behind the cursor alone.
    "bin/journalctl": noting({"*--show-cursor*": "echo '-- cursor: s=1;i=2'", r"*--after-cursor=s=1\;i=2*": 'printf "$SAID"'}),
    # At the call of number $GONE each process that was ended is gone from the table.
    "bin/sleep": noting({"*": 'if [ "$(grep -c "^sleep" "$NOTES")" = "$GONE" ]; then rm -rf "$TABLE"/[0-9]*; fi'}),
    # It answers at the port $ANSWERS, from the call of number $FROM on.
    "lib/epmd": noting({"*": '[ "$2 $3" = "$ANSWERS -names" ] && [ "$(grep -c "^epmd" "$NOTES")" -ge "${FROM:-1}" ]'}),
}
HEAD = "  sl  local_address rem_address   st tx_queue rx_queue tr tm->when retrnsmt   uid  timeout inode\n"
ROW = "   0: {}:{} 00000000:0000 {} 00000000:00000000 00:00000000 00000000     0        0 {} 1\n"
KILL = "systemctl kill epmd.service epmd-proved.service"
ASKS = "epmd -port 4369 -names"
ERLANG, OURS = "usr/lib/erlang/erts-13/bin/epmd", "usr/lib/epmd-proved/epmd"


class Renew(Case):
    def setUp(self):
        super().setUp()
        self.table = self.inside("proc")
        self.rows = {"tcp": [], "tcp6": []}
        for name, text in {**STAND_INS, "lib/renew": read(CONTRIB, "renew").replace("/proc", self.table)}.items():
            write(self.inside(name), text, 0o755)
        os.mkdir(self.table)

    def process(self, program, inode, port="1111", state="0A", table="tcp"):
        """A process that runs this program and has a socket at this port, in this state."""
        process = self.running(["/bin/sleep", "600"], programs.PATIENCE)
        write(self.inside(program), "")
        own = os.path.join(self.table, str(process.pid))
        os.makedirs(own + "/fd")
        for name, to in (("exe", self.inside(program)), ("fd/0", "/dev/null"), ("fd/1", f"socket:[{inode}]")):
            os.symlink(to, os.path.join(own, name))
        self.rows[table].append(ROW.format("00000000", port, state, inode))
        return process

    def renews(self, status=0, out="", err="", active="epmd", listen="[::]:4369 (Stream)", said="", gone=1, **env):
        """A call ends so, and what it has called is noted."""
        self.forget(self.notes)
        for name, rows in self.rows.items():
            write(os.path.join(self.table, "net", name), HEAD + "".join(rows))
        given = {"ACTIVE": active, "LISTEN": listen, "SAID": said, "GONE": str(gone), "ANSWERS": "4369", "TABLE": self.table, **env}
        self.ends(["sh", self.inside("lib", "renew")], status, out, err, env=self.stood_in(**given))

    def asked(self):
        return [line for line in self.noted() if line.startswith(("epmd", "sleep"))]

    def test_it_ends_each_port_mapper_at_the_port_and_nothing_else(self):
        ended = [self.process(ERLANG, 101), self.process("usr/local/lib/epmd-proved/epmd", 102, table="tcp6"),
                 self.process("usr/lib/erlang/erts-14/bin/epmd (deleted)", 103), self.process(OURS + " (deleted)", 104)]
        staying = [self.process(ERLANG, 201, port="1112"), self.process(ERLANG, 202, state="01"),
                   self.process("usr/lib/erlang/erts-13/bin/beam.smp", 203), self.process("usr/bin/other", 204)]
        self.renews()
        self.assertEqual([process.wait(programs.SILENCE) for process in ended], [-signal.SIGTERM] * 4)
        self.assertEqual([process.poll() for process in staying], [None] * 4)

    def test_it_asks_once_the_one_before_has_gone_or_after_a_second(self):
        self.process(ERLANG, 101)
        for gone, sleeps in ((0, 10), (4, 4)):
            self.renews(gone=gone)
            self.assertEqual(self.asked(), ["sleep 0.1"] * sleeps + [ASKS])

    def test_the_services_end_before_anything_is_asked(self):
        for active, status in (("epmd", 0), ("epmd-proved", 0), ("none", 1)):
            self.renews(status, active=active, err=re.compile(""))
            asked = [place for place, line in enumerate(self.noted()) if line.startswith("epmd")]
            self.assertTrue(all(place > self.noted().index(KILL) for place in asked))
            self.assertLess(self.noted().index("journalctl -q -n 0 --show-cursor"), self.noted().index(KILL))

    def test_where_no_socket_is_open_that_is_said(self):
        self.renews(1, err="epmd: neither epmd.socket nor epmd-proved.socket is open, so nobody starts the port mapper but a node\n", active="none")
        self.assertEqual(self.asked(), [])

    def test_it_asks_at_each_port_of_the_socket_that_is_open(self):
        listen = "127.0.0.1:5000 (Stream)\n[::1]:5000 (Stream)\n/run/epmd (Stream)\n[::]:4370 (Stream)\n0.0.0.0:7 (Datagram)"
        for active in ("epmd", "epmd-proved"):
            self.renews(active=active, listen=listen, ANSWERS="5000")
            self.assertIn(f"systemctl show -p Listen --value {active}.socket", self.noted())
            self.assertEqual(self.asked(), ["epmd -port 4370 -names", "epmd -port 5000 -names"])

    def test_one_that_answers_at_the_third_question_serves(self):
        self.renews(FROM="3")
        self.assertEqual(self.asked(), [ASKS, "sleep 0.3"] * 2 + [ASKS])

    def test_one_that_does_not_answer_is_named(self):
        said = "epmd: the port mapper of epmd-proved.service does not answer at 127.0.0.1, or has not taken its options\n"
        self.renews(1, "epmd: polling failed\n", said, active="epmd-proved", said="epmd: polling failed\\n", FROM="4")

    def test_what_the_service_has_said_since_is_printed(self):
        self.renews(out="Started epmd.service.\n", said="Started epmd.service.\\n")
        line, = (line for line in self.noted() if "-o cat" in line)
        self.assertEqual(line, "journalctl -q -o cat -u epmd.service -u epmd.socket --after-cursor=s=1;i=2")
        # What was said is in the journal by then.
        self.assertEqual(self.noted()[self.noted().index(line) - 1], "journalctl --sync")

    def test_options_that_were_not_taken_are_a_failure(self):
        said = "epmd: -port lacks its value, a number from 1 to 65535; see epmd -help: no option counts"
        err = "epmd: the port mapper of epmd.service does not answer at 127.0.0.1, or has not taken its options\n"
        self.renews(1, said + "\n", err, said=said + "\\n")
