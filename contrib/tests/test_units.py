"""What the units say to the service manager: lines that must stand there, each with its reason, and no line but those and the hardening."""
import os
import re
import unittest

from programs import CONTRIB, read

UNITS = os.path.join(CONTRIB, "units")

# What the port mapper, and what removes its files, may not do, and what writes figures but in part. Each line is of one of systemd.exec(5),
# where it says more.
HARDENED = """
    LockPersonality=yes MemoryDenyWriteExecute=yes NoNewPrivileges=yes PrivateNetwork=yes PrivateTmp=yes ProcSubset=pid ProtectClock=yes
    ProtectControlGroups=yes ProtectHome=yes ProtectHostname=yes ProtectKernelLogs=yes ProtectKernelModules=yes ProtectKernelTunables=yes
    ProtectProc=invisible ProtectSystem=strict RestrictAddressFamilies=none RestrictNamespaces=yes RestrictRealtime=yes
    RestrictSUIDSGID=yes SystemCallArchitectures=native SystemCallFilter=@system-service UMask=0077
""".split() + ["SystemCallFilter=~@privileged @resources"]

# A start that is tried and fails is followed by a pause. One that is not tried, as where a file of settings is missing, is at once tried again.
LIMITED = ["TriggerLimitIntervalSec=10", "TriggerLimitBurst=200"]

ROWS = {
    "proved.conf": {
        "Unit": [
            "StartLimitIntervalSec=0",  # Starts that fail close no port, however many there are.
            # A pause between a start that failed and the next, which comes at once where a caller waits. It is a unit of its own, since what
            # fails before its first command has no command that waits.
            "OnFailure=epmd-proved-pause@%N.service",
            "After=epmd-proved-pause@%N.service",
        ],
        "Service": [
            "Environment=EPMD_OPTIONS=",  # Without the file of settings there are no options.
            "EnvironmentFile=-/etc/default/epmd-proved",  # The minus: the file need not be there.
            "ExecStartPre=-+/usr/local/lib/epmd-proved/state-folder",  # As root, and a start does not depend on it.
            "ReadWritePaths=-/var/lib/epmd-proved",  # Recordings are written there though all else is read-only. It need not be there.
            "ExecStart=",  # Takes erlang-base's own command away: a service has one.
            # The words without braces, so that they are separate. Where the program has gone what is left does not know them.
            "ExecStart=/bin/sh -c 'epmd=/usr/local/lib/epmd-proved/wrapper/epmd; [ ! -x $$epmd ] || exec $$epmd -systemd \"$$@\"; "
            "exec /usr/bin/epmd -systemd' sh $EPMD_OPTIONS",
            "ExecReload=/bin/sh -c 'kill -HUP $$MAINPID'",
            "SyslogLevel=warning",
            "LimitNOFILE=4096",  # 1,024 connections, the workers and the recording.
            "LimitCORE=0",
            "DevicePolicy=closed",
            "CapabilityBoundingSet=",
            "PrivateUsers=yes",
            "RemoveIPC=yes",
            *HARDENED,
        ],
    },
    "epmd-proved.socket": {
        "Unit": ["ConditionPathExists=!/lib/systemd/system/epmd.socket"],  # Where erlang-base has its socket, ours is not opened.
        "Socket": [
            "ListenStream=4369",
            "BindIPv6Only=both",  # One socket takes peers of IPv4 and of IPv6.
            *LIMITED,
        ],
        "Install": ["WantedBy=sockets.target"],
    },
    "socket.conf": {
        # Ours has ended before erlang-base's socket opens the port.
        "Unit": ["Wants=epmd-proved-away.target", "After=epmd-proved-away.target"],
        "Socket": LIMITED,
    },
    "epmd-proved-away.target": {
        "Unit": ["Conflicts=epmd-proved.socket", "After=epmd-proved.socket"],
    },
    "epmd-proved-pause@.service": {
        "Unit": ["StartLimitIntervalSec=0"],
        "Service": [
            "Type=oneshot",  # What starts after it waits for its end.
            "ExecStart=-/usr/local/lib/epmd-proved/pause %i",
            "LogRateLimitIntervalSec=60",
            "LogRateLimitBurst=1",
            "LogLevelMax=notice",
        ],
    },
    "epmd-proved.service": {
        "Unit": ["Requisite=epmd-proved.socket"],  # Started by hand, it fails where its socket is closed, and opens none of its own.
        "Service": ["DynamicUser=yes"],  # No user is made for it, and it is not root.
        "Install": ["Also=epmd-proved.socket"],
    },
    "epmd-proved-metrics.timer": {
        "Unit": [],
        "Timer": ["OnCalendar=minutely", "AccuracySec=1s"],  # By default it might come a minute late, and then one minute has no figures.
        "Install": ["WantedBy=timers.target"],
    },
    "epmd-proved-metrics.service": {
        "Unit": [],
        "Service": [
            "Type=oneshot",
            "Environment=EPMD_METRICS= EPMD_TEXTFILES=/var/lib/prometheus/node-exporter",  # The folder of Debian's node exporter.
            "EnvironmentFile=-/etc/default/epmd-proved",
            # Each dollar is the shell's, which splits the words and not the folder.
            """ExecStart=/bin/sh -c 'cd "$$EPMD_TEXTFILES" && /usr/local/bin/epmd-metrics $$EPMD_METRICS > epmd.new && mv epmd.new epmd.prom'""",
            "ReadWritePaths=-/var/lib/prometheus/node-exporter",
            "StateDirectory=epmd-metrics",  # Where the counts are kept by default.
            "StateDirectoryMode=0700",
            "SyslogLevel=warning",  # What the tool prints stays in the journal, and that it was called each minute does not.
            "LogLevelMax=notice",
            # Files of other users, and whose descriptors a socket is among.
            "CapabilityBoundingSet=CAP_DAC_OVERRIDE CAP_SYS_PTRACE",
            "IPAddressAllow=localhost",
            "IPAddressDeny=any",
            "PrivateDevices=yes",
            # It asks over the network of the host, and reads /proc/net and the processes of others.
            "RestrictAddressFamilies=AF_INET",
            "UMask=0022",
            *(line for line in HARDENED if not line.startswith(("PrivateNetwork", "ProcSubset", "ProtectProc", "RestrictAddress", "UMask"))),
        ],
    },
    "epmd-proved-prune.timer": {
        "Unit": [],
        "Timer": ["OnCalendar=hourly", "Persistent=yes"],
        "Install": ["WantedBy=timers.target"],
    },
    "epmd-proved-prune.service": {
        # epmd-prune ends with 1 where a recording has no file, which is no failure of a timer.
        "Unit": ["ConditionPathExistsGlob=/var/lib/epmd-proved/session*"],
        "Service": [
            "Type=oneshot",
            "Environment=EPMD_KEEP=8",
            "EnvironmentFile=-/etc/default/epmd-proved",
            "ExecStart=/usr/local/bin/epmd-prune -keep ${EPMD_KEEP} /var/lib/epmd-proved/session",  # With braces, so that it is one word.
            "CapabilityBoundingSet=CAP_DAC_OVERRIDE",  # The files belong to the user of the port mapper.
            "ReadWritePaths=-/var/lib/epmd-proved",
            "PrivateDevices=yes",
            *HARDENED,
        ],
    },
}
# What tells of a unit, and does nothing.
TELLING = "Description=", "Documentation="


def sections(text):
    """The lines of each section in their order, without comments."""
    found = {}
    for line in text.split("\n"):
        if head := re.fullmatch(r"\[(\w+)\]", line):
            lines = found.setdefault(head[1], [])
        elif line and not line.startswith("#"):
            lines.append(line)
    return found


class Units(unittest.TestCase):
    def test_each_unit_says_what_it_must_and_nothing_else(self):
        self.assertEqual(sorted(os.listdir(UNITS)), sorted(ROWS))
        for name, wanted in ROWS.items():
            with self.subTest(unit=name):
                found = sections(read(UNITS, name))
                told = {head: sorted(line for line in lines if not line.startswith(TELLING)) for head, lines in found.items()}
                self.assertEqual(told, {head: sorted(lines) for head, lines in wanted.items()})

    def test_the_order_of_lines_that_add_to_one_another(self):
        """An empty line takes away those before it, and a later file of settings counts more than an earlier line."""
        for name, rows in ROWS.items():
            lines = sections(read(UNITS, name)).get("Service", [])
            for key in ("ExecStart", "Environment", "SystemCallFilter"):
                of_key = [line for line in lines if line.startswith(key)]
                self.assertEqual(of_key, [line for line in rows.get("Service", []) if line.startswith(key)], name)

    def test_there_is_no_restart(self):
        """A restart by the service manager restarts what requires the service. And the port is served where no folder can be made."""
        for name in ROWS:
            text = read(UNITS, name)
            self.assertIsNone(re.search(r"(?m)^Restart\w*=", text), name)
            self.assertEqual("\nStateDirectory=" in text, name == "epmd-proved-metrics.service", name)
