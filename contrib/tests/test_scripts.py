"""The scripts of the package in each order in which dpkg calls them, in a folder in place of the root, with dpkg's own list of diversions and
stand-ins for the service manager. Each is also stopped before each command that changes something, as where the machine stops. And dpkg
itself there, stopped before each of its own renames and deletions."""
import collections
import glob
import os
import re
import shlex
import shutil
import socket
import subprocess
import time

import programs
from programs import CONTRIB, Case, needs, noting, read, write
from test_install import Checkout

# A socket is active unless $CLOSED says otherwise, enabled unless $DISABLED does, and was so unless $WAS_DISABLED does.
SYSTEMCTL = noting({"*is-active*": '[ -z "$CLOSED" ]', "*is-enabled*": '[ -z "$DISABLED" ]', "*was-enabled*": '[ -z "$WAS_DISABLED" ]',
                    r"enable\ epmd-proved.socket": "echo 'Created symlink' >&2"})
RENEW = """#!/bin/sh
echo renew >> "$NOTES"
if [ -n "$IGNORED" ]; then echo 'epmd: -port lacks its value, a number from 1 to 65535; see epmd -help: no option counts'; exit 1; fi
"""
FAILS = "#!/bin/sh\nexit 1\n"
# Notes itself in $CHANGES, and stops the script that calls it where it is the change of number $AT.
STOPS = """#!/bin/sh
if [ -n "$CHANGES" ]; then
    echo >> "$CHANGES"
    if [ "$(wc -l < "$CHANGES")" = "$AT" ]; then kill -KILL $PPID; exit 1; fi
fi
"""
# Ends with 1 at a change of the list where $FULL says that the disk is full. The list has paths below $ROOT, and the scripts have whole paths.
DIVERT = """#!/bin/sh
for word in "$@"; do shift; set -- "$@" "${word#"$ROOT"}"; done
case "$*" in
    *--add* | *--remove*) if [ -n "$FULL" ]; then exit 1; fi ;;
    *) case "$*" in *--truename*) printf %s "$ROOT" ;; esac; exec REAL --instdir "$ROOT" --admindir "$ADMIN" "$@" ;;
esac
""" + STOPS.partition("\n")[2] + 'exec REAL --instdir "$ROOT" --admindir "$ADMIN" "$@"\n'
PLACE, PAGE, LIB = "usr/bin/epmd", "usr/share/man/man1/epmd", "usr/lib/epmd-proved/"
ADDED, STAND_IN = "lib/systemd/system/epmd.service.d/10-proved.conf", LIB + "stand-in"
SAYS = '#!/bin/sh\necho {} "$@"\n'
WRAPPER = f'#!/bin/sh\n[ -x /{LIB}epmd ] && echo ours "$@"\n'
OPTIONS, SCRIPTS = ["-record", "a b"], ("preinst", "postinst", "prerm", "postrm")
# Of each file that matters here what is in it, but for two that are those of the package, in the order of a package's files.
OURS = {ADDED: None, LIB + "epmd": SAYS.format("none"), STAND_IN: None, LIB + "wrapper/epmd": WRAPPER, PAGE + ".1.gz": "ours"}


class Packaged(Checkout):
    """The package in parts, and the root to which it comes."""

    def setUp(self):
        super().setUp()
        self.root, self.admin, self.tree, self.changes = map(self.inside, ("root", "admin", "tree", "changes"))
        self.made("deb")
        package, = glob.glob(os.path.join(self.top, "build", "*.deb"))
        self.run_in("/", "dpkg-deb", "--raw-extract", package, self.tree)
        for path in [*(f"{self.tree}/DEBIAN/{name}" for name in SCRIPTS), os.path.join(self.tree, STAND_IN)]:
            self.assertFalse(re.search("(?m)^@", read(path)), path)
            write(path, self.rooted(read(path)), 0o755)
        for path, text in OURS.items():
            if text is not None:
                write(os.path.join(self.tree, path), self.rooted(text), 0o755)
        for name in ("systemctl", "deb-systemd-helper", "deb-systemd-invoke"):
            self.stand_in(name, SYSTEMCTL)
        self.stand_in("dpkg-divert", DIVERT.replace("REAL", shutil.which("dpkg-divert")))
        for name in ("cp", "ln", "mkdir", "mv", "rm", "rmdir"):
            self.stand_in(name, STOPS + f'exec {shutil.which(name)} "$@"\n')
        self.begin()

    def rooted(self, text):
        return re.sub(r"(?<![\w*./}])/(usr|etc|run|var|lib)/", rf"{self.root}/\1/", text)

    def env(self, **more):
        return super().env(**{"ROOT": self.root, "ADMIN": self.admin, **more})

    def begin(self, with_erlang=True):
        for folder in (self.root, self.admin):
            shutil.rmtree(folder, ignore_errors=True)
        for folder in ("admin/info", "admin/updates", "root/run/systemd/system", "root/usr/share/man/man1", "root/etc"):
            os.makedirs(self.inside(folder))
        write(os.path.join(self.admin, "status"), "")
        write(self.at("usr/bin/other"), "")
        write(self.at("usr/lib/epmd-proved/renew"), RENEW, 0o755)
        if with_erlang:
            self.erlang("erts-13")

    def at(self, path):
        return os.path.join(self.root, path)

    def erlang(self, runtime, before=""):
        """What erlang-base has, as dpkg puts it where nothing, or where the older runtime is."""
        files = {f"usr/lib/erlang/{runtime}/bin/epmd": SAYS.format("theirs"), PAGE + ".1.gz": "theirs"}
        links = {"usr/lib/erlang/bin/epmd": f"../{runtime}/bin/epmd", PLACE: "../lib/erlang/bin/epmd"}
        for path in [*files, *links]:
            to = self.run_in("/", "dpkg-divert", "--truename", self.at(path)).stdout.strip()
            os.makedirs(os.path.dirname(to), exist_ok=True)
            if os.path.lexists(to):
                os.remove(to)
            if path in files:
                write(to, files[path], 0o755)
            else:
                os.symlink(links[path], to)
        if before:
            old = self.at(f"usr/lib/erlang/{before}/bin/epmd")
            os.remove(old + ".erlang" if os.path.lexists(old + ".erlang") else old)

    def call(self, name, *words, at=0, **env):
        """Calls a script. Returns None if it is stopped, which is before its change of this number."""
        self.forget(self.changes)
        counted = {"CHANGES": self.changes, "AT": str(at)} if at else {}
        done = programs.run(["sh", f"{self.tree}/DEBIAN/{name}", *words], env=self.env(**counted, **env))
        return None if done.returncode == -9 else done

    def well(self, name, *words, **env):
        done = self.call(name, *words, **env)
        self.assertEqual((done.returncode, done.stderr), (0, ""), (name, words))
        return done.stdout

    def unpack(self, is_cut=False, each=lambda: None):
        """As dpkg does it: a file takes the place of another one in one step, and that one has a second name until all is well."""
        for path in OURS:
            to = self.at(path)
            if os.path.islink(to):
                os.symlink(os.readlink(to), to + ".dpkg-tmp")
            elif os.path.exists(to):
                os.link(to, to + ".dpkg-tmp")
            write(to + ".dpkg-new", read(os.path.join(self.tree, path)), 0o755)
            os.replace(to + ".dpkg-new", to)
            each()
        for path in OURS:
            kept = self.at(path) + ".dpkg-tmp"
            if os.path.lexists(kept):
                if is_cut:
                    os.replace(kept, self.at(path))
                else:
                    os.remove(kept)
            elif is_cut:
                os.remove(self.at(path))

    def unpacked(self, *words, **how):
        self.well("preinst", *(words or ["install"]))
        self.unpack(**how)

    def install(self, *words, each=lambda: None):
        self.unpacked(*words, each=each)
        self.well("postinst", "configure", "")

    def delete(self, each=lambda: None):
        self.well("prerm", "remove")
        for path in reversed(OURS):
            os.remove(self.at(path))
            each()

    def remove(self, **how):
        self.delete(**how)
        self.well("postrm", "remove")

    def comes_and_goes(self, *words):
        self.install(*words)
        self.goes()

    def goes(self):
        """It is installed, and is removed."""
        self.is_ours()
        self.remove()
        self.is_theirs()

    def who(self, path=PLACE, *words):
        """What is called there, or what a page says."""
        if not os.path.exists(self.at(path)):
            return None
        return read(self.at(path)) if path.endswith(".gz") else self.run_in("/", self.at(path), *words).stdout.strip() or None

    def service(self):
        """What erlang-base's service starts, which has these options."""
        if not os.path.exists(self.at(ADDED)):
            return self.who(PLACE, "-systemd")
        line, = re.findall("(?m)^ExecStart=(.+)", self.rooted(read(self.at(ADDED))))
        words = [word.replace("$$", "$") for word in shlex.split(line)]
        return self.run_in("/", *words[:words.index("$EPMD_OPTIONS")], *OPTIONS).stdout.strip()

    def is_served(self):
        """Each caller that starts a port mapper finds one, and it knows the words with which it is started."""
        self.assertIn((self.who(), self.runtime(), self.service()), [
            (own, runtime, service) for own in ("ours", "theirs") for runtime in ("ours", "theirs")
            for service in ("theirs -systemd", "ours -systemd", "ours -systemd " + " ".join(OPTIONS))])

    def runtime(self, name="erts-13"):
        return self.who(f"usr/lib/erlang/{name}/bin/epmd")

    def is_ours(self):
        self.assertEqual([self.who(), self.who(PAGE + ".1.gz"), self.runtime()], ["ours"] * 3)
        self.assertEqual(self.who(PAGE + ".erlang.1.gz"), "theirs")

    def is_theirs(self):
        """Theirs is at each place, unchanged, and of ours nothing is left."""
        self.assertEqual([self.who(), self.who(PAGE + ".1.gz"), self.runtime()], ["theirs"] * 3)
        self.assertEqual(os.readlink(self.at(PLACE)), "../lib/erlang/bin/epmd")
        self.is_clean()

    def is_clean(self):
        self.assertEqual(self.run_in("/", "dpkg-divert", "--list", "epmd-proved").stdout, "")
        found = [name for _, _, names in os.walk(self.root) for name in names]
        self.assertEqual([name for name in found if "erlang" in name or "dpkg" in name], [])

    def divert(self, path, kept):
        """As a version before this one did it."""
        words = ["--package", "epmd-proved", "--add", "--rename", "--divert", self.at(kept), self.at(path)]
        self.assertEqual(self.run_in("/", "dpkg-divert", *words).returncode, 0)

    def former(self):
        """What version 1.1.0 has at these places."""
        self.begin()
        runtime = "usr/lib/erlang/erts-13/bin/epmd"
        for path, kept in ((PLACE, PLACE + ".erlang"), (PAGE + ".1.gz", PAGE + ".erlang.1.gz"), (runtime, runtime + ".erlang")):
            self.divert(path, kept)
        os.symlink(self.at(PLACE), self.at(runtime))
        for path, text in {PLACE: WRAPPER, LIB + "epmd": SAYS.format("none"), PAGE + ".1.gz": "ours",
                           ADDED: "ExecStart=/usr/bin/epmd -systemd $EPMD_OPTIONS\n"}.items():
            write(self.at(path), self.rooted(text), 0o755)
        self.is_ours()


@needs("dpkg-deb", "dpkg-divert", "strip")
class Scripts(Packaged):

    def stopped(self, name, *words, prepare, after, least=3):
        """Does `after` once the script was stopped before each of its changes, and once it ended."""
        for at in range(1, 50):
            with self.subTest(script=name, words=words, at=at):
                self.begin()
                prepare()
                done = self.call(name, *words, at=at)
                after()
                if done is not None:
                    self.assertEqual((done.returncode, done.stderr, at > least), (0, "", True))
                    return
        self.fail("it does not end")

    def is_mended(self, script, prepare, then, ends, seen=None):
        """Once the script was stopped a port mapper is there, or what is to be seen, and the next call leads to this end."""
        def after():
            (seen or self.is_served)()
            if then:
                self.well(*shlex.split(then))
            ends()
        self.stopped(*shlex.split(script), prepare=prepare, after=after)

    def test_it_comes_and_goes(self):
        self.install(each=self.is_served)
        self.is_ours()
        self.remove(each=self.is_served)
        self.is_theirs()
        self.assertIn("systemctl kill epmd.service", self.noted())

    def test_it_says_where_it_serves_or_what_is_wrong(self):
        self.unpacked()
        self.assertEqual(self.well("postinst", "configure", ""), "epmd: this port mapper serves at epmd-proved.socket: ask it by `epmd -names`, "
                         "look at it by `systemctl status epmd-proved`\n")
        done = self.call("postinst", "configure", "", IGNORED="yes")
        self.assertEqual((done.returncode, done.stdout), (0, ""))
        self.assertRegex(done.stderr, "^epmd: -port lacks its value, a number from 1 to 65535; see epmd -help: no option counts\nepmd: call .*/renew once that is mended\n$")
        for words in (["triggered", "/usr/lib/erlang"], ["abort-upgrade", "2"]):
            self.assertEqual(self.well("postinst", *words), "")

    def noted_of(self, name, *words, **env):
        """What a script of a package that is installed calls of the service manager and of `renew`."""
        self.begin()
        self.unpacked() if words[0] == "configure" else self.install()
        self.forget(self.notes)
        self.well(name, *words, **env)
        return [line for line in self.noted() if "is-" not in line and "was-" not in line]

    def test_the_port_is_served_again_where_its_socket_is_enabled_or_active(self):
        enabled, reload, renew = "deb-systemd-helper enable epmd-proved.socket", "systemctl daemon-reload", "renew"
        stop, start = "systemctl stop epmd-proved.socket epmd-proved.service", "deb-systemd-invoke start epmd-proved.socket"
        state = "deb-systemd-helper update-state epmd-proved.socket"
        for env, wanted in (("", [enabled, reload, renew]), ("DISABLED", [enabled, reload, renew]), ("CLOSED", [enabled, reload, renew, stop, start]),
                            ("CLOSED DISABLED", [enabled, reload]),
                            ("CLOSED DISABLED WAS_DISABLED", [state, reload])):  # An operator's `disable` outlasts an update.
            self.assertEqual(self.noted_of("postinst", "configure", "", **dict.fromkeys(env.split(), "yes")), wanted, env)
        self.assertEqual(self.noted_of("postinst", "triggered", "/usr/lib/erlang"), [reload])

    def test_the_socket_of_erlang_base_is_the_one_that_serves_where_it_is_there(self):
        self.unpacked()
        write(self.at("lib/systemd/system/epmd.socket"), "")
        self.assertIn("serves at epmd.socket: ", self.well("postinst", "configure", ""))
        self.forget(self.notes)
        self.well("postinst", "configure", "", CLOSED="yes")
        self.assertEqual([line for line in self.noted() if "start" in line or "stop" in line],
                         ["systemctl stop epmd-proved.socket epmd-proved.service", "deb-systemd-invoke start epmd.socket"])

    def test_a_removal_ends_the_units_and_an_update_does_not(self):
        stop = "deb-systemd-invoke stop epmd-proved-prune.timer epmd-proved-metrics.timer epmd-proved.socket epmd-proved.service"
        self.assertEqual(self.noted_of("prerm", "remove"), [stop])
        self.assertEqual(self.noted_of("prerm", "upgrade", "2"), [])
        reload, kill = ["systemctl daemon-reload", "systemctl reset-failed epmd-proved*"], ["systemctl kill epmd.service"]
        for words, wanted in ((["remove"], reload + kill), (["disappear", "other", "1"], reload + kill), (["abort-install"], reload),
                              (["upgrade", "2"], [])):
            self.assertEqual(self.noted_of("postrm", *words), wanted, words)

    def test_where_the_service_manager_fails_a_removal_continues(self):
        self.install()
        for name in ("systemctl", "deb-systemd-invoke"):
            self.stand_in(name, FAILS)
        self.goes()

    def test_where_no_service_manager_runs_none_is_called(self):
        for name, *words in ("postinst", "configure", ""), ("prerm", "remove"), ("postrm", "remove"):
            self.begin()
            self.unpack()
            shutil.rmtree(self.at("run/systemd"))
            self.forget(self.notes)
            self.well(name, *words)
            self.assertEqual([line for line in self.noted() if line.startswith(("systemctl", "deb-systemd-invoke", "renew"))], [], name)

    def test_a_purge_leaves_nothing_and_an_update_leaves_recordings(self):
        wants, stamps = "etc/systemd/system/timers.target.wants/", "var/lib/systemd/timers/stamp-"
        kept = ["var/lib/epmd-proved/session", "var/lib/private/epmd-proved/session", "var/lib/epmd-metrics/state",
                "etc/default/epmd-proved", wants + "epmd-proved-prune.timer", wants + "epmd-proved-metrics.timer",
                stamps + "epmd-proved-prune.timer"]
        others = ["var/lib/other/session", "etc/default/other", wants + "other.timer", stamps + "other.timer"]
        for path in kept + others:
            write(self.at(path), "")
        for words in (["remove"], ["upgrade", "2"], ["abort-install"]):
            self.well("postrm", *words)
            self.assertEqual([path for path in kept if not os.path.exists(self.at(path))], [], words)
        self.well("postrm", "purge")
        self.assertEqual([path for path in kept + others if os.path.exists(self.at(path))], others)
        self.assertIn("deb-systemd-helper purge epmd-proved.socket", self.noted())
        self.stand_in("deb-systemd-helper", FAILS)
        self.well("postrm", "purge")

    def test_an_installation_that_is_stopped_leaves_theirs(self):
        self.is_mended("preinst install", lambda: None, "postrm abort-install", self.is_theirs,
                       seen=lambda: self.assertEqual((self.who(), self.runtime()), ("theirs", "theirs")))

    def test_one_that_is_cut_off_leaves_theirs(self):
        def seen():
            self.assertEqual(self.who(), "theirs")
        # It is called again, or the package is installed and removed.
        for then, ends in (("postrm abort-install", self.is_theirs), (None, lambda: self.comes_and_goes("upgrade", "1.0.0"))):
            self.is_mended("postrm abort-install", lambda: (self.unpacked(is_cut=True), seen()), then, ends, seen)

    def test_on_a_full_disk_theirs_stays_and_is_kept_for_later(self):
        self.assertEqual(self.call("preinst", "install", FULL="yes").returncode, 1)
        self.well("postrm", "abort-install")
        self.is_theirs()
        self.unpacked(is_cut=True)
        self.assertEqual(self.call("postrm", "abort-install", FULL="yes").returncode, 1)
        self.assertEqual((self.who(), self.who(PAGE + ".1.gz")), ("theirs", "theirs"))
        # What could not be cleared up is there when the package is installed and removed.
        self.comes_and_goes("upgrade", "1.0.0")

    def test_a_configuration_that_is_stopped_leaves_a_port_mapper(self):
        self.is_mended("postinst configure ''", self.unpacked, "postinst configure ''", self.goes)

    def test_an_update_from_one_that_has_the_place_among_its_files(self):
        """dpkg deletes what the former version has and the new one has not, but what it finds among the new files by another name."""
        def unpack():
            self.unpack()
            self.assertIn(os.lstat(self.at(PLACE)).st_ino, [os.lstat(self.at(path)).st_ino for path in OURS])

        def unpacked():
            self.former()
            self.well("preinst", "upgrade", "1.1.0", "2")
            unpack()

        def broken():
            self.is_ours()
            self.is_served()
            if self.goes_on:
                self.well("preinst", "upgrade", "1.1.0", "2")
                unpack()
                self.well("postinst", "configure", "1.1.0")
            else:
                self.well("postrm", "abort-upgrade", "1.1.0", "2")
                self.assertFalse(os.path.lexists(self.at(LIB + "wrapper")))
                self.is_ours()

        def after():
            self.is_ours()
            self.is_served()
            self.well("postinst", "configure", "1.1.0")
            self.assertFalse(os.path.islink(self.at(LIB + "wrapper")) or os.path.lexists(self.at(LIB + "wrapper.new")))
            self.goes()
        for self.goes_on in (True, False):
            self.stopped("preinst", "upgrade", "1.1.0", "2", prepare=self.former, after=broken, least=1)
        self.stopped("postinst", "configure", "1.1.0", prepare=unpacked, after=after)

    def test_a_release_that_is_packed_beside_it_starts_elsewhere(self):
        """`mix release` copies the folder of the runtime's programs as it is."""
        self.install()
        packed = self.inside("release", "erts-13")
        shutil.copytree(os.path.dirname(os.path.dirname(self.at("usr/lib/erlang/erts-13/bin/epmd"))), packed, symlinks=True)
        program = os.path.join(packed, "bin", "epmd")
        self.assertEqual(self.run_in("/", program, "-daemon").stdout, "ours -daemon\n")
        shutil.rmtree(self.root)
        self.assertEqual(self.run_in("/", program, "-daemon").stdout, "theirs -daemon\n")
        self.assertEqual(self.run_in(os.path.join(packed, "bin"), "./epmd", "-names").stdout, "theirs -names\n")

    @needs("erl", "mix")
    def test_one_of_elixir_starts_a_port_mapper_elsewhere(self):
        self.begin(with_erlang=False)
        say = 'io:format("~s/erts-~s", [code:root_dir(), erlang:system_info(version)]), halt().'
        theirs = self.run_in("/", "erl", "-noshell", "-eval", say).stdout
        runtime = self.at("usr/lib/erlang/" + os.path.basename(theirs))
        shutil.copytree(theirs + "/bin", runtime + "/bin")
        self.install()
        work = self.inside("work")
        write(work + "/mix.exs", f"""defmodule One.MixProject do
  use Mix.Project
  def project, do: [app: :one, version: "1.0.0", releases: [one: [include_erts: "{runtime}"]]]
end
""")
        done = self.run_in(work, "mix", "release", MIX_ENV="prod", HOME=self.folder)
        self.assertEqual(done.returncode, 0, done.stdout + done.stderr)
        shutil.rmtree(self.root)
        release = work + "/_build/prod/rel/one/"
        with socket.socket() as free:
            free.bind(("127.0.0.1", 0))
            port = str(free.getsockname()[1])
        own = self.env(HOME=self.folder, RELEASE_DISTRIBUTION="sname", RELEASE_NODE="one", ERL_EPMD_PORT=port, ERL_EPMD_ADDRESS="127.0.0.1",
                       ERL_AFLAGS="-kernel inet_dist_use_interface {127,0,0,1}")
        with programs.start([release + "bin/one", "start"], env=own, stdin=subprocess.DEVNULL, stdout=subprocess.PIPE, stderr=subprocess.STDOUT) as node:
            ask = [release + os.path.basename(theirs) + "/bin/epmd", "-names"]
            until = time.monotonic() + programs.SILENCE
            while "name one at port" not in (listed := programs.run(ask, env=own).stdout) and node.poll() is None and time.monotonic() < until:
                time.sleep(0.1)
            node.terminate()
            self.assertIn("name one at port", listed, node.communicate(timeout=programs.PATIENCE)[0])
        self.assertEqual(programs.run([*ask[:1], "-kill"], env=own).stdout, "Killed\n")

    def test_an_update_that_breaks_off_keeps_ours(self):
        for breaks in ("prerm upgrade 2; prerm failed-upgrade 1 2; postinst abort-upgrade 2",
                       "preinst upgrade 1 2; postrm abort-upgrade 1 2; postinst abort-upgrade 2",
                       "postrm upgrade 2; postrm failed-upgrade 1 2; preinst abort-upgrade 2; postrm abort-upgrade 1 2; postinst abort-upgrade 2",
                       "prerm deconfigure in-favour a 1 removing b 1; postinst abort-deconfigure in-favour a 1", "postinst triggered /usr/lib/erlang"):
            self.begin()
            self.install()
            for call in breaks.split("; "):
                self.well(*call.split())
                self.is_ours()
            self.goes()

    def test_version_1_0_0_finds_the_runtimes_as_erlang_base_has_them(self):
        self.install()
        for version, runtime in ("1.1.0", "ours"), ("1.0.0", "theirs"):
            self.well("prerm", "upgrade", version)
            self.assertEqual((self.who(), self.runtime()), ("ours", runtime))
        self.well("postinst", "abort-upgrade", "1.0.0")
        self.is_ours()

    def test_a_removal_that_is_stopped_leaves_a_port_mapper_and_is_taken_back(self):
        self.is_mended("prerm remove", self.install, "postinst abort-remove", self.goes)

    def test_a_removal_leaves_no_figures_for_a_node_exporter_and_an_update_does(self):
        folder = "var/lib/prometheus/node-exporter/"
        self.install()
        for name in ("epmd.prom", "other.prom"):
            write(self.at(folder + name), "")
        self.well("prerm", "upgrade", "2")
        self.assertEqual(len(os.listdir(self.at(folder))), 2)
        self.well("prerm", "remove")
        self.assertEqual(os.listdir(self.at(folder)), ["other.prom"])

    def test_a_removal_that_fails_opens_the_own_socket_again_and_the_timers(self):
        self.begin(with_erlang=False)
        self.install()
        self.well("prerm", "remove")
        self.forget(self.notes)
        self.well("postinst", "abort-remove", CLOSED="yes")
        for unit in ("epmd-proved.socket", "epmd-proved-prune.timer", "epmd-proved-metrics.timer"):
            self.assertIn(f"deb-systemd-invoke start {unit}", self.noted())
        self.assertFalse([line for line in self.noted() if "helper" in line or "renew" in line])

    def test_the_end_of_a_removal_that_is_stopped_can_be_done_again(self):
        self.is_mended("postrm remove", lambda: (self.install(), self.delete()), "postrm remove", self.is_theirs)

    def test_where_another_package_has_taken_all_its_files_theirs_is_back(self):
        self.is_mended("postrm disappear other 1", self.install, "postrm disappear other 1", self.is_theirs,
                       seen=lambda: self.assertIn(self.who(), ("ours", "theirs")))

    def test_without_erlang_nothing_is_left(self):
        self.begin(with_erlang=False)
        self.unpacked(is_cut=True)
        self.well("postrm", "abort-install")
        self.is_clean()
        self.install()
        self.assertEqual((self.who(), self.runtime()), ("ours", None))
        self.remove()
        self.assertEqual(self.who(), None)
        self.is_clean()

    def test_erlang_comes_later_has_a_new_runtime_and_goes(self):
        self.begin(with_erlang=False)
        self.install()
        self.erlang("erts-13")
        self.assertEqual((self.who(), self.runtime()), ("ours", "theirs"))
        self.well("postinst", "triggered", "/usr/lib/erlang")
        self.is_ours()
        self.erlang("erts-14", before="erts-13")
        self.well("postinst", "triggered", "/usr/lib/erlang")
        self.assertEqual((self.runtime(), self.runtime("erts-14")), (None, "ours"))
        self.assertFalse(os.path.exists(self.at("usr/lib/erlang/erts-13")))
        self.remove()
        self.assertEqual((self.who(), self.runtime("erts-14")), ("theirs", "theirs"))
        self.is_clean()

    def test_what_an_installation_of_the_first_version_left_is_mended(self):
        for way in (lambda: self.well("postrm", "abort-install"), self.comes_and_goes):
            self.begin()
            for path, kept in ((PLACE, PLACE + ".erlang"), (PAGE + ".1.gz", PAGE + ".erlang.1.gz")):
                self.divert(path, kept)
            self.assertEqual(self.who(), None)
            way()
            self.is_theirs()

    def test_what_the_first_form_masked_and_diverted_is_given_back(self):
        """A link of the operator's stays, and without erlang-base's socket there is nothing to enable."""
        links = [f"etc/systemd/system/{each}" for each in ("epmd.socket", "epmd.service", "multi-user.target.wants/epmd-proved.service")]
        unit = "/lib/systemd/system/epmd-proved.service"
        for has_socket, to, kept in (False, "/opt/epmd.service", links[1:2]), (True, unit, []):
            self.begin()
            for path in (PLACE, PAGE + ".1.gz"):
                self.divert(path, path + ".erlang")
            self.unpack()
            os.makedirs(os.path.dirname(self.at(links[2])))
            for link, of in zip(links, ("/dev/null", to, unit)):
                os.symlink(of, self.at(link))
            if has_socket:
                write(self.at("lib/systemd/system/epmd.socket"), "")
            self.well("preinst", "upgrade", "0.9")
            self.assertEqual([link for link in links if os.path.lexists(self.at(link))], kept)
            self.assertEqual("systemctl --quiet --no-reload enable epmd.socket epmd.service" in self.noted(), has_socket)
            self.unpack()
            self.well("postinst", "configure", "0.9")
            self.goes()


@needs("dpkg", "dpkg-deb", "dpkg-divert", "strip", "strace")
class Cuts(Packaged):
    """dpkg itself, killed before each rename and each deletion that it makes of what is looked at here, and behind it, and called again."""

    def pack(self, tree):
        package = self.inside(os.path.basename(tree) + ".deb")
        self.ends(["dpkg-deb", "--root-owner-group", "-Znone", "--build", tree, package], out=re.compile(""))
        return package

    def dpkg(self, *words, trace="none", at=""):
        """Calls dpkg, which is killed before the call of these that has this number."""
        kill = ["-e", f"inject={trace}:signal=KILL:when={at}"] if at else []
        how = ["--instdir", self.root, "--admindir", self.admin, "--log=/dev/null",
               *(f"--force-{what}" for what in ("script-chrootless", "not-root", "depends", "downgrade", "unsafe-io"))]
        done = self.run_in("/", "strace", "-qq", "-o", self.inside("trace"), "-e", f"trace={trace}", *kill, "dpkg", *how, *words,
                           PATH=f"{self.bin}:{os.environ['PATH']}:/usr/sbin:/sbin")
        if not at:
            self.assertEqual(done.returncode, 0, done.stdout + done.stderr)
        return done.returncode

    def cut(self, *words, prepare, after):
        prepare()
        kept = self.inside("kept")
        shutil.rmtree(kept, ignore_errors=True)
        os.mkdir(kept)
        self.run_in("/", "cp", "-a", self.root, self.admin, kept)
        self.dpkg(*words, trace="rename,unlink,rmdir")
        after()
        number, calls, is_near = collections.Counter(), [], True
        for line in read(self.inside("trace")).splitlines():
            call = line.partition("(")[0]
            number[call] += 1
            if line.endswith(" = 0"):
                was_near, is_near = is_near, any(f"{path}{end}" in line for path in [PLACE, LIB + "wrapper", *OURS] for end in ('"', ".dpkg"))
                calls += [(call, number[call], line)] * (was_near or is_near)
        self.assertGreater(len(calls), 5)
        for call, at, line in calls:
            with self.subTest(words=words, at=line):
                for folder in (self.root, self.admin):
                    shutil.rmtree(folder)
                self.run_in("/", "cp", "-a", *glob.glob(os.path.join(kept, "*")), self.folder)
                self.assertLess(self.dpkg(*words, trace=call, at=at), 0)
                self.is_served()
                self.dpkg(*words)
                after()

    def former_package(self):
        """Version 1.1.0: the place is among its files. What its scripts have done is done by `former`, and at an update they do nothing."""
        tree = self.inside("former")
        shutil.copytree(self.tree, tree, symlinks=True)
        for name in SCRIPTS:
            os.remove(os.path.join(tree, "DEBIAN", name))
        shutil.rmtree(os.path.join(tree, LIB, "wrapper"))
        os.remove(os.path.join(tree, STAND_IN))
        write(os.path.join(tree, PLACE), self.rooted(WRAPPER), 0o755)
        return self.pack(tree)

    def test_it_is_cut_off_anywhere(self):
        if self.run_in("/", "strace", "-o", "/dev/null", "true").returncode:
            self.skipTest("strace may not trace")
        new, former = self.pack(self.tree), self.former_package()

        def is_former():
            self.former()
            self.dpkg("-i", former)

        def is_new():
            self.begin()
            self.dpkg("-i", new)
        self.cut("-i", new, prepare=self.begin, after=self.is_ours)
        self.cut("-i", new, prepare=is_former, after=self.is_ours)
        self.cut("-r", "epmd-proved", prepare=is_new, after=self.is_theirs)


class Pause(Case):
    """What runs between a start that failed and the next one."""

    def test_it_is_short_behind_a_signal_and_says_what_to_do_behind_all_else(self):
        self.stand_in("sleep", {})
        self.stand_in("logger", '#!/bin/sh\ncat >> "$NOTES"\n')
        for result, seconds in ("signal", "0.15"), ("core-dump", "0.15"), ("exit-code", "1"), ("timeout", "1"), ("", "1"):
            write(self.notes, "")
            self.ends([os.path.join(CONTRIB, "pause"), "epmd"], env=self.stood_in(MONITOR_SERVICE_RESULT=result))
            *line, pause = self.noted()
            self.assertEqual(pause, f"sleep {seconds}")
            self.assertEqual(sorted(field for field in line if "SYSTEMD_UNIT" in field or "PRIORITY" in field),
                             [] if seconds != "1" else ["OBJECT_SYSTEMD_UNIT=epmd.service", "PRIORITY=3"])
            self.assertEqual("systemctl stop epmd.socket" in "".join(line), seconds == "1")


class StateFolder(Case):
    """The folder of recordings, which the service makes before a start. Who calls is the service's user here, but for one test."""

    def setUp(self):
        super().setUp()
        self.own, self.former = self.inside("var", "lib", "epmd-proved"), self.inside("var", "lib", "private", "epmd-proved")
        self.users = self.inside("run", "systemd", "dynamic-uid")
        for folder in (self.users, os.path.dirname(self.former)):
            os.makedirs(folder)
        script = read(CONTRIB, "state-folder").replace("/var/lib", os.path.dirname(self.own)).replace("/run/", f"{self.folder}/run/")
        write(self.inside("script"), script)

    def call(self, user=str(os.getuid()), **how):
        self.ends(["sh", self.inside("script")], env=self.stood_in(USER=user), **how)

    def test_it_is_given_to_the_services_user_and_no_link_in_it_is_followed(self):
        self.stand_in("chown", {})
        self.call()
        self.assertEqual(self.noted(), [])
        os.symlink("61234", os.path.join(self.users, "direct:epmd-proved"))
        for user, number in ("61235", "61235"), ("epmd-proved", "61234"):
            self.call(user)
            self.assertEqual(self.noted(), [f"chown -R -h {number}:root {self.own}/"])
            os.remove(self.notes)

    def test_what_is_there_is_not_overwritten(self):
        for folder, text in (self.former, "old"), (self.own, "new"):
            write(os.path.join(folder, "session"), text)
        self.call()
        self.assertEqual([read(folder, "session") for folder in (self.own, self.former)], ["new", "old"])

    def test_it_is_made_for_its_user_alone(self):
        for _ in range(2):
            self.call()
            self.assertEqual((os.stat(self.own).st_mode & 0o7777, os.listdir(self.own)), (0o700, []))
            os.chmod(self.own, 0o700)

    def test_recordings_of_the_first_version_are_moved_into_it(self):
        write(os.path.join(self.former, "session"), "a")
        os.symlink("private/epmd-proved", self.own)
        for _ in range(2):
            self.call()
            self.assertEqual((os.path.islink(self.own), os.listdir(self.own), os.listdir(os.path.dirname(self.former))), (False, ["session"], []))

    def test_a_link_of_the_operators_stays(self):
        os.mkdir(self.inside("disk"))
        os.symlink(self.inside("disk"), self.own)
        self.call()
        self.assertEqual(os.readlink(self.own), self.inside("disk"))

    def test_where_it_cannot_be_made_that_is_said(self):
        write(self.own, "")
        self.call(status=1, err=re.compile("."))
        self.assertEqual(read(self.own), "")


class TryDebian(Case):
    def test_wrong_words_are_answered_with_the_usage_before_anything_is_made(self):
        self.stand_in("debootstrap", "#!/bin/sh\nexit 1\n")
        script, box, package = os.path.join(CONTRIB, "try-debian"), self.inside("box"), self.inside("a.deb")
        write(package, "")
        for words, parts in (([], ""), (["-help"], ""), ([package, "sid"], ""), (["absent.deb"], ""), ([package, "absent.deb"], ""),
                             ([package], "nodes absent")):
            self.ends([script, *words], 2, err=re.compile("\nusage: try-debian PACKAGE.deb "), env=self.stood_in(BOX=box, PARTS=parts))
            self.assertFalse(os.path.exists(box), words)
        done = programs.run([script, package, "trixie"], env=self.stood_in(BOX=box, PARTS="nodes alone"))
        self.assertEqual((done.returncode, os.listdir(box)), (1, ["made"]))
