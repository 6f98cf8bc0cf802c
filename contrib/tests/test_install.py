"""`make install`, `uninstall`, `deb` and `client`, and what is told of the program's parts: in a copy of the checkout, with stand-ins for the
program, the client for C, the toolchain and the service manager."""
import glob
import gzip
import hashlib
import json
import os
import re
import shutil
import sys

import programs
from programs import TOP, Case, needs, read, write

PARTS = ["Makefile", "VERSION", "README.md", "CHANGELOG.md", "crates.txt", "contrib", "docs", "include"]
# A small program, and a library, as good as any.
PROGRAM = shutil.which("true")
COMMANDS = ["epmd", "epmd-log", "epmd-metrics", "epmd-prune", "epmd-report"]
UNITS = ["epmd-proved-away.target", "epmd-proved-metrics.service", "epmd-proved-metrics.timer", "epmd-proved-pause@.service",
         "epmd-proved-prune.service", "epmd-proved-prune.timer", "epmd-proved.service", "epmd-proved.service.d/10-proved.conf", "epmd-proved.socket",
         "epmd.service.d/10-proved.conf", "epmd.socket.d/10-proved.conf"]

# Notes its words. Of units that are enabled or masked there are links in ETC, as the service manager has them, and $ACTIVE is what is active.
SYSTEMCTL = """#!/bin/sh
echo "systemctl $*" >> "$NOTES"
case $1 in
    enable) [ -e "$UNITS/$3" ] && ln -sf "$UNITS/$3" "$ETC/$3" ;;
    disable) if [ "$(readlink "$ETC/$3")" != /dev/null ]; then rm -f "$ETC/$3"; fi ;;
    mask) ln -sf /dev/null "$ETC/$2" ;;
    unmask) if [ "$(readlink "$ETC/$2")" = /dev/null ]; then rm "$ETC/$2"; fi ;;
    daemon-reload) ls "$UNITS" > "$NOTES.known" 2> /dev/null; true ;;
    is-active) [ "$3" = "$ACTIVE" ] ;;
esac
"""

RENEW = '#!/bin/sh\necho "renew beside $(cat "$NOTES.known")" >> "$NOTES"\n'

RT = """#!/bin/sh
echo "rt $*" >> "$NOTES"
case $1 in
    version) echo rattle-kit-7 logic 0123 ;;
    doc) echo "$KIT/START.md" ;;
esac
"""


class Checkout(Case):
    def setUp(self):
        super().setUp()
        self.top = self.copy("top")

    def copy(self, name):
        """A checkout with the program made, and nothing else."""
        top = os.path.join(self.folder, name)
        for part in PARTS:
            at = os.path.join(TOP, part)
            copied = shutil.copytree if os.path.isdir(at) else shutil.copy2
            os.makedirs(top, exist_ok=True)
            copied(at, os.path.join(top, part))
        write(os.path.join(top, "contrib", "renew"), RENEW, 0o755)
        os.mkdir(os.path.join(top, "build"))
        shutil.copy(PROGRAM, os.path.join(top, "build", "epmd"))
        return top

    def with_client(self, top=None):
        for name in ["libepmd_client.a", "libepmd_client.so"]:
            shutil.copy(PROGRAM, os.path.join(top or self.top, "build", name))

    def env(self, **more):
        """With no toolchain but a stand-in, and nothing of a `make` around this test."""
        folders = [folder for folder in os.environ["PATH"].split(":") if not os.path.exists(os.path.join(folder, "rt"))]
        return programs.environment(**{"PATH": ":".join([self.bin, *folders]), "NOTES": self.notes, **more})

    def run_in(self, top, *words, umask=0o022, **env):
        return programs.run(words, cwd=top, umask=umask, env=self.env(**env))

    def make(self, *words, top=None, umask=0o022, **env):
        return self.run_in(top or self.top, "make", "--no-print-directory", *words, umask=umask, **env)

    def made(self, *words, **more):
        done = self.make(*words, **more)
        self.assertEqual((done.returncode, done.stderr), (0, ""))
        return done.stdout


def below(root):
    """The files below a folder, each with its mode, and the modes of all folders."""
    files, modes = {}, set()
    for folder, names, others in os.walk(root):
        modes.update(os.stat(os.path.join(folder, name)).st_mode & 0o7777 for name in names)
        for name in others:
            path = os.path.join(folder, name)
            files[os.path.relpath(path, root)] = os.readlink(path) if os.path.islink(path) else os.stat(path).st_mode & 0o7777
    return files, modes


def program_below(prefix):
    return {**{f"{prefix}/bin/{name}": 0o755 for name in COMMANDS[1:]}, f"{prefix}/bin/epmd": "../lib/epmd-proved/wrapper/epmd",
            **{f"{prefix}/lib/epmd-proved/{name}": 0o755 for name in ("wrapper/epmd", "epmd", "pause", "python", "renew", "state-folder")},
            **{f"{prefix}/share/man/man1/{name}.1": 0o644 for name in COMMANDS},
            **{f"{prefix}/lib/systemd/system/{name}": 0o644 for name in UNITS},
            f"{prefix}/lib/epmd-proved/epmd-all-options-ignored": "epmd", f"{prefix}/lib/epmd-proved/epmd_recording.py": 0o644,
            f"{prefix}/lib/epmd-proved/epmd_report.html": 0o644,
            f"{prefix}/share/bash-completion/completions/epmd": 0o644, f"{prefix}/share/zsh/site-functions/_epmd": 0o644,
            **{f"{prefix}/share/bash-completion/completions/{name}": "epmd" for name in COMMANDS[1:]},
            f"{prefix}/share/doc/epmd-proved/README.md": 0o644,
            **{f"{prefix}/share/doc/epmd-proved/examples/{name}": 0o644 for name in ("epmd.json", "epmd.rules.yml")}}


def client_below(prefix):
    return {f"{prefix}/lib/libepmd_client.a": 0o644, f"{prefix}/lib/libepmd_client.so.0": 0o644, f"{prefix}/lib/libepmd_client.so": "libepmd_client.so.0",
            f"{prefix}/lib/pkgconfig/epmd_client.pc": 0o644, f"{prefix}/include/epmd_client.h": 0o644, f"{prefix}/share/man/man3/epmd_client.3": 0o644}


class Install(Checkout):
    def setUp(self):
        super().setUp()
        self.stand_in("rt", RT)
        self.root = os.path.join(self.folder, "root")

    def test_files_and_modes_are_the_same_under_each_umask(self):
        for umask in (0o022, 0o077):
            with self.subTest(umask=oct(umask)):
                self.made("install", f"DESTDIR={self.root}", umask=umask)
                self.assertEqual(below(self.root), (program_below("usr/local"), {0o755}))
                shutil.rmtree(self.root)

    def test_the_client_is_taken_where_it_was_made(self):
        self.with_client()
        self.made("install", f"DESTDIR={self.root}", umask=0o077)
        self.assertEqual(below(self.root), ({**program_below("usr/local"), **client_below("usr/local")}, {0o755}))
        os.remove(os.path.join(self.top, "build", "libepmd_client.so"))
        shutil.rmtree(self.root)
        self.made("install", f"DESTDIR={self.root}")
        self.assertEqual(below(self.root)[0], program_below("usr/local"))

    def test_all_names_the_folder_where_it_lies(self):
        self.with_client()
        self.made("install", f"DESTDIR={self.root}", "PREFIX=/opt/own")
        for name in below(self.root)[0]:
            if not name.startswith("opt/own/share/doc/"):
                with open(os.path.join(self.root, name), "rb") as file:
                    self.assertIsNone(re.search(rb"/usr/local|@[A-Z]+@", file.read()), name)
        units = os.path.join(self.root, "opt/own/lib/systemd/system")
        for service in ("epmd.service", "epmd-proved.service"):
            self.assertIn("epmd=/opt/own/lib/epmd-proved/wrapper/epmd; ", read(os.path.join(units, f"{service}.d", "10-proved.conf")))
        self.assertIn("\n[Unit]\n", read(os.path.join(units, "epmd.socket.d", "10-proved.conf")))
        self.assertNotIn("\n[Service]\n", read(os.path.join(units, "epmd.socket.d", "10-proved.conf")))
        version = read(os.path.join(TOP, "VERSION")).strip()
        self.assertIn("prefix=/opt/own\nlibdir=/opt/own/lib\n", read(os.path.join(self.root, "opt/own/lib/pkgconfig/epmd_client.pc")))
        self.assertEqual(self.run_in("/", os.path.join(self.root, "opt/own/bin/epmd"), "-version").stdout, f"epmd-proved {version}\n")
        done = self.run_in("/", sys.executable, os.path.join(self.root, "opt/own/bin/epmd-log"), "-version")
        self.assertEqual(done.stdout, f"epmd-log {version}\n")
        for unit in ("epmd.service.d", "epmd-proved.service.d"):
            self.assertIn("\nExecStartPre=-+/opt/own/lib/epmd-proved/state-folder\n", read(os.path.join(units, unit, "10-proved.conf")))

    def test_a_tool_without_python3_says_so(self):
        self.made("install", f"PREFIX={self.root}", DESTDIR="")
        for path, status, said in (os.environ["PATH"], 0, ""), ("", 2, "epmd-{}: python3 is missing, which this tool needs\n"):
            for name in COMMANDS[1:]:
                done = self.run_in("/", os.path.join(self.root, "bin", name), "-version", PATH=path)
                self.assertEqual((done.returncode, done.stderr), (status, said.format(name[5:])))

    def test_nothing_is_proved(self):
        self.made("install", f"DESTDIR={self.root}")
        self.assertEqual(self.noted(), [])
        os.remove(os.path.join(self.top, "build", "epmd"))
        for target in ("install", "deb"):
            done = self.make(target, f"DESTDIR={self.folder}/none")
            self.assertEqual(done.returncode, 2)
            self.assertRegex(done.stdout + done.stderr, r"^[^\n]*there is no build/epmd: `make epmd` first[^\n]*\n$")
        self.assertEqual((self.noted(), os.listdir(os.path.join(self.top, "build"))), ([], []))
        self.assertFalse(os.path.exists(os.path.join(self.folder, "none")))

    def test_what_is_missing_ends_it_also_where_it_was_installed_before(self):
        self.made("install", f"DESTDIR={self.root}")
        for part in ("units/epmd-proved.socket", "units/socket.conf", "epmd-log", "renew"):
            path = os.path.join(self.top, "contrib", part)
            os.rename(path, path + ".away")
            self.assertEqual(self.make("install", f"DESTDIR={self.root}").returncode, 2, part)
            os.rename(path + ".away", path)

    def test_what_lies_below_another_folder_is_removed_without_the_service_manager(self):
        self.stand_in("systemctl", SYSTEMCTL)
        self.with_client()
        kept = os.path.join(self.root, "usr/local/lib/systemd/system/other.service")
        write(kept, "")
        self.assertNotIn("systemctl", self.made("install", f"DESTDIR={self.root}").split("install ")[-1])
        self.made("uninstall", f"DESTDIR={self.root}")
        self.assertEqual(below(self.root)[0], {"usr/local/lib/systemd/system/other.service": 0o644})
        self.assertEqual(os.listdir(os.path.dirname(kept)), ["other.service"])
        self.assertEqual(self.noted(), [])


class Machine(Checkout):
    """Installed on the machine itself, and taken away again."""

    def setUp(self):
        super().setUp()
        self.stand_in("systemctl", SYSTEMCTL)
        self.prefix, self.etc = os.path.join(self.folder, "prefix"), os.path.join(self.folder, "etc")
        self.units = os.path.join(self.prefix, "lib/systemd/system")
        os.mkdir(self.etc)

    def on(self, target, active=""):
        return self.made(target, f"PREFIX={self.prefix}", UNITS=self.units, ETC=self.etc, ACTIVE=active)

    def told(self):
        """The commands that the installation tells, where erlang-base is and where it is not."""
        commands = re.findall(r"^    (systemctl .*)$", self.on("install"), re.M)
        self.assertEqual(self.noted(), [])
        return commands

    def do(self, command):
        done = self.run_in("/", "sh", "-c", command, UNITS=self.units, ETC=self.etc)
        self.assertEqual((done.returncode, done.stderr), (0, ""))

    def links(self):
        return {name: os.readlink(os.path.join(self.etc, name)) for name in os.listdir(self.etc)}

    def test_beside_erlang_base_the_one_that_serves_is_ended(self):
        beside, _ = self.told()
        self.do(beside)
        self.assertEqual(self.noted()[0], "systemctl daemon-reload")
        self.assertTrue(self.noted()[1].startswith("renew beside "))
        self.assertEqual(self.links(), {})

    def test_without_it_the_own_socket_is_opened(self):
        _, alone = self.told()
        self.do(alone)
        self.assertEqual(self.noted(), ["systemctl daemon-reload", "systemctl enable --now epmd-proved.socket"])
        self.assertEqual(self.links(), {"epmd-proved.socket": f"{self.units}/epmd-proved.socket"})

    def test_taken_away_it_leaves_nothing_enabled_masked_or_dangling(self):
        _, alone = self.told()
        self.do(alone)
        self.do("systemctl enable --now epmd-proved-prune.timer && systemctl mask epmd.socket")
        said = self.on("uninstall")
        self.assertEqual((self.links(), below(self.prefix)[0]), ({}, {}))
        self.assertIn("systemctl enable --now epmd.socket\n", said)
        self.assertIn("systemctl reset-failed epmd-proved*", self.noted())
        self.assertNotIn("renew", "".join(self.noted()))

    def test_where_erlang_bases_socket_is_open_its_port_mapper_serves_again(self):
        self.on("install")
        said = self.on("uninstall", active="epmd.socket")
        reloaded = self.noted().index("systemctl daemon-reload")
        # Once the service manager knows that the units are gone, and not before.
        self.assertEqual([line for line in self.noted()[reloaded:] if "renew" in line], ["renew beside "])
        self.assertNotIn("renew", "".join(self.noted()[:reloaded]))
        self.assertNotIn("enable --now", said)
        self.assertEqual(below(self.prefix)[0], {})
        self.on("uninstall", active="epmd.socket")


@needs("dpkg-deb", "strip")
class Package(Checkout):
    def sums(self, top):
        packages = {}
        for path in glob.glob(os.path.join(top, "build", "*.deb")):
            with open(path, "rb") as file:
                packages[os.path.basename(path).split("_")[0]] = hashlib.sha256(file.read()).hexdigest()
        return packages

    def listed(self, name):
        package, = glob.glob(os.path.join(self.top, "build", f"{name}_*.deb"))
        lines = self.run_in("/", "dpkg-deb", "--contents", package, TZ="UTC").stdout.splitlines()
        return {line.split(maxsplit=5)[5]: line.split(maxsplit=5) for line in lines}

    def version(self):
        """What the `epmd` of the package says of itself."""
        package, = glob.glob(os.path.join(self.top, "build", "epmd-proved_*.deb"))
        self.run_in("/", "dpkg-deb", "--extract", package, os.path.join(self.folder, "tree"))
        return self.run_in("/", os.path.join(self.folder, "tree/usr/lib/epmd-proved/wrapper/epmd"), "-version").stdout

    def test_the_same_sources_have_the_same_bytes(self):
        self.with_client()
        self.made("deb")
        other = self.copy(os.path.join("another", "folder"))
        self.with_client(other)
        for path in glob.glob(os.path.join(other, "*", "**"), recursive=True):
            os.utime(path, (2_000_000_000, 2_000_000_000))
        self.made("deb", top=other, umask=0o077, TZ="Asia/Tokyo", LC_ALL="C.UTF-8", PREFIX="/other")
        self.assertEqual(set(self.sums(self.top)), {"epmd-proved", "libepmd-client0", "libepmd-client-dev"})
        self.assertEqual(self.sums(self.top), self.sums(other))

    @needs("git")
    def test_their_time_is_that_of_the_commit(self):
        git = ["git", "-c", "user.name=a", "-c", "user.email=a@b.example", "-c", "init.defaultBranch=main", "-c", "commit.gpgsign=false"]
        for words in (["init", "-q"], ["add", "VERSION"], ["commit", "-q", "-m", "a"]):
            self.assertEqual(self.run_in(self.top, *git, *words, GIT_COMMITTER_DATE="1700000000 +0000").returncode, 0)
        self.made("deb")
        self.assertEqual({tuple(line[3:5]) for line in self.listed("epmd-proved").values()}, {("2023-11-14", "22:13")})
        version = read(os.path.join(TOP, "VERSION")).strip()
        commit = self.run_in(self.top, *git, "rev-parse", "HEAD").stdout[:7]
        self.assertEqual(self.version(), f"epmd-proved {version} (commit {commit})\n")
        write(os.path.join(self.top, "VERSION"), "9.9\n")
        self.made("install", f"DESTDIR={self.folder}/changed")
        done = self.run_in("/", os.path.join(self.folder, "changed/usr/local/bin/epmd"), "-version")
        self.assertEqual(done.stdout, f"epmd-proved 9.9 (commit {commit}, changed)\n")
        write(os.path.join(self.top, "VERSION"), version + "\n")
        self.made("deb", SOURCE_DATE_EPOCH="1600000000")
        self.assertEqual({tuple(line[3:5]) for line in self.listed("epmd-proved").values()}, {("2020-09-13", "12:26")})

    def test_the_client_has_packages_of_its_own_where_it_was_made(self):
        self.made("deb")
        self.assertEqual(list(self.sums(self.top)), ["epmd-proved"])
        self.assertFalse([name for name in self.listed("epmd-proved") if "client" in name])
        self.with_client()
        self.made("deb")
        library = "./usr/lib/x86_64-linux-gnu/libepmd_client"
        self.assertEqual([name for name in self.listed("libepmd-client0") if "client." in name], [library + ".so.0"])
        self.assertEqual({name for name in self.listed("libepmd-client-dev") if "_client." in name},
                         {library + ".a", library + ".so -> libepmd_client.so.0", "./usr/lib/x86_64-linux-gnu/pkgconfig/epmd_client.pc",
                          "./usr/include/epmd_client.h", "./usr/share/man/man3/epmd_client.3.gz"})
        package, = glob.glob(os.path.join(self.top, "build", "libepmd-client-dev_*.deb"))
        self.run_in("/", "dpkg-deb", "--extract", package, os.path.join(self.folder, "tree"))
        told = read(os.path.join(self.folder, "tree/usr/lib/x86_64-linux-gnu/pkgconfig/epmd_client.pc"))
        self.assertIn("prefix=/usr\nlibdir=/usr/lib/x86_64-linux-gnu\n", told)
        package, = glob.glob(os.path.join(self.top, "build", "libepmd-client0_*.deb"))
        self.run_in("/", "dpkg-deb", "--control", package, os.path.join(self.folder, "control"))
        self.assertEqual(read(os.path.join(self.folder, "control", "triggers")), "activate-noawait ldconfig\n")
        head, *symbols = read(os.path.join(self.folder, "control", "symbols")).splitlines()
        self.assertEqual(head, "libepmd_client.so.0 libepmd-client0 #MINVER#")
        calls = set(re.findall(r"(?m)^\w+ (epmd_\w+)\(", read(os.path.join(TOP, "include", "epmd_client.h"))))
        self.assertEqual(set(symbols), {f" {call}@Base 1.0.0" for call in calls})

    def test_it_has_the_files_of_an_installation_and_what_a_package_has(self):
        self.stand_in("rt", RT)
        self.made("deb", KIT=self.folder)
        files = {name.replace("usr/lib/systemd", "lib/systemd").replace("site-functions", "vendor-completions"): mode
                 for name, mode in program_below("usr").items()}
        # dpkg deletes a package's files when it likes, and no moment may lack this one: the scripts put it there.
        del files["usr/bin/epmd"]
        files["usr/lib/epmd-proved/stand-in"] = 0o755
        links = {name: to for name, to in files.items() if isinstance(to, str)}
        wanted = {name + (".gz" if "/man/" in name else "") for name in files}
        doc = "usr/share/doc/epmd-proved/"
        wanted |= {"usr/share/lintian/overrides/epmd-proved", *(doc + name for name in ("changelog.gz", "copyright", "epmd-proved.spdx.json"))}
        listed = {name[2:] for name in self.listed("epmd-proved") if not name.endswith("/")}
        wanted -= set(links)
        self.assertEqual(listed, wanted | {f"{name} -> {to}" for name, to in links.items()})
        tree = os.path.join(self.folder, "tree")
        package, = glob.glob(os.path.join(self.top, "build", "*.deb"))
        self.run_in("/", "dpkg-deb", "--raw-extract", package, tree)
        self.assertEqual(self.run_in(tree, "md5sum", "--check", "--quiet", "DEBIAN/md5sums").returncode, 0)
        self.assertEqual(len(read(os.path.join(tree, "DEBIAN", "md5sums")).splitlines()), len(wanted))
        self.assertEqual(read(os.path.join(tree, "DEBIAN", "triggers")), "interest-noawait /usr/lib/erlang\n")
        control = read(os.path.join(tree, "DEBIAN", "control"))
        self.assertNotIn("@", control.replace("epmd@cekhtsoni", ""))
        shutil.rmtree(os.path.join(tree, "DEBIAN"))
        # As Debian's policy has it: each file in whole kibibytes, and one for each folder and each link.
        paths = [os.path.join(folder, name) for folder, _, names in os.walk(tree) for name in names]
        sizes = [1 if os.path.islink(path) else -(-os.path.getsize(path) // 1024) for path in paths]
        self.assertIn(f"\nInstalled-Size: {sum(sizes) + sum(1 for _ in os.walk(tree))}\n", control)

    def test_its_changes_are_those_of_its_version(self):
        self.made("deb")
        tree = os.path.join(self.folder, "tree")
        package, = glob.glob(os.path.join(self.top, "build", "*.deb"))
        self.run_in("/", "dpkg-deb", "--extract", package, tree)
        with gzip.open(os.path.join(tree, "usr/share/doc/epmd-proved/changelog.gz"), "rt", encoding="utf-8") as file:
            told = file.read()
        version = read(os.path.join(TOP, "VERSION")).strip()
        entries = re.search(rf"(?ms)^## {re.escape(version)} \(.*?(?=^## )", read(os.path.join(TOP, "CHANGELOG.md")))[0]
        self.assertTrue(told.startswith(f"epmd-proved ({version}) unstable; "))
        self.assertEqual(told.count("\n  * "), entries.count("\n- "))
        self.assertGreater(entries.count("\n- "), 0)

    def test_the_program_and_the_library_are_stripped(self):
        self.with_client()
        self.stand_in("strip", '#!/bin/sh\necho "strip $*" >> "$NOTES"\n')
        self.made("deb")
        words = [line.split() for line in self.noted() if line.startswith("strip ")]
        self.assertEqual([each[1:-1] for each in words], [[], ["--strip-unneeded"]])
        paths = ["/epmd-proved/usr/lib/epmd-proved/epmd", "/libepmd-client0/usr/lib/x86_64-linux-gnu/libepmd_client.so.0"]
        self.assertEqual([path for each, path in zip(words, paths) if each[-1].endswith(path)], paths)

    def test_without_a_toolchain_it_takes_what_was_told_or_says_that_nothing_is(self):
        self.assertIn("does not list what it is made of", self.made("deb"))
        write(os.path.join(self.top, "build", "epmd-proved.spdx.json"), "{}")
        self.assertNotIn("does not tell", self.made("deb"))
        self.assertIn("./usr/share/doc/epmd-proved/epmd-proved.spdx.json", self.listed("epmd-proved"))


def uses():
    """crates.txt once more."""
    lines = [line.split(":") for line in read(os.path.join(TOP, "crates.txt")).splitlines() if not line.startswith("#")]
    return {name.replace(" staticlib", ""): set(used.split()) for name, used in lines}


class Parts(Checkout):
    """The document that tells of what the program is made."""

    # What crates.txt has the program use of its own crates.
    OWN = {"epmd", "portmap_wire", "portmap_feed", "portmap_table", "portmap_core", "portmap_book", "portmap_link", "portmap_client", "portmap_record",
           "portmap_operator", "portmap_recorder", "portmap_scheduler", "portmap_worker", "portmap_daemon", "portmap_command"}

    # How pages of the kit tell after what a crate is written.
    PAGES = {"slab": "Keys. A port of the Rust crate `slab` 0.4.12 (MIT, `LICENSE`).",
             "itoa": "Text, after the API of the Rust crate `itoa` 1.0.18 (MIT or Apache-2.0, `LICENSE`).",
             "indexmap": "Maps, after the module `map` of the Rust crate `indexmap` 2.0 (MIT or Apache-2.0, taken under MIT, `LICENSE`).",
             "libc": "Calls, ported from the Rust crate `lib-c` 2.0 (MIT or Apache-2.0; both are here).", "mio": "New code."}

    def document(self, **env):
        done = self.run_in(self.top, "contrib/sbom", SOURCE_DATE_EPOCH="1700000000", **env)
        self.assertEqual((done.returncode, done.stderr), (0, ""))
        return json.loads(done.stdout)

    def judged(self, document):
        """The packages by their names, where the document is a whole one."""
        self.assertEqual((document["spdxVersion"], document["dataLicense"], document["SPDXID"]), ("SPDX-2.3", "CC0-1.0", "SPDXRef-DOCUMENT"))
        self.assertEqual(document["creationInfo"]["created"], "2023-11-14T22:13:20Z")
        self.assertTrue(document["documentNamespace"].startswith("https://"))
        self.assertRegex(document["creationInfo"]["creators"][0], r"^Tool: \S+$")
        packages = {package["name"]: package for package in document["packages"]}
        ids = {package["SPDXID"] for package in document["packages"]} | {"SPDXRef-DOCUMENT"}
        self.assertEqual((len(packages) + 1, len(ids)), (len(document["packages"]) + 1, len(document["packages"]) + 1))
        for each in ids:
            self.assertRegex(each, r"^SPDXRef-[A-Za-z0-9.-]+$")
        for package in document["packages"]:
            for field in ("versionInfo", "downloadLocation", "licenseConcluded", "licenseDeclared", "copyrightText"):
                self.assertTrue(package[field], package)
        relations = {(each["spdxElementId"], each["relationshipType"], each["relatedSpdxElement"]) for each in document["relationships"]}
        self.assertIn(("SPDXRef-DOCUMENT", "DESCRIBES", packages["epmd-proved"]["SPDXID"]), relations)
        self.assertIn((packages["epmd-proved"]["SPDXID"], "CONTAINS", packages["epmd"]["SPDXID"]), relations)
        ends = [(one, other) for one, _, other in relations]
        self.assertEqual({end for pair in ends for end in pair} - ids, set())
        self.assertEqual(ids - {end for pair in ends for end in pair}, set())
        return packages

    def edges(self, document):
        names = {package["SPDXID"]: package["name"] for package in document["packages"]}
        found = {}
        for each in document["relationships"]:
            if each["relationshipType"] == "DEPENDS_ON":
                found.setdefault(names[each["spdxElementId"]], set()).add(names[each["relatedSpdxElement"]])
        return found

    def kit(self):
        kit = os.path.join(self.folder, "kit")
        for name, below_it in (("slab", ["std", "os"]), ("std", ["std_io"]), ("std_io", [])):
            for each in below_it:
                os.makedirs(os.path.join(kit, "rlibs", f"{name}.rlib", "below", each))
        for name, page in self.PAGES.items():
            write(os.path.join(kit, "rattle", name, "README.md"), f"# `{name}`\n\n{page}\n")
        notice = "Copyright (c) 2019 Carl Lerche\n\nPermission is hereby granted\nAUTHORS OR COPYRIGHT HOLDERS\n"
        write(os.path.join(kit, "rattle", "slab", "LICENSE"), notice)
        return kit

    def test_each_crate_is_told_with_what_it_uses(self):
        self.stand_in("rt", RT)
        document = self.document(KIT=self.kit())
        packages, own = self.judged(document), uses()
        named = {name for crate in self.OWN for name in own[crate]} - {"portmap_testing"}
        self.assertEqual(named & set(own), self.OWN - {"epmd"})
        self.assertEqual(set(packages), self.OWN | named | {"std", "os", "std_io", "core", "epmd-proved", "rattle-kit"})
        edges = self.edges(document)
        for crate in self.OWN:
            self.assertEqual(edges[crate], own[crate] | {"std"}, crate)
        self.assertEqual((edges["slab"], edges["std"], edges["os"]), ({"std", "os", "core"}, {"std_io", "core"}, {"core"}))

    def test_what_the_kit_tells_is_told_and_nothing_else(self):
        self.stand_in("rt", RT)
        packages = self.judged(self.document(KIT=self.kit()))
        told = {name: (package["licenseDeclared"], package["copyrightText"], package.get("sourceInfo")) for name, package in packages.items()}
        self.assertEqual(told["slab"], ("MIT", "Copyright (c) 2019 Carl Lerche", "After the Rust crate slab 0.4.12"))
        self.assertEqual(told["itoa"], ("MIT OR Apache-2.0", "NOASSERTION", "After the API of the Rust crate itoa 1.0.18"))
        self.assertEqual(told["indexmap"], ("MIT", "NOASSERTION", "After the module map of the Rust crate indexmap 2.0"))
        self.assertEqual(told["libc"], ("MIT OR Apache-2.0", "NOASSERTION", "After the Rust crate lib-c 2.0"))
        self.assertEqual((told["mio"], told["std"]), (("NOASSERTION", "NOASSERTION", None),) * 2)
        self.assertEqual((packages["slab"]["versionInfo"], packages["rattle-kit"]["versionInfo"]), ("rattle-kit-7", "rattle-kit-7 logic 0123"))
        version = read(os.path.join(TOP, "VERSION")).strip()
        self.assertEqual({(packages[name]["versionInfo"], packages[name]["licenseDeclared"]) for name in [*self.OWN, "epmd-proved"]}, {(version, "NONE")})

    @needs("rt")
    def test_the_copyright_of_the_package_has_the_notices_of_the_kit(self):
        done = programs.run([os.path.join(TOP, "contrib", "sbom")], check=True, env=programs.environment(SOURCE_DATE_EPOCH="1700000000"))
        notices = re.sub(r"\s+", " ", read(os.path.join(TOP, "contrib", "debian", "copyright")))
        for name, package in self.judged(json.loads(done.stdout)).items():
            if package["copyrightText"] not in ("NOASSERTION", "Cekhtsoni"):
                self.assertIn(package["copyrightText"], notices)
            if "sourceInfo" in package or package["copyrightText"].startswith("Copyright"):
                self.assertRegex(notices, rf"\b{name}\b")
