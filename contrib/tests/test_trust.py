"""What PROVED.md counts and names: what is trusted, public functions without a contract, and what the heads of crates say is not proved."""
import glob
import os
import re
import unittest

from programs import TOP, read

# A public function, up to its body. With clauses, the body begins on a line of its own.
PUBLIC = re.compile(r'(?ms)^( *)pub (?:const )?(?:extern "C" )?fn (\w+)(.*?)(?: \{\}?|^\1\{\}?)$')
UNPROVED = re.compile(r"(?m)^//! # (Not covered|Tested.* only)\n((?://! .+\n)+)")


def flat(text):
    return " ".join(text.split())


def sources(pattern):
    """The texts of files of the crates, by their paths."""
    return {path: read(TOP, path) for path in glob.glob(os.path.join("crates", pattern), root_dir=TOP, recursive=True)}


def part(head):
    """The text of PROVED.md from a head to the next one of its rank."""
    return re.search(rf"(?ms)^## {head}\n(.*?)(?=^## |\Z)", read(TOP, "docs/PROVED.md"))[1]


class Trust(unittest.TestCase):
    def named(self, *texts):
        trusted = flat(part("What you must trust"))
        self.assertEqual([text for text in texts if text not in trusted], [])

    def test_each_use_of_unsafe_is_counted(self):
        code = sources("*/src/**/*.rt")
        counts = {path: text.count("unsafe {") for path, text in code.items() if re.search(r"\bunsafe [{i]", text)}
        files = [path for path, count in counts.items() if count]
        self.named(f"{sum(counts.values())} blocks of `unsafe` in {len(files)} files", *(f"`{os.path.basename(path)}`" for path in counts))
        self.assertEqual(re.findall(r"\bunsafe (?!\{).*", "\n".join(code.values())), ["unsafe impl<T: Send> Send for GhostItems<T> {}"])

    def test_nothing_is_an_axiom(self):
        files = sources("*/[sp]*/**/*.antt") | sources("*/src/**/*.rt")
        self.assertGreater(len(files), 700)
        self.assertEqual([path for path, text in files.items() if re.search(r"(?i)axiom|postulate", text)], [])

    def test_libraries_callers_and_handles_are_named(self):
        lines = [line.partition(":") for line in read(TOP, "crates.txt").splitlines() if not line.startswith("#")]
        used = {name for _, _, uses in lines for name in uses.split()} - {name.split()[0] for name, _, _ in lines}
        self.named(*(f"`{name}`" for name in used | {"std", "std_alloc", "std_collections", "std_heap", "std_io"}))
        exports = sum(text.count("no_mangle") for text in sources("*/src/*.rt").values())
        self.named(f"the {exports} functions of `epmd_client.h`", f"`{read('HANDLES').strip()}`")


class Contracts(unittest.TestCase):
    def test_each_public_function_without_one_is_named(self):
        found = [(os.path.basename(path), name, "ensures" in clauses) for path, text in sources("portmap_*/src/**/*.rt").items()
                 if "_testing/" not in path and "/tests" not in path for _, name, clauses in PUBLIC.findall(text)]
        bare = {(file, name) for file, name, has_one in found if not has_one}
        counted = f"{len(bare)} of {len(found)} public functions"
        self.assertIn(counted, flat(read(TOP, "README.md")))
        listed = re.search(rf"- What {counted} return or change\. (.*?) - ", flat(part("Not proved")))[1]
        groups = re.findall(r"([^()]+) \(`([\w.]+)`\)", listed)
        self.assertEqual({(file, name) for names, file in groups for name in re.findall(r"`(\w+)`", names)}, bare)

    def test_what_is_not_proved_is_what_the_heads_say(self):
        said = {f"`{path.split('/')[1]}`, {title.lower()}: {flat(text.replace('//!', ''))}"
                for path, head in sources("*/src/lib.rt").items() for title, text in UNPROVED.findall(head)}
        self.assertGreater(len(said), 7)
        self.assertEqual({flat(item) for item in re.findall(r"(?m)^- (`portmap_.+(?:\n  .+)*)", part("Not proved"))}, said)
