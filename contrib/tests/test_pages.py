"""The pages beside the manuals: the files, targets, names and links in them exist, blocks of Rattle are quotations, and pages are short and
narrow."""
import fnmatch
import functools
import glob
import os
import re
import shutil
import unittest

import programs

TOP = os.path.join(os.path.dirname(os.path.abspath(__file__)), "..", "..")
README, DECISIONS, CHANGELOG = "README.md", "docs/DECISIONS.md", "CHANGELOG.md"
# The pages that explain the code: each name in backquotes is a word of the code.
NAMES = "ARCHITECTURE", "CONTRIBUTING", "DECISIONS", "FORMATS", "GLOSSARY", "PROTOCOL", "PROVED", "TESTING"
OF_CODE = [f"docs/{name}.md" for name in NAMES]
PAGES = [README, "docs/INSTALL.md", *OF_CODE]
CRATES = sorted(os.path.relpath(path, TOP) for path in glob.glob(os.path.join(TOP, "crates/*/README.md")))
FIGURES = "bench/RESULTS.md"
# Pages with names that a later version may remove.
OTHERS = [CHANGELOG, "SECURITY.md"]
# Of a line, and of a line of the code.
COLUMNS_MOST, CODE_COLUMNS_MOST = 140, 120
# Lines of a page, and of the README of a crate. Manual pages, changes, figures and SECURITY.md have no limit.
LINES_MOST = {"README.md": 170, "docs/ARCHITECTURE.md": 290, "docs/CONTRIBUTING.md": 440, "docs/DECISIONS.md": 380, "docs/FORMATS.md": 310,
              "docs/GLOSSARY.md": 145, "docs/INSTALL.md": 135, "docs/PROTOCOL.md": 125, "docs/PROVED.md": 400, "docs/TESTING.md": 180}
CRATE_LINES_MOST = 100
# Of the decisions, in words.
WORDS_MOST = 6000
# Of a picture.
PICTURE_BYTES_MOST = 150_000

FOLDERS = ["crates", "contrib", "docs", "bench", "faults", "include", "tests", ".ci", ".github"]
# A name of a page has to be a word of the code in these folders. This file is left out, since its own texts would count.
CODE = ["crates", "contrib", "faults", "tests"]
# Names that are not in our code: one is of Erlang/OTP, the other marks choices of this project in comments.
FOREIGN = {"net_kernel", "profile"}
# Texts of the protocol that look like a path.
TEXTS = {"old/unused"}
# The folders of a crate.
PARTS = "src/", "specs/", "proofs/"
# Comments, by the endings of files. Any other file has those of the shell. Texts without code count as comments.
COMMENTS = {
    (".rt", ".rs", ".c", ".h"): r"/\*[\s\S]*?\*/|//.*",
    (".antt",): r"\{-[\s\S]*?-\}|(?:(?<=\s)|^)--(?=\s|$).*",
    (".py",): r'"""[\s\S]*?"""|(?:(?<=\s)|^)#.*',
    (".story", ".edit", ".md"): r"[\s\S]+",
}
OF_SHELL = r"(?:(?<=\s)|^)#.*"
# Folders that a build makes, and words of a page for any name.
MADE, ANY = ("build", "out", "__pycache__"), ("NAME", "PLAIN_WORDS")
ENDING = re.compile(r"\.(antt|c|conf|edit|h|md|pc|py|rs|rt|story|txt)$|[a-z]\.[13]$")
NAME = re.compile(r"[A-Za-z_]\w*(::\w+)*(\(\))?")
MEMBER = re.compile(r"\b([A-Z]\w*[a-z]\w*)::(\w+)")
CRATE = re.compile(r"\b(portmap_\w+|tests_\w+|epmd|stories|simulation)\b")
LINK = re.compile(r"\]\(([^)#\s]*)(?:#([^)\s]*))?\)")
RUST = re.compile(r"(?ms)^ *```rust\n(.*?)^ *```$")
# The first line of an item of code, or its last line. A quotation may leave out lines between two items.
BEGINS = re.compile(r"(pub|fn|impl|trait|struct|enum|type|const|use|ghost|///?|#\[|\})")


def read(*path):
    with open(os.path.join(TOP, *path), encoding="utf-8", errors="replace") as file:
        return file.read()


def code_of(path, text):
    """A text without its comments."""
    comment = next((comment for endings, comment in COMMENTS.items() if path.endswith(endings)), OF_SHELL)
    return re.sub(comment, "", text, flags=re.M)


def below(folders):
    """Every file and folder below these, except those that a build makes."""
    for folder in folders:
        for here, inner, files in os.walk(os.path.join(TOP, folder)):
            inner[:] = [name for name in inner if name not in MADE]
            for name in inner + files:
                yield os.path.relpath(os.path.join(here, name), TOP)


def spans(page):
    """The texts in backquotes, with the numbers of their lines, and their paragraphs or items."""
    number = 1
    page = re.sub(r"^```.*?^```$", lambda block: "\n" * block[0].count("\n"), page, flags=re.S | re.M)
    for part in re.split(r"(?m)(?=^\s*$|^ *(?:[-*]|\d+\.) |^\|)", page):
        for span in re.finditer(r"`([^`]+)`", part):
            yield number + part.count("\n", 0, span.start()), span[1], part
        number += part.count("\n")


class Checkout:
    """The files, targets and words that pages may name."""

    def __init__(self):
        self.paths = ["/" + path for path in [*below(FOLDERS), *FOLDERS, *os.listdir(TOP)]]
        self.makefile = read("Makefile")
        rules = re.findall(r"(?m)^([\w./-]+(?: [\w./-]+)*):(?!=)", self.makefile)
        self.targets = {target for rule in rules for target in rule.split()}
        own = os.path.relpath(os.path.abspath(__file__), TOP)
        files = [path for path in below(CODE) if os.path.isfile(os.path.join(TOP, path)) and path != own]
        code = [code_of(path, read(path)) for path in ["Makefile", *files]]
        self.words = FOREIGN.union(*(re.findall(r"\w+", text) for text in code))
        self.sources = [read(path) for path in files if path.endswith(".rt")]

    def has(self, path, crates):
        """Whether a path is there. A path that begins with a part of a crate has to be in one of these crates."""
        for word in ANY:
            path = re.sub(rf"(?<![A-Z]){word}(?![A-Z])", "*", path)
        if f"$(PREFIX)/{path}" in self.makefile:
            return True
        fronts = [f"/crates/{crate}/" for crate in crates] if path.startswith(PARTS) else ["*/"]
        return any(fnmatch.fnmatchcase(found, front + path) for found in self.paths for front in fronts)

    def missing_paths(self, page):
        for number, span, part in spans(page):
            for path in (word.strip(",;:").rstrip("/") for word in span.split()):
                is_path = re.fullmatch(r"[\w.*/-]+", path) and ("/" in path or ENDING.search(path)) and not path.startswith(("/", "-"))
                is_path = is_path and path not in TEXTS and ".." not in path
                if is_path and path.split("/")[0] not in MADE and not self.has(path, CRATE.findall(part)):
                    yield number, path

    def missing_targets(self, page):
        """Of `make` in backquotes and at the beginnings of indented lines."""
        said = [(number, span) for number, span, _ in spans(page)]
        said += [(number, line) for number, line in enumerate(page.split("\n"), 1) if line.startswith("    ")]
        for number, text in said:
            for words in re.findall(r"\bmake((?: +[\w./=-]+)+)", text.split("  #")[0]):
                for word in re.sub(r"-C +\S+", "", words).split():
                    if "=" not in word and word not in self.targets:
                        yield number, word

    def missing_names(self, page):
        for number, span, _ in spans(page):
            if NAME.fullmatch(span):
                yield from ((number, word) for word in re.findall(r"\w+", span) if word not in self.words)

    def missing_members(self, page):
        """Functions and variants of a type, as `Desk::close`, that no file of the type has."""
        for found in MEMBER.finditer(page):
            if not self.has_member(found[1], found[2]):
                yield 1 + page.count("\n", 0, found.start()), found[0]

    @functools.cache
    def has_member(self, name, member):
        of_type = re.compile(rf"\b(?:struct|enum|trait|impl(?:<[^>]*>)?(?:\s+\w+\s+for)?)\s+{name}\b")
        own = re.compile(rf"(?m)\bfn\s+{member}\b|^\s*{member}\s*[,({{]")
        return any(name in source and of_type.search(source) and own.search(source) for source in self.sources)


def without_removed(changes):
    """The changes without the sections `Removed`, whose names are in no file any more. Lines keep their numbers."""
    return re.sub(r"(?m)^### Removed$[\s\S]*?(?=^##|\Z)", lambda part: "\n" * part[0].count("\n"), changes)


def flat(code):
    """Code without indentation, with a line break before each line and behind it."""
    return "\n" + "\n".join(line.strip() for line in code.strip().split("\n")) + "\n"


def unquoted(block, sources):
    """The first line of a block that is not quoted from a source. None if the block consists of quotations that begin with an item."""
    lines = flat(block).strip("\n").split("\n")
    while lines:
        most = 0
        while most < len(lines) and any(flat("\n".join(lines[:most + 1])) in source for source in sources):
            most += 1
        lines = lines[most:]
        if lines and not (most and (not lines[0] or BEGINS.match(lines[0]))):
            return lines[0]
        lines = lines[1:] if lines and not lines[0] else lines
    return None


def anchor(head):
    return re.sub(r"[^\w -]", "", head.lower()).replace(" ", "-")


def broken_links(path):
    page = read(path)
    for found in LINK.finditer(page):
        if "://" in found[1]:
            continue
        to = os.path.normpath(os.path.join(os.path.dirname(path), found[1])) if found[1] else path
        there = os.path.exists(os.path.join(TOP, to))
        if not there or (found[2] and found[2] not in map(anchor, re.findall(r"(?m)^#+ (.*)$", read(to)))):
            yield 1 + page.count("\n", 0, found.start()), found[0]


def too_wide(text, most=COLUMNS_MOST):
    return [(number, len(line)) for number, line in enumerate(text.split("\n"), 1) if len(line) > most]


class Pages(unittest.TestCase):
    CHECKOUT = Checkout()

    def none(self, find, *pages):
        self.assertEqual([(page, *found) for page in pages for found in find(read(page))], [])

    def test_each_page_is_of_one_kind(self):
        docs = [os.path.relpath(path, TOP) for path in glob.glob(os.path.join(TOP, "docs/*.md"))]
        self.assertEqual(sorted(docs), sorted(PAGES[1:]))
        self.assertGreater(len(CRATES), 10)

    def test_each_path_is_there(self):
        self.none(self.CHECKOUT.missing_paths, *PAGES, *CRATES, FIGURES)
        changes = without_removed(read(CHANGELOG))
        self.assertEqual(list(self.CHECKOUT.missing_paths(changes)), [])

    def test_a_path_of_a_crate_is_so_in_a_crate_that_is_named_beside_it(self):
        for page, missing in (
            ("`portmap_core`: `src/machine.rt`", []), ("`src/machine.rt`", [(1, "src/machine.rt")]), ("`portmap_core/src/machine.rt`", []),
            ("`portmap_wire`: `src/machine.rt`", [(1, "src/machine.rt")]),
            ("- `portmap_core`\n- `src/machine.rt`", [(2, "src/machine.rt")]),
        ):
            self.assertEqual(list(self.CHECKOUT.missing_paths(page)), missing, page)

    def test_a_word_of_a_comment_is_not_a_word_of_the_code(self):
        for path, text in {
            "a.rt": "one(); // two\n/// two\nthree /* two\n two */ four", "a.c": "one\n//two\nthree /*two*/ four",
            "a.antt": "one -- two\nthree {- two\n two -} four",
            "a.py": 'one  # two\n"""two\ntwo"""\nthree\n# two\nfour',
            "epmd": "one # two\nthree\n#two\nfour", "a.service": "one\n# two\nthree four",
        }.items():
            self.assertEqual(re.findall(r"\w+", code_of(path, text)), ["one", "three", "four"], path)
        self.assertEqual(code_of("a.antt", "x--y ⟶ a"), "x--y ⟶ a")
        self.assertEqual(code_of("epmd", '${word#-} "$#"'), '${word#-} "$#"')
        self.assertEqual(code_of("a.story", "two"), "")

    def test_each_target_is_one_of_the_makefile(self):
        self.none(self.CHECKOUT.missing_targets, *PAGES, *CRATES, *OTHERS, FIGURES)

    def test_each_name_is_in_the_code(self):
        self.none(self.CHECKOUT.missing_names, *OF_CODE, *CRATES, FIGURES)
        self.none(self.CHECKOUT.missing_members, *PAGES, *CRATES)
        changes = without_removed(read(CHANGELOG))
        self.assertEqual(list(self.CHECKOUT.missing_names(changes)), [])

    def test_what_was_removed_needs_no_name_in_the_code(self):
        changes = "## 2\n\n### Removed\n\n- `gone_by_now`\n\n### Fixed\n\n- `gone_by_now`\n"
        self.assertEqual(list(self.CHECKOUT.missing_names(without_removed(changes))), [(9, "gone_by_now")])

    def test_each_link_leads_somewhere(self):
        self.assertEqual([(page, *found) for page in [*PAGES, *CRATES, *OTHERS, FIGURES] for found in broken_links(page)], [])

    def test_each_picture_is_small_and_is_shown_with_what_it_shows_in_words(self):
        pictures = {os.path.relpath(path, TOP) for path in glob.glob(os.path.join(TOP, "docs/pictures/*.png"))}
        self.assertEqual({to for _, to in re.findall(r"!\[([^\]]{20,})\]\(([^)]*)\)", read(README))}, pictures)
        self.assertEqual([path for path in pictures if os.path.getsize(os.path.join(TOP, path)) > PICTURE_BYTES_MOST], [])

    def test_each_block_of_rattle_is_a_quotation(self):
        """In README.md a caller is shortened."""
        sources = [flat(source) for source in self.CHECKOUT.sources]
        pages = [*PAGES[1:], *CRATES]
        blocks = [(page, block) for page in pages for block in RUST.findall(read(page))]
        self.assertGreater(len(blocks), 0)
        found = [(page, unquoted(block, sources)) for page, block in blocks]
        self.assertEqual([(page, line) for page, line in found if line is not None], [])

    def test_a_quotation_leaves_out_whole_items_alone(self):
        sources = [flat(source) for source in (
            "pub fn one()\n    ensures a { b }\n{\n    two();\n\n    three();\n}\n\nfn four() {}", "  struct Five;\n")]
        for block, line in {
            "pub fn one()\n    ensures a { b }\n": None, "        pub fn one()\n    ensures a { b }\nfn four() {}\nstruct Five;\n": None,
            "pub fn one()\n    ensures a { c }\n": "ensures a { c }", "pub fn one()\n{\n": "{", "three();\ntwo();\n": "two();",
            "two();\n\nthree();\n": None, "two();\nthree();\n": "three();", "fn six()\n": "fn six()", "two();\n}\n": None,
        }.items():
            self.assertEqual(unquoted(block, sources), line, block)

    def test_each_decision_names_a_file_and_each_room_is_in_the_index(self):
        page = read(DECISIONS)
        rooms = re.findall(r"(?m)^## (.*)$", page)[1:]
        self.assertEqual(re.findall(r"(?m)^- \[(.*?)\]\(", page), rooms)
        items = re.findall(r"(?m)^- \*\*(?:.|\n(?!- |\n))*", page)
        self.assertGreater(len(items), len(rooms))
        files = [[span for _, span, _ in spans(item) if "/" in span or ENDING.search(span) or span == "Makefile"] for item in items]
        self.assertEqual([item for item, named in zip(items, files) if not named], [])

    def test_one_version_is_everywhere(self):
        """VERSION, the program, the newest changes that have a date, and the packages that pages name."""
        version = read("VERSION").strip()
        heads = re.findall(r"(?m)^## (.*)$", read(CHANGELOG))
        self.assertEqual(heads[0], "Unreleased")
        self.assertRegex(heads[1], rf"^{re.escape(version)} \(20\d\d-\d\d-\d\d\)$")
        self.assertIn(f'b"epmd-proved {version}\\n"', read("crates/portmap_command/src/help.rt"))
        packages = [name for page in PAGES for name in re.findall(r"epmd-proved_([\d.]+)_", read(page))]
        self.assertGreater(len(packages), 1)
        self.assertEqual(set(packages), {version})

    def test_no_line_is_too_wide(self):
        self.none(too_wide, *PAGES, *CRATES, *OTHERS, FIGURES)

    def test_no_line_of_the_crates_is_too_wide(self):
        """Tests are code too, but a case is one line and may be as wide as a page."""
        for ending, most in (".antt", COLUMNS_MOST), (".rt", CODE_COLUMNS_MOST):
            files = [path for path in below(["crates"]) if path.endswith(ending)]
            self.assertGreater(len(files), 0)
            wide = [(path, *found) for path in files for found in too_wide(read(path), COLUMNS_MOST if "/tests" in path else most)]
            self.assertEqual(wide, [])

    def test_the_pages_are_short(self):
        self.assertEqual([page for page in PAGES if read(page).count("\n") > LINES_MOST[page]], [])
        self.assertEqual([page for page in CRATES if read(page).count("\n") > CRATE_LINES_MOST], [])
        self.assertLessEqual(len(read(DECISIONS).split()), WORDS_MOST)


class Commits(unittest.TestCase):
    """Subjects of commits are short from this time on."""

    SINCE = "2026-12-02T00:00:00Z"
    COLUMNS_MOST = 72

    def test_subjects_are_short(self):
        if not os.path.exists(os.path.join(TOP, ".git")) or not shutil.which("git"):
            self.skipTest("no history")
        words = ["git", "-c", "safe.directory=*", "-C", TOP, "log", "--no-merges", "--format=%h %s", f"--since={self.SINCE}"]
        done = programs.run(words)
        self.assertEqual((done.returncode, done.stderr), (0, ""))
        subjects = [line.partition(" ") for line in done.stdout.splitlines()]
        self.assertEqual([(commit, subject) for commit, _, subject in subjects if len(subject) > self.COLUMNS_MOST], [])


if __name__ == "__main__":
    unittest.main()
