"""The language of pages, manual pages, heads of crates, comments and printed texts, and the checker itself on small texts."""
import functools
import glob
import os
import unittest

import language
from language import banned, banned_in, c, head, manual, markdown, page, python, script, tells, too_long, values

TOP = os.path.join(os.path.dirname(os.path.abspath(__file__)), "..", "..")
# By kind, the files of it, how many of these have a text at least, and how they are read.
KINDS = {
    "pages": (["*.md", "docs/*.md", "bench/*.md", "crates/*/README.md", ".github/*.md", ".github/*/*.md"], 20, markdown),
    "manual pages": (["docs/*.[1-9]"], 6, manual),
    "heads of crates": (["crates/*/src/lib.rt", "crates/*/src/main.rt"], 15, head),
    "Python": (["contrib/*", "contrib/client/*.py", "faults/*.py"], 10, python),
    "tests in Python": (["tests/*.py", "tests/[a-z]*/*.py", "contrib/tests/*.py"], 30, python),
    "C and Rust": (["include/*.h", "bench/*.c", "contrib/client/*.c", "contrib/client/*.rs", "faults/*.c", "tests/*.c", "tests/[a-z]*/*.c"],
                   8, c),
    "the report": (["contrib/*.html"], 1, page),
    "the dashboard": (["contrib/grafana/*.json"], 1, values),
    "scripts": (["Makefile", "contrib/*", "contrib/completions/*", "contrib/debian/*", "contrib/prometheus/*", "contrib/units/*",
                 "tests/*", "tests/[a-z]*/*", ".ci/*", ".editorconfig", ".gitattributes", ".github/*", ".github/*/*"], 40, script),
}
# Of the scripts: what another kind has, and texts that are not ours.
NO_SCRIPTS = (".py", ".c", ".h", ".html", ".md", "copyright", "symbols")
# This file has banned words as data.
OWN = "contrib/tests/test_language.py"
GLOSSARY = "docs/GLOSSARY.md"


def read(path):
    with open(os.path.join(TOP, path), encoding="utf-8") as file:
        return file.read()


def is_of(kind, path):
    """Whether a file is of a kind whose patterns it matches. A file without an ending is Python if its first line says so."""
    if path == OWN or not os.path.isfile(os.path.join(TOP, path)):
        return False
    is_python = path.endswith(".py") or "." not in os.path.basename(path) and "python3" in read(path).partition("\n")[0]
    if kind == "scripts":
        return not is_python and not path.endswith(NO_SCRIPTS)
    return is_python or "Python" not in kind


@functools.cache
def texts(kind):
    """The paragraphs of each file of a kind, by its path."""
    patterns, _, paragraphs = KINDS[kind]
    paths = [path for pattern in patterns for path in sorted(glob.glob(pattern, root_dir=TOP))]
    return {path: paragraphs(read(path)) for path in paths if is_of(kind, path)}


class Texts(unittest.TestCase):
    def none(self, find, *more):
        for kind in KINDS:
            found = [(path, *fault) for path, paragraphs in texts(kind).items() for fault in find(paragraphs, *more)]
            with self.subTest(kind):
                self.assertEqual(found, [])

    def test_no_sentence_is_too_long(self):
        self.none(too_long)

    def test_no_word_is_banned(self):
        words = banned(read(GLOSSARY))
        self.assertGreater(len(words), 30)
        self.none(banned_in, words)

    def test_tell_is_rare(self):
        for kind in KINDS:
            with self.subTest(kind):
                self.assertLessEqual(tells(texts(kind).values()), language.TELL_MOST)

    def test_each_kind_has_text(self):
        for kind, (_, least, _) in KINDS.items():
            found = [path for path, paragraphs in texts(kind).items() if paragraphs]
            self.assertGreaterEqual(len(found), least, kind)


def sentence(count):
    return " ".join(["word"] * (count - 1)) + " end."


def found(paragraphs):
    return [(paragraph.line, list(paragraph.sentences())) for paragraph in paragraphs]


class Checker(unittest.TestCase):
    WORDS = banned("# One\n\n| word | write |\n|---|---|\n| no | such |\n\n## Banned words\n\n| word | write |\n|---|---|\n"
                   "| tell, tells | serve |\n| `goes on` | continues |\n| so many, ones | n |\n\n## Two\n\n| three | four |\n|---|---|\n")

    def test_the_table_of_banned_words_is_read(self):
        self.assertEqual(list(self.WORDS), ["tell", "tells", "goes on", "so many", "ones"])

    def test_a_sentence_of_41_words_is_too_long(self):
        for paragraphs in markdown, manual:
            self.assertEqual(list(too_long(paragraphs(f"{sentence(40)}\n{sentence(40)}\n"))), [])
            faults = too_long(paragraphs(f"Short.\n\n{sentence(20)[:-1]}\n{sentence(21)}\n"))
            self.assertEqual([fault[:2] for fault in faults], [(3, 41)])
        self.assertEqual([fault[:2] for fault in too_long(head(f"//! One.\n//!\n//! - {sentence(41)}\n"))], [(3, 41)])
        spans = " ".join(["`a span of words`"] * 40) + "."
        self.assertEqual(list(too_long(markdown(spans))), [])

    def test_a_banned_word_is_found_in_prose_alone(self):
        for text, lines in {
            "It goes\non.": [1], "One.\n\n- Two\n  goes on.": [3], "Goes on, and goes on.": [1, 1], "`goes on`": [], "# It goes on\n": [],
            "| it goes on |\n": [], "[it](goes on)": [], "[it goes on](it)": [1], "```\ngoes on\n```\nThat goes on.": [4],
            "Code:\n\n    goes on\n\nIt goes on.": [5], "1. One:\n\n       goes on\n\n   It goes on.": [5], "undergoes on": [],
            "by --goes on": [],
        }.items():
            self.assertEqual(list(banned_in(markdown(text), self.WORDS)), [(line, "goes on") for line in lines], text)

    def test_a_banned_word_of_a_manual_page_is_found_in_prose_alone(self):
        page = (".Sh SYNOPSIS\ngoes on\n.Sh DESCRIPTION\n.Nm\ngoes\non.\n.Bd -literal\ngoes on\n.Ed\n.Dl goes on\n.Bl -tag\n.It goes on\n"
                "It goes on.\n.El\n.Ql goes on\n.Bl -column a b\n.It 1 Ta goes on\ngoes on\n.El\nIt\ngoes on.\n")
        self.assertEqual(list(banned_in(manual(page), self.WORDS)), [(4, "goes on"), (13, "goes on"), (20, "goes on")])

    def test_only_the_head_of_a_crate_is_read(self):
        text = "//! One goes on.\n//!\n//! Two.\nuse three;\n//! It goes on.\n/// It goes on.\n"
        self.assertEqual(list(banned_in(head(text), self.WORDS)), [(1, "goes on")])
        self.assertEqual(head("use one;\n//! It goes on.\n"), [])

    def test_tell_has_a_limit_of_its_own(self):
        rare, often = f"We tell it. {sentence(997)}", f"We tell it, and tell them. {sentence(994)}"
        self.assertEqual(list(banned_in(markdown(often), self.WORDS)), [])
        self.assertEqual((tells([markdown(rare)]), tells([markdown(often)])), (1.0, 2.0))
        self.assertEqual(tells([markdown("`tell`\n\n| tell |\n")]), 0.0)

    def test_a_point_inside_a_word_ends_no_sentence(self):
        for text, wanted in {
            "One, e.g. two. Three.": ["One, e.g. two.", "Three."], "Port 1.5 is `a. B`. So?": ["Port 1.5 is `x`.", "So?"],
            "See [it. Now](there). Then": ["See it.", "Now.", "Then"], "**One.** Two: three; four.": ["One.", "Two: three; four."],
        }.items():
            self.assertEqual(found(markdown(text)), [(1, wanted)], text)
        self.assertEqual(found(manual(".Nm\nends\n.Pq Ql one\n.Ar two .\nThree.\n")), [(1, ["`x` ends `x` `x`.", "Three."])])

    def test_paragraphs_and_items_are_apart(self):
        page = "One\ntwo\n\n- three\n  four\n- five\n\n  six\n\nseven\n"
        self.assertEqual(found(markdown(page)), [(1, ["One two"]), (4, ["three four"]), (6, ["five"]), (8, ["six"]), (10, ["seven"])])

    def test_of_a_program_comments_and_texts_in_quotes_are_read(self):
        for reader, text, lines in (
            (python, '"""It goes\non."""\n# It goes on.\nx = 1  # It goes on.\ny = "it goes on", goes.on\nf(f"it goes on {goes_on}")\n',
             [1, 3, 4, 5, 6]),
            (python, "class A:\n    def test_it_goes_on(self):\n        '''One.\n\n        It goes on.\n        '''\n", [2, 5]),
            (python, 'x = [\n    "it goes on",  # It goes on.\n]\nf(f"{it goes on} and goes")\n', [2, 2]),
            (script, "#!/bin/goes on\n# It goes\n# on.\ngoes.on\nb # goes on\necho 'it goes on'\ncat << END\nit goes on\nEND\n",
             [2, 5, 6, 8]),
            (script, "Description=it goes on\nsummary: it goes on\n  it\n  goes-on\nsome words --goes on and $goes on\n", [1, 2]),
            (c, "/* It goes\n * on. */\nint goes; // it goes on\n// It goes\n// on.\nf(\"it goes on\"); /* it goes on */\n",
             [1, 3, 4, 6, 6]),
            (page, '<p title="it goes on">It goes\non.</p><!-- It goes on. -->\n<script>\n// It goes on.\nf(`it goes on`)</script>',
             [1, 1, 2, 4, 5]),
            (values, '{"goes": ["goes", "it goes on"],\n"it goes on": 1}', [1, 2]),
        ):
            self.assertEqual(sorted(line for line, _ in banned_in(reader(text), self.WORDS)), lines, text)

    def test_a_word_with_its_meaning_is_an_item_of_a_list(self):
        rows = f"# {sentence(30)[:-1]}:\n#   -a B     {sentence(40)[:-1]}\n#            here\n#   -c       {sentence(40)}\n"
        self.assertEqual([fault[:2] for fault in too_long(script(rows))], [(2, 41)])

    def test_a_comment_has_sentences_and_a_text_in_quotes_has_none(self):
        for reader, form in (
            (python, '"""{0}"""\n# {0}\nx = "{0}"\n'), (script, "# {0}\n\necho '{0}'\n"), (c, '/* {0} */\nint x; // {0}\nf("{0}");\n'),
        ):
            self.assertEqual([fault[1] for fault in too_long(reader(form.format(sentence(41))))], [41] * (form.count("{0}") - 1), form)


if __name__ == "__main__":
    unittest.main()
