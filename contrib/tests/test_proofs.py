"""What makes code and proofs long: structs of many fields, lemmas with many arguments in a row, and structs that are dropped vector by
vector. And that each wrong body, of the gate and beside it, still fits the code that it changes."""
import glob
import os
import re
import unittest

from programs import TOP, read

ARGUMENTS_MOST = 7
# How many declarations of these crates take more. The others have no such declaration, and these are to become fewer.
MANY_MOST = {"portmap_command": 10, "portmap_client": 6, "portmap_client_c": 3, "portmap_link": 9, "portmap_recorder": 3, "portmap_scheduler": 4,
             "portmap_wire": 9, "portmap_worker": 5}
# Types whose values have memory or a descriptor of their own.
OWNING = {"Vec", "String", "VecDeque", "BTreeMap", "IndexMap", "Slab", "Box", "Arc", "File", "TcpStream", "TcpListener"}
# Structs with two owning fields that keep `derive(Drop)`: other types take their fields out, or one function owns the only value.
DERIVED = {"Lines", "Reg", "Replica", "Said", "Scheduler", "Segment", "Settings", "StartParts"}
# Structs of more fields, which are to become fewer.
FIELDS_MOST = 10
WIDE = {"Command": 11, "Link": 11, "SocketSource": 12}
STRUCT = re.compile(r"((?:#\[.*\]\n)*)(?:pub(?:\(crate\))? )?struct (\w+)(?:<[^{;]*>)? \{\n((?:.*\n)*?)\}\n")
OPENING, CLOSING = "({[", ")}]"
HEAD = re.compile(r"( *)(?:abbrev )?(?:pub )?([^\s(){}:,.]+) : (.*)")


def indented(line):
    return len(line) - len(line.lstrip())


def signatures(text):
    """The name and the type of each declaration."""
    lines = [*text.split("\n"), ""]
    for at, line in enumerate(lines):
        head = None if line.lstrip().startswith(("--", "let ", "|")) else HEAD.fullmatch(line)
        if head:
            end = next(i for i in range(at + 1, len(lines)) if indented(lines[i]) <= len(head[1]))
            yield head[2], " ".join([head[3], *(line.strip() for line in lines[at + 1 : end])])


def outside(text, mark):
    """The parts between these marks outside all brackets."""
    parts, depth = [""], 0
    for character in text:
        depth += (character in OPENING) - (character in CLOSING)
        if depth == 0 and character == mark:
            parts.append("")
        else:
            parts[-1] += character
    return parts


def arguments(signature):
    """How many are written where it is used: those in braces are not."""
    count = 0
    for part in outside(signature, "→")[:-1]:
        binders = [binder.strip() for binder in outside(part.replace(") (", ")\n(").replace(") {", ")\n{").replace("} (", "}\n("), "\n")]
        names = [re.match(r"[({]([^(){}:]+) : ", binder) for binder in binders]
        if all(names):
            count += sum(len(name[1].split()) for binder, name in zip(binders, names) if binder[0] == "(")
        else:
            count += 1
    return count


def structs():
    """Of each struct of the libraries: its name, whether its drop is derived, and the types of its fields."""
    for path in glob.glob(f"{TOP}/crates/portmap_*/src/**/*.rt", recursive=True):
        for marks, name, body in STRUCT.findall(read(path)):
            yield name, bool(re.search(r"derive\([^)]*\bDrop\b", marks)), re.findall(r"(?m)^    (?:pub(?:\(crate\))? )?\w+: (.*),$", body)


def owned(fields, owning):
    """How many of these types of fields own a value of one of the types."""
    return sum(not field.startswith("&") and bool(owning & set(re.findall(r"\w+", field))) for field in fields)


def owners(found):
    """The names of the types of which a value owns something."""
    owning = set(OWNING)
    while more := {name for name, _, fields in found if owned(fields, owning)} - owning:
        owning |= more
    return owning


class Proofs(unittest.TestCase):
    def test_a_struct_is_dropped_by_one_call(self):
        found = list(structs())
        owning = owners(found)
        self.assertEqual({name for name, derived, fields in found if derived and owned(fields, owning) > 1}, DERIVED)

    def test_a_struct_has_few_fields(self):
        self.assertEqual({name: len(fields) for name, _, fields in structs() if len(fields) > FIELDS_MOST}, WIDE)

    def test_arguments_are_counted(self):
        for signature, count in {
            "ℕ": 0,
            "(a b : ℕ) {c : ℕ} (d : List ℕ) → a ≡ b → ((x : ℕ) → f x) → ⊥": 5,
            "{a : ℕ} → (f : ℕ → ℕ) → f a ≡ a": 1,
        }.items():
            self.assertEqual(arguments(signature), count, signature)

    def test_a_lemma_takes_few_arguments(self):
        many, seen = {}, set()
        for path in glob.glob(f"{TOP}/crates/*/proofs/**/*.antt", recursive=True):
            crate, *name = os.path.relpath(path, os.path.join(TOP, "crates")).split(os.sep)
            counts = [("/".join(name), declared, arguments(type)) for declared, type in signatures(read(path))]
            if counts:
                seen.add(crate)
            many.setdefault(crate, []).extend(found for found in counts if found[-1] > ARGUMENTS_MOST)
        self.assertGreaterEqual(seen, {*MANY_MOST, "portmap_table", "portmap_core", "portmap_book", "portmap_record", "portmap_daemon"})
        self.assertEqual({crate: found for crate, found in many.items() if len(found) > MANY_MOST.get(crate, 0)}, {})


def pairs_of(path):
    """The texts that an edit takes out and puts in, each with its file."""
    file, pairs = None, []
    for line in read(path).split("\n"):
        key, _, text = line.partition(": ")
        if key == "file":
            file = os.path.join(os.path.dirname(os.path.dirname(path)), text)
        elif key == "old":
            pairs.append((file, text, ""))
        elif key.startswith("new"):
            pairs[-1] = file, pairs[-1][1], text
    return pairs


class Edits(unittest.TestCase):
    def test_each_old_text_is_there_once(self):
        paths = glob.glob(f"{TOP}/crates/*/must-fail/*.edit") + glob.glob(f"{TOP}/crates/*/attack/*.edit")
        self.assertGreater(len(paths), 0)
        for path in paths:
            made = {}
            self.assertGreater(len(pairs_of(path)), 0, path)
            for file, old, new in pairs_of(path):
                if file not in made:
                    made[file] = read(file)
                self.assertEqual(made[file].count(old), 1, f"{path}: {old}")
                made[file] = made[file].replace(old, new)

    def test_the_gate_has_few(self):
        paths = glob.glob(f"{TOP}/crates/*/must-fail/*.edit")
        self.assertLessEqual(len(paths), 20)
        self.assertLessEqual(len({os.path.dirname(path) for path in paths}), 3)
