"""The diagrams of the pages keep to a small part of Mermaid's syntax. No test draws them: of Debian only unstable has node-mermaid."""
import glob
import os
import re
import unittest

from programs import TOP, read

DIAGRAM = re.compile(r"(?ms)^```mermaid\n(.*?)^```$")
# Words that Mermaid reads as its own where the name of a node stands.
RESERVED = ("alt|and|as|class|classDef|click|default|direction|else|end|flowchart|graph|loop|note|opt|over|par|participant|scale|state|"
            "style|subgraph")
ID = rf"(?!(?:{RESERVED})\b)[A-Za-z]\w*"
# A text in quotes, a text up to the end of a line, and one of a state, where a colon would end it. None has a sign or a word that Mermaid
# may take for its own.
QUOTED, TEXT, LABEL = r'"[^"#;<>&`]+"', r"(?!.*\bend\b)[^\s#;<>&`][^#;<>&`]*", r"(?!.*\bend\b)[^\s#:;<>&`][^#:;<>&`]*"
NODE = rf"({ID})(?:\[{QUOTED}\]|\[\({QUOTED}\)\]|\{{\{{{QUOTED}\}}\}}|\[/{QUOTED}/\])?"
EDGE = rf"(?:-->|-- {QUOTED} -->|<-->\|{QUOTED}\||-\.->|-\. {QUOTED} \.->)"
STATE = rf"({ID}|\[\*\])"
# For each kind: lines that open a block, lines that divide one, lines that close one, and all other lines.
KINDS = {
    "flowchart (?:LR|TD)": (rf"subgraph {ID}\[{QUOTED}\]", "(?!)", "end", rf"{NODE}(?: {EDGE} {NODE})?"),
    "sequenceDiagram": (f"alt {TEXT}", f"else {TEXT}", "end",
                        rf"participant {ID} as {TEXT}|({ID})--?>>({ID}): {TEXT}|Note over ({ID}): {TEXT}"),
    "stateDiagram-v2": (rf'state {QUOTED} as {ID} \{{', "(?!)", r"\}", rf"{STATE} --> {STATE}(?:: {LABEL})?"),
}


def faults(diagram):
    """The lines of a diagram that are of another form."""
    first, *lines = [line.strip() for line in diagram.strip().split("\n")]
    opens, divides, closes, others = next((forms for kind, forms in KINDS.items() if re.fullmatch(kind, first)), ("(?!)",) * 4)
    depth = 0
    # Of a sequence each participant is declared first, since Mermaid makes one of each further name.
    declared = {match[1] for line in lines if (match := re.match(rf"participant ({ID}) as ", line))}
    for line in lines:
        depth += bool(re.fullmatch(opens, line)) - bool(re.fullmatch(closes, line))
        match = re.fullmatch(others, line)
        if depth < 0 or not (match or any(re.fullmatch(form, line) for form in (opens, closes)) or depth and re.fullmatch(divides, line)):
            yield line
        elif match and first == "sequenceDiagram" and not {name for name in match.groups() if name} <= declared:
            yield line
    if depth or not lines:
        yield first


class Diagrams(unittest.TestCase):
    def test_each_is_of_the_small_part(self):
        found = []
        for path in sorted(glob.glob(os.path.join(TOP, "*.md")) + glob.glob(os.path.join(TOP, "docs", "*.md"))):
            page = read(path)
            found += [(path, diagram) for diagram in DIAGRAM.findall(page)]
            self.assertEqual(len(DIAGRAM.findall(page)), page.count("```mermaid"), path)
        self.assertGreater(len(found), 3)
        self.assertEqual([(path, fault) for path, diagram in found for fault in faults(diagram)], [])

    def test_what_is_of_another_form_is_seen(self):
        flow, sequence, state = "flowchart LR\n", "sequenceDiagram\nparticipant A as a (b.rt)\n", "stateDiagram-v2\n"
        for diagram, wrong in (
            (flow + 'A["a (b)"] -- "c: d" --> B[("e")]\nA -.-> B\nA <-->|"f"| B', []),
            (flow + "A[a (b)] --> B", ["A[a (b)] --> B"]), (flow + "A -- c (d) --> B", ["A -- c (d) --> B"]),
            (flow + "end --> A", ["end --> A"]), (flow + 'A["a "b""]', ['A["a "b""]']), (flow + 'A["a #quot;"]', ['A["a #quot;"]']),
            (flow + 'subgraph a["b"]\nA --> B', ["flowchart LR"]), (flow + "A --> B\nend", ["end", "flowchart LR"]),
            ("graph\nA --> B", ["A --> B"]),
            (sequence + "A->>A: b, c: d\nNote over A: e\nalt f\nelse g\nend", []),
            (sequence + "A->>A: b; c", ["A->>A: b; c"]), (sequence + "A->>A: the end of b", ["A->>A: the end of b"]),
            (sequence + "A->>B: c", ["A->>B: c"]), (sequence + "A->>A", ["A->>A"]), (sequence + "alt b\nelse\nend", ["else"]),
            (sequence + "else b", ["else b"]), (sequence + "alt b", ["sequenceDiagram"]),
            (state + 'state "a (b)" as c {\n[*] --> A: d (e)\nA --> [*]\n}', []),
            (state + "A --> B: c: d", ["A --> B: c: d"]), (state + "state --> A", ["state --> A"]), (state + "A-->B", ["A-->B"]),
            (state + 'state "a" as c {\nA --> B', ["stateDiagram-v2"]), (state, ["stateDiagram-v2"]),
        ):
            self.assertEqual(list(faults(diagram)), wrong, diagram)
