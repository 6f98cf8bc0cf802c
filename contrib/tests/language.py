"""Measures the language of pages, manual pages, comments and printed texts: sentences that are too long, and banned words.

A text is split into paragraphs, each a list item or some lines of running text. Headings, tables, code, displays, the synopsis of a manual
page and the targets of links are left out. A code span or a macro of a manual page counts as one word.

Of a program its comments are read, and its texts in quotes, which a user may read. Of a text in quotes only the words are checked."""
import html.parser
import io
import re
import tokenize

WORDS_MOST = 40  # Of a sentence.
TELL_MOST = 1.0  # In 1,000 words of one kind of text.
TELL = re.compile(r"\b(?:tell|tells|told|telling)\b", re.I)

CODE_SPAN = re.compile(r"``.*?``|`[^`]*`", re.S)
LINK = re.compile(r"!?\[([^\]]*)\]\([^)]*\)")
ADDRESS = re.compile(r"<?https?://[^\s>]+>?")
EMPHASIS = re.compile(r"\*\*|__|(?<!\w)[*_](?=\w)|(?<=[\w.,:`])[*_](?!\w)")
WORD = re.compile(r"[A-Za-z0-9`][\w`'./:+-]*")
# The end of a sentence, unless one of the abbreviations is before it.
END = re.compile(r"[.!?][\"')\]]*(?=\s|$)")
ABBREVIATION = re.compile(r"(?:\b(?:e\.g|i\.e|etc|vs|cf|no|approx)|\b[A-Z]|\.)\.$", re.I)

FENCE = re.compile(r"\s*(?:```|~~~)")
ITEM = re.compile(r"(\s*)(?:[-*+]|\d+[.)])\s+")
# A heading, a row of a table, a rule, the target of a link, an HTML comment in one line.
APART = re.compile(r"\s*(?:#{1,6}\s|\||\[[^\]]+\]:\s|<!--.*-->$|(?:[-*_]\s*){3,}$)")


class Paragraph:
    """Running text, and the number of its first line."""

    def __init__(self, line, text):
        self.line, self.text = line, text

    def plain(self):
        """The text with code spans, links and emphasis replaced by what counts of them."""
        text = CODE_SPAN.sub("`x`", self.text)
        return EMPHASIS.sub("", ADDRESS.sub("`x`", LINK.sub(r"\1", text)))

    def sentences(self):
        text, begin = " ".join(self.plain().split()), 0
        for end in END.finditer(text):
            if not ABBREVIATION.search(text[:end.start() + 1]):
                yield text[begin:end.end()].strip()
                begin = end.end()
        if WORD.search(text[begin:]):
            yield text[begin:].strip()


class Quoted(Paragraph):
    """A text in quotes. It has words, and no sentences."""

    def sentences(self):
        return ()


class Paragraphs:
    """Collects paragraphs line by line."""

    def __init__(self):
        self.done, self.lines, self.line = [], [], 0

    def add(self, number, text):
        if not self.lines:
            self.line = number
        self.lines.append(text.strip())

    def end(self):
        if self.lines:
            self.done.append(Paragraph(self.line, "\n".join(self.lines)))
        self.lines = []


def markdown(text):
    """The paragraphs of a page."""
    found, fenced, blank, inner = Paragraphs(), False, True, 0
    for number, line in enumerate(text.split("\n"), 1):
        if FENCE.match(line) or fenced:
            found.end()
            fenced = fenced != bool(FENCE.match(line))
            continue
        if not line.strip() or APART.match(line):
            found.end()
            blank = True
            continue
        indent = len(line) - len(line.lstrip())
        if blank and indent >= inner + 4:
            continue  # Code that is indented. `blank` stays, so all its lines are left out.
        item = ITEM.match(line)
        if item:
            found.end()
            inner = item.end()
        elif blank and indent < inner:
            inner = 0
        found.add(number, line[item.end():] if item else line.lstrip("> "))
        blank = False
    found.end()
    return found.done


# Macros of manual pages: those that end a paragraph, and those that stand for a word of a sentence.
BREAKS = "Pp", "It", "Ss", "Sh", "Dl", "Bl", "El", "Bd", "Ed"
SPANS = set("Ar Fl Nm Ql Pa Ev Fn Xr Dv Li Va Sx Dq Pq Sq Em Sy Cm Ic Vt Ft In Er Fa Op".split())


def manual(text):
    """The paragraphs of a manual page in mdoc."""
    found, synopsis, display, columns = Paragraphs(), False, False, False
    for number, line in enumerate(text.split("\n"), 1):
        macro, *rest = line[1:].split() or [""] if line.startswith(".") else ["", line]
        if macro in BREAKS or not line.strip():
            found.end()
        if macro == "Sh":
            synopsis = rest[:1] in (["NAME"], ["SYNOPSIS"])
        elif macro in ("Bd", "Ed"):
            display = macro == "Bd"
        elif macro in ("Bl", "El"):
            columns = macro == "Bl" and "-column" in rest
        if synopsis or display or columns or not line.strip():
            continue
        if not line.startswith("."):
            found.add(number, line)
        elif macro in SPANS:
            found.add(number, "`x`" + "".join(word for word in rest if re.fullmatch(r"[.,;:)!?]+", word)))
    found.end()
    for paragraph in found.done:  # Punctuation of a line of its own belongs to the word before it.
        paragraph.text = re.sub(r"\s+([.,;:)!?]+)(?=\s|$)", r"\1", paragraph.text)
    return found.done


def head(text):
    """The paragraphs of the comment at the top of a crate. Its lines keep their numbers."""
    lines = re.match(r"(?://!.*\n)*", text)[0].split("\n")
    return markdown("\n".join(line[4:] for line in lines))


# ---- programs

PROSE = re.compile(r"[A-Za-z]{2,}[,.:;]? [a-z]{2,}")
# In a text in quotes: a variable or an expression, whose value is printed.
VALUE = re.compile(r"\$?\{[^{}]*\}|\$\w+")
# An indented word or some words, and blanks before their meaning.
MEANING = re.compile(r"^ +\S+(?: \S+)* {2,}(?=\S)")
# What ends a statement of Python, and may precede the text at the top of a definition.
BETWEEN = tokenize.NEWLINE, tokenize.NL, tokenize.INDENT, tokenize.DEDENT, tokenize.COMMENT
QUOTES = re.compile(r"""^\w*("{3}|'{3}|"|')|("{3}|'{3}|"|')$""")
# A comment or a text in quotes, of C, of Rust and of the script of a page.
C_TEXT = re.compile(r"""/\*+(?P<block>.*?)\*/|//[/!]?[ ]?(?P<line>[^\n]*)|"(?P<quoted>(?:[^"\\\n]|\\.)*)"
                     |`(?P<template>(?:[^`\\]|\\.)*)`""", re.S | re.X)


def numbered(lines):
    """The paragraphs of lines by their numbers. Adjacent lines are one text, but a word and what it means is an item of a list."""
    return markdown("\n".join(MEANING.sub("- ", lines.get(number, "")) for number in range(1, max(lines, default=0) + 1)))


def quoted(number, text):
    """A list of the text without its values, or an empty list if no two words follow each other in it."""
    text = VALUE.sub("`x`", text)
    return [Quoted(number, text)] if PROSE.search(text) else []


def unindented(body):
    first, *rest = body.split("\n")
    depth = min((len(line) - len(line.lstrip()) for line in rest if line.strip()), default=0)
    return "\n".join([first.lstrip(), *(line[depth:] for line in rest)])


def python(text):
    """Comments, the texts at the top of definitions, other texts in quotes, and the names of tests."""
    lines, found, depth, is_first = {}, [], 0, True
    for token in tokenize.generate_tokens(io.StringIO(text).readline):
        number, body = token.start[0], token.string
        if token.type == tokenize.COMMENT and token.line.lstrip().startswith("#"):
            lines[number] = re.sub("^#!?[ ]?", "", body)
        elif token.type == tokenize.COMMENT:
            found.append(Paragraph(number, body.lstrip("# ")))
        elif token.type == tokenize.STRING and is_first:
            found += [Paragraph(number + each.line - 1, each.text) for each in markdown(unindented(QUOTES.sub("", body)))]
        elif token.type in (tokenize.STRING, getattr(tokenize, "FSTRING_MIDDLE", None)):
            found += quoted(number, QUOTES.sub("", body))
        elif token.type == tokenize.NAME and body.startswith("test_"):
            found.append(Quoted(number, body.replace("_", " ")))
        depth += token.type == tokenize.OP and (body in "([{") - (body in ")]}")
        is_first = token.type in BETWEEN and depth == 0
    return numbered(lines) + found


def script(text):
    """Comments, of the shell, of `make`, of units and of YAML. Any other line is read as a text in quotes: it may be printed."""
    lines, found = {}, []
    for number, line in enumerate(text.split("\n"), 1):
        comment = re.match(r"(.*?)(?:^|(?<=\s))#(!?) ?(.*)$", line)
        if not comment:
            found += quoted(number, line)
        elif comment[1].strip():
            found += [*quoted(number, comment[1]), Paragraph(number, comment[3])]
        elif not comment[2]:
            lines[number] = comment[3]
    return numbered(lines) + found


def c(text, first=1):
    """Comments and texts in quotes. The text begins at this line of its file."""
    lines, found = {}, []
    for each in C_TEXT.finditer(text):
        number, body = first + text.count("\n", 0, each.start()), each[each.lastgroup]
        rows = [re.sub(r"^\s*\* ?", "", row) for row in body.split("\n")]
        if each.lastgroup in ("quoted", "template"):
            found += quoted(number, body)
        elif text[text.rfind("\n", 0, each.start()) + 1:each.start()].strip():
            found.append(Paragraph(number, " ".join(rows)))
        else:
            lines.update({number + line: row if line else row.lstrip() for line, row in enumerate(rows)})
    return numbered(lines) + found


class Shown(html.parser.HTMLParser):
    """What a page shows, with its comments and those of its script."""

    def __init__(self, text):
        super().__init__()
        self.found, self.is_code = [], False
        self.feed(text)

    def handle_starttag(self, tag, attrs):
        self.is_code = tag in ("script", "style")
        self.found += [each for _, value in attrs for each in quoted(self.getpos()[0], value or "")]

    def handle_endtag(self, tag):
        self.is_code = False

    def handle_comment(self, data):
        self.found.append(Paragraph(self.getpos()[0], data))

    def handle_data(self, data):
        number = self.getpos()[0]
        self.found += c(data, number) if self.is_code else [Paragraph(number, data)] if data.strip() else []


def page(text):
    return Shown(text).found


def values(text):
    """The texts of JSON."""
    found = re.finditer(r'"((?:[^"\\]|\\.)*)"', text)
    return [text_of for each in found for text_of in quoted(1 + text.count("\n", 0, each.start()), each[1])]


def banned(page):
    """The words of the table under the heading `Banned words` of a page, each as a pattern. An option such as `-word` is not the word."""
    table = re.search(r"(?m)^#+ Banned words$([\s\S]*?)(?=^#|\Z)", page)
    rows = re.findall(r"(?m)^\|([^|]*)\|", table[1]) if table else []
    words = [word.strip(" `") for row in rows[2:] for word in row.split(",")]
    return {word: re.compile(r"(?<![\w-])" + r"\s+".join(map(re.escape, word.split())) + r"\b", re.I) for word in words if word}


def too_long(paragraphs):
    """The sentences with more words than allowed: the line of the paragraph, the number of words, and how the sentence begins."""
    for paragraph in paragraphs:
        for sentence in paragraph.sentences():
            count = len(WORD.findall(sentence))
            if count > WORDS_MOST:
                yield paragraph.line, count, sentence[:60]


def banned_in(paragraphs, patterns):
    """The banned words: the line of the paragraph, and the word. `tell` has a limit of its own."""
    for paragraph in paragraphs:
        text = paragraph.plain()
        for word, pattern in patterns.items():
            if not TELL.fullmatch(word):
                yield from ((paragraph.line, word) for _ in pattern.finditer(text))


def tells(texts):
    """How often `tell` comes in 1,000 words of several texts, each a list of paragraphs."""
    plain = [paragraph.plain() for paragraphs in texts for paragraph in paragraphs]
    words = sum(len(WORD.findall(text)) for text in plain)
    return 1000 * sum(len(TELL.findall(text)) for text in plain) / max(1, words)
