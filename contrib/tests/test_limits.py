"""What is written once and stated elsewhere too: a limit of a page, an alert or the dashboard is the constant of the code, and the lists
of the command's words are those of the words that the program reads."""
import glob
import os
import re
import shutil
import types
import unittest

import programs

TOP = os.path.join(os.path.dirname(os.path.abspath(__file__)), "..", "..")
CONTRIBUTING = "docs/CONTRIBUTING.md"
WORDS = "no one two three four five six seven eight nine ten".split()
SHARES = {2: "half", 3: "a third", 4: "a quarter", 5: "a fifth", 6: "a sixth", 7: "a seventh", 8: "an eighth", 10: "a tenth"}
UNITS = {"s": 1000, "KiB": 1 << 10, "MiB": 1 << 20, "GiB": 1 << 30, "MB": 10 ** 6}


class Number(int):
    """A number with formats of its own: a word, a share of one, or a number of units, which the pages round in two of these."""

    def __format__(self, form):
        if form in UNITS:
            return str(round(self / UNITS[form])) if form in ("GiB", "MB") else f"{self / UNITS[form]:g}"
        if form == "word":
            return WORDS[self] if self < len(WORDS) else str(int(self))
        return SHARES.get(self, "no share") if form == "share" else super().__format__(form)


def text(path):
    with open(os.path.join(TOP, path), encoding="utf-8", errors="replace") as file:
        return file.read()


def number(value):
    """The number of a text such as `1_020`, `0o600`, `2.0` or `16 << 20`."""
    left, _, shift = value.replace("_", "").removesuffix(".0").partition(" << ")
    return Number(int(left, 0) << int(shift or 0))


def constants(pattern, *paths):
    """The whole numbers of some files. Each name has one value in them."""
    found = {}
    for path in paths:
        for name, value in re.findall(pattern, text(path)):
            assert found.setdefault(name, number(value)) == number(value), (path, name)
    return types.SimpleNamespace(**found)


def crate(name, *files):
    pattern = r"const (\w+): u\w+ = ([\d_]+|0o\d+);"
    return constants(pattern, *(f"crates/portmap_{name}/src/{file}.rt" for file in files))


def derived(numbers):
    """What follows from constants by the rules that the pages state."""
    command, worker, wire = numbers["command"], numbers["worker"], numbers["wire"]
    connections, names = command.CONNECTIONS_MOST, command.NAMES_MOST
    # An estimate: the book holds two states, before and after the log, and beside its texts a name takes some 100 bytes.
    names_bytes = 2 * (connections * wire.BODY_MOST + names * (wire.NAME_MOST + 100))
    file = numbers["record"].SESSION_MOST - numbers["recorder"].QUEUE_BYTES_MOST
    seconds = {"epoch_seconds": worker.EPOCH_TIMEOUT_MS, "young_seconds": worker.YOUNG_MS}
    assert all(ms % 1000 == 0 for ms in seconds.values()), seconds
    return {name: Number(number) for name, number in {
        "remote": connections - connections // worker.RESERVED_SHARE,
        # The alert on names has a share of its own.
        "names_near": names - names // 8,
        "old_minutes": numbers["more"].age_seconds // 60,
        "names_bytes": names_bytes,
        "requests_bytes": 2 * connections * (wire.BODY_MOST + 2),
        "spared": worker.UNSENT_BYTES_MOST + worker.UNSENT_BYTES_MOST // worker.UNSENT_SPARED_SHARE,
        **{name: ms // 1000 for name, ms in seconds.items()},
        "file": file,
        "files": numbers["unit"].EPMD_KEEP * file,
        "reply_seconds": 2 * command.TURN,
        "health_last": command.NAMES - 1,
        "wide": numbers["table"].SHORT_MOST + 1,
        "request": wire.BODY_MOST + 2,
    }.items()}


def all_numbers():
    tool, rules = r"(?m)^([A-Z_]+) = ([\d_]+(?:\.0| << \d+)?)(?=\s)", "contrib/prometheus/epmd.rules.yml"
    numbers = {
        "command": crate("command", "actions", "plan", "health", "program"), "worker": crate("worker", "limits"),
        "daemon": crate("daemon", "limits"), "recorder": crate("recorder", "limits", "times"), "record": crate("record", "playing"),
        "operator": crate("operator", "operator", "host"), "wire": crate("wire", "name", "request", "reply_writing"),
        "table": crate("table", "creation"), "core": crate("core", "config"), "book": crate("book", "desk", "book"),
        "client": crate("client", "exchange"), "unit": constants(r"(EPMD_KEEP)=(\d+)", "contrib/units/epmd-proved-prune.service"),
        "metrics": constants(tool, "contrib/epmd-metrics"), "log": constants(tool, "contrib/epmd-log", "contrib/epmd_recording.py"),
        "page": constants(r"\b(COLUMNS) = (\d+)", "contrib/epmd_report.html"),
        "tried": constants(r"rt try --(seconds) (\d+)", "contrib/try"),
        "minutes": constants(r"alert: (\w+)\n +expr: .*\n +for: (\d+)m", rules),
        "more": constants(r"(age_seconds|refusals_total)(?:\[\d+m\]\))? > (\d+)", rules),
        "window": constants(r"(refusals_total)\[(\d+)m\]", rules), "report": constants(tool, "contrib/epmd-report"),
    }
    rows = re.findall(r"(?m)^([A-Z_]+(?:, [A-Z_]+)+) = ([\d_]+(?:, [\d_]+)+)$", text("contrib/epmd-report"))
    for names, values in rows:
        vars(numbers["report"]).update(zip(names.split(", "), map(number, values.split(", "))))
    return numbers | derived(numbers)


# The limits that each file states, in each line a part of a sentence. Of the files in PAGES these are all limits.
LIMITS = {
    "README.md": """
        serves on port {command.PORT}
        for {tried.seconds:,} seconds at most
        known names: active or retired | {command.NAMES_MOST:,} |
        | connections | {command.CONNECTIONS_MOST:,}, at most {remote:,} of them remote |
        | `-packet_timeout`, by default {command.TIMEOUT} s |
        | wait for a name in use | {worker.NAME_TIMEOUT_MS} ms and a check by every worker; {worker.EPOCH_TIMEOUT_MS:s} s if
        | replies that wait to be read | {worker.UNSENT_BYTES_MOST:MiB} MiB ({spared:MiB} in a peer's first second)
        | {names_bytes:MB} MB; {requests_bytes:MB} MB; {worker.LOG_BYTES_HEAVY:KiB} KiB |
        {worker.STARVED_SECONDS_MOST} s without success end the daemon
        | a file of a recording | {file:MiB} MiB |
        tried every {worker.RESUME_SECONDS} s""",
    "docs/PROTOCOL.md": """
        | a name | 1 to {wire.NAME_MOST:,} bytes
        | 1 to {wire.BODY_MOST:,} bytes; a length of 0 or above {wire.BODY_MOST:,} is malformed
        each limit is configured, 1 to {core.LIMIT_MOST:,} |
        {worker.NAME_TIMEOUT_MS} milliseconds have passed, and every worker
        about {epoch_seconds:word} seconds have passed
        The reserve is {worker.RESERVED_SHARE:share} of all permits
        accepted more than {young_seconds:word} second ago
        at any worker for {worker.REMOTE_FIRST_MS} milliseconds
        each with more than a {worker.UNSENT_HEAVY_SHARE:,}th of the limit
        supports distribution version {wire.WIDE_VERSION}. If HighestVersion is at least {wire.WIDE_VERSION},
        A legal creation is {wide} to 4,294,967,295 in the reply with 4 bytes, and 1 to {table.SHORT_MOST} in the reply with 2 bytes
        at least {wide}, and continues with {wide} after 4,294,967,295""",
    "docs/epmd.1": """
        otherwise {command.PORT}.
        1 to {daemon.TIMEOUT_SECONDS_MOST}, by default {command.TIMEOUT} seconds
        more than {worker.UNSENT_BYTES_MOST:MiB} MiB of replies
        If more than {spared:MiB} MiB wait
        worker threads: 1 to {book.SEATS_MOST}, by default {command.WORKERS}.
        within {command.CONNECTING} seconds, and ends after {command.TURN} to {reply_seconds} seconds
        from 0 to {health_last}, and begins with the process id modulo {command.NAMES}
        tried {command.TRIES} times, {command.PAUSE_MS} milliseconds apart
        has port {command.PORT}, is not relaxed, knows no name and gives wide creations from {command.FIRST_CREATION} on
        At most {command.TURNS} reads and writes
        its mode is {operator.MODE:o}
        read up to {record.SESSION_MOST} bytes
        by at most {command.FILE_TURNS} reads and writes
        more than {recorder.QUEUE_BYTES_MOST:MiB} M
        Every {worker.RESUME_SECONDS} seconds the daemon tries
        up to {daemon.FLUSH_SECONDS_MOST:word} seconds for the last write
        takes {file:MiB} MiB for each file
        it keeps the newest {unit.EPMD_KEEP} files of
        keeps {unit.EPMD_KEEP} files, so {files:GiB} GiB
        takes longer than {daemon.FLUSH_SECONDS_MOST} seconds
        at most once in {operator.NOTICE_SECONDS:word} seconds
        does not reply within {command.TURN} to {reply_seconds} seconds
        was refused {command.TRIES} times
        The last of {command.TRIES} lookups
        has more than {record.SESSION_MOST} bytes
        nothing succeeded for {worker.STARVED_SECONDS_MOST:word} seconds
        about {worker.NAME_TIMEOUT_MS} milliseconds, or at most {epoch_seconds:word} seconds""",
    "docs/epmd_client.3": """
        at most {client.LATERS_MOST:,} such timeouts
        more than {wire.NAME_MOST:,} bytes
        more than {wire.BODY_MOST:,} bytes
        {client.LATERS_MOST:,} reads and writes
        more than {client.LIST_MOST:,} bytes""",
    "include/epmd_client.h": """
        EPMD_NAME_MOST {wire.NAME_MOST} /*
        EPMD_BODY_MOST {wire.BODY_MOST} /*
        EPMD_REQUEST_MOST {request} /*
        EPMD_LIST_MOST {client.LIST_MOST} /*
        more than {wire.NAME_MOST:,} bytes
        more than {wire.BODY_MOST:,} bytes
        {client.LATERS_MOST:,} reads and writes
        more than {client.LIST_MOST:,} bytes
        at most {client.LATERS_MOST:,} of them
        is tried {client.LATERS_MOST:,} times
        by the protocol 1 to {table.SHORT_MOST} if `highest` is below {wire.WIDE_VERSION}, otherwise from {wide} on""",
    "docs/epmd-log.1": """
        for at most {log.HOLD:word} seconds
        The first {log.REQUEST_SHOWN} bytes of the request
        the first {log.REQUEST_SHOWN} bytes, in hexadecimal""",
    "docs/epmd-metrics.1": """
        takes up to {metrics.RECORDED:word} seconds
        at most {metrics.BYTES_MOST:MiB} MiB of new entries
        No port mapper has replied for {minutes.EpmdDown:word} minutes.
        For {minutes.EpmdFiguresAreOld:word} minutes the file for the node exporter
        has been older than {old_minutes:word} minutes
        For {minutes.EpmdRecordingStandsStill:word} minutes the port mapper has replied
        For {minutes.EpmdRefusalsRise:word} minutes more than {more.refusals_total:word} registrations
        in {window.refusals_total:word} minutes have been refused
        For {minutes.EpmdNamesNearLimit:word} minutes {names_near:,} names or more
        have been known, of {command.NAMES_MOST:,}.
        At most {command.CONNECTIONS_MOST:,} can be registered
        For {minutes.EpmdConnectionsNearLimit:word} minutes {remote} connections or more
        have been open, of {command.CONNECTIONS_MOST:,}.
        by default {command.PORT}.""",
    "docs/epmd-prune.1": "",
    "docs/epmd-report.1": """
        at most {report.NAMES_MOST} names
        and {report.LETTERS_MOST} letters of a name
        at most {report.SPELLS_MOST} registrations
        at most {report.REFUSALS_MOST} rows of refusals
        at most {page.COLUMNS} columns of a chart
        The {report.WORST:word} minutes with
        and {report.COLUMNS} if you zoom in
        at most {report.MARKS_MOST} marks""",
    "docs/INSTALL.md": "",
    "docs/ARCHITECTURE.md": """
        1 to {book.SEATS_MOST} worker threads
        `advance`: {book.ADVANCE_MOST:,} entries
        Desk::advance: at most {book.ADVANCE_MOST:,} entries
        at most {daemon.LINES_BYTES_MOST:KiB} KiB""",
    CONTRIBUTING: """
        all permits but {worker.RESERVED_SHARE:share}: {remote} of {command.CONNECTIONS_MOST:,} at most""",
    "SECURITY.md": """
        at most one in {operator.NOTICE_SECONDS:word} seconds""",
    "contrib/prometheus/epmd.rules.yml": """
        At most {command.CONNECTIONS_MOST:,} are registered
        (epmd_names) >= {names_near}
        From {command.NAMES_MOST:,} on
        epmd_connections >= {remote}
        within {window.refusals_total:word} minutes
        hold all {command.CONNECTIONS_MOST:,}
        sport = :{command.PORT}""",
    "contrib/prometheus/epmd.test.yml": """
        knows {names_near} names
        From {command.NAMES_MOST:,} on
        has {remote} connections
        hold all {command.CONNECTIONS_MOST:,}
        sport = :{command.PORT}""",
    "contrib/grafana/epmd.json": """
        At {command.NAMES_MOST:,} names
        "orange", "value": {names_near}}}, {{"color": "red", "value": {command.NAMES_MOST}}}
        At most {command.CONNECTIONS_MOST:,}, of which peers of other hosts may have {remote:,}.
        "orange", "value": {remote}}}, {{"color": "red", "value": {command.CONNECTIONS_MOST}}}""",
    "docs/DECISIONS.md": """
        except {worker.RESERVED_SHARE:share} of all""",
    # Numbers that other code and tests repeat.
    "tests/test_peers.py": """
        PLACES - PLACES // {worker.RESERVED_SHARE}""",
    "contrib/units/proved.conf": """
        {command.CONNECTIONS_MOST:,} connections""",
    "contrib/epmd_recording.py": """
        NAME_MOST, BODY_MOST = {wire.NAME_MOST}, {wire.BODY_MOST}""",
    "crates/simulation/src/checks.rt": """
        const KEPT_SHARE: u32 = {worker.RESERVED_SHARE};
        const LOG_BYTES_HEAVY: u64 = {worker.LOG_BYTES_HEAVY:_};
        const SHORT_OF_MEMORY_MS: u64 = {worker.SHORT_OF_MEMORY_MS};""",
    "crates/simulation/src/polls.rt": """
        (places / {worker.RESERVED_SHARE}).min(left / 2)""",
    "crates/simulation/src/priority.rt": """
        const MANY_SHARE: u64 = {worker.UNSENT_HEAVY_SHARE};
        const SPARED_SHARE: u64 = {worker.UNSENT_SPARED_SHARE};""",
}
# The files of which each number is in LIMITS or in OTHERS.
PAGES = ["README.md", "docs/PROTOCOL.md", "docs/INSTALL.md"]
PAGES += [path for path in LIMITS if path.endswith((".1", ".3", ".h", ".rules.yml", ".json"))]
# Other numbers, as parts of sentences too, in which # is any number: measurements, counts, bytes of a format, examples, limits of others.
OTHERS = {
    "README.md": """
        With # names it answers # to # times
        With # names it uses up to
        # of # public functions
        port 24400 with data: name one at port 41231
        say 760000000004 stay""",
    "docs/PROTOCOL.md": """
        ALIVE (byte 97) and PORT_PLEASE (byte 112)
        none below 32 and none 127; bytes from 128 up
        its length in two bytes
        a creation of 4 bytes
        a creation of 2 bytes""",
    "docs/epmd.1": """
        1 to 65535
        each at most 255, separated by dots
        with # MB, # names fit instead of #
        adds 52 bytes and twice
        adds 40 bytes and the length
        these are 42 to 65 bytes
        another 12 bytes
        with the statuses 143, 130 and 129
        if 200 starts fail in 10 seconds
        register again within 3 seconds
        by themselves within 2 to 3 seconds
        the port is below 1024""",
    "docs/epmd_client.3": """
        a byte that is below 32 or 127
        listens on port 5000""",
    "include/epmd_client.h": """
        a byte that is below 32 or 127
        fewer than 4 bytes
        the two bytes of its length""",
    "docs/epmd-log.1": """
        the form of ISO 8601""",
    "docs/INSTALL.md": """
        within three seconds
        and systemd 252 and 257""",
    "docs/epmd-metrics.1": """
        which takes about two seconds""",
    "contrib/prometheus/epmd.rules.yml": """
        > 300 or epmd_figures_age_seconds > 300""",
}
# A number or its word with a unit, or a number of three digits or more.
UNIT = r"(?= (?:[KMG]i?B|bytes|seconds|milliseconds|minutes|ms|s|names|connections|permits)\b)"
WORD = "|".join(WORDS[2:] + "eleven twelve fifteen twenty thirty forty fifty sixty hundred thousand".split())
NUMBER = re.compile(rf"(?<![\w.:/=,-])(?:(?:[\d,]*\d|{WORD}){UNIT}|[\d,]*\d{{3}}(?!\w|[.:/-]\w))")
# Of manual pages: examples, and macros that name a page or a path.
EXAMPLES = re.compile(r"(?ms)^\.(?:Dd|Dt|Xr|Dl|Pa|It Pa) [^\n]*$|^\.Bd.*?^\.Ed$")


def flat(words):
    return " ".join(words.split())


def parts(page):
    return [flat(line) for line in page.strip().split("\n") if line]


class Limits(unittest.TestCase):
    NUMBERS = all_numbers()

    def said(self, path):
        return [part.format(**self.NUMBERS) for part in parts(LIMITS[path])]

    def stating(self, name, row):
        """The files that state another number if a constant of this name is doubled. It is of a crate that the row names, or of workers."""
        for crate, own in self.NUMBERS.items():
            if hasattr(own, name) and (f"portmap_{crate}" in row or crate == "worker"):
                doubled = types.SimpleNamespace(**{**vars(own), name: Number(2 * vars(own)[name])})
                changed = self.NUMBERS | {crate: doubled}
                changed |= derived(changed)
                yield from (path for path, page in LIMITS.items() if page.format(**changed) != page.format(**self.NUMBERS))

    def others(self, path):
        return [re.compile(re.escape(part).replace(r"\#", r"[\d,]+")) for part in parts(OTHERS.get(path, ""))]

    def test_each_limit_is_that_of_the_code(self):
        for path in LIMITS:
            page = flat(text(path))
            with self.subTest(path):
                self.assertEqual([part for part in self.said(path) if part not in page], [])

    def test_no_page_states_another_limit(self):
        for path in PAGES:
            page = flat(EXAMPLES.sub("", text(path)))
            for part in self.said(path):
                page = page.replace(part, " ")
            for other in self.others(path):
                page = other.sub(" ", page)
            with self.subTest(path):
                self.assertEqual([page[max(0, found.start() - 30):found.end() + 30] for found in NUMBER.finditer(page)], [])

    def test_a_row_of_contributing_names_each_file_that_states_its_constant(self):
        tables = re.search(r"(?ms)^### Names, requests and the machine$(.*?)^### A new action", text(CONTRIBUTING))[1]
        count = 0
        for table in tables.split("\n### "):
            notes = re.findall(r"(?s)(?:\((\d)\)|\n(\d)\.) ((?:(?!\s\(\d\) |\n\d\. ).)*)", re.sub(r"(?m)^\|.*", "", table))
            for row in re.findall(r"(?m)^\| [^|\n].*\n(?:\| \|.*\n)*", table):
                row += " ".join(note for one, two, note in notes if f"({one or two})" in row)
                files = {path for name in re.findall(r"`([A-Z][A-Z_]+)`", row) for path in self.stating(name, row)} - {CONTRIBUTING}
                # A page goes by its title, alerts and dashboard by their folders, any other file by its name.
                names = {re.search(r"(prometheus|grafana)|([^/]+?)(?:\.md)?$", path)[0].removesuffix(".md") for path in files}
                self.assertEqual({name for name in names if name not in row}, set(), row)
                count += len(names)
        self.assertGreater(count, 25)

    def test_each_other_number_is_there(self):
        for path in OTHERS:
            page = flat(text(path))
            self.assertEqual([other.pattern for other in self.others(path) if not other.search(page)], [], path)


class Words(unittest.TestCase):
    """The words of the command. test_completions.py compares the help of the wrapper with the completions and the synopsis."""

    READ, HELP = (f"crates/portmap_command/src/{name}.rt" for name in ("items", "help"))
    # The wrapper reads this word itself.
    OF_WRAPPER = {"-systemd"}

    @classmethod
    def setUpClass(cls):
        cls.help = programs.run([os.path.join(TOP, "contrib", "epmd"), "-help"]).stdout

    def test_the_help_has_each_word_that_is_read_and_no_other(self):
        words = set(re.findall(r'"(-[a-z_]+)"', text(self.READ)))
        self.assertGreater(len(words), 20)
        self.assertEqual(set(re.findall(r"(?<![\w(-])-\w+", self.help)), words | self.OF_WRAPPER)

    def test_the_program_and_the_wrapper_print_the_same_help(self):
        printed = re.search(r'HELP: &\[u8\] = b"([^"]*)";', text(self.HELP))[1]
        self.assertEqual(printed.replace("\\\n", ""), self.help)

    def test_contributing_names_each_file_that_lists_the_commands(self):
        commands = {"".join(pair) for pair in re.findall(r'"(-[a-z]+)" => Word::Act|"(-[a-z]+)" => (?:Text|return)', text(self.READ))}
        commands -= {"-help", "-version"}
        self.assertGreater(len(commands), 8)
        listing = []
        for pattern in "README.md", "docs/*.1", "contrib/*", "contrib/completions/*", "tests/*.py", "crates/*command*/src/**/*.rt":
            for path in glob.glob(pattern, root_dir=TOP, recursive=True):
                words = re.findall(r"(?:-|\bFl )([a-z]+)\b", text(path)) if os.path.isfile(os.path.join(TOP, path)) else []
                if commands <= {f"-{word}" for word in words}:
                    listing.append(path)
        self.assertGreater(len(listing), 6)
        # A page goes by its name, a file of a crate by that below `src`, and the completions by their folder.
        names = {path: re.sub(r"^(?:docs/|crates/\w+/src/)|(?<=completions)/.*", "", path) for path in listing}
        steps = re.search(r"(?ms)^### A new action of the command$(.*?)^#", text(CONTRIBUTING))[1]
        self.assertEqual([path for path, name in names.items() if name not in steps], [])


class Client(unittest.TestCase):
    """The header, beside the manual page and the version of the package."""

    HEADER = text("include/epmd_client.h")

    def test_the_version_is_that_of_the_package(self):
        self.assertEqual(re.search(r'define EPMD_CLIENT_VERSION "(.*)"', self.HEADER)[1], text("VERSION").strip())

    def test_it_compiles_alone(self):
        include = os.path.join(TOP, "include")
        for compiler, language in ("cc", "c"), ("c++", "c++"):
            with self.subTest(compiler):
                if not shutil.which(compiler):
                    self.skipTest(f"no {compiler}")
                words = [compiler, "-x", language, "-std=c99" if language == "c" else "-std=c++11", "-fsyntax-only", "-I", include, "-"]
                done = programs.run([*words, "-Wall", "-Wextra", "-Wpedantic", "-Wshadow", "-Werror"], input='#include "epmd_client.h"\n')
                self.assertEqual((done.returncode, done.stderr), (0, ""))

    def test_each_status_has_a_text_which_is_that_of_the_manual_page(self):
        texts = re.findall(r'case (EPMD_\w+): return "(.*)";', self.HEADER)
        rows = re.findall(r'(?m)^\.It (\d+) Ta Dv (EPMD_\w+) Ta "(.*)"$', text("docs/epmd_client.3"))
        self.assertEqual([(name, words) for _, name, words in rows], texts)
        self.assertEqual([(name, number) for number, name, _ in rows], re.findall(r"(?m)^    (EPMD_\w+) = (\d+)", self.HEADER))


if __name__ == "__main__":
    unittest.main()
