#!/usr/bin/env python3
"""Compares what the documents, the manual page and the code all say, and finds what a document names that isn't there.

usage: tools/check_documents.py

It prints a line for each thing that is wrong, and the status is 1 then, else 0. It looks at README.md, docs/ and
bench/RESULTS.md:

- the options of `replay`, with their ranges and defaults: docs/USE.md, docs/zcrx.1, and options.rt of command_words, with the
  bounds of layout.rt of area_layout; their names and the commands in completions/ too, and the usage in wrong.rt;
- the statuses: docs/USE.md, docs/zcrx.1, fault.rt and Fault.antt of zr_kinds, and how a reading may end by FramesRead.antt of
  card_feed, from which the top call's theorem has the statuses of a replay;
- the limits that the documents name (LIMITS below): each number is that of its constant; the words of slots in docs/BOARDS.md are
  those of slots.rt of word_rings;
- the lines of the report: docs/USE.md, docs/zcrx.1, and top_call; each report that is shown has them, and README's is the
  demo capture's;
- the crates: each of crates.txt has its paragraph in docs/MAP.md, and what it stands on isn't told there again;
- each relative link, with its heading, each file or script that is named, and each name in code font that looks like one of
  the code: it stands somewhere under crates/, outside comments;
- each example in Rattle of docs/USE.md is the whole text of a file that tests run (EXAMPLES below), and the line of crates.txt
  before it has the crates that its section imports; the examples with a `$` print what stands there, where the proved program
  was built;
- the figures of docs/MAP.md are those that tools/house.py counts;
- README.md has at most 130 lines.

And it says in which files under crates/ the imports aren't in their form (tools/house.py --imports).
"""

import pathlib
import re
import subprocess
import sys
import tempfile

TOP = pathlib.Path(__file__).resolve().parent.parent
DOCUMENTS = [TOP / "README.md", *sorted((TOP / "docs").glob("*.md")), TOP / "bench" / "RESULTS.md"]
MOST_LINES = 130
# The proved program, where it was built.
PROGRAM = TOP / "crates" / "zcrx_cli" / "out" / "zcrx_cli"

# Words in code font that name nothing under crates/: commands, and the goal that stands as an example.
COMMANDS = set("rt tcpdump dumpcap tcpflow callgrind malloc ulimit returns-in-Err-clause-turn".split())
# Options of other programs, and those that there aren't.
OTHER_OPTIONS = set("--help --version --name --from --to".split())
# Files that a run makes, or that the text gives a name.
MADE_FILES = set("made.pcap flow-N.bin proofs/PATH/OF/FUNCTION/Answers.antt".split())
# Faults that no replay ends with.
OF_NO_REPLAY = {"Usage", "BadRun"}
KINDS, RECORDS, BLOCKS = "crates/zr_kinds/src/limits.rt", "crates/zr_kinds/src/event.rt", "crates/pcapng_reader/src/section.rt"
# What documents say of a limit, at each place where the text stands: `#` is the limit, `#th` its ordinal, `#next` that of one more.
LIMITS = [
    ("README.md", "MOST_FLOWS", KINDS, "follows up to # flows"),
    ("docs/USE.md", "MOST_FLOWS", KINDS, "# flows is too much"),
    ("docs/USE.md", "MOST_FLOWS", KINDS, "#next flow would begin"),
    ("docs/zcrx.1", "MOST_FLOWS", KINDS, "#next flow would begin"),
    ("docs/FORMATS.md", "MOST_FLOWS", KINDS, "#next flow would begin"),
    ("docs/MAP.md", "MOST_FLOWS", KINDS, "would begin the #next flow"),
    ("docs/USE.md", "MOST_RECORDS", KINDS, "of more than # frames"),
    ("docs/USE.md", "MOST_RECORDS", KINDS, "a whole #next record"),
    ("docs/zcrx.1", "MOST_RECORDS", KINDS, "a whole #next record"),
    ("docs/FORMATS.md", "MOST_RECORDS", KINDS, "record after the #th"),
    ("docs/MAP.md", "MOST_RECORDS", KINDS, "exactly at # records"),
    ("docs/PROOFS.md", "MOST_RECORDS", KINDS, "# and 1: the feed's own count"),
    ("docs/USE.md", "LONGEST_RECORD", KINDS, "states more than # captured bytes"),
    ("docs/zcrx.1", "LONGEST_RECORD", KINDS, "states more than # captured bytes"),
    ("docs/FORMATS.md", "LONGEST_RECORD", KINDS, "captured length is above #: `LongRecord`"),
    ("docs/MAP.md", "LONGEST_RECORD", KINDS, "some 260 at most, of up to # bytes"),
    ("docs/FORMATS.md", "MAX_OTHERS", BLOCKS, "this is the #next block"),
    ("docs/BOARDS.md", "LONGEST_PAYLOAD", KINDS, "payload of # bytes at most"),
    ("docs/MAP.md", "LONGEST_PAYLOAD", KINDS, "payload has at most # bytes"),
    ("docs/PROOFS.md", "LONGEST_PAYLOAD", KINDS, "a payload has # at most"),
    ("README.md", "MOST_EVENTS", RECORDS, "of # events at most"),
    ("docs/USE.md", "MOST_EVENTS", RECORDS, "`more` behind the first #."),
    ("docs/zcrx.1", "MOST_EVENTS", RECORDS, "at most # events"),
    ("docs/FORMATS.md", "MOST_EVENTS", RECORDS, "at most # events"),
    ("docs/MAP.md", "MOST_EVENTS", RECORDS, "with room for # events"),
    ("docs/THEOREM.md", "MOST_EVENTS", RECORDS, "It has the first #"),
]
# The examples of docs/USE.md: the files of each section, in order.
EXAMPLES = {"Loans as a stream": ["lines", "shelf"], "Forwarding": ["forwarding"]}
# The libraries that the crates stand on have no file here.
OUTSIDE = set("std core alloc".split())

wrong = []


def say(where, what):
    wrong.append(f"{where}: {what}")


def read(path):
    return (TOP / path).read_text(encoding="utf-8")


def compare(what, stated):
    """`stated` says of each place what stands there: all must be the same."""
    (first, wanted), *others = stated.items()
    for place, found in others:
        if found == wanted:
            continue
        if isinstance(found, dict) and isinstance(wanted, dict):
            for key in sorted(set(found) | set(wanted), key=str):
                if found.get(key) != wanted.get(key):
                    say(place, f"{what} {key}: {found.get(key)}, but {first} has {wanted.get(key)}")
        else:
            say(place, f"{what}: {found}, but {first} has {wanted}")


def number(text):
    return int(re.sub(r"[_,]", "", text))


def rows(text, heading):
    """The cells of the first table behind a heading."""
    behind = text.split(f"\n## {heading}\n", 1)[1]
    table = re.search(r"(?m)^\|.*\n\|[-|]+\n((?:\|.*\n)+)", behind)
    return [[cell.strip() for cell in line.strip("|").split("|")] for line in table.group(1).splitlines()]


def plain(page):
    """The manual page's text, without its marks of fonts."""
    page = re.sub(r"\\f[BIRP]", "", page)
    return page.replace("\\-", "-").replace("\\~", " ")


def section(page, name):
    return page.split(f".SH {name}\n", 1)[1].split("\n.SH ", 1)[0]


def entries(page, name):
    """The head and the text of each entry of a section."""
    for entry in section(page, name).split(".TP\n")[1:]:
        head, _, text = entry.partition("\n")
        yield re.sub(r"^\.[BIR]+ ", "", head), text


# ---- options

def options_of_code():
    code = read("crates/command_words/src/options.rt")
    def listed(name):
        return re.findall(r'"(\w+)"', re.search(rf"\b{name}: \[&str; \d+\] = \[(.*?)\]", code, re.S).group(1))

    names = listed("NAMES")
    flags = listed("FLAGS")
    bounds = dict(re.findall(r"pub const (\w+): \w+ = ([\d_]+);", read("crates/area_layout/src/layout.rt")))

    def bound(word):
        return number(bounds.get(word, word))

    numbers = {
        const: (bound(least), bound(most), number(default))
        for const, default, least, most in re.findall(
            r"const (\w+): Number = Number \{\s*default: ([\d_]+),\s*least: (\w+),\s*most: (\w+),", code
        )
    }
    options = {name: numbers[const] for const, name in re.findall(r'(\w+)\.read\(said\.get_str\("(\w+)"\)\)', code)}
    options["areas"] = (1, bound("MAX_AREAS"), None)
    options["buffers"] = numbers["BUFFERS"]
    options["size"] = numbers["SIZE"]
    options["quit"] = "any number"
    options["turns"] = (1, number(re.search(r"MOST_TURNS: usize = ([\d_]+)", code).group(1)), None)
    options["forward"] = (0, number(re.search(r"MOST_DELAY: u32 = ([\d_]+)", code).group(1)), None)
    options |= {name: "a flag" for name in flags}
    return {name: options.get(name) for name in names + flags}, bound("MAX_BYTES")


def range_of(text, default):
    for kind in ("any number", "a flag"):
        if kind in text.lower():
            return kind
    least, most = re.search(r"([\d,]+) to ([\d,]+)", text).groups()
    return number(least), number(most), number(default) if re.fullmatch(r"[\d,]+", default or "") else None


def check_options(page):
    wanted, most_bytes = options_of_code()
    use = {row[0].strip("`-"): range_of(row[1], row[2]) for row in rows(read("docs/USE.md"), "Words")}
    manual = {}
    for head, text in entries(page, "OPTIONS"):
        default = re.search(r"\(([\d,]+)\)", text)
        manual[head.split()[0].strip("-")] = range_of(text, default and default.group(1))
    compare("option", {"options.rt": wanted, "docs/USE.md": use, "docs/zcrx.1": manual})
    reading = read("crates/command_words/src/reading.rt")
    commands = sorted(re.findall(r'word == "(\w+)"', reading))
    offered = {
        "completions/zcrx.bash": r'(?<=[" ])--([a-z]+)(?=[ "])',
        "completions/_zcrx": r"'--([a-z]+)\[",
        "crates/command_words/src/wrong.rt": r"--([a-z]+) ",
    }
    for place, form in offered.items():
        text = read(place)
        compare("names of options", {"options.rt": sorted(wanted), place: sorted(set(re.findall(form, text)))})
        for command in commands:
            if not re.search(rf"\b{command}\b", text):
                say(place, f"no command {command}")
    for place, text in (("docs/USE.md", read("docs/USE.md")), ("docs/zcrx.1", page)):
        if not re.search(rf"\b{most_bytes}\b", text.replace(",", "")):
            say(place, f"no limit of {most_bytes} bytes for all buffers")
    return set(wanted)


# ---- statuses

def check_statuses(page):
    fault = read("crates/zr_kinds/src/fault.rt")
    code = {n: name for name, n in re.findall(r"(?m)^    (\w+) = (\d+),$", fault)}
    defined = {n: name for name, n in re.findall(r"(?m)^number_of (\w+) = (\d+)$", read("crates/zr_kinds/specs/Fault.antt"))}
    compare("status", {"fault.rt": code, "Fault.antt": defined})
    listed = re.findall(r"Fault::(\w+),", re.search(r"ALL: \[Fault; \d+\] = \[(.*?)\]", fault, re.S).group(1))
    compare("the faults", {"fault.rt": list(code.values()), "its list ALL": listed})
    table = {row[0]: row[1].strip("`") for row in rows(read("docs/USE.md"), "Statuses") if row[0] != "0"}
    compare("status", {"fault.rt": code, "docs/USE.md": table})

    # A meaning is told in other words on the page, but with the same numbers.
    def numbers_in(text):
        return sorted(re.findall(r"\d+", text.replace(",", "")))

    use = {row[0]: numbers_in(row[2]) for row in rows(read("docs/USE.md"), "Statuses")}
    manual = {head: numbers_in(text.split("\n.PP", 1)[0]) for head, text in entries(page, "EXIT STATUS")}
    compare("the numbers of status", {"docs/USE.md": use, "docs/zcrx.1": manual})

    # A replay answers by how its reading ended, or that a shelf or the sink failed.
    reading = read("crates/card_feed/specs/FramesRead.antt")
    endings = re.findall(r"(?m)^IsEnding \(Some (\w+)\) = Unit", reading)
    compare("statuses of a replay", {
        "fault.rt": sorted(name for name in code.values() if name not in OF_NO_REPLAY),
        "FramesRead.antt": sorted([*endings, "Write"]),
    })


# ---- limits

def ordinal(value):
    ending = "th" if value // 10 % 10 == 1 else {1: "st", 2: "nd", 3: "rd"}.get(value % 10, "th")
    return f"{value:,}{ending}"


def check_limits():
    """Each limit that a document names: its constant, the file that has the constant, and the document's text."""
    for document, constant, file, text in LIMITS:
        limit = number(re.search(rf"const {constant}: \w+ = ([\d_]+);", read(file)).group(1))
        mark = re.search(r"#\w*", text).group(0)
        wanted = {"#": f"{limit:,}", "#th": ordinal(limit), "#next": ordinal(limit + 1)}[mark]
        before, behind = map(re.escape, text.split(mark))
        form = r"([\d,]*\d)" if mark == "#" else r"([\d,]*\d(?:st|nd|rd|th))"
        found = [*re.finditer(before + form + behind, " ".join(plain(read(document)).split()))]
        if not found:
            say(document, f"no '{text}', for {constant}")
        for place in found:
            if place.group(1).replace(",", "") != wanted.replace(",", ""):
                say(document, f"{constant} is {limit:,}, but it says '{place.group(0)}' in the place of {wanted}")


def check_slots():
    """The words of a slot of each ring, in the table of words."""
    fields, payload, refill = (
        number(re.search(rf"const {name}: usize = ([\d_]+);", read("crates/word_rings/src/slots.rt")).group(1))
        for name in ("NOTE_FIELDS", "PAYLOAD_WORDS", "REFILL_WORDS")
    )
    for row in (
        f"| note slots | n * p * {fields + payload} | a flag, {fields - 1} words of fields, {payload} words of bytes |",
        f"| refill slots | n * p * {refill} |",
    ):
        if row not in read("docs/BOARDS.md"):
            say("docs/BOARDS.md", f"no row '{row}'")


# ---- the report

def shape(line):
    """The words of a line, with `_` where a value stands."""
    return re.sub(r"\{\w*\}|\b[A-Z]\b", "_", line.replace("\\n", "")).split()


def lines_of_code():
    """The lines that top_call writes, and in which order the kinds of lines stand."""
    code = read("crates/top_call/src/lines.rt") + read("crates/top_call/src/report.rt")
    written = []
    order = []
    for body in re.findall(r"fn fmt<.*?\n    \}\n", code, re.S):
        texts = re.findall(r"write(?:ln)?!\((.*?)\)[?;\n]", body, re.S)
        line = "".join(re.findall(r'"((?:[^"\\]|\\.)*)"', "".join(texts)))
        parts = re.match(r"(?:\{\w+\}){2,}", line)
        if parts:
            line = line[parts.end():]
            order = [name.rstrip("s") for name in re.findall(r"\w+", parts.group(0))] + [line.split()[0]]
        if line:
            written.append(shape(line))
    return written, order


def check_report(page):
    use = read("docs/USE.md").split("\n## The report\n", 1)[1]
    forms = [line for line in re.search(r"(?:^    .*\n)+", use, re.M).group(0).splitlines()]
    use_lines = [shape(line) for line in forms]
    manual = [shape(re.sub(r"^\.\w+ ", "", head)) for head, _ in entries(page, "REPORT")]
    for place, line in enumerate(use_lines):
        if manual[place:place + 1] != [line]:
            say("docs/zcrx.1", f"line {place + 1} of the report isn't '{' '.join(line)}'")
    code, order = lines_of_code()
    compare("order of the lines", {"report.rt": order, "docs/USE.md": [line[0] for line in use_lines]})
    for line in use_lines:
        if line not in code:
            say("docs/USE.md", f"top_call writes no line '{' '.join(line)}'")
    # Each report that is shown.
    kinds = {line[0]: re.compile(r" ".join(r"\w+" if word == "_" else word for word in line)) for line in use_lines}
    for document in DOCUMENTS:
        for shown in re.findall(r"(?m)^    ((?:capture records|app \d|flow \d|refused \d|pool fast|status \d).*)$", document.read_text()):
            if not kinds[shown.split()[0]].fullmatch(shown) and shape(shown) not in use_lines:
                say(document.relative_to(TOP), f"a report has no line '{shown}'")
    report = "".join(f"    {line}\n" for line in read("demo-data/hello.report").splitlines())
    if report not in read("README.md"):
        say("README.md", "the report isn't demo-data/hello.report")


# ---- the crates

def crates():
    lines = [line for line in read("crates.txt").splitlines() if line and not line.startswith("#")]
    return {name: below.split() for name, below in (line.split(":") for line in lines)}


def check_crates():
    wanted = crates()
    text = read("docs/MAP.md").split("\n## The crates\n", 1)[1]
    found = [name for head in re.findall(r"(?m)^### (.*)$", text) for name in head.split(", ")]
    for name in sorted(set(wanted) ^ set(found)):
        say("docs/MAP.md", f"no paragraph on {name}" if name in wanted else f"a paragraph on {name}, which crates.txt doesn't have")
    for paragraph in re.findall(r"(?i)\bstands\s+on: .*", text):
        say("docs/MAP.md", f"crates.txt has what a crate stands on: '{paragraph}'")
    stands_on = set()
    waiting = ["zcrx_cli"]
    while waiting:
        crate = waiting.pop()
        if crate in wanted and crate not in stands_on:
            stands_on.add(crate)
            waiting += wanted[crate]
    below = len(stands_on) - 1
    if f"the {below} crates that the program stands on" not in " ".join(read("README.md").split()):
        say("README.md", f"the program stands on {below} crates")


# ---- links, files and names

def prose(text):
    """A document without its blocks of code."""
    return re.sub(r"(?<=\n\n)(?:    .*\n)+", "", text)


def anchors(path):
    heads = re.findall(r"(?m)^#+ (.*)$", path.read_text(encoding="utf-8"))
    return {re.sub(r"[^\w\- ]", "", head.lower()).replace(" ", "-") for head in heads}


def check_links(document, text):
    for target in re.findall(r"\]\(([^)]+)\)", text):
        if re.match(r"\w+:", target):
            continue
        path, _, anchor = target.partition("#")
        file = (document.parent / path).resolve() if path else document
        if not file.exists():
            say(document.relative_to(TOP), f"no file {target}")
        elif anchor and anchor not in anchors(file):
            say(document.relative_to(TOP), f"no heading {target}")


def words_of_code():
    """The names that the code under crates/ has outside comments, and those of its files and of the edits beside the gate's."""
    files = {path.name for path in (TOP / "crates").glob("*/*")}
    names = {path.stem for path in (TOP / "more-edits").glob("*/*.edit")}
    for folder in ("src", "specs", "proofs", "must-fail"):
        for path in (TOP / "crates").glob(f"*/{folder}/**/*"):
            files.add(path.name)
            names.add(path.stem)
            if path.suffix in (".rt", ".antt"):
                comment = r"(?m)//.*$" if path.suffix == ".rt" else r"(?m)^\s*-- .*$"
                text = re.sub(comment, "", path.read_text(encoding="utf-8"))
                names.update(re.findall(r"[A-Za-z_]\w*(?:-\w+)*", text))
    return names, files


# What looks like a file: a folder before it, or an ending.
FILE = re.compile(r"[\w.*/+-]+/[\w.*+-]*|[\w+-]+\.(?:rt|antt|py|sh|md|pcap|report|edit|bin|txt|1)")
NAME = re.compile(r"[A-Za-z_][\w]*(?:-[\w]+)*")


def check_file(document, span, files):
    if span in MADE_FILES or span.startswith(("/", "crates/*/", "crates/zcrx_cli/out")) or "networking/" in span:
        return
    if "/" in span:
        folders = [TOP, document.parent, TOP / "crates", *(TOP / "crates").glob("*")]
        if not any(list(folder.glob(span.rstrip("/"))) for folder in folders):
            say(document.relative_to(TOP), f"no file {span}")
    elif span not in files and not any((TOP / folder / span).exists() for folder in (".", "docs", "tools", "demo-data")):
        say(document.relative_to(TOP), f"no file {span}")


def check_span(document, span, names, files, options):
    where = document.relative_to(TOP)
    for option in re.findall(r"(?:^|(?<=\s))--[A-Za-z]+", span):
        if option[2:] not in options and option not in OTHER_OPTIONS:
            say(where, f"no option {option}")
    if FILE.fullmatch(span):
        check_file(document, span, files)
        return
    # A path of names, or a call: `Own::new`, `told.ports`, `place(&mut own, ..)`.
    path = re.match(r"[A-Za-z_][\w-]*(?:(?:::|\.)[A-Za-z_][\w-]*)*", span)
    if not path or path.end() != len(span) and span[path.end()] != "(":
        return
    if path.group(0).split("::")[0] in OUTSIDE:
        return
    for name in re.split(r"::|\.", path.group(0)):
        if NAME.fullmatch(name) and name not in names:
            say(where, f"no {name} under crates/")


def check_names(options):
    names, files = words_of_code()
    names |= files | COMMANDS | set(crates())
    names.update(below for all_below in crates().values() for below in all_below)
    for document in DOCUMENTS:
        text = document.read_text(encoding="utf-8")
        check_links(document, text)
        for span in re.findall(r"`([^`\n]+)`", prose(text)):
            check_span(document, span, names, files, options)
        for script in re.findall(r"\b(?:tools|bench|docs|demo-data)/[\w./-]*\w", text):
            if not (TOP / script).exists():
                say(document.relative_to(TOP), f"no file {script}")
    outside = [TOP / "Makefile", *TOP.glob("tools/*.*"), *TOP.glob("bench/*.sh"), *TOP.glob("crates/*/src/**/*.rt"), *TOP.glob("crates/*/specs/*.antt")]
    for path in outside:
        for named in re.findall(r"\bdocs/[\w.]*\w", path.read_text(encoding="utf-8")):
            if not (TOP / named).exists():
                say(path.relative_to(TOP), f"no file {named}")


def check_examples():
    """Each block of a section is the whole text of its file, in order, and the section's line names what they import."""
    use = read("docs/USE.md")
    blocks = re.findall(r"```rust\n(.*?)```", use, re.S)
    files = [f"crates/app_runs/src/example/{name}.rt" for names in EXAMPLES.values() for name in names]
    compare("how many examples there are", {"EXAMPLES": len(files), "docs/USE.md": len(blocks)})
    for heading, names in EXAMPLES.items():
        section_text = use.split(f"\n## {heading}\n", 1)[1].split("\n## ", 1)[0]
        shown = re.findall(r"```rust\n(.*?)```", section_text, re.S)
        for place, name in enumerate(names):
            file = f"crates/app_runs/src/example/{name}.rt"
            if shown[place:place + 1] != [read(file)]:
                say("docs/USE.md", f"example {place + 1} of '{heading}' isn't {file}")
            if f"mod {name};" not in read("crates/app_runs/src/example.rt"):
                say("crates/app_runs/src/example.rt", f"no example {name}")
        line = re.search(r"(?m)^    \w+: (.*)$", section_text.split("```", 1)[0])
        imported = set(re.findall(r"(?m)^(?:ghost use Rattle\.|use )(\w+)", "".join(shown))) - OUTSIDE
        compare(f"crates that '{heading}' imports", {
            "its examples": sorted(imported),
            "docs/USE.md": sorted(line.group(1).split()) if line else [],
        })


def capture_of(name):
    """The bytes of a capture that docs/USE.md names."""
    if name == "hello.pcap":
        return (TOP / "demo-data" / name).read_bytes()
    return subprocess.run([PROGRAM, "make", "7", "40"], capture_output=True, check=True).stdout


def check_runs():
    """Each example with a `$` prints what stands there. `..` is any lines, and `capture` and `status 0` may be left out."""
    if not PROGRAM.exists():
        return
    for words, name, shown in re.findall(r"(?m)^    \$ zcrx (.*) < (.*)\n((?:    .*\n)+)", read("docs/USE.md")):
        with tempfile.TemporaryDirectory() as folder:
            run = subprocess.run([PROGRAM, *words.split()], input=capture_of(name), capture_output=True, cwd=folder)
        wanted = [line.strip() for line in shown.splitlines()]
        left_out = tuple(word for word in ("capture", "status 0") if not any(line.startswith(word) for line in wanted))
        said = "".join(f"{line}\n" for line in run.stdout.decode().splitlines() if not left_out or not line.startswith(left_out))
        form = "".join("(?:.*\n)*" if line == ".." else re.escape(line) + "\n" for line in wanted)
        if not re.fullmatch(form, said):
            say("docs/USE.md", f"zcrx {words} prints: {said!r}")


def check_house():
    """The figures of contracts, and which files' imports aren't in their form."""

    def told(*flags):
        return subprocess.run([TOP / "tools" / "house.py", *flags], capture_output=True, text=True).stdout.splitlines()

    counted = {of: int(count) for count, of in (line.split(None, 1) for line in told())}
    stated = {of: number(count) for count, of in rows(read("docs/MAP.md"), "Figures")}
    compare("how many", {"tools/house.py": counted, "docs/MAP.md": stated})
    for line in told("--imports"):
        say("imports", line)


def main():
    page = plain(read("docs/zcrx.1"))
    options = check_options(page)
    check_statuses(page)
    check_limits()
    check_slots()
    check_report(page)
    check_crates()
    check_names(options)
    check_examples()
    check_runs()
    check_house()
    lines = len(read("README.md").splitlines())
    if lines > MOST_LINES:
        say("README.md", f"{lines} lines, more than {MOST_LINES}")
    print("\n".join(dict.fromkeys(wrong)) if wrong else "documents: nothing wrong")
    return 1 if wrong else 0


if __name__ == "__main__":
    sys.exit(main())
