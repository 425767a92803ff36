#!/usr/bin/env python3
"""Counts what makes contracts long to read, and finds imports that aren't in the repository's form.

usage: tools/house.py [--crates | --names | --imports | --write-imports]

Without a flag it prints a table of figures, one a line: crates, clauses of public functions, texts of clauses that stand at many functions,
definitions with many positions, names that stand in several crates, wide lines, imports. `--crates` prints the clauses crate by crate,
`--names` the names of specs/ that stand in several crates, with those crates. `--imports` prints each file whose imports could be fewer
lines: those of one crate stand together as one line of nested groups, unless it would be longer than 168 columns. `--write-imports`
writes them so. The status is 1 where `--imports` finds something.
"""

import collections
import pathlib
import re
import sys

TOP = pathlib.Path(__file__).resolve().parent.parent
CRATES = TOP / "crates"
# At most so many columns has a line of imports.
MOST_COLUMNS = 168
# From here on a line of a contract is wide.
WIDE = 100
# A clause's text is repeated where it stands at least so often, and a definition has many positions from so many on.
OFTEN, MANY = 4, 8

CLAUSE = re.compile(r"^\s*(?:requires|ensures)\b")
FUNCTION = re.compile(r"^\s*(pub(?:\(\w+\))?\s+)?fn\s+(\w+)")
DEFINED = re.compile(r"^(?:(?:abbrev|record|unfoldable|data) )*pub (?!use |mod )(?:(?:abbrev|record|data) )*([^\s:{(]+)\s*(.*)$")
IMPORT = re.compile(r"^((?:unfoldable )?(?:pub )?|\s*ghost )use Rattle\.(\w+)\.(.*?)(;?)$")


def lines_of(path):
    return path.read_text(encoding="utf-8").split("\n")


def files(crate, *parts):
    return sorted(file for part in parts for kind in ("*.rt", "*.antt") for file in (crate / part).rglob(kind))


def all_crates():
    return sorted(path for path in CRATES.iterdir() if (path / "src").is_dir())


def functions(path):
    """Each function's name, whether it is public, and its clauses, each as one line of text. Those of closures in its body aside."""
    found, in_head = [], False
    for line in lines_of(path):
        head = FUNCTION.match(line)
        if head:
            found.append((head[2], bool(head[1]), []))
            in_head = True
        elif line.strip() == "{":
            in_head = False
        elif CLAUSE.match(line) and in_head:
            found[-1][2].append(line.strip())
    return found


def clauses():
    """For each crate the clauses of its public functions, one list a function, and all clauses of any function."""
    own, every = {}, collections.Counter()
    for crate in all_crates():
        own[crate.name] = []
        for file in files(crate, "src"):
            for _, is_public, told in functions(file):
                every.update(told)
                if is_public:
                    own[crate.name].append(len(told))
    return own, every


def definitions():
    """Each definition of specs/ with its crate and the number of its positions, those in braces aside."""
    for crate in all_crates():
        for file in files(crate, "specs"):
            heads = re.sub(r"\n {4,}", " ", file.read_text(encoding="utf-8"))
            for line in heads.split("\n"):
                found = DEFINED.match(line)
                if found:
                    yield crate.name, found[1], positions(found[2])


def positions(text):
    """How many arguments a definition's first line says that it takes: names in round brackets, or arrows outside brackets."""
    depth, arrows, named = 0, 0, 0
    for at, sign in enumerate(text):
        if sign == "(" and depth == 0:
            inside = re.match(r"\(([^():]+) :", text[at:])
            named += len(inside[1].split()) if inside else 0
        depth += (sign in "({") - (sign in ")}")
        arrows += sign == "→" and depth == 0
    return max(named, arrows - text.startswith(": {"))


def shared_names():
    places = collections.defaultdict(set)
    for crate, name, _ in definitions():
        places[name].add(crate)
    return {name: crates for name, crates in places.items() if len(crates) > 1}


def parts_of(text):
    """The paths of a nested group, each with the names that stand in its innermost braces."""
    found, depth, start = [], 0, 0
    for at, sign in enumerate(text + ","):
        depth += (sign == "{") - (sign == "}")
        if sign == "," and depth == 0:
            found.append(text[start:at].strip())
            start = at + 1
    return [part for part in found if part]


def opened(path, text):
    """Each module of an import with its names: `text` is a path, perhaps with braces at its end."""
    head, brace, inside = text.partition("{")
    modules = path + [part for part in head.rstrip(".").split(".") if part]
    if not brace:
        return [(modules[:-1], [modules[-1]])]
    found = []
    for part in parts_of(inside[: inside.rindex("}")]):
        found += opened(modules, part) if "{" in part else [(modules, [part])]
    return found


def nested(found):
    """The text of such modules and names, as nested groups."""
    heads = collections.OrderedDict()
    for modules, names in found:
        heads.setdefault(modules[0] if modules else None, []).append((modules[1:], names))
    told = []
    for head, rest in heads.items():
        if head is None:
            told += dict.fromkeys(name for _, names in rest for name in names)
            continue
        path = [head]
        while all(modules for modules, _ in rest) and len({modules[0] for modules, _ in rest}) == 1:
            path.append(rest[0][0][0])
            rest = [(modules[1:], names) for modules, names in rest]
        told.append(".".join(path) + ".{" + ", ".join(nested(rest)) + "}")
    return told


def line_of(start, crate, found, end):
    told = nested(found)
    one = len(told) == 1 and told[0].endswith("}")
    return f"{start}use Rattle.{crate}." + (told[0] if one else "{" + ", ".join(told) + "}") + end


def merged(path):
    """A file's lines with those of each crate's imports together, where they fit."""
    groups, out = {}, []
    for line in lines_of(path):
        found = IMPORT.match(line)
        if not found or "{" not in line or " as " in line:
            out.append(line)
            if not line.lstrip().startswith(("ghost use", "use", "pub use", "unfoldable")) and path.suffix == ".rt":
                groups = {}
            continue
        key, modules = (found[1], found[2]), opened([], found[3])
        at = groups.get(key)
        if at is not None:
            whole = line_of(found[1], found[2], at[1] + modules, found[4])
            if len(whole) <= MOST_COLUMNS:
                out[at[0]] = whole
                at[1].extend(modules)
                continue
        groups[key] = (len(out), modules)
        out.append(line)
    return out


def check_imports(write):
    wrong = 0
    for crate in all_crates():
        for file in files(crate, "src", "specs", "proofs", "tests"):
            new = merged(file)
            if new == lines_of(file):
                continue
            wrong += 1
            print(f"{file.relative_to(TOP)}: {len(lines_of(file)) - len(new)} lines of imports fewer")
            if write:
                file.write_text("\n".join(new), encoding="utf-8")
    return 1 if wrong and not write else 0


def imports():
    return sum(1 for crate in all_crates() for file in files(crate, "src", "specs", "proofs", "tests") for line in lines_of(file) if IMPORT.match(line))


def figures():
    own, every = clauses()
    counts = [count for told in own.values() for count in told]
    repeated = sum(count for count in every.values() if count >= OFTEN)
    wide = sum(count for text, count in every.items() if len(text) + 4 > WIDE)
    many = [name for _, name, count in definitions() if count >= MANY]
    yield "crates", len(own)
    yield "public functions", len(counts)
    yield "clauses of public functions", sum(counts)
    yield "most clauses of a public function", max(counts)
    yield f"clauses of any function whose text stands at least {OFTEN} times", repeated
    yield f"clauses of any function longer than {WIDE} columns", wide
    yield f"definitions with {MANY} positions or more", len(many)
    yield "names of specs/ that stand in several crates", len(shared_names())
    yield "lines of imports", imports()


def main():
    flags = sys.argv[1:]
    if flags in (["--imports"], ["--write-imports"]):
        return check_imports(flags == ["--write-imports"])
    if flags == ["--names"]:
        for name, crates in sorted(shared_names().items()):
            print(f"{name}: {' '.join(sorted(crates))}")
    elif flags == ["--crates"]:
        for crate, told in clauses()[0].items():
            if told:
                print(f"{crate}: {len(told)} public functions, {sum(told) / len(told):.1f} clauses each, at most {max(told)}")
    elif flags:
        sys.exit(__doc__)
    else:
        for what, count in figures():
            print(f"{count:7} {what}")
    return 0


if __name__ == "__main__":
    sys.exit(main())
