#!/usr/bin/env python3
"""Prints what a crate stands on, and which crates stand on it, by crates.txt. A name with a star is the toolchain's.

usage: tools/stands_on.py NAME

The lines are: the crates that it uses; those that these use in turn; the crates that use it; those that use these in turn. The status is 1
where there is no such crate.
"""

import pathlib
import sys

TOP = pathlib.Path(__file__).resolve().parent.parent


def crates():
    """Each crate with those that it uses."""
    lines = [line for line in (TOP / "crates.txt").read_text(encoding="utf-8").splitlines() if line and not line.startswith("#")]
    return {name.split()[0]: used.split() for name, _, used in (line.partition(":") for line in lines)}


def beyond(names, used):
    """What these use in turn, but for what they are."""
    found, waiting = set(), list(names)
    while waiting:
        new = set(used.get(waiting.pop(), ())) - found
        found |= new
        waiting += new
    return found - set(names)


def main():
    if len(sys.argv) != 2 or sys.argv[1].startswith("-"):
        sys.exit(__doc__)
    used = crates()
    name = sys.argv[1]
    if name not in used:
        sys.exit(f"stands_on: no crate {name} in crates.txt")
    users = {crate: [other for other, names in used.items() if crate in names] for crate in used}
    for what, names in (("stands on", used[name]), ("and these on", beyond(used[name], used)),
                        ("on it stand", users[name]), ("and on these", beyond(users[name], users))):
        print(f"{what}: {' '.join(crate if crate in used else crate + '*' for crate in sorted(names)) or 'nothing'}")


if __name__ == "__main__":
    main()
