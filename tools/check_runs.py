#!/usr/bin/env python3
"""Compares `zcrx check` with a second checker, written from the text of docs/FORMATS.md alone, on drawn records.

    tools/check_runs.py PROGRAM [COUNT [SEED]]

PROGRAM is the built program. Each drawn legal run is checked as it is, and then with one number of one line changed, with a
line left out, and with a line twice."""
import random
import re
import subprocess
import sys

FORMS = {
    "take": "BP", "place": "BOLP", "sent": "ABOL", "held": "ABOL", "cut": "ABOLMP", "lend": "ABOLPU", "back": "ABOLU",
    "honour": "ABPU", "stray": "A", "free": "ABOLP", "spare": "ABP", "own": "ABLPU", "shut": "BP", "scrub": "ABPU",
}
# what may come next for a holder of each kind
NEXT = {
    "none": ("take", "take", "spare", "stray"), "own": ("place", "place", "place", "shut"), "piece": ("sent",), "sent": ("held",),
    "held": ("cut", "lend", "free"), "loan": ("back",), "owed": ("honour", "scrub"), "spare": ("own",),
}
# what may come next where the run is to end
LAST = NEXT | {"own": ("shut",), "held": ("lend", "free")}
NUMBER = re.compile(r"(0|[1-9][0-9]{0,9})\Z")


class Run:
    """The holders of each buffer, as a list of tuples whose first part is the kind."""

    def __init__(self, areas, apps):
        self.sizes = [size for count, size in areas for _ in range(count)]
        self.pool = len(self.sizes)
        self.apps = apps
        self.sizes += [areas[0][1]] * apps
        self.holders = [[] for _ in self.sizes]

    def change(self, name, n):
        """Whether the event may come; it changes the holders."""
        if "A" in n and n["A"] >= self.apps:
            return False
        if "B" not in n:
            return True
        if n["B"] >= len(self.sizes):
            return False
        held, a, o, l = self.holders[n["B"]], n.get("A"), n.get("O", 0), n.get("L", 0)
        if o + l > self.sizes[n["B"]]:
            return False
        if not self.needs(name, n, held, a, o, l):
            return False
        if "P" in n and n["P"] != len(held):
            return False
        users = [h for h in held if h[0] in ("loan", "owed") and h[1] == a]
        return "U" not in n or n["U"] == len(users)

    def needs(self, name, n, held, a, o, l):
        def swap(old, *new):
            if old not in held:
                return False
            held.remove(old)
            held.extend(new)
            return True

        if name == "take":
            return n["B"] < self.pool and not held and not held.append(("own",))
        if name == "place":
            places = [h[-2:] for h in held if h[0] in ("piece", "sent", "held", "loan")]
            apart = all(o + l <= q or q + m <= o for q, m in places)
            return ("own",) in held and l > 0 and o % 64 == 0 and apart and not held.append(("piece", o, l))
        if name == "sent":
            return swap(("piece", o, l), ("sent", a, o, l))
        if name == "held":
            return swap(("sent", a, o, l), ("held", a, o, l))
        if name == "cut":
            m = n["M"]
            return 0 < m < l and swap(("held", a, o, l), ("held", a, o, m), ("held", a, o + m, l - m))
        if name == "lend":
            return swap(("held", a, o, l), ("loan", a, o, l))
        if name == "back":
            return swap(("loan", a, o, l), ("owed", a))
        if name == "honour":
            return swap(("owed", a))
        if name == "free":
            return swap(("held", a, o, l))
        if name == "spare":
            mine = n["B"] < self.pool or n["B"] == self.pool + a
            return mine and not held and not held.append(("spare", a))
        if name == "own":
            return 0 < l < 257 and swap(("spare", a), ("loan", a, 0, l))
        if name == "shut":
            return swap(("own",))
        if ("owed", a) not in held:
            return False
        held[:] = [h for h in held if h != ("owed", a)]
        return True


def first_line(line):
    """The run of a first line, or None."""
    words = line.split(" ")
    if len(words) != 3 or words[0] != "run" or not NUMBER.match(words[2]):
        return None
    areas = []
    for part in words[1].split(","):
        numbers = part.split(":")
        if len(numbers) != 2 or not all(NUMBER.match(x) for x in numbers):
            return None
        areas.append((int(numbers[0]), int(numbers[1])))
    sizes_fit = all(s in (1024 << k for k in range(7)) for _, s in areas)
    counts_fit = all(1 <= c <= 4096 for c, _ in areas) and sum(c for c, _ in areas) <= 4096
    if len(areas) > 4 or not sizes_fit or not counts_fit or sum(c * s for c, s in areas) > 67108864:
        return None
    return Run(areas, int(words[2])) if 1 <= int(words[2]) <= 8 else None


def judged(text):
    """What the program writes, and its status."""
    lines, rest = text.split("\n")[:-1], text.split("\n")[-1]
    if not lines or len(lines[0]) > 128 or not (run := first_line(lines[0])):
        return "bad 1\n", 14
    for number, line in enumerate(lines[1:], 2):
        if line in ("end", "more"):
            if line == "end" and any(run.holders):
                return f"bad {number}\n", 14
            if number < len(lines) or rest:
                return f"bad {number + 1}\n", 14
            return f"checked {number}\n", 0
        words = line.split(" ")
        form = FORMS.get(words[0])
        if form is None or len(words) != len(form) + 1 or not all(NUMBER.match(w) for w in words[1:]) or number > 1000001:
            return f"bad {number}\n", 14
        if not run.change(words[0], dict(zip(form, map(int, words[1:])))):
            return f"bad {number}\n", 14
    return f"bad {len(lines) + 1}\n", 14


def drawn(draw):
    """The lines of a legal run."""
    areas = [(draw.randint(1, 3), 1024 << draw.randint(0, 2)) for _ in range(draw.randint(1, 4))]
    run = Run(areas, draw.randint(1, 8))
    lines = [f"run {','.join(f'{c}:{s}' for c, s in areas)} {run.apps}"]
    steps = draw.randint(0, 200)
    for step in range(steps + draw.choice((1, 2000))):
        held = [b for b, h in enumerate(run.holders) if h]
        closing = step > steps and held
        if step > steps and not held:
            break
        buffer = draw.choice(held) if closing else draw.randrange(len(run.sizes))
        chosen = draw.choice(run.holders[buffer] or [("none",)])
        name = draw.choice(LAST[chosen[0]] if closing else NEXT[chosen[0]])
        n = {"A": draw.randrange(run.apps), "B": buffer, "O": 64 * draw.randint(0, 15), "L": draw.randint(1, 300)}
        if len(chosen) > 1 and chosen[0] != "piece":
            n["A"] = chosen[1]
        if len(chosen) >= 3 and name != "place":
            n["O"], n["L"] = chosen[-2:]
        n["M"] = draw.randint(1, max(1, n["L"] - 1))
        n = {k: n.get(k, 0) for k in FORMS[name]}
        before = [list(h) for h in run.holders]
        for p in range(8):
            for u in range(8):
                run.holders = [list(h) for h in before]
                if run.change(name, n | {k: v for k, v in (("P", p), ("U", u)) if k in n}):
                    n |= {k: v for k, v in (("P", p), ("U", u)) if k in n}
                    lines.append(" ".join([name] + [str(n[k]) for k in FORMS[name]]))
                    break
            else:
                continue
            break
        else:
            run.holders = before
    return lines + ["more" if any(run.holders) else draw.choice(("end", "more"))]


def others(draw, lines):
    """The text of the lines, and others that differ in one place."""
    yield "\n".join(lines) + "\n"
    at = draw.randrange(len(lines))
    numbers = list(re.finditer("[0-9]+", lines[at]))
    if numbers:
        spot = draw.choice(numbers)
        value = str(max(0, int(spot.group()) + draw.choice((-1, 1, 64))))
        changed = lines[at][: spot.start()] + value + lines[at][spot.end() :]
        yield "\n".join(lines[:at] + [changed] + lines[at + 1 :]) + "\n"
    yield "\n".join(lines[:at] + lines[at + 1 :]) + "\n"
    yield "\n".join(lines[: at + 1] + lines[at:]) + "\n"
    yield "\n".join(lines)


def main():
    program, count = sys.argv[1], int(sys.argv[2]) if len(sys.argv) > 2 else 200
    draw = random.Random(int(sys.argv[3]) if len(sys.argv) > 3 else 1)
    tried = legal = 0
    for _ in range(count):
        for text in others(draw, drawn(draw)):
            got = subprocess.run([program, "check"], input=text.encode(), capture_output=True, check=False)
            want = judged(text)
            tried += 1
            legal += want[1] == 0
            if (got.stdout.decode(), got.returncode) != want:
                sys.exit(f"{got.stdout.decode()!r} with {got.returncode} in place of {want}:\n{text}")
    print(f"{tried} records, {legal} of them legal: the same answers")


if __name__ == "__main__":
    main()
