#!/usr/bin/env python3
"""Replays drawn captures by drawn texts of turns with --events, and looks at the record behind each report.

usage: tools/event_runs.py [RUNS [SEED]]

RUNS is 300 if left out, and SEED 0: run K draws by SEED + K, captures and options as tools/thread_runs.py does. Each record has
to be that of a legal run, by `zcrx check` and by the second checker of tools/check_runs.py; its lines have to tell the loans,
copies and bytes of each application's line and the strays; and with one line left out, for up to eight lines that are drawn, either
no checker takes it for that of a legal run, or its lines tell something else. The report and the streams have to be those of the
same replay without --events. And a record of 1,000,000 events is read to its end, where one of 1,000,001 isn't that of a run.

ZCRX=FILE names another program than crates/zcrx_cli/out/zcrx_cli, which `make build` leaves there.
"""

import os
import pathlib
import random
import subprocess
import sys
import tempfile

import frames
from check_runs import judged
from thread_runs import FIRST_PORT, TOP, draw_options, draw_segments, read_report


def told(lines, ports):
    """The loans, copies and bytes of each application, and the strays, by a record's lines."""
    counts = [[0, 0, 0] for _ in range(ports)]
    strays = 0
    for name, *numbers in (line.split(" ") for line in lines):
        if name == "lend":
            counts[int(numbers[0])][0] += 1
            counts[int(numbers[0])][2] += int(numbers[3])
        elif name == "own":
            counts[int(numbers[0])][0] += 1
            counts[int(numbers[0])][1] += 1
            counts[int(numbers[0])][2] += int(numbers[2])
        elif name == "stray":
            strays += 1
    return counts, strays


def tells(lines, ports, report):
    """Whether a record's lines tell what the report says."""
    applications, _, _, pool, _ = read_report(report)
    counts, strays = told(lines, ports)
    if strays != pool["strays"] or len(applications) != ports:
        return False
    for (loans, copies, lent), line in zip(counts, applications):
        written = int(line["written"])
        whole = lent == written if line["stopped"] == "no" else written <= lent
        if loans != int(line["loans"]) or copies != int(line["copied"]) or not whole:
            return False
    return True


def checked(program, record):
    done = subprocess.run([program, "check"], input=record.encode(), capture_output=True, timeout=60)
    return done.stdout.decode(), done.returncode


def replayed(program, words, capture):
    """The status, what went out, and the streams by their names."""
    with tempfile.TemporaryDirectory() as folder:
        done = subprocess.run([program, "replay", *words], input=capture, capture_output=True, cwd=folder, timeout=60)
        streams = {file.name: file.read_bytes() for file in pathlib.Path(folder).iterdir()}
    return done.returncode, done.stdout.decode(), streams


def faults_of(program, draw):
    """What is wrong with a drawn run."""
    ports = draw.randint(1, 8)
    segments = draw_segments(draw, ports)
    capture = frames.FILE_HEADER + b"".join(frames.record(0, frames.frame(*segment)) for segment in segments)
    options = draw_options(draw)
    letters = "n" + "".join(str(app) for app in range(ports))
    turns = "".join(draw.choice(letters) for _ in range(draw.randint(1, 200)))
    words = [f"{name}={value}" for name, value in options.items()] + ["--turns", turns]
    names = [str(FIRST_PORT + port) for port in range(ports)]
    status, plain, streams = replayed(program, words + names, capture)
    logged_status, out, logged_streams = replayed(program, words + ["--events"] + names, capture)
    if logged_status != status or logged_streams != streams or not out.startswith(plain):
        yield f"another replay than without --events: {words}"
        return
    record = out[len(plain):]
    lines = record.split("\n")[:-1]
    right = (f"checked {len(lines)}\n", 0)
    if not record.endswith("\nend\n") or checked(program, record) != right or judged(record) != right:
        yield f"no legal run: {words}"
        return
    if not tells(lines[1:-1], ports, plain):
        yield f"other loans, copies, bytes or strays than in the report: {words}"
    for place in draw.sample(range(len(lines)), min(len(lines), 8)):
        fewer = lines[:place] + lines[place + 1:]
        text = "".join(line + "\n" for line in fewer)
        answer = checked(program, text)
        if answer != judged(text):
            yield f"the checkers differ without line {place + 1}: {words}"
        if answer[1] == 0 and tells(fewer[1:-1], ports, plain):
            yield f"without line {place + 1} all is as it was: {words}"


def faults_of_long_records(program):
    """A record has at most 1,000,000 events; one of many is read to its end."""
    for strays, answer in ((1_000_000, ("checked 1000002\n", 0)), (1_000_001, ("bad 1000002\n", 14))):
        found = checked(program, "run 1:1024 1\n" + "stray 0\n" * strays + "end\n")
        if found != answer:
            yield f"{strays} strays: {found}"


def main():
    runs = int(sys.argv[1]) if len(sys.argv) > 1 else 300
    seed = int(sys.argv[2]) if len(sys.argv) > 2 else 0
    program = os.path.abspath(os.environ.get("ZCRX", TOP / "crates/zcrx_cli/out/zcrx_cli"))
    wrong = 0
    for fault in faults_of_long_records(program):
        print(fault)
        wrong += 1
    for run in range(seed, seed + runs):
        for fault in faults_of(program, random.Random(run)):
            print(f"run {run}: {fault}")
            wrong += 1
    print(f"event_runs: {runs} runs, {wrong} wrong")
    sys.exit(wrong > 0)


if __name__ == "__main__":
    main()
