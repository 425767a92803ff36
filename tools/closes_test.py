#!/usr/bin/env python3
"""Replays captures of connections that were closed in one way and another, by turns and on threads, and compares the flows.

usage: tools/closes_test.py

The captures are those of Linux's own TCP over its loopback interface: a full close, a half close behind which the other side goes
on, a reset in the middle, and a pair of ports that is used again. A line for each run whose flows aren't as they should be, and the
status is 1 then, else 0.

ZCRX=FILE names another program than crates/zcrx_cli/out/zcrx_cli, which `make build` leaves there.
"""

import os
import pathlib
import re
import subprocess
import sys
import tempfile

TOP = pathlib.Path(__file__).resolve().parent.parent
PROGRAM = pathlib.Path(os.environ.get("ZCRX", TOP / "crates/zcrx_cli/out/zcrx_cli")).resolve()

# The flows to port 9000: the stream, whether there was a FIN, and how it ended.
CAPTURES = {
    "full_close": [(b"GET / HTTP/1.1\r\n\r\n", "yes", "whole")],
    "half_close": [(b"all of the request", "yes", "whole")],
    "reset": [(b"sent before the reset", "no", "reset")],
    "reused_ports": [(b"the first connection", "yes", "whole"), (b"the second, of the same ports", "yes", "whole")],
}


def flows_of(capture, options):
    """The flows that a replay tells of and writes, or its status where that isn't 0."""
    with tempfile.TemporaryDirectory() as folder:
        run = subprocess.run([PROGRAM, "replay", *options, "9000"], input=capture, cwd=folder, capture_output=True, timeout=60)
        if run.returncode != 0:
            return run.returncode
        flows = []
        for number, count, fin, end in re.findall(rb"flow (\d+) .* bytes (\d+) fin (\w+) end (\w+)", run.stdout):
            stream = pathlib.Path(folder, f"flow-{int(number)}.bin").read_bytes()
            flows.append((stream, fin.decode(), end.decode()) if len(stream) == int(count) else number)
        return flows


def main():
    wrong = 0
    for name, wanted in CAPTURES.items():
        capture = (TOP / "demo-data" / f"{name}.pcap").read_bytes()
        for options in ([], ["--turns=n"]):
            flows = flows_of(capture, options)
            if flows != wanted:
                wrong += 1
                print(f"{name} {options}: {flows}")
    print(f"closes: {wrong} wrong")
    return 1 if wrong else 0


if __name__ == "__main__":
    sys.exit(main())
