#!/usr/bin/env python3
"""Runs the program to each status, and looks at what it says on standard error; and at each kind of wrong word.

usage: tools/messages_test.py

A line for each run that says something else than it should, and the status is 1 then, else 0. Where standard error is closed or
full, status and streams are the same as without. Where it is a terminal, a replay or a check of three seconds shows how far it
has come, and clears the line at its end; where it isn't, it shows nothing.

ZCRX=FILE names another program than crates/zcrx_cli/out/zcrx_cli, which `make build` leaves there.
"""

import gzip
import os
import pathlib
import pty
import re
import resource
import struct
import subprocess
import sys
import tempfile
import time

import frames
import pcapng_rows

TOP = pathlib.Path(__file__).resolve().parent.parent
PROGRAM = pathlib.Path(os.environ.get("ZCRX", TOP / "crates/zcrx_cli/out/zcrx_cli")).resolve()

HELLO = frames.FILE_HEADER + frames.record(0, frames.frame(40000, 9000, 1001, frames.PSH_ACK, b"hello"))
BIG_RECORD = struct.pack("<4I", 0, 0, 262_145, 262_145)
MANY_RECORDS = 16_777_217

wrong = []


def many_flows():
    """One flow more than there may be."""
    parts = [frames.FILE_HEADER]
    for flow in range(65_536):
        parts.append(frames.record(0, frames.frame(flow, 9000, 1000, 2, b"")))
    return b"".join(parts)


def run(words, given, folder, **options):
    return subprocess.run([PROGRAM, *words], input=given, cwd=folder, capture_output=True, timeout=300, **options)


def expect(name, answer, status, *texts):
    said = answer.stderr.decode()
    if answer.returncode != status:
        wrong.append(f"{name}: status {answer.returncode} and not {status}")
    for text in texts:
        if text not in said:
            wrong.append(f"{name}: no '{text}' in: {said!r}")
    if not texts and said:
        wrong.append(f"{name}: it says {said!r}")


def replay(name, given, status, *texts, **options):
    with tempfile.TemporaryDirectory() as folder:
        expect(name, run(["replay", "9000"], given, folder, **options), status, *texts)


def readings():
    replay("whole", HELLO, 0)
    replay("no port", HELLO.replace(b"\x23\x28", b"\x23\x29"), 0, "no stream was written", "its destination")
    replay("no payload", frames.FILE_HEADER, 0, "no stream was written")
    replay("empty", b"", 6, "status 6: standard input is empty")
    replay("cut", HELLO[:-1], 6, "status 6: the capture ends within", "(at record 1, behind 24 bytes)")
    replay("second record", HELLO + bytes(15), 6, "(at record 2, behind 99 bytes)")
    replay("cut header", HELLO[:23], 6, "was replayed\n")
    replay("text", b"GET / HTTP/1.1\r\n", 3, "status 3: standard input is text")
    replay("gzip", gzip.compress(HELLO), 3, "status 3: standard input is compressed", "gzip -dc")
    replay("binary", b"\x00\x01\x02\x03" * 8, 3, "status 3: standard input is no pcap or pcapng capture")
    replay("version", HELLO[:4] + b"\x03" + HELLO[5:], 4, "status 4: the capture's major version")
    replay("link type", HELLO[:20] + b"\x71" + HELLO[21:], 5, "status 5: the capture, or an interface", "isn't of Ethernet", "not at 'any'")
    replay("long record", HELLO + BIG_RECORD, 7, "status 7: a record states more than 262144 bytes", "(at record 2, behind 99 bytes)")
    replay("closed input", None, 8, "status 8: standard input", preexec_fn=lambda: os.close(0))
    replay("flows", many_flows(), 10, "status 10: there are more than 65535 flows")
    records = frames.FILE_HEADER + bytes(16) * MANY_RECORDS
    replay("records", records, 11, "status 11: there are more than 16777216 records")


def refused():
    """Frames that find no buffer while notices stay behind, and none where they don't."""
    parts = [frames.FILE_HEADER]
    for number in range(20):
        parts.append(frames.record(0, frames.frame(40000, 9000, 1001 + 4 * number, frames.PSH_ACK, b"abcd")))
    capture = b"".join(parts)
    for delay, texts in (("63", ["refused while notices stay up to 63 loans behind: 4;", "--buffers", "--forward"]), ("0", [])):
        with tempfile.TemporaryDirectory() as folder:
            words = ["replay", "--forward", delay, "--buffers", "1", "--size", "1024", "9000"]
            expect(f"forward {delay}", run(words, capture, folder), 0, *texts)


def blocks():
    """Captures of blocks, and at which block each fault lies."""
    small = pcapng_rows.SMALL
    packet, last = 48, len(small) - 20
    replay("blocks", small, 0, "no stream was written")
    replay("section cut", small[:27], 6, "status 6: the capture ends within", "(at the block behind 0 bytes)")
    replay("packet cut", small[:-21], 6, "status 6", f"(at record 1, the block behind {packet} bytes)")
    replay("last block", small[:-1] + b"\x01", 13, "status 13: a block of the pcapng capture", f"(at record 2, the block behind {last} bytes)")
    replay("eight bytes", small + struct.pack("<2I", 6, 6), 13, f"(at the block behind {len(small)} bytes)")
    replay("section version", small + small[:12] + b"\x02" + small[13:], 4, f"(at the block behind {len(small)} bytes)")
    replay("interface", small[:36] + b"\x71" + small[37:], 5, "status 5", f"(at record 1, the block behind {packet} bytes)", "tshark -r", "editcap")
    replay("long packet", small[:packet + 22] + b"\x04" + small[packet + 23:], 7, "status 7", f"(at record 1, the block behind {packet} bytes)")


# A legal run, and what stands in place of one of its lines, with why that one is bad then.
LEGAL = ["run 1:1024 1", "take 0 1", "place 0 0 5 2", "sent 0 0 0 5", "held 0 0 0 5", "lend 0 0 0 5 2 1", "back 0 0 0 5 1",
         "shut 0 1", "honour 0 0 0 0", "end"]
BAD = [
    (1, [], "it is missing, has no line feed, or more than 128 bytes"),
    (1, ["run 1:1000 1"], "it isn't the first line of a record"),
    (2, ["takes 0 1"], "it says no event, and neither 'end' nor 'more'"),
    (2, ["take 0 01"], "it says no event"),
    (2, ["take 2 1"], "there is no buffer 2"),
    (2, ["take 1 1"], "buffer 1 has a holder, or is none of the pool"),
    (2, ["take 0 2"], "the counts don't fit: pool 1, told 2"),
    (2, ["end"], "the record ended before it"),
    (2, ["stray 1"], "there is no application 1"),
    (2, ["spare 0 0 1", "place 0 0 5 2"], "the card hasn't buffer 0"),
    (3, ["place 0 1020 5 2"], "there is no buffer 0, or it has fewer bytes"),
    (3, ["place 0 1 5 2"], "the card hasn't buffer 0, or the bytes aren't apart from others, or none, or begin at no multiple of 64"),
    (4, ["sent 0 0 0 4"], "the card hasn't the piece"),
    (4, ["sent 1 0 0 5"], "there is no application 1, or no buffer 0, or it has fewer bytes"),
    (5, ["held 0 0 0 4"], "no note of the piece was sent to application 0"),
    (6, ["lend 0 0 0 4 2 1"], "the piece isn't held by application 0"),
    (6, ["cut 0 0 0 5 5 3"], "the piece isn't held by application 0, or isn't cut within"),
    (6, ["free 0 0 64 5 1"], "the piece isn't held by application 0"),
    (6, ["lend 0 0 0 5 2 2"], "the counts don't fit: user 1, told 2"),
    (7, ["back 0 0 0 4 1"], "the piece isn't lent by application 0"),
    (7, ["back 0 0 0 5 0"], "the counts don't fit: user 1, told 0"),
    (8, ["shut 0 1", "shut 0 0"], "the card hasn't buffer 0"),
    (9, ["scrub 0 0 0 0", "honour 0 0 0 0"], "application 0 owes nothing in buffer 0"),
    (9, ["spare 0 1 1", "own 0 1 0 1 1"], "application 0 hasn't buffer 1 to copy into, or the bytes aren't 1 to 256"),
    (9, [], "a buffer has a holder still"),
    (10, [], "it is missing"),
    (10, ["end", "end"], "the record ended before it"),
]


def records():
    """Records of runs: a legal one, and bad ones, with the line and why it is bad."""
    with tempfile.TemporaryDirectory() as folder:
        answer = run(["check"], ("\n".join(LEGAL) + "\n").encode(), folder)
        expect("legal run", answer, 0)
        if answer.stdout != b"checked 10\n":
            wrong.append(f"legal run: {answer.stdout!r}")
        for number, lines, text in BAD:
            given = LEGAL[:number - 1] + lines + LEGAL[number:]
            if not lines and number == 1:
                given = []
            # The line that is bad is the last one put in, or that behind an end that came too early.
            bad = number + max(len(lines), 1) - 1 + (lines == ["end"])
            answer = run(["check"], "".join(line + "\n" for line in given).encode(), folder)
            expect(f"line {number}", answer, 14, f"zcrx: line {bad}: {text}", "status 14: the run record isn't that of a legal run")
            if answer.stdout != f"bad {bad}\n".encode():
                wrong.append(f"line {number}: {answer.stdout!r}")
        for given, bad, text in ((b"run 1:1024 1\nmore", 2, "no line feed"), (b"x" * 129 + b"\n", 1, "more than 128 bytes")):
            expect(text, run(["check"], given, folder), 14, f"zcrx: line {bad}: ", text)


def memory():
    limit = lambda: resource.setrlimit(resource.RLIMIT_AS, (48 << 20, 48 << 20))
    words = ["replay", "--buffers", "1024", "--size", "65536", "--turns", "n", "9000"]
    with tempfile.TemporaryDirectory() as folder:
        expect("memory", run(words, HELLO, folder, preexec_fn=limit), 1, "status 1: there was no memory", "--buffers")


def writing():
    with tempfile.TemporaryDirectory() as folder:
        pathlib.Path(folder, "flow-0.bin").mkdir()
        answer = run(["replay", "9000"], HELLO, folder)
        expect("no file", answer, 9, "flow-0.bin: Is a directory", "status 9: standard output or a stream")
    with tempfile.TemporaryDirectory() as folder, open("/dev/full", "wb") as full:
        answer = subprocess.run([PROGRAM, "replay", "9000"], input=HELLO, cwd=folder, stdout=full, stderr=subprocess.PIPE)
        expect("full output", answer, 9, "status 9: standard output or a stream")


WORDS = [
    ([], "there is no command"),
    (["--help"], "'--help' is no command"),
    (["help"], "'help' is no command"),
    (["replay"], "there is no port"),
    (["replay", "9000", "9000"], "port 9000 stands twice"),
    (["replay", "90000"], "'90000' is no port"),
    (["replay", "--sise", "1024", "9000"], "there is no option '--sise'"),
    (["replay", "--size", "1000", "9000"], "--size takes a power of two from 1024 to 65536, not '1000'"),
    (["replay", "--ring", "0", "9000"], "--ring takes a number from 1 to 256, not '0'"),
    (["replay", "9000", "--quit"], "--quit wants a value"),
    (["replay", "--turns", "n1", "9000"], "--turns takes"),
    (["replay", "--polled=yes", "9000"], "--polled takes no value"),
    (["replay", "--polled", "--polled", "9000"], "--polled stands twice"),
    (["replay", "--forward", "64", "9000"], "--forward takes a number from 0 to 63, not '64'"),
    (["replay", "--polled", "--hold", "0", "9000"], "--polled stands without --hold"),
    (["replay", "--events", "9000"], "--events stands only with --turns"),
    (["replay", "--events=1", "--turns=n", "9000"], "--events takes no value"),
    (["make", "7"], "make wants two numbers"),
    (["make", "7", "1000001"], "make takes 0 to 1000000 frames, not '1000001'"),
    (["make", "--", "7", "1000001"], "make takes 0 to 1000000 frames, not '1000001'"),
    (["make", "7", "--", "-1"], "make takes 0 to 1000000 frames, not '-1'"),
    (["make", "--", "7"], "make wants two numbers"),
    (["make", "--seed", "--", "7"], "make takes no option, as '--seed'"),
    (["check", "it"], "check takes no word more, as 'it'"),
]


def usage():
    with tempfile.TemporaryDirectory() as folder:
        for words, text in WORDS:
            answer = run(words, b"", folder)
            expect(" ".join(["zcrx", *words]), answer, 2, text, "usage: zcrx replay", "status 2: the words have no reading")
        if any(pathlib.Path(folder).iterdir()):
            wrong.append("usage: a file was written")


def without_errors():
    """Standard error is closed, or full."""
    ways = [("closed", {"preexec_fn": lambda: os.close(2)}), ("full", {"stderr": open("/dev/full", "wb")})]
    for name, options in ways:
        for given, status in ((HELLO, 0), (HELLO + BIG_RECORD, 7)):
            with tempfile.TemporaryDirectory() as folder:
                answer = subprocess.run(
                    [PROGRAM, "replay", "9000"], input=given, cwd=folder, stdout=subprocess.DEVNULL, timeout=60, **options)
                stream = pathlib.Path(folder, "flow-0.bin").read_bytes()
            if answer.returncode != status or stream != b"hello":
                wrong.append(f"standard error {name}: status {answer.returncode}, stream {stream!r}")


def slowly(pipe):
    """Writes a capture of 10,000 records within three seconds: how many bytes."""
    sent = pipe.write(frames.FILE_HEADER)
    for piece in range(20):
        for number in range(500):
            sequence = 1001 + 5 * (500 * piece + number)
            sent += pipe.write(frames.record(0, frames.frame(40000, 9000, sequence, frames.PSH_ACK, b"hello")))
        pipe.flush()
        time.sleep(0.15)
    pipe.close()
    return sent


def lines_slowly(pipe):
    """Writes a legal record of 200,001 lines within three seconds: how many bytes."""
    sent = pipe.write(b"run 1:1024 1\n")
    for piece in range(20):
        sent += pipe.write(b"take 0 1\nshut 0 0\n" * 5000)
        pipe.flush()
        time.sleep(0.15)
    pipe.close()
    return sent


def shown_at_terminal(words, write):
    """What the program shows on a terminal."""
    main_end, other_end = pty.openpty()
    with tempfile.TemporaryDirectory() as folder:
        child = subprocess.Popen(
            [PROGRAM, *words], cwd=folder, stdin=subprocess.PIPE, stdout=subprocess.DEVNULL, stderr=other_end)
        os.close(other_end)
        write(child.stdin)
        child.wait(timeout=60)
    shown = b""
    try:
        while piece := os.read(main_end, 4096):
            shown += piece
    except OSError:
        pass
    os.close(main_end)
    return shown.decode()


def progress():
    shown = shown_at_terminal(["check"], lines_slowly)
    lines = re.findall(r"\r\x1b\[Kzcrx: (\d+) lines, (\d+) bytes", shown)
    if not 2 <= len(lines) <= 30:
        wrong.append(f"check at a terminal: {len(lines)} lines of progress")
    for count, size in lines:
        if not (0 < int(count) <= 200_001 and abs(13 + 9 * (int(count) - 1) - int(size)) < 9):
            wrong.append(f"check at a terminal: {count} lines, {size} bytes")
    shown = shown_at_terminal(["replay", "9000"], slowly)
    lines = re.findall(r"\r\x1b\[Kzcrx: (\d+) records, (\d+) bytes, (\d+) flows", shown)
    if not 2 <= len(lines) <= 30 or not shown.endswith("\r\x1b[K"):
        wrong.append(f"terminal: {len(lines)} lines of progress, behind them {shown[-20:]!r}")
    for records, count, flows in lines:
        most = 24 + 75 * (int(records) + 1)
        if not (0 < int(records) <= 10_000 and most - 150 < int(count) <= most and flows == "1"):
            wrong.append(f"terminal: {records} records, {count} bytes, {flows} flows")
    with tempfile.TemporaryDirectory() as folder:
        child = subprocess.Popen(
            [PROGRAM, "replay", "9000"], cwd=folder, stdin=subprocess.PIPE, stdout=subprocess.DEVNULL, stderr=subprocess.PIPE)
        slowly(child.stdin)
        if said := child.stderr.read():
            wrong.append(f"no terminal: {said!r}")
        child.wait(timeout=60)


def main():
    for part in (readings, refused, blocks, records, memory, writing, usage, without_errors, progress):
        part()
    for line in wrong:
        print(line)
    print(f"messages: {len(wrong)} wrong")
    return 1 if wrong else 0


if __name__ == "__main__":
    sys.exit(main())
