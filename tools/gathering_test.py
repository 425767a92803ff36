#!/usr/bin/env python3
"""Replays captures that come as a file, whose streams are gathered, and captures that come by a pipe, a socket or a terminal, whose
streams are written as they come.

usage: tools/gathering_test.py

A file may have no more than so many bytes, as on a disk that is full; what goes on behind that fails. So a stream that is
gathered is lost at the flush behind the last turn, or where its file is closed to make room for another; and a stream that isn't
is lost at once. Then there are more flows than files that may be open, and captures of which the first record comes alone. A line
for each run that went otherwise than it should, and the status is 1 then, else 0.

ZCRX=FILE names another program than crates/zcrx_cli/out/zcrx_cli, which `make build` leaves there.
"""

import os
import pathlib
import pty
import resource
import signal
import socket
import subprocess
import sys
import tempfile
import time
import tty

import few_descriptors
import frames

TOP = pathlib.Path(__file__).resolve().parent.parent
PROGRAM = pathlib.Path(os.environ.get("ZCRX", TOP / "crates/zcrx_cli/out/zcrx_cli")).resolve()

WAYS = {"threads": [], "turns": ["--turns=n"]}

# A file has no more bytes than this, and a longer stream has more of them; of both less is gathered than is written at a time.
MOST = 20_000
LONG = 30_000
SHORT = 10_000

PIECE = 1000
PATIENCE = 20

TOO_LARGE = "File too large"
STATUS_9 = "zcrx: status 9: standard output or a stream couldn't be written\n"

wrong = []


def stream(flow, size):
    """The bytes of a flow."""
    return bytes((flow + place) % 251 for place in range(size))


def capture(flows):
    """A capture of flows, each a port and how many bytes it has, whose segments come one flow after another."""
    records = [frames.FILE_HEADER]
    for flow, (port, size) in enumerate(flows):
        sent = stream(flow, size)
        for place in range(0, size, PIECE):
            piece = sent[place:place + PIECE]
            records.append(frames.record(0, frames.frame(40000 + flow, port, 1000 + place, frames.PSH_ACK, piece)))
    return b"".join(records)


def limits(descriptors, most):
    """What the program is limited to; a write behind the limit fails and ends nothing."""
    def limit():
        signal.signal(signal.SIGXFSZ, signal.SIG_IGN)
        if descriptors:
            resource.setrlimit(resource.RLIMIT_NOFILE, (descriptors, descriptors))
        if most:
            resource.setrlimit(resource.RLIMIT_FSIZE, (most, most))
    return limit


def replay(words, bytes_in, folder, by_pipe=False, descriptors=None, most=None):
    """Replays a capture that comes as a file, or by a pipe."""
    options = {"cwd": folder, "capture_output": True, "timeout": 60, "preexec_fn": limits(descriptors, most)}
    if by_pipe:
        return subprocess.run([PROGRAM, "replay", *words], input=bytes_in, **options)
    with tempfile.TemporaryFile() as given:
        given.write(bytes_in)
        given.seek(0)
        return subprocess.run([PROGRAM, "replay", *words], stdin=given, **options)


def expect(name, found, wanted):
    if found != wanted:
        wrong.append(f"{name}: {found!r} and not {wanted!r}")


def lines_of(answer, word):
    """The lines of a report that begin with a word."""
    return [line for line in answer.stdout.decode().splitlines() if line.startswith(word + " ")]


def expect_files(name, folder, wanted):
    """The files of the flows have these bytes, and there are no others."""
    files = {path.name: path.read_bytes() for path in pathlib.Path(folder).iterdir()}
    for flow, data in wanted.items():
        if files.pop(f"flow-{flow}.bin", None) != data:
            wrong.append(f"{name}: other bytes in flow-{flow}.bin")
    if files:
        wrong.append(f"{name}: there is {sorted(files)}")


def full_at_the_flush():
    """All is gathered until the flush, which loses the longer streams alone; the other application's shelf is flushed behind it."""
    bytes_in = capture([(9000, LONG), (9000, SHORT), (9001, SHORT)])
    for way, options in WAYS.items():
        for quits, stopped, other in (([], "write", "no"), ([f"--quit={LONG + SHORT}"], "quit", "no")):
            name = f"full at the flush, {way} {quits}"
            with tempfile.TemporaryDirectory() as folder:
                answer = replay([*options, *quits, "9000", "9001"], bytes_in, folder, most=MOST)
                expect(name, answer.returncode, 9)
                expect(name, [line.split()[-1] for line in lines_of(answer, "app")], [stopped, other])
                expect(name, [line.split()[7] for line in lines_of(answer, "flow")], [str(LONG), str(SHORT), str(SHORT)])
                expect(name, lines_of(answer, "status"), ["status 9"])
                expect(name, answer.stderr.decode(), f"zcrx: flow-0.bin: {TOO_LARGE} (os error 27)\n" + STATUS_9)
                expect_files(name, folder, {0: stream(0, LONG)[:MOST], 1: stream(1, SHORT), 2: stream(2, SHORT)})


def full_at_once():
    """What comes by a pipe isn't gathered: the append that goes behind the limit fails, and the application writes nothing more."""
    bytes_in = capture([(9000, LONG), (9000, SHORT)])
    for way, options in WAYS.items():
        name = f"full at once, {way}"
        with tempfile.TemporaryDirectory() as folder:
            answer = replay([*options, "9000"], bytes_in, folder, by_pipe=True, most=MOST)
            expect(name, answer.returncode, 9)
            expect(name, [line.split()[7] for line in lines_of(answer, "flow")], [str(MOST), "0"])
            expect(name, answer.stderr.decode(), f"zcrx: flow-0.bin: {TOO_LARGE} (os error 27)\n" + STATUS_9)
            expect_files(name, folder, {0: stream(0, LONG)[:MOST]})


def closed_to_make_room():
    """The first flow's file is closed to make room, and what was gathered of it is lost there: the application stops."""
    flows = [(9000, LONG)] + 15 * [(9000, PIECE)]
    bytes_in = capture(flows)
    for way, options in WAYS.items():
        name = f"closed to make room, {way}"
        with tempfile.TemporaryDirectory() as folder:
            answer = replay([*options, "9000"], bytes_in, folder, descriptors=40, most=MOST)
            expect(name, answer.returncode, 9)
            expect(name, [line.split()[-1] for line in lines_of(answer, "app")], ["write"])
            expect(name, answer.stderr.decode(), f"zcrx: flow-0.bin: {TOO_LARGE} (os error 27)\n" + STATUS_9)
            taken = [int(line.split()[7]) for line in lines_of(answer, "flow")]
            written = [flow for flow in range(1, len(flows)) if taken[flow]]
            if taken[0] != LONG or not 0 < len(written) < len(flows) - 1:
                wrong.append(f"{name}: bytes {taken}")
            expect_files(name, folder, {0: stream(0, LONG)[:MOST], **{flow: stream(flow, taken[flow]) for flow in written}})


def few_files():
    """More flows than files that may be open, each of which comes three times."""
    for case in few_descriptors.CASES:
        case_name, ports, flows, port_of, descriptors = case
        bytes_in = few_descriptors.capture(ports, flows, port_of)
        words = [str(few_descriptors.FIRST_PORT + port) for port in range(ports)]
        for way, options in WAYS.items():
            for count in descriptors:
                with tempfile.TemporaryDirectory() as folder:
                    answer = replay([*options, *words], bytes_in, folder, descriptors=count)
                    name = f"{case_name}, {way}, {count} descriptors"
                    expect(name, (answer.returncode, answer.stderr), (0, b""))
                    expect(name, few_descriptors.wrong_streams(flows, folder), [])


def by_pipe():
    """Both ends of a pipe: the program's, and the one that is written to."""
    return os.pipe()


def by_socket():
    first, second = socket.socketpair()
    return first.detach(), second.detach()


def by_terminal():
    """The bytes of a terminal in raw mode come as they are."""
    main_end, other_end = pty.openpty()
    tty.setraw(other_end)
    return other_end, main_end


def comes_to(path, size):
    """Whether a file has so many bytes before long."""
    for _ in range(100 * PATIENCE):
        if path.is_file() and path.stat().st_size >= size:
            return True
        time.sleep(0.01)
    return False


def as_it_comes():
    """The bytes of the first record are in the file before the second one comes. By turns the one thread waits where it reads."""
    bytes_in = capture([(9000, 2 * PIECE)])
    first = len(bytes_in) - (len(bytes_in) - len(frames.FILE_HEADER)) // 2
    for way in (by_pipe, by_socket, by_terminal):
        given, gives = way()
        with tempfile.TemporaryDirectory() as folder:
            child = subprocess.Popen(
                [PROGRAM, "replay", "9000"], cwd=folder, stdin=given, stdout=subprocess.DEVNULL, stderr=subprocess.DEVNULL)
            os.close(given)
            file = pathlib.Path(folder, "flow-0.bin")
            for part, size in ((bytes_in[:first], PIECE), (bytes_in[first:], 2 * PIECE)):
                os.write(gives, part)
                if not comes_to(file, size) or file.read_bytes() != stream(0, size):
                    wrong.append(f"{way.__name__}: no {size} bytes in the file while the capture goes on")
            os.close(gives)
            child.wait(timeout=60)


def main():
    for part in (full_at_the_flush, full_at_once, closed_to_make_room, few_files, as_it_comes):
        part()
    for line in wrong:
        print(line)
    print(f"gathering: {len(wrong)} wrong")
    return 1 if wrong else 0


if __name__ == "__main__":
    sys.exit(main())
