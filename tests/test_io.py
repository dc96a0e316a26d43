#!/usr/bin/env python3
"""What the program does where reading or writing fails. test_io.py PROGRAM

A read that fails makes the input torn: one line, `    9    0    0`, and no reply to what came before. A write that fails ends the
printing: what was written is the front of the output, and nothing follows a torn reply.
"""
import fcntl
import os
import signal
import subprocess
import sys
import threading
import time

PROGRAM = os.path.abspath(sys.argv[1])
TORN = b"    9    0    0\n"
FACTS = 400


def line(*numbers):
    return b"".join(b"%5d" % n for n in numbers) + b"\n"


def sample(questions):
    """A chain of subclass facts, and questions whose derivations take up to 800 lines."""
    table = b"".join(line(10 + i, 1, 11 + i) for i in range(FACTS))
    return table + line(0, 0, 0) + b"".join(line(10, 1, 11 + FACTS - 1 - k % 7, 1024) for k in range(questions))


def run(data=b"", **streams):
    """Runs the program on data, or with the streams given, and gives what it wrote."""
    if "stdin" not in streams:
        streams["input"] = data
    if "stdout" not in streams:
        streams["stdout"] = subprocess.PIPE
    return subprocess.run([PROGRAM], stderr=subprocess.PIPE, timeout=60, check=False, **streams)


def unblocked(end):
    fcntl.fcntl(end, fcntl.F_SETFL, fcntl.fcntl(end, fcntl.F_GETFL) | os.O_NONBLOCK)


def expect(what, found, wanted):
    if found != wanted:
        sys.exit(f"test_io: {what}: {found[:200]!r}, not {wanted[:200]!r}")


def reading_fails():
    closed = subprocess.run(["sh", "-c", f'exec "{PROGRAM}" <&-'], stdout=subprocess.PIPE, timeout=60, check=False)
    expect("standard input is closed", closed.stdout, TORN)
    folder = os.open("/", os.O_RDONLY)
    expect("standard input is a folder", run(stdin=folder).stdout, TORN)
    os.close(folder)
    for front in (b"", sample(0), sample(2)):
        source, sink = os.pipe()
        unblocked(source)
        os.write(sink, front)
        expect(f"non-blocking, with {len(front)} bytes so far", run(stdin=source).stdout, TORN)
        os.close(source)
        os.close(sink)


def reading_goes_on():
    """Input that comes in pieces is one input; its end is no failure."""
    data = sample(3)
    child = subprocess.Popen([PROGRAM], stdin=subprocess.PIPE, stdout=subprocess.PIPE)
    for at in range(0, len(data), 1000):
        child.stdin.write(data[at:at + 1000])
        child.stdin.flush()
        time.sleep(0.002)
    child.stdin.close()
    expect("input in pieces", child.stdout.read(), run(data).stdout)
    child.wait(timeout=60)


def writing_fails():
    data = sample(20)
    with open("/dev/full", "wb") as full:
        run(data, stdout=full)
    subprocess.run(["sh", "-c", f'exec "{PROGRAM}" >&-'], input=data, timeout=60, check=False)
    source, sink = os.pipe()
    os.close(source)
    ended = run(data, stdout=sink, preexec_fn=lambda: signal.signal(signal.SIGPIPE, signal.SIG_IGN))
    os.close(sink)
    if ended.returncode != 0:
        sys.exit(f"test_io: a closed pipe: status {ended.returncode}")


def writing_stops():
    """A pipe that takes no more for a while: what came through is the front of the output."""
    data = sample(60)
    whole = run(data).stdout
    source, sink = os.pipe()
    fcntl.fcntl(sink, fcntl.F_SETPIPE_SZ, 4096)
    unblocked(sink)
    got = []

    def drain():
        while piece := os.read(source, 1500):
            got.append(piece)
            time.sleep(0.0005)

    reader = threading.Thread(target=drain)
    reader.start()
    run(data, stdout=sink)
    os.close(sink)
    reader.join()
    os.close(source)
    front = b"".join(got)
    if not front or len(front) >= len(whole):
        sys.exit(f"test_io: a pipe that fills up: {len(front)} of {len(whole)} bytes came through, so nothing was tried")
    expect("a pipe that fills up", front, whole[:len(front)])


if __name__ == "__main__":
    for test in (reading_fails, reading_goes_on, writing_fails, writing_stops):
        test()
    print("test_io: passed")
