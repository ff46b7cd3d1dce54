#!/usr/bin/env python3
"""Runs the program on inputs that cannot be read to their end: no line may be written, and an input that comes late is judged whole.

Usage: tests/failed_reads.py     (the program is crates/verify/out/verify)
"""
import fcntl
import os
import subprocess
import sys
import time
from pathlib import Path

ROOT = Path(__file__).resolve().parent.parent
PROGRAM = ROOT / "crates" / "verify" / "out" / "verify"
JOB = (ROOT / "examples" / "accepted.job").read_bytes()
faults = []


def expect(what, run, line, message):
    """What was written to standard output, and whether anything was written to standard error."""
    out, err = run
    if out != line or bool(err) != message:
        faults.append(f"{what}: wrote {out!r}, and {err!r} to standard error")


def late(pieces, close=True):
    """The pieces through a pipe that does not wait, one after the other; the last is left open if close is not set."""
    read_end, write_end = os.pipe()
    fcntl.fcntl(read_end, fcntl.F_SETFL, os.O_NONBLOCK)
    program = subprocess.Popen([PROGRAM], stdin=read_end, stdout=subprocess.PIPE, stderr=subprocess.PIPE)
    os.close(read_end)
    for piece in pieces:
        try:
            os.write(write_end, piece)
        except BrokenPipeError:
            break
        time.sleep(0.3)
    if close:
        os.close(write_end)
    result = program.communicate(timeout=120)
    if not close:
        os.close(write_end)
    return result


def on(descriptor):
    run = subprocess.run([PROGRAM], stdin=descriptor, stdout=subprocess.PIPE, stderr=subprocess.PIPE)
    return run.stdout, run.stderr


def closed():
    run = subprocess.run(["sh", "-c", 'exec "$0" <&-', PROGRAM], stdout=subprocess.PIPE, stderr=subprocess.PIPE)
    return run.stdout, run.stderr


folder = os.open("/", os.O_RDONLY)
write_only = os.open(os.devnull, os.O_WRONLY)
expect("a job in one late piece", late([JOB]), b"accepted 260\n", False)
expect("a job in three late pieces", late([JOB[:20], JOB[20:200], JOB[200:]]), b"accepted 260\n", False)
expect("a job, and one byte late", late([JOB, b"x"]), b"refused 27 at 261\n", False)
expect("a job whose end never comes", late([JOB], close=False), b"", True)
expect("a folder", on(folder), b"", True)
expect("a descriptor that can only be written", on(write_only), b"", True)
expect("a closed standard input", closed(), b"", True)
for text in faults:
    print(text)
print(f"failed reads: 7 inputs, {len(faults)} faults")
sys.exit(1 if faults else 0)
