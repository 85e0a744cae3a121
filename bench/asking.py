"""A line for a running gclq, and how long its answer takes."""
import os
import sys
import time


def ask(run, line):
    """The last line of the answer, and the seconds from the line to there."""
    begin = time.perf_counter()
    run.stdin.write(line.encode() + b"\n")
    run.stdin.flush()
    end = b""
    # an answer ends with a line that begins with one of these
    while not (end.endswith(b"\n") and end.splitlines()[-1].startswith((b"=", b"!", b"file "))):
        piece = os.read(run.stdout.fileno(), 1 << 20)
        if not piece:
            sys.exit(f"no answer to: {line}")
        end = (end + piece)[-1000:]
    return end.splitlines()[-1].decode(), time.perf_counter() - begin


def do(run, lines):
    """The seconds until all these lines are answered, of which none is a count that finds nothing. They fit into a pipe."""
    begin = time.perf_counter()
    run.stdin.write("".join(line + "\n" for line in [*lines, 'count "no such word"']).encode())
    run.stdin.flush()
    end = b""
    while not (b"\n" + end).endswith(b"\n= 0\n"):
        piece = os.read(run.stdout.fileno(), 1 << 20)
        if not piece:
            sys.exit(f"no answer to: {lines[-1]}")
        end = (end + piece)[-1000:]
    return time.perf_counter() - begin


def kept(run):
    """The most kilobytes of memory that it held so far."""
    return next(int(line.split()[1]) for line in open(f"/proc/{run.pid}/status") if line.startswith("VmHWM"))
