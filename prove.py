#!/usr/bin/env python3
"""prove.py PROGRAM: proves a program and the crates below it, as far as they are not proved yet or have changed, and builds the program as
crates/PROGRAM/out/PROGRAM. It reports its progress on standard error.

A crate is started as soon as those that it uses are proved, first the one with the longest way up to the program. The crates above it load
only its statements, which `rattle build --statements` makes, and `rt lib` does not: libraries with proofs take several times as long to
load. What is proved is kept in crates/*/out/statements at once, so it may be stopped.

Ends with 0 if the program is there, with 1 if a crate is not proved, after what the prover says of it, and with 130 after Ctrl-C.
"""
import fcntl, os, shutil, subprocess, sys, time

HERE = os.path.dirname(os.path.realpath(__file__))
TARGET = "x86_64-unknown-linux-gnu"
# What a check may need of memory, in kilobytes.
NEED = 3_000_000


def read_uses():
    """What each crate uses, by crates.txt: crates of this repository, and libraries of the kit."""
    uses = {}
    with open(f"{HERE}/crates.txt", encoding="utf-8") as lines:
        for line in lines:
            head, _, libraries = line.partition("#")[0].partition(":")
            if head.strip():
                uses[head.split()[0]] = libraries.split()
    return uses


def with_below(crate, uses, found=()):
    """The crates found so far, then this one and those of this repository below it, each after those that it uses."""
    if crate in found or crate not in uses:
        return [*found]
    for below in uses[crate]:
        found = with_below(below, uses, found)
    return [*found, crate]


def folder(crate):
    return f"{HERE}/crates/{crate}"


def library(crate):
    """Where its statements are kept."""
    return f"{folder(crate)}/out/statements/{crate}.rlib"


def is_program(crate):
    return os.path.isfile(f"{folder(crate)}/src/main.rt")


def made_at(crate):
    """When what is made of it was made, and 0 where it is not there."""
    made = f"{folder(crate)}/out/{crate}" if is_program(crate) else f"{library(crate)}/format"
    return os.path.getmtime(made) if os.path.isfile(made) else 0


def sources(crate):
    """The files that its proof reads."""
    for part in ("src", "specs", "proofs"):
        for at, _, names in os.walk(f"{folder(crate)}/{part}"):
            yield from (f"{at}/{name}" for name in names)


def lacking(crates, uses):
    """Those of which nothing is made that is newer than their sources and than the libraries that they use, and those above them."""
    found = set()
    for crate in crates:
        read = [*map(os.path.getmtime, sources(crate)), *(made_at(it) for it in uses[crate] if it in uses)]
        if made_at(crate) <= max(read) or not found.isdisjoint(uses[crate]):
            found.add(crate)
    return found


def ways_up(crates, uses):
    """For each crate the bytes of sources on the longest way from it up to the program, by which it is seen what takes long."""
    ways = {}
    for crate in reversed(crates):
        ways[crate] = sum(map(os.path.getsize, sources(crate))) + max((ways[it] for it in ways if crate in uses[it]), default=0)
    return ways


def processors():
    """How many processors may be used: those that there are, as far as memory holds."""
    with open("/proc/meminfo", encoding="ascii") as lines:
        free = next(int(line.split()[1]) for line in lines if line.startswith("MemAvailable"))
    return max(1, min(len(os.sched_getaffinity(0)), free // NEED))


class Prover:
    """The kit's prover, over the crates of this repository."""

    def __init__(self, kit, uses):
        self.kit, self.uses = kit, uses

    def command(self, crate, jobs):
        """How a crate is proved, and its library or program made."""
        root = "src/main.rt" if is_program(crate) else "src/lib.rt"
        words = [f"{self.kit}/bin/rattle", "build", "--crate-name", crate, root, "--links", f"{crate}="]
        for it in ("std", *self.uses[crate]):
            words += ["--extern", f"{it}={library(it) if it in self.uses else f'{self.kit}/rlibs/{it}.rlib'}"]
        for it in with_below(crate, self.uses)[:-1]:
            words += ["-L", f"dependency={os.path.dirname(library(it))}"]
        words += ["-L", f"dependency={self.kit}/rlibs", "--antt-project", f"{self.kit}/rattle/logic/antt-project.json"]
        words += ["--logic-built", f"{self.kit}/logic_built", "--jobs", str(jobs)]
        if is_program(crate):
            return [*words, "--toolchain", f"{self.kit}/toolchain", "-o", f"out/{crate}.o"]
        return [*words, "--statements", "-o", library(crate)]

    def begin(self, crate, jobs):
        os.makedirs(os.path.dirname(library(crate)), exist_ok=True)
        with open(f"{folder(crate)}/out/proof.log", "w", encoding="utf-8") as log:
            how = {"cwd": folder(crate), "stdin": subprocess.DEVNULL, "stdout": log, "stderr": subprocess.STDOUT}
            return subprocess.Popen(self.command(crate, jobs), **how)

    def prove(self, left, ways, most):
        """Proves these crates, and yields each as it ends, with the prover's status."""
        running = {}
        try:
            while left or running:
                ready = sorted((it for it in left if (left | running.keys()).isdisjoint(self.uses[it])), key=lambda it: -ways[it])
                while ready and len(running) < most:
                    # several jobs together take more of the processors, so they are for the end, when few crates are ready at a time
                    jobs = most if len(left) <= 2 * most else max(1, (most - len(running)) // len(ready))
                    running[ready[0]] = self.begin(ready[0], jobs)
                    left.remove(ready.pop(0))
                for crate in [it for it, run in running.items() if run.poll() is not None]:
                    yield crate, running.pop(crate).returncode
                time.sleep(0.1)
        finally:
            for run in running.values():
                run.terminate()
                run.wait()

    def link(self, program):
        """Makes the program of its object file."""
        made = f"{folder(program)}/out/{program}"
        words = ["--target", TARGET, "--toolchain", f"{self.kit}/toolchain", "-o", made, f"{made}.o"]
        words += [f"{self.kit}/c/{it}" for it in ("libos_c.a", "liblibc_c.a")]
        ran = subprocess.run([f"{self.kit}/bin/rattle-link", *words], capture_output=True, text=True, check=False)
        if ran.returncode:
            sys.stderr.write(ran.stdout + ran.stderr)
        return ran.returncode == 0


def main():
    [program] = sys.argv[1:]

    def say(what):
        print(f"{program}: {what}", file=sys.stderr, flush=True)

    uses, most = read_uses(), processors()
    crates = with_below(program, uses)
    lock = os.open(HERE, os.O_RDONLY)
    try:
        fcntl.flock(lock, fcntl.LOCK_EX | fcntl.LOCK_NB)
    except BlockingIOError:
        say("waiting for another run in this checkout")
        fcntl.flock(lock, fcntl.LOCK_EX)
    left = lacking(crates, uses)
    done = len(crates) - len(left)
    say(f"proving {len(left)} of {len(crates)} crates with {most} processors; the first takes a minute")
    prover = Prover(os.path.dirname(os.path.dirname(os.path.realpath(shutil.which("rt")))), uses)
    for crate, status in prover.prove(left, ways_up(crates, uses), most):
        if status < 0:
            say(f"the proof of {crate} was killed, most likely for memory: begin again, and what is proved is kept")
            return 1
        if status > 0:
            with open(f"{folder(crate)}/out/proof.log", encoding="utf-8") as log:
                sys.stderr.write(log.read())
            say(f"{crate} is not proved: what the prover said stands above")
            return 1
        done += 1
        say(f"{done} of {len(crates)}: {crate} is proved")
    return 0 if prover.link(program) else 1


if __name__ == "__main__":
    try:
        sys.exit(main())
    except KeyboardInterrupt:
        sys.exit(130)
