#!/usr/bin/env python3
"""Proves the compiler and the libraries that it stands on, several side by side, and builds it. ./scc runs what it made.

  tools/build.py

It runs as many checks at a time as there are processors, or as the free memory has room for, each crate after those that it
stands on. What is built already isn't built again: the sum of all that it was built from stands beside it. A line on standard
error says which crate was built, and when. What was proved before it is ended early is kept.

It calls the toolchain's compiler and not `rt`: so the crates above a library load what it states and not its proofs, as in the
merge gate, which takes much less time and memory. What `rt check` keeps is neither read nor touched.
"""
import contextlib
import fcntl
import functools
import hashlib
import os
import re
import shutil
import signal
import subprocess
import sys
import tempfile
import time
from pathlib import Path

TOP = Path(__file__).resolve().parent.parent
PROGRAM = "scc"
# The merge gate leaves this part of a crate's `out` as it was.
BUILT = TOP / "crates" / PROGRAM / "out" / "rlib"
# what ./scc starts, where it is newer than the sources
PROVED = TOP / "crates" / PROGRAM / "out" / PROGRAM
# The memory in bytes that a check takes at most, as seen for the crates of this repository.
MEMORY_OF_A_CHECK = 4 << 30


def say(text):
    print(f"scc: {text}", file=sys.stderr, flush=True)


class Kit:
    """The toolchain whose command `rt` is."""

    def __init__(self):
        command = shutil.which("rt")
        if not command:
            sys.exit("scc: there is no command rt: install the Rattle kit first")
        self.top = Path(command).resolve().parent.parent
        self.compiler = self.top / "bin" / "rattle"
        self.version = (self.top / "WHAT").read_bytes()

    def library(self, name):
        return self.top / "rlibs" / f"{name}.rlib"

    def link(self, object_file, program):
        """Makes the program; answers the linker's status, and prints what it said where that isn't 0."""
        words = ["--target", "x86_64-unknown-linux-gnu", "--toolchain", f"{self.top}/toolchain", "-o", program, object_file]
        libraries = [self.top / "c" / "libos_c.a", self.top / "c" / "liblibc_c.a"]
        run = subprocess.run([self.top / "bin" / "rattle-link", *words, *libraries], capture_output=True, text=True, errors="replace")
        print(run.stderr if run.returncode else "", file=sys.stderr, end="")
        return run.returncode


def crates_below(name):
    """The crates of this repository that the named one stands on and itself, each with what it names in crates.txt."""
    rows = [it.partition(":") for it in (TOP / "crates.txt").read_text().splitlines()]
    uses = {crate.strip(): deps.split() for crate, _, deps in rows}
    found, left = {}, [name]
    while left:
        crate = left.pop()
        if crate in uses and crate not in found:
            found[crate] = uses[crate]
            left += uses[crate]
    return found


class Build:
    def __init__(self, kit, uses):
        self.kit, self.uses = kit, uses
        self.processors = len(os.sched_getaffinity(0))
        self.most = max(1, min(self.processors, free_memory() // MEMORY_OF_A_CHECK))
        self.left, self.built = [], set()
        # the checks that run, and the crates whose check was killed beside others: each runs again with nothing beside it
        self.running, self.alone = {}, set()

    def own(self, crate):
        """The crates of this repository that it names."""
        return [it for it in self.uses[crate] if it in self.uses]

    def sources(self, crate):
        folders = [TOP / "crates" / crate / part for part in ("src", "specs", "proofs")]
        return sorted(it for folder in folders for it in folder.rglob("*") if it.is_file())

    @functools.cache
    def sum(self, crate):
        """The sum of all that the crate is built from."""
        found = hashlib.sha256(self.kit.version)
        found.update(repr((self.uses[crate], [self.sum(it) for it in self.own(crate)])).encode())
        for it in self.sources(crate):
            found.update(repr((str(it.relative_to(TOP)), it.read_bytes())).encode())
        return found.hexdigest()

    def product(self, crate):
        return BUILT / (crate if crate == PROGRAM else f"{crate}.rlib")

    def noted(self, crate):
        """The file that has the sum of all that the product was made from."""
        return BUILT / f"{crate}.sum"

    @functools.cache
    def is_built(self, crate):
        """Whether an earlier run built it of the same, over what earlier runs built."""
        noted = self.noted(crate)
        is_same = self.product(crate).exists() and noted.is_file() and noted.read_text() == self.sum(crate)
        return is_same and all(map(self.is_built, self.own(crate)))

    @functools.cache
    def way(self, crate):
        """The lines of the crate and of the crates above it, along the longest way up."""
        lines = sum(it.read_bytes().count(b"\n") for it in self.sources(crate))
        return lines + max((self.way(it) for it in self.uses if crate in self.uses[it]), default=0)

    def words(self, crate, jobs, product):
        """The compiler's words for a check that, if it succeeds, writes the product."""
        kit, is_program = self.kit, crate == PROGRAM
        words = ["build", "--crate-name", crate, "src/main.rt" if is_program else "src/lib.rt"]
        for name in ["std", *self.uses[crate]]:
            words += ["--extern", f"{name}={self.product(name) if name in self.uses else kit.library(name)}"]
        words += ["-L", f"dependency={kit.top}/rlibs", "-L", f"dependency={BUILT}"]
        words += ["--antt-project", f"{kit.top}/rattle/logic/antt-project.json", "--logic-built", f"{kit.top}/logic_built"]
        words += ["--toolchain", f"{kit.top}/toolchain", "--backend", "llvm"] if is_program else ["--statements"]
        return [*words, "--jobs", str(jobs), "-o", str(product)]

    def begin(self, folder):
        """Begins what can begin. Where fewer checks than processors can run, each gets several."""
        ready = [it for it in self.left if self.built.issuperset(self.own(it))]
        ready = [it for it in ready if it not in self.alone] or (ready[:1] if not self.running else [])
        many = min(self.most, len(self.running) + len(ready))
        for crate in ready[: many - len(self.running)]:
            self.left.remove(crate)
            jobs = 1 if crate in self.alone else max(1, self.processors // many)
            made, said = (Path(folder, f"{crate}.{it}") for it in ("made", "said"))
            how = {"cwd": TOP / "crates" / crate, "stdin": subprocess.DEVNULL, "stderr": subprocess.STDOUT, "start_new_session": True}
            with open(said, "w") as out:
                check = subprocess.Popen([self.kit.compiler, *self.words(crate, jobs, made)], stdout=out, **how)
            self.running[crate] = check, made, said, time.monotonic()

    def end(self, crate):
        """Takes in a check that ended. Answers whether the build can go on."""
        check, made, said, since = self.running.pop(crate)
        minutes, product, status = (time.monotonic() - since) / 60, self.product(crate), check.wait()
        if not status and crate == PROGRAM:
            linked = made.with_suffix(".linked")
            status, made = self.kit.link(made, linked), linked
        if status == -signal.SIGKILL and crate not in self.alone:
            # most likely for want of memory
            self.alone.add(crate)
            self.left.append(crate)
        elif status:
            print(said.read_text(errors="replace"), file=sys.stderr, end="")
            say(f"{crate} was not proved")
            return False
        else:
            self.noted(crate).unlink(missing_ok=True)
            shutil.rmtree(product, ignore_errors=True)
            made.replace(product)
            self.noted(crate).write_text(self.sum(crate))
            self.built.add(crate)
            say(f"{crate} proved in {minutes:.1f} minutes ({len(self.built)} of {len(self.uses)})")
        return True

    def run(self, folder):
        self.built = {it for it in self.uses if self.is_built(it)}
        self.left = sorted(self.uses.keys() - self.built, key=lambda it: (-self.way(it), it))
        try:
            while self.left or self.running:
                self.begin(folder)
                time.sleep(0.1)
                for crate in [it for it, run in self.running.items() if run[0].poll() is not None]:
                    if not self.end(crate):
                        return 1
            self.hand_out(folder)
            return 0
        finally:
            for check, *_ in self.running.values():
                # with the copies of itself that share its work; it may have ended by itself
                with contextlib.suppress(ProcessLookupError):
                    os.killpg(check.pid, signal.SIGTERM)
                check.wait()

    def hand_out(self, folder):
        """Copies the program to where ./scc starts it: the merge gate replaces what is there."""
        shutil.copy(self.product(PROGRAM), Path(folder, PROGRAM))
        Path(folder, PROGRAM).replace(PROVED)


def free_memory():
    found = re.search(r"MemAvailable:\s+(\d+) kB", Path("/proc/meminfo").read_text())
    return int(found[1]) << 10


def ended(number, frame):
    raise KeyboardInterrupt


def build():
    BUILT.mkdir(parents=True, exist_ok=True)
    with open(BUILT / "lock", "w") as lock:
        fcntl.flock(lock, fcntl.LOCK_EX)
        # left by a run that was killed
        for it in BUILT.glob("new-*"):
            shutil.rmtree(it)
        # on the disk of the products, which are then renamed into place
        with tempfile.TemporaryDirectory(prefix="new-", dir=BUILT) as folder:
            return Build(Kit(), crates_below(PROGRAM)).run(folder)


def main():
    signal.signal(signal.SIGTERM, ended)
    try:
        return build()
    except KeyboardInterrupt:
        say("ended; what was proved is kept")
        return 130


if __name__ == "__main__":
    sys.exit(main())
