#!/usr/bin/env python3
"""Prints how long `scc compile` takes on sources at half of a size and at the size, and its greatest memory.

  growth.py STAGE [SHAPE ..]    STAGE: construction, middle, compile, forms (what the flags do), arrays (under an index, at all
                                doublings from a small size on)

The program is that of SCC, else crates/scc/out/scc. Fails where an answer is another than the shape's, or where
twice the source takes more than 2.2 times as long (times under 20 milliseconds aren't compared), however often both
are measured again (four times at most), and where valgrind is installed more than 2.2 times as many instructions too.
"""
import os
import pathlib
import re
import resource
import shutil
import subprocess
import sys
import tempfile

TOP = pathlib.Path(__file__).resolve().parent.parent
PROGRAM = os.path.abspath(os.environ.get("SCC", TOP / "crates/scc/out/scc"))
HEAD = "#include <systemc.h>\n"


def repeated(n, piece):
    return "".join(piece.replace("#", str(i)) for i in range(n))


def clocked(members, body):
    """A module with one method at the edges of a clock."""
    return (f"{HEAD}SC_MODULE(T) {{\n  sc_in<bool> clk;\n  sc_in<sc_uint<8> > a;\n  sc_out<sc_uint<8> > q;\n{members}\n"
            f"  void f() {{\n{body}\n  }}\n  SC_CTOR(T) {{ SC_METHOD(f); sensitive << clk.pos(); }}\n}};\n")


def thread(members, body):
    """A module with one thread."""
    return (f"{HEAD}SC_MODULE(T) {{\n  sc_in<bool> clk, rst;\n  sc_in<sc_uint<8> > a;\n  sc_out<sc_uint<8> > q;\n{members}\n"
            f"  void f() {{\n{body}\n  }}\n  SC_CTOR(T) {{ SC_CTHREAD(f, clk.pos()); reset_signal_is(rst, true); }}\n}};\n")


def signals(n):
    return (f"{HEAD}SC_MODULE(T) {{\n  sc_in<bool> a;\n  sc_vector<sc_signal<bool> > s;\n  void f() {{ s[0].write(a.read()); }}\n"
            f"  SC_CTOR(T) : s(\"s\", {n}) {{ SC_METHOD(f); sensitive << a; }}\n}};\n")


def bindings(n):
    return (f"{HEAD}SC_MODULE(C) {{\n  sc_in<bool> x;\n  SC_CTOR(C) {{ }}\n}};\nSC_MODULE(T) {{\n  sc_in<bool> a;\n  sc_vector<C> c;\n"
            f"  SC_CTOR(T) : c(\"c\", {n}) {{ for (int i = 0; i < {n}; i++) c[i].x(a); }}\n}};\n")


def modules(n):
    return (f"{HEAD}SC_MODULE(C) {{\n  sc_in<bool> x;\n  sc_signal<bool> y;\n  void f() {{ y.write(x.read()); }}\n"
            f"  SC_CTOR(C) {{ SC_METHOD(f); sensitive << x; }}\n}};\nSC_MODULE(T) {{\n  sc_in<bool> a;\n  C* c[{n}];\n"
            f"  SC_CTOR(T) {{ for (int i = 0; i < {n}; i++) {{ c[i] = new C(\"c\"); c[i]->x(a); }} }}\n}};\n")


def turns(n):
    return clocked("  int n;", "n = 1;").replace("SC_CTOR(T) {", f"SC_CTOR(T) {{ for (int i = 0; i < {n}; i++) n = i;")


def processes(n):
    return (f"{HEAD}SC_MODULE(T) {{\n  sc_in<bool> clk;\n" + repeated(n, "  bool m#;\n  void f#() { m# = !m#; }\n") +
            "  SC_CTOR(T) {\n" + repeated(n, "    SC_METHOD(f#); sensitive << clk.pos();\n") + "  }\n};\n")


def waits(n):
    return thread("", "q.write(0);\n" + "wait();\n" * n + "while (true) wait();")


def counted(n):
    return clocked("  sc_uint<16> n;", f"for (int i = 0; i < {n}; i++) {{ n = n + i; n = n ^ a.read(); }}")


def elements(n):
    return clocked(f"  bool m[{n}];\n  sc_uint<16> i;", "q.write(m[i]); m[i] = 1; i = i + 1;")


def increments(n):
    return clocked("  int n;", "n++;\n" * n)


def listed(n):
    names = ",".join(f"s{i}" for i in range(n))
    return (f"{HEAD}SC_MODULE(T) {{\n  sc_signal<bool> {names};\n  sc_out<bool> q;\n  void f() {{ q.write(s0.read()); }}\n"
            "  SC_CTOR(T) { SC_METHOD(f); sensitive" + repeated(n, " << s#") + "; }\n};\n")


def rows(n):
    """Elements and indices together: a text would grow with their product."""
    return thread(f"  bool m[{n}];\n  sc_uint<16> i;", "i = 0;\nwait();\nwhile (true) {\n" + "m[i] = 1;\n" * n + "i = i + 1;\nwait();\n}")


def idle(n):
    """Loops without turns, in many turns of the loop around them."""
    return clocked("  int n;", "n = 1;\nfor (int i = 0; i < 4000; i++) {\n" + "for (int j = 0; j < 0; j++) { }\n" * n + "}")


def ports(n):
    pairs = range(n // 2)
    return (f"{HEAD}SC_MODULE(T) {{\n  sc_in<bool> {', '.join(f'a{i}' for i in pairs)};\n  sc_out<bool> {', '.join(f'y{i}' for i in pairs)};\n"
            "  void f() {\n" + repeated(n // 2, "y#.write(!a#);\n") +
            "  }\n  SC_CTOR(T) { SC_METHOD(f); sensitive" + repeated(n // 2, "<<a#") + "; }\n};\n")


def states(n):
    return thread("", "q.write(0);\nwait();\nwhile (true) {\n" + repeated(n, "q.write(#);\nwait();\n") + "}")


def generated(n):
    return subprocess.run([PROGRAM, "gen", str(n), "--source"], capture_output=True, check=True).stdout.decode()


def memory(n):
    return clocked(f"  sc_uint<8> m[{n}];\n  sc_uint<16> i;", "q.write(m[i]); m[i] = a.read(); i = i + 1;")


def array(body):
    """An array of so many bytes, and a body that uses it under the indices i and j."""
    return lambda n: clocked(f"  sc_in<sc_uint<16> > i, j;\n  sc_uint<8> m[{n}];", body)


def clocks(n):
    return (f"{HEAD}SC_MODULE(T) {{\n" + repeated(n, "  sc_in<bool> c#;\n  sc_out<bool> q#;\n  bool m#;\n  void f#() { m# = !m#; q#.write(m#); }\n") +
            "  SC_CTOR(T) {\n" + repeated(n, "    SC_METHOD(f#); sensitive << c#.pos();\n") + "  }\n};\n")


CLOCKS = 128


def cells(n):
    """So many variables, shared out among all clocks that a design may have."""
    each = range(n // CLOCKS)
    return (f"{HEAD}SC_MODULE(T) {{\n" + "".join(
        f"  sc_in<bool> c{i};\n  bool " + ", ".join(f"m{i}_{k}" for k in each) +
        f";\n  void f{i}() {{ " + " ".join(f"m{i}_{k} = !m{i}_{k};" for k in each) + " }\n" for i in range(CLOCKS)) +
        "  SC_CTOR(T) {\n" + repeated(CLOCKS, "    SC_METHOD(f#); sensitive << c#.pos();\n") + "  }\n};\n")


def all_clocks():
    """A stimulus of two steps with an edge of each clock."""
    return "scc-stim 3\nclocks" + repeated(CLOCKS, " c#") + "\nports\n" + f"step {(1 << CLOCKS) - 1:x}\n" * 2


# what is run for each shape of the forms behind the name of its top
FORMS = {
    "hierarchy": ["compile", "a.cpp", "--hier"], "memory": ["compile", "a.cpp", "--memory"],
    "clocks": ["compile", "a.cpp", "--clocks"], "cells": ["compile", "a.cpp", "--clocks"],
    "hierarchy, svsim": ["svsim", "a.sv", "--stim", "s", "--hier"],
    "cells, sim": ["sim", "a.cpp", "--stim", "s", "--clocks"], "cells, svsim": ["svsim", "a.sv", "--stim", "s", "--clocks"],
}
# the stimulus of those that want one
STIMULI = {"hierarchy, svsim": "scc-stim 1\nports a\nstep 1\nstep 0\n", "cells, sim": all_clocks(), "cells, svsim": all_clocks()}
# printed only: each clock's part of a design has all its cells, so the time grows with clocks times cells, which both grow here; a
# statement that writes an element under an index has its value once for each element, so a read under an index in it is as often in
# the text as there are elements
PRINTED = {"clocks", "written, read in one statement"}
# measured at a quarter of the size, too
QUARTERED = {"generated stages"}
# the least size of those that are measured at all doublings
LEAST = {"arrays": 512}

# for each stage: name, the source of a size, the size, the module's name, the code of the refusal or None
SHAPES = {
    "construction": [("signals", signals, 60000, "T", None), ("bindings", bindings, 20000, "T", None),
                     ("modules", modules, 16000, "T", None), ("turns", turns, 65000, "T", None)],
    "middle": [("statements", increments, 60000, "T", None), ("processes", processes, 8000, "T", None),
               ("waits", waits, 16000, "T", None), ("turns", counted, 4000, "T", None),
               ("elements", elements, 60000, "T", None), ("listed", listed, 30000, "T", None),
               ("rows", rows, 30000, "T", "E605"), ("idle turns", idle, 200, "T", "E602")],
    "compile": [("generated stages", generated, 1000, "Gen", None), ("states", states, 16000, "T", None),
                ("ports", ports, 30000, "T", None)],
    "forms": [("hierarchy", modules, 10000, "T", None), ("hierarchy, svsim", modules, 10000, "T", None),
              ("memory", memory, 65000, "T", None), ("clocks", clocks, CLOCKS, "T", None), ("cells", cells, 4096, "T", None),
              ("cells, sim", cells, 4096, "T", None), ("cells, svsim", cells, 4096, "T", None)],
    "arrays": [("read", array("q.write(m[i.read()]);\nm[0] = a.read();"), 65000, "T", None),
               ("written", array("m[i.read()] = a.read();\nq.write(m[0]);"), 65000, "T", None),
               ("read and written", array("q.write(m[i.read()]);\nm[j.read()] = a.read();"), 65000, "T", None),
               ("read, then written", array("sc_uint<8> x = m[i.read()];\nm[j.read()] = x;\nq.write(m[0]);"), 65000, "T", None),
               ("written, read in one statement", array("m[j.read()] = m[i.read()];\nq.write(m[0]);"), 512, "T", None)],
}


def sizes(stage, name, size):
    """The sizes at which a shape is measured, each about twice the one before."""
    if stage not in LEAST:
        return (size // 4, size // 2, size) if name in QUARTERED else (size // 2, size)
    found = [size]
    while found[0] // 2 >= min(LEAST[stage], size // 4):
        found.insert(0, found[0] // 2)
    return found


# Starts a command without its output, and writes its status, its seconds and its kilobytes. Linux begins the greatest memory
# of a process with what its parent has: here with the 5 MB of a fresh Python, whatever sources were made before.
STARTER = """
import posix, sys
pid = posix.fork()
if pid == 0:
    posix.dup2(posix.open("/dev/null", posix.O_WRONLY), 1)
    posix.execv(sys.argv[1], sys.argv[1:])
_, status, usage = posix.wait4(pid, 0)
print(posix.waitstatus_to_exitcode(status), usage.ru_utime + usage.ru_stime, usage.ru_maxrss)
"""


def run(words, folder, program=PROGRAM):
    """Status, what was said, seconds of the processor, and kilobytes of memory."""
    p = subprocess.run([sys.executable, "-I", "-S", "-c", STARTER, program] + words, cwd=folder, capture_output=True,
                       check=True, preexec_fn=lambda: resource.setrlimit(resource.RLIMIT_STACK, (8 << 20, 8 << 20)))
    status, seconds, kilobytes = p.stdout.split()
    return int(status), p.stderr.decode(errors="replace"), float(seconds), int(kilobytes)


def measured(words, folder, program=PROGRAM):
    """The fastest of some runs, which all answer the same."""
    best = run(words, folder, program)
    for _ in range(9 if best[2] < 0.5 else 2):
        again = run(words, folder, program)
        if again[:2] != best[:2]:
            sys.exit(f"{program} {' '.join(words)}: one run answers {best[:2]}, another {again[:2]}")
        best = again if again[2] < best[2] else best
    return best


def prepared(stage, name, top, source, folder):
    """The words to be measured, with the files that they read."""
    pathlib.Path(folder, "a.cpp").write_text(source)
    if stage != "forms":
        return ["compile", top, "a.cpp"]
    action, *words = FORMS[name]
    if action == "svsim":
        made = subprocess.run([PROGRAM, "compile", top, "a.cpp", words[-1]], cwd=folder, capture_output=True, check=True)
        pathlib.Path(folder, "a.sv").write_bytes(made.stdout)
    if name in STIMULI:
        pathlib.Path(folder, "s").write_text(STIMULI[name])
    return [action, top, *words]


def is_steep(half, now):
    """Whether twice the source takes more than 2.2 times as long."""
    return now[2] > 0.02 and now[2] > 2.2 * half[2]


def instructions(words, folder):
    """How many instructions a run has by valgrind, None where that isn't installed."""
    if shutil.which("valgrind") is None:
        return None
    p = subprocess.run(["valgrind", "--tool=callgrind", "--callgrind-out-file=/dev/null", PROGRAM, *words], cwd=folder,
                       stdout=subprocess.DEVNULL, stderr=subprocess.PIPE, text=True, errors="replace")
    counted = re.search(r"Collected : (\d+)", p.stderr)
    return int(counted.group(1)) if counted else None


def has_few_instructions(half, now):
    """Whether twice the source is seen to take at most 2.2 times as many instructions, whatever else the machine does."""
    counts = [instructions(words, folder) for words, folder, _ in (half, now)]
    return None not in counts and counts[1] <= 2.2 * counts[0]


def main():
    stage, wanted = sys.argv[1], sys.argv[2:]
    failed = False
    with tempfile.TemporaryDirectory() as folder:
        for name, source, size, top, code in SHAPES[stage]:
            if wanted and name not in wanted:
                continue
            half = None
            for n in sizes(stage, name, size):
                home = pathlib.Path(folder, str(n))
                home.mkdir(exist_ok=True)
                words = prepared(stage, name, top, source(n), home)
                status, said, took, memory = measured(words, home)
                now = [words, home, took]
                # other work on the machine disturbs some measurements more than others: both are measured again
                for _ in range(4):
                    if half is not None and name not in PRINTED and is_steep(half, now):
                        for one in (half, now):
                            one[2] = min(one[2], measured(one[0], one[1])[2])
                print(f"{name:<30} {n:>7} {now[2] * 1000:>9.1f} ms {memory:>8} KB", flush=True)
                right = status == 0 if code is None else status == 1 and f" {code} " in said
                if not right:
                    print(f"{name}: status {status}: {said[:200].strip()}")
                    failed = True
                if half is not None and name not in PRINTED and is_steep(half, now):
                    is_linear = has_few_instructions(half, now)
                    print(f"{name}: {'twice the instructions' if is_linear else 'not linear'}")
                    failed = failed or not is_linear
                half = now
    sys.exit(failed)


if __name__ == "__main__":
    main()
