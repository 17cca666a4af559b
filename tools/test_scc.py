#!/usr/bin/env python3
"""Tests tools/scc: each command and each option once, on sources that are taken and refused, with their statuses.

    tools/test_scc.py [TEST ..]

The compiler is ./scc, or the program that SCC names. Verilator, Icarus and Yosys aren't needed.
"""
import json
import os
import re
import subprocess
import sys
import tempfile
import unittest
from pathlib import Path

from agreeing.compiler import compiler
from helping.commands import COMMANDS, GENERAL

HERE = Path(__file__).resolve().parent
EXAMPLES = HERE.parent / "examples"
BLINK = EXAMPLES / "blink" / "blink.cpp"
BLINK_STIM = EXAMPLES / "blink" / "blink.stim"
CROSSING = EXAMPLES / "crossing" / "crossing.cpp"
MUX = """SC_MODULE(Mux) {
\tsc_in<bool> select; // \u00e9
  sc_in<sc_uint<8> > a, b;
  sc_out<sc_uint<8> > y;
  void choose() { if (select.read()) y.write(a.read()); }
  SC_CTOR(Mux) { SC_METHOD(choose); sensitive << select << a << b; }
};
"""
ARRAYS = """SC_MODULE(Arrays) {
  sc_in<bool> clk, rst;
  sc_in<sc_uint<4> > i;
  sc_out<sc_uint<8> > y;
  sc_uint<8> cleared[16], taken[16], twice[16], shifted[2], pair[2];
  void run() {
    for (int k = 0; k < 16; k++) cleared[k] = 0;
    y.write(0);
    wait();
    while (true) {
      cleared[i.read()] = taken[i.read()];
      taken[i.read()] = 1;
      twice[i.read()] = 2;
      twice[7 - i.read()] = 3;
      y.write(shifted[0] + twice[i.read()] + pair[0] + pair[1]);
      shifted[0] = shifted[1];
      shifted[1] = cleared[i.read()];
      if (i.read() == 0) pair[0] = 1; else pair[1] = 2;
      wait();
    }
  }
  SC_CTOR(Arrays) { SC_CTHREAD(run, clk.pos()); reset_signal_is(rst, true); }
};
"""
UNARY = """SC_MODULE(Unary) {
  sc_in<sc_uint<8> > a;
  sc_out<sc_uint<16> > y, one;
  void invert() { y.write(~a.read()); one.write(1); }
  void none() { two.write(2); }
  sc_signal<int> two;
  SC_CTOR(Unary) { SC_METHOD(invert); sensitive << a; SC_METHOD(none); sensitive << a; }
};
"""


class Tests(unittest.TestCase):
    def setUp(self):
        folder = tempfile.TemporaryDirectory()
        self.addCleanup(folder.cleanup)
        self.folder = Path(folder.name)

    def file(self, name, text):
        (self.folder / name).parent.mkdir(exist_ok=True)
        (self.folder / name).write_text(text)
        return name

    def scc(self, *words, status=0):
        """What it printed and said."""
        done = subprocess.run([HERE / "scc", *map(str, words)], cwd=self.folder, capture_output=True, text=True)
        self.assertEqual(done.returncode, status, done.stderr)
        return done.stdout, done.stderr

    def compiler(self, *words):
        return subprocess.run([*compiler(), *map(str, words)], cwd=self.folder, capture_output=True, text=True)

    def same_as_the_compiler(self, *words):
        self.assertEqual(self.scc(*words), (self.compiler(*words).stdout, ""))

    def faulty(self, words, *said):
        printed, why = self.scc(*words, status=2)
        self.assertEqual(printed, "")
        self.assertTrue(why.startswith("scc: bad words: "), why)
        for it in said:
            self.assertIn(it, why)

    # the compiler's commands

    def test_what_the_compiler_prints(self):
        text = self.folder / "Blink.sv"
        text.write_text(self.compiler("compile", "Blink", BLINK).stdout)
        for words in (("compile", "Blink", BLINK), ("list", "Blink", BLINK), ("gen", "3"), ("gen", "3", "--source"),
                      ("sim", "Blink", BLINK, "--stim", BLINK_STIM), ("sim", "Blink", BLINK, "--stim", BLINK_STIM, "--order", "3"),
                      ("sim", "Blink", BLINK, "--stim", BLINK_STIM, "--migrate"), ("svsim", "Blink", text, "--stim", BLINK_STIM),
                      ("compile", "Crossing", CROSSING, "--clocks"),
                      ("sim", "Crossing", CROSSING, "--stim", CROSSING.with_suffix(".stim"), "--clocks"),
                      ("compile", "Multiplier", EXAMPLES / "multiplier" / "multiplier.cpp", "--hier"),
                      ("compile", "Fifo", EXAMPLES / "fifo" / "fifo.cpp", "--memory")):
            with self.subTest(words[:2]):
                self.same_as_the_compiler(*words)

    def test_options_stand_anywhere(self):
        printed, _ = self.scc("sim", f"--stim={BLINK_STIM}", "Blink", BLINK)
        self.assertEqual(printed, BLINK_STIM.with_suffix(".trace").read_text())

    def test_svsim_of_other_forms(self):
        for flag, top, name in (("--hier", "Multiplier", "multiplier"), ("--clocks", "Crossing", "crossing")):
            source = EXAMPLES / name / f"{name}.cpp"
            self.scc("compile", top, source, flag, "-o", "text.sv")
            printed, _ = self.scc("svsim", top, "text.sv", flag, "--stim", source.with_suffix(".stim"))
            self.assertEqual(printed, source.with_suffix(".trace").read_text())

    # outputs

    def test_output_is_whole_or_stays(self):
        self.file("mux.cpp", MUX)
        self.assertEqual(self.scc("compile", "Blink", BLINK, "-o", "out.sv"), ("", ""))
        made = (self.folder / "out.sv").read_text()
        self.assertEqual(made, self.compiler("compile", "Blink", BLINK).stdout)
        self.scc("compile", "Mux", "mux.cpp", "-o", "out.sv", status=1)
        self.assertEqual((self.folder / "out.sv").read_text(), made)
        self.assertEqual(sorted(os.listdir(self.folder)), ["mux.cpp", "out.sv"])

    def test_output_that_cannot_be_written(self):
        _, said = self.scc("list", "Blink", BLINK, "-o", "nowhere/out", status=5)
        self.assertIn("scc: output failed: nowhere/out", said)
        with open("/dev/full", "w") as full:
            done = subprocess.run([HERE / "scc", "compile", "Blink", BLINK], stdout=full, stderr=subprocess.PIPE, text=True)
        self.assertEqual((done.returncode, done.stderr.splitlines()[0][:18]), (5, "scc: output failed"))

    def test_portable(self):
        self.file("unary.cpp", UNARY)
        printed, _ = self.scc("compile", "Unary", "unary.cpp", "--portable")
        self.assertIn("(~(64'(a)))", printed)
        self.assertEqual((printed.count("always @*"), printed.count("always_comb")), (1, 1))
        whole = self.compiler("compile", "Unary", "unary.cpp").stdout
        self.assertEqual(printed.replace("always @*", "always_comb").replace("(~(64'(a)))", "(~64'(a))"), whole)

    def test_memory_says_what_stays(self):
        self.file("arrays.cpp", ARRAYS)
        printed, said = self.scc("compile", "Arrays", "arrays.cpp", "--memory")
        self.assertIn("taken [0:15]", printed)
        lines = dict(line.removeprefix("scc: ").split(" (", 1) for line in said.splitlines())
        self.assertEqual(sorted(lines), ["cleared", "pair", "shifted", "twice"])
        self.assertIn("the reset writes 16 elements", lines["cleared"])
        self.assertIn("up to 2 elements", lines["twice"])
        self.assertIn("up to 2 elements", lines["shifted"])
        self.assertIn("no index but constants", lines["pair"])

    # refusals

    def test_refusal_with_its_source_and_page(self):
        self.file("mux.cpp", MUX)
        printed, said = self.scc("compile", "Mux", "mux.cpp", status=1)
        lines = said.splitlines()
        self.assertEqual((printed, lines[0]), ("", "mux.cpp:5:38: E504 latch"))
        self.assertEqual(lines[1], "    5 |   void choose() { if (select.read()) y.write(a.read()); }")
        self.assertEqual(lines[2].index("^"), lines[1].index("y.write"))
        self.assertIn("A combinational method writes a signal on some paths", said)
        self.assertIn("Fix: give it a value first", said)

    def test_caret_below_tabs_and_letters_of_several_bytes(self):
        self.file("a.cpp", "\t/* \u00e9\u00e9 */ @\n")
        _, said = self.scc("compile", "T", "a.cpp", status=1)
        self.assertEqual(said.splitlines()[1:3], ["    1 | \t/* \u00e9\u00e9 */ @", "      | \t         ^"])

    def test_second_place(self):
        self.file("two.cpp", "SC_MODULE(T) {\n  sc_in<bool> a;\n  sc_out<bool> a;\n  SC_CTOR(T) {}\n};\n")
        _, said = self.scc("list", "T", "two.cpp", status=1)
        self.assertEqual(said.splitlines()[0], "two.cpp:3:16: E302 duplicate name (see two.cpp:2:15)")
        self.assertEqual(said.splitlines()[3:6], ["see two.cpp:2:15", "    2 |   sc_in<bool> a;", "      |               ^"])

    def test_brief_and_json(self):
        self.file("mux.cpp", MUX)
        _, brief = self.scc("compile", "Mux", "mux.cpp", "--brief", status=1)
        self.assertEqual(brief, self.compiler("compile", "Mux", "mux.cpp").stderr)
        _, said = self.scc("compile", "Mux", "mux.cpp", "--json", status=1)
        self.assertEqual(json.loads(said), {"file": "mux.cpp", "line": 5, "column": 38, "code": "E504", "name": "latch", "see": None,
                                            "page": "docs/errors/5-processes.md#e504-latch"})

    def test_misspelt_top(self):
        _, said = self.scc("compile", "Blnik", BLINK, status=1)
        self.assertIn("no module Blnik: did you mean Blink?", said)
        self.assertIn("Their modules: Blink.", said)
        _, said = self.scc("compile", "Fifi", EXAMPLES / "fifo" / "fifo.cpp", status=1)
        self.assertIn("did you mean Fifo?", said)

    def test_missing_files(self):
        self.file("lib/part.h", '\n#include "../gone.h"\n')
        self.file("a.cpp", '#include "lib/part.h"\n')
        _, said = self.scc("compile", "T", "a.cpp", status=3)
        self.assertEqual(said.splitlines()[:2], ["scc: missing lib/../gone.h", 'lib/part.h:2 includes "../gone.h"'])
        _, said = self.scc("compile", "T", "none.cpp", status=3)
        self.assertEqual(said, "scc: missing none.cpp\n")

    def test_explain(self):
        printed, _ = self.scc("explain", "E504")
        self.assertTrue(printed.startswith("E504 latch (docs/errors/5-processes.md#e504-latch)\n"))
        self.assertIn("SC_MODULE(T)", printed)
        self.assertEqual(self.scc("explain", "latch"), (printed, ""))
        self.assertIn("E504  latch", self.scc("explain")[0])
        self.faulty(["explain", "E999"], "no code E999")

    def test_each_code_has_a_page(self):
        for line in self.scc("explain")[0].splitlines():
            with self.subTest(line[:4]):
                self.assertIn("$ scc ", self.scc("explain", line[:4])[0])

    # other commands

    def test_stimulus_runs(self):
        for words in (("Blink", BLINK), ("Debouncer", EXAMPLES / "debouncer" / "debouncer.cpp"), ("Crossing", CROSSING, "--clocks")):
            printed, said = self.scc("stimulus", *words, "--random", "20", "--seed", "5", "--reset", "3", "-o", "made.stim")
            self.assertEqual(printed, "")
            flags = words[2:]
            self.assertEqual(len((self.folder / "made.stim").read_text().splitlines()), 22 + len(flags))
            self.scc("sim", *words[:2], "--stim", "made.stim", *flags)
        self.assertIn("resets: rst (active 1)", self.scc("stimulus", "Blink", BLINK)[1])
        self.assertIn("resets: rst_n (active 0)", self.scc("stimulus", "Fifo", EXAMPLES / "fifo" / "fifo.cpp")[1])
        self.assertEqual(self.scc("stimulus", "Blink", BLINK, "--seed", "1"), self.scc("stimulus", "Blink", BLINK))
        self.assertNotEqual(self.scc("stimulus", "Blink", BLINK, "--seed", "2"), self.scc("stimulus", "Blink", BLINK))

    def test_stimulus_holds_resets(self):
        lines = self.scc("stimulus", "Blink", BLINK, "--reset", "3")[0].splitlines()
        self.assertEqual(lines[:2], ["scc-stim 1", "ports rst enable"])
        self.assertEqual([line.split()[1] for line in lines[2:]], list("11100000"))

    def test_waves(self):
        self.scc("waves", "Blink", BLINK, "--stim", BLINK_STIM, "-o", "b.vcd")
        text = (self.folder / "b.vcd").read_text()
        for name in ("clk", "rst", "enable", "led"):
            self.assertRegex(text, rf"\$var wire 1 \S+ {name} \$end")
        self.scc("waves", "Crossing", CROSSING, "--clocks", "--stim", CROSSING.with_suffix(".stim"), "-o", "c.vcd")
        self.assertIn(" slow $end", (self.folder / "c.vcd").read_text())

    def test_new(self):
        self.scc("new", "first")
        words = ["make", "-C", self.folder / "first", "Counter.sv", "sim", "waves", "stimulus"]
        made = subprocess.run(words, capture_output=True, text=True)
        self.assertEqual(made.returncode, 0, made.stderr)
        self.assertIn("7+ count=01 full=0", made.stdout)
        self.assertEqual(sorted(os.listdir(self.folder / "first")),
                         ["Counter.sv", "Counter.vcd", "Makefile", "counter.cpp", "counter.stim", "random.stim"])
        _, said = self.scc("new", "first", status=2)
        self.assertIn("isn't an empty folder", said)

    def test_lint_and_agree(self):
        printed, _ = self.scc("lint", "Blink", BLINK)
        self.assertIn("verilator", printed)
        printed, _ = self.scc("agree", "Blink", BLINK, "--stim", BLINK_STIM, "--only", "sim", "svsim")
        self.assertEqual([line.split() for line in printed.splitlines()[1:]], [["scc", "sim", "same"], ["scc", "svsim", "same"]])

    # words

    def test_bad_words(self):
        for words, *said in (
                (["complie", "Blink", "b.cpp"], "unknown command 'complie': did you mean compile?"),
                (["compile"], "compile is without TOP"), (["compile", "Blink"], "no file after the module Blink"),
                (["compile", "b.cpp"], "no module before the files: 'b.cpp'"),
                (["compile", "Blink", "b.cpp", "--heir"], "unknown flag --heir: did you mean --hier?"),
                (["compile", "Blink", "b.cpp", "--stim", "s"], "compile takes no --stim; sim, svsim, waves do"),
                (["compile", "Blink", "b.cpp", "--hier", "--memory"], "--hier and --memory exclude each other"),
                (["compile", "Blink", "b.cpp", "--hier", "--hier"], "--hier is given twice"),
                (["compile", "Blink", "b.cpp", "--hier=1"], "--hier takes no value"),
                (["compile", "Blink", "b.cpp", "-o"], "-o is without its OUT"),
                (["compile", "Blink", "b.cpp", "--json", "--brief"], "--brief and --json exclude each other"),
                (["compile", "T", *["b.cpp"] * 65], "more than 64 files"),
                (["sim", "Blink", "b.cpp"], "--stim is missing", "usage: tools/scc sim"),
                (["sim", "Blink", "b.cpp", "--stim", "s", "--order", "1001"], "from 1 to 1,000, not 1001"),
                (["svsim", "Blink", "a.sv", "b.sv", "--stim", "s"], "svsim takes one file"),
                (["gen", "0"], "from 1 to 1,000, not '0'"), (["gen", "1", "2"], "not also '2'"),
                (["stimulus", "T", "a.cpp", "--random", "many"], "--random wants a number, not 'many'"),
                (["new"], "new is without DIR")):
            with self.subTest(" ".join(words[:4])):
                self.faulty(words, *said)
        self.assertIn("no command", self.scc(status=2)[1])

    def test_help_names_all(self):
        text, _ = self.scc("--help")
        for name, _ in GENERAL:
            self.assertIn(name, text)
        for command in COMMANDS.values():
            self.assertIn(f"  {command.name} {command.words}", text)
            own, _ = self.scc(command.name, "--help")
            for option in command.options:
                self.assertIn(option.name, text)
                self.assertIn(option.name, own)

    def test_options_are_documented(self):
        page = (HERE.parent / "docs" / "TOOLS.md").read_text()
        for command in COMMANDS.values():
            self.assertIn(f"tools/scc {command.name}", page)
            for option in command.options:
                self.assertIn(option.name, page)
        for name, _ in GENERAL:
            self.assertIn(f"tools/scc {name}", page)

    def test_readme_shows_what_comes_out(self):
        text = (HERE.parent / "README.md").read_text()
        source, wanted = (re.search(rf"^```{kind}\n(.*?)^```$", text, re.M | re.S).group(1) for kind in ("cpp", "systemverilog"))
        self.file("counter.cpp", source)
        self.assertEqual(self.scc("compile", "Counter", "counter.cpp"), (wanted, ""))
        self.file("counter.cpp", source.replace("sensitive << clk.pos();", "sensitive << rst << enable << count;"))
        _, said = self.scc("compile", "Counter", "counter.cpp", "--brief", status=1)
        self.assertIn(f"    {said}", text)

    def test_version_and_program(self):
        program = self.scc("--program")[0].strip()
        self.assertEqual(program, " ".join(compiler()))
        first, second = self.scc("--version")[0].splitlines()
        self.assertEqual(second, program)
        self.assertRegex(first, r"^scc: (the program that SCC names|(un)?proved .*build of .*commit .*)$")


if __name__ == "__main__":
    # built before the tests, if it is to be built
    compiler()
    unittest.main(argv=[sys.argv[0], *(f"Tests.{name}" for name in sys.argv[1:])], verbosity=1)
