"""The folder that `tools/scc new` makes: a first design, its stimulus, a Makefile."""
from pathlib import Path

SOURCE = """// Counts the cycles in which `enable` is 1, up to `most`, and begins again.
#include <systemc.h>

SC_MODULE(Counter) {
  sc_in<bool> clk, rst, enable;
  sc_in<sc_uint<8> > most;
  sc_out<sc_uint<8> > count;
  sc_out<bool> full;

  // a thread: what stands before the first wait is its reset part, each wait is a state
  void run() {
    count.write(0);
    wait();
    while (true) {
      if (enable.read()) {
        if (count.read() == most.read())
          count.write(0);
        else
          count.write(count.read() + 1);
      }
      wait();
    }
  }

  // combinational: its list names all that it reads, and it writes its outputs on every path
  void compare() { full.write(count.read() == most.read()); }

  SC_CTOR(Counter) {
    SC_CTHREAD(run, clk.pos());
    reset_signal_is(rst, true);
    SC_METHOD(compare);
    sensitive << count << most;
  }
};
"""
STIMULUS = """scc-stim 1
ports rst enable most
step 1 0 3
step 1 0 3
step 0 1 3
step 0 1 3
step 0 0 3
step 0 1 3
step 0 1 3
step 0 1 3
"""
MAKEFILE = """# make: compiles; make sim, list, waves, lint, agree; make stimulus writes 40 random steps to random.stim
TOOL = %(scc)s
TOP = Counter
SOURCES = counter.cpp
STIM = counter.stim

$(TOP).sv: $(SOURCES)
	$(TOOL) compile $(TOP) $(SOURCES) -o $@

sim:
	$(TOOL) sim $(TOP) $(SOURCES) --stim $(STIM)

list:
	$(TOOL) list $(TOP) $(SOURCES)

waves:
	$(TOOL) waves $(TOP) $(SOURCES) --stim $(STIM) -o $(TOP).vcd

lint:
	$(TOOL) lint $(TOP) $(SOURCES)

agree:
	$(TOOL) agree $(TOP) $(SOURCES) --stim $(STIM)

stimulus:
	$(TOOL) stimulus $(TOP) $(SOURCES) --random 40 -o random.stim

.PHONY: sim list waves lint agree stimulus
"""


def make(folder, scc):
    """Writes the files; answers their names. The folder is new or empty."""
    home = Path(folder)
    if home.exists() and (not home.is_dir() or any(home.iterdir())):
        return None
    home.mkdir(parents=True, exist_ok=True)
    files = {"counter.cpp": SOURCE, "counter.stim": STIMULUS, "Makefile": MAKEFILE % {"scc": scc}}
    for name, text in files.items():
        (home / name).write_text(text)
    return list(files)
