"""A testbench for the SystemC library that runs a stimulus and writes the trace that `scc sim` writes."""

HEAD = r"""// Made by tools/agree.py.
#include <systemc.h>
#include <cstdio>
#include <string>
%(sources)s

// a signal of the port's own type, bound to it
template<class Port>
auto& wire(Port& port) {
  typedef typename Port::data_type Data;
  sc_signal<Data>* made = new sc_signal<Data>(sc_gen_unique_name("wire"));
  port(*made);
  return *made;
}

template<class Number>
void set(sc_signal<Number>& signal, const char* digits) {
  Number value;
  value = sc_dt::sc_biguint<128>(digits);
  signal.write(value);
}
void set(sc_signal<bool>& signal, const char* digits) { signal.write(std::stoull(digits, nullptr, 16) != 0); }
void set_native(unsigned long long& into, const char* digits) { into = std::stoull(digits, nullptr, 16); }
%(natives)s

template<class Number>
void show(const char* name, const sc_signal<Number>& signal, int width) {
  sc_dt::sc_biguint<128> value;
  value = signal.read();
  for (int i = width; i < 128; i++) value[i] = false;
  std::string digits = value.to_string(sc_dt::SC_HEX, false);
  size_t wanted = (width + 3) / 4;
  std::printf(" %%s=%%s", name, digits.substr(digits.size() - wanted).c_str());
}

int sc_main(int, char**) {
  %(top)s dut("dut");
"""
NATIVES = ["char", "signed char", "unsigned char", "short", "unsigned short", "int", "unsigned", "sc_dt::int64",
           "sc_dt::uint64"]


def native(kind):
    return (f"void set(sc_signal<{kind} >& signal, const char* digits) {{\n"
            f"  unsigned long long value;\n  set_native(value, digits);\n  signal.write(({kind})value);\n}}")


def member(name):
    """The port as C++ names it: `a$0` is an element of an array or vector."""
    first, *parts = name.split("$")
    return first + "".join(f"[{p}]" if p.isdigit() else f".{p}" for p in parts)


def testbench(module, stimulus, sources):
    lines = [HEAD % {"sources": "\n".join(f'#include "{s}"' for s in sources), "top": module.name,
                     "natives": "\n".join(native(k) for k in NATIVES)}]
    for k, p in enumerate(module.ports):
        lines.append(f"  auto& port_{k} = wire(dut.{member(p.name)});")
    place = {p.name: k for k, p in enumerate(module.ports)}
    clocks = module.clocks_of(stimulus)
    lines += [written(place, c, not c.rising) for c in clocks]
    # a reset that is active from the start has no edge, so it is inactive for a moment first
    lines += [written(place, r, not r.active) for r in module.resets]
    lines += ["  sc_start(1, SC_NS);"] if module.resets else []
    lines.append(f'  std::puts("{stimulus.trace_head}");')
    for number, step in enumerate(stimulus.steps):
        for name, value in zip(stimulus.ports, step.values):
            lines.append(f'  set(port_{place[name]}, "0x0{value:x}");')
        lines += observation(module, place, f"{number}-")
        if step.has_edge:
            chosen = [c for k, c in enumerate(clocks) if step.edges >> k & 1]
            lines += [written(place, c, c.rising) for c in chosen]
            lines += observation(module, place, f"{number}+")
            lines += [written(place, c, not c.rising) for c in chosen]
            lines += ["  sc_start(1, SC_NS);"] if chosen else []
    lines += ["  return 0;", "}", ""]
    return "\n".join(lines)


def written(place, port, level):
    return f"  port_{place[port.name]}.write({str(level).lower()});"


def observation(module, place, label):
    lines = ["  sc_start(1, SC_NS);", f'  std::printf("{label}");']
    lines += [f'  show("{p.name}", port_{place[p.name]}, {p.width});' for p in module.outputs()]
    return lines + ['  std::puts("");']
