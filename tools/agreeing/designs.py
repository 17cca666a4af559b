"""Random designs, each also plain SystemC: chains of combinational methods, one with an array, a clocked method, a thread with an array."""
import random

UNARY = ("~", "-", "!")
BINARY = ("+", "-", "&", "|", "^", "==", "!=", "<", "<=", ">", ">=", "&&", "||")
REDUCTIONS = ("and_reduce", "or_reduce", "xor_reduce")


class Maker:
    def __init__(self, seed):
        self.chance = random.Random(seed)
        self.name = f"Random{seed}"
        # what may be read: (text, width, whether it has bits)
        self.readable = []

    def width(self):
        return self.chance.choice((1, 2, 3, 5, 8, 8, 12, 16, 31, 32, 33, 48, 63, 64))

    def number_type(self):
        width = self.width()
        return self.chance.choice(("sc_uint", "sc_uint", "sc_int")) + f"<{width}>", width

    def leaf(self):
        if self.readable and self.chance.random() < 0.8:
            text, width, has_bits = self.chance.choice(self.readable)
            if not has_bits or self.chance.random() < 0.6:
                return text
            pick = self.chance.randrange(3)
            if pick == 0:
                return f"{text}.{self.chance.choice(REDUCTIONS)}()"
            low = self.chance.randrange(width)
            if pick == 1:
                # the complement of a bit is a bool; by itself the library takes it for a number of 64 bits
                return self.chance.choice((f"bool({text}[{low}])", f"~{text}[{low}]"))
            return f"{text}.range({self.chance.randrange(low, width)}, {low}).to_uint64()"
        return str(self.chance.choice((0, 1, 2, 3, 7, 100, 255, 65535)))

    def expression(self, depth):
        pick = self.chance.random()
        if depth == 0 or pick < 0.15:
            return self.leaf()
        if pick < 0.35:
            return f"{self.chance.choice(UNARY)}({self.expression(depth - 1)})"
        if pick < 0.45:
            return f"(({self.expression(depth - 1)}) {self.chance.choice(('<<', '>>'))} {self.chance.randrange(20)})"
        if pick < 0.52:
            # by constants: a product of two numbers of 64 bits takes Yosys minutes
            return f"(({self.expression(depth - 1)}) * {self.chance.choice((3, 5, 10))})"
        if pick < 0.6:
            a, b = (f"sc_uint<{self.width()}>({self.expression(depth - 1)})" for _ in range(2))
            kind = a[: a.index("(")]
            return f"(({self.expression(depth - 1)}) != 0 ? {a} : {kind}{b[b.index('('):]})"
        return f"(({self.expression(depth - 1)}) {self.chance.choice(BINARY)} ({self.expression(depth - 1)}))"

    def written(self, depth):
        """What a port or signal is given: the library takes a plain number there, and no number of another class."""
        return f"({self.expression(depth)}) + 0"

    def condition(self):
        return f"({self.expression(2)}) != 0"


def pick_ports(it):
    ports = []
    for k in range(it.chance.randrange(2, 5)):
        kind, width = it.number_type() if it.chance.random() < 0.8 else ("bool", 1)
        ports.append((f"in{k}", kind))
        it.readable.append((f"in{k}.read()", width, kind != "bool"))
    return ports


def pick_chain(it, ports):
    """Combinational methods, each of which reads the inputs and what those before it wrote."""
    methods, signals, senses = [], [], [name for name, _ in ports]
    for k in range(it.chance.randrange(1, 5)):
        kind, width = it.number_type()
        lines = [f"    s{k}.write({it.written(3)});"]
        for _ in range(it.chance.randrange(3)):
            lines.append(f"    if ({it.condition()}) s{k}.write({it.written(3)});")
        methods.append((f"m{k}", lines, list(senses)))
        signals.append((f"s{k}", kind))
        senses.append(f"s{k}")
        it.readable.append((f"s{k}.read()", width, True))
    return methods, signals


def pick_array(it):
    """A combinational method that writes each element of an array, some of them again under a condition, and reads one by an index that varies."""
    lines = [f"    v[{k}] = {it.expression(2)};" for k in range(4)]
    for _ in range(it.chance.randrange(1, 4)):
        lines.append(f"    if ({it.condition()}) v[{it.chance.randrange(4)}] = {it.expression(2)};")
    return [*lines, f"    w.write(v[({it.expression(2)}) & 3] + 0);"]


def pick_clocked(it):
    """A clocked method with a register that it also reads."""
    kind, width = it.number_type()
    it.readable.append(("kept", width, True))
    lines = ["    if (rst.read()) { kept = 0; q.write(0); }", "    else {"]
    lines += [f"      if ({it.condition()}) kept = {it.expression(3)};", f"      q.write({it.written(2)});", "    }"]
    it.readable.pop()
    return kind, lines


def pick_thread(it):
    kind, width = it.number_type()
    it.readable += [("n", 8, True), ("t", width, True)]
    index = f"(({it.expression(1)}) & 7)"
    lines = ["    n = 0;", "    t = 0;", "    z.write(0);", "    for (int k = 0; k < 8; k++) a[k] = k;", "    wait();"]
    lines.append("    while (true) {")
    for _ in range(it.chance.randrange(1, 4)):
        lines.append(f"      if ({it.condition()}) {{ t = {it.expression(3)}; wait({it.chance.randrange(1, 4)}); }}")
        lines.append(f"      a[{index}] = {it.expression(2)};")
        lines.append(f"      z.write(a[n & 7] + {it.expression(2)});")
        lines.append("      n = n + 1;")
    return kind, [*lines, "      wait();", "    }"]


def design(seed):
    """The name of the top and the source."""
    it = Maker(seed)
    ports = pick_ports(it)
    methods, signals = pick_chain(it, ports)
    methods.append(("choose", pick_array(it), [name for name, _ in ports + signals]))
    kept, clocked = pick_clocked(it)
    temporary, thread = pick_thread(it)
    last, last_kind = signals[-1]
    lines = ["#include <systemc.h>", "", f"SC_MODULE({it.name}) {{", "  sc_in<bool> clk, rst;"]
    lines += [f"  sc_in<{kind} > {name};" for name, kind in ports]
    lines += [f"  sc_out<{last_kind} > y;", "  sc_out<sc_uint<16> > q, w, z;"]
    lines += [f"  sc_signal<{kind} > {name};" for name, kind in signals]
    lines += [f"  {kept} kept;", f"  {temporary} t;", "  sc_uint<8> n;", "  sc_uint<12> a[8];", "  sc_uint<9> v[4];", ""]
    for name, body, _ in methods:
        lines += [f"  void {name}() {{", *body, "  }"]
    for name, body in (("show", [f"    y.write({last}.read());"]), ("step", clocked), ("run", thread)):
        lines += [f"  void {name}() {{", *body, "  }"]
    lines.append(f"  SC_CTOR({it.name}) {{")
    lines += [f"    SC_METHOD({name});\n    sensitive << {' << '.join(senses)};" for name, _, senses in methods]
    lines += [f"    SC_METHOD(show);\n    sensitive << {last};",
              "    SC_METHOD(step);\n    sensitive << clk.pos();\n    dont_initialize();",
              "    SC_CTHREAD(run, clk.pos());\n    reset_signal_is(rst, true);", "  }", "};", ""]
    return it.name, "\n".join(lines)
