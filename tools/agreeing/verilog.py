"""A testbench in SystemVerilog that runs a stimulus and writes the trace that `scc sim` writes."""


def testbench(module, stimulus, registers_are_named=True, name="testbench", start=None):
    """For Icarus and Verilator. Where registers are named, they begin as 0, as those of `scc svsim` do. With a start, it begins
    then, and another module ends the run."""
    lines = ["`timescale 1ns/1ns", f"module {name};"]
    for p in module.ports:
        kind = "reg" if p.is_input else "wire"
        lines.append(f"  {kind} [{p.width - 1}:0] {p.spelling};")
    connections = ", ".join(f".{p.spelling}({p.spelling})" for p in module.ports)
    lines += [f"  \\{module.name} dut ({connections});", "  initial begin"]
    if registers_are_named:
        lines += ["`ifndef VERILATOR"]
        lines += [f"    dut.{register} = 0;" for register in module.registers]
        lines += ["`endif"]
    clocks = module.clocks_of(stimulus)
    lines += [] if start is None else [f"    #{start};"]
    lines += [assigned(c, not c.rising) for c in clocks]
    # a reset that is active from the start has no edge, so it is inactive for a moment first
    lines += [assigned(r, not r.active) for r in module.resets]
    lines += ["    #1;"] if module.resets else []
    lines.append(f'    $display("{stimulus.trace_head}");')
    widths = {p.name: p for p in module.inputs()}
    for number, step in enumerate(stimulus.steps):
        for name, value in zip(stimulus.ports, step.values):
            p = widths[name]
            lines.append(f"    {p.spelling} = {p.width}'h{value:x};")
        lines += ["    #1;", observation(module, f"{number}-")]
        if step.has_edge:
            # edges of one step come at one time
            chosen = [c for k, c in enumerate(clocks) if step.edges >> k & 1]
            lines += [assigned(c, c.rising) for c in chosen]
            lines += ["    #1;", observation(module, f"{number}+")]
            lines += [assigned(c, not c.rising) for c in chosen]
            lines += ["    #1;"] if chosen else []
    lines += ["    $finish;"] if start is None else []
    return "\n".join([*lines, "  end", "endmodule", ""])


def testbenches(designs):
    """Of several modules with their stimuli, one after the other in one run: the text and the name of its top."""
    texts, start = [], 1
    for k, (module, stimulus) in enumerate(designs):
        texts.append(testbench(module, stimulus, name=f"testbench_{k}", start=start))
        start += 4 * len(stimulus.steps) + 4
    made = [f"  testbench_{k} bench_{k}();" for k in range(len(designs))]
    texts.append("\n".join(["module testbenches;", *made, f"  initial #{start} $finish;", "endmodule", ""]))
    return "".join(texts), "testbenches"


def assigned(port, level):
    return f"    \\{port.name} = 1'b{int(level)};"


def observation(module, label):
    outputs = module.outputs()
    form = label + "".join(f" {p.name}=%h" for p in outputs)
    values = "".join(f", {p.spelling}" for p in outputs)
    return f'    $display("{form}"{values});'
