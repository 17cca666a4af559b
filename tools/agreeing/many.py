"""Random designs through all tools. Verilator gets several at a time, since it takes longer to build a program than to run it."""
import re

from agreeing import verilog
from agreeing.designs import design
from agreeing.runs import TOOLS, Failed, key, trace_of, verilated, verilator

AT_A_TIME = 20


def verilator_of(jobs, folder, number, seconds):
    """The trace of each job, or the fault."""
    home = folder / f"verilator_{number}"
    home.mkdir(exist_ok=True)
    text, top = verilog.testbenches([(job.module, job.stimulus) for job in jobs])
    (home / "testbenches.v").write_text(text)
    try:
        output = verilated(top, [home / "testbenches.v", *(job.given for job in jobs)], home, seconds)
        traces = [trace_of(it) for it in re.split(r"^(?=scc-trace )", output, flags=re.M)[1:]]
        if len(traces) == len(jobs):
            return traces
    except Failed as fault:
        if len(jobs) == 1:
            return [fault]
    return [one(verilator, job) for job in jobs]


def one(tool, job):
    try:
        return tool(job)
    except Failed as fault:
        return fault


def compare_designs(asked, folder, make_job, difference):
    """Answers whether all agree; a line for each design says so."""
    tools = [it for it in TOOLS if (not asked.only or key(it[0]) in asked.only) and it[0] != "scc sim"]
    for name, is_installed, _ in tools:
        if not is_installed():
            print(f"{name} isn't installed")
    tools = [it for it in tools if it[1]()]
    counts, failures = {name: 0 for name, *_ in tools}, 0
    for first in range(0, asked.random, AT_A_TIME):
        jobs = []
        for seed in range(asked.seed + first, asked.seed + min(first + AT_A_TIME, asked.random)):
            top, source = design(seed)
            home = folder / top
            home.mkdir(exist_ok=True)
            (home / f"{top}.cpp").write_text(source)
            try:
                jobs.append(make_job(asked, top, [home / f"{top}.cpp"], None, home))
            except Failed as fault:
                print(f"{top}: {fault}", flush=True)
                failures += 1
        found = {name: verilator_of(jobs, folder, first, asked.seconds) if tool == verilator else [one(tool, job) for job in jobs]
                 for name, _, tool in tools}
        for k, job in enumerate(jobs):
            faults = []
            for name, *_ in tools:
                trace = found[name][k]
                differs = f"failed: {trace}" if isinstance(trace, Failed) else difference(job.wanted, trace)
                if differs is None:
                    counts[name] += 1
                else:
                    faults.append(f"{name} {differs}")
            failures += bool(faults)
            print(f"{job.top}: {'; '.join(faults) or 'same'}", flush=True)
    print(f"{asked.random} designs; the same trace: " + ", ".join(f"{name} {count}" for name, count in counts.items()))
    return failures == 0
