"""The compiler that the tools run."""
import os
import shlex
import sys
from pathlib import Path

from quick_build import program

REPOSITORY = Path(__file__).resolve().parents[2]


def compiler(given=None):
    """The words that start it: those that are given, else those of the environment's SCC, else the program that ./scc runs,
    which is built first where there is none."""
    words = given or os.environ.get("SCC")
    if words:
        found = [str(Path(w).resolve()) if Path(w).exists() else w for w in shlex.split(words)]
        if found[0] == str(REPOSITORY / "tools" / "scc"):
            # it would start itself
            sys.exit("scc: SCC names tools/scc: it is to name the compiler")
        return found
    return [str(program())]
