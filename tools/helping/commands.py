"""The words of `tools/scc`: what each command takes, and which word is bad, and why."""
import difflib
import re
from dataclasses import dataclass, field

NAME = re.compile(r"[A-Za-z_][A-Za-z0-9_]*")
MOST_FILES = 64
MOST_NUMBER = 1000


class Fault(Exception):
    """A bad word. The text says which, and why."""


@dataclass(frozen=True)
class Option:
    name: str
    value: str  # what its value is called in the help; empty for a flag
    help: str
    of_scc: bool = False  # whether the compiler has it too
    is_number: bool = False


@dataclass(frozen=True)
class Command:
    name: str
    words: str  # its words in the help
    help: str
    options: tuple
    required: tuple = ()
    exclusive: tuple = ()  # of these at most one


def flag(name, help, of_scc=True):
    return Option(name, "", help, of_scc)


def number(name, value, help):
    return Option(name, value, help, False, True)


OUT = Option("-o", "OUT", "writes to OUT in the place of standard output; a run that is refused leaves OUT as it was")
BRIEF = flag("--brief", "a refusal is the compiler's line alone", False)
JSON = flag("--json", "a refusal is one JSON object on standard error", False)
SAID = (BRIEF, JSON)
STIM = Option("--stim", "S", "the stimulus", True)
HIER = flag("--hier", "a module for each module object, with instances")
CLOCKS = flag("--clocks", "processes may use edges of different inputs")
MEMORY = flag("--memory", "arrays of which a cycle writes at most one element become memories; says which stay registers")
PORTABLE = flag("--portable", "the text that Icarus 11 and Yosys 0.23 read too (tools/portable.py)", False)
ORDER = Option("--order", "N", "the processes run in another order, 1 to 1,000; the trace has to stay the same", True, True)
MIGRATE = flag("--migrate", "prints a stimulus of version 1 as one of version 2")
SOURCE = flag("--source", "prints the source of the design")
FORMS = ("--hier", "--clocks", "--memory")

COMMANDS = {c.name: c for c in (
    Command("compile", "TOP FILE ..", "prints the SystemVerilog text of the module TOP",
            (OUT, HIER, CLOCKS, MEMORY, PORTABLE, *SAID), (), FORMS),
    Command("list", "TOP FILE ..", "prints its registers with their widths, and its processes with their states", (OUT, *SAID)),
    Command("sim", "TOP FILE ..", "prints the trace of the source on a stimulus",
            (STIM, OUT, CLOCKS, ORDER, MIGRATE, *SAID), ("--stim",), ("--clocks", "--order", "--migrate")),
    Command("svsim", "NAME FILE", "prints the trace of a text that compile wrote", (STIM, OUT, HIER, CLOCKS, *SAID), ("--stim",),
            ("--hier", "--clocks")),
    Command("gen", "N", "self-test: makes a design of N stages, 1 to 1,000, runs it, prints a line", (OUT, SOURCE, *SAID)),
    Command("waves", "TOP FILE ..", "runs the source and writes a VCD file, for GTKWave and the like", (STIM, OUT, CLOCKS, *SAID),
            ("--stim",)),
    Command("stimulus", "TOP FILE ..", "prints a stimulus to begin with: the inputs in their order, and N random steps, whose "
            "first K hold the resets active", (number("--random", "N", "the number of steps; 8 where it isn't given"),
                                       number("--seed", "S", "another seed, other steps; 1 where it isn't given"),
                                       number("--reset", "K", "the number of steps with the resets active; 2 where it isn't given"),
                                       OUT, CLOCKS, *SAID)),
    Command("new", "DIR", "makes a folder with a first design, its stimulus and a Makefile", ()),
    Command("explain", "[CODE]", "prints the page of a code, as E504; without one, the list of all codes", ()),
    Command("lint", "TOP FILE ..", "takes the text through Verilator, Icarus and Yosys, where they are installed",
            (HIER, CLOCKS, MEMORY), (), FORMS),
    Command("agree", "TOP FILE ..", "compares the traces of all tools that are installed; takes all options of tools/agree.py", ()),
)}
GENERAL = (("--help", "this text; behind a command, what it takes"),
           ("--version", "which build of which commit runs, and whether it is proved"),
           ("--program", "prints the path of the program that runs, which is built first where there is none"))


@dataclass
class Asked:
    """A command with its words."""
    command: Command
    plain: list
    options: dict = field(default_factory=dict)

    def has(self, name):
        return name in self.options

    def flags(self):
        """The words that the compiler takes too."""
        words = []
        for it in self.command.options:
            if it.of_scc and it.name in self.options:
                words += [it.name, str(self.options[it.name])] if it.value else [it.name]
        return words


def near(word, among):
    found = difflib.get_close_matches(word, among, 1, 0.6)
    return f": did you mean {found[0]}?" if found else ""


def unknown(word, command):
    """Why an option isn't taken."""
    others = [c.name for c in COMMANDS.values() if any(o.name == word for o in c.options)]
    if others:
        return Fault(f"{command.name} takes no {word}; {', '.join(others)} {'does' if len(others) == 1 else 'do'}")
    return Fault(f"unknown flag {word}{near(word, [o.name for o in command.options] + ['--help'])}")


def number_of(name, value):
    if not value.isdigit():
        raise Fault(f"{name} wants a number, not '{value}'")
    if name == "--order" and not 1 <= int(value) <= MOST_NUMBER:
        raise Fault(f"--order wants a number from 1 to 1,000, not {value}")
    return int(value)


def option_of(word, rest, command, given):
    """Takes an option, with its value from the words that follow it."""
    name, has_value, value = word.partition("=")
    option = next((o for o in command.options if o.name == name), None)
    if option is None:
        raise unknown(name, command)
    if name in given:
        raise Fault(f"{name} is given twice")
    if not option.value:
        if has_value:
            raise Fault(f"{name} takes no value")
        return name, True
    if not has_value:
        if not rest or rest[0].startswith("-"):
            raise Fault(f"{name} is without its {option.value}")
        value = rest.pop(0)
    return name, number_of(name, value) if option.is_number else value


def check_plain(command, plain):
    """The words that are no options."""
    name = command.name
    if name == "explain":
        if len(plain) > 1:
            raise Fault(f"explain takes one code, not also '{plain[1]}'")
        return
    if not plain:
        raise Fault(f"{name} is without {command.words.split()[0]}")
    if name in ("new", "gen"):
        if len(plain) > 1:
            raise Fault(f"{name} takes one word, not also '{plain[1]}'")
        if name == "gen" and not (plain[0].isdigit() and 1 <= int(plain[0]) <= MOST_NUMBER):
            raise Fault(f"gen wants a number from 1 to 1,000, not '{plain[0]}'")
        return
    if not NAME.fullmatch(plain[0]):
        raise Fault(f"no module before the files: '{plain[0]}' can't be the name of one")
    if len(plain) == 1:
        raise Fault(f"no file after the module {plain[0]}")
    if len(plain) - 1 > (1 if name == "svsim" else MOST_FILES):
        raise Fault("svsim takes one file" if name == "svsim" else f"more than {MOST_FILES} files")


def asked(words):
    """The command that words make."""
    action, *rest = words
    command = COMMANDS.get(action)
    if command is None:
        raise Fault(f"unknown command '{action}'{near(action, COMMANDS)}")
    if action == "agree":
        return Asked(command, rest)
    plain, options = [], {}
    while rest:
        word = rest.pop(0)
        if word.startswith("-") and len(word) > 1:
            name, value = option_of(word, rest, command, options)
            options[name] = value
        elif not word:
            raise Fault("an empty word")
        else:
            plain.append(word)
    check_plain(command, plain)
    for name in command.required:
        if name not in options:
            raise Fault(f"{name} is missing")
    chosen = [name for name in command.exclusive if name in options]
    if len(chosen) > 1:
        raise Fault(f"{chosen[0]} and {chosen[1]} exclude each other")
    if "--brief" in options and "--json" in options:
        raise Fault("--brief and --json exclude each other")
    return Asked(command, plain, options)


def usage(command):
    words = [f"tools/scc {command.name} {command.words}"]
    for o in command.options:
        shown = f"{o.name} {o.value}".strip()
        words.append(shown if o.name in command.required else f"[{shown}]")
    return "usage: " + " ".join(words)


def help_of(command):
    lines = [usage(command), "", f"  {command.help}", ""]
    lines += [f"  {(o.name + ' ' + o.value).strip():14} {o.help}" for o in command.options]
    return "\n".join(lines).rstrip()


def help_of_all():
    lines = ["usage: tools/scc COMMAND ..", "",
             "scc for people: the compiler's own commands and some more. A refusal is shown with its source and with what its",
             "page says. SCC in the environment names another program in the place of ./scc.", ""]
    for c in COMMANDS.values():
        lines += [f"  {c.name} {c.words}", f"      {c.help}"]
        lines += [f"      {(o.name + ' ' + o.value).strip():14} {o.help}" for o in c.options if o not in SAID]
    lines += ["", "  With each command that runs the compiler:"]
    lines += [f"      {o.name:14} {o.help}" for o in SAID]
    lines += ["", *(f"  {name:18} {text}" for name, text in GENERAL)]
    lines += ["", "Status: 0 done, 1 refused, 2 bad words, 3 a file is missing or can't be read, 4 no memory, 5 an output can't be",
              "written."]
    return "\n".join(lines)
