"""Which arrays stay registers with --memory, and why: read from the two texts of a design, which have one form, line by line."""
import re
from collections import Counter, defaultdict

NUMBER = re.compile(r"  logic (?:\[\d+:0\] )?(\S+)\$(\d+)\$\$n;$")
BLOCK = "  always_comb begin"
WRITE = re.compile(r" +((\S+)\$(\d+)\$\$n) = (.*);$")
RESET = re.compile(r" +(\S+)\$(\d+) <= (.*);$")
LABEL = re.compile(r" +\d+'h([0-9a-f]+): begin$")
CHOICE = re.compile(r"\? (\S+)\$\d+(?:\$\$n)? : \1\$\d+")
SIGNAL = r"\b(?:sc_signal\s*<[^;]*>|sc_vector\s*<[^;]*>|sc_(?:in|out)\s*<[^;]*>)[^;{{}}()]*\b{}\b"


def arrays_of(text):
    """The arrays that are registers: name, and how many elements."""
    found = defaultdict(set)
    for line in text.splitlines():
        if it := NUMBER.match(line):
            found[it.group(1)].add(int(it.group(2)))
    return {name: len(elements) for name, elements in found.items() if elements == set(range(len(elements))) and len(elements) > 1}


class Branching:
    """An open `if` or `case`: the writes of the branches that are read, and of the one that is open."""

    def __init__(self, line):
        self.head, self.branches, self.open = line, [], Counter()

    def close(self):
        self.branches.append(self.open)
        self.open = Counter()

    def most(self):
        most = Counter()
        for branch in self.branches:
            most |= branch
        return most


class Writes:
    """How many elements of each array a block writes at most on one path, and in its reset part."""

    def __init__(self):
        self.most, self.in_reset, self.indexed = Counter(), Counter(), set()

    def read_block(self, lines):
        whole, stack, label, is_first = Counter(), [], None, True
        for line in lines:
            word = line.strip()
            current = stack[-1].open if stack else whole
            if word.startswith(("if ", "case ")):
                stack.append(Branching(word))
            elif it := LABEL.match(line):
                label = int(it.group(1), 16)
                stack.append(Branching("arm"))
            elif word == "end else begin":
                stack[-1].close()
            elif word in ("end", "endcase"):
                done = stack.pop()
                done.close()
                below = stack[-1].open if stack else whole
                if done.head == "arm":
                    below |= done.most()
                    continue
                if is_first and not stack and done.head.startswith("if ") and len(done.branches) == 2:
                    self.in_reset |= done.branches[0]
                is_first = is_first and bool(stack)
                below.update(done.most())
            elif it := WRITE.match(line):
                name, element, value = it.group(2), it.group(3), it.group(4)
                if value != f"{name}${element}":
                    current[name] += 1
                if stack and stack[-1].head == "arm" and label == int(element) and "$$state" not in stack[-2].head:
                    self.indexed.add(name)
            self.indexed.update(CHOICE.findall(line))
        self.most |= whole


def written(text):
    found, lines, block = Writes(), text.splitlines(), None
    asynchronous, in_reset = set(), False
    for line in lines:
        if line == BLOCK:
            block = []
        elif line == "  end" and block is not None:
            found.read_block(block)
            block = None
        elif block is not None:
            block.append(line)
        elif line.startswith("    if ("):
            in_reset = True
        elif line.startswith(("    end", "  end")):
            in_reset = False
        elif in_reset and (it := RESET.match(line)):
            asynchronous.add(it.group(1))
    return found, asynchronous


def is_signal(name, sources):
    last = re.sub(r"\$\d+", "", name).split("$")[-1]
    return re.search(SIGNAL.format(re.escape(last)), sources) is not None


def staying(whole, with_memories, sources):
    """A line for each array that stays registers in the text with memories."""
    found, asynchronous = written(whole)
    still = arrays_of(with_memories)
    for name, length in arrays_of(whole).items():
        if name not in still or is_signal(name, sources):
            continue
        if name in asynchronous:
            why = "its asynchronous reset writes it: leave it out of the reset part"
        elif found.in_reset[name] > 1:
            why = (f"the reset writes {found.in_reset[name]} elements in one cycle: take the loop out of the reset part, and let "
                   "the design clear one element in a cycle, or never read one before it is written")
        elif found.most[name] > 1:
            why = f"up to {found.most[name]} elements are written in one cycle: wait between the writes, or make two arrays of it"
        elif name not in found.indexed:
            why = "no index but constants chooses an element"
        else:
            why = "a cycle may write several of its elements"
        yield f"{name.replace('$', '.')} ({length} elements) stays registers: {why}"
