"""What the functions of a compiled file need of the stack, on every path through them, read off their instructions (x86-64).

The depth at an instruction is how far the stack pointer lies there below its place before the call, the return address included. It
is followed from a function's first instruction along every jump. What is not understood is an error and not a guess: a line that is
no instruction, an instruction that paths reach at two depths or that moves the stack pointer in another way, a call or a jump out of
the function by a pointer, a call of an unknown function, a return that leaves something behind, a recursion without a limit.
"""
import collections
import re
import subprocess

# At an address: the operation, its operands, and the name of the function that it calls or jumps to, if there is one.
Instruction = collections.namedtuple("Instruction", "op operands callee")

LINE = re.compile(r"\s*([0-9a-f]+):\t([^\t]*?)\s*(?:\s#\s[^\t]*)?(?:\t[0-9a-f]+: R_\S+\s+(\S+))?$")
HEAD = re.compile(r"[0-9a-f]+ <(.+)>:$")
BETWEEN = re.compile(r"|Disassembly of section .*:|In archive .*:|.*: +file format elf64-x86-64")
OPERATION = re.compile(r"(?:(?:data16|cs|rep\w*|notrack|bnd|lock)\s+)*([a-z]\w*)\s*(.*)")
STACK_POINTER = re.compile(r"%(?:rsp|esp|spl?)$")
BELOW = re.compile(r"-(0x[0-9a-f]+)\(%rsp")
ENDS = ("ret", "ud2", "hlt", "int3")
WORD = 8


class Unread(Exception):
    """Code that is not understood here."""


def number(text):
    found = re.fullmatch(r"\$?(-?0x[0-9a-f]+)", text)
    return int(found[1], 16) if found else None


def named(operand, relocation):
    """The function whose beginning a call or a jump names, by its relocation or by its symbol."""
    if relocation:
        return relocation.removesuffix("-0x4").removeprefix(".text.")  # of 4 bytes, counted from their end
    # the name of an instance of a generic function has brackets of its own
    symbol = re.search(r"<((?:(?!\+0x)[^+])+)>$", operand)
    return symbol[1].removesuffix("@plt") if symbol else None


def instruction(text, relocation):
    read = OPERATION.fullmatch(text)
    if not read or read[1].startswith("loop"):
        raise Unread(f"no instruction that is known: {text}")
    op, rest = read.groups()
    goes = op == "call" or op.startswith("j")
    # commas inside brackets belong to an address
    operands = [rest] if goes else [part.strip() for part in re.split(r",(?![^(]*\))", rest)] if rest else []
    return Instruction(op, operands, named(rest, relocation) if goes else None)


def disassembly(path):
    return subprocess.run(["objdump", "-drw", "--no-show-raw-insn", path], stdout=subprocess.PIPE, text=True, check=True).stdout


def functions(text):
    """The functions of a disassembly by name: the lines of each."""
    found = {}
    for line in text.splitlines():
        head = HEAD.match(line)
        if head:
            lines = found[head[1]] = []
        elif not BETWEEN.fullmatch(line):
            lines.append(line)
    return found


def instructions(lines):
    """The instructions of a function by address."""
    found = {}
    for line in lines:
        one = LINE.match(line)
        if not one:
            raise Unread(f"no line of a disassembly: {line}")
        found[int(one[1], 16)] = instruction(one[2], one[3])
    return found


def moved(depth, one, mark, base):
    """The depth after an instruction that is no jump."""
    op, operands = one.op.rstrip("q"), one.operands
    if op == "mov" and operands[-1] == "%rsp" and mark and operands[0] == mark[0]:
        return mark[1]
    off = re.fullmatch(r"-(0x[0-9a-f]+)\(%rbp\)", operands[0]) if op == "lea" and operands[-1] == "%rsp" else None
    if off and base is not None:
        return base + int(off[1], 16)
    if op == "push" or op == "pop" and not STACK_POINTER.match(operands[0]):
        return depth + (WORD if op == "push" else -WORD)
    if op in ("sub", "add") and operands[-1] == "%rsp" and number(operands[0]) is not None:
        return depth + (number(operands[0]) if op == "sub" else -number(operands[0]))
    touches = op in ("leave", "enter", "pop", "popf") or op == "xchg" and any(map(STACK_POINTER.match, operands))
    if touches or operands and STACK_POINTER.match(operands[-1]) and op not in ("cmp", "test"):
        raise Unread(f"the stack pointer is moved by {one.op} {','.join(operands)}")
    return depth


def reached(depth, one):
    """The depth that an instruction reaches: a function that calls none may write below the stack pointer, in the red zone."""
    return depth + max((int(found, 16) for operand in one.operands for found in BELOW.findall(operand)), default=0)


def marked(mark, depth, one):
    """A register and the depth that it points to: how far a loop goes that touches a large frame page by page."""
    if one.op == "call":
        return None
    to = one.operands[-1] if one.operands and one.op not in ("cmp", "test") else ""
    if one.op == "mov" and one.operands[0] == "%rsp" and re.fullmatch(r"%r\w+", to):
        return to, depth
    if mark is None or alias(to) != alias(mark[0]):
        return mark
    if one.op == "sub" and to == mark[0] and number(one.operands[0]) is not None:
        return to, mark[1] + number(one.operands[0])
    return None


def alias(register):
    """A register's own letters: %esi, %si and %sil are parts of %rsi."""
    return re.sub(r"^%[re]?|(?<=\d)[dwb]$|(?<=[sdb][ip])l$", "", register)


def based(base, depth, one):
    """The depth that rbp points to, where it is the base of the frame."""
    if one.op == "mov" and one.operands == ["%rsp", "%rbp"]:
        return depth
    written = one.operands and one.op not in ("cmp", "test", "push") and alias(one.operands[-1]) == "bp"
    return None if written else base


class Walk:
    """A function's depth at each instruction, and its calls as (depth, name)."""

    def __init__(self, name, body):
        self.name, self.body = name, body
        self.order = sorted(body)
        self.next = dict(zip(self.order, self.order[1:]))
        self.depth, self.calls, self.switches = {}, set(), set()
        self.left = [(self.order[0], WORD, None, None)]
        self.run()
        while len(self.switches) == 1 and self.unreached():
            # the places that a jump by a table goes to, which is not read here; they have the depth of the jump
            self.left.append((self.unreached()[0], *self.switches, None, None))
            self.run()
        if self.unreached():
            raise Unread(f"{name}: nothing leads to {self.unreached()[0]:x}")

    def unreached(self):
        """Instructions that no path has led to, and that are no padding."""
        return [at for at in self.order if at not in self.depth and not re.match(r"nop|xchg|int3", self.body[at].op)]

    def run(self):
        while self.left:
            at, depth, mark, base = self.left.pop()
            if at not in self.body:
                raise Unread(f"{self.name}: a path leaves it at {at:x}")
            if self.depth.setdefault(at, depth) != depth:
                raise Unread(f"{self.name}: {at:x} is reached at two depths")
            for place, below, to, frame in self.after(at, depth, mark, base):
                if self.depth.get(place) != below:
                    self.left.append((place, below, to, frame))

    def after(self, at, depth, mark, base):
        """What comes after an instruction: the places, their depths, their marks and the bases of their frames."""
        one = self.body[at]
        if one.op == "ret" and depth != WORD:
            raise Unread(f"{self.name}: {at:x} returns from depth {depth}")
        if one.op in ENDS:
            return []
        if one.op == "call":
            self.called(depth, one)
        if not one.op.startswith("j"):
            return [(self.next.get(at, -1), moved(depth, one, mark, base), marked(mark, depth, one), based(base, depth, one))]
        on = [] if one.op == "jmp" else [(self.next.get(at, -1), depth, mark, base)]
        if one.operands[0].startswith("*"):
            # by a table, to another place of the function: one that leaves it has taken its frame away before
            if depth == WORD:
                raise Unread(f"{self.name}: {at:x} may leave it for {one.operands[0]}")
            self.switches.add(depth)
            return on
        if one.callee:
            self.called(depth - WORD, one)  # a jump to a function's beginning, which returns for this one
            return on
        target = int(one.operands[0].split()[0], 16)
        before = self.body[self.order[self.order.index(at) - 1]]
        if mark is not None and target < at and before == ("cmp", [mark[0], "%rsp"], None):
            return [(self.next[at], mark[1], None, base)]  # round and round until the stack pointer is there
        if mark is not None and self.is_block(at, target, mark[0]):
            # a part of the frame that is made here: no turn goes further than one step past where the register points to
            inside = self.order[self.order.index(at) + 1:self.order.index(target)]
            self.depth.update((each, mark[1] + number(self.body[inside[1]].operands[0])) for each in inside)
            return [(target, depth, mark, base)]
        return on + [(target, depth, mark, base)]

    def is_block(self, at, target, register):
        """Whether a jump goes past a loop that touches a part of the frame step by step, until the stack pointer is past where a register
        points to, and to where the stack pointer is then put."""
        here = self.order.index(at)
        near = [self.body[each] for each in self.order[here - 1:here + 7]]
        if len(near) < 7 or self.order[here + 5:here + 6] != [target]:
            return False
        compared = ("cmp", ["%rsp", register], None)
        step = near[3].op == "sub" and near[3].operands[-1] == "%rsp" and number(near[3].operands[0])
        turns = near[5].op == "jl" and not near[5].callee and int(near[5].operands[0].split()[0], 16) == self.order[here + 1]
        touches = near[2] == ("xorq", ["$0x0", "(%rsp)"], None)
        put = near[6] == ("mov", [register, "%rsp"], None)
        return near[0] == compared == near[4] and near[1].op == "jge" and touches and bool(step) and turns and put

    def called(self, depth, one):
        if not one.callee:
            raise Unread(f"{self.name}: a call of {one.operands[0]}")
        self.calls.add((depth, one.callee))


def needs(text, outside, recursions):
    """A function that answers what a function of a disassembly needs. `outside` has what the functions of other files need, `recursions`
    how often a function may be on the stack that calls itself."""
    walks = {}
    bodies = functions(text)

    def need(name, above=()):
        if name in outside:
            return outside[name]
        if name not in bodies or name in above:
            raise Unread(f"{name} is not in the file" if name not in bodies else f"{name} is reached from itself")
        if name not in walks:
            walks[name] = Walk(name, instructions(bodies[name]))
        walk = walks[name]
        own = max(reached(depth, walk.body[at]) for at, depth in walk.depth.items())
        again = max((depth for depth, callee in walk.calls if callee == name), default=0)
        if again and name not in recursions:
            raise Unread(f"{name} calls itself")
        below = [depth + need(callee, (*above, name)) for depth, callee in walk.calls if callee != name]
        return (recursions.get(name, 1) - 1) * again + max([own, *below])

    return need
