"""Texts for .ci/fuzz: made up, and changed by their lines and words. All chance comes from the generator that is handed in."""

import re

from conditions import REGISTERS

CONDITIONS = "e ne b ae be a l ge le g".split()
OPERATIONS = "add sub and or xor cmp test".split()
ARRAYS = "n head tail buf held x y item".split()
EDGES = [0, 1, 2, 7, 15, 16, 17, 63, 64, 65, 127, 128, 255, 256, 65_535, 65_536, 2**31 - 1, 2**31, 2**32, 2**63 - 1, 2**63, 2**64 - 1]


class Procedure:
    """The lines of a push or a pop. It knows which registers are written, so most of what it makes passes the flow check."""

    def __init__(self, rng, arrays, is_push):
        self.rng, self.arrays, self.is_push = rng, arrays, is_push
        self.lines, self.labels = [], 0
        self.ready = {"rdi"} if is_push else set()

    def add(self, line):
        self.lines.append("  " + line)

    def write(self, register, source):
        self.add(f"mov {register}, {source}")
        self.ready.add(register)

    def any_ready(self):
        return self.rng.choice(sorted(self.ready))

    def label(self):
        self.labels += 1
        return f"l{self.labels}"

    def cell(self):
        """A memory operand, mostly inside its array."""
        name, length = self.rng.choice(self.arrays)
        kind = self.rng.randrange(8)
        if kind == 0 and self.ready:
            index = self.any_ready()
            self.add(f"and {index}, {length - 1 if length in (1, 2, 4) else 1}")
            return f"qword ptr [{name} + {index}*8]"
        if kind == 1:
            self.write("rsi", str(self.rng.randrange(length + 1)))
            return f"qword ptr [{name} + rsi*8 - 8]" if self.rng.randrange(3) else f"qword ptr [{name} + rsi*8]"
        index = self.rng.randrange(length)
        return f"qword ptr [{name} + {index * 8}]" if index else f"qword ptr [{name}]"

    def compare(self):
        other = self.any_ready() if self.rng.randrange(2) else self.rng.randrange(3)
        self.add(f"{self.rng.choice(('cmp', 'cmp', 'test'))} {self.any_ready()}, {other}")

    def skip(self, depth):
        """Steps over which a jump leads."""
        out, before = self.label(), set(self.ready)
        self.compare()
        self.add(f"j{self.rng.choice(CONDITIONS)} {out}")
        self.steps(self.rng.randint(1, 2), depth)
        self.ready = before
        self.lines.append(f"{out}:")

    def again(self, depth):
        """Steps that may be taken again."""
        start = self.label()
        self.lines.append(f"{start}:")
        self.steps(self.rng.randint(1, 2), depth)
        self.compare()
        self.add(f"j{self.rng.choice(CONDITIONS)} {start} bound {self.rng.choice((0, 1, 1, 2))}")

    def step(self, depth):
        rng = self.rng
        kinds = {"load": 6, "store": 6, "move": 2, "compute": 4, "locked": 3, "fence": 1, "idle": 1, "assert": 1}
        if depth:
            kinds |= {"skip": 3, "again": 1}
        kind = rng.choices(list(kinds), list(kinds.values()))[0]
        if kind == "load":
            self.write(rng.choice(REGISTERS), self.cell())
        elif kind == "store":
            self.add(f"mov {self.cell()}, {self.any_ready() if rng.randrange(3) else rng.choice((0, 1, 2, -1))}")
        elif kind == "move":
            self.write(rng.choice(REGISTERS), self.any_ready() if rng.randrange(2) else rng.choice((0, 1, 2, -1, 2**63)))
        elif kind == "compute":
            one = rng.choice((f"inc {self.any_ready()}", f"dec {self.any_ready()}"))
            two = f"{rng.choice(OPERATIONS)} {self.any_ready()}, {self.any_ready() if rng.randrange(2) else rng.choice((0, 1, 2, -1))}"
            self.add(rng.choice((one, two)))
        elif kind == "locked":
            cell = self.cell()
            locked = ["xchg", "lock xadd"] + ["lock cmpxchg"] * ("rax" in self.ready)
            self.add(f"{rng.choice(locked)} {cell}, {self.any_ready()}")
        elif kind == "assert":
            self.compare()
            self.add(f"assert {rng.choice(CONDITIONS)}")
        elif kind in ("skip", "again"):
            getattr(self, kind)(depth - 1)
        else:
            self.add("mfence" if kind == "fence" else rng.choice(("nop", "pause")))

    def steps(self, count, depth):
        for _ in range(count):
            self.step(depth)

    def finish(self):
        """An answer, of one of several kinds."""
        if not self.is_push:
            self.write("rdx", self.rng.choice((self.any_ready(), self.cell(), "0")))
        kind = self.rng.randrange(4)
        if kind == 0 and "rax" in self.ready:
            self.add("and rax, 1")
        else:
            self.write("rax", "1" if kind == 1 else "0")
        self.add("ret")

    def soup(self):
        """Some steps in any order."""
        for register in self.rng.sample(REGISTERS[:5], 2):
            self.write(register, self.rng.choice(("0", "1", self.cell())))
        self.compare()
        self.steps(self.rng.randint(1, 4), 2)
        self.finish()
        return self.lines

    def store(self, name, source):
        """A store of some kind, perhaps with a fence behind it."""
        if self.rng.randrange(3) == 0:
            self.write("rcx", source)
            self.add(f"xchg qword ptr [{name}], rcx")
        else:
            self.add(f"mov qword ptr [{name}], {source}")
        if self.rng.randrange(3) == 0:
            self.add("mfence")

    def box(self):
        """A queue of one item: a mark that it is there, and the item."""
        mark, item = self.arrays[0][0], self.arrays[1][0]
        self.write("rax", f"qword ptr [{mark}]")
        self.add("cmp rax, 0")
        self.add("jne refused" if self.is_push else "je refused")
        pieces = [lambda: self.store(item, "rdi") if self.is_push else self.write("rdx", f"qword ptr [{item}]")]
        pieces.append(lambda: self.store(mark, "1" if self.is_push else "0"))
        if self.rng.randrange(5) == 0:
            pieces.reverse()
        for piece in pieces:
            piece()
            if self.rng.randrange(4) == 0:
                self.step(0)
        self.write("rax", "1")
        self.add("ret")
        self.lines.append("refused:")
        self.write("rdx", "0")
        self.write("rax", "0")
        self.add("ret")
        return self.lines


def client(rng):
    """Lines of a small client."""
    lines, value = [], rng.choice((1, 7, 2**64 - 3))
    counts = rng.choice(((1,), (2,), (1, 1), (1, 1), (2, 1), (1, 2), (2, 2), (1, 1, 1), (1, 1, 1)))
    if rng.randrange(5) == 0:
        lines.append(f".before push {value + 1}")
    for number, count in enumerate(counts):
        calls = []
        for _ in range(count):
            value += 1
            calls.append(f"push {value % 2**64}" if rng.random() < (0.8, 0.3, 0.5)[number] else "pop")
        lines.append(f".thread {', '.join(calls)}")
    return lines


def made(rng):
    """A text that is made up."""
    kind = rng.choice(("soup", "box"))
    names = rng.sample(ARRAYS, rng.randint(1, 3) if kind == "soup" else 2)
    arrays = [(name, rng.choice((1, 1, 2, 3)) if kind == "soup" else 1) for name in names]
    lines = [f".capacity {rng.choice((1, 1, 2, 16))}", f".mode {rng.choice(('strict', 'weak'))}"]
    for name, length in arrays:
        words = " = " + ", ".join(str(rng.choice((0, 1, 2, 2**64 - 1))) for _ in range(length)) if rng.randrange(4) == 0 else ""
        lines.append(f".array {name} {length}{words}")
    for name in ("push", "pop"):
        procedure = Procedure(rng, arrays, name == "push")
        lines += [f".{name}", *getattr(procedure, kind)(), ".end"]
    return "\n".join(lines + client(rng)) + "\n"


# Changes of a text by its lines and words, after each of which most texts are still read.

WORDS = re.compile(r"[.\w]+|-")


def swapped(rng, lines):
    at = rng.randrange(len(lines) - 1)
    lines[at : at + 2] = reversed(lines[at : at + 2])


def doubled(rng, lines):
    at = rng.randrange(len(lines))
    lines.insert(rng.randrange(len(lines)) if rng.randrange(2) else at, lines[at])


def dropped(rng, lines):
    del lines[rng.randrange(len(lines))]


def put_in(rng, lines):
    lines.insert(rng.randrange(len(lines)), rng.choice(("  mfence", "  nop", "  pause", "  mov rax, 0", "  cmp rax, 0", "  inc rcx")))


def other_client(rng, lines):
    lines[:] = [line for line in lines if not line.startswith((".before", ".thread"))] + client(rng)


def other_mode(rng, lines):
    lines[:] = [{".mode weak": ".mode strict", ".mode strict": ".mode weak"}.get(line, line) for line in lines]


def other_form(rng, lines):
    """A lock or a bound more or less, or many more of one line."""
    at = rng.randrange(len(lines))
    jumps = [it for it, line in enumerate(lines) if re.match(r" *j\w+ ", line)]
    locks = [it for it, line in enumerate(lines) if "lock " in line]
    kind = rng.randrange(3)
    if kind == 0 and jumps:
        at = rng.choice(jumps)
        head, found, _ = lines[at].partition(" bound ")
        lines[at] = head if found else f"{head} bound {rng.randrange(4)}"
    elif kind == 1 and locks:
        at = rng.choice(locks)
        lines[at] = lines[at].replace("lock ", "")
    else:
        lines[at:at] = [lines[at]] * rng.choice((2, 4, 300))


def other_word(rng, lines):
    """One word becomes another that may stand in its place."""
    at = rng.randrange(len(lines))
    words = [it for it in WORDS.finditer(lines[at])]
    if not words:
        return
    found = rng.choice(words)
    old, names = found.group(), re.findall(r"(?m)^\.array (\w+)", "\n".join(lines))
    if old in REGISTERS:
        new = rng.choice(REGISTERS)
    elif old in OPERATIONS:
        new = rng.choice(OPERATIONS)
    elif re.fullmatch(r"0x[0-9a-f]+|\d+", old):
        new = str(max(0, int(old, 0) + rng.choice((-8, -1, 1, 8)))) if rng.randrange(3) else str(rng.choice(EDGES))
    elif old in names:
        new = rng.choice(names)
    elif old[:1] == "j" and old[1:] in CONDITIONS:
        new = "j" + rng.choice(CONDITIONS)
    elif old == "mov":
        new = rng.choice(("xchg", "lock xadd", "lock cmpxchg", "mov"))
    else:
        return
    lines[at] = lines[at][: found.start()] + new + lines[at][found.end() :]


def changed(rng, text):
    """A text with some of its lines and words changed."""
    lines = [line.split(";")[0].rstrip() for line in text.split("\n")]
    lines = [line for line in lines if line]
    kinds = [swapped, doubled, dropped, put_in, other_client, other_mode, other_form, other_word, other_word, other_word]
    for _ in range(rng.choice((1, 1, 2, 3))):
        rng.choice(kinds)(rng, lines)
    return "\n".join(lines) + "\n"


# Changes of a canonical text of which it is known what becomes of its verdict.


def weakened(_, lines):
    lines[:] = [".mode weak" if line == ".mode strict" else line for line in lines]


def call_less(rng, lines):
    """The last call of a thread is left out, and with its only call the thread."""
    threads = [at for at, line in enumerate(lines) if line.startswith(".thread")]
    at = rng.choice(threads)
    if "," in lines[at]:
        lines[at] = lines[at].rpartition(", ")[0]
    elif len(threads) > 1:
        del lines[at]


def bound_less(rng, lines):
    """A jump back may be taken once less."""
    bounds = [at for at, line in enumerate(lines) if " bound " in line and not line.endswith(" 0")]
    if bounds:
        at = rng.choice(bounds)
        head, _, count = lines[at].rpartition(" ")
        lines[at] = f"{head} {int(count) - 1}"


def line_more(rng, lines, line):
    lines.insert(rng.choice([at for at, old in enumerate(lines) if old.startswith("  ")]), line)


def threads_turned(_, lines):
    at = min(at for at, line in enumerate(lines) if line.startswith(".thread"))
    lines[at:] = reversed(lines[at:])
