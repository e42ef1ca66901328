"""Runs calls of a program text one after the other: the whole instruction set of docs/LANGUAGE.md, in one thread.

A single thread reads its own newest store, so its store buffer is not seen: memory is read and written at once. Other tools may use this
module; it needs nothing but Python. It is no part of what is proved.
"""

import re
from dataclasses import dataclass, field

REGISTERS = "rax rbx rcx rdx rsi rdi rbp r8 r9 r10 r11 r12 r13 r14 r15".split()
WORD = 2**64
TOP = 2**63
PLACE = re.compile(r"qword ptr \[(\w+)(?: \+ (r\w+)\*8)?(?: ([+-]) (\w+))?\]$")


class Fault(Exception):
    """An access outside its array, a false assertion, or an answer that is neither 0 nor 1."""


class Cut(Exception):
    """A jump back was taken as often as its bound allows."""


class Unwritten(Exception):
    """A register is read that nothing has written."""


@dataclass(frozen=True)
class Step:
    """An instruction of a text: its name, its operands, its label and bound."""

    name: str
    operands: tuple[str, ...]
    bound: int | None
    line: int


@dataclass
class Program:
    """A text that was read."""

    capacity: int = 0
    is_strict: bool = True
    arrays: dict[str, list[int]] = field(default_factory=dict)
    procedures: dict[str, list[Step]] = field(default_factory=dict)
    labels: dict[str, dict[str, int]] = field(default_factory=dict)
    before: list[str] = field(default_factory=list)
    threads: list[list[str]] = field(default_factory=list)


def number_of(word: str) -> int:
    return int(word, 0) % WORD


def read_array(line: str, program: Program) -> None:
    head, _, words = line.partition(" = ")
    _, name, length = head.split()
    program.arrays[name] = [number_of(it) for it in words.split(", ")] if words else [0] * int(length)


def read_step(text: str, line: int) -> Step:
    """An instruction of one line."""
    body, _, bound = text.partition(" bound ")
    name, _, rest = body.partition(" ")
    if name == "lock":
        second, _, rest = rest.partition(" ")
        name = f"lock {second}"
    operands = tuple(it for it in re.split(r", (?![^\[]*\])", rest) if it)
    return Step(name, operands, int(bound) if bound else None, line)


def read_program(text: str) -> Program:
    """Reads a text that `tsoq parse` accepts."""
    program, inside = Program(), ""
    for number, whole in enumerate(text.splitlines(), 1):
        line = whole.split(";")[0].strip()
        if not line:
            continue
        if line in (".push", ".pop"):
            inside = line[1:]
            program.procedures[inside], program.labels[inside] = [], {}
        elif line == ".end":
            inside = ""
        elif inside and re.fullmatch(r"\w+ ?:", line):
            program.labels[inside][line[:-1].strip()] = len(program.procedures[inside])
        elif inside:
            program.procedures[inside].append(read_step(line, number))
        else:
            read_head(line, program)
    return program


def read_head(line: str, program: Program) -> None:
    """A line outside of push and pop."""
    word, _, rest = line.partition(" ")
    if word == ".capacity":
        program.capacity = int(rest)
    elif word == ".mode":
        program.is_strict = rest == "strict"
    elif word == ".array":
        read_array(line, program)
    elif word == ".before":
        program.before = rest.split(", ")
    elif word == ".thread":
        program.threads.append(rest.split(", "))


@dataclass(frozen=True)
class Answer:
    """What a call answered. The value counts for a pop that is done."""

    is_done: bool
    value: int


class Call:
    """One run of a procedure."""

    def __init__(self, machine: "Machine", name: str, argument: int) -> None:
        self.machine = machine
        self.steps, self.labels = machine.program.procedures[name], machine.program.labels[name]
        self.registers = {"rdi": argument % WORD} if name == "push" else {}
        self.flags = {"z": False, "c": False, "s": False, "o": False}
        self.taken: dict[int, int] = {}
        self.at = 0
        self.answer: Answer | None = None

    def run(self) -> Answer:
        while self.answer is None:
            step = self.steps[self.at]
            self.at += 1
            self.execute(step)
        return self.answer

    def execute(self, step: Step) -> None:
        name = step.name
        if name in ("nop", "pause", "mfence"):
            return
        if name == "ret":
            self.give_answer()
        elif name == "assert":
            if not self.holds(step.operands[0]):
                raise Fault(f"line {step.line}: the assertion is false")
        elif name.startswith("j"):
            if name == "jmp" or self.holds(name[1:]):
                self.jump(step)
        elif name in ("xchg", "lock xadd", "lock cmpxchg"):
            self.locked(step)
        else:
            self.compute(step)

    def jump(self, step: Step) -> None:
        here = self.at - 1
        if step.bound is not None:
            self.taken[here] = self.taken.get(here, 0) + 1
            if self.machine.has_bounds and self.taken[here] > step.bound:
                raise Cut(f"line {step.line}")
            if self.taken[here] > self.machine.patience:
                raise Cut(f"line {step.line}")
        self.at = self.labels[step.operands[0]]

    def give_answer(self) -> None:
        answer = self.get("rax")
        if answer > 1:
            raise Fault(f"the answer is {answer}")
        self.answer = Answer(bool(answer), self.registers.get("rdx", 0))

    # Operands.

    def place(self, operand: str) -> tuple[list[int], int]:
        """The array and the index of memory."""
        found = PLACE.match(operand)
        if found is None:
            raise ValueError(f"no memory operand: {operand}")
        name, index, sign, displacement = found.groups()
        at = self.get(index) if index else 0
        at += (int(displacement, 0) // 8 if displacement else 0) * (-1 if sign == "-" else 1)
        array = self.machine.arrays[name]
        if not 0 <= at < len(array):
            raise Fault(f"word {at} of {name}")
        return array, at

    def get(self, operand: str) -> int:
        if operand in REGISTERS:
            if operand not in self.registers:
                raise Unwritten(operand)
            return self.registers[operand]
        if operand.startswith("qword"):
            array, at = self.place(operand)
            return array[at]
        return number_of(operand)

    def put(self, operand: str, value: int) -> None:
        if operand in REGISTERS:
            self.registers[operand] = value % WORD
        else:
            array, at = self.place(operand)
            array[at] = value % WORD

    # Flags.

    def set_flags(self, result: int, carry: bool, overflow: bool) -> None:
        self.flags = {"z": result == 0, "c": carry, "s": result >= TOP, "o": overflow}

    def added(self, one: int, two: int) -> int:
        result = (one + two) % WORD
        self.set_flags(result, one + two >= WORD, bool((one ^ result) & (two ^ result) & TOP))
        return result

    def subtracted(self, one: int, two: int) -> int:
        result = (one - two) % WORD
        self.set_flags(result, one < two, bool((one ^ two) & (one ^ result) & TOP))
        return result

    def bitwise(self, result: int) -> int:
        self.set_flags(result, False, False)
        return result

    def holds(self, condition: str) -> bool:
        flags = self.flags
        less = flags["s"] != flags["o"]
        table = {"e": flags["z"], "b": flags["c"], "be": flags["c"] or flags["z"], "l": less, "le": less or flags["z"]}
        table |= {"ne": not table["e"], "ae": not table["b"], "a": not table["be"], "ge": not less, "g": not table["le"]}
        return table[condition]

    # Instructions.

    def compute(self, step: Step) -> None:
        name, target = step.name, step.operands[0]
        if name == "mov":
            self.put(target, self.get(step.operands[1]))
            return
        one = self.get(target)
        two = self.get(step.operands[1]) if len(step.operands) > 1 else 1
        carry = self.flags["c"]
        if name in ("add", "inc"):
            result = self.added(one, two)
        elif name in ("sub", "cmp", "dec"):
            result = self.subtracted(one, two)
        else:
            result = self.bitwise({"and": one & two, "test": one & two, "or": one | two, "xor": one ^ two}[name])
        if name in ("inc", "dec"):
            self.flags["c"] = carry
        if name not in ("cmp", "test"):
            self.put(target, result)

    def locked(self, step: Step) -> None:
        place, register = step.operands
        old, new = self.get(place), self.get(register)
        if step.name == "xchg":
            self.put(place, new)
            self.put(register, old)
        elif step.name == "lock xadd":
            self.put(place, self.added(old, new))
            self.put(register, old)
        elif self.subtracted(self.get("rax"), old) == 0:
            self.put(place, new)
        else:
            self.put("rax", old)


class Machine:
    """Memory that calls share. With `has_bounds` a call is cut at its bounds, else only after many rounds."""

    def __init__(self, program: Program, has_bounds: bool = True, patience: int = 1000) -> None:
        self.program, self.has_bounds, self.patience = program, has_bounds, patience
        self.arrays = {name: list(words) for name, words in program.arrays.items()}

    def push(self, value: int) -> Answer:
        return Call(self, "push", value).run()

    def pop(self) -> Answer:
        return Call(self, "pop", 0).run()
