"""A procedure in static single assignment form, exactly as the machine computes: each value has a number of bits."""

from dataclasses import dataclass, field
from typing import Callable, Iterator

from .decoding import Instruction

# Operations that do something beside their value.
EFFECTS = {"load", "store", "xchg", "xadd", "cmpxchg", "fence", "pause", "locked"}
LOCKED = {"xchg", "xadd", "cmpxchg", "locked"}
OPPOSITE = {"e": "ne", "ne": "e", "b": "ae", "ae": "b", "be": "a", "a": "be", "l": "ge", "ge": "l", "le": "g", "g": "le"}
SWAPPED = {"e": "e", "ne": "ne", "b": "a", "a": "b", "ae": "be", "be": "ae", "l": "g", "g": "l", "ge": "le", "le": "ge"}


class Value:
    """An operation and its result."""

    __slots__ = ("op", "args", "bits", "number", "name", "source", "block")

    def __init__(self, op: str, args: list["Value"], bits: int, number: int = 0, name: str = "") -> None:
        self.op, self.args, self.bits, self.number, self.name = op, args, bits, number, name
        self.source: Instruction | None = None
        self.block = -1

    @property
    def is_number(self) -> bool:
        return self.op == "const"

    def __repr__(self) -> str:
        inner = ", ".join(f"{it.op}:{id(it) % 9973}" if it.op != "const" else f"{it.number:#x}" for it in self.args)
        return f"<{id(self) % 9973} {self.op}{self.bits} {self.name} {self.number:#x} ({inner})>"


@dataclass
class Flow:
    """A block of values, and how it ends."""

    number: int
    values: list[Value] = field(default_factory=list)
    phis: list[Value] = field(default_factory=list)
    predecessors: list[int] = field(default_factory=list)
    successors: list[int] = field(default_factory=list)
    end: str = "jump"
    condition: Value | None = None
    answer: Value | None = None
    result: Value | None = None
    reason: str = ""
    source: Instruction | None = None

    def roots(self) -> Iterator[Value]:
        """The values that the block's end reads."""
        for value in (self.condition, self.answer, self.result):
            if value is not None:
                yield value


@dataclass
class Procedure:
    """Push or pop."""

    name: str
    flows: dict[int, Flow]
    notes: list[tuple[str, int, str]] = field(default_factory=list)

    def note(self, kind: str, source: Instruction | None, text: str) -> None:
        """Something to be said about an instruction."""
        self.notes.append((kind, source.address if source else 0, text))

    def values(self) -> Iterator[Value]:
        """All values that stand in blocks."""
        for flow in self.flows.values():
            yield from flow.phis
            yield from flow.values

    def replace(self, change: Callable[[Value], Value]) -> None:
        """Gives each operand another value."""
        for flow in self.flows.values():
            for value in flow.phis + flow.values:
                value.args = [change(it) for it in value.args]
            flow.condition = change(flow.condition) if flow.condition is not None else None
            flow.answer = change(flow.answer) if flow.answer is not None else None
            flow.result = change(flow.result) if flow.result is not None else None

    def order(self) -> list[int]:
        """Blocks in reverse postorder."""
        seen, done = {0}, []
        stack = [(0, iter(self.flows[0].successors))]
        while stack:
            number, rest = stack[-1]
            following = next((it for it in rest if it not in seen), None)
            if following is None:
                done.append(number)
                stack.pop()
            else:
                seen.add(following)
                stack.append((following, iter(self.flows[following].successors)))
        return done[::-1]


def constant(number: int, bits: int) -> Value:
    """A number of so many bits."""
    return Value("const", [], bits, number & ((1 << bits) - 1))


def signed(number: int, bits: int) -> int:
    """A number of so many bits, read as a signed one."""
    return number - (1 << bits) if number >> (bits - 1) & 1 else number


def compared(condition: str, one: int, two: int, bits: int) -> bool:
    """Whether a condition holds of two numbers."""
    first, second = signed(one, bits), signed(two, bits)
    table = {"e": one == two, "ne": one != two, "b": one < two, "ae": one >= two, "be": one <= two, "a": one > two}
    table |= {"l": first < second, "ge": first >= second, "le": first <= second, "g": first > second}
    return table[condition]


def computed(op: str, args: list[int], bits: int, from_bits: int, number: int, name: str) -> int | None:
    """What an operation makes of numbers."""
    one, two = args[0], args[1] if len(args) > 1 else 0
    mask = (1 << bits) - 1
    if op in ("zext", "trunc"):
        return one & mask
    if op == "sext":
        return signed(one, from_bits) & mask
    if op == "cmp":
        return int(compared(name, one, two, from_bits))
    if op == "select":
        return args[1] if one else args[2]
    if op == "insert":
        return (one & ~((1 << number) - 1) | two) & mask
    if op == "sar":
        return signed(one, bits) >> number & mask
    table = {"add": one + two, "sub": one - two, "and": one & two, "or": one | two, "xor": one ^ two, "neg": -one, "not": ~one}
    table |= {"shl": one << number, "shr": one >> number, "mul": one * number}
    return table[op] & mask if op in table else None
