"""Instructions of the text, with registers that are not yet chosen."""

from dataclasses import dataclass, field
from typing import Iterator

from .decoding import Instruction
from .layout import Cell


@dataclass(frozen=True)
class Reg:
    """A register by number."""

    number: int


@dataclass(frozen=True)
class Number:
    """An immediate."""

    value: int


@dataclass(frozen=True)
class Place:
    """Memory: a word of an array, by a constant number and perhaps a register."""

    cell: Cell | str
    index: Reg | None
    constant: int


Operand = Reg | Number | Place
READ_BOTH = {"add", "sub", "and", "or", "xor", "inc", "dec", "cmov"}
COMPARES = {"cmp", "test"}
FITS = range(-(2**31), 2**31)


@dataclass
class Line:
    """An instruction. `cmov` is a move behind a jump over it; it has its condition in `condition`."""

    name: str
    operands: list[Operand] = field(default_factory=list)
    condition: str = ""
    source: Instruction | None = None
    fixed: list[Reg] = field(default_factory=list)

    def reads(self) -> Iterator[Reg]:
        """The registers that it reads."""
        for at, operand in enumerate(self.operands):
            if isinstance(operand, Place) and operand.index is not None:
                yield operand.index
            if isinstance(operand, Reg) and not (at == 0 and self.name == "mov"):
                yield operand
        if self.name in ("lock cmpxchg", "ret"):
            yield from self.fixed

    def writes(self) -> Iterator[Reg]:
        """The registers that it writes."""
        if self.name == "mov" or self.name in READ_BOTH:
            if isinstance(self.operands[0], Reg):
                yield self.operands[0]
        elif self.name in ("xchg", "lock xadd"):
            assert isinstance(self.operands[1], Reg)
            yield self.operands[1]
        elif self.name == "lock cmpxchg":
            yield from self.fixed

    @property
    def is_copy(self) -> bool:
        """Whether it moves a register to another."""
        return self.name == "mov" and all(isinstance(it, Reg) for it in self.operands)

    @property
    def writes_flags(self) -> bool:
        return self.name in READ_BOTH - {"cmov"} or self.name in COMPARES or self.name in ("lock xadd", "lock cmpxchg")


@dataclass
class CodeBlock:
    """Lines, and how they end: with a jump to the first successor where the condition holds, else to the second."""

    number: int
    lines: list[Line] = field(default_factory=list)
    successors: list[int] = field(default_factory=list)
    condition: str = ""
    source: Instruction | None = None


@dataclass
class Code:
    """A procedure of the text."""

    name: str
    blocks: dict[int, CodeBlock] = field(default_factory=dict)
    fixed: dict[Reg, str] = field(default_factory=dict)
    count: int = 0

    def new(self, name: str = "") -> Reg:
        """A new register, or one that has to be the one of this name."""
        made = Reg(self.count)
        self.count += 1
        if name:
            self.fixed[made] = name
        return made
