"""Addresses as cells and indexes, and which cells push and pop write."""

from dataclasses import dataclass, field

from .ir import Procedure, Value, signed
from .layout import Cell, Layout
from .objectfile import ObjectFile
from .private import is_private
from .ranges import most
from .refusing import Refusal

ACCESSES = {"load", "store", "xchg", "xadd", "cmpxchg", "locked"}
# A sum: a number, and values with what each is multiplied by.
Sum = tuple[int, dict[Value, int]]


def sum_of(value: Value) -> Sum:
    """A value as a sum, modulo 2^64."""
    if value.is_number:
        return value.number, {}
    if value.op in ("add", "sub"):
        factor = 1 if value.op == "add" else -1
        return plus(sum_of(value.args[0]), sum_of(value.args[1]), factor)
    if value.op in ("shl", "mul"):
        return times(sum_of(value.args[0]), 2**value.number if value.op == "shl" else value.number)
    if value.op == "zext":
        inner = value.args[0]
        if inner.op in ("add", "shl", "mul") and most(inner) < 2**inner.bits - 1 and no_wrap(inner):
            return sum_of(inner)
        return 0, {inner: 1}
    return 0, {value: 1}


def no_wrap(value: Value) -> bool:
    """Whether a sum or product of few bits stays below its 2^bits."""
    if value.op == "add":
        return most(value.args[0]) + most(value.args[1]) < 1 << value.bits
    factor = 1 << value.number if value.op == "shl" else value.number
    return most(value.args[0]) * factor < 1 << value.bits


def plus(one: Sum, two: Sum, factor: int) -> Sum:
    terms = dict(one[1])
    for value, count in two[1].items():
        terms[value] = terms.get(value, 0) + factor * count
    return one[0] + factor * two[0], {it: count for it, count in terms.items() if count}


def times(one: Sum, factor: int) -> Sum:
    return one[0] * factor, {it: count * factor for it, count in one[1].items()}


@dataclass
class Resolved:
    """The cell of an access, the constant part of its index, and the other part as values with factors."""

    cell: Cell
    index: int
    terms: dict[Value, int]
    size: int


@dataclass
class Memory:
    """Resolves accesses, and remembers what is written and in which sizes cells are accessed."""

    placed: ObjectFile
    layout: Layout
    written: set[tuple[Cell, int]] = field(default_factory=set)
    constants: dict[tuple[int, int], int] = field(default_factory=dict)

    def resolve(self, value: Value) -> Resolved:
        """The cell that an access goes to."""
        source = value.source.address if value.source else None
        size = (value.args[1].bits if value.op == "store" else value.bits) // 8
        number, terms = sum_of(value.args[0])
        number %= 2**64
        if is_private(number):
            raise Refusal("private memory is accessed by an address that is known only when it runs", source)
        if not self.placed.is_address(number):
            raise Refusal("the address of this access is not known: no static object and no argument leads to it", source)
        try:
            access = self.layout.access(number, [abs(signed(it % 2**64, 64)) for it in terms.values()], size)
        except Refusal as refusal:
            raise Refusal(refusal.reason, source) from None
        stride = access.cell.stride
        parts = {it: signed(count % 2**64, 64) // stride for it, count in terms.items()} if terms else {}
        return Resolved(access.cell, access.index, parts, size)

    def note_writes(self, procedure: Procedure) -> bool:
        """Remembers what a procedure writes. True where there is something new."""
        before = len(self.written)
        for value in procedure.values():
            if value.op in ACCESSES and value.op != "load":
                found = self.resolve(value)
                if not self.keeps(value, found):
                    self.written.add((found.cell, found.size))
        return len(self.written) > before

    def keeps(self, value: Value, found: Resolved) -> bool:
        """Whether a store writes the number that the cell has from the start on, and no other store writes another."""
        if value.op != "store" or not value.args[1].is_number or found.cell.count > 1 or self.is_written(found.cell.start, found.size):
            return False
        return self.placed.read(found.cell.start, found.size) == value.args[1].number

    def initial(self, address: int, size: int) -> int | None:
        """The value of memory that neither push nor pop writes, as far as the object has it."""
        if not self.placed.is_address(address) or self.is_written(address, size):
            return None
        number = self.placed.read(address, size)
        if number is not None:
            self.constants[address, size] = number
        return number

    def told_constants(self) -> list[str]:
        """The fields whose first value was taken for their value."""
        found = []
        for (address, size), number in sorted(self.constants.items()):
            section = self.placed.section_at(address)
            if section is None or not section.is_writable or self.is_written(address, size):
                continue
            cell = self.layout.access(address, [], size).cell
            own = self.layout.own_name(cell)
            name = "_".join(it for it in (own, cell.path) if it)
            found.append(f"assumed: {name} is {self.told(number)}, which neither push nor pop changes")
        return list(dict.fromkeys(found))

    def told(self, number: int) -> str:
        """A number, or the object that it is the address of."""
        found = self.placed.object_at(number) if self.placed.is_address(number) else None
        return f"the address of {found.name}" if found is not None else str(number)

    def is_written(self, address: int, size: int) -> bool:
        for cell, width in self.written:
            if cell.count == 1:
                if address < cell.start + width and cell.start < address + size:
                    return True
                continue
            first = (address - cell.start - width) // cell.stride
            for index in range(max(first, 0), min(first + 3, cell.count)):
                start = cell.address(index)
                if address < start + width and start < address + size:
                    return True
        return False


def check_overlaps(sizes: dict[Cell, int]) -> None:
    """Refuses cells of which one lies partly in another."""
    for cell, size in sizes.items():
        if cell.count > 1 and cell.stride < size:
            raise Refusal(f"{cell.object.name} is an array with {cell.stride} bytes for each item, and is accessed with {size}")
    spans = sorted((cell.address(index), cell.address(index) + size, cell) for cell, size in sizes.items() for index in range(cell.count))
    for (_, end, one), (start, _, two) in zip(spans, spans[1:]):
        if start < end and one != two:
            raise Refusal(f"{one.object.name} is accessed in pieces of different sizes: `{one.path}` and `{two.path}` share bytes")
