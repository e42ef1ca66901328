"""From an object file to a program text: all rules, one after the other."""

import pathlib
from dataclasses import dataclass, field

from . import cloning
from .allocating import Colours, allocate
from .constants import Constants
from .dead import DeadBranches
from .debuginfo import DebugInfo, Type
from .decoding import Decoder, graph_of
from .initializing import initialize, type_heap
from .interpreter import Machine, read_program
from .ir import Procedure, signed
from .layout import Cell, Layout, read_layout
from .lifting import Lifter, Signature
from .linearizing import Laid, Linearizer
from .lowering import Lowering, Tables, cells_of
from .memory import Memory, check_overlaps
from .objectfile import ObjectFile, read_object
from .refusing import Refusal
from .simplify import Simplifier
from .strides import Strides
from .writing import Array, Bounds, Writer, count_instructions, whole

MOST_ITEMS = 16
MOST_ARRAYS, MOST_WORDS = 16, 256


@dataclass
class Options:
    """What the author asked for."""

    push: str = "push"
    pop: str = "pop"
    init: str = ""
    done: int = 1
    bound: int | None = None
    bound_at: dict[str, int] = field(default_factory=dict)
    capacity: int | None = None
    mode: str = "strict"
    threads: list[str] = field(default_factory=lambda: ["push 1, push 2", "pop, pop"])
    before: str = ""
    layout: list[str] = field(default_factory=list)

    @property
    def calls(self) -> int:
        """How many calls the client has."""
        lines = [*self.threads, *([self.before] if self.before else [])]
        return sum(len(it.split(",")) for it in lines)


@dataclass
class Adopted:
    """A text, with what is needed to hold it against the object."""

    text: str
    placed: ObjectFile
    cells: dict[str, tuple[Cell, int]]
    written: set[Cell]
    signatures: dict[str, Signature]
    report: list[str]


class Adoption:
    """One adoption."""

    def __init__(self, path: pathlib.Path, options: Options) -> None:
        self.options = options
        self.placed = read_object(path)
        if options.init:
            initialize(self.placed, options.init)
        self.debug = DebugInfo(self.placed)
        self.layout = Layout(self.placed, self.debug, dict(read_layout(it) for it in options.layout))
        type_heap(self.layout)
        self.memory = Memory(self.placed, self.layout)
        self.bounds = Bounds(options.calls, options.bound, options.bound_at)
        self.signatures = {name: self.signature(name, symbol) for name, symbol in (("push", options.push), ("pop", options.pop))}
        self.tables = Tables()

    def signature(self, name: str, symbol: str) -> Signature:
        """How a function takes its argument and answers, by its debug information."""
        found = self.debug.functions.get(symbol)
        if found is None:
            return Signature(name, False, name == "pop", 8)
        takes_pointer = any(it.kind == "pointer" for it in found.parameters[:1])
        return Signature(name, takes_pointer and name == "push", takes_pointer and name == "pop", bits_of(found.answer, symbol))

    def instruction_at(self, address: int) -> str:
        """The instruction at an address, as Capstone prints it."""
        try:
            return f"`{Decoder(self.placed).at(address).text}`"
        except Refusal:
            return ""

    def lifted(self, name: str) -> Procedure:
        """A procedure as values, of the whole machine code."""
        symbol = self.options.push if name == "push" else self.options.pop
        graph = graph_of(self.placed, Decoder(self.placed), symbol)
        cloning.clone(graph)
        return Lifter(graph, self.signatures[name], self.placed).lift()

    def reduced(self) -> list[Procedure]:
        """Both procedures, without what control does not come to: what they write decides which memory is constant."""
        while True:
            made = [self.lifted(name) for name in ("push", "pop")]
            changed = False
            for procedure in made:
                self.simplify(procedure)
                changed |= self.memory.note_writes(procedure)
            if not changed:
                return made

    def simplify(self, procedure: Procedure) -> None:
        """Constants and algebra in turn, until no branch goes away."""
        count, is_changed = -1, True
        while is_changed or count != len(procedure.flows):
            count = len(procedure.flows)
            Constants(procedure, self.memory.initial).run().rewrite()
            Simplifier(procedure).run()
            is_changed = DeadBranches(procedure).run() | Strides(procedure, self.placed).run() or any(
                it.condition is not None and it.condition.is_number for it in procedure.flows.values()
            )

    def adopt(self) -> Adopted:
        procedures = self.reduced()
        lowerings = [Lowering(it, self.memory, self.tables, self.options.done) for it in procedures]
        codes = [(it.lower(), it) for it in lowerings]
        sizes = cells_of(lowerings)
        check_overlaps(sizes)
        self.check_sizes(lowerings, sizes)
        names: dict[object, str] = {}
        names.update({cell: name for cell, name in self.layout.names(list(sizes)).items()})
        names.update({f"shifted_by_{bits}": f"shifted_by_{bits}" for bits in self.tables.lengths})
        coloured = [(allocate(code), code) for code, _ in codes]
        laid: list[tuple[Laid, Colours]] = [(Linearizer(code).run(), colours) for colours, code in coloured]
        writer = Writer(self.placed, self.debug, self.bounds, names)
        lines = [writer.procedure(*it) for it in laid]
        count_instructions(lines)
        arrays = self.arrays(sizes, names)
        client = [f".before {self.options.before}"] if self.options.before else []
        client += [f".thread {it}" for it in self.options.threads]
        capacity, how = self.capacity(arrays, lines, client)
        report = self.report(procedures, sizes, names, writer, how)
        text = whole(report, arrays, capacity, self.options.mode, lines, client)
        cells = {names[it]: (it, size) for it, size in sizes.items()}
        return Adopted(text, self.placed, cells, {it for it, _ in self.memory.written}, self.signatures, report)

    @staticmethod
    def check_sizes(lowerings: list[Lowering], sizes: dict[Cell, int]) -> None:
        """Refuses a store to a part of a word."""
        for lowering in lowerings:
            for value, found in lowering.resolved.items():
                if value in lowering.wanted and value.op != "load" and found.size < sizes[found.cell]:
                    source = value.source.address if value.source else None
                    raise Refusal(
                        f"{found.size} bytes of a field are written that is accessed with {sizes[found.cell]} bytes elsewhere", source
                    )

    def arrays(self, sizes: dict[Cell, int], names: dict[object, str]) -> list[Array]:
        """The arrays of the text, with the words that the object has."""
        made = []
        for cell, size in sorted(sizes.items(), key=lambda it: it[0].start):
            words = [signed(self.placed.read(cell.address(at), size) or 0, size * 8) for at in range(cell.count)]
            made.append(Array(names[cell], words))
        made += [Array(f"shifted_by_{bits}", [at >> bits for at in range(length)]) for bits, length in self.tables.lengths.items()]
        if len(made) > MOST_ARRAYS or sum(len(it.words) for it in made) > MOST_WORDS:
            count = sum(len(it.words) for it in made)
            raise Refusal(
                f"the queue has {len(made)} fields of {count} words, and a text has at most {MOST_ARRAYS} of {MOST_WORDS}: make it smaller"
            )
        return made

    def capacity(self, arrays: list[Array], lines: list[list[str]], client: list[str]) -> tuple[int, str]:
        """The capacity, and how it was found."""
        if self.options.capacity is not None:
            return self.options.capacity, "as asked"
        machine = Machine(read_program(whole([], arrays, MOST_ITEMS, "weak", lines, client)))
        for count in range(MOST_ITEMS + 1):
            if not machine.push(count + 1).is_done:
                break
        if not 0 < count <= MOST_ITEMS or machine.push(1).is_done:
            raise Refusal(f"the capacity was not found: of {MOST_ITEMS + 1} pushes, {count} were done; give --capacity")
        return count, f"{count} pushes were done before one was refused"

    def report(self, procedures: list[Procedure], sizes: dict[Cell, int], names: dict[object, str], writer: Writer, how: str) -> list[str]:
        """What was assumed, changed, widened and dropped."""
        lines = [f"capacity: {how}", f"mode: {self.options.mode}", *self.memory.told_constants()]
        for cell, size in sizes.items():
            if size < 8:
                lines.append(f"widened: {names[cell]} has {size * 8} bits in the object")
        for procedure in procedures:
            for kind, address, text in dict.fromkeys(procedure.notes):
                where = f"{self.placed.offset_in_section(address):#x} {' '.join(self.debug.lines_of(address))}".strip()
                lines.append(f"{kind}: {procedure.name} {where}: {text}")
        for name, line, bound, why in self.bounds.used:
            lines.append(f"bound {bound}: {name} {line}: {why}")
        return lines


def bits_of(answer: Type | None, symbol: str) -> int:
    """In how many bits of RAX a function answers."""
    if answer is None:
        raise Refusal(f"{symbol} answers nothing: it has to say whether it was done")
    if answer.kind == "struct":
        first = next((it.type for it in answer.members if it.offset == 0 and it.type.kind == "base" and it.type.size), None)
        return first.size * 8 if first else 64
    return answer.size * 8 or 8


__all__ = ["Adoption", "Adopted", "Options"]
