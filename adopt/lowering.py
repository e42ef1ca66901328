"""Makes instructions of the text of values."""

from dataclasses import dataclass, field

from .code import FITS, Code, CodeBlock, Line, Number, Operand, Place, Reg
from .decoding import Instruction
from .ir import EFFECTS, Flow, Procedure, Value, signed
from .layout import Cell
from .memory import ACCESSES, Memory, Resolved
from .refusing import Refusal
from .simplify import same
from .widths import Widths

MOST_DOUBLINGS = 6
LONGEST_TABLE = 64


@dataclass
class Tables:
    """Tables for shifts to the right, which the language does not have: of each number of bits how long."""

    lengths: dict[int, int] = field(default_factory=dict)

    def name(self, bits: int, length: int) -> str:
        self.lengths[bits] = max(self.lengths.get(bits, 0), length)
        return f"shifted_by_{bits}"


class Lowering:
    """One procedure."""

    def __init__(self, procedure: Procedure, memory: Memory, tables: Tables, done: int) -> None:
        self.procedure, self.memory, self.tables, self.done = procedure, memory, tables, done
        self.code = Code(procedure.name)
        self.resolved: dict[Value, Resolved] = {it: memory.resolve(it) for it in procedure.values() if it.op in ACCESSES}
        leaves = {leaf for it in self.resolved.values() for leaf in it.terms}
        self.widths = Widths(procedure, leaves)
        self.registers: dict[Value, Reg] = {}
        self.given: dict[Value, Reg] = {}
        self.wanted = self.find_wanted()
        self.tests = self.find_tests()
        self.block = CodeBlock(0)
        self.lasts: dict[int, CodeBlock] = {}
        self.source: Instruction | None = None
        self.last_exchange: Value | None = None
        self.last_difference: tuple[Value, Line] | None = None

    # What is needed.

    def find_wanted(self) -> set[Value]:
        """Values that get instructions: what effects, ends and indexes need."""
        wanted: set[Value] = set()
        waiting: list[Value] = []
        for flow in self.procedure.flows.values():
            waiting += list(flow.roots())
            for value in flow.values:
                if value.op in EFFECTS:
                    waiting.append(value)
        while waiting:
            value = waiting.pop()
            if value in wanted:
                continue
            wanted.add(value)
            if value.op in ACCESSES:
                waiting += [*value.args[1:], *self.resolved[value].terms]
            else:
                waiting += value.args
        return wanted

    def find_tests(self) -> set[Value]:
        """Values of `and` that are only held against 0: they become `test`."""
        users: dict[Value, list[Value]] = {}
        other: set[Value] = {leaf for it in self.resolved.values() for leaf in it.terms}
        for value in self.wanted:
            for used in value.args:
                users.setdefault(used, []).append(value)
        for flow in self.procedure.flows.values():
            other |= set(flow.roots())
        return {
            it
            for it in self.wanted
            if it.op == "and"
            and it not in other
            and all(u.op == "cmp" and u.args[1].is_number and u.args[1].number == 0 for u in users.get(it, []))
        }

    # Words.

    def word(self, value: Value) -> Operand:
        """The operand that has the word of a value."""
        if value.is_number:
            return Number(signed(value.number, value.bits))
        if value.op == "undef":
            raise Refusal(f"{value.name} is read before anything writes it", self.source.address if self.source else None)
        if value.op in ("trunc", "sext") or (value.op == "zext" and self.widths.is_plain_zext(value)):
            return self.word(value.args[0])
        return self.register(value)

    def register(self, value: Value) -> Reg:
        if value not in self.registers:
            self.registers[value] = self.code.new()
        return self.registers[value]

    def emit(self, name: str, *operands: Operand, condition: str = "", fixed: list[Reg] | None = None) -> None:
        self.block.lines.append(Line(name, list(operands), condition, self.source, fixed or []))

    def in_register(self, operand: Operand) -> Reg:
        """The operand, moved to a register where it is a number."""
        if isinstance(operand, Reg):
            return operand
        made = self.code.new()
        self.emit("mov", made, operand)
        return made

    def small(self, operand: Operand) -> Operand:
        """The operand; a number that is no immediate of 32 bits is moved to a register."""
        return self.in_register(operand) if isinstance(operand, Number) and operand.value not in FITS else operand

    # Blocks.

    def lower(self) -> Code:
        for number in self.procedure.order():
            self.code.blocks[number] = CodeBlock(number)
        self.split_edges()
        for number in self.procedure.order():
            self.block = self.code.blocks[number]
            self.flow(self.procedure.flows[number])
            self.lasts[number] = self.block
        for number in self.procedure.order():
            self.copies(self.procedure.flows[number])
        return self.code

    def split_edges(self) -> None:
        """Puts a block into each edge from a branch to a block with phis that others lead to as well."""
        flows = self.procedure.flows
        for number in list(flows):
            flow = flows[number]
            if len(flow.successors) < 2:
                continue
            for at, successor in enumerate(flow.successors):
                if flows[successor].phis:
                    made = Flow(max(flows) + 1, predecessors=[number], successors=[successor], source=flow.source)
                    flows[made.number] = made
                    self.code.blocks[made.number] = CodeBlock(made.number)
                    before = flows[successor].predecessors
                    before[before.index(number)] = made.number
                    flow.successors[at] = made.number

    def flow(self, flow: Flow) -> None:
        self.source = flow.source
        self.block.source = flow.source
        if flow.end == "unknown":
            raise Refusal(flow.reason, flow.source.address if flow.source else None)
        for phi in flow.phis:
            if phi in self.wanted:
                given = self.given.setdefault(phi, self.code.new())
                self.emit("mov", self.register(phi), given)
        for value in flow.values:
            if value in self.wanted:
                self.source = value.source or flow.source
                self.value(value)
        self.source = flow.source
        self.end(flow)

    def copies(self, flow: Flow) -> None:
        """What a block gives to the phis of the next."""
        if len(flow.successors) != 1:
            return
        following = self.procedure.flows[flow.successors[0]]
        self.block, self.source = self.lasts[flow.number], flow.source
        for phi in following.phis:
            if phi in self.wanted:
                arg = phi.args[following.predecessors.index(flow.number)]
                if arg.op == "undef":
                    self.undefined(phi, arg)
                else:
                    self.emit("mov", self.given[phi], self.word(arg))

    def undefined(self, phi: Value, arg: Value) -> None:
        """A value that one way leaves unwritten is 0 there: nothing may depend on it."""
        self.procedure.note("assumed", self.source, f"{arg.name} is unwritten on one way to here, and 0 in the text")
        self.emit("mov", self.given[phi], Number(0))

    def end(self, flow: Flow) -> None:
        self.block.successors, self.block.source = list(flow.successors), flow.source
        if flow.end == "branch":
            assert flow.condition is not None
            if flow.condition.op != "cmp":
                raise Refusal("a condition is no comparison", flow.source.address if flow.source else None)
            self.block.condition = self.compare(flow.condition)
        elif flow.end == "return":
            self.answer(flow)
        elif flow.end == "stop":
            self.stop(flow)

    def stop(self, flow: Flow) -> None:
        """A false assertion."""
        self.procedure.note("changed", flow.source, f"{flow.reason}: a false assertion")
        made = self.code.new("rax")
        self.emit("mov", made, Number(0))
        fixed = [made]
        if self.procedure.name == "pop":
            result = self.code.new("rdx")
            self.emit("mov", result, Number(0))
            fixed.append(result)
        self.emit("cmp", made, Number(1))
        self.emit("assert", condition="e")
        self.emit("ret", fixed=fixed)

    def answer(self, flow: Flow) -> None:
        assert flow.answer is not None
        answer = self.code.new("rax")
        fixed = [answer]
        operand = self.word(flow.answer)
        if self.done == 0:
            operand = self.is_zero(flow.answer)
        if flow.result is not None and flow.result.op == "undef" and flow.answer.is_number and operand == Number(1):
            raise Refusal("the pop is done, and nothing has written its value", self.source.address if self.source else None)
        result: Operand = Number(0)
        if flow.result is not None and flow.result.op != "undef":
            result = self.word(flow.result)
        if flow.result is not None:
            value = self.code.new("rdx")
            self.emit("mov", value, result)
            fixed.append(value)
        self.emit("mov", answer, operand)
        self.emit("ret", fixed=fixed)

    def is_zero(self, value: Value) -> Operand:
        """1 where a value is 0."""
        operand = self.word(value)
        if isinstance(operand, Number):
            return Number(int(operand.value == 0))
        made = self.code.new()
        self.emit("cmp", operand, Number(0))
        self.emit("mov", made, Number(0))
        self.emit("cmov", made, Number(1), condition="e")
        return made

    # Values.

    def value(self, value: Value) -> None:
        """The instructions of one value."""
        if self.widths.is_lossy(value):
            name = {"trunc": "the low half is taken"}.get(value.op, f"a result of {value.bits} bits")
            self.procedure.note("widened", self.source, f"{name} is counted in 64 bits")
        if value.op in ("trunc", "sext", "cmp") or value in self.tests:
            return
        if value.op == "zext" and self.widths.is_plain_zext(value):
            return
        rule = getattr(self, f"lower_{value.op}", None)
        if rule is None:
            raise Refusal(f"an operation `{value.op}` is left over", self.source.address if self.source else None)
        rule(value)

    def two(self, name: str, value: Value) -> None:
        """An operation of two operands."""
        one, two = self.word(value.args[0]), self.word(value.args[1])
        if isinstance(one, Number) and name != "sub":
            one, two = two, one
        two = self.small(two)
        made = self.register(value)
        self.emit("mov", made, one)
        self.emit(name, made, two)

    def lower_add(self, value: Value) -> None:
        self.two("add", value)

    def lower_sub(self, value: Value) -> None:
        self.two("sub", value)
        self.last_difference = (value, self.block.lines[-1])

    def lower_and(self, value: Value) -> None:
        self.two("and", value)

    def lower_or(self, value: Value) -> None:
        self.two("or", value)

    def lower_xor(self, value: Value) -> None:
        self.two("xor", value)

    def lower_neg(self, value: Value) -> None:
        made = self.register(value)
        self.emit("mov", made, Number(0))
        self.emit("sub", made, self.word(value.args[0]))

    def lower_not(self, value: Value) -> None:
        made = self.register(value)
        self.emit("mov", made, self.word(value.args[0]))
        self.emit("xor", made, Number(-1))

    def lower_shl(self, value: Value) -> None:
        self.multiplied(self.register(value), self.word(value.args[0]), 2**value.number)

    def lower_mul(self, value: Value) -> None:
        self.multiplied(self.register(value), self.word(value.args[0]), signed(value.number, value.bits))

    def multiplied(self, made: Reg, one: Operand, factor: int) -> None:
        """A product by a constant: doubled and added, from the highest bit of the factor down."""
        if factor <= 0 or factor.bit_length() > MOST_DOUBLINGS + 1:
            raise Refusal(f"a product by {factor} has no short form in a text", self.source.address if self.source else None)
        self.emit("mov", made, one)
        for bit in bin(factor)[3:]:
            self.emit("add", made, made)
            if bit == "1":
                self.emit("add", made, self.small(one))

    def lower_zext(self, value: Value) -> None:
        inner = value.args[0]
        made = self.register(value)
        if inner.bits == 32:
            self.emit("mov", made, Number(2**32 - 1))
            self.emit("and", made, self.word(inner))
        else:
            self.emit("mov", made, self.word(inner))
            self.emit("and", made, Number(2**inner.bits - 1))

    def lower_insert(self, value: Value) -> None:
        made = self.register(value)
        self.emit("mov", made, self.word(value.args[0]))
        self.emit("and", made, Number(-(2**value.number)))
        self.emit("or", made, self.small(self.word(value.args[1])))

    def lower_shr(self, value: Value) -> None:
        """A shift to the right reads a table; a number past its end is a fault of the text."""
        made = self.register(value)
        table = self.tables.name(value.number, LONGEST_TABLE)
        self.procedure.note(
            "changed", self.source, f"a shift by {value.number} reads a table of {LONGEST_TABLE} words; a greater number is a fault"
        )
        self.emit("mov", made, Place(table, self.in_register(self.word(value.args[0])), 0))

    def lower_select(self, value: Value) -> None:
        condition, one, two = value.args
        made = self.code.new()
        name = self.compare(condition)
        self.emit("mov", made, self.word(two))
        self.emit("cmov", made, self.word(one), condition=name)
        self.emit("mov", self.register(value), made)

    def lower_phi(self, _: Value) -> None:
        raise Refusal("a phi stands among values")

    def lower_argument(self, value: Value) -> None:
        self.emit("mov", self.register(value), self.code.new("rdi"))

    # Conditions.

    def compare(self, value: Value) -> str:
        """Emits a comparison, and returns the condition under which it holds."""
        one, two = value.args
        if one in self.tests:
            self.emit("test", self.in_register(self.word(one.args[0])), self.small(self.word(one.args[1])))
            return value.name
        first, second = self.in_register(self.word(one)), self.small(self.word(two))
        if not self.has_flags(value, first, second):
            self.emit("cmp", first, second)
        return value.name

    def has_flags(self, value: Value, first: Reg, second: Operand) -> bool:
        """Whether the last instruction that wrote flags wrote those of this comparison. A value's register is written once."""
        at = next((at for at in range(len(self.block.lines) - 1, -1, -1) if self.block.lines[at].writes_flags), None)
        if at is None:
            return False
        last = self.block.lines[at]
        if last.name == "cmp" and last.operands == [first, second]:
            return True
        if self.last_difference is not None and self.last_difference[1] is last:
            if all(same(one, two) for one, two in zip(self.last_difference[0].args, value.args)):
                return True
        if last.name == "lock cmpxchg" and value.name in ("e", "ne"):
            return self.is_exchange(value)
        if second == Number(0) and last.operands[0] == first and value.name in ("e", "ne"):
            return last.name in ("add", "sub", "and", "or", "xor")
        return False

    def is_exchange(self, value: Value) -> bool:
        """Whether the comparison asks whether this exchange came through."""
        old = next((it for it in value.args if it.op == "cmpxchg"), None)
        if old is None or not any(same(it, old.args[1]) for it in value.args if it is not old):
            return False
        return self.last_exchange is old

    # Memory.

    def place(self, value: Value) -> Place:
        """The memory operand of an access."""
        found = self.resolved[value]
        index: Reg | None = None
        for leaf, factor in found.terms.items():
            index = self.added(index, leaf, factor)
        if index is None and not 0 <= found.index < found.cell.count:
            raise Refusal(f"an access lies outside of {found.cell.object.name}", self.source.address if self.source else None)
        return Place(found.cell, index, found.index)

    def added(self, index: Reg | None, leaf: Value, factor: int) -> Reg:
        """A part of an index more."""
        one = self.in_register(self.word(leaf))
        if factor != 1:
            made = self.code.new()
            if factor == -1:
                self.emit("mov", made, Number(0))
                self.emit("sub", made, one)
            else:
                self.multiplied(made, one, factor)
            one = made
        if index is None:
            return one
        total = self.code.new()
        self.emit("mov", total, index)
        self.emit("add", total, one)
        return total

    def lower_load(self, value: Value) -> None:
        self.emit("mov", self.register(value), self.place(value))

    def lower_store(self, value: Value) -> None:
        place = self.place(value)
        self.emit("mov", place, self.small(self.word(value.args[1])))

    def lower_xchg(self, value: Value) -> None:
        place, made = self.place(value), self.register(value)
        self.emit("mov", made, self.word(value.args[1]))
        self.emit("xchg", place, made)

    def lower_xadd(self, value: Value) -> None:
        place, made = self.place(value), self.register(value)
        self.emit("mov", made, self.word(value.args[1]))
        self.emit("lock xadd", place, made)

    def lower_cmpxchg(self, value: Value) -> None:
        place, accumulator = self.place(value), self.code.new("rax")
        new = self.in_register(self.word(value.args[2]))
        self.emit("mov", accumulator, self.word(value.args[1]))
        self.emit("lock cmpxchg", place, new, fixed=[accumulator])
        self.emit("mov", self.register(value), accumulator)
        self.last_exchange = value

    def lower_locked(self, value: Value) -> None:
        """A loop of a load and a compare and exchange."""
        place, accumulator = self.place(value), self.code.new("rax")
        other = self.small(self.word(value.args[1]))
        self.emit("mov", accumulator, place)
        loop, behind = CodeBlock(self.number()), CodeBlock(self.number() + 1)
        self.code.blocks |= {loop.number: loop, behind.number: behind}
        self.block.successors, self.block.source = [loop.number], self.source
        loop.successors, loop.condition, loop.source = [loop.number, behind.number], "ne", self.source
        self.block = loop
        new = self.code.new()
        self.emit("mov", new, accumulator)
        self.emit(value.name, new, other)
        self.emit("lock cmpxchg", place, new, fixed=[accumulator])
        self.block = behind
        self.emit("mov", self.register(value), accumulator)
        self.procedure.note("changed", self.source, f"a locked `{value.name}` is a load and a loop of a compare and exchange")

    def number(self) -> int:
        """A number that no block has."""
        return max([*self.code.blocks, *self.procedure.flows]) + 1

    def lower_shift(self, value: Value) -> None:
        raise Refusal(f"`{value.name}` shifts by a number that is known only when it runs", self.source.address if self.source else None)

    def lower_sar(self, _: Value) -> None:
        raise Refusal("a shift to the right with a sign has no form in a text", self.source.address if self.source else None)

    def lower_fence(self, _: Value) -> None:
        self.emit("mfence")

    def lower_pause(self, _: Value) -> None:
        """Nothing: it only waits."""


def cells_of(lowerings: list[Lowering]) -> dict[Cell, int]:
    """All cells that are accessed, with the greatest size of an access."""
    sizes: dict[Cell, int] = {}
    for lowering in lowerings:
        for value, found in lowering.resolved.items():
            if value in lowering.wanted:
                sizes[found.cell] = max(sizes.get(found.cell, 0), found.size)
    return sizes
