"""Reads machine instructions into values. Registers, flags and private memory become values; shared memory stays memory."""

from dataclasses import dataclass
from typing import Callable

from . import private
from .conditions import condition_of
from .decoding import Block, Graph, Instruction, Operand, is_waiting
from .ir import Flow, Procedure, Value, computed, constant
from .objectfile import ObjectFile
from .private import IN, OUT, Known
from .refusing import Refusal
from .registers import CALLER_SAVED, PARTS

Variable = str | int
NOTHING = {
    "nop",
    "endbr64",
    "pause",
    "lfence",
    "sfence",
    "prefetcht0",
    "prefetcht1",
    "prefetcht2",
    "prefetchnta",
    "prefetchw",
    "prefetch",
    "cld",
}


@dataclass
class Signature:
    """How a procedure gets its argument and answers."""

    name: str
    takes_pointer: bool = False
    has_out: bool = False
    answer_bits: int = 8

    def entry(self) -> Known:
        """What is known of pointers when a call begins."""
        known: Known = {"rsp": private.STACK}
        if self.name == "pop" and self.has_out:
            known["rdi"] = OUT
        if self.name == "push" and self.takes_pointer:
            known["rdi"] = IN
        return known


class Lifter:
    """Makes a procedure of a graph of blocks."""

    def __init__(self, graph: Graph, signature: Signature, placed: ObjectFile) -> None:
        self.graph, self.signature, self.placed = graph, signature, placed
        self.order = graph.order()
        entry = signature.entry()
        self.known_before = private.private_of(graph, entry).before
        self.known: Known = {}
        self.flows = {it: Flow(it) for it in self.order}
        self.definitions: dict[int, dict[Variable, Value]] = {it: {} for it in self.order}
        self.incomplete: dict[int, dict[Variable, Value]] = {}
        self.filled: set[int] = set()
        self.sealed: set[int] = set()
        self.at = 0
        self.source: Instruction | None = None
        self.procedure = Procedure(signature.name, self.flows)
        self.slots: dict[int, set[int]] = {}
        self.forwarded: dict[Value, Value] = {}

    # Reading and writing variables, after Braun and others, "Simple and Efficient Construction of Static Single Assignment Form" (2013).

    def write(self, variable: Variable, value: Value) -> None:
        self.definitions[self.at][variable] = value

    def read(self, variable: Variable) -> Value:
        return self.read_in(variable, self.at)

    def read_in(self, variable: Variable, number: int) -> Value:
        if variable in self.definitions[number]:
            return self.resolved(self.definitions[number][variable])
        flow = self.flows[number]
        if number not in self.sealed:
            value = self.new_phi(flow)
            self.incomplete.setdefault(number, {})[variable] = value
        elif not flow.predecessors:
            value = self.initial(variable)
        elif len(flow.predecessors) == 1:
            value = self.read_in(variable, flow.predecessors[0])
        else:
            value = self.new_phi(flow)
            self.definitions[number][variable] = value
            value = self.fill_phi(variable, value, flow)
        self.definitions[number][variable] = value
        return value

    def new_phi(self, flow: Flow) -> Value:
        value = Value("phi", [], 64)
        value.block = flow.number
        flow.phis.append(value)
        return value

    def fill_phi(self, variable: Variable, phi: Value, flow: Flow) -> Value:
        phi.args = [self.read_in(variable, it) for it in flow.predecessors]
        phi.bits = next((it.bits for it in phi.args if it is not phi), 64)
        others = {id(it): it for it in phi.args if it is not phi}
        if len(others) != 1:
            return phi
        other = next(iter(others.values()))
        self.forwarded[phi] = other
        flow.phis.remove(phi)
        return other

    def resolved(self, value: Value) -> Value:
        while value in self.forwarded:
            value = self.forwarded[value]
        return value

    def seal(self, number: int) -> None:
        flow = self.flows[number]
        while self.incomplete.get(number):
            variable, phi = self.incomplete[number].popitem()
            made = self.fill_phi(variable, phi, flow)
            if self.definitions[number].get(variable) is phi:
                self.definitions[number][variable] = made
        self.sealed.add(number)

    def initial(self, variable: Variable) -> Value:
        """The value of a variable when the call begins."""
        known = self.signature.entry()
        if variable in known:
            return constant(known[variable], 64)
        is_push = self.signature.name == "push"
        if is_push and variable == (IN if self.signature.takes_pointer else "rdi"):
            return self.argument()
        return Value("undef", [], 64, name=variable if isinstance(variable, str) else "a piece of private memory")

    def argument(self) -> Value:
        found = next((it for it in self.flows[0].values if it.op == "argument"), None)
        if found is None:
            found = Value("argument", [], 64)
            self.flows[0].values.insert(0, found)
        return found

    # Building values.

    def make(self, op: str, args: list[Value], bits: int, number: int = 0, name: str = "") -> Value:
        """A value behind those that the block has; an operation of numbers alone is a number."""
        if args and all(it.is_number for it in args) and op not in ("load", "store", "flags"):
            made = computed(op, [it.number for it in args], bits, args[0].bits, number, name)
            if made is not None:
                return constant(made, bits)
        value = Value(op, args, bits, number, name)
        value.source, value.block = self.source, self.at
        self.flows[self.at].values.append(value)
        return value

    def part(self, value: Value, bits: int) -> Value:
        """The low bits of a value."""
        if value.bits == bits:
            return value
        if value.op in ("zext", "sext") and value.args[0].bits >= bits:
            return self.part(value.args[0], bits)
        if value.op == "insert" and value.number >= bits:
            return self.part(value.args[1], bits)
        if value.op == "trunc":
            return self.part(value.args[0], bits)
        return self.make("trunc", [value], bits)

    def widened(self, value: Value, bits: int) -> Value:
        return value if value.bits == bits else self.make("zext", [value], bits)

    def flags(self, kind: str, args: list[Value]) -> None:
        """Writes the flags."""
        value = Value("flags", args, 64, name=kind)
        value.source, value.block = self.source, self.at
        self.write("flags", value)

    def condition(self, name: str) -> Value:
        found = condition_of(name, self.read("flags"))
        if found.op == "cmp":
            for value in [*found.args, found]:
                if value.block < 0 and not value.is_number:
                    value.source, value.block = self.source, self.at
                    self.flows[self.at].values.append(value)
        return found

    # Operands.

    def register(self, name: str) -> Value:
        if name not in PARTS:
            raise Refusal(f"`{name}` is no register that a text has")
        full, bits, is_second = PARTS[name]
        if is_second:
            return self.part(self.make("shr", [self.read(full)], 64, 8), 8)
        if full in self.known:
            return self.part(constant(self.known[full], 64), bits)
        return self.part(self.read(full), bits)

    def set_register(self, name: str, value: Value) -> None:
        if name not in PARTS:
            raise Refusal(f"`{name}` is no register that a text has")
        full, bits, is_second = PARTS[name]
        if is_second:
            raise Refusal(f"`{name}` is written, the second byte of a register")
        if bits == 64:
            self.write(full, value)
        elif bits == 32:
            self.write(full, self.widened(value, 64))
        else:
            self.write(full, self.make("insert", [self.read(full), self.widened(value, 64)], 64, bits))

    def address(self, operand: Operand) -> Value:
        """The address of a memory operand."""
        if operand.segment in ("fs", "gs"):
            raise Refusal("memory of the thread itself is used")
        value = constant(operand.value, 64)
        if operand.base:
            base = self.register(operand.base)
            value = self.make("add", [base, value], 64) if operand.value else base
        if operand.index:
            index = self.register(operand.index)
            shift = {1: 0, 2: 1, 4: 2, 8: 3}[operand.scale]
            scaled = self.make("shl", [index], 64, shift) if shift else index
            value = self.make("add", [value, scaled], 64) if value.op != "const" or value.number else scaled
        return value

    def place(self, operand: Operand) -> int | None:
        """The private address of a memory operand, if it has one."""
        return private.Private.address(self.known, operand)

    def load(self, operand: Operand) -> Value:
        bits = operand.size * 8
        place = self.place(operand)
        if place is not None:
            return self.load_private(place, bits)
        if bits > 64:
            raise Refusal(f"memory of {operand.size} bytes is read at once")
        return self.make("load", [self.address(operand)], bits)

    def load_private(self, place: int, bits: int) -> Value:
        sizes = self.slots.get(place, {64})
        if min(sizes) < bits:
            raise Refusal("a piece of the stack is read that was written in parts")
        if place in self.known and bits == 64:
            return constant(self.known[place], 64)
        return self.part(self.read(place), bits)

    def store(self, operand: Operand, value: Value) -> None:
        place = self.place(operand)
        if place is not None:
            self.store_private(place, value)
        elif value.bits > 64:
            raise Refusal(f"memory of {operand.size} bytes is written at once")
        else:
            self.make("store", [self.address(operand), value], value.bits)

    def store_private(self, place: int, value: Value) -> None:
        self.slots.setdefault(place, set()).add(value.bits)
        for other in [it for it in self.slots if it != place and it < place + value.bits // 8 and place < it + max(self.slots[it]) // 8]:
            self.write(other, Value("undef", [], 64, name="a piece of the stack that was written in another size"))
        self.write(place, self.widened(value, 64))

    def value(self, operand: Operand, bits: int = 0) -> Value:
        """What an operand holds."""
        if operand.is_number:
            return constant(operand.value, bits or operand.size * 8)
        return self.load(operand) if operand.is_memory else self.register(operand.register)

    def assign(self, operand: Operand, value: Value) -> None:
        if operand.is_memory:
            self.store(operand, value)
        else:
            self.set_register(operand.register, value)

    # Blocks.

    def lift(self) -> Procedure:
        """All blocks in reverse postorder."""
        reachable = set(self.order)
        for number in self.order:
            for successor in self.graph.blocks[number].successors:
                self.flows[successor].predecessors.append(number)
        self.find_slots()
        for number in self.order:
            if all(it in self.filled for it in self.flows[number].predecessors):
                self.seal(number)
            self.at = number
            self.fill(self.graph.blocks[number])
            self.filled.add(number)
            for other in reachable - self.sealed:
                if self.flows[other].predecessors and all(it in self.filled for it in self.flows[other].predecessors):
                    self.seal(other)
        self.procedure.replace(self.resolved)
        return self.procedure

    def find_slots(self) -> None:
        """The sizes in which private memory is written."""
        for number in self.order:
            known = dict(self.known_before[number])
            for found in self.graph.blocks[number].instructions:
                target = found.operands[0] if found.operands else None
                place = None if target is None else private.Private.address(known, target)
                if target is not None and place is not None and found.name not in ("cmp", "test", "call", "push"):
                    self.slots.setdefault(place, set()).add(target.size * 8)
                private.step(known, found)

    def fill(self, block: Block) -> None:
        """One block: its instructions, and its end."""
        flow = self.flows[block.number]
        self.known = dict(self.known_before[block.number])
        flow.successors = list(block.successors)
        try:
            for found in block.instructions:
                self.source = found
                flow.source = found
                if block.end in ("stop", "unknown") and found is block.instructions[-1]:
                    break
                self.instruction(found)
                private.step(self.known, found)
            self.finish(block, flow)
        except Refusal as refusal:
            self.refuse(flow, refusal.reason)

    def refuse(self, flow: Flow, reason: str) -> None:
        """Ends a block with a reason to refuse the procedure, if control can come there."""
        for successor in flow.successors:
            others = self.flows[successor].predecessors
            others.remove(flow.number)
        flow.successors, flow.end, flow.reason, flow.condition = [], "unknown", reason, None

    def finish(self, block: Block, flow: Flow) -> None:
        flow.end = {"fall": "jump", "waits": "jump"}.get(block.end, block.end)
        flow.reason = block.reason
        if block.end == "branch":
            flow.condition = self.condition(block.condition) if not block.condition.endswith("cxz") else self.counter(block.condition)
        if block.end == "return":
            self.answer(flow)

    def counter(self, name: str) -> Value:
        count = self.register(name[:-1])
        return self.make("cmp", [count, constant(0, count.bits)], 1, name="e")

    def answer(self, flow: Flow) -> None:
        """What the procedure answers."""
        flow.answer = self.part(self.read("rax"), self.signature.answer_bits)
        if self.signature.name == "pop":
            flow.result = self.read(OUT if self.signature.has_out else "rdx")

    def instruction(self, found: Instruction) -> None:
        """One instruction."""
        name, operands = found.name, found.operands
        for address, relocation in self.placed.unsupported.items():
            if found.address <= address < found.end:
                raise Refusal(f"`{found.text}` has a relocation of type {relocation}")
        if found.waits_in or (name == "call" and not operands[0].is_number):
            self.waits(found)
            return
        if name == "pause":
            self.make("pause", [], 64)
        if name in NOTHING or name.startswith(("j", "ret", "call")) or (name == "xchg" and operands[0] == operands[1]):
            return
        if found.is_locked and operands[0].is_memory:
            self.locked(found)
            return
        for prefix in ("set", "cmov"):
            if name.startswith(prefix):
                self.conditional(prefix, name.removeprefix(prefix), found)
                return
        rule = RULES.get(name)
        if rule is None:
            raise Refusal(f"`{found.text}` has no form in a text")
        rule(self, found)

    def waits(self, found: Instruction) -> None:
        """A call of a function outside, which has to be one that only waits."""
        name = found.waits_in
        if not name:
            target = found.operands[0]
            address = self.known.get(target.register) if target.is_register else None
            name = self.placed.externals.get(address or 0, "")
            if not is_waiting(name):
                called = name or "a function that is known only when it runs"
                raise Refusal(f"`{found.text}` calls {called}, whose body the object does not have")
        self.procedure.note("dropped", found, f"the call of {name}, which only waits")
        for register in CALLER_SAVED:
            self.write(register, Value("undef", [], 64, name=f"{register} after a call"))

    def conditional(self, kind: str, name: str, found: Instruction) -> None:
        """`setcc` and `cmovcc`."""
        condition = self.condition(name)
        target = found.operands[0]
        if kind == "set":
            self.assign(target, self.make("select", [condition, constant(1, 8), constant(0, 8)], 8))
            return
        other = self.value(found.operands[1])
        self.assign(target, self.make("select", [condition, other, self.value(target)], other.bits))

    def locked(self, found: Instruction) -> None:
        """An instruction with `lock`, or `xchg` with memory."""
        target = found.operands[0]
        bits = target.size * 8
        place = self.place(target)
        if place is not None:
            self.locked_private(found, place)
            return
        if found.name not in LOCKED_RULES:
            raise Refusal(f"`{found.text}` has no form in a text")
        if bits > 64:
            raise Refusal(f"`{found.text}` is one access to {target.size} bytes")
        LOCKED_RULES[found.name](self, found, self.address(target), bits)

    def locked_private(self, found: Instruction, place: int) -> None:
        """A locked instruction on private memory is a fence, and does there what it does without the lock."""
        self.make("fence", [], 64)
        self.procedure.note("changed", found, "a locked operation on the stack is mfence")
        target = found.operands[0]
        old = self.load(target)
        if found.name == "cmpxchg":
            expected, new = self.part(self.read("rax"), old.bits), self.value(found.operands[1])
            self.flags("compare", [expected, old])
            self.store_private(place, self.make("select", [self.condition("e"), new, old], old.bits))
            self.set_register({8: "al", 16: "ax", 32: "eax", 64: "rax"}[old.bits], old)
        elif found.name == "xchg":
            self.store_private(place, self.value(found.operands[1]))
            self.assign(found.operands[1], old)
        elif found.name in RULES:
            RULES[found.name](self, found)
        else:
            raise Refusal(f"`{found.text}` has no form in a text")


Rule = Callable[[Lifter, Instruction], None]
LockedRule = Callable[[Lifter, Instruction, Value, int], None]


def move(lifter: Lifter, found: Instruction) -> None:
    target, source = found.operands
    lifter.assign(target, lifter.value(source, target.size * 8))


def extend(op: str) -> Rule:
    """`movzx` and `movsx`."""

    def rule(lifter: Lifter, found: Instruction) -> None:
        target, source = found.operands
        value, bits = lifter.value(source), target.size * 8
        lifter.assign(target, value if value.bits == bits else lifter.make(op, [value], bits))

    return rule


def effective(lifter: Lifter, found: Instruction) -> None:
    target, source = found.operands
    lifter.assign(target, lifter.part(lifter.address(source), target.size * 8))


def push(lifter: Lifter, found: Instruction) -> None:
    lifter.slots.setdefault(lifter.known["rsp"] - 8, set()).add(64)
    lifter.store_private(lifter.known["rsp"] - 8, lifter.value(found.operands[0], 64))


def pop(lifter: Lifter, found: Instruction) -> None:
    lifter.set_register(found.operands[0].register, lifter.load_private(lifter.known["rsp"], 64))


def leave(lifter: Lifter, _: Instruction) -> None:
    lifter.set_register("rbp", lifter.load_private(lifter.known["rbp"], 64))


def arithmetic(op: str, is_kept: bool = True) -> Rule:
    """Two operands, and flags."""

    def rule(lifter: Lifter, found: Instruction) -> None:
        target, source = found.operands
        bits = target.size * 8
        if target == source and op in ("xor", "sub") and target.is_register:
            zero = constant(0, bits)
            lifter.flags("result", [zero])
            lifter.assign(target, zero)
            return
        one = lifter.value(target)
        two = lifter.value(source, bits)
        compute(lifter, op, one, two, target if is_kept else None)

    return rule


def compute(lifter: Lifter, op: str, one: Value, two: Value, target: Operand | None) -> None:
    """Computes, writes the flags, and keeps the result."""
    if op == "sub" and target is None:
        lifter.flags("compare", [one, two])
        return
    made = one if op == "and" and one is two else lifter.make(op, [one, two], one.bits)
    kind = {"add": "add", "sub": "compare"}.get(op, "result")
    lifter.flags(kind, {"add": [one, two, made], "compare": [one, two]}.get(kind, [made]))
    if target is not None:
        lifter.assign(target, made)


def count(amount: int) -> Rule:
    """`inc` and `dec`."""

    def rule(lifter: Lifter, found: Instruction) -> None:
        target = found.operands[0]
        one = lifter.value(target)
        step_value = constant(amount, one.bits)
        made = lifter.make("add", [one, step_value], one.bits)
        lifter.flags("count", [one, made, step_value, lifter.read("flags")])
        lifter.assign(target, made)

    return rule


def negate(lifter: Lifter, found: Instruction) -> None:
    one = lifter.value(found.operands[0])
    made = lifter.make("neg", [one], one.bits)
    lifter.flags("negated", [one, made])
    lifter.assign(found.operands[0], made)


def complement(lifter: Lifter, found: Instruction) -> None:
    one = lifter.value(found.operands[0])
    lifter.assign(found.operands[0], lifter.make("not", [one], one.bits))


def shift(op: str) -> Rule:
    """Shifts by a constant."""

    def rule(lifter: Lifter, found: Instruction) -> None:
        target = found.operands[0]
        one = lifter.value(target)
        amount = constant(1, 8)
        if len(found.operands) > 1:
            amount = lifter.value(found.operands[1], 8)
        if not amount.is_number:
            made = lifter.make("shift", [one, amount], one.bits, name=found.text)
            lifter.flags("shift", [made])
            lifter.assign(target, made)
            return
        by = amount.number & (63 if one.bits == 64 else 31)
        made = lifter.make(op, [one], one.bits, by) if by else one
        last = [lifter.make("and", [one, constant(1 << (by - 1), one.bits)], one.bits)] if op in ("shr", "sar") and by else []
        if by:
            lifter.flags("shift", [made, *last])
        lifter.assign(target, made)

    return rule


def multiply(lifter: Lifter, found: Instruction) -> None:
    operands = found.operands
    if len(operands) == 1:
        raise Refusal(f"`{found.text}` has no form in a text")
    bits = operands[0].size * 8
    one, two = lifter.value(operands[-2], bits), lifter.value(operands[-1], bits)
    if one.is_number:
        one, two = two, one
    if not two.is_number:
        raise Refusal(f"`{found.text}` multiplies two numbers that are known only when it runs")
    lifter.flags("shift", [constant(1, bits)])
    lifter.assign(operands[0], lifter.make("mul", [one], bits, two.number))


def with_carry(op: str) -> Rule:
    """`adc` and `sbb`."""

    def rule(lifter: Lifter, found: Instruction) -> None:
        target, source = found.operands
        bits = target.size * 8
        carry = lifter.condition("b")
        one, zero = constant(1, bits), constant(0, bits)
        if target == source and op == "sub":
            lifter.assign(target, lifter.make("select", [carry, constant(-1, bits), zero], bits))
            return
        old = lifter.value(target)
        two = lifter.make("add", [lifter.value(source, bits), lifter.make("select", [carry, one, zero], bits)], bits)
        made = lifter.make(op, [old, two], bits)
        lifter.flags("shift", [made])
        lifter.assign(target, made)

    return rule


def test_bit(lifter: Lifter, found: Instruction) -> None:
    one = lifter.value(found.operands[0])
    if not found.operands[1].is_number:
        raise Refusal(f"`{found.text}` asks for a bit that is known only when it runs")
    bit = constant(1 << (found.operands[1].value & (one.bits - 1)), one.bits)
    lifter.flags("bit", [lifter.make("and", [one, bit], one.bits)])


def exchange(lifter: Lifter, found: Instruction) -> None:
    """`xchg` of two registers."""
    one, two = (lifter.value(it) for it in found.operands)
    lifter.assign(found.operands[0], two)
    lifter.assign(found.operands[1], one)


def sign_of(register: str, bits: int) -> Rule:
    """`cdqe`, `cwde`."""

    def rule(lifter: Lifter, _: Instruction) -> None:
        lifter.set_register(register, lifter.make("sext", [lifter.part(lifter.read("rax"), bits // 2)], bits))

    return rule


def fence(lifter: Lifter, _: Instruction) -> None:
    lifter.make("fence", [], 64)


def locked_exchange(lifter: Lifter, found: Instruction, address: Value, bits: int) -> None:
    target, source = found.operands
    if not target.is_memory:
        target, source = source, target
    value = lifter.value(source)
    lifter.assign(source, lifter.make("xchg", [address, value], bits))


def locked_add(lifter: Lifter, found: Instruction, address: Value, bits: int) -> None:
    """`lock xadd`, and locked arithmetic that can be written as it."""
    source = found.operands[1] if len(found.operands) > 1 else None
    amount = constant({"inc": 1, "dec": -1}.get(found.name, 0), bits) if source is None else lifter.value(source, bits)
    added = lifter.make("neg", [amount], bits) if found.name == "sub" else amount
    old = lifter.make("xadd", [address, added], bits)
    if found.name == "sub":
        lifter.flags("compare", [old, amount])
    elif source is None:
        made = lifter.make("add", [old, added], bits)
        lifter.flags("count", [old, made, added, lifter.read("flags")])
    else:
        lifter.flags("add", [old, added, lifter.make("add", [old, added], bits)])
    if found.name == "xadd" and source is not None:
        lifter.assign(source, old)


def locked_compare(lifter: Lifter, found: Instruction, address: Value, bits: int) -> None:
    expected = lifter.part(lifter.read("rax"), bits)
    new = lifter.value(found.operands[1])
    old = lifter.make("cmpxchg", [address, expected, new], bits)
    lifter.flags("compare", [expected, old])
    lifter.set_register({8: "al", 16: "ax", 32: "eax", 64: "rax"}[bits], old)


def locked_bits(lifter: Lifter, found: Instruction, address: Value, bits: int) -> None:
    """`lock and`, `lock or`, `lock xor`."""
    other = lifter.value(found.operands[1], bits)
    old = lifter.make("locked", [address, other], bits, name=found.name)
    lifter.flags("result", [lifter.make(found.name, [old, other], bits)])


RULES: dict[str, Rule] = {
    "mov": move, "movabs": move, "movzx": extend("zext"), "movsx": extend("sext"), "movsxd": extend("sext"), "lea": effective,
    "push": push, "pop": pop, "leave": leave, "add": arithmetic("add"), "sub": arithmetic("sub"), "and": arithmetic("and"),
    "or": arithmetic("or"), "xor": arithmetic("xor"), "cmp": arithmetic("sub", False), "test": arithmetic("and", False),
    "inc": count(1), "dec": count(-1), "neg": negate, "not": complement, "shl": shift("shl"), "sal": shift("shl"),
    "shr": shift("shr"), "sar": shift("sar"), "imul": multiply, "adc": with_carry("add"), "sbb": with_carry("sub"),
    "bt": test_bit, "xchg": exchange, "cdqe": sign_of("rax", 64), "cwde": sign_of("eax", 32), "mfence": fence,
}  # fmt: skip
LOCKED_RULES: dict[str, LockedRule] = {
    "xchg": locked_exchange, "xadd": locked_add, "add": locked_add, "sub": locked_add, "inc": locked_add, "dec": locked_add,
    "cmpxchg": locked_compare, "and": locked_bits, "or": locked_bits, "xor": locked_bits,
}  # fmt: skip
