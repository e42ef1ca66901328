"""Algebra on values. Each rule is exact for all words; what is lost by wider registers is no matter of this module."""

from typing import Callable

from .ir import EFFECTS, OPPOSITE, SWAPPED, Flow, Procedure, Value, computed, constant
from .ranges import most
from .strides import steps_of

FOLDED = {"zext", "sext", "trunc", "xor", "and", "or", "add", "sub", "neg", "not"}


class Simplifier:
    """Applies rules until none changes anything."""

    def __init__(self, procedure: Procedure) -> None:
        self.procedure = procedure
        self.fresh: list[Value] = []
        self.at: Value | None = None
        self.known: dict[int, list[tuple[Value, bool]]] = {}
        self.changed = False

    def run(self) -> None:
        for _ in range(40):
            self.changed = False
            self.phis()
            self.known = dominating(self.procedure)
            for flow in self.procedure.flows.values():
                self.block(flow)
            drop_unused(self.procedure)
            if not self.changed:
                return

    def phis(self) -> None:
        """A phi whose operands are all one value is that value."""
        for flow in self.procedure.flows.values():
            for phi in list(flow.phis):
                others: dict[object, Value] = {key_of(it): it for it in phi.args if it is not phi}
                if len(others) == 1 and phi in flow.phis:
                    self.put(flow, phi, next(iter(others.values())))

    def put(self, flow: Flow, old: Value, new: Value) -> None:
        """One value in the place of another."""
        flow.phis = [it for it in flow.phis if it is not old]
        flow.values = [it for it in flow.values if it is not old]
        self.procedure.replace(lambda it: new if it is old else it)
        self.changed = True

    def block(self, flow: Flow) -> None:
        made: list[Value] = []
        for value in flow.values:
            self.fresh, self.at = [], value
            new = self.changed_value(value, flow)
            made += self.fresh
            if new is None:
                made.append(value)
                continue
            self.put(flow, value, new)
        flow.values = made

    def new(self, op: str, args: list[Value], bits: int, number: int = 0, name: str = "") -> Value:
        """A new value in front of the one that is looked at."""
        if args and all(it.is_number for it in args):
            folded = computed(op, [it.number for it in args], bits, args[0].bits, number, name)
            if folded is not None:
                return constant(folded, bits)
        value = Value(op, args, bits, number, name)
        if self.at is not None:
            value.source, value.block = self.at.source, self.at.block
        self.fresh.append(value)
        return value

    def changed_value(self, value: Value, flow: Flow) -> Value | None:
        """What stands for a value, where a rule applies."""
        if value.op in EFFECTS or value.op == "argument":
            return None
        if value.args and all(it.is_number for it in value.args):
            number = computed(value.op, [it.number for it in value.args], value.bits, value.args[0].bits, value.number, value.name)
            return None if number is None else constant(number, value.bits)
        if value.op == "cmp":
            return self.of_cmp(value, flow)
        rule = RULES.get(value.op)
        found = rule(self, value) if rule is not None else None
        return found if found is not None else self.into_select(value)

    def into_select(self, value: Value) -> Value | None:
        """An operation of a choice between two numbers, and a number, is a choice between two numbers."""
        if value.op not in FOLDED or sum(not it.is_number for it in value.args) != 1:
            return None
        choice = next(it for it in value.args if not it.is_number)
        if choice.op != "select" or not (choice.args[1].is_number and choice.args[2].is_number):
            return None
        arms = [
            self.new(value.op, [arm if it is choice else it for it in value.args], value.bits, value.number, value.name)
            for arm in choice.args[1:]
        ]
        return self.new("select", [choice.args[0], *arms], value.bits)

    def of_cmp(self, value: Value, flow: Flow) -> Value | None:
        one, two = value.args
        for other, holds in self.known.get(flow.number, []):
            answer = implied(value, other, holds)
            if answer is not None:
                return constant(int(answer), 1)
        if one.is_number:
            return self.new("cmp", [two, one], 1, name=SWAPPED[value.name])
        bounded = by_range(value)
        if bounded is not None:
            return constant(int(bounded), 1)
        if value.name in ("e", "ne"):
            found = self.of_multiples(value)
            if found is not None:
                return found
        if not two.is_number or value.name not in ("e", "ne"):
            return None
        if one.op == "select" and one.args[1].is_number and one.args[2].is_number:
            holds_of = [(it.number == two.number) == (value.name == "e") for it in one.args[1:]]
            return self.of_choice(one.args[0], *holds_of)
        if two.number == 0 and one.op in ("sub", "xor"):
            return self.new("cmp", list(one.args), 1, name=value.name)
        if one.op in ("zext", "sext") and one.args[0].bits < one.bits and two.number < 2 ** (one.args[0].bits - 1):
            inner = one.args[0]
            return self.new("cmp", [inner, constant(two.number, inner.bits)], 1, name=value.name)
        if one.op == "cmp" and two.number in (0, 1):
            return self.of_choice(one, (value.name == "e") == bool(two.number), (value.name == "e") != bool(two.number))
        return None

    def of_multiples(self, value: Value) -> Value | None:
        """Whether two numbers of steps of the same size are equal: the steps are compared. Neither is near 2^64 in memory that exists."""
        parts = steps_of(*value.args)
        if parts is None:
            return None
        sides = [self.total(terms) for terms in parts[1:]]
        if sides[0].is_number:
            return None
        sides[1] = self.new("add", [sides[1], constant(parts[0], 64)], 64) if parts[0] else sides[1]
        return self.new("cmp", sides, 1, name=value.name)

    def total(self, terms: list[tuple[Value, int]]) -> Value:
        """A sum of values with factors."""
        total: Value | None = None
        for leaf, count in terms:
            wide = leaf if leaf.bits == 64 else self.new("zext", [leaf], 64)
            part = wide if count == 1 else self.new("mul", [wide], 64, count % 2**64)
            total = part if total is None else self.new("add", [total, part], 64)
        return constant(0, 64) if total is None else total

    def of_choice(self, condition: Value, first: bool, second: bool) -> Value:
        """A condition by another one: whether it holds where that holds, and where not."""
        if first == second:
            return constant(int(first), 1)
        return condition if first else self.new("cmp", list(condition.args), 1, name=OPPOSITE[condition.name])


def key_of(value: Value) -> object:
    """Equal for equal numbers of as many bits, and else for the same value alone."""
    return ("number", value.bits, value.number) if value.is_number else id(value)


def same(one: Value, two: Value) -> bool:
    return key_of(one) == key_of(two)


def implied(value: Value, other: Value, holds: bool) -> bool | None:
    """Whether a comparison is known to hold, from another of the same values."""
    if not (same(value.args[0], other.args[0]) and same(value.args[1], other.args[1])):
        return None
    if value.name == other.name:
        return holds
    return not holds if value.name == OPPOSITE[other.name] else None


def by_range(value: Value) -> bool | None:
    """Whether a comparison with a number is always the same, because of how the value was made."""
    one, two = value.args
    if not two.is_number or value.name in ("l", "ge", "le", "g"):
        return None
    greatest = most(one)
    if greatest < two.number:
        return value.name in ("ne", "b", "be")
    if greatest == two.number and value.name in ("a", "be"):
        return value.name == "be"
    return None


def dominating(procedure: Procedure) -> dict[int, list[tuple[Value, bool]]]:
    """Of each block the conditions of branches that led to it by edges that are its only ones."""
    found: dict[int, list[tuple[Value, bool]]] = {}
    for number in procedure.order():
        flow = procedure.flows[number]
        found[number] = []
        if len(flow.predecessors) == 1 and flow.predecessors[0] in found:
            before = procedure.flows[flow.predecessors[0]]
            found[number] = list(found[before.number])
            if before.condition is not None and before.condition.op == "cmp" and len(set(before.successors)) == 2:
                found[number].append((before.condition, before.successors[0] == number))
    return found


def drop_unused(procedure: Procedure) -> None:
    """Takes away values that nothing reads and that do nothing."""
    wanted: set[Value] = set()
    waiting: list[Value] = []
    for flow in procedure.flows.values():
        waiting += list(flow.roots())
        waiting += [it for it in flow.values if it.op in EFFECTS]
    while waiting:
        value = waiting.pop()
        if value not in wanted:
            wanted.add(value)
            waiting += value.args
    for flow in procedure.flows.values():
        flow.phis = [it for it in flow.phis if it in wanted]
        flow.values = [it for it in flow.values if it in wanted]


# Rules by operation.


def of_trunc(simplifier: Simplifier, value: Value) -> Value | None:
    inner = value.args[0]
    if inner.bits == value.bits:
        return inner
    if inner.op == "trunc":
        return simplifier.new("trunc", inner.args, value.bits)
    if inner.op in ("zext", "sext"):
        narrow = inner.args[0]
        if narrow.bits == value.bits:
            return narrow
        return simplifier.new("trunc" if narrow.bits > value.bits else inner.op, [narrow], value.bits)
    if inner.op == "insert" and inner.number >= value.bits:
        return simplifier.new("trunc", [inner.args[1]], value.bits)
    if inner.op in ("and", "or", "xor", "add", "sub") and inner.args[1].is_number:
        narrow = simplifier.new("trunc", [inner.args[0]], value.bits)
        return simplifier.new(inner.op, [narrow, constant(inner.args[1].number, value.bits)], value.bits)
    if inner.op in ("shl", "mul", "neg", "not") and not (inner.op == "shl" and inner.number >= value.bits):
        narrow = simplifier.new("trunc", [inner.args[0]], value.bits)
        return simplifier.new(inner.op, [narrow], value.bits, inner.number % 2**value.bits)
    return None


def of_zext(simplifier: Simplifier, value: Value) -> Value | None:
    inner = value.args[0]
    if inner.bits == value.bits:
        return inner
    return simplifier.new("zext", inner.args, value.bits) if inner.op == "zext" else None


def of_add(simplifier: Simplifier, value: Value) -> Value | None:
    one, two = value.args
    if one is two:
        return simplifier.new("shl", [one], value.bits, 1)
    if one.is_number:
        return simplifier.new("add", [two, one], value.bits)
    if two.is_number and two.number == 0:
        return one
    if two.is_number and one.op == "add" and one.args[1].is_number:
        total = constant(two.number + one.args[1].number, value.bits)
        return simplifier.new("add", [one.args[0], total], value.bits)
    return None


def of_sub(simplifier: Simplifier, value: Value) -> Value | None:
    one, two = value.args
    if two.is_number and two.number == 0:
        return one
    if two.is_number and one.op == "add" and one.args[1].is_number:
        return simplifier.new("add", [one.args[0], constant(one.args[1].number - two.number, value.bits)], value.bits)
    return None


def of_and(simplifier: Simplifier, value: Value) -> Value | None:
    one, two = value.args
    full = 2**value.bits - 1
    if one.is_number:
        return simplifier.new("and", [two, one], value.bits)
    if not two.is_number:
        return one if one is two else None
    if two.number == full:
        return one
    if one.op == "and" and one.args[1].is_number:
        return simplifier.new("and", [one.args[0], constant(two.number & one.args[1].number, value.bits)], value.bits)
    if one.op == "shl":
        inner = simplifier.new("and", [one.args[0], constant(two.number >> one.number, value.bits)], value.bits)
        return simplifier.new("shl", [inner], value.bits, one.number)
    if one.op == "zext" and two.number < 2 ** one.args[0].bits:
        narrow = one.args[0]
        inner = simplifier.new("and", [narrow, constant(two.number, narrow.bits)], narrow.bits)
        return simplifier.new("zext", [inner], value.bits)
    return None


def of_or(simplifier: Simplifier, value: Value) -> Value | None:
    one, two = value.args
    if one.is_number:
        return simplifier.new(value.op, [two, one], value.bits)
    return one if two.is_number and two.number == 0 else None


def of_mul(simplifier: Simplifier, value: Value) -> Value | None:
    """A product by 0, 1, -1 or a power of two."""
    factor = value.number
    if factor == 2**value.bits - 1:
        return simplifier.new("neg", list(value.args), value.bits)
    if factor & (factor - 1):
        return None
    if factor <= 1:
        return value.args[0] if factor else constant(0, value.bits)
    return simplifier.new("shl", list(value.args), value.bits, factor.bit_length() - 1)


def of_shl(simplifier: Simplifier, value: Value) -> Value | None:
    inner, by = value.args[0], value.number
    if by == 0:
        return inner
    if inner.op == "shl":
        return (
            simplifier.new("shl", inner.args, value.bits, inner.number + by) if inner.number + by < value.bits else constant(0, value.bits)
        )
    if inner.op == "shr" and by >= inner.number:
        cleared = simplifier.new("and", [inner.args[0], constant(-(2**inner.number), value.bits)], value.bits)
        return simplifier.new("shl", [cleared], value.bits, by - inner.number)
    return None


def of_shr(simplifier: Simplifier, value: Value) -> Value | None:
    inner, by = value.args[0], value.number
    if inner.op == "shr":
        return (
            simplifier.new("shr", inner.args, value.bits, inner.number + by) if inner.number + by < value.bits else constant(0, value.bits)
        )
    if inner.op == "shl" and inner.number == by and by:
        return simplifier.new("and", [inner.args[0], constant(2 ** (value.bits - by) - 1, value.bits)], value.bits)
    return None


def of_select(_: Simplifier, value: Value) -> Value | None:
    condition, one, two = value.args
    if condition.is_number:
        return one if condition.number else two
    return one if same(one, two) else None


Rule = Callable[[Simplifier, Value], Value | None]
RULES: dict[str, Rule] = {
    "trunc": of_trunc, "zext": of_zext, "add": of_add, "sub": of_sub, "and": of_and, "or": of_or, "xor": of_or,
    "shl": of_shl, "mul": of_mul, "shr": of_shr, "select": of_select,
}  # fmt: skip
