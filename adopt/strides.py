"""Values that go up and down in steps of a power of two, as pointers into arrays and scaled indexes do, as counts of such steps.

A phi or a choice whose operands are all `base + 2^s * count` becomes `base + 2^s * phi of counts`. That is exact modulo 2^64.
"""

from .ir import Flow, Procedure, Value, constant, signed
from .memory import sum_of
from .objectfile import ObjectFile

LEAST_SHIFT, MOST_SHIFT = 2, 12


class Strides:
    """Rewrites the phis and choices of a procedure."""

    def __init__(self, procedure: Procedure, placed: ObjectFile) -> None:
        self.procedure, self.placed = procedure, placed

    def run(self) -> bool:
        """True where something was rewritten."""
        for flow in self.procedure.flows.values():
            for value in flow.phis + [it for it in flow.values if it.op == "select"]:
                if value.bits == 64 and self.rewrite(flow, value):
                    return True
        return False

    def rewrite(self, flow: Flow, value: Value) -> bool:
        """Rewrites one phi or choice, where all of its operands are whole numbers of steps."""
        arms = value.args[1:] if value.op == "select" else value.args
        base = self.base_of(arms)
        shift = min((self.shift_of(it, value, base) for it in arms), default=0)
        if shift < LEAST_SHIFT:
            return False
        made = Value(value.op, [], 64, name=value.name)
        made.block, made.source = value.block, value.source
        if value.op == "select":
            at = flow.values.index(value)
            parts: list[Value] = []
            made.args = [value.args[0], *(self.counted(it, shift, base, value, made, parts) for it in arms)]
            flow.values[at:at] = [*parts, made]
            at += len(parts) + 1
        else:
            for before, arm in zip(flow.predecessors, value.args):
                made.args.append(self.counted(arm, shift, base, value, made, self.procedure.flows[before].values))
            flow.phis.append(made)
            at = 0
        self.replace(flow, value, made, shift, base, at)
        return True

    def replace(self, flow: Flow, value: Value, made: Value, shift: int, base: int, at: int) -> None:
        """Puts base and counted steps in the place of a value."""
        scaled = Value("shl", [made], 64, shift)
        total = Value("add", [scaled, constant(base, 64)], 64)
        for part in (scaled, total):
            part.block, part.source = flow.number, value.source
        flow.values[at:at] = [scaled, total]
        self.procedure.replace(lambda it: total if it is value else it)
        flow.phis = [it for it in flow.phis if it is not value]
        flow.values = [it for it in flow.values if it is not value]

    def base_of(self, arms: list[Value]) -> int:
        """The address of the object that the operands point into, or 0."""
        for arm in arms:
            number = sum_of(arm)[0] % 2**64
            found = self.placed.object_at(number) if self.placed.is_address(number) else None
            if found is not None:
                return found.address
        return 0

    def shift_of(self, arm: Value, value: Value, base: int) -> int:
        """The greatest power of two whose multiple an operand is, behind the base."""
        number, terms = sum_of(arm)
        if value in terms:
            if terms[value] != 1:
                return 0
        elif arm.is_number and number == 0 and base:
            return 0
        else:
            number -= base
        if not terms and number == 0:
            return MOST_SHIFT
        factors = [count for it, count in terms.items() if it is not value]
        return min([trailing(it) for it in [*factors, *([number] if number % 2**64 else [])]], default=MOST_SHIFT)

    def counted(self, arm: Value, shift: int, base: int, value: Value, made: Value, into: list[Value]) -> Value:
        """An operand as a count of steps; what computes it goes into a list."""
        number, terms = sum_of(arm)
        if value not in terms:
            number -= base
        total: Value | None = None
        for leaf, count in terms.items():
            part = made if leaf is value else self.scaled(leaf, signed(count % 2**64, 64) >> shift, into)
            total = part if total is None else self.placed_in(Value("add", [total, part], 64), into)
        steps = signed(number % 2**64, 64) >> shift
        if total is None:
            return constant(steps, 64)
        return self.placed_in(Value("add", [total, constant(steps, 64)], 64), into) if steps else total

    def scaled(self, leaf: Value, factor: int, into: list[Value]) -> Value:
        wide = leaf if leaf.bits == 64 else self.placed_in(Value("zext", [leaf], 64), into)
        if factor == 1:
            return wide
        if factor == -1:
            return self.placed_in(Value("neg", [wide], 64), into)
        return self.placed_in(Value("mul", [wide], 64, factor % 2**64), into)

    @staticmethod
    def placed_in(value: Value, into: list[Value]) -> Value:
        first = next((it for it in reversed(into) if it.source is not None), None)
        value.source = value.args[0].source or (first.source if first else None)
        value.block = into[-1].block if into else value.args[0].block
        into.append(value)
        return value


def trailing(number: int) -> int:
    """How many zero bits a number ends with."""
    number %= 2**64
    return (number & -number).bit_length() - 1 if number else MOST_SHIFT


Terms = list[tuple[Value, int]]


def steps_of(one: Value, two: Value) -> tuple[int, Terms, Terms] | None:
    """Two values to be compared, in steps: a number, terms of the first, and terms of the second. None where they are no multiples."""
    if one.bits != 64 or not any(it.op in ("shl", "mul", "add", "sub") for it in (one, two)):
        return None
    first, second = sum_of(one), sum_of(two)
    terms = {it: signed((first[1].get(it, 0) - second[1].get(it, 0)) % 2**64, 64) for it in [*first[1], *second[1]]}
    terms = {it: count for it, count in terms.items() if count}
    number = signed((second[0] - first[0]) % 2**64, 64)
    shift = min((trailing(it) for it in [*terms.values(), *([number] if number else [])]), default=0)
    if shift < LEAST_SHIFT or not any(count > 0 for count in terms.values()):
        return None
    left = [(it, count >> shift) for it, count in terms.items() if count > 0]
    right = [(it, -count >> shift) for it, count in terms.items() if count < 0]
    return number >> shift, left, right
