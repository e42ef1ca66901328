"""Values of 32, 16 and 8 bits as words of 64, and what is lost by it.

The word of a value is the value read with a sign. Sums and differences, comparisons with and without a sign, and tests of bits are then the
same as of fewer bits, as long as no sum passes 2^31 (2^15, 2^7): a sum is not cut there. A zero extension is the same word where the value
is not negative; where that does not follow from how it was made, the upper bits are cleared.
"""

from .ir import EFFECTS, Procedure, Value
from .ranges import is_small, most

FULLY = {"cmp", "store", "xchg", "xadd", "cmpxchg", "locked", "shr", "sar"}
LOW = {"add", "sub", "mul", "shl", "neg", "not", "or", "xor", "phi", "and"}
SUMS = {"add", "sub", "mul", "shl", "neg", "trunc"}
CANONICAL_USERS = {"cmp", "store", "xchg", "xadd", "cmpxchg", "locked", "shr", "sar", "sext"}


class Widths:
    """How many low bits of each value matter, and which words have to be the value exactly."""

    def __init__(self, procedure: Procedure, index_leaves: set[Value]) -> None:
        self.procedure, self.index_leaves = procedure, index_leaves
        self.wanted: dict[Value, int] = {}
        self.exact: set[Value] = set()
        self.find_wanted()
        self.find_exact()

    def find_wanted(self) -> None:
        waiting: list[Value] = []

        def want(value: Value, bits: int) -> None:
            if bits > self.wanted.get(value, 0):
                self.wanted[value] = bits
                waiting.append(value)

        for flow in self.procedure.flows.values():
            for root in flow.roots():
                want(root, root.bits)
            for value in flow.values:
                if value.op in EFFECTS:
                    want(value, value.bits)
        for leaf in self.index_leaves:
            want(leaf, leaf.bits)
        while waiting:
            value = waiting.pop()
            for at, used in enumerate(value.args):
                if not (value.op in EFFECTS and at == 0):
                    want(used, self.wanted_of(value, at))

    def wanted_of(self, value: Value, at: int) -> int:
        """How many low bits of an operand matter."""
        bits, used = self.wanted[value], value.args[at]
        if value.op in FULLY:
            return used.bits
        if value.op == "and" and value.args[1].is_number:
            return min(bits, value.args[1].number.bit_length()) if at == 0 else bits
        if value.op in ("trunc", "zext", "sext"):
            return min(bits, used.bits)
        if value.op == "select":
            return bits if at else 1
        if value.op == "insert":
            return min(bits, value.number) if at else bits
        return min(bits, used.bits) if value.op in LOW else used.bits

    def find_exact(self) -> None:
        """Values whose word has to be the value read with a sign."""
        waiting = [it for flow in self.procedure.flows.values() for it in flow.roots()] + list(self.index_leaves)
        for value in self.procedure.values():
            if value.op in CANONICAL_USERS:
                waiting += value.args[1 if value.op in EFFECTS else 0 :]
            if value.op == "zext" and self.wanted.get(value, 0) > value.args[0].bits:
                waiting += value.args
        while waiting:
            value = waiting.pop()
            if value in self.exact:
                continue
            self.exact.add(value)
            if value.op in ("phi", "select"):
                waiting += value.args[1 if value.op == "select" else 0 :]
            elif value.op in ("or", "xor", "not", "sext") or (value.op == "and" and not is_small(value)):
                waiting += value.args
            elif value.op == "zext" or (value.op == "trunc" and value.bits < 64):
                waiting += value.args

    def is_plain_zext(self, value: Value) -> bool:
        """Whether a zero extension is the same word."""
        return self.wanted.get(value, 0) <= value.args[0].bits or is_small(value.args[0])

    def is_lossy(self, value: Value) -> bool:
        """Whether the word can differ from the value after a sum that passes the greatest number of its bits."""
        if value.bits >= 64 or value.op not in SUMS or value not in self.exact:
            return False
        if value.op in ("sub", "neg"):
            return True
        if value.op == "trunc":
            return most(value.args[0]) >= 1 << (value.bits - 1)
        return not is_small(value)
