"""Bounds of values that follow from the operations that made them."""

from .ir import Value

MOST_STEPS = 10


def most(value: Value, steps: int = MOST_STEPS) -> int:
    """The greatest number that a value can be, read without a sign."""
    full = (1 << value.bits) - 1
    if value.is_number:
        return value.number
    if steps == 0 or not value.args:
        return full
    steps = steps - 1 if value.op != "phi" else steps // 4
    if value.op in ("zext", "trunc"):
        return min(most(value.args[0], steps), full) if value.op == "zext" or most(value.args[0], steps) <= full else full
    if value.op == "cmp":
        return 1
    if value.op in ("and", "or", "xor", "add"):
        return of_two(value, most(value.args[0], steps), most(value.args[1], steps), full)
    if value.op in ("shl", "mul"):
        made = most(value.args[0], steps) * ((1 << value.number) if value.op == "shl" else value.number)
        return made if made <= full else full
    if value.op == "shr":
        return most(value.args[0], steps) >> value.number
    if value.op in ("select", "phi"):
        return max(most(it, steps) for it in value.args[1 if value.op == "select" else 0 :])
    return full


def of_two(value: Value, one: int, two: int, full: int) -> int:
    if value.op == "and":
        return min(one, two)
    if value.op == "add":
        return one + two if one + two <= full else full
    return (1 << max(one.bit_length(), two.bit_length())) - 1


def is_small(value: Value) -> bool:
    """Whether a value is the same number with and without a sign."""
    return most(value) < 1 << (value.bits - 1)
