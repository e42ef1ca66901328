"""Conditions of jumps, `setcc` and `cmovcc`: what the flags of an earlier instruction mean, as a comparison of values."""

from .ir import OPPOSITE, Value, constant
from .refusing import Refusal

# Other names of the same conditions.
SAME = {
    "z": "e",
    "nz": "ne",
    "c": "b",
    "nc": "ae",
    "nae": "b",
    "nb": "ae",
    "na": "be",
    "nbe": "a",
    "nge": "l",
    "nl": "ge",
    "ng": "le",
    "nle": "g",
}
SIGNED = ("l", "ge", "le", "g")


def cmp_value(condition: str, one: Value, two: Value) -> Value:
    """A comparison as a value of one bit."""
    return Value("cmp", [one, two], 1, name=condition)


def condition_of(condition: str, flags: Value) -> Value:
    """The comparison that a condition means where these flags were written."""
    condition = SAME.get(condition, condition)
    if flags.op != "flags":
        raise Refusal("the flags that are read here come from different instructions on different ways")
    table = {
        "compare": of_compare,
        "result": of_result,
        "add": of_add,
        "count": of_count,
        "negated": of_negated,
        "shift": of_shift,
        "bit": of_bit,
    }
    found = table[flags.name](condition, flags.args)
    if found is None:
        raise Refusal(f"the condition `{condition}` is read of flags that do not tell it")
    return found


def of_compare(condition: str, args: list[Value]) -> Value | None:
    """Flags of `cmp` and `sub`."""
    one, two = args[0], args[1]
    if condition in ("s", "ns"):
        result = Value("sub", [one, two], one.bits)
        return of_result(condition, [result])
    return cmp_value(condition, one, two) if condition in OPPOSITE else None


def of_result(condition: str, args: list[Value]) -> Value | None:
    """Flags of `and`, `or`, `xor` and `test`: carry and overflow are 0."""
    zero = constant(0, args[0].bits)
    name = {"s": "l", "ns": "ge", "a": "ne", "be": "e"}.get(condition, condition)
    if condition in ("b", "ae"):
        return constant(int(condition == "ae"), 1)
    return cmp_value(name, args[0], zero) if name in OPPOSITE else None


def of_add(condition: str, args: list[Value]) -> Value | None:
    """Flags of `add`: its operands, then its result."""
    one, two, result = args
    if condition in ("e", "ne", "s", "ns"):
        return of_result(condition, [result])
    if condition in ("b", "ae"):
        return cmp_value(condition, result, one)
    if condition in SIGNED and two.is_number and two.number not in (0, 1 << (two.bits - 1)):
        return cmp_value(condition, one, constant(-two.number, two.bits))
    return None


def of_count(condition: str, args: list[Value]) -> Value | None:
    """Flags of `inc` and `dec`: the operand, the result, one more or less, and the flags before."""
    one, result, amount, before = args
    if condition in ("b", "ae"):
        return condition_of(condition, before)
    if condition in ("e", "ne", "s", "ns"):
        return of_result(condition, [result])
    return cmp_value(condition, one, constant(-amount.number, one.bits)) if condition in SIGNED else None


def of_negated(condition: str, args: list[Value]) -> Value | None:
    """Flags of `neg`: the operand and the result."""
    zero = constant(0, args[0].bits)
    if condition in ("s", "ns"):
        return of_result(condition, [args[1]])
    return cmp_value(condition, zero, args[0]) if condition in OPPOSITE else None


def of_shift(condition: str, args: list[Value]) -> Value | None:
    """Flags of a shift: the result, and the last bit that left, where it is known."""
    result = args[0]
    if condition in ("b", "ae") and len(args) > 1:
        return cmp_value("ne" if condition == "b" else "e", args[1], constant(0, args[1].bits))
    return of_result(condition, [result]) if condition in ("e", "ne", "s", "ns") else None


def of_bit(condition: str, args: list[Value]) -> Value | None:
    """Flags of `bt`: the carry is the bit."""
    if condition not in ("b", "ae"):
        return None
    return cmp_value("ne" if condition == "b" else "e", args[0], constant(0, args[0].bits))
