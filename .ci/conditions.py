"""Registers in the order of certificates, and the conditions of jumps and assertions by the flags of a call."""

REGISTERS = "rax rbx rcx rdx rsi rdi rbp r8 r9 r10 r11 r12 r13 r14 r15".split()
ZF, CF, SF, OF = 1, 2, 4, 8


def holds(condition, flags):
    """Whether a condition, as `ne` of `jne`, holds of flags; `mp` of `jmp` always does."""
    zf, cf, sf, of = (bool(flags & bit) for bit in (ZF, CF, SF, OF))
    return {
        "mp": True, "e": zf, "ne": not zf, "b": cf, "ae": not cf, "be": cf or zf, "a": not (cf or zf),
        "l": sf != of, "ge": sf == of, "le": zf or sf != of, "g": not zf and sf == of,
    }[condition]  # fmt: skip
