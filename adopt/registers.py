"""Names of registers, and which part of which register of 64 bits each is."""

FULL = "rax rbx rcx rdx rsi rdi rbp rsp r8 r9 r10 r11 r12 r13 r14 r15".split()
# What a text may use.
TEXT = [it for it in FULL if it != "rsp"]
CALLER_SAVED = "rax rcx rdx rsi rdi r8 r9 r10 r11".split()


def _parts() -> dict[str, tuple[str, int, bool]]:
    """Of each name its register of 64 bits, its bits, and whether it is the second byte."""
    found: dict[str, tuple[str, int, bool]] = {it: (it, 64, False) for it in FULL}
    for name in "abcd":
        full = f"r{name}x"
        found |= {f"e{name}x": (full, 32, False), f"{name}x": (full, 16, False), f"{name}l": (full, 8, False), f"{name}h": (full, 8, True)}
    for name in ("si", "di", "bp", "sp"):
        found |= {f"e{name}": (f"r{name}", 32, False), name: (f"r{name}", 16, False), f"{name}l": (f"r{name}", 8, False)}
    for number in range(8, 16):
        full = f"r{number}"
        found |= {f"{full}d": (full, 32, False), f"{full}w": (full, 16, False), f"{full}b": (full, 8, False)}
    return found


PARTS = _parts()


def full_of(name: str) -> str:
    """The register of 64 bits that a name is a part of, or the name itself."""
    return PARTS[name][0] if name in PARTS else name
