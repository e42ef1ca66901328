"""Memory that one call has for itself: its stack, what `pop` writes its value to, and what a by-pointer argument points to.

Pointers to it are followed from the first instruction of a procedure on, through registers and stack slots. They have numbers of their own
regions, so that a procedure that hands one out is noticed.
"""

from dataclasses import dataclass

from .decoding import Graph, Instruction, Operand
from .objectfile import BASE
from .registers import CALLER_SAVED, PARTS, full_of

# Before a call the stack is aligned to 16, and the call pushes 8 bytes.
STACK = 0x7FFF_0000_0008
OUT = 0x7FFE_0000_0000
IN = 0x7FFD_0000_0000
LOWEST, HIGHEST = 0x7FFD_0000_0000 - 0x1000, 0x7FFF_0001_0000
MASK = 2**64 - 1

# What is known to be a pointer: registers by name, slots by address.
Known = dict[str | int, int]


def is_private(number: int) -> bool:
    """Whether a number is an address of private memory."""
    return LOWEST <= number <= HIGHEST


def is_stack(number: int) -> bool:
    """Whether a number is an address of the stack."""
    return STACK - 0x8000_0000 <= number <= HIGHEST


@dataclass
class Private:
    """What is known at the start of each block."""

    before: dict[int, Known]

    @staticmethod
    def address(known: Known, operand: Operand) -> int | None:
        """The private address of a memory operand."""
        if not operand.is_memory or operand.index or operand.base not in known:
            return None
        place = (known[operand.base] + operand.value) & MASK
        return place if is_private(place) else None


def step(known: Known, found: Instruction) -> None:
    """What is known behind an instruction."""
    if found.waits_in:
        for name in CALLER_SAVED:
            known.pop(name, None)
        return
    result = results(known, found)
    forget(known, found)
    known.update(result)


def results(known: Known, found: Instruction) -> Known:
    """The pointers that an instruction writes."""
    name, operands = found.name, found.operands
    stack = known.get("rsp", STACK)
    made: Known = {}
    if name == "push":
        made = pointed(known, operands[0], stack - 8)
        made["rsp"] = stack - 8
        return made
    if name == "pop":
        made["rsp"] = stack + 8
        if stack in known:
            made[operands[0].register] = known[stack]
        return made
    if name == "call":
        return {"rsp": stack - 8} if found.operands[0].is_number else {"rsp": stack}
    if name == "ret":
        return {"rsp": stack + 8}
    if name == "leave":
        frame = known.get("rbp", STACK)
        made["rsp"] = frame + 8
        if frame in known:
            made["rbp"] = known[frame]
        return made
    if len(operands) == 2 and name in ("mov", "lea", "add", "sub", "and"):
        return computed(known, name, operands[0], operands[1])
    return {}


def pointed(known: Known, source: Operand, slot: int) -> Known:
    """A slot that a register is stored to."""
    return {slot: known[source.register]} if source.is_register and source.register in known else {}


def computed(known: Known, name: str, target: Operand, source: Operand) -> Known:
    """The pointer that `mov`, `lea` or arithmetic leaves in its target."""
    slot = Private.address(known, target)
    if name == "mov" and slot is not None:
        return pointed(known, source, slot)
    if not target.is_register or PARTS.get(target.register, ("", 0, False))[1] != 64:
        return {}
    number: int | None = None
    if name == "mov" and source.is_register:
        number = known.get(source.register)
    elif name == "mov" and source.is_number and source.value >= BASE:
        number = source.value
    elif name == "mov" and source.is_memory:
        place = Private.address(known, source)
        number = None if place is None or source.size != 8 else known.get(place)
    elif name == "lea":
        number = Private.address(known, source)
    elif source.is_number and target.register in known:
        old = known[target.register]
        number = {"add": old + source.value, "sub": old - source.value, "and": old & source.value}.get(name)
    return {} if number is None else {target.register: number & MASK}


def forget(known: Known, found: Instruction) -> None:
    """What an instruction writes is not known any more."""
    if found.name == "call" and not found.operands[0].is_number:
        for name in CALLER_SAVED:
            known.pop(name, None)
    _, written = found.decoded.regs_access()  # type: ignore[attr-defined]
    for number in written:
        known.pop(full_of(found.decoded.reg_name(number)), None)  # type: ignore[attr-defined]
    if found.operands and found.operands[0].is_memory and found.name not in ("cmp", "test"):
        place = Private.address(known, found.operands[0])
        if place is not None:
            for slot in [it for it in known if isinstance(it, int) and place - 8 < it < place + found.operands[0].size]:
                del known[slot]


def private_of(graph: Graph, entry: Known) -> Private:
    """Follows private pointers to the least that holds on all ways."""
    before: dict[int, Known] = {0: dict(entry)}
    waiting = [0]
    while waiting:
        number = waiting.pop()
        known = dict(before[number])
        for found in graph.blocks[number].instructions:
            step(known, found)
        for successor in graph.blocks[number].successors:
            old = before.get(successor)
            new = dict(known) if old is None else {it: old[it] for it in old if known.get(it) == old[it]}
            if new != old:
                before[successor] = new
                waiting.append(successor)
    return Private(before)
