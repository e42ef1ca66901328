"""Chooses registers: liveness, interference, copies that become one register, and colours.

After Chaitin, "Register Allocation and Spilling via Graph Coloring" (1982). There is nothing to spill to, so a procedure that needs more
registers than the language has is refused.
"""

from .code import Code, CodeBlock, Line, Place, Reg
from .refusing import Refusal
from .registers import TEXT

Colours = dict[Reg, str]


def live_before(block: CodeBlock, after: set[Reg]) -> set[Reg]:
    """The registers that are live before a block."""
    live = set(after)
    for line in reversed(block.lines):
        live = before_line(line, live)
    return live


def before_line(line: Line, live: set[Reg]) -> set[Reg]:
    return (live - set(line.writes())) | set(line.reads())


def live_after(code: Code) -> dict[int, set[Reg]]:
    """The registers that are live behind each block."""
    before: dict[int, set[Reg]] = {it: set() for it in code.blocks}
    after: dict[int, set[Reg]] = {it: set() for it in code.blocks}
    changed = True
    while changed:
        changed = False
        for number in sorted(code.blocks, reverse=True):
            block = code.blocks[number]
            after[number] = set().union(*(before[it] for it in block.successors)) if block.successors else set()
            made = live_before(block, after[number])
            if made != before[number]:
                before[number], changed = made, True
    return after


def drop_dead(code: Code) -> None:
    """Takes away moves to registers that nothing reads."""
    changed = True
    while changed:
        changed = False
        for number, live in live_after(code).items():
            kept: list[Line] = []
            for line in reversed(code.blocks[number].lines):
                is_dead = line.name == "mov" and isinstance(line.operands[0], Reg) and line.operands[0] not in live
                if is_dead and not isinstance(line.operands[1], Place):
                    changed = True
                    continue
                kept.append(line)
                live = before_line(line, live)
            code.blocks[number].lines = kept[::-1]


class Allocator:
    """Colours the registers of a procedure."""

    def __init__(self, code: Code) -> None:
        self.code = code
        self.conflicts: dict[Reg, set[Reg]] = {Reg(it): set() for it in range(code.count)}
        self.parents: dict[Reg, Reg] = {}
        self.colours: Colours = dict(code.fixed)
        self.copies: list[tuple[Reg, Reg]] = []

    def find(self, register: Reg) -> Reg:
        while register in self.parents:
            register = self.parents[register]
        return register

    def run(self) -> Colours:
        self.find_conflicts()
        for one, two in self.copies:
            self.join(one, two)
        self.colour()
        return {Reg(it): self.colours[self.find(Reg(it))] for it in range(self.code.count) if self.find(Reg(it)) in self.colours}

    def find_conflicts(self) -> None:
        for number, after in live_after(self.code).items():
            live = set(after)
            for line in reversed(self.code.blocks[number].lines):
                written = set(line.writes())
                if line.is_copy:
                    one, two = line.operands
                    assert isinstance(one, Reg) and isinstance(two, Reg)
                    self.copies.append((one, two))
                for register in written:
                    for other in live | written:
                        source = line.operands[1] if line.is_copy else None
                        if other not in (register, source):
                            self.conflicts[register].add(other)
                            self.conflicts[other].add(register)
                live = before_line(line, live)

    def join(self, one: Reg, two: Reg) -> None:
        """Makes one register of two that are copied, where they are never wanted at once."""
        one, two = self.find(one), self.find(two)
        if one == two or two in self.conflicts[one]:
            return
        first, second = self.colours.get(one), self.colours.get(two)
        if first and second and first != second:
            return
        colour = first or second
        others = self.conflicts[one] | self.conflicts[two]
        if colour and any(self.colours.get(it) == colour for it in others):
            return
        if not colour and len({self.colours.get(it, it) for it in others}) >= len(TEXT):
            return
        self.parents[two] = one
        self.conflicts[one] = others
        for other in others:
            self.conflicts[other].discard(two)
            self.conflicts[other].add(one)
        if colour:
            self.colours[one] = colour

    def colour(self) -> None:
        left = [Reg(it) for it in range(self.code.count) if Reg(it) not in self.parents and Reg(it) not in self.colours]
        left = [it for it in left if self.conflicts[it] or self.is_used(it)]
        stack: list[Reg] = []
        rest = set(left)
        while rest:
            chosen = min(rest, key=lambda it: (sum(o in rest or o in self.colours for o in self.conflicts[it]), it.number))
            stack.append(chosen)
            rest.remove(chosen)
        for register in reversed(stack):
            taken = {self.colours.get(it) for it in self.conflicts[register]}
            free = next((it for it in PREFERRED if it not in taken), None)
            if free is None:
                raise Refusal(f"{self.code.name} needs more than {len(TEXT)} registers at once")
            self.colours[register] = free

    def is_used(self, register: Reg) -> bool:
        return any(
            register == self.find(it)
            for block in self.code.blocks.values()
            for line in block.lines
            for it in [*line.reads(), *line.writes()]
        )


PREFERRED = "rcx rsi rdi rbx rbp r8 r9 r10 r11 r12 r13 r14 r15 rdx rax".split()


def allocate(code: Code) -> Colours:
    """The register of the language for each register of the procedure; copies within one register go."""
    drop_dead(code)
    colours = Allocator(code).run()
    for block in code.blocks.values():
        block.lines = [it for it in block.lines if not (it.is_copy and same_register(it, colours))]
    return colours


def same_register(line: Line, colours: Colours) -> bool:
    one, two = line.operands
    assert isinstance(one, Reg) and isinstance(two, Reg)
    return colours[one] == colours[two]
