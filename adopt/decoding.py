"""The instructions of a procedure as a graph of blocks. Calls of functions that the object has are inlined."""

from dataclasses import dataclass, field
from typing import Iterator

import capstone  # type: ignore[import]
from capstone import x86_const as x86

from .objectfile import ObjectFile
from .refusing import Refusal

# A place in the code: where each call that is being inlined goes on, the address, and a number that tells copies of a block apart.
Context = tuple[int, ...]
Node = tuple[Context, int]

MOST_INSTRUCTIONS = 8000
DEEPEST = 24
STOPPING = {"hlt", "ud2", "ud1", "int3"}
# Functions of other objects that only wait, and those that end the program.
WAITING = {"sched_yield", "pthread_yield", "usleep", "nanosleep", "rte_delay_us", "rte_pause", "_ZNSt6thread5yieldEv", "__sched_yield"}
ENDING = {"__assert_fail", "abort", "exit", "_exit", "__stack_chk_fail", "__assert", "__rte_panic", "rte_panic", "_Unwind_Resume"}
ENDING |= {"_ZSt9terminatev", "__cxa_throw", "__cxa_rethrow", "__cxa_bad_cast", "__clang_call_terminate"}
# What Rust's functions of this kind have in their names.
ENDING_WORDS = (
    "panic",
    "unwrap_failed",
    "expect_failed",
    "slice_index",
    "assert_failed",
    "__throw_",
    "handle_alloc_error",
    "abort_internal",
)
WAITING_WORDS = ("yield_now", "sched_yield", "spin_loop_hint")


@dataclass
class Instruction:
    """A decoded instruction in its context."""

    address: int
    size: int
    mnemonic: str
    operands: list["Operand"]
    text: str
    decoded: object
    context: Context = ()
    waits_in: str = ""

    @property
    def is_locked(self) -> bool:
        return "lock" in self.mnemonic.split() or (self.name == "xchg" and any(it.is_memory for it in self.operands))

    @property
    def name(self) -> str:
        """The mnemonic without prefixes."""
        return self.mnemonic.split()[-1]

    @property
    def end(self) -> int:
        return self.address + self.size


@dataclass(frozen=True)
class Operand:
    """A register, an immediate or memory."""

    kind: str
    size: int
    register: str = ""
    value: int = 0
    base: str = ""
    index: str = ""
    scale: int = 1
    segment: str = ""

    @property
    def is_memory(self) -> bool:
        return self.kind == "memory"

    @property
    def is_register(self) -> bool:
        return self.kind == "register"

    @property
    def is_number(self) -> bool:
        return self.kind == "number"


@dataclass
class Block:
    """Instructions one behind the other, and the blocks that may follow: where a jump goes is first, the next instruction second."""

    number: int
    instructions: list[Instruction]
    successors: list[int] = field(default_factory=list)
    end: str = "fall"
    condition: str = ""
    reason: str = ""


@dataclass
class Graph:
    """The blocks of a procedure. Block 0 is entered first; it has no instructions, and none goes back to it."""

    blocks: dict[int, Block]

    def predecessors(self) -> dict[int, list[int]]:
        """Of each block those that it may follow."""
        found: dict[int, list[int]] = {it: [] for it in self.blocks}
        for block in self.blocks.values():
            for successor in block.successors:
                found[successor].append(block.number)
        return found

    def order(self) -> list[int]:
        """Blocks in reverse postorder."""
        seen: set[int] = {0}
        done: list[int] = []
        stack: list[tuple[int, Iterator[int]]] = [(0, iter(self.blocks[0].successors))]
        while stack:
            number, rest = stack[-1]
            for successor in rest:
                if successor not in seen:
                    seen.add(successor)
                    stack.append((successor, iter(self.blocks[successor].successors)))
                    break
            else:
                done.append(number)
                stack.pop()
        return done[::-1]


class Decoder:
    """Decodes single instructions of an object."""

    def __init__(self, placed: ObjectFile) -> None:
        self.placed = placed
        self.capstone = capstone.Cs(capstone.CS_ARCH_X86, capstone.CS_MODE_64)
        self.capstone.detail = True
        self.known: dict[int, Instruction] = {}

    def at(self, address: int) -> Instruction:
        """The instruction at an address."""
        if address not in self.known:
            section = self.placed.section_at(address)
            if section is None or not section.is_code:
                raise Refusal("control leaves the code of the object", address)
            start = address - section.address
            found = next(self.capstone.disasm(bytes(section.data[start : start + 16]), address, 1), None)
            if found is None:
                raise Refusal("the bytes here are no instruction that Capstone knows", address)
            self.known[address] = self.instruction(found)
        return self.known[address]

    def instruction(self, found: "capstone.CsInsn") -> Instruction:
        operands = [self.operand(found, it) for it in found.operands]
        text = f"{found.mnemonic} {found.op_str}".strip()
        return Instruction(found.address, found.size, found.mnemonic, operands, text, found)

    def operand(self, found: "capstone.CsInsn", operand: "capstone.x86.X86Op") -> Operand:
        if operand.type == x86.X86_OP_REG:
            return Operand("register", operand.size, register=found.reg_name(operand.reg))
        if operand.type == x86.X86_OP_IMM:
            return Operand("number", operand.size, value=operand.imm)
        memory = operand.mem
        base, index = (found.reg_name(it) if it else "" for it in (memory.base, memory.index))
        segment = found.reg_name(memory.segment) if memory.segment else ""
        value = memory.disp
        if base == "rip":
            base, value = "", found.address + found.size + memory.disp
            entry = self.placed.table_entry(value) if operand.size == 8 and found.mnemonic in ("mov", "cmp", "add", "push") else None
            if entry is not None:
                return Operand("number", 8, value=entry)
        return Operand("memory", operand.size, value=value, base=base, index=index, scale=memory.scale, segment=segment)


class Builder:
    """Follows control from a function's first instruction and makes the graph."""

    def __init__(self, placed: ObjectFile, decoder: Decoder, entry: int) -> None:
        self.placed, self.decoder = placed, decoder
        self.entry: Node = ((), entry)
        self.ends: dict[Node, tuple[str, list[Node], str, str]] = {}
        self.instructions: dict[Node, Instruction] = {}

    def build(self) -> Graph:
        """Follows all ways, and joins instructions to blocks."""
        waiting = [self.entry]
        while waiting:
            node = waiting.pop()
            if node in self.ends:
                continue
            if len(self.ends) > MOST_INSTRUCTIONS:
                raise Refusal(f"more than {MOST_INSTRUCTIONS} instructions with all calls inlined", node[1])
            self.follow(node)
            waiting += self.ends[node][1]
        return self.joined()

    def follow(self, node: Node) -> None:
        """Says what comes behind one instruction."""
        context, address = node
        found = self.decoder.at(address)
        found = Instruction(found.address, found.size, found.mnemonic, found.operands, found.text, found.decoded, context)
        self.instructions[node] = found
        following: Node = (context, found.end)
        name = found.name
        if name in ("ret", "repz ret"):
            self.ends[node] = self.returned(context)
        elif name == "call":
            self.ends[node] = self.called(found, following)
        elif name == "jmp":
            self.ends[node] = self.jumped(found)
        elif name.startswith("j"):
            taken: Node = (context, found.operands[0].value)
            self.ends[node] = ("branch", [taken, following], name[1:], "")
        elif name in STOPPING:
            self.ends[node] = ("stop", [], "", f"`{found.text}` is reached")
        else:
            self.ends[node] = ("fall", [following], "", "")
        if self.ends[node][0] == "waits":
            found.waits_in = self.ends[node][3]

    def returned(self, context: Context) -> tuple[str, list[Node], str, str]:
        if not context:
            return ("return", [], "", "")
        return ("fall", [(context[:-1], context[-1])], "", "")

    def called(self, found: Instruction, following: Node) -> tuple[str, list[Node], str, str]:
        """A call: inlined, dropped because it only waits, or one that does not come back."""
        target = found.operands[0]
        context = found.context
        if not target.is_number:
            name = self.external_of(target)
            return ("fall", [following], "", "") if name is None else self.called_outside(name, following)
        if target.value in self.placed.externals:
            return self.called_outside(self.placed.externals[target.value], following)
        name = next((it.name for it in self.placed.symbols.values() if it.address == target.value and it.kind == "FUNC"), "")
        if is_ending(name):
            return ("stop", [], "", f"{name} is called")
        if len(context) >= DEEPEST:
            return ("unknown", [], "", "calls are nested too deep, or a function calls itself")
        return ("fall", [(context + (found.end,), target.value)], "", "")

    def external_of(self, target: Operand) -> str | None:
        """The function outside of the object that a call through the global offset table goes to."""
        if target.is_memory and not target.base and not target.index:
            address = self.placed.read(target.value, 8)
            return self.placed.externals.get(address or 0)
        return None

    def called_outside(self, name: str, following: Node) -> tuple[str, list[Node], str, str]:
        if is_waiting(name):
            return ("waits", [following], "", name)
        if is_ending(name):
            return ("stop", [], "", f"{name} is called")
        return ("unknown", [], "", f"{name} is called, whose body the object does not have")

    def jumped(self, found: Instruction) -> tuple[str, list[Node], str, str]:
        target = found.operands[0]
        if not target.is_number:
            name = self.external_of(target)
            if name is None:
                return ("unknown", [], "", f"`{found.text}` goes where is known only when it runs")
            return self.left(name, found.context)
        if target.value in self.placed.externals:
            return self.left(self.placed.externals[target.value], found.context)
        return ("fall", [(found.context, target.value)], "", "")

    def left(self, name: str, context: Context) -> tuple[str, list[Node], str, str]:
        """A jump to a function outside, which returns to our caller."""
        kind, _, condition, reason = self.called_outside(name, ((), 0))
        if kind != "waits":
            return (kind, [], condition, reason)
        return ("waits", [(context[:-1], context[-1])], "", name) if context else ("unknown", [], "", f"{name} ends the procedure")

    def joined(self) -> Graph:
        """Blocks of the instructions that follow each other and nothing else."""
        count: dict[Node, int] = {self.entry: 2}
        for _, successors, _, _ in self.ends.values():
            for successor in successors:
                count[successor] = count.get(successor, 0) + (1 if len(successors) == 1 else 2)
        heads = [self.entry] + [it for it in self.ends if count.get(it, 0) > 1 and it != self.entry]
        numbers = {it: number for number, it in enumerate(heads, 1)}
        blocks = {number: self.block(number, head, numbers) for head, number in numbers.items()}
        return Graph({0: Block(0, [], [1])} | blocks)

    def block(self, number: int, head: Node, numbers: dict[Node, int]) -> Block:
        node, made = head, Block(number, [])
        while True:
            made.instructions.append(self.instructions[node])
            kind, successors, condition, reason = self.ends[node]
            if kind in ("fall", "waits") and successors[0] not in numbers:
                node = successors[0]
                continue
            made.end, made.condition, made.reason = kind, condition, reason
            made.successors = [numbers[it] for it in successors]
            return made


def is_waiting(name: str) -> bool:
    """Whether a function of this name only waits."""
    return name in WAITING or any(it in name for it in WAITING_WORDS)


def is_ending(name: str) -> bool:
    """Whether a function of this name never returns."""
    return name in ENDING or any(it in name for it in ENDING_WORDS)


def graph_of(placed: ObjectFile, decoder: Decoder, symbol: str) -> Graph:
    """The graph of a function."""
    found = placed.symbols.get(symbol)
    if found is None:
        names = ", ".join(sorted(it.name for it in placed.symbols.values() if it.kind == "FUNC")[:12])
        raise Refusal(f"the object has no function {symbol}; it has {names}")
    return Builder(placed, decoder, found.address).build()
