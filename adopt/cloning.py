"""Copies blocks, so that a text is shorter to run and each condition has one instruction that wrote its flags."""

from .decoding import Block, Graph

READS_FLAGS = {"adc", "sbb", "inc", "dec"}
WRITES_FLAGS = set(
    "add sub and or xor cmp test neg shl sal shr sar imul adc sbb bt xadd cmpxchg cmpxchg16b cmpxchg8b inc dec mul div idiv".split()
)
MOST_BLOCKS = 600
LONGEST_END = 10


def reads_first(block: Block) -> bool | None:
    """Whether the block reads flags before it writes them; None where it does neither."""
    for found in block.instructions:
        name = found.name
        if name.startswith(("set", "cmov")) or name in ("adc", "sbb"):
            return True
        if name in WRITES_FLAGS:
            return False
        if found.waits_in:
            return False
    return True if block.end == "branch" and not block.condition.endswith("cxz") else None


def flags_wanted(graph: Graph) -> set[int]:
    """The blocks that need the flags of those before them."""
    own = {number: reads_first(block) for number, block in graph.blocks.items()}
    wanted = {number for number, reads in own.items() if reads}
    while True:
        more = {it.number for it in graph.blocks.values() if own[it.number] is None and any(s in wanted for s in it.successors)}
        if more <= wanted:
            return wanted
        wanted |= more


def is_short_end(block: Block) -> bool:
    """Whether the block only gives an answer: it returns soon, and accesses no shared memory."""
    if block.end != "return" or len(block.instructions) > LONGEST_END:
        return False
    return not any(it.is_memory and it.base != "rsp" for found in block.instructions for it in found.operands if found.name != "lea")


def copy_for_each(graph: Graph, number: int) -> bool:
    """Gives each predecessor but the first a copy of the block. False where the block follows itself or there is one."""
    before = graph.predecessors()[number]
    if number == 0 or number in before or len(before) < 2:
        return False
    block = graph.blocks[number]
    for other in before[1:]:
        made = Block(max(graph.blocks) + 1, block.instructions, list(block.successors), block.end, block.condition, block.reason)
        graph.blocks[made.number] = made
        place = graph.blocks[other].successors
        place[place.index(number)] = made.number
    return True


def clone(graph: Graph) -> None:
    """Copies short ends and blocks that want flags, for each block before them."""
    changed = True
    while changed and len(graph.blocks) < MOST_BLOCKS:
        wanted = flags_wanted(graph)
        ends = {number for number, block in graph.blocks.items() if is_short_end(block)}
        changed = any([copy_for_each(graph, number) for number in sorted(wanted | ends)])
