"""Puts blocks one behind the other, and adds jumps, labels and bounds."""

from dataclasses import dataclass, field

from .allocating import Colours
from .code import Code, CodeBlock, Line, Number, Operand, Place, Reg
from .decoding import Instruction
from .ir import OPPOSITE

LONGEST_COPY = 4


@dataclass
class Jump:
    """A jump, to the block of this number. A jump back has a kind: `retry` of a compare and exchange, or `loop`."""

    name: str
    target: int
    source: Instruction | None
    back: str = ""


@dataclass
class Laid:
    """A procedure as a list of lines and jumps. A block's number stands for its label."""

    name: str
    items: list[Line | Jump | int] = field(default_factory=list)


class Linearizer:
    """Orders the blocks of a procedure."""

    def __init__(self, code: Code) -> None:
        self.code = code
        self.blocks = code.blocks
        for block in self.blocks.values():
            block.successors = [self.threaded(it) for it in block.successors]
            if len(set(block.successors)) == 1:
                block.successors, block.condition = block.successors[:1], ""

    def threaded(self, number: int) -> int:
        """Where control goes on from a block, past blocks that are empty."""
        seen: set[int] = set()
        while not self.blocks[number].lines and len(self.blocks[number].successors) == 1 and number not in seen:
            seen.add(number)
            number = self.blocks[number].successors[0]
        return number

    def run(self) -> Laid:
        order = self.order()
        laid = Laid(self.code.name)
        for at, number in enumerate(order):
            following = order[at + 1] if at + 1 < len(order) else -1
            laid.items.append(number)
            laid.items += self.blocks[number].lines
            self.leave(laid, self.blocks[number], following)
        self.mark_back(laid, order)
        return without_labels(laid)

    def order(self) -> list[int]:
        """Blocks so that only loops jump back, and that as many as can be are followed by one they lead to."""
        entry = self.threaded(0)
        back, postorder = self.depth_first(entry)
        rank = {it: at for at, it in enumerate(reversed(postorder))}
        count = {it: 0 for it in rank}
        for number in rank:
            for successor in set(self.blocks[number].successors):
                count[successor] += (number, successor) not in back
        ready = {entry}
        order: list[int] = []
        while ready:
            last = self.blocks[order[-1]].successors if order else []
            chosen = next((it for it in reversed(last) if it in ready), None)
            number = min(ready, key=rank.__getitem__) if chosen is None else chosen
            ready.remove(number)
            order.append(number)
            for successor in set(self.blocks[number].successors):
                if (number, successor) not in back:
                    count[successor] -= 1
                    if count[successor] == 0:
                        ready.add(successor)
        return order

    def depth_first(self, entry: int) -> tuple[set[tuple[int, int]], list[int]]:
        """The edges that go back to a block on the way, and the blocks in postorder."""
        back: set[tuple[int, int]] = set()
        seen, on_way, done = {entry}, [entry], []
        stack = [iter(self.blocks[entry].successors)]
        while stack:
            for successor in stack[-1]:
                if successor in on_way:
                    back.add((on_way[-1], successor))
                elif successor not in seen:
                    seen.add(successor)
                    on_way.append(successor)
                    stack.append(iter(self.blocks[successor].successors))
                    break
            else:
                stack.pop()
                done.append(on_way.pop())
        return back, done

    def leave(self, laid: Laid, block: CodeBlock, following: int) -> None:
        """How a block goes on."""
        if not block.successors:
            return
        if len(block.successors) == 1:
            self.go(laid, block, block.successors[0], following)
            return
        taken, other = block.successors
        if taken == following:
            laid.items.append(Jump(f"j{OPPOSITE[block.condition]}", other, block.source))
            return
        laid.items.append(Jump(f"j{block.condition}", taken, block.source))
        self.go(laid, block, other, following)

    def go(self, laid: Laid, block: CodeBlock, target: int, following: int) -> None:
        """Goes to a block: it follows, or its few lines are repeated, or by a jump."""
        if target == following:
            return
        if self.is_short_end(self.blocks[target]):
            laid.items += self.blocks[target].lines
        else:
            laid.items.append(Jump("jmp", target, block.source))

    @staticmethod
    def is_short_end(block: CodeBlock) -> bool:
        lines = block.lines
        return bool(lines) and lines[-1].name == "ret" and len(lines) <= LONGEST_COPY and all(it.name in ("mov", "ret") for it in lines)

    def mark_back(self, laid: Laid, order: list[int]) -> None:
        """Says of each jump back what it repeats."""
        places = {it: at for at, it in enumerate(laid.items) if isinstance(it, int)}
        for at, item in enumerate(laid.items):
            if isinstance(item, Jump) and places[item.target] <= at:
                item.back = "retry" if self.is_retry(self.block_at(laid, at), item.target) else "loop"

    @staticmethod
    def block_at(laid: Laid, at: int) -> int:
        """The block that an item belongs to."""
        return next(it for it in reversed(laid.items[:at]) if isinstance(it, int))

    def is_retry(self, number: int, target: int) -> bool:
        """Whether control comes back only where a compare and exchange of this round has failed."""
        seen, waiting = {target}, [target]
        while waiting:
            block = self.blocks[waiting.pop()]
            failed = self.failed_edge(block)
            if block.number == number and target in block.successors and target != failed:
                return False
            for successor in block.successors:
                if successor not in seen and successor != failed:
                    seen.add(successor)
                    waiting.append(successor)
        return True

    @staticmethod
    def failed_edge(block: CodeBlock) -> int | None:
        """Where control goes from a compare and exchange that failed."""
        last = next((it for it in reversed(block.lines) if it.writes_flags), None)
        if last is None or last.name != "lock cmpxchg" or block.condition not in ("e", "ne"):
            return None
        return block.successors[0 if block.condition == "ne" else 1]


def without_labels(laid: Laid) -> Laid:
    """Leaves out labels that no jump goes to."""
    wanted = {it.target for it in laid.items if isinstance(it, Jump)}
    return Laid(laid.name, [it for it in laid.items if not isinstance(it, int) or it in wanted])


def spelled(operand: Operand, colours: Colours, names: dict[object, str]) -> str:
    """An operand as the text has it."""
    if isinstance(operand, Reg):
        return colours[operand]
    if isinstance(operand, Number):
        return str(operand.value)
    return spelled_place(operand, colours, names)


def spelled_place(place: Place, colours: Colours, names: dict[object, str]) -> str:
    name = names[place.cell]
    parts = name if place.index is None else f"{name} + {colours[place.index]}*8"
    if place.constant:
        parts += f" {'+' if place.constant > 0 else '-'} {abs(place.constant) * 8}"
    return f"qword ptr [{parts}]"
