"""The program text: its head, arrays, push, pop and client, with the address and the source line of each instruction."""

from dataclasses import dataclass, field

from .allocating import Colours
from .code import Line
from .debuginfo import DebugInfo
from .decoding import Instruction
from .ir import OPPOSITE
from .linearizing import Jump, Laid, spelled
from .objectfile import ObjectFile
from .refusing import Refusal

MOST_INSTRUCTIONS = 256
COMMENT_COLUMN = 46


@dataclass
class Array:
    """An array of the text, with its first words and its object's address where it has one."""

    name: str
    words: list[int]


@dataclass
class Bounds:
    """How often a jump back may be taken."""

    calls: int
    for_all: int | None = None
    by_line: dict[str, int] = field(default_factory=dict)
    used: list[tuple[str, str, int, str]] = field(default_factory=list)

    def bound(self, jump: Jump, lines: list[str], procedure: str) -> int:
        asked = [self.by_line[it] for it in lines if it in self.by_line]
        if asked:
            bound, why = asked[-1], "as asked for this line"
        elif self.for_all is not None:
            bound, why = self.for_all, "as asked for all"
        elif jump.back == "retry":
            bound, why = min(self.calls - 1, 15), f"a retry of a compare and exchange, {self.calls} calls"
        else:
            bound, why = 1, "a loop"
        self.used.append((procedure, " ".join(lines), bound, why))
        return bound


class Writer:
    """Writes procedures as lines of a text."""

    def __init__(self, placed: ObjectFile, debug: DebugInfo, bounds: Bounds, names: dict[object, str]) -> None:
        self.placed, self.debug, self.bounds, self.names = placed, debug, bounds, names

    def where(self, source: Instruction | None) -> str:
        """The address as objdump prints it, and the source line."""
        if source is None:
            return ""
        own, *inlined = self.debug.lines_of(source.address)
        more = f" ({inlined[0]})" if inlined else ""
        return f"{self.placed.offset_in_section(source.address):#x} {own}{more}".strip()

    def procedure(self, laid: Laid, colours: Colours) -> list[str]:
        labels = self.labels(laid)
        lines = [f".{laid.name}"]
        for number, item in enumerate(laid.items):
            if isinstance(item, int):
                lines.append(f"{labels[item]}:")
            elif isinstance(item, Jump):
                lines.append(self.commented(self.jump(item, labels, laid.name), item.source))
            elif item.name == "cmov":
                skip = f"past_{number}"
                lines.append(self.commented(f"j{OPPOSITE[item.condition]} {skip}", item.source))
                moved = ", ".join(spelled(it, colours, self.names) for it in item.operands)
                lines += [self.commented(f"mov {moved}", item.source), f"{skip}:"]
            else:
                lines.append(self.commented(self.line(item, colours), item.source))
        return [*lines, ".end"]

    def labels(self, laid: Laid) -> dict[int, str]:
        """A label for each block that a jump goes to, by the address it begins at."""
        found: dict[int, str] = {}
        for at, item in enumerate(laid.items):
            if isinstance(item, int):
                following = next((it for it in laid.items[at + 1 :] if not isinstance(it, int) and it.source is not None), None)
                source = following.source if following is not None and not isinstance(following, int) else None
                name = f"at_{self.placed.offset_in_section(source.address):x}" if source else "at"
                while name in found.values():
                    name += "_"
                found[item] = name
        return found

    def jump(self, item: Jump, labels: dict[int, str], procedure: str) -> str:
        if not item.back:
            return f"{item.name} {labels[item.target]}"
        lines = self.debug.lines_of(item.source.address) if item.source else []
        return f"{item.name} {labels[item.target]} bound {self.bounds.bound(item, lines, procedure)}"

    def line(self, item: Line, colours: Colours) -> str:
        if item.name == "assert":
            return f"assert {item.condition}"
        return f"{item.name} {', '.join(spelled(it, colours, self.names) for it in item.operands)}".strip()

    def commented(self, text: str, source: Instruction | None) -> str:
        where = self.where(source)
        return f"  {text} ".ljust(COMMENT_COLUMN) + f"; {where}" if where else f"  {text}"


def count_instructions(procedures: list[list[str]]) -> None:
    """Refuses a text that is too long."""
    count = sum(line.startswith("  ") for lines in procedures for line in lines)
    if count > MOST_INSTRUCTIONS:
        raise Refusal(f"push and pop have {count} instructions in the language, and a text has at most {MOST_INSTRUCTIONS}")


def whole(head: list[str], arrays: list[Array], capacity: int, mode: str, procedures: list[list[str]], client: list[str]) -> str:
    """The whole text."""
    lines = [f"; {it}".rstrip() for it in head]
    lines += [f".capacity {capacity}", f".mode {mode}"]
    for array in arrays:
        words = f" = {', '.join(str(it) for it in array.words)}" if any(array.words) else ""
        lines.append(f".array {array.name} {len(array.words)}{words}")
    for procedure in procedures:
        lines += procedure
    return "\n".join([*lines, *client]) + "\n"
