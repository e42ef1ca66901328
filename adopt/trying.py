"""Holds a text against the compiled code: random calls, one after the other, in the emulator and in the interpreter of the language."""

import random
from dataclasses import dataclass

from .adopting import Adopted, Options
from .emulating import Emulator, Stuck
from .interpreter import Cut, Fault, Machine, Unwritten, read_program
from .ir import signed
from .layout import Cell

# Where counters begin beside the object's own first values: near the end of their bits, and in the middle.
SHIFTS = (-3, -1, 5, 1000)
LENGTH = 50
PATIENCE = 20
SMALL = (0, 1, 2, 3, 4, 5, 6, 7, 8, -1, -2)


class Different(Exception):
    """The text and the compiled code do not do the same."""


@dataclass
class Outcome:
    """What a call left: the answer, or why there is none, and memory."""

    answer: str
    memory: dict[str, list[int]]
    reason: str = ""


class Trial:
    """Random calls of both."""

    def __init__(self, adopted: Adopted, options: Options, seed: int = 1) -> None:
        self.adopted, self.options = adopted, options
        self.random = random.Random(seed)
        self.emulator = Emulator(adopted.placed)
        self.program = read_program(adopted.text)
        self.machine = Machine(self.program, has_bounds=False, patience=PATIENCE)
        self.places = {name: self.emulator.address(symbol) for name, symbol in (("push", options.push), ("pop", options.pop))}
        self.objects = {cell.object for cell, _ in adopted.cells.values()}
        self.memory: dict[str, list[int]] = {}
        self.value = 0
        self.calls: list[str] = []
        self.is_first = True
        self.done = self.skipped = 0

    def run(self, count: int) -> None:
        """So many calls: six of ten in sequences from the first values, two with moved counters, two each in a made-up state."""
        while self.done < count * 6 // 10:
            self.begin(0)
            self.sequence(LENGTH)
        while self.done < count * 8 // 10:
            self.begin(self.random.choice(SHIFTS))
            self.sequence(LENGTH)
        while self.done < count:
            self.made_up()

    def begin(self, shift: int) -> None:
        """First values, and counters moved by so much."""
        self.emulator.restore()
        self.calls = [f"first values, moved by {shift}"]
        self.is_first = shift == 0
        if shift:
            for cell, size in self.adopted.cells.values():
                if cell in self.adopted.written:
                    for index in range(cell.count):
                        old = self.emulator.read(cell.address(index), size)
                        self.emulator.write(cell.address(index), size, old + shift)
        self.take_over()

    def take_over(self) -> None:
        """Gives the text the memory of the emulator."""
        self.memory = self.compiled_memory()
        self.machine.arrays = {name: list(words) for name, words in self.program.arrays.items()} | {
            name: list(words) for name, words in self.memory.items()
        }

    def compiled_memory(self) -> dict[str, list[int]]:
        """Memory as words of the text."""
        objects = {it.address: bytes(self.emulator.machine.mem_read(it.address, it.size)) for it in self.objects}
        found: dict[str, list[int]] = {}
        for name, (cell, size) in self.adopted.cells.items():
            whole, start = objects[cell.object.address], cell.start - cell.object.address
            parts = [whole[start + at * cell.stride :][:size] for at in range(cell.count)]
            found[name] = [int.from_bytes(it, "little", signed=True) % 2**64 for it in parts]
        return found

    def text_memory(self) -> dict[str, list[int]]:
        return {name: self.narrowed(name, self.machine.arrays[name]) for name in self.adopted.cells}

    def narrowed(self, name: str, words: list[int]) -> list[int]:
        """Words with as many bits as the field has."""
        size = self.adopted.cells[name][1]
        return [signed(it % 2 ** (size * 8), size * 8) % 2**64 for it in words]

    def sequence(self, length: int) -> None:
        """Calls one after the other, with more pushes for a while and then more pops."""
        share = self.random.choice((0.3, 0.5, 0.7, 0.9))
        for _ in range(length):
            if not self.call("push" if self.random.random() < share else "pop"):
                return

    def made_up(self) -> None:
        """One call in a state of small numbers."""
        self.begin(0)
        base = self.random.choice((0, 0, 1, 6, -1, -2))
        for cell, size in self.adopted.cells.values():
            if cell in self.adopted.written:
                for index in range(cell.count):
                    self.emulator.write(cell.address(index), size, base + self.random.choice(SMALL))
        self.calls, self.is_first = ["a made-up state"], False
        self.take_over()
        self.call(self.random.choice(("push", "pop")))

    def call(self, name: str) -> bool:
        """One call of both. False where the state is left: both do not return."""
        self.value += 1
        self.done += 1
        before = self.memory
        self.calls.append(f"push {self.value}" if name == "push" else "pop")
        text = self.of_text(name)
        compiled = Outcome("", {}, "not tried") if text.reason == "cut" else self.of_compiled(name)
        if "" in (text.answer, compiled.answer):
            self.skipped += 1
            if self.is_wrong(text, compiled):
                raise Different(self.told(before, text, compiled))
            return False
        if text.answer != compiled.answer or text.memory != compiled.memory:
            raise Different(self.told(before, text, compiled))
        self.memory = compiled.memory
        return True

    def is_wrong(self, text: Outcome, compiled: Outcome) -> bool:
        """Whether one of them having no answer is a difference. In made-up states an index can lie outside of its array."""
        if text.answer:
            return True
        return bool(compiled.answer) and self.is_first and text.reason == "fault"

    def of_text(self, name: str) -> Outcome:
        try:
            answer = self.machine.push(self.value) if name == "push" else self.machine.pop()
        except Cut:
            return Outcome("", {}, "cut")
        except Fault as fault:
            return Outcome("", {}, "table" if "shifted_by" in str(fault) else "fault")
        except Unwritten as error:
            raise Different(f"the text reads {error} before anything writes it") from None
        told = "done" if answer.is_done else "refused"
        return Outcome(f"{told} {answer.value}" if answer.is_done and name == "pop" else told, self.text_memory())

    def of_compiled(self, name: str) -> Outcome:
        signature, place = self.adopted.signatures[name], self.places[name]
        try:
            if name == "push":
                answer, value = self.emulator.push(place, signature, self.value), 0
            else:
                answer, value = self.emulator.pop(place, signature)
        except Stuck:
            return Outcome("", {}, "stuck")
        is_done = (answer == 0) if self.options.done == 0 else answer == 1
        told = "done" if is_done else "refused"
        return Outcome(f"{told} {value}" if is_done and name == "pop" else told, self.compiled_memory())

    def told(self, before: dict[str, list[int]], text: Outcome, compiled: Outcome) -> str:
        """A difference in words."""
        lines = [f"after {', '.join(self.calls[-6:])}:", f"  before:   {shown(before)}"]
        lines += [
            f"  compiled: {compiled.answer or compiled.reason}  {shown(compiled.memory)}",
            f"  text:     {text.answer or text.reason}  {shown(text.memory)}",
        ]
        return "\n".join(lines)


def shown(memory: dict[str, list[int]]) -> str:
    return "  ".join(f"{name} {' '.join(str(signed(it, 64)) for it in words)}" for name, words in memory.items())


def try_text(adopted: Adopted, options: Options, count: int) -> tuple[int, int]:
    """Tries so many calls. Returns how many were made, and how many of them had no answer."""
    trial = Trial(adopted, options)
    trial.run(count)
    return trial.done, trial.skipped


__all__ = ["Cell", "Different", "Trial", "try_text"]
