"""Runs a function that fills the queue's memory, and takes what it leaves for the first values.

Functions of other objects that such a function may call are stood in for: those that hand out memory, and those that copy it.
"""

from typing import Callable

import unicorn  # type: ignore[import]
from unicorn import x86_const as x86

from .debuginfo import Type
from .emulating import HEAP_SIZE, RETURN, Emulator, Stuck
from .layout import Layout
from .objectfile import HEAP, ObjectFile, Section, Symbol
from .refusing import Refusal

ALIGNMENT = 256
MOST_STEPS = 10_000_000


class Library:
    """Stands in for functions of other objects."""

    def __init__(self, emulator: Emulator) -> None:
        self.emulator = emulator
        self.next = HEAP
        self.blocks: list[tuple[int, int]] = []
        self.unknown = ""
        for address, name in emulator.placed.externals.items():
            emulator.machine.mem_write(address, RETURN)
            emulator.machine.hook_add(unicorn.UC_HOOK_CODE, self.called, user_data=name, begin=address, end=address)

    def argument(self, number: int) -> int:
        registers = (x86.UC_X86_REG_RDI, x86.UC_X86_REG_RSI, x86.UC_X86_REG_RDX)
        return int(self.emulator.machine.reg_read(registers[number]))

    def called(self, _machine: object, _address: int, _size: int, name: str) -> None:
        """A function is called: does what it does, or ends the run."""
        for words, action in ACTIONS:
            if any(it == name or (len(it) > 8 and it in name) for it in words):
                answer = action(self)
                if answer is not None:
                    self.emulator.machine.reg_write(x86.UC_X86_REG_RAX, answer)
                return
        self.unknown = name
        self.emulator.machine.emu_stop()

    def allocate(self, size: int) -> int:
        """Memory of its own, all 0."""
        if self.next + size > HEAP + HEAP_SIZE:
            raise Refusal("the function that fills the queue asks for more memory than there is")
        address = self.next
        self.blocks.append((address, size))
        self.next += (size + 2 * ALIGNMENT - 1) & -ALIGNMENT
        return address

    def copy(self) -> int:
        target, source, size = (self.argument(it) for it in range(3))
        self.emulator.machine.mem_write(target, bytes(self.emulator.machine.mem_read(source, size)))
        return target

    def fill(self) -> int:
        target, byte, size = (self.argument(it) for it in range(3))
        self.emulator.machine.mem_write(target, bytes([byte & 255]) * size)
        return target

    def place_memory(self) -> int:
        """posix_memalign."""
        self.emulator.write(self.argument(0), 8, self.allocate(self.argument(2)))
        return 0


Action = Callable[[Library], int | None]
ACTIONS: list[tuple[tuple[str, ...], Action]] = [
    (
        ("malloc", "_Znwm", "_Znam", "_ZnwmSt11align_val_t", "_ZnwmRKSt9nothrow_t", "_ZnamRKSt9nothrow_t"),
        lambda it: it.allocate(it.argument(0)),
    ),
    (("__rust_alloc_zeroed", "__rust_alloc"), lambda it: it.allocate(it.argument(0))),
    (("calloc",), lambda it: it.allocate(it.argument(0) * it.argument(1))),
    (("aligned_alloc", "memalign"), lambda it: it.allocate(it.argument(1))),
    (("posix_memalign",), Library.place_memory),
    (("memcpy", "memmove"), Library.copy),
    (("memset",), Library.fill),
    (("free", "_ZdlPv", "_ZdlPvm", "__rust_dealloc", "no_alloc_shim", "__cxa_atexit", "__cxa_guard_release"), lambda _: None),
]


def initialize(placed: ObjectFile, symbol: str) -> None:
    """Runs a function of the object, and takes what it leaves in memory for the first values."""
    emulator = Emulator(placed)
    library = Library(emulator)
    try:
        emulator.call(emulator.address(symbol), 0, MOST_STEPS)
    except Stuck as stuck:
        why = f"it calls {library.unknown}, whose body the object does not have" if library.unknown else str(stuck)
        raise Refusal(f"{symbol} did not come to its end: {why}") from None
    for section in placed.sections:
        if section.is_writable and section.data:
            section.data[:] = emulator.machine.mem_read(section.address, len(section.data))
    for number, (address, size) in enumerate(library.blocks):
        data = bytearray(emulator.machine.mem_read(address, size))
        placed.sections.append(Section(f"heap {number}", address, data, False, True))
        placed.symbols[f"heap {number}"] = Symbol(f"heap{number}", address, size, "HEAP")


def type_heap(layout: Layout) -> None:
    """Gives allocated memory the types of the pointers that lead to it."""
    waiting = [(address, type_) for address, type_ in layout.types.items()]
    while waiting:
        address, type_ = waiting.pop()
        for target, item in pointers_in(layout.placed, address, type_):
            found = layout.placed.object_at(target)
            if found is None or found.address != target or found.kind != "HEAP" or not item.size:
                continue
            known = layout.types.get(target)
            if known is not None and not (known.kind == "array" and known.item is not None and known.item.size == 1 < item.size):
                continue
            count = found.size // item.size
            made = item if count == 1 else Type("array", "", count * item.size, item=item, count=count)
            layout.types[target] = made
            waiting.append((target, made))


def pointers_in(placed: ObjectFile, address: int, type_: Type) -> list[tuple[int, Type]]:
    """The pointers of an object that have a type to point to, and where they point."""
    if type_.kind == "pointer":
        target = placed.read(address, 8)
        return [(target, type_.item)] if target and type_.item is not None else []
    if type_.kind == "array" and type_.item is not None:
        return [it for at in range(type_.count) for it in pointers_in(placed, address + at * type_.item.size, type_.item)]
    return [it for member in type_.members for it in pointers_in(placed, address + member.offset, member.type)]
