"""Runs the compiled functions in Unicorn, on the bytes of the placed object."""

import unicorn  # type: ignore[import]
from unicorn import x86_const as x86

from .decoding import is_waiting
from .lifting import Signature
from .objectfile import BASE, HEAP, ObjectFile
from .refusing import Refusal

PAGE = 0x1000
STACK, STACK_SIZE = 0x7000_0000, 0x4_0000
SCRATCH = 0x6800_0000
STOP = 0x6900_0000
HEAP_SIZE = 0x10_0000
MOST_STEPS = 20_000
RETURN = b"\xc3"


class Stuck(Exception):
    """The compiled code did not return: it faults, or goes round for long."""


class Emulator:
    """The object in memory, whose functions can be called."""

    def __init__(self, placed: ObjectFile) -> None:
        self.placed = placed
        self.machine = unicorn.Uc(unicorn.UC_ARCH_X86, unicorn.UC_MODE_64)
        end = max(it.end for it in placed.sections if it.address < HEAP) + 2 * PAGE
        self.machine.mem_map(BASE, (end - BASE + PAGE - 1) & ~(PAGE - 1))
        self.machine.mem_map(STACK, STACK_SIZE)
        self.machine.mem_map(SCRATCH, PAGE)
        self.machine.mem_map(STOP, PAGE)
        self.machine.mem_map(HEAP, HEAP_SIZE)
        self.restore()
        for address, name in placed.externals.items():
            if is_waiting(name):
                self.machine.mem_write(address, RETURN)

    def restore(self) -> None:
        """Gives all sections their first bytes."""
        for section in self.placed.sections:
            if section.data:
                self.machine.mem_write(section.address, bytes(section.data))

    def read(self, address: int, size: int) -> int:
        return int.from_bytes(self.machine.mem_read(address, size), "little")

    def write(self, address: int, size: int, value: int) -> None:
        self.machine.mem_write(address, (value % 2 ** (8 * size)).to_bytes(size, "little"))

    def call(self, address: int, argument: int, steps: int = MOST_STEPS) -> tuple[int, int]:
        """Calls a function with RDI, and returns RAX and RDX. A call that goes round is ended after so many instructions."""
        top = STACK + STACK_SIZE - PAGE - 8
        self.write(top, 8, STOP)
        self.machine.reg_write(x86.UC_X86_REG_RSP, top)
        self.machine.reg_write(x86.UC_X86_REG_RDI, argument)
        try:
            self.machine.emu_start(address, STOP, count=steps)
        except unicorn.UcError as error:
            raise Stuck(str(error)) from None
        if self.machine.reg_read(x86.UC_X86_REG_RIP) != STOP:
            raise Stuck(f"no return after {steps} instructions")
        return self.machine.reg_read(x86.UC_X86_REG_RAX), self.machine.reg_read(x86.UC_X86_REG_RDX)

    def address(self, symbol: str) -> int:
        found = self.placed.symbols.get(symbol)
        if found is None:
            raise Refusal(f"the object has no function {symbol}")
        return found.address

    def push(self, address: int, signature: Signature, value: int) -> int:
        """A push: what it answers, in as many bits as its type has."""
        if signature.takes_pointer:
            self.write(SCRATCH, 8, value)
        answer, _ = self.call(address, SCRATCH if signature.takes_pointer else value)
        return answer & ((1 << signature.answer_bits) - 1)

    def pop(self, address: int, signature: Signature) -> tuple[int, int]:
        """A pop: what it answers, and its value."""
        answer, value = self.call(address, SCRATCH)
        if signature.has_out:
            value = self.read(SCRATCH, 8)
        return answer & ((1 << signature.answer_bits) - 1), value
