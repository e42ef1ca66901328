"""An ELF object, placed in memory: each section gets an address, and relocations are applied.

Sections lie far apart, so that an address never belongs to two of them. The placed addresses are written into the symbol table that
pyelftools reads, so the debug information speaks of placed addresses too.
"""

import io
import pathlib
import struct
from dataclasses import dataclass, field

from elftools.common.exceptions import ELFError  # type: ignore[import]
from elftools.elf.elffile import ELFFile  # type: ignore[import]
from elftools.elf.enums import ENUM_RELOC_TYPE_x64  # type: ignore[import]

from .refusing import Refusal

# Where sections are placed. The base is below 2^31, since code without -fPIC has addresses of 32 bits.
BASE = 0x4A51_0000
GAP = 0x1_0000
# Where addresses that the emulator hands out as heap begin.
HEAP = 0x5C30_0000
ALLOCATED, EXECUTABLE, THREAD_LOCAL, WRITABLE = 0x2, 0x4, 0x400, 0x1
SYMBOL_SIZE = 24
TABLE_ENTRY = "table entry "

RELOCATION_NAMES = {number: name for name, number in ENUM_RELOC_TYPE_x64.items() if isinstance(number, int)}
ABSOLUTE = {"R_X86_64_64": 8, "R_X86_64_32": 4, "R_X86_64_32S": 4}
RELATIVE = {"R_X86_64_PC32": 4, "R_X86_64_PLT32": 4, "R_X86_64_PC64": 8}
THROUGH_TABLE = {"R_X86_64_GOTPCREL": 4, "R_X86_64_GOTPCRELX": 4, "R_X86_64_REX_GOTPCRELX": 4}


@dataclass
class Section:
    """A section in its place."""

    name: str
    address: int
    data: bytearray
    is_code: bool
    is_writable: bool

    @property
    def end(self) -> int:
        return self.address + len(self.data)


@dataclass(frozen=True)
class Symbol:
    """A named function or object. A size of 0 means that the object file gives none."""

    name: str
    address: int
    size: int
    kind: str


@dataclass
class ObjectFile:
    """The placed object."""

    sections: list[Section] = field(default_factory=list)
    symbols: dict[str, Symbol] = field(default_factory=dict)
    externals: dict[int, str] = field(default_factory=dict)
    unsupported: dict[int, str] = field(default_factory=dict)
    pointers: dict[int, int] = field(default_factory=dict)
    patched: bytes = b""

    def section_at(self, address: int) -> Section | None:
        """The section that an address lies in."""
        return next((it for it in self.sections if it.address <= address < it.end), None)

    def read(self, address: int, size: int) -> int | None:
        """The initial value of so many bytes."""
        section = self.section_at(address)
        if section is None or address + size > section.end:
            return None
        start = address - section.address
        return int.from_bytes(section.data[start : start + size], "little")

    def write(self, address: int, data: bytes) -> None:
        """Gives bytes another initial value."""
        section = self.section_at(address)
        if section is None or address + len(data) > section.end:
            raise Refusal(f"a relocation lies outside of every section, at {address:#x}")
        start = address - section.address
        section.data[start : start + len(data)] = data

    def objects(self) -> list[Symbol]:
        """The symbols of data, by address."""
        found = [it for it in self.symbols.values() if it.kind in ("OBJECT", "COMMON", "HEAP")]
        return sorted(found, key=lambda it: it.address)

    def object_at(self, address: int) -> Symbol | None:
        """The object that an address lies in."""
        inside = [it for it in self.objects() if it.address <= address < it.address + max(it.size, 1)]
        return inside[-1] if inside else None

    def table_entry(self, address: int) -> int | None:
        """What an entry of the global offset table holds."""
        section = self.section_at(address)
        return self.read(address, 8) if section is not None and section.name.startswith(TABLE_ENTRY) else None

    def is_address(self, number: int) -> bool:
        """Whether a number is an address of the placed object."""
        return self.section_at(number) is not None

    def offset_in_section(self, address: int) -> int:
        """The address as `objdump -d` prints it."""
        section = self.section_at(address)
        return address if section is None else address - section.address


class Placer:
    """Reads an object file and places it."""

    def __init__(self, path: pathlib.Path) -> None:
        self.path = path
        self.raw = bytearray(path.read_bytes())
        try:
            self.elf = ELFFile(io.BytesIO(bytes(self.raw)))
        except ELFError as error:
            raise Refusal(f"{path} is no ELF file: {error}") from None
        if self.elf["e_machine"] != "EM_X86_64":
            raise Refusal(f"{path} is not for x86-64")
        if self.elf["e_type"] != "ET_REL":
            raise Refusal(f"{path} is linked; an object file is read, as `cc -c` writes it")
        self.made = ObjectFile()
        self.next = BASE
        self.places: dict[int, int] = {}
        self.values: list[int] = []
        self.table: dict[int, int] = {}

    def place(self) -> ObjectFile:
        """All steps, in order."""
        self.place_sections()
        self.place_symbols()
        self.relocate()
        self.made.patched = bytes(self.raw)
        return self.made

    def new_section(self, name: str, data: bytearray, is_code: bool, is_writable: bool) -> Section:
        """Places bytes behind all others, with a gap."""
        section = Section(name, self.next, data, is_code, is_writable)
        self.made.sections.append(section)
        self.next += (len(data) + GAP + 0xFFFF) & ~0xFFFF
        return section

    def place_sections(self) -> None:
        for number, section in enumerate(self.elf.iter_sections()):
            flags = section["sh_flags"]
            if not flags & ALLOCATED or flags & THREAD_LOCAL or section.name.startswith((".eh_frame", ".note")):
                continue
            size = section["sh_size"]
            data = bytearray(size) if section["sh_type"] == "SHT_NOBITS" else bytearray(section.data())
            placed = self.new_section(section.name, data, bool(flags & EXECUTABLE), bool(flags & WRITABLE))
            self.places[number] = placed.address

    def place_symbols(self) -> None:
        table = next((it for it in self.elf.iter_sections() if it["sh_type"] == "SHT_SYMTAB"), None)
        if table is None:
            raise Refusal(f"{self.path} has no symbol table")
        for number, symbol in enumerate(table.iter_symbols()):
            address = self.address_of(symbol)
            self.values.append(address)
            start = table["sh_offset"] + number * SYMBOL_SIZE + 8
            if isinstance(symbol["st_shndx"], int) and symbol["st_shndx"] in self.places:
                self.raw[start : start + 8] = struct.pack("<Q", address)

    def address_of(self, symbol: "object") -> int:
        """Where a symbol lies; one that is not defined here gets an address of its own."""
        index, name = symbol["st_shndx"], symbol.name  # type: ignore[index,attr-defined]
        value, size = int(symbol["st_value"]), int(symbol["st_size"])  # type: ignore[index]
        kind = str(symbol["st_info"]["type"]).removeprefix("STT_")  # type: ignore[index]
        if index == "SHN_COMMON":
            placed = self.new_section(f"common {name}", bytearray(size), False, True)
            self.made.symbols[name] = Symbol(name, placed.address, size, "COMMON")
            return placed.address
        if index == "SHN_UNDEF":
            if not name:
                return 0
            placed = self.new_section(f"external {name}", bytearray(16), False, False)
            self.made.externals[placed.address] = name
            return placed.address
        if not isinstance(index, int):
            return value
        address = self.places.get(index, 0) + value
        if name and index in self.places and kind != "SECTION":
            key = name if name not in self.made.symbols else f"{name}@{address:x}"
            self.made.symbols[key] = Symbol(name, address, size, kind)
        return address

    def relocate(self) -> None:
        for section in self.elf.iter_sections():
            if section["sh_type"] == "SHT_RELA" and section["sh_info"] in self.places:
                for relocation in section.iter_relocations():
                    self.apply(relocation, self.places[section["sh_info"]])

    def apply(self, relocation: "object", base: int) -> None:
        """Applies one relocation of a placed section."""
        name = RELOCATION_NAMES.get(relocation["r_info_type"], "unknown")  # type: ignore[index]
        place = base + int(relocation["r_offset"])  # type: ignore[index]
        value, addend = self.values[relocation["r_info_sym"]], int(relocation["r_addend"])  # type: ignore[index]
        if name in ABSOLUTE:
            size, number = ABSOLUTE[name], value + addend
            self.made.pointers[place] = number
        elif name in RELATIVE:
            size, number = RELATIVE[name], value + addend - place
        elif name in THROUGH_TABLE:
            size, number = THROUGH_TABLE[name], self.entry_for(value) + addend - place
        elif name == "R_X86_64_NONE":
            return
        else:
            self.made.unsupported[place] = name
            return
        self.made.write(place, (number % 2 ** (8 * size)).to_bytes(size, "little"))

    def entry_for(self, address: int) -> int:
        """The entry of the global offset table that holds an address."""
        if address not in self.table:
            entry = self.new_section(f"{TABLE_ENTRY}{address:x}", bytearray(address.to_bytes(8, "little")), False, False)
            self.table[address] = entry.address
        return self.table[address]


def read_object(path: pathlib.Path) -> ObjectFile:
    """The object of a file, placed and relocated."""
    return Placer(path).place()
