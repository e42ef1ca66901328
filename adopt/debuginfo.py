"""What the debug information says: the types of objects, the signatures of functions, and the source line of an address."""

import bisect
import io
import pathlib
from dataclasses import dataclass, field
from typing import Any

from elftools.construct import StaticField  # type: ignore[import]
from elftools.dwarf.die import DIE  # type: ignore[import]
from elftools.elf.elffile import ELFFile  # type: ignore[import]

from .objectfile import ObjectFile

TRANSPARENT = {"DW_TAG_typedef", "DW_TAG_const_type", "DW_TAG_volatile_type", "DW_TAG_atomic_type", "DW_TAG_restrict_type"}
AGGREGATES = {"DW_TAG_structure_type", "DW_TAG_class_type", "DW_TAG_union_type"}
POINTERS = {"DW_TAG_pointer_type", "DW_TAG_reference_type", "DW_TAG_rvalue_reference_type"}
ADDRESS, ADDRESS_INDEX = 0x03, 0xA1


@dataclass
class Type:
    """A type: a base, a pointer, an array with the count and type of its items, or a struct with its members."""

    kind: str
    name: str
    size: int
    members: list["Member"] = field(default_factory=list)
    item: "Type | None" = None
    count: int = 0


@dataclass(frozen=True)
class Member:
    """A field of a struct."""

    name: str
    offset: int
    type: Type


@dataclass(frozen=True)
class Function:
    """A function's parameters, and what it answers; None where it answers nothing."""

    name: str
    parameters: tuple[Type, ...]
    answer: Type | None


class DebugInfo:
    """Reads the debug information of a placed object."""

    def __init__(self, placed: ObjectFile) -> None:
        elf = ELFFile(io.BytesIO(placed.patched))
        self.placed = placed
        self.dwarf = elf.get_dwarf_info(relocate_dwarf_sections=True) if elf.has_dwarf_info() else None
        self.types: dict[int, Type] = {}
        self.objects: dict[int, Type] = {}
        self.names: dict[int, str] = {}
        self.functions: dict[str, Function] = {}
        self.lines: list[tuple[int, str, int]] = []
        self.starts: list[int] = []
        self.inlined: list[tuple[int, int, str]] = []
        if self.dwarf is not None:
            self.read()

    @property
    def is_there(self) -> bool:
        return bool(self.objects or self.functions)

    def read(self) -> None:
        assert self.dwarf is not None
        for unit in self.dwarf.iter_CUs():
            for die in unit.iter_DIEs():
                if die.tag == "DW_TAG_variable":
                    self.read_variable(die)
                elif die.tag == "DW_TAG_subprogram":
                    self.read_function(die)
            files = self.read_lines(unit)
            self.read_inlined(unit, files)
        self.lines.sort()
        self.starts = [it[0] for it in self.lines]

    # Variables and functions.

    def read_variable(self, die: DIE) -> None:
        location = die.attributes.get("DW_AT_location")
        if location is None or not location.form.startswith(("DW_FORM_exprloc", "DW_FORM_block")):
            return
        address = self.address_in(die, list(location.value))
        origin = die.get_DIE_from_attribute("DW_AT_specification") if "DW_AT_specification" in die.attributes else die
        found = self.type_of(origin)
        if address is not None and found is not None and self.placed.section_at(address):
            self.objects[address] = found
            self.names[address] = text_of(origin, "DW_AT_name") or text_of(die, "DW_AT_linkage_name")

    def address_in(self, die: DIE, expression: list[int]) -> int | None:
        """The address that a location has."""
        if len(expression) == 9 and expression[0] == ADDRESS:
            return int.from_bytes(bytes(expression[1:]), "little")
        if expression and expression[0] == ADDRESS_INDEX and self.dwarf is not None:
            index = shift = 0
            for byte in expression[1:]:
                index |= (byte & 127) << shift
                shift += 7
            return int(self.dwarf.get_addr(die.cu, index))
        return None

    def read_function(self, die: DIE) -> None:
        if "DW_AT_low_pc" not in die.attributes and "DW_AT_ranges" not in die.attributes:
            return
        origin = die
        for name in ("DW_AT_specification", "DW_AT_abstract_origin"):
            if name in die.attributes:
                origin = die.get_DIE_from_attribute(name)
        name = text_of(die, "DW_AT_linkage_name") or text_of(origin, "DW_AT_linkage_name") or text_of(origin, "DW_AT_name")
        parameters = [self.type_of(it) for it in die.iter_children() if it.tag == "DW_TAG_formal_parameter"]
        known = tuple(it if it is not None else Type("base", "unknown", 8) for it in parameters)
        self.functions[name] = Function(name, known, self.type_of(origin))

    # Types.

    def type_of(self, die: DIE) -> Type | None:
        """The type that an entry names."""
        if "DW_AT_type" not in die.attributes:
            if "DW_AT_abstract_origin" in die.attributes:
                return self.type_of(die.get_DIE_from_attribute("DW_AT_abstract_origin"))
            return None
        return self.type_at(die.get_DIE_from_attribute("DW_AT_type"))

    def type_at(self, die: DIE) -> Type | None:
        if die.offset in self.types:
            return self.types[die.offset]
        if die.tag in TRANSPARENT:
            return self.type_of(die)
        name = text_of(die, "DW_AT_name")
        made = Type("base", name, number_of(die, "DW_AT_byte_size"))
        self.types[die.offset] = made
        if die.tag in AGGREGATES:
            made.kind = "struct"
            made.members = self.members_of(die)
        elif die.tag in POINTERS:
            made.kind, made.size, made.item = "pointer", 8, self.type_of(die)
        elif die.tag == "DW_TAG_array_type":
            self.read_array(die, made)
        return made

    def read_array(self, die: DIE, made: Type) -> None:
        made.kind, item = "array", self.type_of(die)
        counts = [self.count_of(it) for it in die.iter_children() if it.tag == "DW_TAG_subrange_type"]
        for count in reversed(counts[1:]):
            item = Type("array", "", (item.size if item else 0) * count, item=item, count=count)
        made.item, made.count = item, counts[0] if counts else 0
        made.size = made.count * (item.size if item else 0)

    @staticmethod
    def count_of(die: DIE) -> int:
        if "DW_AT_count" in die.attributes:
            return number_of(die, "DW_AT_count")
        return number_of(die, "DW_AT_upper_bound", -1) + 1

    def members_of(self, die: DIE) -> list[Member]:
        found: list[Member] = []
        for child in die.iter_children():
            if child.tag in ("DW_TAG_member", "DW_TAG_inheritance") and "DW_AT_external" not in child.attributes:
                if "DW_AT_bit_size" in child.attributes:
                    continue
                inner = self.type_of(child)
                if inner is not None:
                    found.append(Member(text_of(child, "DW_AT_name"), number_of(child, "DW_AT_data_member_location"), inner))
            elif child.tag == "DW_TAG_variant_part":
                for variant in child.iter_children():
                    found += self.members_of(variant)
        return found

    # Lines.

    def read_inlined(self, unit: Any, files: list[str]) -> None:
        """Where functions are inlined into the unit's own file."""
        own = name_of(text_of(unit.get_top_DIE(), "DW_AT_name").split("/@/")[0])
        for die in unit.iter_DIEs():
            if die.tag != "DW_TAG_inlined_subroutine" or "DW_AT_call_line" not in die.attributes:
                continue
            at = number_of(die, "DW_AT_call_file")
            if 0 <= at < len(files) and files[at] == own:
                line = f"{own}:{number_of(die, 'DW_AT_call_line')}"
                self.inlined += [(start, end, line) for start, end in self.ranges_of(die, unit)]

    def ranges_of(self, die: DIE, unit: Any) -> list[tuple[int, int]]:
        """The addresses of an entry."""
        low, high, ranges = (die.attributes.get(f"DW_AT_{it}") for it in ("low_pc", "high_pc", "ranges"))
        if low is not None and high is not None:
            return [(low.value, high.value if high.form == "DW_FORM_addr" else low.value + high.value)]
        lists = self.dwarf.range_lists() if self.dwarf is not None else None
        if ranges is None or lists is None or ranges.form != "DW_FORM_sec_offset":
            return []
        base = number_of(unit.get_top_DIE(), "DW_AT_low_pc")
        found = []
        for entry in lists.get_range_list_at_offset(ranges.value, unit):
            if hasattr(entry, "base_address"):
                base = entry.base_address
            else:
                start = 0 if getattr(entry, "is_absolute", False) else base
                found.append((start + entry.begin_offset, start + entry.end_offset))
        return found

    def read_lines(self, unit: Any) -> list[str]:
        """The lines of a unit. Returns the names of its files, by number."""
        # pyelftools 0.29 does not know the form of the sums that clang writes beside file names.
        unit.structs.Dwarf_dw_form.setdefault("DW_FORM_data16", StaticField("", 16))
        program = self.dwarf.line_program_for_CU(unit) if self.dwarf is not None else None
        if program is None:
            return []
        first = 0 if program.header["version"] >= 5 else 1
        files = [name_of(it.name) for it in program.header["file_entry"]]
        for entry in program.get_entries():
            state = entry.state
            if state is None:
                continue
            at = state.file - first
            name = files[at] if 0 <= at < len(files) else "?"
            self.lines.append((state.address, "" if state.end_sequence else name, state.line))
        return [""] * first + files

    def line_of(self, address: int) -> str:
        """The source line of an address, as `ring.cpp:12`."""
        at = bisect.bisect_right(self.starts, address) - 1
        if at < 0 or not self.lines[at][1]:
            return ""
        return f"{self.lines[at][1]}:{self.lines[at][2]}"

    def lines_of(self, address: int) -> list[str]:
        """The line of the author's own file that an address comes from, and that of the function it is inlined from."""
        line = self.line_of(address)
        around = [(end - start, its) for start, end, its in self.inlined if start <= address < end]
        own = min(around)[1] if around else line
        return [own] if own == line or not line or line.split(":")[0] == own.split(":")[0] else [own, line]


def name_of(name: bytes | str) -> str:
    """The last part of a path."""
    return pathlib.PurePath(name.decode(errors="replace") if isinstance(name, bytes) else name).name


def text_of(die: DIE, attribute: str) -> str:
    """A string of an entry, or nothing."""
    found = die.attributes.get(attribute)
    return "" if found is None else str(found.value.decode(errors="replace"))


def number_of(die: DIE, attribute: str, default: int = 0) -> int:
    """A number of an entry."""
    found = die.attributes.get(attribute)
    return found.value if found is not None and isinstance(found.value, int) else default
