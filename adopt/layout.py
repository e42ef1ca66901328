"""Which array of the text, and which index, an access to an object means: one array for each field."""

import re
from dataclasses import dataclass, field

from .debuginfo import DebugInfo, Member, Type
from .objectfile import ObjectFile, Symbol
from .refusing import Refusal

LONGEST_NAME = 32


@dataclass(frozen=True)
class Cell:
    """A field in all items of an array, or alone where the count is 1: what becomes an array of the text."""

    object: Symbol
    path: str = field(compare=False)
    start: int
    stride: int
    count: int

    def address(self, index: int) -> int:
        """Where the field of one item lies."""
        return self.start + index * self.stride


@dataclass(frozen=True)
class Access:
    """A cell, the constant part of its index, and the stride that the rest of the index is counted in."""

    cell: Cell
    index: int


@dataclass(frozen=True)
class Field:
    """A field that --layout names: so many items of so many bytes, each so far behind the other."""

    name: str
    offset: int
    size: int
    count: int
    stride: int


FIELD = re.compile(r"(\w+):(\w+):([1248])(?:\*(\d+)(?:/(\d+))?)?")


def read_layout(word: str) -> tuple[str, list[Field]]:
    """An object and its fields, as `ring=head:0:8,slots:64:8*4/16`."""
    name, _, fields = word.partition("=")
    made = []
    for part in fields.split(","):
        found = FIELD.fullmatch(part.strip())
        if not name or found is None:
            raise Refusal(f"--layout wants OBJECT=NAME:OFFSET:SIZE*COUNT/STRIDE,.., not {word}")
        size, count = int(found[3]), int(found[4] or 1)
        made.append(Field(found[1], int(found[2], 0), size, count, int(found[5] or size)))
    return name, made


def by_hand(found: Symbol, fields: list[Field], offset: int, strides: list[int], size: int) -> Access:
    """The access to a field that --layout names."""
    for it in fields:
        at, rest = divmod(offset - it.offset, it.stride)
        if rest == 0 and 0 <= at < it.count and size <= it.size and all(step % it.stride == 0 for step in strides):
            stride = it.stride if it.count > 1 else 0
            return Access(Cell(found, it.name, found.address + it.offset, stride, it.count), at)
    raise Refusal(f"--layout has no field of {found.name} at {offset:#x} with {size} bytes")


@dataclass
class Layout:
    """Finds cells by the types of the objects."""

    placed: ObjectFile
    debug: DebugInfo
    given: dict[str, list["Field"]] = field(default_factory=dict)
    types: dict[int, Type] = field(default_factory=dict)

    def __post_init__(self) -> None:
        self.types = dict(self.debug.objects)

    def access(self, start: int, strides: list[int], size: int) -> Access:
        """The cell of an access of so many bytes: a constant address, and what each index is multiplied by."""
        found = self.placed.object_at(start)
        if found is None:
            raise Refusal(f"no object of the object file lies at {start:#x}")
        given = self.given.get(found.name)
        if given is not None:
            return by_hand(found, given, start - found.address, strides, size)
        made = self.types.get(found.address)
        if (made is None or made.size == 0) and found.kind == "HEAP":
            made = Type("array", "", found.size, item=Type("base", "", size), count=found.size // size)
        if made is None or made.size == 0:
            if strides:
                raise Refusal(f"the debug information has no type of {found.name}, and it is accessed with an index: give --layout")
            return Access(Cell(found, f"{start - found.address:x}", start, 0, 1), 0)
        return self.descend(found, made, start - found.address, strides, size)

    def descend(self, found: Symbol, type_: Type, offset: int, strides: list[int], size: int) -> Access:
        """Goes down from a struct or an array to the field of the access."""
        at, path, left = found.address, [], list(strides)
        index = stride = 0
        count = 1
        while not (type_.kind in ("base", "pointer") or (offset == 0 and type_.size == size and not left and type_.kind == "struct")):
            if type_.kind == "array":
                item = type_.item
                if item is None or item.size == 0:
                    raise Refusal(f"{found.name} has an array of which no item's size is known")
                if item.size < size and type_.size >= size:
                    type_ = as_words(type_, size)
                    continue
                is_index = count == 1 and not stride and all(it % item.size == 0 for it in left) and (type_.count > 1 or bool(left))
                if is_index:
                    index, stride, count, left = offset // item.size, item.size, type_.count, []
                else:
                    path.append(str(offset // item.size)) if type_.count > 1 else None
                    at += offset // item.size * item.size
                type_, offset = item, offset % item.size
            else:
                inner = member_at(type_, offset, size)
                if inner is None:
                    path.append(f"{offset:x}")
                    break
                path += [inner.name] if inner.name and len(real_members(type_)) > 1 else []
                at, offset, type_ = at + inner.offset, offset - inner.offset, inner.type
        if left:
            raise Refusal(f"an index into {found.name} is no whole number of items")
        if offset and type_.kind in ("base", "pointer"):
            path.append(f"byte{offset}")
        cell = Cell(found, "_".join(path), at + offset, stride, count)
        return Access(cell, index)

    def own_name(self, cell: Cell) -> str:
        """The name of a cell's object."""
        return clean(self.debug.names.get(cell.object.address) or cell.object.name)

    def names(self, cells: list[Cell]) -> dict[Cell, str]:
        """A name for each cell: its path, with the object's name in front where the path is empty or not its alone."""
        short = {it: clean(it.path) for it in cells}
        names: dict[Cell, str] = {}
        for cell in cells:
            own = self.own_name(cell)
            is_alone = short[cell] and [it for it in cells if short[it] == short[cell]] == [cell]
            name = short[cell] if is_alone else "_".join(it for it in (own, short[cell]) if it)
            names[cell] = unused(name, set(names.values()))
        return names


def as_words(type_: Type, size: int) -> Type:
    """Storage that is declared as bytes, as words of the size of an access; one word where it has just that size."""
    word = Type("base", "", size)
    return word if type_.size == size else Type("array", "", type_.size, item=word, count=type_.size // size)


def real_members(type_: Type) -> list[str]:
    """The members of a struct that have a size."""
    return [it.name for it in type_.members if it.type.size]


def member_at(type_: Type, offset: int, size: int) -> Member | None:
    """The member that an access lies in; of a union the first with a field of just this place and size, else the largest."""
    inside = [it for it in type_.members if it.offset <= offset and offset + size <= it.offset + it.type.size]
    exact = [it for it in inside if has_field(it.type, offset - it.offset, size)]
    if not inside:
        return None
    return exact[0] if exact else max(inside, key=lambda it: it.type.size)


def has_field(type_: Type, offset: int, size: int) -> bool:
    """Whether a type has a field of this place and size."""
    if type_.kind in ("base", "pointer"):
        return offset == 0 and type_.size == size
    if type_.kind == "array" and type_.item is not None and type_.item.size:
        return has_field(type_.item, offset % type_.item.size, size)
    return any(
        has_field(it.type, offset - it.offset, size) for it in type_.members if it.offset <= offset < it.offset + max(it.type.size, 1)
    )


def clean(name: str) -> str:
    """A name of letters, digits and `_`."""
    name = re.sub(r"_M_|__+", "_", re.sub(r"\W+", "_", name)).strip("_")
    name = f"n{name}" if name[:1].isdigit() else name
    return name[-LONGEST_NAME:].lstrip("_0123456789") if len(name) > LONGEST_NAME else name


def unused(name: str, taken: set[str]) -> str:
    """The name, or with a number behind it."""
    made, number = name or "word", 2
    while made in taken:
        made, number = f"{name[: LONGEST_NAME - 3]}_{number}", number + 1
    return made
