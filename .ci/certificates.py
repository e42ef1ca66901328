"""Certificates as docs/FORMATS.md spells them: read into numbers, tuples and lists, and spelled from these. Whether one is right is
not asked here. A list of the format is a list; what has several fields or cases is a tuple, with the byte of its case first. So states
are ordered as Python orders them.

  certificate  ([item, ..], [item, ..], tree)    tree     (0, [record, ..]) or (1, tree, state, tree)
  item         (reads, writes)                   record   (state, end)
    of version 2  (15 pairs (least, most), [(array, first, last), ..] of reads, and of writes)
  state        ([word, ..], [thread, ..], [[call, ..], ..])
  thread       (core, [(place, word), ..])       core     (0,), (1, position, 15 words, flags, [count, ..]) or (2,)
  call         (kind, [count, ..], answer)       kind     (0, argument) or (1,)
  end          (0, [choice, ..]) or (1, [entry, ..]); at a crossing (0, [])
  choice       (actor, [reason, ..])             answer   (0,), (1,), (2,) or (3, value)
  entry        (thread, call, answer)
"""

HEAD, CROSSINGS = b"TSOC", b"TSOX"
WORD = (1 << 64) - 1
POSITION, COUNT, FLAGS, MASK = 65_535, 255, 15, 65_535
RECORDS, RECORDS_IN_A_LEAF, FORKS = 4_194_304, 64, 64


class Malformed(Exception):
    """Bytes that are no certificate: its text is the code, K01 or K02."""


class Reader:
    """Reads from the front of bytes, up to the first fault."""

    def __init__(self, whole):
        self.whole, self.at, self.room, self.deepest = whole, 0, RECORDS, 0
        self.crosses = whole.startswith(CROSSINGS)
        self.kept = {}

    def byte(self, cases):
        if self.at >= len(self.whole) or self.whole[self.at] >= cases:
            raise Malformed("K01")
        self.at += 1
        return self.whole[self.at - 1]

    def number(self, most=WORD):
        value, shift = 0, 0
        while True:
            byte = self.byte(256)
            if byte < 128:
                break
            value, shift = value | (byte & 127) << shift, shift + 7
        value |= byte << shift
        if (byte == 0 and shift) or shift > 63 or value > most:
            raise Malformed("K01")
        return value

    def numbers(self, count, most=WORD):
        """So many numbers. Most have one byte each, and then they are taken at once."""
        piece = self.whole[self.at : self.at + count]
        if len(piece) == count and max(piece, default=0) < 128:
            self.at += count
            return list(piece)
        return [self.number(most) for _ in range(count)]

    def items(self, read):
        count, found = self.number(), []
        while len(found) < count:
            found.append(read())
        return found

    def part(self, read):
        """A part of a state, of which most stand in many states: one that begins as one before, and is spelled as that to its end, is
        that."""
        begun = self.at
        mark = (read, self.whole[begun : begun + 16])
        spelled, value = self.kept.get(mark, (None, None))
        if spelled is None or not self.whole.startswith(spelled, begun):
            value = read()
            self.kept[mark] = (self.whole[begun : self.at], value)
        else:
            self.at += len(spelled)
        return value

    def table(self):
        """The head and the two lists of the table, of either version."""
        if not self.whole.startswith((HEAD, CROSSINGS)):
            raise Malformed("K01")
        self.at = len(HEAD)
        version = self.byte(2 if self.crosses else 3)
        if version == 0:
            raise Malformed("K01")
        item = self.masks if version == 1 and not self.crosses else self.intervals
        return self.items(item), self.items(item)

    def masks(self):
        return self.number(MASK), self.number(MASK)

    def cells(self):
        return tuple(self.numbers(3, POSITION))

    def intervals(self):
        words = self.numbers(30)
        return tuple(zip(words[::2], words[1::2])), self.items(self.cells), self.items(self.cells)

    def certificate(self):
        push, pop = self.table()
        tree = self.tree(FORKS)
        if self.at != len(self.whole):
            raise Malformed("K01")
        return push, pop, tree

    def tree(self, forks):
        if self.byte(2) == 0:
            count = self.number()
            if count > min(RECORDS_IN_A_LEAF, self.room):
                raise Malformed("K02")
            self.room -= count
            return 0, [(self.state(), self.end()) for _ in range(count)]
        if forks == 0:
            raise Malformed("K02")
        self.deepest = max(self.deepest, FORKS - forks + 1)
        return 1, self.tree(forks - 1), self.state(), self.tree(forks - 1)

    def state(self):
        return self.words(), self.items(lambda: self.part(self.thread)), self.items(lambda: self.part(self.calls))

    def words(self):
        return self.numbers(self.number())

    def calls(self):
        return self.items(self.call)

    def thread(self):
        return self.core(), self.items(lambda: (self.number(POSITION), self.number()))

    def core(self):
        case = self.byte(3)
        if case != 1:
            return (case,)
        position, words = self.number(POSITION), tuple(self.numbers(15))
        return case, position, words, self.number(FLAGS), self.numbers(self.number(), COUNT)

    def call(self):
        kind = (0, self.number()) if self.byte(2) == 0 else (1,)
        return kind, self.numbers(self.number(), COUNT), self.answer(0)

    def answer(self, least):
        case = self.byte(4)
        if case < least:
            raise Malformed("K01")
        return (case, self.number()) if case == 3 else (case,)

    def end(self):
        if self.byte(2) == 0:
            return 0, [] if self.crosses else self.items(lambda: (self.number(), self.items(lambda: self.byte(6))))
        return 1, self.items(lambda: (self.number(), self.number(), self.answer(1)))


def read(whole):
    """The certificate that bytes spell."""
    return Reader(whole).certificate()


def tree_begins(whole):
    """Where the tree stands in bytes, or none where they have no table."""
    reader = Reader(whole)
    try:
        reader.table()
    except Malformed:
        return None
    return reader.at


def deepest(whole):
    """How many forks stand inside one another in the tree, as far as the bytes can be read."""
    reader = Reader(whole)
    try:
        reader.certificate()
    except Malformed:
        pass
    return reader.deepest


def number(value):
    out = b""
    while value >= 128:
        out, value = out + bytes([value & 127 | 128]), value >> 7
    return out + bytes([value])


def many(items, spell):
    return number(len(items)) + b"".join(map(spell, items))


def pair(it):
    return number(it[0]) + number(it[1])


def item(it):
    if len(it) == 2:
        return pair(it)
    cells = lambda list_: many(list_, lambda piece: b"".join(map(number, piece)))
    return b"".join(map(pair, it[0])) + cells(it[1]) + cells(it[2])


def answer(it):
    return bytes(it[:1]) + b"".join(map(number, it[1:]))


def core(it):
    if it[0] != 1:
        return bytes(it)
    _, position, words, flags, counts = it
    return b"\x01" + number(position) + b"".join(map(number, words)) + number(flags) + many(counts, number)


def call(it):
    kind, seen, given = it
    return answer(kind) + many(seen, number) + answer(given)


def thread(it):
    return core(it[0]) + many(it[1], pair)


def state(it):
    memory, threads, calls = it
    return many(memory, number) + many(threads, thread) + many(calls, lambda list_: many(list_, call))


def end(it, crosses):
    if it[0] == 0 and crosses:
        return b"\x00"
    if it[0] == 0:
        return b"\x00" + many(it[1], lambda choice: number(choice[0]) + many(choice[1], lambda reason: bytes([reason])))
    return b"\x01" + many(it[1], lambda entry: pair(entry) + answer(entry[2]))


def tree(it, crosses):
    if it[0] == 0:
        return b"\x00" + many(it[1], lambda record: state(record[0]) + end(record[1], crosses))
    return b"\x01" + tree(it[1], crosses) + state(it[2]) + tree(it[3], crosses)


def spell(certificate, head=HEAD):
    """The bytes of a certificate, which begins with this head."""
    push, pop, grown = certificate
    version = b"\x02" if head == HEAD and any(len(it) == 3 for it in push + pop) else b"\x01"
    return head + version + many(push, item) + many(pop, item) + tree(grown, head == CROSSINGS)


def records(it):
    """The records of a tree, from left to right."""
    return list(it[1]) if it[0] == 0 else records(it[1]) + records(it[3])
