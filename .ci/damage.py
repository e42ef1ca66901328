"""Damage for .ci/fuzz: texts, traces and certificates that are damaged, by their bytes, by their words, or inside by their parts. All chance
comes from the generator that is handed in."""

import copy
import re

import certificates
from making import EDGES

# Damage of any bytes.


def damaged_bytes(rng, whole, other, alphabet):
    """Bytes with one piece changed, put in or left out. What comes in is of an alphabet, or a piece of other bytes."""
    at = rng.randrange(len(whole) + 1)
    span = rng.choice((1, 1, 1, 2, 8, 64))
    piece = bytes(rng.choice(alphabet) for _ in range(span))
    kind = rng.randrange(8)
    if kind == 0:
        return whole[:at] + bytes([whole[at] ^ 1 << rng.randrange(8)]) + whole[at + 1 :] if at < len(whole) else whole[:-1]
    if kind == 1:
        return whole[:at] + piece + whole[at + span :]
    if kind == 2:
        return whole[:at] + piece + whole[at:]
    if kind == 3:
        return whole[:at] + whole[at + span :]
    if kind == 4:
        return whole[:at]
    if kind == 5:
        return whole[:at] + whole[max(0, at - span) :]
    if kind == 6:
        begin = rng.randrange(len(other) + 1)
        return whole[:at] + other[begin : begin + span] + whole[at + span * rng.randrange(2) :]
    return whole[:at] + whole[at : at + 1] * rng.choice((2, 64, 300)) + whole[at + 1 :]


PRINTABLE = bytes(range(32, 127)) + b"\t\n\n"


def damaged_text(rng, text, other):
    """A text damaged byte by byte or token by token, perhaps grown beyond the limit."""
    whole, other = text.encode(), other.encode()
    if rng.randrange(30) == 0:
        return whole + b";" + b"x" * (65_536 - len(whole) - rng.choice((0, 1, 2)))
    for _ in range(rng.choice((1, 1, 2))):
        if rng.randrange(2):
            whole = damaged_bytes(rng, whole, other, PRINTABLE if rng.randrange(4) else bytes(range(256)))
        else:
            whole = damaged_tokens(rng, whole, other)
    return whole


TOKENS = re.compile(rb"[.\w]+|\s+|[^.\w\s]")


def damaged_tokens(rng, whole, other):
    """A text with one token left out, doubled, exchanged, or put in from elsewhere."""
    tokens, others = TOKENS.findall(whole), TOKENS.findall(other) or [b"0"]
    if len(tokens) < 2:
        return whole + b"0"
    at, new = rng.randrange(len(tokens)), rng.choice((rng.choice(others), str(rng.choice(EDGES)).encode(), rng.choice(tokens)))
    kind = rng.randrange(5)
    if kind == 0:
        del tokens[at]
    elif kind == 1:
        tokens.insert(at, tokens[at])
    elif kind == 2:
        tokens.insert(at, new)
    elif kind == 3:
        again = rng.randrange(len(tokens))
        tokens[at], tokens[again] = tokens[again], tokens[at]
    else:
        tokens[at] = new
    return b"".join(tokens)


# Damage of traces.


def damaged_trace(rng, whole, other):
    """A trace with a label more, less or elsewhere, with another number in one, or damaged as any text."""
    kind = rng.randrange(8)
    if kind == 0:
        return damaged_bytes(rng, whole, other, PRINTABLE if rng.randrange(4) else bytes(range(256)))
    if kind == 1:
        return damaged_tokens(rng, whole, other)
    lines = whole.decode().splitlines()
    others = other.decode().splitlines()
    if len(lines) < 3:
        return whole + b"0 reg\n"
    at = rng.randrange(1, len(lines))
    if kind == 2:
        del lines[at]
    elif kind == 3:
        lines.insert(at, rng.choice(lines[1:] + others[1:]))
    elif kind == 4:
        lines[1:] = lines[1 : rng.randrange(1, len(lines))]
    elif kind == 5:
        moved = lines.pop(at)
        lines.insert(min(len(lines), at + rng.choice((1, 1, 2, 3))), moved)
    elif kind == 6:
        lines[at] = f"{rng.randrange(4)} {lines[at].partition(' ')[2]}"
    else:
        numbers = list(re.finditer(r"\d+", lines[at]))
        found = rng.choice(numbers)
        new = rng.choice(EDGES + [2**64, int(found.group()) + 1])
        lines[at] = lines[at][: found.start()] + str(new) + lines[at][found.end() :]
    return "".join(f"{line}\n" for line in lines).encode()


# Damage of certificates, inside their records. All parts are lists here, so that they can be changed where they stand.


def thawed(it):
    return [thawed(part) for part in it] if isinstance(it, (list, tuple)) else it


def all_of(items):
    return [(items, at) for at in range(len(items))]


def numbers_of(record):
    """Where the numbers of a record stand that tell no case: lists, and places in them."""
    (memory, threads, calls), (case, items) = record
    found = all_of(memory)
    for core, buffer in threads:
        if core[0] == 1:
            found += [(core, 1), *all_of(core[2]), (core, 3), *all_of(core[4])]
        found += [place for store in buffer for place in all_of(store)]
    for kind, seen, answer in (call for list_ in calls for call in list_):
        found += all_of(kind)[1:] + all_of(seen) + all_of(answer)[1:]
    for item in items:
        found += [(item, 0)] if case == 0 else [(item, 0), (item, 1), *all_of(item[2])[1:]]
    return found


def lists_of(record):
    """The lists of a record."""
    (memory, threads, calls), (case, items) = record
    found = [memory, threads, calls, *calls, items]
    found += [buffer for _, buffer in threads] + [core[4] for core, _ in threads if core[0] == 1]
    found += [call[1] for list_ in calls for call in list_]
    return found + ([choice[1] for choice in items] if case == 0 else [])


def other_number(rng, record):
    found = numbers_of(record)
    if found:
        items, at = rng.choice(found)
        again, place = rng.choice(found)
        items[at] = rng.choice((max(0, items[at] - 1), items[at] + 1, rng.randrange(4), again[place], rng.choice(EDGES)))


def other_list(rng, record):
    """A list of a record with an item less, one twice, or two exchanged."""
    filled = [it for it in lists_of(record) if it]
    if not filled:
        return
    items = rng.choice(filled)
    at, again = rng.randrange(len(items)), rng.randrange(len(items))
    kind = rng.randrange(3)
    if kind == 0:
        del items[at]
    elif kind == 1:
        items.insert(again, copy.deepcopy(items[at]))
    else:
        items[at], items[again] = items[again], items[at]


def other_case(rng, record):
    """A core, a kind of a call or an answer of another case."""
    (_, threads, calls), (case, items) = record
    cores = [thread for thread in threads]
    inside = [call for list_ in calls for call in list_]
    kind = rng.randrange(4)
    if kind == 0 and cores:
        thread = rng.choice(cores)
        running = [1, rng.randrange(4), [rng.randrange(3) for _ in range(15)], rng.randrange(16), []]
        thread[0] = rng.choice(([0], [2], running))
    elif kind == 1 and inside:
        rng.choice(inside)[0] = rng.choice(([0, rng.randrange(9)], [1]))
    elif kind == 2 and inside:
        rng.choice(inside)[2] = rng.choice(([0], [1], [2], [3, rng.randrange(9)]))
    elif case == 1 and items:
        rng.choice(items)[2] = rng.choice(([1], [2], [3, rng.randrange(9)]))


def other_end(rng, record):
    """Other choices or another order."""
    case, items = record[1]
    threads = len(record[0][1])
    kind = rng.randrange(4)
    if kind == 0:
        record[1] = [1 - case, []]
    elif case == 0 and items and kind < 3:
        choice = rng.choice(items)
        if choice[1] and rng.randrange(3):
            choice[1][rng.randrange(len(choice[1]))] = rng.randrange(6)
        else:
            choice[0] = rng.randrange(2 * threads + 1)
    elif case == 0:
        items.append([rng.randrange(2 * threads + 1), [rng.randrange(6) for _ in range(max(0, threads - 1))]])
        items.sort()
    else:
        entries = order_of(record[0][2])
        rng.shuffle(entries)
        record[1] = [1, entries]


def stopped(rng, record):
    """A thread is stopped in its last call, with nothing in its buffer, and the record has an order of the calls that returned."""
    (_, threads, calls), _ = record
    begun = [at for at, list_ in enumerate(calls[: len(threads)]) if list_]
    if begun:
        at = rng.choice(begun)
        threads[at][:] = [[2], []]
        calls[at][-1][2] = [0]
        record[1] = [1, order_of(calls)]


def order_of(calls):
    """The calls that returned, thread by thread, as an order."""
    return [[it, at, call[2]] for it, list_ in enumerate(calls) for at, call in enumerate(list_) if call[2][0]]


def other_record(rng, record):
    """A record with one thing changed."""
    new = copy.deepcopy(record)
    rng.choice((other_number, other_number, other_list, other_case, other_end, other_end, stopped))(rng, new)
    return new


def between(rng, below, above):
    """A state that is above one and at most the other, often another one than that."""
    for _ in range(6):
        record = [copy.deepcopy(above), [1, []]]
        other_number(rng, record)
        if (below is None or below < record[0]) and record[0] <= above:
            return record[0]
    return above


def grown(rng, records, is_first, depth=0):
    """A tree of these records, cut at random; the state of a fork is the first one of its right half, or one that serves as well."""
    if len(records) < 2 or (len(records) <= 64 and rng.randrange(3) == 0):
        return [0, records]
    middle = rng.randrange(0 if rng.randrange(9) == 0 and depth < 9 else 1, len(records)) if depth < 50 else len(records) // 2
    left, right = records[:middle], records[middle:]
    state = right[0][0] if is_first else between(rng, left[-1][0] if left else None, right[0][0])
    return [1, grown(rng, left, is_first, depth + 1), state, grown(rng, right, is_first, depth + 1)]


def mended(rng, records):
    """A tree of these records, in the order of their states and each state once."""
    kept = []
    for record in sorted(records, key=lambda it: it[0]):
        if not kept or kept[-1][0] != record[0]:
            kept.append(record)
    return grown(rng, kept, rng.randrange(3) > 0)


def leaves_of(tree):
    return [tree] if tree[0] == 0 else leaves_of(tree[1]) + leaves_of(tree[3])


def forks_of(tree):
    return [] if tree[0] == 0 else [tree, *forks_of(tree[1]), *forks_of(tree[3])]


def other_intervals(rng, table):
    """One interval of a table with another end, one list of cells with a cell less, or an item less."""
    items = rng.choice([it for it in table if it])
    item, kind = rng.choice(items), rng.randrange(4)
    if kind == 0:
        items.remove(item)
    elif kind == 1 and item[1 + rng.randrange(2)]:
        rng.choice([it for it in item[1:] if it]).pop()
    else:
        ends = rng.choice(item[0])
        ends[rng.randrange(2)] = rng.choice((0, 1, ends[0], ends[1], certificates.WORD))


def other_table(rng, table):
    """One mask of a table with another bit, an item more or less, or the same bit in all of them."""
    if any(len(it) == 3 for part in table for it in part):
        return other_intervals(rng, table)
    items = rng.choice([it for it in table if it] or [[[0, 0]]])
    kind = rng.randrange(4)
    bit = 1 << rng.choice((0, 0, 1, 1, 2, 3, 15, 16))
    if kind == 0:
        items.append([0, 0])
    elif kind == 1:
        for item in (it for part in table for it in part):
            item[rng.randrange(2)] |= bit
    else:
        item = rng.choice(items)
        item[rng.randrange(2)] ^= bit


def other_tree(rng, tree):
    """A tree with one record more, less or elsewhere, another state of a fork, or a fork more, and nothing else set right."""
    leaves, forks, kind = leaves_of(tree), forks_of(tree), rng.randrange(6)
    leaf = rng.choice([it for it in leaves if it[1]] or leaves)
    if kind == 0 and forks:
        record = [rng.choice(forks)[2], [1, []]]
        other_number(rng, record)
    elif kind == 1 and leaf[1]:
        leaf[1].append(leaf[1].pop(rng.randrange(len(leaf[1]))))
    elif kind == 2 and leaf[1]:
        leaf[1].insert(rng.randrange(len(leaf[1])), copy.deepcopy(rng.choice(leaf[1])))
    elif kind == 3 and leaf[1]:
        at = rng.randrange(len(leaf[1]))
        leaf[:] = [1, [0, leaf[1][:at]], copy.deepcopy(leaf[1][at][0]), [0, leaf[1][at:]]]
    elif kind == 4 and leaf[1]:
        state = copy.deepcopy(leaf[1][0][0])
        for _ in range(rng.choice((1, 3, 62, 63, 64))):
            leaf[:] = [1, [0, []], state, list(leaf)]
    elif leaf[1]:
        del leaf[1][rng.randrange(len(leaf[1]))]
    return tree


def other_records(rng, records, others):
    """Records with one changed, left out, added, or taken from another certificate; set right behind that by `mended`."""
    at, kind = rng.randrange(len(records)), rng.randrange(7)
    if kind == 0:
        del records[at]
    elif kind == 1:
        records.append(other_record(rng, records[at]))
    elif kind == 2 and others:
        records.append(rng.choice(others))
    elif kind == 3:
        ends = [it for it in records if it[1][0] == 1] or records
        records.append(other_record(rng, rng.choice(ends)))
    elif kind != 4:
        records[at] = other_record(rng, records[at])
    return records


def forged(rng, whole, code, number):
    """A certificate in which what was found to be wrong with a record is covered up: the record is left out, or ends in another way."""
    certificate = thawed(certificates.read(whole))
    records = certificates.records(certificate[2])
    if code in ("K06", "K07", "K08") and rng.randrange(3):
        other_end(rng, records[number])
    else:
        del records[number]
    certificate[2] = mended(rng, records)
    return certificates.spell(certificate, whole[:4])


def damaged_certificate(rng, whole, other):
    """A certificate damaged by its bytes, or inside by its parts, where both can be read."""
    if rng.randrange(4) == 0:
        return damaged_bytes(rng, whole, other, bytes(range(256)) if rng.randrange(2) else b"\x00\x01\x02\x03\x7f\x80\xff")
    certificate, records = thawed(certificates.read(whole)), []
    if rng.randrange(3) == 0:
        records = certificates.records(thawed(certificates.read(other))[2])
    kind = rng.randrange(8)
    if kind == 0:
        other_table(rng, certificate[:2])
    elif kind == 1:
        certificate[2] = other_tree(rng, certificate[2])
    elif kind == 2:
        leaf = rng.choice(leaves_of(certificate[2]))
        if leaf[1]:
            at = rng.randrange(len(leaf[1]))
            leaf[1][at] = other_record(rng, leaf[1][at])
    else:
        certificate[2] = mended(rng, other_records(rng, certificates.records(certificate[2]), records))
    return certificates.spell(certificate, whole[:4])
