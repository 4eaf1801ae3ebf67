"""Event files read, and the walks that explain their records, found by trying every walk (docs/FORMATS.md, docs/WALK.md).

Between two records each walk without a record is followed to its end, both ways at each branch. There are few such walks, since
the edges that aren't recorded have no cycle. A walk that was followed is kept as moves that each know the one before, and no list of items is
copied.
"""
import struct

from program import base_of, class_of, computed, line_of, size_of, start_registers, target_of, written_by

STOPPED = ("stopped",)


def words_of_record(record):
    """The numbers of a record in a file."""
    kind, at, rest = record[0], record[1], record[2:]
    number = {"fall": 0, "taken": 1, "value": 2, "landing": 2, "end": 3}[kind]
    if kind == "landing":
        rest = (rest[0],) + tuple(rest[1])
    return [at + number, *rest]


def event_file(schema, records):
    numbers = schema.header() + [number for record in records for number in words_of_record(record)]
    return b"".join(struct.pack("<I", number) for number in numbers)


def record_at(schema, content, offset):
    """The record at an offset and where it ends; `cut` or `bad` where there is none."""
    def number(place):
        return struct.unpack_from("<I", content, place)[0] if place + 4 <= len(content) else None

    first = number(offset)
    if first is None:
        return "cut", offset
    at, kind = first & ~3, first & 3
    word = schema.words.get(at)
    if kind == 3 and (word is not None or at == 0):
        names, end = ("end", at), offset + 12
    elif word is not None and kind < 2 and schema.is_witness(word, ("fall", "taken")[kind]):
        return (("fall", "taken")[kind], at), offset + 4
    elif word is not None and kind == 2 and schema.has_value(word):
        names, end = ("value", at), offset + 8
    elif word is not None and kind == 2 and word.kind == "indirect":
        target = number(offset + 4)
        if target is None:
            return "cut", offset
        count = len(schema.needs(target))
        end = offset + 8 + 4 * count
        if end > len(content):
            return "cut", offset
        return ("landing", at, target, struct.unpack_from("<%dI" % count, content, offset + 8)), end
    else:
        return "bad", offset
    if end > len(content):
        return "cut", offset
    return names + struct.unpack_from("<%dI" % ((end - offset - 4) // 4), content, offset + 4), end


def reading(schema, content):
    """Each record with its offset; at last why reading stops: `cut`, `finished`, `other program`, or `bad` and its offset."""
    if len(content) < 16:
        yield "cut", None
        return
    if list(struct.unpack_from("<4I", content)) != schema.header():
        yield "other program", None
        return
    offset, record = 16, None
    while record is None or record[0] != "end":
        record, end = record_at(schema, content, offset)
        if isinstance(record, str):
            yield record, offset
            return
        yield record, offset
        offset = end
    yield ("finished", None) if offset == len(content) else ("bad", offset)


class Move:
    """A move, and the one before: the items, where it led, and the registers then."""

    def __init__(self, before, items, position, registers):
        self.before, self.items, self.position, self.registers = before, items, position, registers


def placed(schema, address):
    return ("before", address) if address in schema.words else ("outside", address)


def changed(registers, register, value):
    if register == 0:
        return registers
    found = list(registers)
    found[register] = value
    return found


def touched(word, registers):
    """The item of a load or store."""
    return ("R" if class_of(word) == "load" else "W", base_of(word, registers), size_of(word))


def way_on(kind, raw, at, way):
    """Where a way leads, None where the class doesn't have it."""
    if way == "fall":
        return (at + 4) % 2 ** 32 if kind in ("plain", "load", "store", "branch", "call") else None
    return target_of(raw, at) if kind in ("branch", "jump") else None


def quiet_moves(schema, move):
    """Each move without a record that can follow."""
    position, registers = move.position, move.registers
    if position[0] == "after":
        _, at, way = position
        word = schema.words[at]
        to = way_on(word.kind, word.raw, at, way)
        if to is not None and not schema.is_witness(word, way):
            yield Move(move, (), placed(schema, to), registers)
    elif position[0] == "before":
        at = position[1]
        word, fetch = schema.words[at], ("I", at)
        if word.kind == "plain":
            after = changed(registers, written_by(word.raw), computed(word.raw, at, registers)) if word.is_kept else registers
            yield Move(move, (fetch,), ("after", at, "fall"), after)
        elif word.kind == "store" or word.kind == "load" and not word.is_kept:
            yield Move(move, (fetch, touched(word.raw, registers)), ("after", at, "fall"), registers)
        elif word.kind == "branch":
            for way in ("fall", "taken"):
                yield Move(move, (fetch,), ("after", at, way), registers)
        elif word.kind == "jump":
            after = changed(registers, written_by(word.raw), (at + 4) % 2 ** 32)
            yield Move(move, (fetch,), ("after", at, "taken"), after)


def ends(word, registers, kind, detail):
    """A run may end at a word with this kind and detail."""
    if word.kind == "call":
        return kind == 1
    if word.kind == "stop":
        return (kind, detail) == ((3, 0) if word.raw == 0x100073 else (2, word.raw))
    if word.kind in ("load", "store"):
        _, address, count = touched(word.raw, registers)
        return kind == (4 if word.kind == "load" else 5) and (detail - address) % 2 ** 32 < count
    return False


def told_move(schema, move, record):
    """The move that has this record, if one can follow."""
    position, registers = move.position, move.registers
    if position[0] == "outside":
        target = position[1]
        if record == ("end", 0, 6 if target % 4 == 0 else 7, target):
            return Move(move, (), STOPPED, registers)
        return None
    if position[0] == "stopped" or record[1] != position[1]:
        return None
    at = position[1]
    word, fetch = schema.words[at], ("I", at)
    if position[0] == "after":
        way = position[2]
        to = way_on(word.kind, word.raw, at, way)
        if to is None or record[0] != way or not schema.is_witness(word, way):
            return None
        return Move(move, (), placed(schema, to), registers)
    if record[0] == "value" and word.kind == "load" and word.is_kept:
        return Move(move, (fetch, touched(word.raw, registers)), ("after", at, "fall"), changed(registers, written_by(word.raw), record[2]))
    if record[0] == "value" and word.kind == "call":
        return Move(move, (fetch,), ("after", at, "fall"), changed(registers, 10, record[2]))
    if record[0] == "landing" and word.kind == "indirect" and record[2] % 2 == 0:
        after = changed(registers, written_by(word.raw), (at + 4) % 2 ** 32)
        for register, value in zip(schema.needs(record[2]), record[3]):
            after = changed(after, register, value)
        return Move(move, (fetch,), placed(schema, record[2]), after)
    if record[0] == "end" and ends(word, registers, record[2], record[3]):
        return Move(move, (fetch,), STOPPED, registers)
    return None


def walks_to(schema, begin, record):
    """The last move of each walk from here that has this record as its last and only one."""
    waiting = [begin]
    while waiting:
        move = waiting.pop()
        told = told_move(schema, move, record)
        if told is not None:
            yield told
        waiting.extend(quiet_moves(schema, move))


def items_behind(begin, move):
    """The items of the moves behind one, up to another."""
    moves = []
    while move is not begin:
        moves.append(move)
        move = move.before
    for one in reversed(moves):
        yield from one.items


def regenerated(schema, content):
    """Each item of the longest front of the records that a walk explains; at last the status, in place of an item."""
    here = Move(None, (), placed(schema, schema.entry), start_registers())
    for record, offset in reading(schema, content):
        if isinstance(record, str):
            yield {"cut": "CutShort", "finished": "Done", "other program": "BadEvents(OtherProgram)",
                   "bad": "BadEvents(BadRecord { offset: %s })" % offset}[record]
            return
        found = list(walks_to(schema, here, record))
        if len(found) > 1:
            raise SystemExit("two walks have the same records, at %d" % offset)
        if not found:
            yield "BadEvents(Astray { offset: %d })" % offset
            return
        yield from items_behind(here, found[0])
        here = Move(None, (), found[0].position, found[0].registers)


def walked(schema, content):
    """The lines that an event file gives back, and the status."""
    found = list(regenerated(schema, content))
    return [line_of(item) for item in found[:-1]], found[-1]
