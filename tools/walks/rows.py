"""The rows of crates/ae_rows/data/regenerated.txt and walks.txt, as docs/ROWS.md has their form."""
import itertools
import random
import struct

from program import Executable, line_of, random_program, recorded
from schema import Schema, SchemaWord, schema_of
from search import event_file, walked, words_of_record

OLD = "maybe T text old\\n"


def text_of(lines):
    """The bytes of a trace."""
    return "".join(line + "\n" for line in lines).encode()


def code_of(status):
    """The exit code of a status."""
    return {"Done": 0, "CutShort": 3}.get(status, 7)


def err_of(status):
    """The line of a status on the second output."""
    if status == "Done":
        return ""
    if status == "CutShort":
        return "ae: events cut short\n"
    if status == "BadEvents(OtherProgram)":
        return "ae: events other program\n"
    offset = status.split("offset: ")[1].split(" ")[0]
    return "ae: events %s at %s\n" % ("astray" if "Astray" in status else "bad record", offset)


def packed(numbers):
    """Numbers as a row has them, where a number that stands four times or oftener is counted."""
    found = []
    for number, same in itertools.groupby(numbers):
        count = len(list(same))
        found += ["%d*%08x" % (count, number)] if count > 3 else ["%08x" % number] * count
    return " ".join(found)


class Events:
    """An event file: numbers, bytes behind them, and how many bytes of all are left."""

    def __init__(self, numbers, tail=b"", cut=None):
        self.numbers, self.tail, self.cut = list(numbers), tail, cut

    def content(self):
        content = b"".join(struct.pack("<I", number) for number in self.numbers) + self.tail
        return content if self.cut is None else content[:self.cut]

    def lines(self, name):
        lines = ["file %s words %s" % (name, packed(self.numbers))]
        lines += ["hex " + self.tail.hex(" ")] if self.tail else []
        return lines + (["cut %d" % self.cut] if self.cut is not None else [])


def of_records(schema, records, tail=b"", cut=None):
    return Events(schema.header() + [number for record in records for number in words_of_record(record)], tail, cut)


def of_words(schema, words, tail=b"", cut=None):
    return Events(schema.header() + [int(word, 16) for word in words.split()], tail, cut)


def of_schema(schema):
    return "file S words " + packed(schema.numbers())


def trace_lines(lines):
    """A trace as a row has it, in which a line that stands four times or oftener in turn is counted."""
    found = []
    for line, same in itertools.groupby(lines):
        count = len(list(same))
        found += ["times %d %s" % (count, line)] if count > 3 else ["| " + line] * count
    return found


def ended(status):
    """The lines of a row that say how a command ends."""
    lines = ["code %d" % code_of(status)] if code_of(status) else []
    return lines + ["status " + status] + (["err " + err_of(status).replace("\n", "\\n")] if err_of(status) else [])


def row(name, schema, events, old=OLD, more=(), leaves=None):
    """A row of one or more event files by their names, all with one answer. `leaves` has the lines of a long trace by hand."""
    answers = {tuple([status, *lines]) for lines, status in (walked(schema, file.content()) for file in events.values())}
    if len(answers) != 1:
        raise SystemExit("%s: not one answer" % name)
    status, *lines = answers.pop()
    if leaves is not None and expanded(leaves) != lines:
        raise SystemExit("%s: the walk gives another trace" % name)
    yield "row " + name
    for file in events:
        yield "words regenerate S %s T" % file
    yield of_schema(schema)
    for file, one in events.items():
        yield from one.lines(file)
    if old:
        yield old
    if status != "BadEvents(OtherProgram)":
        yield "leaves T"
        yield from trace_lines(lines) if leaves is None else leaves
    yield from more
    yield from ended(status)
    yield ""


def expanded(leaves):
    """The lines that `|`, `times` and `rising` stand for."""
    found = []
    for line in leaves:
        key, rest = line.split(" ", 1)
        if key == "|":
            found.append(rest)
        elif key == "times":
            count, rest = rest.split(" ", 1)
            found += rest.split("\\n") * int(count)
        else:
            count, begin, step, rest = rest.split(" ", 3)
            for turn in range(int(count)):
                found += rest.replace("@", "%08x" % ((int(begin, 16) + turn * int(step)) % 2 ** 32)).split("\\n")
    return found


def said(status, count):
    """What a group of event files comes to, for the name of its row."""
    if "Astray" in status or "BadRecord" in status:
        what = ("astray" if "Astray" in status else "a bad record") + " at " + status.split("offset: ")[1].split(" ")[0]
    else:
        what = {"Done": "done", "CutShort": "cut short", "BadEvents(OtherProgram)": "another program"}[status]
    return "%s, %d line%s" % (what, count, "" if count == 1 else "s")


def rows_by_answer(name, schema, events, old=OLD, most=40):
    """Event files by name, in a row for each answer that some of them have, with at most so many in each."""
    groups = {}
    for file, one in events.items():
        lines, status = walked(schema, one.content())
        groups.setdefault((status, tuple(lines)), []).append(file)
    parts = {}
    for (status, lines), files in groups.items():
        for place in range(0, len(files), most):
            called = "%s: %s" % (name, said(status, len(lines)))
            parts[called] = parts.get(called, 0) + 1
            number = ", part %d" % parts[called] if parts[called] > 1 else ""
            yield from row(called + number, schema, {file: events[file] for file in files[place:place + most]}, old)


def program(words, data="", zeros=0):
    return Executable([int(word, 16) for word in words.split()], bytes.fromhex(data), zeros)


# Programs by name, each with its code words, data, zeros and input.
LIST_DATA = "08100100 01000000 10100100 02000000 00000000 03000000"
LOOP = "000112b7 3e800313 0002a383 007e0e33 00428293 fff30313 fe0318e3 00000513 05d00893 00000073"
SPILLS = "010000ef 00000513 05d00893 00000073 ff010113 00112623 010000ef 00c12083 01010113 00008067 00008067"
EACH_RECORD = "000102b7 00000073 00051463 00150513 08828067 00012303 00032383"
PROGRAMS = {
    "an exit with 7": ("05d00893 00700513 00000073", "", 0, b""),
    "a program that writes a text": ("00100513 000115b7 00500613 04000893 00000073 00000513 05d00893 00000073", "68656c6c6f", 0, b""),
    "a list of three nodes": ("000112b7 0042a303 006e0e33 0002a283 fe029ae3 00000513 05d00893 00000073", LIST_DATA, 0, b""),
    "a branch that is taken, to the next word": ("00000263 05d00893 00000073", "", 0, b""),
    "a routine that spills its link, and a leaf": (SPILLS, "", 0, b""),
    "a landing within a block": ("00000297 01028067 00100513 00100593 05d00893 00000073", "", 0, b""),
    "a step behind the last word": ("00000013", "", 0, b""),
    "an indirect jump to an address that is no multiple of 4": ("00200067", "", 0, b""),
    "a write to descriptor 3, and one of the entry": (
        "00300513 000105b7 01858593 00400613 04000893 00000073 00100513 00000073 05d00893 00000073", "", 0, b""),
    "a load from an address that isn't mapped": ("00002283", "", 0, b""),
    "an address of two quotients": ("800002b7 fff00313 0262c3b3 0202ce33 01c383b3 00038e83 05d00893 00000073", "", 0, b""),
    "a read of an input": ("00000513 000115b7 00300613 03f00893 00000073 05d00893 00000073", "", 16, b"ab"),
    "each kind of record": (EACH_RECORD, "", 0, b""),
    "an illegal word": ("00000013 00000000", "", 0, b""),
    "a breakpoint": ("00000013 00100073", "", 0, b""),
    "a store to an address that isn't mapped": ("fe002e23", "", 0, b""),
    "a jump to an address that is no multiple of 4": ("0020006f", "", 0, b""),
    "a branch to an address that is no multiple of 4": ("00000163", "", 0, b""),
    "a load round the end of the addresses": ("fff00293 fff2a303", "", 0, b""),
    "a signed byte as a base": ("000112b7 00028303 00032383 05d00893 00000073", "f0", 0, b""),
    "an unsigned half as a base": ("000112b7 0002d303 00032383 05d00893 00000073", "f0ff", 0, b""),
    "an array of four numbers that is added up": (
        "000112b7 00400313 00000513 0002a383 00750533 00428293 fff30313 fe0318e3 00a2a023 05d00893 00000073",
        "01000000 02000000 03000000 04000000", 4, b""),
    "a landing that needs its own link": ("00000297 00c282e7 00000013 0002a303 05d00893 00000073", "", 0, b""),
}


def whole(name):
    words, data, zeros, given = PROGRAMS[name]
    executable = program(words, data, zeros)
    schema = schema_of(executable.words)
    return schema, recorded(executable, schema, given, 10 ** 6)


def worked():
    """The whole event files of runs."""
    yield "# Whole event files of runs: the trace of each is the one that `plain` writes."
    yield ""
    for name in PROGRAMS:
        schema, (records, lines, ending) = whole(name)
        events = of_records(schema, records)
        if ending is None or walked(schema, events.content()) != (lines, "Done"):
            raise SystemExit("%s: the walk gives another trace than the run" % name)
        yield from row(name, schema, {"E": events}, more=["input ab", "rest ab", "calls out 0", "calls input 0", "calls err 0"])
    # the shape of a linker's file, in which a symbol and a relocation name words
    executable = program("000112b7 0002a303 00030067 00100513 00250513 05d00893 00000073", "84000100")
    schema = schema_of(executable.words, [0x10080, 0x10084])
    yield from row("a landing at a named address", schema, {"E": of_records(schema, recorded(executable, schema, b"", 99)[0])})
    yield from long_traces()


def long_traces():
    executable = program(LOOP, "", 4000)
    schema = schema_of(executable.words)
    records = recorded(executable, schema, b"", 10 ** 4)[0]
    leaves = ["| I 00010074", "| I 00010078",
              "rising 1000 00011000 4 I 0001007c\\nR @ 4\\nI 00010080\\nI 00010084\\nI 00010088\\nI 0001008c",
              "| I 00010090", "| I 00010094", "| I 00010098"]
    loop = (schema, {"E": of_records(schema, records)})
    yield from row("a loop of 1,000 turns adds up an array of zeros", *loop, leaves=leaves, more=["calls store 22"])
    executable = program("ff010113 00112623 ff9ff0ef")
    schema = schema_of(executable.words)
    records = recorded(executable, schema, b"", 10 ** 6)[0]
    down = ["rising 65532 7fffffbc -16 I 00010074\\nI 00010078\\nW @ 4\\nI 0001007c", "| I 00010074", "| I 00010078"]
    yield from row("the stack is used up", schema, {"E": of_records(schema, records)}, leaves=down)
    yield "# The loop's trace is written in pieces of at most 4096 bytes. Where the store fails at one, the pieces before it stand."
    yield ""
    yield "row the store fails at each piece of a long trace"
    yield "words regenerate S E T"
    yield of_schema(loop[0])
    yield from loop[1]["E"].lines("E")
    yield "front T"
    yield from leaves
    yield "fails each store %s" % " ".join(str(number) for number in range(5, 22))
    yield from ["code 8", "status StoreFault", "err ae: store fault\\n", ""]


def operations():
    """Addresses that are worked out by each operation of the class Plain, from some pairs of operands."""
    yield "# What each operation works out is the base of a load behind it. The operands are put into registers by a landing."
    yield ""
    immediate = [0x00000013 | funct3 << 12 for funct3 in (0, 2, 3, 4, 6, 7)]
    register = [funct7 << 25 | funct3 << 12 | 0x33 for funct7, funct3 in
                [(0, funct3) for funct3 in range(8)] + [(32, 0), (32, 5)] + [(1, funct3) for funct3 in range(8)]]
    words = [0x00028067]
    for word in immediate:
        words += [word | 0x7FF << 20 | 5 << 15 | 7 << 7, 0x00038403, word | 0x801 << 20 | 5 << 15 | 7 << 7, 0x00038403]
    for amount in (0, 1, 31):
        for word in (0x00001013, 0x00005013, 0x40005013):
            words += [word | amount << 20 | 5 << 15 | 7 << 7, 0x00038403]
    for word in register:
        words += [word | 6 << 20 | 5 << 15 | 7 << 7, 0x00038403]
    words += [0x8ABCD3B7, 0x00038403, 0x8ABCD397, 0x00038403, 0x00028383, 0x00038403, 0x00000073]
    schema = schema_of(words)
    pairs = [(0, 0), (7, 3), (0xFFFFFFF9, 3), (7, 0xFFFFFFFD), (0x80000000, 0xFFFFFFFF), (0x80000000, 0), (0x12345678, 0x9ABCDEF1),
             (0xFFFFFFFF, 0xFFFFFFFF), (0xDEADBEEF, 31), (0x80000000, 0x80000000)]
    needed = schema.needs(0x10078)
    for one, other in pairs:
        values = tuple({5: one, 6: other}[number] for number in needed)
        last = max(schema.words)
        records = [("landing", 0x10074, 0x10078, values), ("value", last - 8, 0x7FFFFFFF), ("end", last, 1, 9)]
        yield from row("each operation on %08x and %08x" % (one, other), schema, {"E": of_records(schema, records)}, old="")
    words = [word for number in range(32) for word in (number << 15 | 0x00000003, number << 15 | 0x00000023)] + [0x00000073]
    schema = schema_of(words)
    yield from row("the registers at the start", schema, {"E": of_records(schema, [("end", 0x10074 + 256, 1, 0)])}, old="")


def foreign():
    """Event files that aren't those of a whole run."""
    loop = schema_of([0x6F])
    three = [0x10075] * 3
    yield "# Event files that no run has given, or none whole. The first program is a jump to itself."
    yield ""
    yield from row("a loop without an end, after three turns", loop, {"E": Events(loop.header() + three)},
                   leaves=["times 3 I 00010074"])
    yield from row("a loop without an end, after a thousand turns", loop, {"E": Events(loop.header() + [0x10075] * 1000)})
    yield from row("three records and half a word", loop, {"E": Events(loop.header() + three, bytes([0, 1]))})
    yield from row("the events of a program with more words", loop, {"E": Events([0x31564541, 0x10074, 0x10074, 3, 0x1007F, 1, 7])})
    yield from row("the events of another program whose header is the same", loop, {"E": of_words(loop, "00010077 00000004 00000000")})
    yield from row("the events of another program that records another edge", loop,
                   {"E": of_words(loop, "00010074 00000003 00000006 00010078")})
    header = loop.header()
    others = {"E%d%d" % (place, byte): Events([number ^ (1 << 8 * byte if spot == place else 0) for spot, number in enumerate(header)]
                                              + [0x10075]) for place in range(4) for byte in range(4)}
    yield from row("a header in which one byte is another", loop, others)
    yield from row("another header, and no record", loop, {"E": Events([0, 0, 0, 0])})
    yield from row("fewer bytes than a header has, whatever they are", loop,
                   {"E%d" % count: Events([], bytes([255] * count)) for count in range(16)})
    yield from cut_files()
    yield from unlikely()
    yield from astray()


def cut_files():
    yield "# Event files cut at each length: the trace goes up to the instruction that gave the last whole record."
    yield ""
    for name in ("a routine that spills its link, and a leaf", "each kind of record", "a list of three nodes", "a step behind the last word"):
        schema, (records, _, _) = whole(name)
        length = len(of_records(schema, records).content())
        yield from rows_by_answer(name + ", cut", schema, {"E%d" % count: of_records(schema, records, cut=count) for count in range(length)})
        files = {"E": of_records(schema, records, bytes(1)), "F": of_records(schema, records, bytes([0, 0, 1, 0]))}
        yield from rows_by_answer(name + ", and bytes behind its end", schema, files)


def unlikely():
    """Values that no run gives, and that the walk takes."""
    yield "# A walk takes any value: memory isn't part of it."
    yield ""
    schema, _ = whole("a list of three nodes")
    for value in (0, 1, 0x10074, 0x11001, 0x7FFFFFFF, 0x80000000, 0xC0000000, 0xD0000000, 0xFFFFFFFF, 0xFFFFFFFD):
        records = [("value", 0x10080, value), ("taken", 0x10084), ("value", 0x10080, 5), ("end", 0x10090, 1, value)]
        yield from row("a node at %08x" % value, schema, {"E": of_records(schema, records)}, old="")
    schema, _ = whole("a routine that spills its link, and a leaf")
    for target, values in ((0x10078, (1,)), (0x10084, (0xFFFFFFFF,)), (0x10088, (0,)), (0x1009C, ()), (0x74, ()), (0xFFFFFFFC, ()), (0xC0000000, ()),
                           (2, ()), (0xFFFFFFFE, ())):
        landing = ("landing", 0x1009C, target, values)
        rest = [("end", 0, 7 if target % 4 else 6, target)] if not schema.words.get(target) else []
        yield from row("a landing at %08x" % target, schema, {"E": of_records(schema, [landing] + rest)})
    # behind the jump a load from the address in each register, so that the trace shows all of them
    words = {0x10074: SchemaWord(0x15, 0x00008067, 0), 0x10078: SchemaWord(0x11, 0x0000A003, 0xFFFFFFFE), 0x100F4: SchemaWord(0x26, 0x73, 0)}
    words.update({0x10074 + 4 * register: SchemaWord(0x01, register << 15 | 0x2003, 0) for register in range(2, 32)})
    schema = Schema(0x10074, words)
    values = tuple(0x10101010 + 0x01010101 * register for register in range(31))
    yield from row("a landing with a value for each register", schema,
                   {"E": of_records(schema, [("landing", 0x10074, 0x10078, values), ("end", 0x100F4, 1, 7)])})
    schema, _ = whole("a program that writes a text")
    for answer in (0, 6, 0x80000000, 0xFFFFFFFF):
        records = [("value", 0x10084, answer), ("end", 0x10090, 1, answer)]
        yield from row("a call that answers %08x" % answer, schema, {"E": of_records(schema, records)}, old="")


def astray():
    """Records that no walk has."""
    yield "# Records that fit no walk: the offset is that of the first, and the trace ends before it."
    yield ""
    schema, _ = whole("each kind of record")
    good = [("value", 0x10078, 0xFFFFFFDA), ("taken", 0x1007C), ("landing", 0x10084, 0x10088, (0x7FFFFFC0,)), ("value", 0x10088, 0),
            ("end", 0x1008C, 4, 0)]
    others = good[:4] + [("landing", 0x10084, 0x10089, ()), ("landing", 0x10084, 0x20000, ()), ("landing", 0x10084, 0x20002, ()),
                         ("fall", 0x1008C), ("end", 0x1008C, 4, 3), ("end", 0x1008C, 4, 4), ("end", 0x1008C, 5, 0), ("end", 0x1008C, 9, 0),
                         ("end", 0x10088, 4, 0x7FFFFFC0), ("end", 0x10088, 4, 0x7FFFFFC4), ("end", 0x10078, 1, 77), ("end", 0x10078, 2, 0x73),
                         ("end", 0x10074, 1, 0), ("end", 0x1007C, 1, 0), ("end", 0x10084, 7, 2), ("end", 0, 6, 0x20000), ("end", 0, 6, 0x10074),
                         ("end", 0, 6, 0x10090), ("end", 0, 7, 0x20002), ("end", 0, 6, 0x20002), ("end", 0, 7, 0x20000), ("end", 0, 0, 0),
                         ("end", 0, 9, 0x20000), ("end", 0, 0xFFFFFFFF, 0)]
    said_good = ["none", "a good one", "two good ones", "three good ones", "four good ones", "the end"]
    for count in range(6):
        files = {"E%d" % number: of_records(schema, good[:count] + [other]) for number, other in enumerate(others)}
        yield from rows_by_answer("another record behind %s" % said_good[count], schema, files, old="" if count % 2 else OLD)
    files = {"E%d" % number: of_records(schema, good[:2] + [landing, other]) for number, (landing, other) in enumerate(itertools.product(
        [("landing", 0x10084, 0x20000, ()), ("landing", 0x10084, 0x20002, ())], others))}
    yield from rows_by_answer("a record outside the code", schema, files)
    files = {"E%d" % number: of_records(schema, [*good[:3], ("value", 0x10088, 8), other]) for number, other in enumerate(others)}
    yield from rows_by_answer("a record behind another value", schema, files)
    files = {"E": of_records(schema, good[:4] + [("end", 0x1008C, 4, 4)], bytes(1)), "F": of_records(schema, [("end", 0, 6, 0)], bytes(4)),
             "G": of_records(schema, [("end", 0x10078, 2, 0)], bytes([3]))}
    yield from rows_by_answer("an end that is astray, and bytes behind it", schema, files)
    words = ["%08x" % word for word in range(0x10074, 0x10094)]
    words += ["00010072", "00000000", "00000001", "00000002", "ffffffff", "0001007d ffffffff"]
    files = {"E%d" % number: of_words(schema, "0001007a ffffffda " + word) for number, word in enumerate(words)}
    yield from rows_by_answer("each first word behind a value", schema, files)
    # two ways lead to one word, so that an undirected path of edges that aren't recorded isn't one that can be gone
    schema = schema_of([0x00000463, 0x0080006F, 0x0040006F, 0x00000073, 0x00100073])
    records = [("value", 0x10080, 1), ("end", 0x10080, 1, 0), ("end", 0x10084, 3, 0), ("end", 0x10084, 3, 1), ("taken", 0x10074), ("fall", 0x10080),
               ("taken", 0x1007C), ("taken", 0x10078)]
    known = [record for record in records if reads(schema, record)]
    files = {"E%d%d" % numbers: of_records(schema, [known[number] for number in numbers])
             for numbers in itertools.product(range(len(known)), repeat=2)}
    yield from rows_by_answer("two ways that meet", schema, files, old="")


def reads(schema, record):
    """The record can stand in an event file of the program."""
    return "BadRecord" not in walked(schema, event_file(schema, [record]))[1]


def refused():
    """What is answered before the first record is read."""
    yield "# What is answered before the event file is looked at: TRACE is as before."
    yield ""
    schema, _ = whole("a branch that is taken, to the next word")
    branch, loop = list(schema.numbers()), list(schema_of([0x6F]).numbers())
    good = of_records(schema, [("taken", 0x10074), ("end", 0x1007C, 1, 0)])
    bad = {
        "no bytes at all": ("text", "NotSchema", "S1"),
        "another text": ("text no schema", "NotSchema", "S1"),
        "three bytes of the first word": ("text AES", "NotSchema", "S1"),
        "a header that isn't whole": ("text AES1", "BadEntry { offset: 0 }", "S2 at 0"),
        "no stretches": ("words 31534541 00010074 00000000", "BadEntry { offset: 0 }", "S2 at 0"),
        "a stretch at no multiple of 4": ("words 31534541 00010074 00000001 00010072 00000001", "BadEntry { offset: 12 }", "S2 at 12"),
        "more than 32,768 words": ("words 31534541 00010074 00000001 00010074 00008001", "TooLarge", "S4"),
        "an entry where no code word stands": (
            "words " + packed(loop[:1] + [0x10078] + loop[2:]), "BadEntry { offset: 4 }", "S2 at 4"),
        "a word that isn't whole": ("words %s\ncut 31" % packed(loop), "BadEntry { offset: 20 }", "S2 at 20"),
        "a byte behind the last word": ("words %s\nhex 00" % packed(loop), "BadEntry { offset: 32 }", "S2 at 32"),
        "a cycle of edges that aren't recorded": (
            "words " + packed(branch[:5] + [0x13] + branch[6:]), "NotAForest { edge: 65653 }", "S3 edge 00010075"),
    }
    for name, (form, status, line) in bad.items():
        for events, what in ((good, ""), (None, ", beside the events of another program")):
            if what and not form.startswith("words"):
                continue
            yield "row a schema of %s%s" % (name, what)
            yield "words regenerate S E T"
            yield "file S " + form
            yield from events.lines("E") if events else ["file E text no events at all"]
            yield from [OLD, "calls store %d" % (2 if form == "text" else 3), "calls out 0", "calls input 0", "code 6",
                        "status BadSchema(%s)" % status, "err ae: schema %s\\n" % line, ""]
    yield from missing(schema, good)
    yield from failing(schema, good)


def missing(schema, good):
    for name, files, word in (("a schema that isn't there", good.lines("E"), "S"), ("neither file is there", [], "S"),
                              ("an event file that isn't there", [of_schema(schema)], "E"),
                              ("an event file that isn't there, beside a bad schema", ["file S text no schema"], "E")):
        yield "row " + name
        yield "words regenerate S E T"
        yield from files
        yield from [OLD, "none " + " ".join(other for other in "SE" if not any(line.startswith("file " + other) for line in files)),
                    "calls store %d" % (1 if word == "S" else 2), "calls out 0", "code 4",
                    "status Missing { word: %d }" % (1 if word == "S" else 2), "err ae: missing %s\\n" % word, ""]
    yield from ["row a schema that is longer than one may be isn't read", "words regenerate P E T", "said 01000001", "file P text AES1",
                "calls store 2", "code 6", "err ae: schema S4\\n", ""]


def failing(schema, good):
    yield "# Devices that fail. The store is asked for both sizes, then reads both files, then makes TRACE, then adds to it."
    yield ""
    cut = of_records(schema, [("taken", 0x10074)])
    none = of_records(schema, [])
    other = Events([0, 0, 0, 0])
    wild = of_records(schema, [("taken", 0x10074), ("end", 0x10078, 1, 0)])
    spoiled = of_words(schema, "00010075 00010079")
    files = [of_schema(schema), *good.lines("E"), *cut.lines("Cut"), *none.lines("None"), *other.lines("Other"), *wild.lines("Wild"),
             *spoiled.lines("Spoiled")]
    every = ["words regenerate S %s T" % name for name in ("E", "Cut", "None", "Other", "Wild", "Spoiled")]
    fault = ["code 8", "status StoreFault", "err ae: store fault\\n", ""]
    yield from ["row the store fails while both files are asked for and read", *every, *files, OLD, "fails each store 0 1 2 3", *fault]
    making = [line for line in every if "Other" not in line]
    yield from ["row the store fails where TRACE is made", *making, *files, OLD, "fails each store 4", *fault]
    writing = [line for line in making if "None" not in line]
    yield from ["row the store fails at the lines of a trace", *writing, *files, OLD, "fails each store 5", "leaves T", *fault]
    yield from ["row the store fails, and then the status' line", every[0], *files, OLD, "fails each store 0 1 2 3 4", "fails err 0",
                "code 8", "status StoreFault", ""]
    yield from row("no call of the store is made behind the last lines", schema, {"E": good}, more=["fails each store 6 7 8", "calls store 6"])
    yield from row("an empty trace is made, and nothing is added to it", schema, {"E": none}, more=["fails each store 5 6 7", "calls store 5"])
    yield from row("no trace is made of the events of another program", schema, {"E": other}, more=["fails each store 4 5 6", "calls store 4"])
    empty = row("an event file of no bytes isn't read", schema, {"E": Events([])}, more=["fails each store 4 5 6", "calls store 4"])
    yield from (line if line.startswith("file E") is False else "file E text" for line in empty)
    for name, events in (("a cut file", cut), ("a file that is astray", wild), ("a file with a bad record", spoiled),
                         ("the events of another program", other)):
        lines = list(row("the second output fails at the line of " + name, schema, {"E": events}, more=["fails err 0"]))
        yield from (line for line in lines if not line.startswith("err "))
    yield from row("the input and the output aren't asked", schema, {"E": good},
                   more=["input ab", "rest ab", "fails input 1", "fails out 0", "fails err 0", "calls input 0", "calls out 0", "calls err 0"])


def drawn():
    """Random programs, with their whole event files and some that are spoiled."""
    yield "# Forty random programs: their whole event files, and others of some of the same records."
    yield ""
    draw, count = random.Random(20180214), 0
    while count < 40:
        executable = random_program(draw)
        schema = schema_of(executable.words)
        records, lines, ending = recorded(executable, schema, b"", 200)
        if ending is None or len(lines) > 60 or len(records) < 3:
            continue
        count += 1
        if walked(schema, event_file(schema, records)) != (lines, "Done"):
            raise SystemExit("random program %d: the walk gives another trace than the run" % count)
        files = {"E": of_records(schema, records)}
        for number in range(3):
            place = draw.randrange(len(records))
            others = [records[:place] + records[place + 1:], records[:place] + draw.sample(records, 1) + records[place:],
                      records[:place] + draw.sample(records, 1) + records[place + 1:]]
            files["E%d" % number] = of_records(schema, others[number])
        yield from rows_by_answer("random program %d" % count, schema, files, old="")


def regenerated_rows():
    yield "# Traces that are regenerated from schemas and event files, as tools/walks/walks makes them: it tries every walk. Most schemas and events"
    yield "# are those of small programs and of their runs."
    yield ""
    for part in (worked, operations, foreign, refused, drawn):
        yield from part()


def small_schemas():
    """Small schemas, each with the records that lists are made of, and how many stand in one at most."""
    # addi x5, x5, 4; sw x0, 0(x5); bne x6, x0 to the first; jalr x0, 0(x7)
    yield "the loop with a landing", schema_of([0x00428293, 0x0002A023, 0xFE031CE3, 0x00038067]), 4, [
        ("taken", 0x1007C), ("landing", 0x10080, 0x10074, (0,)), ("landing", 0x10080, 0x20000, ()), ("end", 0, 6, 0x20000), ("end", 0x10078, 5, 6)]
    # lw x5, 4(x5); beq x5, x0 past the call; ecall; jal x0 to the first
    yield "the list with a call", schema_of([0x0042A283, 0x00028463, 0x00000073, 0xFF5FF06F]), 4, [
        ("value", 0x10074, 0x11000), ("taken", 0x10078), ("value", 0x1007C, 1), ("taken", 0x10080), ("end", 0x1007C, 1, 0),
        ("end", 0x10074, 4, 0x11005)]
    # branches that part, and meet at an indirect jump
    yield "the branches", schema_of([0x00008863, 0x00008463, 0x00100073, 0x00000000, 0x00008463, 0x00000073, 0x00038067]), 3, [
        ("end", 0x1007C, 3, 0), ("end", 0x10080, 2, 0), ("end", 0x10088, 1, 5), ("taken", 0x10084), ("landing", 0x1008C, 0x10078, ()),
        ("value", 0x10088, 2)]
    # a loop that is left by a fall that is recorded, or by a jump that isn't
    yield "the two ways out of a loop", schema_of([0x00030463, 0x0080006F, 0xFE029CE3, 0x00000073]), 3, [
        ("fall", 0x1007C), ("taken", 0x10074), ("value", 0x10080, 1), ("fall", 0x10080), ("end", 0x10080, 1, 0), ("end", 0, 6, 0x10084)]


def walk_rows():
    yield "# All lists of a few records over four small schemas, and what they give back: tools/walks/walks tries every walk. The digits of"
    yield "# an event file's name are the numbers of its records, in their order."
    yield ""
    for name, schema, most, records in small_schemas():
        for record in records:
            if not reads(schema, record):
                raise SystemExit("%s: a record that can't be read: %s" % (name, record))
        files = {}
        for count in range(most + 1):
            for numbers in itertools.product(range(len(records)), repeat=count):
                files["E" + "".join(str(number + 1) for number in numbers)] = of_records(schema, [records[number] for number in numbers])
        yield from rows_by_answer(name, schema, files, old="")


def text(name):
    """The text of a file of rows."""
    lines = list({"regenerated": regenerated_rows, "walks": walk_rows}[name]())
    while lines[-1] == "":
        lines.pop()
    return "\n".join(lines) + "\n"
