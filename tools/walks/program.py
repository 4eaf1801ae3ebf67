"""Small executables, and what a run of one gives: its trace, how it ends, and the events that its schema asks for.

The executables are those of tools/row_file. The rules are those of docs/MACHINE.md and docs/FORMATS.md.
"""
import importlib.machinery
import importlib.util
import os
import struct

HERE = os.path.dirname(os.path.abspath(__file__))
START, DATA, STACK, STACK_END = 0x10074, 0x11000, 0x7FF00000, 0x80000000
ALL = 0xFFFFFFFF


def tool(name):
    """A tool of the folder above, as a module."""
    loader = importlib.machinery.SourceFileLoader(name, os.path.join(HERE, "..", name))
    module = importlib.util.module_from_spec(importlib.util.spec_from_loader(name, loader))
    loader.exec_module(module)
    return module


rules = tool("needs_and_slices")
row_file = tool("row_file").row_file


def signed(value, bits=32):
    return rules.signed(value % 2 ** bits, bits)


def class_of(word):
    return rules.meaning(word)[0]


def written_by(word):
    """The register that a word writes, 0 where it writes none."""
    return rules.meaning(word)[1]


def target_of(word, at):
    """Where a branch or jump leads."""
    return (at + rules.meaning(word)[3]) % 2 ** 32


def base_of(word, registers):
    """The address of a load or store, and the sum that an indirect jump jumps to."""
    if class_of(word) == "store":
        offset = signed((word >> 25) << 5 | word >> 7 & 31, 12)
    else:
        offset = signed(word >> 20, 12)
    return (registers[word >> 15 & 31] + offset) % 2 ** 32


def size_of(word):
    """How many bytes a load or store touches."""
    return 1 << (word >> 12 & 3)


def loaded(word, piece):
    """What a load puts into its register."""
    value = int.from_bytes(piece, "little")
    return value if word >> 12 & 4 else signed(value, 8 * len(piece)) % 2 ** 32


def towards_zero(one, other):
    quotient = abs(one) // abs(other)
    return quotient if (one < 0) == (other < 0) else -quotient


def product_or_quotient(funct3, one, other):
    if funct3 < 4:
        left = signed(one) if funct3 != 3 else one
        right = signed(other) if funct3 < 2 else other
        return left * right >> (0 if funct3 == 0 else 32)
    if funct3 in (5, 7):
        if other == 0:
            return ALL if funct3 == 5 else one
        return one // other if funct3 == 5 else one % other
    left, right = signed(one), signed(other)
    if right == 0:
        return ALL if funct3 == 4 else one
    quotient = towards_zero(left, right)
    return quotient if funct3 == 4 else left - quotient * right


def combined(funct3, is_other, one, other):
    """What an operation on two words gives, where `is_other` chooses sub and sra."""
    if funct3 == 0:
        return one - other if is_other else one + other
    if funct3 == 1:
        return one << (other & 31)
    if funct3 == 2:
        return int(signed(one) < signed(other))
    if funct3 == 3:
        return int(one < other)
    if funct3 == 5:
        return (signed(one) if is_other else one) >> (other & 31)
    return {4: one ^ other, 6: one | other, 7: one & other}[funct3]


def computed(word, at, registers):
    """What a word of the class plain writes."""
    opcode, funct3 = word & 127, word >> 12 & 7
    one, other = registers[word >> 15 & 31], registers[word >> 20 & 31]
    if opcode == 0x37:
        return word & 0xFFFFF000
    if opcode == 0x17:
        return ((word & 0xFFFFF000) + at) % 2 ** 32
    if opcode == 0x13:
        value = combined(funct3, funct3 == 5 and word >> 30 & 1, one, signed(word >> 20, 12) % 2 ** 32)
    elif opcode == 0x33 and word >> 25 == 1:
        value = product_or_quotient(funct3, one, other)
    elif opcode == 0x33:
        value = combined(funct3, word >> 30 & 1, one, other)
    else:
        value = 0
    return value % 2 ** 32


def is_met(word, registers):
    """The condition of a branch holds."""
    one, other = registers[word >> 15 & 31], registers[word >> 20 & 31]
    funct3 = word >> 12 & 7
    if funct3 < 2:
        holds = one == other
    elif funct3 < 6:
        holds = signed(one) < signed(other)
    else:
        holds = one < other
    return holds != bool(funct3 & 1)


def start_registers():
    registers = [0] * 32
    registers[2] = 0x7FFFFFC0
    return registers


class Executable:
    """The code words, bytes and zeros of a small executable."""

    def __init__(self, words, data=b"", zeros=0):
        self.words, self.data, self.zeros = words, data, zeros

    @staticmethod
    def read(path):
        """One that tools/row_file wrote."""
        with open(path, "rb") as file:
            content = file.read()
        end, size, length = (struct.unpack_from("<I", content, place)[0] for place in (68, 100, 104))
        words = list(struct.unpack_from("<%dI" % ((end - 116) // 4), content, 116))
        found = Executable(words, content[end:end + size], length - size)
        if found.file() != content:
            raise SystemExit("%s isn't a file of tools/row_file" % path)
        return found

    def file(self):
        return row_file(self.words, self.data, self.zeros)

    def word_at(self, at):
        """The code word at an address, None where none stands there."""
        place = (at - START) // 4
        return self.words[place] if at % 4 == 0 and 0 <= place < len(self.words) else None


class Memory:
    """The mapped bytes: those of the file before the data, which can't be written, the data and the stack."""

    def __init__(self, executable):
        self.fixed = executable.file()[:116 + 4 * len(executable.words)]
        self.data = bytearray(executable.data) + bytes(executable.zeros)
        self.stack = bytearray(STACK_END - STACK)

    def place(self, address, for_writing):
        if 0x10000 <= address < 0x10000 + len(self.fixed) and not for_writing:
            return self.fixed, address - 0x10000
        if DATA <= address < DATA + len(self.data):
            return self.data, address - DATA
        if STACK <= address < STACK_END:
            return self.stack, address - STACK
        return None

    def hole(self, address, count, for_writing):
        """The first of so many bytes that can't be used, None where all can."""
        for number in range(count):
            if self.place((address + number) % 2 ** 32, for_writing) is None:
                return (address + number) % 2 ** 32
        return None

    def read(self, address, count):
        pieces = (self.place((address + number) % 2 ** 32, False) for number in range(count))
        return bytes(stretch[place] for stretch, place in pieces)

    def write(self, address, piece):
        for number, byte in enumerate(piece):
            stretch, place = self.place((address + number) % 2 ** 32, True)
            stretch[place] = byte


class Step:
    """What a step did: the items, the way by which it went on or where it landed, and how it ended the run."""

    def __init__(self, at, items):
        self.at, self.items = at, items
        self.value = self.way = self.landing = self.ending = None


class Run:
    """A run of an executable over an input. `steps` gives each step; afterwards the outputs stand here."""

    def __init__(self, executable, given=b""):
        self.executable, self.given = executable, given
        self.memory, self.registers, self.at = Memory(executable), start_registers(), START
        self.outputs = {1: bytearray(), 2: bytearray()}

    def put(self, register, value):
        if register != 0:
            self.registers[register] = value % 2 ** 32

    def call(self):
        """The answer of a call that returns."""
        number, one, buffer, count = (self.registers[register] for register in (17, 10, 11, 12))
        if number == 63:
            if one != 0:
                return -9
            if self.memory.hole(buffer, count, True) is not None:
                return -14
            taken, self.given = self.given[:count], self.given[count:]
            self.memory.write(buffer, taken)
            return len(taken)
        if number == 64:
            if one not in (1, 2):
                return -9
            if self.memory.hole(buffer, count, False) is not None:
                return -14
            self.outputs[one] += self.memory.read(buffer, count)
            return count
        return -38

    def access(self, step, word, kind):
        """Makes a load or store."""
        address, count, is_store = base_of(word, self.registers), size_of(word), kind == "store"
        hole = self.memory.hole(address, count, is_store)
        if hole is not None:
            step.ending = (5 if is_store else 4, hole)
            return
        if is_store:
            self.memory.write(address, self.registers[word >> 20 & 31].to_bytes(4, "little")[:count])
        else:
            step.value = loaded(word, self.memory.read(address, count))
            self.put(written_by(word), step.value)
        step.items.append(("W" if is_store else "R", address, count))

    def jump(self, step, word, to, way):
        """Goes to the target of a jump or a taken branch, or ends there."""
        if way is None:
            step.landing = to
        else:
            step.way = way
        if to % 4 != 0:
            step.ending = (7, to)
            return
        if class_of(word) in ("jump", "indirect"):
            self.put(written_by(word), self.at + 4)
        self.at = to

    def step(self):
        word = self.executable.word_at(self.at)
        if word is None:
            step = Step(self.at, [])
            step.ending = (6, self.at)
            return step
        step, kind = Step(self.at, [("I", self.at)]), class_of(word)
        if kind == "stop":
            step.ending = (3, 0) if word == 0x100073 else (2, word)
        elif kind == "call" and self.registers[17] == 93:
            step.ending = (1, self.registers[10])
        elif kind == "jump" or kind == "branch" and is_met(word, self.registers):
            self.jump(step, word, target_of(word, self.at), "taken")
        elif kind == "indirect":
            self.jump(step, word, base_of(word, self.registers) & ~1, None)
        else:
            if kind == "call":
                step.value = self.call() % 2 ** 32
                self.put(10, step.value)
            elif kind in ("load", "store"):
                self.access(step, word, kind)
            elif kind == "plain":
                self.put(written_by(word), computed(word, self.at, self.registers))
            if step.ending is None:
                step.way = "fall"
                self.at = (self.at + 4) % 2 ** 32
        return step

    def steps(self, fuel):
        for _ in range(fuel):
            step = self.step()
            yield step
            if step.ending is not None:
                return


def line_of(item):
    return "I %08x" % item[1] if item[0] == "I" else "%s %08x %d" % item


def records_of(step, schema, registers):
    """The records of a step, with the registers after it, in their order."""
    entry = schema.words.get(step.at)
    if entry is not None:
        if step.value is not None and schema.has_value(entry):
            yield ("value", step.at, step.value)
        if step.landing is not None:
            needed = schema.needs(step.landing)
            yield ("landing", step.at, step.landing, tuple(registers[register] for register in needed))
        if step.way is not None and schema.is_witness(entry, step.way):
            yield (step.way, step.at)
    if step.ending is not None:
        kind, detail = step.ending
        yield ("end", 0 if kind in (6, 7) else step.at, kind, detail)


def recorded(executable, schema, given, fuel):
    """The records of a run, the lines of its trace, and how it ended."""
    run, records, lines, ending = Run(executable, given), [], [], None
    for step in run.steps(fuel):
        records.extend(records_of(step, schema, run.registers))
        lines.extend(line_of(item) for item in step.items)
        ending = step.ending
    return records, lines, ending


def random_program(draw):
    """A program over data that hold addresses of data and code; most run for a while and end by a call."""
    count = draw.randint(4, 30)
    inner = []
    for place in range(3, count):
        kind = draw.choices(["any", "load", "store", "branch", "call", "exit", "indirect", "count"], [10, 14, 8, 14, 2, 1, 3, 8])[0]
        base, other = draw.choice([5, 5, 5, 2, 6]) << 15, draw.choice([6, 7, 10, 17]) << 7
        if kind == "any":
            inner.append(rules.random_word(draw, place, count))
        elif kind == "load":
            inner.append(4 * draw.randrange(16) << 20 | base | draw.choice([0, 2, 2, 2, 4, 5]) << 12 | other | 0x03)
        elif kind == "store":
            inner.append(draw.choice([0, 6, 7]) << 20 | base | draw.choice([0, 1, 2]) << 12 | 4 * draw.randrange(8) << 7 | 0x23)
        elif kind == "branch":
            word = 0
            while word & 127 != 0x63:
                word = rules.random_word(draw, place, count)
            inner.append(word)
        elif kind == "count":
            inner.append(0xFFF30313)
        else:
            inner.append({"call": 0x73, "exit": 0x05D00893, "indirect": 0x00038067}[kind])
    words = [0x000112B7, draw.randint(1, 20) << 20 | 0x313, 0x0002A383 | 4 * draw.randrange(16) << 20] + inner
    words += [0x05D00893, 0x73]
    data = []
    for _ in range(16):
        data.append(draw.choice([0x11000 + 4 * draw.randrange(16), START + 4 * draw.randrange(len(words)), draw.randrange(50)]))
    return Executable(words, b"".join(number.to_bytes(4, "little") for number in data), 16)
