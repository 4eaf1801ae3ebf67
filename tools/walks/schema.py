"""Schemas: their bytes, and the one of a small executable, by the rules of docs/GRAPH.md and docs/FORMATS.md."""
import struct

from program import START, class_of, rules, target_of, written_by

CLASSES = ["plain", "load", "store", "branch", "jump", "indirect", "call", "stop"]
LEADER, FALL, TAKEN, KEPT = 0x10, 0x20, 0x40, 0x80


class SchemaWord:
    def __init__(self, flags, raw, mask):
        self.flags, self.raw, self.mask = flags, raw, mask
        self.kind = CLASSES[flags & 15]
        self.is_kept = bool(flags & KEPT)
        self.needed = [register for register in range(32) if mask >> register & 1]


class Schema:
    """The entry and the words by address."""

    def __init__(self, entry, words):
        self.entry, self.words = entry, words

    @staticmethod
    def read(content):
        """One that isn't refused."""
        numbers = struct.unpack("<%dI" % (len(content) // 4), content)
        entry, count = numbers[1:3]
        addresses = [start + 4 * place for start, length in zip(numbers[3:3 + 2 * count:2], numbers[4:4 + 2 * count:2])
                     for place in range(length)]
        rest = numbers[3 + 2 * count:]
        return Schema(entry, {at: SchemaWord(*rest[3 * place:3 * place + 3]) for place, at in enumerate(addresses)})

    def stretches(self):
        found = []
        for at in sorted(self.words):
            if found and found[-1][0] + 4 * found[-1][1] == at:
                found[-1][1] += 1
            else:
                found.append([at, 1])
        return found

    def numbers(self):
        """All numbers of the file."""
        stretches = self.stretches()
        yield from (0x31534541, self.entry, len(stretches))
        yield from (number for stretch in stretches for number in stretch)
        for at in sorted(self.words):
            yield from (self.words[at].flags, self.words[at].raw, self.words[at].mask)

    def file(self):
        return b"".join(struct.pack("<I", number) for number in self.numbers())

    def header(self):
        """The header of the program's event files, as numbers."""
        return [0x31564541, self.entry, min(self.words), len(self.words)]

    def needs(self, target):
        """The registers that are needed at an address, none where no code word stands there."""
        return self.words[target].needed if target in self.words else []

    def has_value(self, word):
        return word.kind == "call" or word.kind == "load" and word.is_kept

    def is_witness(self, word, way):
        return bool(word.flags & (FALL if way == "fall" else TAKEN))


class Edge:
    def __init__(self, at, way, target):
        self.at, self.way, self.target = at, way, target
        self.weight, self.is_witness = 0, False


def leaders_of(words, named):
    """The addresses where blocks begin."""
    at_all = range(START, START + 4 * len(words), 4)
    found = {START} | set(named)
    for at, word in zip(at_all, words):
        if class_of(word) in ("branch", "jump"):
            found.add(target_of(word, at))
        if class_of(word) in ("branch", "jump", "indirect", "stop"):
            found.add(at + 4)
    return sorted(found & set(at_all))


def edges_of(words, leaders):
    """The edges by number, and the leader of the block that holds each word."""
    leader, edges = {}, []
    for place, word in enumerate(words):
        at = START + 4 * place
        leader[at] = at if at in leaders else leader[at - 4]
        is_last = at + 4 in leaders or place + 1 == len(words) or class_of(word) in ("branch", "jump", "indirect", "stop")
        if is_last and class_of(word) in rules.FALLING:
            edges.append(Edge(at, "fall", (at + 4) % 2 ** 32))
        if class_of(word) in ("branch", "jump"):
            edges.append(Edge(at, "taken", target_of(word, at)))
    return edges, leader


def weigh(words, edges, leader):
    """Gives each edge its weight by depth."""
    back = []
    for edge in edges:
        word = words[(edge.at - START) // 4]
        if edge.way == "taken" and (class_of(word) == "branch" or written_by(word) == 0):
            back.append((edge.target, edge.at))

    def depth(at):
        if at not in leader:
            return 0
        return min(6, len({target for target, source in back if target <= leader[at] <= source}))

    for edge in edges:
        skips = edge.way == "taken" and class_of(words[(edge.at - START) // 4]) == "branch" and edge.target > edge.at
        edge.weight = 8 ** min(depth(edge.at), depth(edge.target)) * (1 if skips else 2)


def mark(edges, leader):
    """Marks the witnesses: an edge that leaves, and one whose ends are joined by edges that rank before it."""
    part = {at: at for at in leader.values()}
    ranked = sorted(enumerate(edges), key=lambda numbered: (-numbered[1].weight, numbered[0]))
    for _, edge in ranked:
        if edge.target not in leader:
            edge.is_witness = True
            continue
        one, other = part[leader[edge.at]], part[leader[edge.target]]
        edge.is_witness = one == other
        for at in part:
            if part[at] == other:
                part[at] = one


def schema_of(words, named=()):
    """The schema of these code words, by weights by depth; `named` are the addresses that symbols and relocations name."""
    code = rules.Code(words)
    needs, leaders = rules.needs_of(code), leaders_of(words, named)
    edges, leader = edges_of(words, leaders)
    weigh(words, edges, leader)
    mark(edges, leader)
    marks = {}
    for edge in edges:
        if edge.is_witness:
            marks[edge.at] = marks.get(edge.at, 0) | (FALL if edge.way == "fall" else TAKEN)
    found = {}
    for place, word in enumerate(words):
        at = START + 4 * place
        kind, written = class_of(word), written_by(word)
        is_kept = kind in ("plain", "load") and written != 0 and any(written in needs[way] for way in code.next[at])
        flags = CLASSES.index(kind) | (LEADER if at in leaders else 0) | marks.get(at, 0) | (KEPT if is_kept else 0)
        found[at] = SchemaWord(flags, 0 if kind == "plain" and not is_kept else word, sum(2 ** register for register in needs[at]))
    return Schema(START, found)
