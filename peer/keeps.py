"""The keep program and its keeps, written from docs/RULES.md alone as an independent peer.

It shares no code with the program it is compared with. Each class and function carries the name the rules give the
thing, and does what the rules say in the plainest way. Lines and fields are read as in paths.py, numbers up to a limit
and hexadecimal as in stores.py.

    python3 peer/keeps.py < input
"""

import sys
from typing import Dict, List, NamedTuple, Optional, Tuple, Type

sys.dont_write_bytecode = True  # leave no __pycache__ beside the sources

import paths  # noqa: E402
import stores  # noqa: E402
from paths import LINE, SETTING, Refusal  # noqa: E402

GROUP = 5
GONE = 6
NO_SLOT = 10
STRANGER = 13

MOST_SLOTS = 65535
MOST_LINES = 65536
COUNT_BYTES = 4
GROUP_BYTES = 2
CELL_BYTES = 4
LOCATOR_BYTES = 8
RECORD_BYTES = CELL_BYTES + LOCATOR_BYTES
LINE_BYTES = GROUP_BYTES + RECORD_BYTES
RETIRED_COUNT = 0xFFFFFFFF
LIVE_STATE = 0
RETIRED_STATE = 1

MOST_MEMORY = 65536
MOST_GROUP = 65535
MOST_32_BITS = 4294967295
FRESH_BYTE = 0xA5


# Bytes


class Pair(NamedTuple):
    """What was put: a cell and its locator."""

    cell: int
    locator: int


def read_at(memory: bytearray, start: int, size: int) -> int:
    """The number that so many bytes of memory hold."""
    return int.from_bytes(memory[start : start + size], "big")


def write_at(memory: bytearray, start: int, content: bytes) -> None:
    """Write bytes over those that stand in memory from a place on."""
    memory[start : start + len(content)] = content


def read_record(memory: bytearray, start: int) -> Pair:
    """The cell and the locator that stand in memory from a place on."""
    return Pair(read_at(memory, start, CELL_BYTES), read_at(memory, start + CELL_BYTES, LOCATOR_BYTES))


def record(pair: Pair) -> bytes:
    """The bytes of a cell and a locator."""
    return pair.cell.to_bytes(CELL_BYTES, "big") + pair.locator.to_bytes(LOCATOR_BYTES, "big")


def count_bytes(count: int) -> bytes:
    """The bytes of a count."""
    return count.to_bytes(COUNT_BYTES, "big")


# Keeps


class Keep:
    """Groups of pairs of a cell and a locator. A make says where the bytes of its places lie in lent memory."""

    most_places = 0

    def __init__(self, memory: bytearray, groups: int, places: int) -> None:
        """Open what memory holds, or refuse; memory is not touched."""
        paths.check_groups(groups)
        if not 1 <= places <= self.most_places:
            raise Refusal(SETTING)
        stores.check_memory(memory, self.needed(groups, places))
        self.memory = memory
        self.groups = groups
        self.places = places

    @staticmethod
    def needed(groups: int, places: int) -> int:
        """The bytes that so many groups and places need."""
        raise NotImplementedError

    def is_retired(self, group: int) -> bool:
        """Whether a group of this keep is retired."""
        raise NotImplementedError

    def takes(self, group: int) -> bool:
        """Whether a live group takes a pair now."""
        raise NotImplementedError

    def pairs(self, group: int) -> List[Pair]:
        """The list of a live group."""
        raise NotImplementedError

    def add(self, group: int, pair: Pair) -> None:
        """Add a pair to a live group that takes one."""
        raise NotImplementedError

    def retire(self, group: int) -> None:
        """Wipe the pairs of a live group and make it retired."""
        raise NotImplementedError

    def check(self, group: int) -> None:
        """Refuse a group that is not there or retired."""
        if group >= self.groups:
            raise Refusal(GROUP, group)
        if self.is_retired(group):
            raise Refusal(GONE, group)

    def room(self, group: int) -> bool:
        """Whether a group takes a pair now; no group that is retired or not there does."""
        return group < self.groups and not self.is_retired(group) and self.takes(group)

    def put(self, group: int, cell: int, locator: int) -> int:
        """Add a pair at the end of a group's list; its slot."""
        self.check(group)
        if not self.takes(group):
            raise Refusal(NO_SLOT, group)
        slot = len(self.pairs(group))
        self.add(group, Pair(cell, locator))
        return slot

    def get(self, group: int, slot: int, cell: int) -> int:
        """The locator of a slot that was put for that cell."""
        self.check(group)
        pairs = self.pairs(group)
        if slot >= len(pairs) or pairs[slot].cell != cell:
            raise Refusal(STRANGER, cell)
        return pairs[slot].locator

    def strike(self, group: int) -> int:
        """Make a group retired for good; how many pairs it had."""
        self.check(group)
        pairs = len(self.pairs(group))
        self.retire(group)
        return pairs


class Blocks(Keep):
    """A keep with a block for each group: a count, then a record for each slot."""

    most_places = MOST_SLOTS

    @staticmethod
    def needed(groups: int, places: int) -> int:
        return groups * (COUNT_BYTES + RECORD_BYTES * places)

    def block(self, group: int) -> int:
        """Where the block of a group begins."""
        return self.needed(group, self.places)

    def record_place(self, group: int, slot: int) -> int:
        """Where the record of a slot begins."""
        return self.block(group) + COUNT_BYTES + RECORD_BYTES * slot

    def count(self, group: int) -> int:
        """The count of a group as it stands in memory."""
        return read_at(self.memory, self.block(group), COUNT_BYTES)

    def is_retired(self, group: int) -> bool:
        return self.count(group) == RETIRED_COUNT

    def takes(self, group: int) -> bool:
        return self.count(group) < self.places

    def pairs(self, group: int) -> List[Pair]:
        used = min(self.count(group), self.places)
        return [read_record(self.memory, self.record_place(group, slot)) for slot in range(used)]

    def add(self, group: int, pair: Pair) -> None:
        count = self.count(group)
        write_at(self.memory, self.record_place(group, count), record(pair))
        write_at(self.memory, self.block(group), count_bytes(count + 1))

    def retire(self, group: int) -> None:
        write_at(self.memory, self.block(group), bytes(self.needed(1, self.places)))
        write_at(self.memory, self.block(group), count_bytes(RETIRED_COUNT))


class Ledger(Keep):
    """A keep with the pairs of all groups in the order in which they came: a state for each group, a count, lines."""

    most_places = MOST_LINES

    @staticmethod
    def needed(groups: int, places: int) -> int:
        return groups + COUNT_BYTES + LINE_BYTES * places

    def line_place(self, line: int) -> int:
        """Where a line begins."""
        return self.needed(self.groups, line)

    def count(self) -> int:
        """The count of lines as it stands in memory."""
        return read_at(self.memory, self.groups, COUNT_BYTES)

    def lines_of(self, group: int) -> List[int]:
        """The used lines of a group."""
        used = range(min(self.count(), self.places))
        return [line for line in used if read_at(self.memory, self.line_place(line), GROUP_BYTES) == group]

    def is_retired(self, group: int) -> bool:
        return self.memory[group] != LIVE_STATE

    def takes(self, group: int) -> bool:
        return self.count() < self.places

    def pairs(self, group: int) -> List[Pair]:
        return [read_record(self.memory, self.line_place(line) + GROUP_BYTES) for line in self.lines_of(group)]

    def add(self, group: int, pair: Pair) -> None:
        count = self.count()
        write_at(self.memory, self.line_place(count), group.to_bytes(GROUP_BYTES, "big") + record(pair))
        write_at(self.memory, self.groups, count_bytes(count + 1))

    def retire(self, group: int) -> None:
        for line in self.lines_of(group):
            write_at(self.memory, self.line_place(line) + GROUP_BYTES, bytes(RECORD_BYTES))
        self.memory[group] = RETIRED_STATE


MAKES: Dict[bytes, Type[Keep]] = {b"blocks": Blocks, b"ledger": Ledger}


def open_keep(make: bytes, memory: bytearray, groups: int, places: int) -> Keep:
    """A keep of that make in memory as it is."""
    return MAKES[make](memory, groups, places)


def set_up_keep(make: bytes, memory: bytearray, groups: int, places: int) -> Keep:
    """A keep of that make, with the bytes that it needs zeroed; a refusal leaves memory as it was."""
    keep = open_keep(make, memory, groups, places)
    stores.zero_first(memory, keep.needed(groups, places))
    return keep


# Lines

Forms = Dict[bytes, List[paths.Reader]]

READ_GROUP = stores.number_up_to(MOST_GROUP)
READ_32_BITS = stores.number_up_to(MOST_32_BITS)
KEEP_READERS: List[paths.Reader] = [paths.one_of(tuple(MAKES)), READ_32_BITS, READ_32_BITS]

FIRST_FORMS: Forms = {
    b"memory": [stores.number_up_to(MOST_MEMORY)],
}
WAITING_FORMS: Forms = {
    b"fill": [paths.read_number, stores.read_hex],
    b"set": KEEP_READERS,
    b"open": KEEP_READERS,
}
COMMAND_FORMS: Forms = {
    b"put": [READ_GROUP, READ_32_BITS, paths.read_number],
    b"get": [READ_GROUP, READ_32_BITS, READ_32_BITS],
    b"strike": [READ_GROUP],
    b"check": [READ_GROUP],
    b"room": [READ_GROUP],
}


def read_line(line: bytes, forms: Forms) -> list:
    """The word of a line of one of these forms, and what its other fields hold."""
    stores.check_line(line)
    fields = paths.split_fields(line)
    if fields[0] not in forms:
        raise Refusal(LINE, 1)
    return paths.read_fields(fields, [paths.read_text] + forms[fields[0]])


# The keep program


def put_answer(keep: Keep, group: int, cell: int, locator: int) -> str:
    """The answer to `put GROUP CELL LOCATOR`."""
    return f"put {group} {keep.put(group, cell, locator)}"


def get_answer(keep: Keep, group: int, slot: int, cell: int) -> str:
    """The answer to `get GROUP SLOT CELL`."""
    return f"at {keep.get(group, slot, cell)}"


def strike_answer(keep: Keep, group: int) -> str:
    """The answer to `strike GROUP`."""
    return f"struck {group} {keep.strike(group)}"


def check_answer(keep: Keep, group: int) -> str:
    """The answer to `check GROUP`."""
    keep.check(group)
    return f"live {group}"


def room_answer(keep: Keep, group: int) -> str:
    """The answer to `room GROUP`."""
    return f"room {group}" if keep.room(group) else f"none {group}"


def command_answer(keep: Keep, line: bytes) -> bytes:
    """The answer to one command."""
    word, *values = read_line(line, COMMAND_FORMS)
    if word == b"put":
        answer = put_answer(keep, *values)
    elif word == b"get":
        answer = get_answer(keep, *values)
    elif word == b"strike":
        answer = strike_answer(keep, *values)
    elif word == b"check":
        answer = check_answer(keep, *values)
    else:
        answer = room_answer(keep, *values)
    return answer.encode() + b"\n"


class Program:
    """The keep program after its first line: its memory, and its keep, for which it waits at first."""

    def __init__(self, first_line: bytes) -> None:
        _, size = read_line(first_line, FIRST_FORMS)
        self.memory = bytearray([FRESH_BYTE]) * size
        self.keep: Optional[Keep] = None

    def answer(self, number: int, line: bytes) -> bytes:
        """What is printed for one line: nothing, or one line with its end."""
        try:
            return self.take(line)
        except Refusal as refusal:
            return stores.refusal_line(number, refusal)

    def take(self, line: bytes) -> bytes:
        """Take one line, in the state the program is in."""
        if self.keep is not None:
            return command_answer(self.keep, line)
        word, *values = read_line(line, WAITING_FORMS)
        if word == b"fill":
            return self.take_fill(*values)
        return self.take_keep(word, *values)

    def take_fill(self, at: int, content: bytes) -> bytes:
        """A line `fill AT HEX` while waiting."""
        if at + len(content) > len(self.memory):
            raise Refusal(LINE, 2)
        write_at(self.memory, at, content)
        return b""

    def take_keep(self, word: bytes, make: bytes, groups: int, places: int) -> bytes:
        """A line `set` or `open`, a make, and two numbers, while waiting."""
        begin = set_up_keep if word == b"set" else open_keep
        self.keep = begin(make, self.memory, groups, places)
        return f"groups {groups}\n".encode()


def run_keep(data: bytes) -> Tuple[Optional[Program], bytes]:
    """The program as it is at the end, where its first line was right, and the whole output for an input."""
    if len(data) > paths.MOST_INPUT:
        return None, b"no 0 15 0\n"
    lines = paths.split_lines(data)
    if not lines:
        return None, b""
    try:
        program = Program(lines[0])
    except Refusal as refusal:
        return None, stores.refusal_line(1, refusal)
    output = [program.answer(number, line) for number, line in enumerate(lines[1:], start=2)]
    output.append(f"bytes {program.memory.hex()}\n".encode())
    return program, b"".join(output)


def run(data: bytes) -> bytes:
    """The whole output for an input."""
    return run_keep(data)[1]


if __name__ == "__main__":
    sys.stdout.buffer.write(run(sys.stdin.buffer.read()))
