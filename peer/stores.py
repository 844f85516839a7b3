"""The pile program and its stores, written from docs/RULES.md alone as an independent peer.

It shares no code with the program it is compared with. Each class and function carries the name the rules give the
thing, and does what the rules say in the plainest way. Lines, fields and numbers are read as in paths.py.

    python3 peer/stores.py < input
"""

import sys
from typing import Callable, Dict, List, NamedTuple, Optional, Tuple

sys.dont_write_bytecode = True  # leave no __pycache__ beside the sources

import paths  # noqa: E402
from paths import LINE, SETTING, SIZE, Refusal  # noqa: E402

NO_CELL = 9
BEYOND = 11
WRITTEN = 12
LENGTH = 14

MOST_CELLS = paths.MOST_CELLS
CONTENT_BYTES = 24
PLATE_CELL_BYTES = 1 + CONTENT_BYTES
COUNT_BYTES = 4
NUMBER_BYTES = 4
REEL_LINE_BYTES = NUMBER_BYTES + CONTENT_BYTES

MOST_PILE_NUMBER = 64
MOST_CELL = 4294967295
SPARE_BYTES = 3
SPARE_BYTE = 0xA5
HEX_DIGITS = b"0123456789abcdefABCDEF"


# Stores


class Store:
    """A row of cells that are written once. A make says what a cell holds, and how a cell that may be is written."""

    word = ""

    def size(self) -> int:
        """The number of cells."""
        raise NotImplementedError

    def content(self, cell: int) -> Optional[bytes]:
        """What a cell of this store holds, or None where it is blank."""
        raise NotImplementedError

    def blank_can_be_taken(self, cell: int) -> bool:
        """Whether a blank cell of this store can be taken now."""
        raise NotImplementedError

    def put(self, cell: int, content: bytes) -> None:
        """Write a cell that can be taken."""
        raise NotImplementedError

    def below(self) -> List["Store"]:
        """The stores that this one is laid over, in their order."""
        return []

    def is_written(self, cell: int) -> bool:
        """Whether a cell is written; outside the store a cell counts as blank."""
        return cell < self.size() and self.content(cell) is not None

    def can_take(self, cell: int) -> bool:
        """Whether a cell can be taken now; a written one cannot, nor can a number outside the store."""
        if cell >= self.size() or self.is_written(cell):
            return False
        return self.blank_can_be_taken(cell)

    def read(self, cell: int, buffer: bytearray) -> bool:
        """Fill a buffer with the cell, or with zeros where it is blank, and say whether it is written."""
        if len(buffer) != CONTENT_BYTES:
            raise Refusal(LENGTH)
        if cell >= self.size():
            raise Refusal(BEYOND, cell)
        content = self.content(cell)
        buffer[:] = bytes(CONTENT_BYTES) if content is None else content
        return content is not None

    def write(self, cell: int, content: bytes) -> None:
        """Write a cell, or refuse and change nothing."""
        if len(content) != CONTENT_BYTES:
            raise Refusal(LENGTH)
        if cell >= self.size():
            raise Refusal(BEYOND, cell)
        if self.is_written(cell):
            raise Refusal(WRITTEN, cell)
        if not self.can_take(cell):
            raise Refusal(NO_CELL, cell)
        self.put(cell, content)


def check_count(count: int) -> None:
    """Refuse a number of cells or lines outside its range."""
    if not 1 <= count <= MOST_CELLS:
        raise Refusal(SETTING)


def check_memory(memory: bytearray, needed: int) -> None:
    """Refuse memory that is too short."""
    if len(memory) < needed:
        raise Refusal(SIZE)


def zero_first(memory: bytearray, needed: int) -> None:
    """Zero the bytes that are needed and no other, or refuse memory that is too short."""
    check_memory(memory, needed)
    memory[:needed] = bytes(needed)


class Plate(Store):
    """A store in memory that the caller lends, with a place for every cell: a flag, and the content."""

    word = "plate"

    def __init__(self, memory: bytearray, cells: int) -> None:
        check_count(cells)
        zero_first(memory, PLATE_CELL_BYTES * cells)
        self.memory = memory
        self.cells = cells

    def size(self) -> int:
        return self.cells

    def content(self, cell: int) -> Optional[bytes]:
        start = PLATE_CELL_BYTES * cell
        if self.memory[start] == 0:
            return None
        return bytes(self.memory[start + 1 : start + PLATE_CELL_BYTES])

    def blank_can_be_taken(self, cell: int) -> bool:
        return True

    def put(self, cell: int, content: bytes) -> None:
        start = PLATE_CELL_BYTES * cell
        self.memory[start] = 1
        self.memory[start + 1 : start + PLATE_CELL_BYTES] = content


class Reel(Store):
    """A store in memory that the caller lends: a count, then lines of a cell's number and content, in writing order."""

    word = "reel"

    def __init__(self, memory: bytearray, cells: int, lines: int) -> None:
        check_count(cells)
        check_count(lines)
        zero_first(memory, COUNT_BYTES + REEL_LINE_BYTES * lines)
        self.memory = memory
        self.cells = cells
        self.lines = lines

    def size(self) -> int:
        return self.cells

    def count(self) -> int:
        """How many lines were used."""
        return int.from_bytes(self.memory[:COUNT_BYTES], "big")

    def is_full(self) -> bool:
        """Whether no lines remain."""
        return self.count() >= self.lines

    def content(self, cell: int) -> Optional[bytes]:
        for line in range(min(self.count(), self.lines)):
            start = COUNT_BYTES + REEL_LINE_BYTES * line
            number = int.from_bytes(self.memory[start : start + NUMBER_BYTES], "big")
            if number == cell:
                return bytes(self.memory[start + NUMBER_BYTES : start + REEL_LINE_BYTES])
        return None

    def blank_can_be_taken(self, cell: int) -> bool:
        return not self.is_full()

    def put(self, cell: int, content: bytes) -> None:
        count = self.count()
        start = COUNT_BYTES + REEL_LINE_BYTES * count
        self.memory[start : start + REEL_LINE_BYTES] = cell.to_bytes(NUMBER_BYTES, "big") + content
        self.memory[:COUNT_BYTES] = (count + 1).to_bytes(COUNT_BYTES, "big")


class Window(Store):
    """A run of the cells of any store, numbered from 0."""

    word = "window"

    def __init__(self, store: Store, first: int, cells: int) -> None:
        if cells == 0:
            raise Refusal(SETTING)
        if first + cells > store.size():
            raise Refusal(SIZE)
        self.store = store
        self.first = first
        self.cells = cells

    def size(self) -> int:
        return self.cells

    def content(self, cell: int) -> Optional[bytes]:
        return self.store.content(self.first + cell)

    def blank_can_be_taken(self, cell: int) -> bool:
        return self.store.can_take(self.first + cell)

    def put(self, cell: int, content: bytes) -> None:
        self.store.write(self.first + cell, content)

    def below(self) -> List[Store]:
        return [self.store]


class Join(Store):
    """The cells of one store, then those of another."""

    word = "join"

    def __init__(self, one: Store, other: Store) -> None:
        if one.size() + other.size() > MOST_CELLS:
            raise Refusal(SIZE)
        self.one = one
        self.other = other

    def size(self) -> int:
        return self.one.size() + self.other.size()

    def place(self, cell: int) -> Tuple[Store, int]:
        """The store that a cell belongs to, and its number there."""
        if cell < self.one.size():
            return self.one, cell
        return self.other, cell - self.one.size()

    def content(self, cell: int) -> Optional[bytes]:
        store, number = self.place(cell)
        return store.content(number)

    def blank_can_be_taken(self, cell: int) -> bool:
        store, number = self.place(cell)
        return store.can_take(number)

    def put(self, cell: int, content: bytes) -> None:
        store, number = self.place(cell)
        store.write(number, content)

    def below(self) -> List[Store]:
        return [self.one, self.other]


# Piles


class Pile(NamedTuple):
    """The topmost store of a pile, and the memories in the order in which they are shown."""

    top: Store
    memories: List[bytearray]


def plate_memory(cells: int) -> bytearray:
    """The memory a plate gets, before it is set up."""
    return bytearray([SPARE_BYTE]) * (PLATE_CELL_BYTES * cells + SPARE_BYTES)


def reel_memory(lines: int) -> bytearray:
    """The memory a reel gets, before it is set up."""
    return bytearray([SPARE_BYTE]) * (COUNT_BYTES + REEL_LINE_BYTES * lines + SPARE_BYTES)


def new_plate(cells: int) -> Plate:
    """A plate in a memory of its own."""
    return Plate(plate_memory(cells), cells)


def new_reel(cells: int, lines: int) -> Reel:
    """A reel in a memory of its own."""
    return Reel(reel_memory(lines), cells, lines)


def plate_pile(p: int) -> Pile:
    """`plate P`."""
    plate = new_plate(p)
    return Pile(plate, [plate.memory])


def reel_pile(r: int, n: int) -> Pile:
    """`reel R N`."""
    reel = new_reel(r, n)
    return Pile(reel, [reel.memory])


def window_pile(p: int, f: int, c: int) -> Pile:
    """`window P F C`."""
    plate = new_plate(p)
    return Pile(Window(plate, f, c), [plate.memory])


def join_pile(p: int, r: int, n: int) -> Pile:
    """`join P R N`."""
    plate = new_plate(p)
    reel = new_reel(r, n)
    return Pile(Join(plate, reel), [plate.memory, reel.memory])


def shown_pile(p: int, r: int, n: int, f: int, c: int) -> Pile:
    """`shown P R N F C`."""
    plate = new_plate(p)
    reel = new_reel(r, n)
    return Pile(Window(Join(plate, reel), f, c), [plate.memory, reel.memory])


def deep_pile(p: int, f: int, c: int, r: int, n: int, g: int, d: int) -> Pile:
    """`deep P F C R N G D`; plate and reel are set up before any window."""
    plate = new_plate(p)
    reel = new_reel(r, n)
    join = Join(Window(plate, f, c), reel)
    return Pile(Window(join, g, d), [plate.memory, reel.memory])


PILES: Dict[bytes, Tuple[int, Callable[..., Pile]]] = {
    b"plate": (1, plate_pile),
    b"reel": (2, reel_pile),
    b"window": (3, window_pile),
    b"join": (3, join_pile),
    b"shown": (5, shown_pile),
    b"deep": (7, deep_pile),
}


# Fields


def number_up_to(most: int) -> paths.Reader:
    """A reader for a number that is at most this."""

    def read_limited(field: bytes) -> Optional[int]:
        number = paths.read_number(field)
        return number if number is not None and number <= most else None

    return read_limited


def read_hex(field: bytes) -> Optional[bytes]:
    """The bytes that an even number of hexadecimal digits stands for, or None; there are at least two digits."""
    if len(field) < 2 or len(field) % 2 != 0:
        return None
    for byte in field:
        if byte not in HEX_DIGITS:
            return None
    return bytes.fromhex(field.decode("ascii"))


WORD_READER = paths.one_of(tuple(PILES))
PILE_NUMBER_READER = number_up_to(MOST_PILE_NUMBER)
CELL_READER = number_up_to(MOST_CELL)

COMMANDS: Dict[bytes, List[paths.Reader]] = {
    b"write": [CELL_READER, read_hex],
    b"read": [CELL_READER],
    b"take": [CELL_READER],
}
COMMAND_READER = paths.one_of(tuple(COMMANDS))


# The pile program


def check_line(line: bytes) -> None:
    """Refuse a line that is too long."""
    if len(line) > paths.MOST_LINE:
        raise Refusal(LINE, 0)


def refusal_line(number: int, refusal: Refusal) -> bytes:
    """What is printed for a refusal of the line with that number."""
    detail = "-" if refusal.detail is None else str(refusal.detail)
    return f"no {number} {refusal.number} {detail}\n".encode()


def set_up(line: bytes) -> Pile:
    """The pile that the first line asks for."""
    check_line(line)
    fields = paths.split_fields(line)
    if fields[0] not in PILES:
        raise Refusal(LINE, 1)
    count, make = PILES[fields[0]]
    _, *numbers = paths.read_fields(fields, [WORD_READER] + [PILE_NUMBER_READER] * count)
    return make(*numbers)


def write_answer(store: Store, cell: int, content: bytes) -> str:
    """The answer to `write CELL HEX`."""
    store.write(cell, content)
    return f"written {cell}"


def read_answer(store: Store, cell: int) -> str:
    """The answer to `read CELL`."""
    buffer = bytearray(CONTENT_BYTES)
    if store.read(cell, buffer):
        return f"holds {cell} {buffer.hex()}"
    return f"blank {cell}"


def take_answer(store: Store, cell: int) -> str:
    """The answer to `take CELL`."""
    return f"free {cell}" if store.can_take(cell) else f"taken {cell}"


def command_answer(store: Store, line: bytes) -> str:
    """The answer to one command."""
    check_line(line)
    fields = paths.split_fields(line)
    if fields[0] not in COMMANDS:
        raise Refusal(LINE, 1)
    word, *values = paths.read_fields(fields, [COMMAND_READER] + COMMANDS[fields[0]])
    if word == b"write":
        return write_answer(store, *values)
    if word == b"read":
        return read_answer(store, *values)
    return take_answer(store, *values)


def answer(store: Store, number: int, line: bytes) -> bytes:
    """What is printed for one command, refused or not."""
    try:
        return command_answer(store, line).encode() + b"\n"
    except Refusal as refusal:
        return refusal_line(number, refusal)


def layer_lines(store: Store) -> List[str]:
    """A line for this layer, then those of the layers below it in their order."""
    letters = ["#" if store.is_written(cell) else "." for cell in range(store.size())]
    lines = [f"{store.word} {''.join(letters)}"]
    for lower in store.below():
        lines += layer_lines(lower)
    return lines


def end_lines(pile: Pile) -> bytes:
    """What is printed at the end of the input: the layers, then the memories."""
    lines = layer_lines(pile.top) + [f"bytes {memory.hex()}" for memory in pile.memories]
    return "".join(line + "\n" for line in lines).encode()


def run_pile(data: bytes) -> Tuple[Optional[Pile], bytes]:
    """The pile as it is at the end, where there is one, and the whole output for an input."""
    if len(data) > paths.MOST_INPUT:
        return None, b"no 0 15 0\n"
    lines = paths.split_lines(data)
    if not lines:
        return None, b""
    try:
        pile = set_up(lines[0])
    except Refusal as refusal:
        return None, refusal_line(1, refusal)
    output = [f"size {pile.top.size()}\n".encode()]
    for number, line in enumerate(lines[1:], start=2):
        output.append(answer(pile.top, number, line))
    output.append(end_lines(pile))
    return pile, b"".join(output)


def run(data: bytes) -> bytes:
    """The whole output for an input."""
    return run_pile(data)[1]


if __name__ == "__main__":
    sys.stdout.buffer.write(run(sys.stdin.buffer.read()))
