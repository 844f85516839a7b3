"""Compare a pile program with its peer in stores.py, byte by byte, on random inputs.

    python3 peer/compare_stores.py PROGRAM [--runs N] [--seed K]

PROGRAM is an executable that reads standard input and writes standard output. The peer is first checked against
examples worked out by hand from docs/RULES.md. The status is 0 where every output was the same, PROGRAM always ended
with status 0, and the inputs covered what `missing_cover` asks for; otherwise it is 1. Run number n of seed k always
has the same input.
"""

import random
import sys
from collections import Counter
from typing import Callable, Dict, List, NamedTuple, Optional, Tuple

sys.dont_write_bytecode = True  # leave no __pycache__ beside the sources

import paths  # noqa: E402
import stores  # noqa: E402
from compare import (  # noqa: E402
    NO_NUMBERS,
    Fields,
    Lines,
    agrees,
    compare_all,
    ending,
    long_line,
    replaced,
    report,
    written,
    wrong_bytes,
    wrong_count,
)

WORDS = ("plate", "reel", "window", "join", "shown", "deep")
REFUSALS = (1, 3, 9, 11, 12, 14, 15)
SPARE = "a5a5a5"


# The peer against examples worked out by hand

AA = "aa" * 24
BB = "bb" * 24
ZEROS = "00" * 24

EXAMPLES: List[Tuple[str, str, str]] = [
    ("no input", "", ""),
    ("an empty line", "\n", "no 1 15 1\n"),
    ("a plate of no cells", "plate 0\nread 0\n", "no 1 1 -\n"),
    ("fields before settings", "join 0 65 1\n", "no 1 15 3\n"),
    ("a reel before the window", "deep 1 5 5 1 0 0 1\n", "no 1 1 -\n"),
    ("a window of no cells past the end", "window 1 9 0\n", "no 1 1 -\n"),
    ("a window past the end", "window 4 2 3\n", "no 1 3 -\n"),
    (
        "a plate",
        f"plate 1\nread 0\nwrite 0 {AA.upper()}\nwrite 0 {BB}\nread 0\nread 1\nwrite 9 aa\ntake 0\ntake 9",
        f"size 1\nblank 0\nwritten 0\nno 4 12 0\nholds 0 {AA}\nno 6 11 1\nno 7 14 -\ntaken 0\ntaken 9\n"
        f"plate #\nbytes 01{AA}{SPARE}\n",
    ),
    (
        "a deep pile",
        f"deep 3 1 2 2 1 1 3\nwrite 2 {AA}\nwrite 1 {BB}\ntake 1\ntake 0\nwrite 0 {BB}\nwrite 3 {BB}\n",
        "size 3\nwritten 2\nno 3 9 1\ntaken 1\nfree 0\nwritten 0\nno 7 11 3\n"
        "window #.#\njoin .#.#\nwindow .#\nplate ..#\nreel .#\n"
        f"bytes 00{ZEROS}00{ZEROS}01{BB}{SPARE}\nbytes 0000000100000001{AA}{SPARE}\n",
    ),
]


def failed_examples() -> List[str]:
    """The names of the examples that the peer gets wrong."""
    return [name for name, data, wanted in EXAMPLES if stores.run(data.encode()) != wanted.encode()]


# Piles


class Asked(NamedTuple):
    """The fields of a first line, and the size of the topmost store where the line is right."""

    fields: Fields
    size: int


FAR_NUMBERS = [64, 64, 65, 65, 2**32, 2**64 - 1, 2**64]


def small(rng: random.Random) -> int:
    """A number from 0 to 12, or now and then one of the far ones."""
    return rng.choice(FAR_NUMBERS) if rng.random() < 0.08 else rng.randint(0, 12)


def some_cells(rng: random.Random) -> int:
    """A number of cells or lines that is in range, mostly a small one."""
    return 64 if rng.random() < 0.03 else rng.randint(1, 12)


def some_lines(rng: random.Random) -> int:
    """A number of lines in range, mostly so small that the reel gets full."""
    return rng.choice([1, 1, 2, 3, 4, some_cells(rng)])


def fitting_run(rng: random.Random, size: int) -> Tuple[int, int]:
    """A first cell and a number of cells inside that many, often up to the end."""
    first = rng.choice([0, rng.randrange(min(size, 65)), max(0, min(size - 1, 64))])
    left = min(size - first, 64)
    return first, rng.choice([left, left, rng.randint(1, left), 1])


def misfit_run(rng: random.Random, size: int) -> Tuple[int, int]:
    """A first cell and a number of cells that are no window on that many: one past the end, far past, or no cells."""
    first = rng.randint(0, size)
    runs = [(first, size - first + 1), (size, 1), (0, size + 1), (first, 64), (64, 64), (first, 0), (size + 1, 0)]
    return rng.choice(runs)


def some_run(rng: random.Random, size: int) -> Tuple[int, int]:
    """A window on that many cells, mostly one that fits."""
    return fitting_run(rng, size) if rng.random() < 0.88 else misfit_run(rng, size)


def pile_numbers(rng: random.Random, word: str) -> Tuple[List[int], int]:
    """Numbers for a pile, mostly right ones, and the size of its topmost store."""
    p, r, n = some_cells(rng), some_cells(rng), some_lines(rng)
    if word == "plate":
        return [p], p
    if word == "reel":
        return [r, n], r
    if word == "join":
        return [p, r, n], p + r
    if word == "window":
        f, c = some_run(rng, p)
        return [p, f, c], c
    if word == "shown":
        f, c = some_run(rng, p + r)
        return [p, r, n, f, c], c
    f, c = some_run(rng, p)
    g, d = some_run(rng, c + r)
    return [p, f, c, r, n, g, d], d


def pile(rng: random.Random) -> Asked:
    """A first line with the right number of fields, mostly for a pile that can be set up."""
    word = rng.choice(WORDS)
    numbers, size = pile_numbers(rng, word)
    if rng.random() < 0.08:
        numbers[rng.randrange(len(numbers))] = rng.choice([small(rng), small(rng), rng.choice(FAR_NUMBERS)])
    if rng.random() < 0.04:
        numbers = [small(rng) for _ in numbers]
    return Asked([word.encode()] + [written(rng, number) for number in numbers], size)


# Commands

EDGE_CELLS = [4294967295, 4294967295, 4294967296, 2**32 + 1, 2**64 - 1, 2**64]

NO_HEX_BYTES = [
    b"g", b"G", b"/", b":", b"@", b"`", b"x", b"+", b"-", b"_", b"\0", b"\r", b"\t", b"\x80", b"\xff",
]  # fmt: skip

WRONG_WORDS = [
    b"", b"Write", b"WRITE", b"writes", b"writ", b"rite", b"Read", b"READ", b"rea", b"reads", b"Take", b"TAKE", b"tak",
    b"takes", b"written", b"size", b"plate", b"reel", b"window", b"join", b"shown", b"deep", b"Plate", b"plates",
    b"dee", b"reel\r", b"7", b"\0", b"\xff",
]  # fmt: skip


def some_cell(rng: random.Random, size: int, used: List[int]) -> int:
    """A cell, mostly inside a store of that size: any, one at an edge, or one that was used before."""
    pick = rng.random()
    if pick < 0.45:
        return rng.randrange(max(1, size))
    if pick < 0.65 and used:
        return rng.choice(used)
    if pick < 0.96:
        return rng.choice([0, 0, max(0, size - 1), max(0, size - 1), size, size + 1])
    return rng.choice(EDGE_CELLS)


def some_content(rng: random.Random) -> bytes:
    """The bytes of a write: mostly 24, and sometimes all of them the same."""
    count = 24 if rng.random() < 0.85 else rng.choice([1, 2, 12, 23, 25, 31, 36])
    if rng.random() < 0.08:
        return bytes([rng.choice([0, 0, 1, 0xA5, 0xFF])]) * count
    return bytes(rng.randrange(256) for _ in range(count))


def hex_field(rng: random.Random, content: bytes) -> bytes:
    """A field of hexadecimal digits for some bytes, now and then one that is wrong."""
    digits = content.hex()
    pick = rng.random()
    if pick < 0.15:
        digits = digits.upper()
    elif pick < 0.3:
        digits = "".join(rng.choice([digit.upper(), digit]) for digit in digits)
    field = digits.encode()
    if rng.random() < 0.94:
        return field
    place = rng.choice([0, len(field) - 1, rng.randrange(len(field))])
    wrongs = [
        field[1:],
        field + b"0",
        field[:place] + rng.choice(NO_HEX_BYTES) + field[place + 1 :],
        field[:place] + rng.choice(NO_HEX_BYTES) + field[place + 1 :],
        b"0x" + field[2:],
        b"",
        b"7",
    ]
    return rng.choice(wrongs)


def command(rng: random.Random, size: int, used: List[int]) -> Fields:
    """A command with the right number of fields; its cell goes to those that were used."""
    cell = some_cell(rng, size, used)
    used.append(cell)
    word = rng.choice([b"write", b"write", b"write", b"read", b"read", b"take"])
    fields = [word, written(rng, cell)]
    return fields + [hex_field(rng, some_content(rng))] if word == b"write" else fields


# Spoiled lines

Spoiler = Callable[[random.Random, Fields], Fields]


def wrong_field(rng: random.Random, fields: Fields) -> Fields:
    """A line with one field that is mostly wrong."""
    place = rng.randrange(len(fields))
    choices = WRONG_WORDS if place == 0 else NO_NUMBERS + [b"65", b"4294967296", b"18446744073709551616"]
    return replaced(fields, place, rng.choice(choices))


def spoiled(rng: random.Random, fields: Fields, spoil_field: Spoiler) -> bytes:
    """A line that was well-formed, wrong in one thing (or now and then still right)."""
    pick = rng.random()
    if pick < 0.4:
        return b" ".join(spoil_field(rng, fields))
    if pick < 0.65:
        return b" ".join(wrong_count(rng, fields))
    if pick < 0.75:
        return wrong_bytes(rng, b" ".join(fields))
    if pick < 0.92:
        return long_line(rng, b" ".join(fields))
    if pick < 0.97:
        return b""
    return b" ".join(fields).swapcase()


def line_of(rng: random.Random, fields: Fields, chance: float, spoil_field: Spoiler = wrong_field) -> bytes:
    """The fields as a line, spoiled with that chance."""
    return spoiled(rng, fields, spoil_field) if rng.random() < chance else b" ".join(fields)


# Inputs


def command_lines(rng: random.Random, size: int, count: int) -> Lines:
    """That many commands to a store of that size, some of them spoiled."""
    used: List[int] = []
    lines = [line_of(rng, command(rng, size, used), 0.08) for _ in range(count)]
    if rng.random() < 0.05:
        lines.insert(rng.randint(0, count), b" ".join(pile(rng).fields))
    return lines


def random_input(rng: random.Random) -> bytes:
    """An input: a pile, mostly one that can be set up, then commands."""
    if rng.random() < 0.01:
        return bytes(rng.choice(b"plate reel\n 0123456789\0\r\xff") for _ in range(rng.randrange(200)))
    asked = pile(rng)
    lines = [line_of(rng, asked.fields, 0.06)]
    lines += command_lines(rng, asked.size, rng.choice([0, rng.randint(5, 40), rng.randint(5, 40), rng.randint(5, 40)]))
    data = (b"\r\n" if rng.random() < 0.01 else b"\n").join(lines) + ending(rng)
    if rng.random() < 0.03:
        data = wrong_bytes(rng, data)
    return data


def large_input(rng: random.Random, head: bytes, cells: int, size: int, last: bytes) -> bytes:
    """A pile of so many cells and then commands, exactly `size` bytes, ending in `last`."""
    data = bytearray(head)
    used: List[int] = []
    while len(data) < size:
        data += line_of(rng, command(rng, cells, used), 0.05) + b"\n"
    return bytes(data[: size - len(last)]) + last


def example_input(number: int) -> bytes:
    """The input of one of the examples."""
    return EXAMPLES[number][1].encode()


def input_of_run(seed: int, number: int) -> bytes:
    """The input of one run: the examples and a few fixed sorts first, then random ones."""
    if number < len(EXAMPLES):
        return example_input(number)
    rng = random.Random(f"{seed}/{number}")
    next_runs = [
        lambda: large_input(rng, b"shown 64 64 64 1 64\n", 64, 65536, b""),
        lambda: large_input(rng, b"shown 64 64 64 1 64\n", 64, 65537, b""),
        lambda: large_input(rng, b"deep 64 0 64 64 64 64 64\n", 64, 65536, b"\n"),
        lambda: large_input(rng, b"deep 64 0 64 64 64 64 64\n", 64, 65537, b"\n"),
        lambda: large_input(rng, b"join 64 64 64\n", 128, 20000, b"\n"),
        lambda: b"plate 1" + b"\n" * 65529,
        lambda: b"\n" * 65536,
        lambda: b"\0" * 65537,
        lambda: b"plate 1\n" + b"take 0\n" * 2 + b"#" * 65000,
    ]
    place = number - len(EXAMPLES)
    if place < len(next_runs):
        return next_runs[place]()
    return random_input(rng)


# What was compared


def reels_of(store: stores.Store) -> List[stores.Reel]:
    """The reels among a store and the layers below it."""
    found = [store] if isinstance(store, stores.Reel) else []
    for lower in store.below():
        found += reels_of(lower)
    return found


class Cover:
    """Counts of what the compared inputs held."""

    def __init__(self) -> None:
        self.inputs = 0
        self.answers: Counter = Counter()
        self.by_word: Counter = Counter()
        self.refusals: Counter = Counter()
        self.line_details: Counter = Counter()
        self.full_reels = 0

    def add(self, data: bytes, pile_at_end: Optional[stores.Pile], output: bytes) -> None:
        """Count one output, and the pile as it was at its end."""
        self.inputs += 1
        word = "" if pile_at_end is None else data.split(b" ")[0].decode()
        if pile_at_end is not None:
            self.full_reels += sum(reel.is_full() for reel in reels_of(pile_at_end.top))
        for line in output.splitlines():
            fields = line.decode().split(" ")
            self.answers[fields[0]] += 1
            self.by_word[word, fields[0]] += 1
            if fields[0] == "no":
                self.add_refusal(int(fields[2]), fields[3])

    def add_refusal(self, number: int, detail: str) -> None:
        """Count one refusal and its detail."""
        self.refusals[number] += 1
        if number == paths.LINE:
            self.line_details[int(detail)] += 1

    def missing_cover(self) -> List[str]:
        """What the inputs have to hold and did not."""
        answers = ("size", "written", "holds", "blank", "free", "taken")
        wanted = [(f"{answer} of {word}", self.by_word[word, answer]) for word in WORDS for answer in answers]
        wanted += [(f"refusal {number}", self.refusals[number]) for number in REFUSALS]
        wanted += [(f"LINE {detail}", self.line_details[detail]) for detail in range(4)]
        wanted += [("a full reel", self.full_reels)]
        return [name for name, count in wanted if count == 0]

    def summary(self) -> str:
        """The counts in one line."""
        sizes = " ".join(f"{word}:{self.by_word[word, 'size']}" for word in WORDS)
        refusals = " ".join(f"{number}:{self.refusals[number]}" for number in REFUSALS)
        details = " ".join(f"{detail}:{self.line_details[detail]}" for detail in sorted(self.line_details))
        reads = self.answers["holds"] + self.answers["blank"]
        return (
            f"same: {self.inputs} inputs, {self.answers['written']} writes accepted, {reads} reads "
            f"({self.answers['holds']} of written cells), {self.answers['free'] + self.answers['taken']} takes, "
            f"{self.full_reels} full reels; piles {sizes}; refusals {refusals}; LINE {details}"
        )


def broken_promise(output: bytes) -> bool:
    """Whether the peer's output breaks a promise: a cell written twice, blank after its write, holding something
    without one or different things at different times, a top row other than the writes, or a touched spare byte."""
    held: Dict[str, Optional[str]] = {}
    shown = ""
    for line in output.decode().splitlines():
        fields = line.split(" ")
        if fields[0] == "written":
            if fields[1] in held:
                return True
            held[fields[1]] = None
        elif fields[0] == "blank" and fields[1] in held:
            return True
        elif fields[0] == "holds":
            if fields[1] not in held or held[fields[1]] not in (None, fields[2]):
                return True
            held[fields[1]] = fields[2]
        elif fields[0] in ("window", "join", "plate", "reel"):
            shown = shown or fields[1]
        elif fields[0] == "bytes" and not fields[1].endswith(SPARE):
            return True
    return shown != "".join("#" if str(cell) in held else "." for cell in range(len(shown)))


def same_run(program: str, seed: int, number: int, cover: Cover) -> bool:
    """Compare one run; print it where it fails."""
    data = input_of_run(seed, number)
    pile_at_end, expected = stores.run_pile(data)
    if broken_promise(expected):
        report("the peer breaks a promise of the rules", seed, number, data, expected, b"")
        return False
    if not agrees(program, seed, number, data, expected):
        return False
    cover.add(data, pile_at_end, expected)
    return True


if __name__ == "__main__":
    sys.exit(compare_all(2000, failed_examples(), Cover(), same_run))
