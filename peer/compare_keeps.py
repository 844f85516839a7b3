"""Compare a keep program with its peer in keeps.py, byte by byte, on random inputs.

    python3 peer/compare_keeps.py PROGRAM [--runs N] [--seed K]

PROGRAM is an executable that reads standard input and writes standard output. The peer is first checked against
examples worked out by hand from docs/RULES.md, and in each run against the promises of the rules: a plain list of pairs
for each group answers the same, and no byte depends on what was put into a group that was struck. The status is 0 where
every output was the same, PROGRAM always ended with status 0, and the inputs covered what `missing_cover` asks for;
otherwise it is 1. Run number n of seed k always has the same input.
"""

import random
import sys
from collections import Counter
from typing import List, NamedTuple, Optional, Tuple

sys.dont_write_bytecode = True  # leave no __pycache__ beside the sources

import keeps  # noqa: E402
import paths  # noqa: E402
from compare import (  # noqa: E402
    NO_NUMBERS,
    Fields,
    Lines,
    agrees,
    compare_all,
    ending,
    replaced,
    report,
    written,
    wrong_bytes,
)
from compare_stores import hex_field, line_of  # noqa: E402
from keeps import GONE, GROUP, NO_SLOT, STRANGER  # noqa: E402
from paths import LINE, SETTING, SIZE, Refusal  # noqa: E402

WORDS = ("set", "open")
MAKES = ("blocks", "ledger")
KEEPS = [(word, make) for word in WORDS for make in MAKES]
REFUSALS = (SETTING, SIZE, GROUP, GONE, NO_SLOT, STRANGER, LINE)
COMMAND_REFUSALS = [("put", GROUP), ("put", GONE), ("put", NO_SLOT), ("get", GROUP), ("get", GONE), ("get", STRANGER)]
COMMAND_REFUSALS += [(word, number) for word in ("strike", "check") for number in (GROUP, GONE)]


# The peer against examples worked out by hand

NEWCOMER_INPUT = """memory 36
set ledger 2 2
put 0 5 700
put 1 5 800
put 1 6 900
get 0 0 5
get 0 0 6
strike 0
get 0 0 5
strike 0
get 1 0 5
room 1
"""

NEWCOMER_OUTPUT = """groups 2
put 0 0
put 1 0
no 5 10 1
at 700
no 7 13 6
struck 0 1
no 9 6 0
no 10 6 0
at 800
none 1
bytes 01000000000200000000000000000000000000000001000000050000000000000320a5a5
"""

SEVEN_NINE = "000000070000000000000009"
EIGHT_TEN = "00000008000000000000000a"
ONE_ONE = "000000010000000000000001"
WIPED = "00" * 12
FULL = "ff" * 12

EXAMPLES: List[Tuple[str, str, str]] = [
    ("the newcomer's", NEWCOMER_INPUT, NEWCOMER_OUTPUT),
    ("no input", "", ""),
    ("an empty line", "\n", "no 1 15 1\n"),
    ("a memory too large", "memory 65537\nfill 0 00\n", "no 1 15 2\n"),
    ("a field too many for a memory", "memory 1 1\nfill 0 00\n", "no 1 15 3\n"),
    ("a first line too long", f"memory {'0' * 74}\n", "no 1 15 0\n"),
    ("a first line of 80 bytes", f"memory {'0' * 72}1\n", "bytes a5\n"),
    ("a memory of no bytes", "memory 0\nset blocks 1 1\nset ledger 0 1", "no 2 3 -\nno 3 1 -\nbytes \n"),
    (
        "fields before the end of the memory",
        "memory 2\nfill 1 0102\nfill 9 0g\nfill 9 00 0\nfill 18446744073709551615 00\nfill 1 fF\nput 0 0 0",
        "no 2 15 2\nno 3 15 3\nno 4 15 4\nno 5 15 2\nno 7 15 1\nbytes a5ff\n",
    ),
    (
        "fields before settings, settings before size",
        "memory 15\nset blocks 0 4294967296\nopen block 4294967296\nset ledger 257 65536\nset blocks 1 1\n"
        "open blocks 256\n",
        "no 2 15 4\nno 3 15 2\nno 4 1 -\nno 5 3 -\nno 6 15 4\nbytes " + "a5" * 15 + "\n",
    ),
    (
        "full blocks",
        "memory 29\nset blocks 1 2\nput 0 7 9\nput 0 4294967295 18446744073709551615\nput 0 1 1\nget 0 0 7\nget 0 0 8\n"
        "get 0 2 7\nget 1 0 7\nroom 0\ncheck 0\nfill 0 00\n",
        "groups 1\nput 0 0\nput 0 1\nno 5 10 0\nat 9\nno 7 13 8\nno 8 13 7\nno 9 5 1\nnone 0\nlive 0\nno 12 15 1\n"
        f"bytes 00000002{SEVEN_NINE}{FULL}a5\n",
    ),
    (
        "struck blocks",
        "memory 32\nset blocks 2 1\nput 0 7 9\nput 1 8 10\nstrike 0\nstrike 0\nput 0 1 1\nget 0 0 7\ncheck 0\nroom 0\n"
        "get 1 0 8\nstrike 2\nroom 2\n",
        "groups 2\nput 0 0\nput 1 0\nstruck 0 1\nno 6 6 0\nno 7 6 0\nno 8 6 0\nno 9 6 0\nnone 0\nat 10\nno 12 5 2\n"
        f"none 2\nbytes ffffffff{WIPED}00000001{EIGHT_TEN}\n",
    ),
    (
        "a struck ledger",
        "memory 49\nset ledger 2 3\nput 1 7 9\nput 0 8 10\nstrike 1\nroom 0\nput 0 1 1\nroom 0\nput 0 1 1\nget 0 1 1\n",
        "groups 2\nput 1 0\nput 0 0\nstruck 1 1\nroom 0\nput 0 1\nnone 0\nno 9 10 0\nat 1\n"
        f"bytes 0001000000030001{WIPED}0000{EIGHT_TEN}0000{ONE_ONE}a5\n",
    ),
    (
        "opened blocks",
        f"memory 48\nfill 0 00000002{SEVEN_NINE}\nfill 16 ffffffff{SEVEN_NINE}\nfill 32 00000000{SEVEN_NINE}\n"
        "open blocks 3 1\nget 0 0 7\nroom 0\ncheck 1\nget 2 0 7\nput 2 8 10\nstrike 0\n",
        f"groups 3\nat 9\nnone 0\nno 8 6 1\nno 9 13 7\nput 2 0\nstruck 0 1\n"
        f"bytes ffffffff{WIPED}ffffffff{SEVEN_NINE}00000001{EIGHT_TEN}\n",
    ),
    (
        "an opened ledger",
        f"memory 48\nfill 0 0200ffffffff\nfill 6 0001{SEVEN_NINE}\nfill 20 0009{SEVEN_NINE}\nfill 34 0001{EIGHT_TEN}\n"
        "open ledger 2 3\ncheck 0\nget 1 1 8\nget 1 2 8\nroom 1\nput 1 1 1\nstrike 1\n",
        "groups 2\nno 7 6 0\nat 10\nno 9 13 8\nnone 1\nno 11 10 1\nstruck 1 2\n"
        f"bytes 0201ffffffff0001{WIPED}0009{SEVEN_NINE}0001{WIPED}\n",
    ),
]


def failed_examples() -> List[str]:
    """The names of the examples that the peer gets wrong."""
    return [name for name, data, wanted in EXAMPLES if keeps.run(data.encode()) != wanted.encode()]


# Keeps to ask for


class Asked(NamedTuple):
    """What a line `set` or `open` asks for."""

    word: str
    make: str
    groups: int
    places: int

    def needed(self) -> int:
        """The bytes that it needs."""
        return keeps.MAKES[self.make.encode()].needed(self.groups, self.places)

    def fields(self, rng: random.Random) -> Fields:
        """Its line."""
        return [self.word.encode(), self.make.encode(), written(rng, self.groups), written(rng, self.places)]


EDGE_GROUPS = (0, 1, 256, 257)
EDGE_PLACES = {"blocks": (0, 1, 65535, 65536), "ledger": (0, 1, 65536, 65537)}
FAR_NUMBERS = [256, 257, 65535, 65536, 65537, 2**31, 2**32 - 1, 2**32 - 1, 2**32, 2**32 + 1, 2**64 - 1, 2**64]
SPARE_BYTES = [0, 0, 0, 1, 2, 5, 20]


def some_keep(rng: random.Random) -> Asked:
    """A keep with numbers in range, mostly small ones, so that it gets full."""
    make = rng.choice(MAKES)
    groups = rng.choice([1, 2, 2, 3, 3, 4]) if rng.random() < 0.98 else rng.choice([255, 256])
    places = rng.choice([1, 2, 3, 4, 5, 6]) if groups < 255 else 1
    if make == "ledger" and rng.random() < 0.5:
        places += rng.randint(1, 14)
    return Asked(rng.choice(WORDS), make, groups, places)


def wrong_keep(rng: random.Random, asked: Asked) -> Asked:
    """The same keep with one number at an end of its range, or far outside, or both so."""
    groups = rng.choice(EDGE_GROUPS) if rng.random() < 0.7 else rng.choice(FAR_NUMBERS)
    places = rng.choice(EDGE_PLACES[asked.make]) if rng.random() < 0.7 else rng.choice(FAR_NUMBERS)
    pick = rng.random()
    if pick < 0.4:
        return asked._replace(groups=groups)
    if pick < 0.8:
        return asked._replace(places=places)
    return asked._replace(groups=groups, places=places)


def smaller_keep(rng: random.Random, asked: Asked, size: int) -> Asked:
    """A keep of the same make that fits into a memory of that size, or else the same keep."""
    smaller = []
    for groups in range(1, min(asked.groups, 4) + 1):
        for places in range(1, asked.places + 1):
            smaller.append(asked._replace(groups=groups, places=places))
    fitting = [keep for keep in smaller if keep.needed() <= size]
    return rng.choice(fitting[-3:]) if fitting else asked


def memory_size(rng: random.Random, asked: Asked) -> int:
    """The size of a memory for a keep: mostly enough, sometimes a byte too short, or anything."""
    pick = rng.random()
    if pick < 0.88:
        return asked.needed() + rng.choice(SPARE_BYTES)
    if pick < 0.96:
        return asked.needed() - 1
    return rng.choice([0, 1, rng.randint(0, asked.needed()), rng.choice(FAR_NUMBERS)])


# What a memory may hold before a keep is opened in it

EDGE_CELLS = [0, 4294967295]
EDGE_LOCATORS = [0, 1, 2**63, 2**64 - 1]
EDGE_COUNTS = [0, 1, 255, 256, 65535, 65536, 2**24, 2**31 - 1, 2**31, 2**32 - 2, 2**32 - 1, 2**32 - 1]
STATES = [0, 0, 0, 0, 0, 0, 0, 0, 1, 1, 2, 128, 255]
MOST_FILL_BYTES = 32
MOST_FILLS = 14


def some_cells(rng: random.Random) -> List[int]:
    """The few cells that an input talks about."""
    return [rng.choice(EDGE_CELLS), rng.randrange(10), rng.getrandbits(32)]


def some_locator(rng: random.Random) -> int:
    """Any locator, often the lowest or the highest."""
    return rng.choice(EDGE_LOCATORS + [rng.randrange(1000), rng.getrandbits(64), rng.getrandbits(64)])


def some_record(rng: random.Random, cells: List[int]) -> bytes:
    """The bytes of a cell and a locator."""
    return keeps.record(keeps.Pair(rng.choice(cells), some_locator(rng)))


def some_count(rng: random.Random, places: int) -> bytes:
    """The bytes of a count: any that a keep of so many places can have, one about its end, or a far one."""
    pick = rng.random()
    if pick < 0.4:
        return keeps.count_bytes(rng.randint(0, places))
    if pick < 0.8:
        return keeps.count_bytes(rng.choice([places - 1, places, places + 1]))
    return keeps.count_bytes(rng.choice(EDGE_COUNTS + [rng.getrandbits(32)]))


def crafted_blocks(rng: random.Random, asked: Asked, cells: List[int]) -> bytes:
    """Blocks whose counts and records make sense or do not."""
    content = b""
    for _ in range(asked.groups):
        content += some_count(rng, asked.places)
        content += b"".join(some_record(rng, cells) for _ in range(asked.places))
    return content


def crafted_ledger(rng: random.Random, asked: Asked, cells: List[int]) -> bytes:
    """A ledger whose states, count and lines make sense or do not; some lines are of no group."""
    states = bytes(rng.choice(STATES) for _ in range(asked.groups))
    content = states + some_count(rng, asked.places)
    for _ in range(asked.places):
        strange = [asked.groups, asked.groups + 1, 256, 65535, rng.getrandbits(16)]
        group = rng.randrange(asked.groups) if rng.random() < 0.85 else rng.choice(strange)
        content += group.to_bytes(keeps.GROUP_BYTES, "big") + some_record(rng, cells)
    return content


def content_before(rng: random.Random, asked: Asked, cells: List[int]) -> bytes:
    """Bytes for the part of a memory that a keep needs: crafted for it, or any."""
    if rng.random() < 0.1:
        return bytes(rng.randrange(256) for _ in range(min(asked.needed(), 400)))
    if asked.make == "blocks":
        return crafted_blocks(rng, asked, cells)
    return crafted_ledger(rng, asked, cells)


def fill_fields(rng: random.Random, at: int, content: bytes) -> Fields:
    """A line `fill AT HEX`."""
    return [b"fill", written(rng, at), hex_field(rng, content)]


def content_fills(rng: random.Random, content: bytes) -> List[Fields]:
    """Fills that write these bytes from the memory's start on, if they are not too many; now and then some are left
    out, or come in another order."""
    most = rng.choice([MOST_FILL_BYTES, MOST_FILL_BYTES, 16])
    pieces = [(at, content[at : at + most]) for at in range(0, len(content), most)]
    if len(pieces) > MOST_FILLS or rng.random() < 0.2:
        pieces = rng.sample(pieces, min(len(pieces), rng.randint(1, MOST_FILLS)))
    return [fill_fields(rng, at, piece) for at, piece in pieces]


def stray_fill(rng: random.Random, size: int) -> Fields:
    """A fill anywhere: inside a memory of that size, up to its end, or past it."""
    content = bytes(rng.randrange(256) for _ in range(rng.choice([1, 2, 4, rng.randint(1, MOST_FILL_BYTES)])))
    last = max(0, size - len(content))
    pick = rng.random()
    if pick < 0.5:
        return fill_fields(rng, rng.choice([0, last, rng.randint(0, last)]), content)
    if pick < 0.9:
        return fill_fields(rng, rng.choice([last + 1, size, size + 1, rng.randint(last, size)]), content)
    return fill_fields(rng, rng.choice(FAR_NUMBERS), content)


# Commands

FAR_GROUPS = [255, 256, 257, 32768, 65535, 65535]


class Talk:
    """What the commands of one input talk about: the keep, a few cells, and what was put as far as is known."""

    def __init__(self, rng: random.Random, asked: Asked, cells: List[int]) -> None:
        self.asked = asked
        self.cells = cells
        self.given: List[Tuple[int, int]] = []
        strikes = rng.choice([0, 1, 1, 2])
        self.words = [b"put"] * 8 + [b"get"] * 6 + [b"strike"] * strikes + [b"check", b"room", b"room"]


def some_group(rng: random.Random, groups: int) -> int:
    """A group, mostly one that is there."""
    pick = rng.random()
    if pick < 0.88:
        return rng.randrange(groups)
    if pick < 0.98:
        return rng.choice([groups - 1, groups, groups, groups + 1] + FAR_GROUPS)
    return rng.choice([65536, 65536, 65536 + rng.randrange(groups), 2**32, 2**64])


def some_cell(rng: random.Random, talk: Talk) -> int:
    """A cell, mostly one of the few."""
    if rng.random() < 0.9:
        return rng.choice(talk.cells)
    return rng.choice(EDGE_CELLS + [2**32 - 1, 2**32, 2**32 + talk.cells[0], 2**64 - 1, 2**64, rng.getrandbits(32)])


def some_slot(rng: random.Random, places: int) -> int:
    """A slot: any that can be, one about the last, or a far one."""
    pick = rng.random()
    if pick < 0.6:
        return rng.randrange(places)
    if pick < 0.96:
        return rng.choice([0, places - 1, places, places, places + 1])
    return rng.choice([2**8, 2**16, 2**31, 2**32 - 1, 2**32 - 1, 2**32, 2**64 - 1, 2**64])


def other_cell(rng: random.Random, talk: Talk, cell: int) -> int:
    """Mostly another cell: one that differs in a bit, or any."""
    return cell ^ 2 ** rng.randrange(32) if rng.random() < 0.5 else some_cell(rng, talk)


def put_numbers(rng: random.Random, talk: Talk) -> List[int]:
    """The numbers of a put; its group and cell go to those that were given."""
    group = some_group(rng, talk.asked.groups)
    cell = some_cell(rng, talk)
    talk.given.append((group, cell))
    return [group, cell, some_locator(rng) if rng.random() < 0.98 else rng.choice([2**64, 2**64 + 1, 10**30])]


def get_numbers(rng: random.Random, talk: Talk) -> List[int]:
    """The numbers of a get: for a pair that was given, that pair with another cell, or any."""
    if not talk.given or rng.random() < 0.4:
        return [some_group(rng, talk.asked.groups), some_slot(rng, talk.asked.places), some_cell(rng, talk)]
    place = rng.randrange(len(talk.given))
    group, cell = talk.given[place]
    slot = sum(earlier == group for earlier, _ in talk.given[:place])
    return [group, slot, cell if rng.random() < 0.8 else other_cell(rng, talk, cell)]


def command(rng: random.Random, talk: Talk) -> Fields:
    """A command with the right number of fields."""
    word = rng.choice(talk.words)
    if word == b"put":
        numbers = put_numbers(rng, talk)
    elif word == b"get":
        numbers = get_numbers(rng, talk)
    else:
        numbers = [some_group(rng, talk.asked.groups)]
    return [word] + [written(rng, number) for number in numbers]


# Spoiled lines

WRONG_WORDS = [
    b"", b"memory", b"Memory", b"memor", b"memorys", b"fill", b"Fill", b"fil", b"fills", b"set", b"Set", b"se", b"sets",
    b"set\r", b"open", b"OPEN", b"ope", b"opens", b"put", b"Put", b"pu", b"puts", b"put\0", b"get", b"GET", b"ge",
    b"gets", b"strike", b"Strike", b"strik", b"strikes", b"struck", b"check", b"chec", b"checks", b"room", b"Room",
    b"roo", b"rooms", b"room\r", b"blocks", b"ledger", b"groups", b"7", b"\0", b"\xff",
]  # fmt: skip

WRONG_MAKES = [
    b"", b"block", b"Blocks", b"BLOCKS", b"blockss", b"blocks\r", b"blocks\0", b"ledge", b"Ledger", b"LEDGER",
    b"ledgers", b"ledger\r", b"plate", b"reel", b"set", b"1", b"\0", b"\xff",
]  # fmt: skip

TOO_LARGE = [b"65536", b"65537", b"4294967296", b"18446744073709551616"]


def wrong_field(rng: random.Random, fields: Fields) -> Fields:
    """A line with one field that is mostly wrong."""
    place = rng.randrange(len(fields))
    if place == 0:
        choices = WRONG_WORDS
    elif place == 1 and fields[0] in (b"set", b"open"):
        choices = WRONG_MAKES
    else:
        choices = NO_NUMBERS + TOO_LARGE
    return replaced(fields, place, rng.choice(choices))


# Inputs


def waiting_lines(rng: random.Random, asked: Asked, size: int, cells: List[int]) -> Lines:
    """Lines before a keep: what the memory shall hold, and keeps that are mostly refused."""
    lines = []
    if asked.word == "open" or rng.random() < 0.3:
        lines += content_fills(rng, content_before(rng, asked, cells))
    for _ in range(rng.choice([0, 0, 1, 2])):
        lines.insert(rng.randint(0, len(lines)), stray_fill(rng, size))
    for _ in range(rng.choice([0, 0, 0, 1, 2])):
        lines.insert(rng.randint(0, len(lines)), wrong_keep(rng, asked).fields(rng))
    if rng.random() < 0.1:
        lines.insert(rng.randint(0, len(lines)), command(rng, Talk(rng, asked, cells)))
    return [line_of(rng, fields, 0.04, wrong_field) for fields in lines]


def keep_lines(rng: random.Random, asked: Asked) -> Lines:
    """The line for a keep, now and then after a wrong one."""
    lines = [b" ".join(asked.fields(rng))]
    if rng.random() < 0.08:
        lines.insert(0, line_of(rng, asked.fields(rng), 1, wrong_field))
    return lines


def command_lines(rng: random.Random, talk: Talk, count: int) -> Lines:
    """That many commands, some of them spoiled, and now and then a line that comes too late."""
    lines = [line_of(rng, command(rng, talk), 0.07, wrong_field) for _ in range(count)]
    if rng.random() < 0.08:
        late = [[b"memory", b"16"], talk.asked.fields(rng), stray_fill(rng, 16)]
        lines.insert(rng.randint(0, count), b" ".join(rng.choice(late)))
    return lines


def random_input(rng: random.Random) -> bytes:
    """An input: a memory, what it holds, a keep in it, mostly one that fits, then commands."""
    if rng.random() < 0.01:
        return bytes(rng.choice(b"memory 16\n set0123456789\0\r\xff") for _ in range(rng.randrange(200)))
    asked = some_keep(rng)
    size = memory_size(rng, asked)
    cells = some_cells(rng)
    lines = [line_of(rng, [b"memory", written(rng, size)], 0.04, wrong_field)]
    lines += waiting_lines(rng, asked, size, cells)
    lines += keep_lines(rng, asked)
    if size < asked.needed():
        asked = smaller_keep(rng, asked, size)
        lines += keep_lines(rng, asked)
    lines += command_lines(rng, Talk(rng, asked, cells), rng.choice([0, 10, 25, 40, rng.randint(1, 40)]))
    data = (b"\r\n" if rng.random() < 0.01 else b"\n").join(lines) + ending(rng)
    if rng.random() < 0.03:
        data = wrong_bytes(rng, data)
    return data


def large_input(rng: random.Random, head: bytes, asked: Asked, size: int, last: bytes) -> bytes:
    """A memory, a keep in it and commands, exactly `size` bytes, ending in `last`."""
    lines = [head, b" ".join(asked.fields(rng))]
    talk = Talk(rng, asked, some_cells(rng))
    length = sum(len(line) + 1 for line in lines)
    while length < size:
        lines.append(line_of(rng, command(rng, talk), 0.05, wrong_field))
        length += len(lines[-1]) + 1
    return b"\n".join(lines)[: size - len(last)].ljust(size - len(last), b"0") + last


def edge_input(rng: random.Random, size: int) -> bytes:
    """Every pair of numbers at the ends of their ranges, for each make set up and opened, in a memory of that size."""
    lines = [f"memory {size}".encode()]
    for word, make in KEEPS:
        for groups in EDGE_GROUPS + (2**32 - 1, 2**32):
            for places in EDGE_PLACES[make] + (2**32 - 1, 2**32):
                lines.append(b" ".join(Asked(word, make, groups, places).fields(rng)))
    return b"\n".join(lines)


NEAR_END_INPUT = b"\n".join(
    [b"memory 65536"]
    + [b"fill %d %s" % (32 * piece, b"00" * 32) for piece in range(8)]
    + [b"fill 256 00001235", b"open ledger 256 4662", b"put 255 7 9", b"put 255 7 9", b"get 255 0 7", b"strike 255"]
)

LARGEST_INPUTS = [
    b"memory 65535\nset blocks 256 21\nopen blocks 1 5461\nset ledger 1 4681\nopen ledger 256 4663\nfill 65534 0000",
    b"memory 65536\nset blocks 1 5461\nput 0 7 9\nget 0 0 7\nget 0 5460 0\nput 0 8 10\nstrike 0",
    b"memory 65536\nopen blocks 1 5461\nroom 0\nget 0 5460 2779096485\nget 0 5461 2779096485\nstrike 0",
    b"memory 65536\nset blocks 256 21\nput 255 7 9\nput 0 8 10\nstrike 255",
    b"memory 65536\nopen blocks 256 21\nput 255 7 9\nstrike 255\nstrike 0",
    b"memory 65536\nset ledger 256 4662\nput 255 7 9\nput 0 8 10\nput 256 1 1\nstrike 255\nget 0 0 8",
    NEAR_END_INPUT,
]

EXACT_INPUTS = [
    f"memory {asked.needed()}\n{asked.word} {asked.make} {asked.groups} 1\nroom {asked.groups - 1}\n".encode()
    for asked in (Asked(word, make, groups, 1) for word, make in KEEPS for groups in (1, 256))
]

PLAIN_INPUTS = [
    b"memory 1" + b"\n" * 65528,
    b"\n" * 65536,
    b"\0" * 65537,
    b"memory 16\nset blocks 1 1\n" + b"put 0 7 9\n" * 2 + b"#" * 65000,
]

FIXED_INPUTS = [data.encode() for _, data, _ in EXAMPLES] + LARGEST_INPUTS + EXACT_INPUTS + PLAIN_INPUTS


def input_of_run(seed: int, number: int) -> bytes:
    """The input of one run: the examples and other fixed ones first, then a few fixed sorts, then random ones."""
    if number < len(FIXED_INPUTS):
        return FIXED_INPUTS[number]
    rng = random.Random(f"{seed}/{number}")
    wide = Asked("set", "blocks", 200, 3)
    long = Asked("set", "ledger", 200, 300)
    next_runs = [
        lambda: edge_input(rng, 15),
        lambda: edge_input(rng, 0),
        lambda: large_input(rng, b"memory 8003", wide, 65536, b""),
        lambda: large_input(rng, b"memory 8003", wide, 65537, b""),
        lambda: large_input(rng, b"memory 4404", long, 65536, b"\n"),
        lambda: large_input(rng, b"memory 4404", long, 65537, b"\n"),
        lambda: large_input(rng, b"memory 8000", wide._replace(word="open"), 20000, b"\n"),
    ]
    place = number - len(FIXED_INPUTS)
    if place < len(next_runs):
        return next_runs[place]()
    return random_input(rng)


# The promises of the rules


class Parts(NamedTuple):
    """The parts of an input that came to a keep: what it asked for, the lines up to there, and the commands after them
    with their answers."""

    asked: Asked
    head: Lines
    commands: Lines
    answers: Lines


def asked_by(line: bytes) -> Asked:
    """What a well-formed line `set` or `open` asks for."""
    word, make, groups, places = keeps.read_line(line, keeps.WAITING_FORMS)
    return Asked(word.decode(), make.decode(), groups, places)


def parts_of(data: bytes, output: bytes) -> Optional[Parts]:
    """The parts of an input by its output, or None where it came to no keep."""
    printed = output.splitlines()
    places = [place for place, line in enumerate(printed) if line.startswith(b"groups ")]
    if not places:
        return None
    answers = printed[places[0] + 1 : -1]
    lines = paths.split_lines(data)
    head = lines[: len(lines) - len(answers)]
    return Parts(asked_by(head[-1]), head, lines[len(head) :], answers)


def program_after(head: Lines) -> keeps.Program:
    """The peer after these lines."""
    program = keeps.Program(head[0])
    for number, line in enumerate(head[1:], start=2):
        program.answer(number, line)
    return program


def keep_after(head: Lines) -> keeps.Keep:
    """The peer's keep after these lines."""
    keep = program_after(head).keep
    assert keep is not None
    return keep


class Listed(keeps.Keep):
    """A keep without bytes: a plain list of pairs for each group, None once it is retired."""

    def __init__(self, asked: Asked) -> None:
        self.lists: List[Optional[List[Tuple[int, int]]]] = [[] for _ in range(asked.groups)]
        self.asked = asked
        self.accepted = 0

    def live_list(self, group: int) -> List[Tuple[int, int]]:
        """The list of a live group."""
        if group not in range(self.asked.groups):
            raise Refusal(GROUP, group)
        pairs = self.lists[group]
        if pairs is None:
            raise Refusal(GONE, group)
        return pairs

    def check(self, group: int) -> None:
        self.live_list(group)

    def room(self, group: int) -> bool:
        try:
            pairs = self.live_list(group)
        except Refusal:
            return False
        used = len(pairs) if self.asked.make == "blocks" else self.accepted
        return used != self.asked.places

    def put(self, group: int, cell: int, locator: int) -> int:
        pairs = self.live_list(group)
        if not self.room(group):
            raise Refusal(NO_SLOT, group)
        pairs.append((cell, locator))
        self.accepted += 1
        return len(pairs) - 1

    def get(self, group: int, slot: int, cell: int) -> int:
        for place, (put_cell, locator) in enumerate(self.live_list(group)):
            if (place, put_cell) == (slot, cell):
                return locator
        raise Refusal(STRANGER, cell)

    def strike(self, group: int) -> int:
        pairs = self.live_list(group)
        self.lists[group] = None
        return len(pairs)


def listed_answers(parts: Parts) -> Lines:
    """What plain lists answer to the commands."""
    program = program_after(parts.head)
    program.keep = Listed(parts.asked)
    first = len(parts.head) + 1
    return [program.answer(number, line).rstrip(b"\n") for number, line in enumerate(parts.commands, start=first)]


Change = Tuple[bytes, List[int]]


def accepted_changes(parts: Parts) -> List[Change]:
    """The words and numbers of the puts and strikes that were accepted, in order."""
    changes = []
    for line, answer in zip(parts.commands, parts.answers):
        if answer.startswith((b"put ", b"struck ")):
            word, *numbers = keeps.read_line(line, keeps.COMMAND_FORMS)
            changes.append((word, numbers))
    return changes


def struck_groups(changes: List[Change]) -> List[int]:
    """The groups that were struck, in order."""
    return [numbers[0] for word, numbers in changes if word == b"strike"]


def struck_pairs(changes: List[Change]) -> int:
    """How many pairs were put into groups that were struck."""
    struck = struck_groups(changes)
    return sum(word == b"put" and numbers[0] in struck for word, numbers in changes)


def with_other_pairs(rng: random.Random, changes: List[Change]) -> List[Change]:
    """The same changes with another cell and another locator in each put into a group that was struck."""
    struck = struck_groups(changes)
    others = []
    for word, numbers in changes:
        if word == b"put" and numbers[0] in struck:
            group, cell, locator = numbers
            cell ^= rng.randint(1, 2**32 - 1)
            locator ^= rng.randint(1, 2**64 - 1)
            numbers = [group, cell, locator]
        others.append((word, numbers))
    return others


def with_strikes_last(rng: random.Random, changes: List[Change]) -> List[Change]:
    """The same puts, then the same strikes in any order."""
    strikes = [change for change in changes if change[0] == b"strike"]
    rng.shuffle(strikes)
    return [change for change in changes if change[0] == b"put"] + strikes


def bytes_after(head: Lines, changes: List[Change]) -> bytes:
    """The memory after these lines and then these changes."""
    keep = keep_after(head)
    for word, numbers in changes:
        if word == b"put":
            keep.put(*numbers)
        else:
            keep.strike(*numbers)
    return bytes(keep.memory)


def broken_promise(rng: random.Random, parts: Parts, memory: bytes) -> str:
    """What promise of the rules the peer breaks, or nothing."""
    needed = parts.asked.needed()
    if memory[needed:] != program_after(parts.head[:-1]).memory[needed:]:
        return "a byte behind the keep was touched"
    if parts.asked.word == "set" and listed_answers(parts) != parts.answers:
        return "plain lists answer otherwise"
    changes = accepted_changes(parts)
    if bytes_after(parts.head, changes) != memory:
        return "a refusal or a question changed a byte"
    if struck_groups(changes):
        others = with_other_pairs(rng, changes)
        if bytes_after(parts.head, others) != memory:
            return "a byte depends on what was put into a struck group"
        if bytes_after(parts.head, with_strikes_last(rng, others)) != memory:
            return "a byte depends on when a group was struck"
    return ""


# What was compared


def count_name(count: int, places: int) -> str:
    """What a count in opened memory is to a keep of so many places."""
    if count == keeps.RETIRED_COUNT:
        return "FFFFFFFF"
    if count > places:
        return "above"
    return {places: "at the end", places - 1: "just below the end"}.get(count, "lower")


def opened_sights(keep: keeps.Keep) -> List[str]:
    """What is to see in a keep as it was opened."""
    if isinstance(keep, keeps.Blocks):
        return [f"blocks, count {count_name(keep.count(group), keep.places)}" for group in range(keep.groups)]
    assert isinstance(keep, keeps.Ledger)
    used = range(min(keep.count(), keep.places))
    owners = Counter(keeps.read_at(keep.memory, keep.line_place(line), keeps.GROUP_BYTES) for line in used)
    sights = [f"ledger, count {count_name(keep.count(), keep.places)}"]
    sights += [f"ledger, state {min(state, 2)}" for state in keep.memory[: keep.groups]]
    for owner, lines in owners.items():
        if owner >= keep.groups:
            sights.append("ledger, a line of no group")
        elif lines > 1:
            sights.append("ledger, several lines of a group")
    return sights


COUNT_NAMES = ("FFFFFFFF", "above", "at the end", "just below the end", "lower")
SIGHTS = [f"{make}, count {name}" for make in MAKES for name in COUNT_NAMES]
SIGHTS += [f"ledger, state {state}" for state in range(3)]
SIGHTS += ["ledger, a line of no group", "ledger, several lines of a group"]


SLOT_NAMES = ("slot 0", "the last slot", "one past the last slot")
KEEP_NAMES = ["put", "at", "struck", "struck with no pair", "live", "room", "none", "at 0", f"at {2**64 - 1}"]
KEEP_NAMES += [f"refusal {number}" for number in (GROUP, GONE, NO_SLOT, STRANGER, LINE)]
KEEP_NAMES += [f"at from {name}" for name in SLOT_NAMES[:2]]
KEEP_NAMES += [f"refusal {STRANGER} from {name}" for name in SLOT_NAMES]


def slot_names(slot: int, places: int) -> List[str]:
    """What a slot is to a keep of so many places: one name, two or none."""
    return [name for name, place in zip(SLOT_NAMES, (0, places - 1, places)) if slot == place]


def answer_names(line: bytes, answer: str, places: int) -> List[str]:
    """The names under which the answer to a command counts."""
    fields = answer.split(" ")
    name = f"refusal {fields[2]}" if fields[0] == "no" else fields[0]
    names = [name]
    if name == "struck" and fields[2] == "0":
        names.append("struck with no pair")
    if name == "at":
        names.append(answer)
    if name in ("at", f"refusal {STRANGER}"):
        _, _, slot, _ = keeps.read_line(line, keeps.COMMAND_FORMS)
        names += [f"{name} from {slot_name}" for slot_name in slot_names(slot, places)]
    return names


def is_full(keep: keeps.Keep) -> bool:
    """Whether a live group takes no pair."""
    return any(not keep.is_retired(group) and not keep.takes(group) for group in range(keep.groups))


FITS = ("too short", "a byte too short", "just enough", "longer")


def fit_name(spare: int) -> str:
    """How a memory fits a keep, by the bytes that it has more than are needed."""
    if spare < 0:
        return "a byte too short" if spare == -1 else "too short"
    return "just enough" if spare == 0 else "longer"


def state_of(place: int, waiting: int) -> str:
    """The state in which the line at that place was taken, where lines up to `waiting` waited for a keep."""
    if place > waiting:
        return "command"
    return ("input", "first", "waiting")[min(place, 2)]


class Cover:
    """Counts of what the compared inputs held."""

    def __init__(self) -> None:
        self.inputs = 0
        self.refusals: Counter = Counter()
        self.keeps: Counter = Counter()
        self.by_keep: Counter = Counter()
        self.by_command: Counter = Counter()
        self.line_details: Counter = Counter()
        self.edges: Counter = Counter()
        self.fits: Counter = Counter()
        self.sights: Counter = Counter()
        self.full: Counter = Counter()
        self.listed = 0
        self.replaced_pairs = 0

    def add(self, data: bytes, program: Optional[keeps.Program], parts: Optional[Parts], output: bytes) -> None:
        """Count one output, and what led to it."""
        self.inputs += 1
        lines = paths.split_lines(data)
        size = 0 if program is None else len(program.memory)
        waiting = len(lines) if parts is None else len(parts.head)
        for line in output.splitlines():
            fields = line.decode().split(" ")
            if fields[0] != "no":
                continue
            place, number = int(fields[1]), int(fields[2])
            self.refusals[number] += 1
            if number == LINE:
                self.line_details[state_of(place, waiting), int(fields[3])] += 1
            elif number in (SETTING, SIZE):
                self.add_asked(asked_by(lines[place - 1]), size, number)
            else:
                self.by_command[lines[place - 1].split(b" ")[0].decode(), number] += 1
        if program is not None and program.keep is not None and parts is not None:
            self.add_keep(program.keep, parts)

    def add_asked(self, asked: Asked, size: int, number: int) -> None:
        """Count what was asked for, by its numbers and by the memory it met, and the refusal (or 0)."""
        in_range = number != SETTING
        if in_range or 1 <= asked.places <= keeps.MOST_SLOTS:
            self.edges[asked.word, asked.make, "groups", asked.groups, in_range] += 1
        if in_range or 1 <= asked.groups <= 256:
            self.edges[asked.word, asked.make, "places", asked.places, in_range] += 1
        if in_range:
            self.fits[asked.word, asked.make, fit_name(size - asked.needed())] += 1

    def add_keep(self, keep: keeps.Keep, parts: Parts) -> None:
        """Count a keep, and the answers to its commands."""
        asked = parts.asked
        self.add_asked(asked, len(keep.memory), 0)
        self.keeps[asked.word, asked.make] += 1
        self.full[asked.word, asked.make] += is_full(keep)
        for line, answer in zip(parts.commands, parts.answers):
            for name in answer_names(line, answer.decode(), asked.places):
                self.by_keep[asked.word, asked.make, name] += 1
        if asked.word == "open":
            self.sights.update(opened_sights(keep_after(parts.head)))
        else:
            self.listed += len(parts.answers)
        self.replaced_pairs += struck_pairs(accepted_changes(parts))

    def wanted_edges(self) -> List[Tuple[str, int]]:
        """The ends of the ranges, each with how often it was met on the right side of SETTING."""
        wanted = []
        for word, make in KEEPS:
            ends = [("groups", end, end in EDGE_GROUPS[1:3]) for end in EDGE_GROUPS]
            ends += [("places", end, end in EDGE_PLACES[make][1:3]) for end in EDGE_PLACES[make]]
            for what, end, in_range in ends:
                wanted.append((f"{word} {make} of {end} {what}", self.edges[word, make, what, end, in_range]))
            wanted += [(f"{word} {make} in memory {fit}", self.fits[word, make, fit]) for fit in FITS]
        return wanted

    def missing_cover(self) -> List[str]:
        """What the inputs have to hold and did not."""
        wanted = [(f"refusal {number}", self.refusals[number]) for number in REFUSALS]
        for word, make in KEEPS:
            wanted.append((f"{word} {make}", self.keeps[word, make]))
            wanted.append((f"{word} {make}, full", self.full[word, make]))
            wanted += [(f"{word} {make}, {name}", self.by_keep[word, make, name]) for name in KEEP_NAMES]
        wanted += [(f"refusal {key[1]} of {key[0]}", self.by_command[key]) for key in COMMAND_REFUSALS]
        details = [("input", 0)] + [("first", detail) for detail in range(4)]
        details += [(state, detail) for state in ("waiting", "command") for detail in range(6)]
        wanted += [(f"LINE {detail} ({state})", self.line_details[state, detail]) for state, detail in details]
        wanted += self.wanted_edges()
        wanted += [(f"opened {sight}", self.sights[sight]) for sight in SIGHTS]
        wanted += [("an answer by plain lists", self.listed), ("another pair in a struck group", self.replaced_pairs)]
        return [name for name, count in wanted if count == 0]

    def total(self, name: str) -> int:
        """How often an answer came, over all keeps."""
        return sum(self.by_keep[word, make, name] for word, make in KEEPS)

    def summary(self) -> str:
        """The counts in one line."""
        asked = " ".join(f"{word}-{make}:{self.keeps[word, make]}" for word, make in KEEPS)
        full = " ".join(f"{word}-{make}:{self.full[word, make]}" for word, make in KEEPS)
        refusals = " ".join(f"{number}:{self.refusals[number]}" for number in REFUSALS)
        details: Counter = Counter()
        for (_, detail), count in self.line_details.items():
            details[detail] += count
        lines = " ".join(f"{detail}:{details[detail]}" for detail in sorted(details))
        return (
            f"same: {self.inputs} inputs, {self.total('put')} puts, {self.total('at')} gets and {self.total('struck')} "
            f"strikes accepted, {self.total('live')} checks, {self.total('room') + self.total('none')} rooms; "
            f"keeps {asked}; full {full}; refusals {refusals}; LINE {lines}; "
            f"{self.listed} answers the same from plain lists, {self.replaced_pairs} struck pairs leave no byte"
        )


def same_run(program: str, seed: int, number: int, cover: Cover) -> bool:
    """Compare one run; print it where it fails."""
    data = input_of_run(seed, number)
    peer, expected = keeps.run_keep(data)
    parts = parts_of(data, expected)
    if peer is not None and parts is not None:
        broken = broken_promise(random.Random(f"{seed}/{number}/others"), parts, bytes(peer.memory))
        if broken:
            report(f"the peer breaks a promise of the rules ({broken})", seed, number, data, expected, b"")
            return False
    if not agrees(program, seed, number, data, expected):
        return False
    cover.add(data, peer, parts, expected)
    return True


if __name__ == "__main__":
    sys.exit(compare_all(3000, failed_examples(), Cover(), same_run))
