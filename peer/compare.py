"""Compare a path program with its peer in paths.py, byte by byte, on random inputs.

    python3 peer/compare.py PROGRAM [--runs N] [--seed K]

PROGRAM is an executable that reads standard input and writes standard output. The peer is first checked against the
examples of docs/RULES.md. The status is 0 where every output was the same, PROGRAM always ended with status 0, and the
inputs covered what `missing_cover` asks for; otherwise it is 1. Run number n of seed k always has the same input.
"""

import argparse
import random
import subprocess
import sys
from collections import Counter
from typing import Any, Callable, List, NamedTuple, Tuple

sys.dont_write_bytecode = True  # leave no __pycache__ beside the sources

import paths  # noqa: E402

P = paths.P
Fields = List[bytes]
Lines = List[bytes]

PROGRAM_SECONDS = 60

EXAMPLE_INPUT = b"""set num thin 4 2 3 1 2
coef 1 0
coef 1 3
coef 3 1
5
13
9
2147483647
"""

EXAMPLE_OUTPUT = b"""ready 28
5 1 4 12
13 1 4 12
9 1 8 24
no 8 4 -
"""


# The peer against the examples of the rules


def refusal_of(call: Callable[[], object]) -> int:
    """The number of the refusal a call ends in, or 0."""
    try:
        call()
    except paths.Refusal as refusal:
        return refusal.number
    return 0


def failed_examples() -> List[str]:
    """The names of the examples of the rules that the peer gets wrong."""
    pairs = ((1, 0), (1, 3), (3, 1))
    thin = paths.PathRule(b"thin", 4, 2, 3, 1, pairs)
    fat = thin._replace(rule=b"fat")
    trie = paths.PathRule(b"trie", 4, 4, 3, 1, ())
    sheet = paths.sheet_bytes
    examples = [
        ("FNV-1a of nothing", paths.fnv1a(b""), 0x811C9DC5),
        ("FNV-1a of a", paths.fnv1a(b"a"), 0xE40C292C),
        ("FNV-1a of foobar", paths.fnv1a(b"foobar"), 0xBF9CF968),
        ("28 cells", paths.total(4, 2, 3), 28),
        ("thin, sheet 5", paths.path(thin, sheet(5)), [1, 4, 12]),
        ("thin, sheet 13", paths.path(thin, sheet(13)), [1, 4, 12]),
        ("thin, sheet 9", paths.path(thin, sheet(9)), [1, 8, 24]),
        ("fat, sheet 13", paths.path(fat, sheet(13)), [1, 4, 20]),
        ("thin, t = 2, sheet 7", paths.path(thin._replace(tries=2), sheet(7)), [3, 0, 6, 7, 18, 19]),
        ("h of fold 1", paths.coefficient_value(2147483646, 2, 1, 4), 1),
        ("fold of A", paths.fold(paths.code_bytes(b"A")), 67108866),
        ("84 cells", paths.total(4, 4, 3), 84),
        ("trie, digest E4000000", paths.trie_path(trie, 0xE4000000), [3, 18, 77]),
        ("1048560 cells", paths.total(16, 2, 16), 1048560),
        ("m = 16 is not too large", refusal_of(lambda: paths.check_size(16, 2, 16)), 0),
        ("m = 17 is too large", refusal_of(lambda: paths.check_size(17, 2, 16)), paths.SIZE),
        ("the program's example", paths.run(EXAMPLE_INPUT), EXAMPLE_OUTPUT),
    ]
    return [name for name, found, wanted in examples if found != wanted]


# Numbers and other fields


class Shape(NamedTuple):
    """The m, k and L of a tree."""

    m: int
    k: int
    levels: int


HUGE = [2**31 - 1, 2**31, 2**32 - 1, 2**32, 2**32 + 1, 2**63 - 1, 2**63, 2**64 - 1, 2**64, 2**64 + 1, 10**30]

NO_NUMBERS = [
    b"", b"x", b"A", b"-", b"-1", b"+1", b"1-", b"1.0", b"1e3", b"0x1", b"1_0", b"1,0", b"/", b":", b"1\t", b"\t1",
    b"1\r", b"\r", b"1\0", b"\0", b"\x001", b"\xff", b"1\x0b", b"\xd9\xa3", b"\xef\xbc\x91", b"\xb2",
]  # fmt: skip

WRONG_WORDS = [
    b"", b"Set", b"SET", b"se", b"sets", b"set\r", b"set\0", b"coef", b"COEF", b"coefs", b"coe", b"num", b"NUM", b"Num",
    b"nu", b"number", b"code", b"CODE", b"codes", b"thin", b"THIN", b"thi", b"thinn", b"fat", b"FAT", b"trie", b"TRIE",
    b"tries", b"tri", b"7", b"\0", b"\xff",
]  # fmt: skip


NO_CODE_BYTES = [
    b"\0", b"a", b"z", b",", b".", b"/", b":", b"@", b"[", b"`", b"{", b"_", b"\r", b"\t", b"\x80", b"\xff",
]  # fmt: skip


def written(rng: random.Random, value: int) -> bytes:
    """A number as a field, now and then with leading zeros."""
    zeros = rng.choice([1, 1, 2, 5, 21]) if rng.random() < 0.05 else 0
    return b"0" * zeros + str(value).encode()


def spread(rng: random.Random, low: int, high: int) -> int:
    """A number of a range: often one of its ends or near its low end."""
    pick = rng.random()
    if pick < 0.12:
        return low
    if pick < 0.24:
        return high
    if pick < 0.6:
        return rng.randint(low, min(high, low + 9))
    return rng.randint(low, high)


def replaced(fields: Fields, place: int, field: bytes) -> Fields:
    """The fields with another one at a place."""
    return fields[:place] + [field] + fields[place + 1 :]


# Settings


def near_limit() -> Tuple[List[Shape], List[Shape]]:
    """The shapes with the largest totals that fit, and those with the smallest that do not (2^20 itself has none)."""
    below = []
    above = []
    for levels in range(1, 17):
        for k in range(2, 257):
            nodes = paths.total(1, k, levels)
            m = paths.MOST_CELLS // nodes
            if 1 <= m <= 256:
                below.append(Shape(m, k, levels))
            if 1 <= m + 1 <= 256:
                above.append(Shape(m + 1, k, levels))
    below.sort(key=lambda shape: -paths.total(*shape))
    above.sort(key=lambda shape: paths.total(*shape))
    return below[:60], above[:60]


def wrapping_shapes() -> List[Shape]:
    """The shapes whose total is too large while its last 32 bits alone would fit."""
    shapes = []
    for levels in range(1, 17):
        for k in range(2, 257):
            nodes = paths.total(1, k, levels)
            for m in range(1, 257):
                if m * nodes > paths.MOST_CELLS >= m * nodes % 2**32:
                    shapes.append(Shape(m, k, levels))
    return shapes


def largest_k(levels: int) -> int:
    """The largest k with which a tree of that many levels can fit."""
    return max(k for k in range(2, 257) if paths.total(1, k, levels) <= paths.MOST_CELLS)


BELOW, ABOVE = near_limit()
WRAPPING = wrapping_shapes()
LARGEST_K = {levels: largest_k(levels) for levels in range(1, 17)}


def fitting_shape(rng: random.Random) -> Shape:
    """A shape of any number of levels whose total is not too large, mostly a small one."""
    levels = rng.choice([1, 2, 3, 3, 4, 5, rng.randint(1, 16), rng.randint(1, 16), 16])
    k = spread(rng, 2, LARGEST_K[levels])
    m = spread(rng, 1, min(256, paths.MOST_CELLS // paths.total(1, k, levels)))
    return Shape(m, k, levels)


def hashed_shape(rng: random.Random) -> Shape:
    """A shape in range for a thin or fat rule: mostly small, some next to the limit, some far above it."""
    pick = rng.random()
    if pick < 0.06:
        return rng.choice(BELOW)
    if pick < 0.12:
        return rng.choice(ABOVE)
    if pick < 0.15:
        return rng.choice(WRAPPING)
    if pick < 0.23:
        return Shape(spread(rng, 1, 256), spread(rng, 2, 256), spread(rng, 1, 16))
    return fitting_shape(rng)


def trie_shape(rng: random.Random) -> Shape:
    """A shape for a trie: mostly one that fits, some too large, some whose m and k do not fit."""
    pick = rng.random()
    if pick < 0.1:
        m, k = rng.choice([(3, 3), (6, 6), (255, 255), (2, 4), (4, 2), (1, 2), (2, 3), (128, 256), (256, 128), (1, 1)])
        return Shape(m, k, spread(rng, 1, 16))
    m = 2 ** rng.randint(1, 8)
    fitting = [levels for levels in range(1, 17) if paths.total(m, m, levels) <= paths.MOST_CELLS]
    if pick < 0.2:
        return Shape(m, m, min(16, max(fitting) + rng.choice([1, 1, 2, 16])))
    if pick < 0.4:
        return Shape(m, m, max(fitting))
    return Shape(m, m, rng.choice(fitting))


def set_fields(rng: random.Random, kind: bytes, rule: bytes, shape: Shape) -> Fields:
    """A well-formed `set` line, with t and G in range."""
    numbers = list(shape) + [spread(rng, 1, shape.m), spread(rng, 1, 256)]
    return [b"set", kind, rule] + [written(rng, number) for number in numbers]


def coef_fields(rng: random.Random) -> Fields:
    """A well-formed `coef` line in range."""
    a = spread(rng, 1, P - 1)
    b = spread(rng, 0, P - 1)
    return [b"coef", written(rng, a), written(rng, b)]


# Spoiled lines


def out_of_range(rng: random.Random, fields: Fields) -> Fields:
    """A `set` or `coef` line with one number just outside its range, or far outside."""
    if fields[0] == b"set":
        m = int(fields[3])
        edges = [[0, 257], [0, 1, 257], [0, 17], [0, m + 1, 257], [0, 257]]
        first = 3
    else:
        edges = [[0, P, P + 1], [P, P + 1]]
        first = 1
    place = rng.randrange(len(edges))
    values = edges[place] if rng.random() < 0.7 else HUGE
    return replaced(fields, first + place, str(rng.choice(values)).encode())


def wrong_field(rng: random.Random, fields: Fields) -> Fields:
    """A line with one field that cannot be what it has to be."""
    place = rng.randrange(len(fields))
    choices = NO_NUMBERS + [b"18446744073709551616"] if fields[place].isdigit() else WRONG_WORDS
    return replaced(fields, place, rng.choice(choices))


def wrong_count(rng: random.Random, fields: Fields) -> Fields:
    """A line with fields missing at its end or in its middle, or with extra ones."""
    pick = rng.randrange(4)
    if pick == 0:
        return fields[: rng.randrange(1, len(fields))] if len(fields) > 1 else []
    if pick == 1:
        place = rng.randrange(len(fields))
        return fields[:place] + fields[place + 1 :]
    extra = [rng.choice([b"1", b"7", b"x", b"", b"\r", b"\0"]) for _ in range(rng.choice([1, 1, 2]))]
    if pick == 2:
        return fields + extra
    place = rng.randrange(len(fields) + 1)
    return fields[:place] + extra + fields[place:]


def wrong_bytes(rng: random.Random, line: bytes) -> bytes:
    """A line with one byte put in or changed: a space, a tab, a carriage return, a NUL byte or any other."""
    byte = rng.choice([b" ", b" ", b"\t", b"\r", b"\0", b"\xa0", bytes([rng.randrange(256)])])
    place = rng.choice([0, len(line), rng.randint(0, len(line))])
    taken = rng.choice([0, 0, 1])
    return line[:place] + byte + line[place + taken :]


def of_length(line: bytes, length: int) -> bytes:
    """A line made that long: by leading zeros of its last field where that is a number, by `A`s where it is not."""
    before, space, last = line.rpartition(b" ")
    missing = max(0, length - len(line))
    if last.isdigit():
        return before + space + b"0" * missing + last
    return line + b"A" * missing


def long_line(rng: random.Random, line: bytes) -> bytes:
    """A line of 80 bytes, of 81, or of more."""
    return of_length(line, rng.choice([80, 80, 80, 81, 81, 82, 160, 1000]))


def spoiled(rng: random.Random, fields: Fields) -> bytes:
    """A line that was well-formed, wrong in one thing (or now and then still right)."""
    pick = rng.random()
    if pick < 0.35 and fields[0] in (b"set", b"coef"):
        return b" ".join(out_of_range(rng, fields))
    if pick < 0.65:
        return b" ".join(wrong_field(rng, fields))
    if pick < 0.8:
        return b" ".join(wrong_count(rng, fields))
    if pick < 0.9:
        return wrong_bytes(rng, b" ".join(fields))
    if pick < 0.97:
        return long_line(rng, b" ".join(fields))
    return b" ".join(fields).swapcase()


# Keys


def random_code(rng: random.Random, length: int) -> bytes:
    """A code of that many admissible bytes."""
    return bytes(rng.choice(paths.CODE_ALPHABET) for _ in range(length))


def number_key(rng: random.Random) -> bytes:
    """A sheet number, mostly an admissible one."""
    pick = rng.random()
    if pick < 0.5:
        return written(rng, spread(rng, 0, 2147483646))
    if pick < 0.75:
        return written(rng, rng.randint(0, 2147483646))
    if pick < 0.85:
        return str(rng.choice([2147483646] + HUGE)).encode()
    if pick < 0.95:
        return rng.choice(NO_NUMBERS)
    return long_line(rng, str(rng.choice([0, 7, 2147483646, 2147483647, 2**64 - 1, 2**64])).encode())


def code_key(rng: random.Random) -> bytes:
    """A drawing code, mostly an admissible one."""
    pick = rng.random()
    if pick < 0.7:
        return random_code(rng, rng.choice([1, 12, 13, rng.randint(1, 12), rng.randint(1, 12)]))
    if pick < 0.76:
        return b"-" * rng.choice([1, 2, 12, 13])
    if pick < 0.8:
        return random_code(rng, rng.randint(1, 12)).lower()
    if pick < 0.92:
        code = random_code(rng, rng.randint(1, 12))
        other = rng.choice(NO_CODE_BYTES)
        place = rng.randint(0, len(code))
        return code[:place] + other + code[place + rng.choice([0, 1]) :]
    if pick < 0.96:
        return rng.choice([b"", b"A\0", b"\0A", b"A" + bytes(11), bytes(12), b"no", b"NO", b"set", b"coef", b"ready"])
    return long_line(rng, random_code(rng, 3))


def key_line(rng: random.Random, kind: bytes) -> bytes:
    """A line for a key: mostly one key of that kind, some of the other kind, some with more fields."""
    matching = rng.random() < 0.95
    key = number_key(rng) if (kind == b"num") == matching else code_key(rng)
    pick = rng.random()
    if pick < 0.94:
        return key
    if pick < 0.97:
        return rng.choice([key + b" ", b" " + key, key + b" 1", key + b"  1", b" ", b"  ", key + b"\r", key + b" A B"])
    return b" ".join(rng.choice([set_fields(rng, kind, b"thin", Shape(4, 2, 1)), coef_fields(rng)]))


# Inputs


def stray_line(rng: random.Random) -> bytes:
    """A line that may come at the wrong time: a key, settings, coefficients, an empty or a long line."""
    rule = rng.choice(paths.RULES)
    kind = rng.choice(paths.KINDS)
    choices = [
        lambda: b" ".join(coef_fields(rng)),
        lambda: b" ".join(set_fields(rng, kind, rule, hashed_shape(rng))),
        lambda: spoiled(rng, coef_fields(rng)),
        lambda: spoiled(rng, set_fields(rng, kind, rule, hashed_shape(rng))),
        lambda: key_line(rng, kind),
        lambda: b"",
        lambda: b"#" * rng.choice([80, 81, 300]),
    ]
    return rng.choice(choices)()


def stray_lines(rng: random.Random, chance: float) -> Lines:
    """No line, or with that chance one or two stray ones."""
    if rng.random() >= chance:
        return []
    return [stray_line(rng) for _ in range(rng.choice([1, 1, 2]))]


def setting_lines(rng: random.Random, kind: bytes, spoil: bool) -> Lines:
    """A `set` line and its `coef` lines, with one of them spoiled if asked, and some stray lines between them."""
    rule = rng.choice(paths.RULES)
    shape = trie_shape(rng) if rule == b"trie" else hashed_shape(rng)
    block = [set_fields(rng, kind, rule, shape)]
    if rule != b"trie":
        block += [coef_fields(rng) for _ in range(shape.levels)]
    place = rng.choice([0, rng.randrange(len(block))]) if spoil else -1
    lines = []
    for number, fields in enumerate(block):
        lines.append(spoiled(rng, fields) if number == place else b" ".join(fields))
        lines += stray_lines(rng, 0.03)
    return lines


def ending(rng: random.Random) -> bytes:
    """How an input ends: mostly with one byte 10, sometimes with none or several."""
    return rng.choice([b"\n", b"\n", b"\n", b"", b"", b"\n\n", b"\n\n\n"])


def random_input(rng: random.Random) -> bytes:
    """An input: settings, some of them refused, then keys."""
    if rng.random() < 0.01:
        return bytes(rng.choice(b"set num thin\n 0123456789\0\r\xff") for _ in range(rng.randrange(200)))
    kind = rng.choice(paths.KINDS)
    lines = stray_lines(rng, 0.1)
    for _ in range(rng.choice([0, 0, 1, 1, 2])):
        lines += setting_lines(rng, rng.choice(paths.KINDS), spoil=True)
    lines += setting_lines(rng, kind, spoil=False)
    if rng.random() < 0.3:
        lines += setting_lines(rng, kind, spoil=False)
    lines += [key_line(rng, kind) for _ in range(rng.randint(0, 16))]
    data = (b"\r\n" if rng.random() < 0.01 else b"\n").join(lines) + ending(rng)
    if rng.random() < 0.05:
        data = wrong_bytes(rng, data)
    return data


def large_input(rng: random.Random, head: bytes, kind: bytes, size: int, last: bytes) -> bytes:
    """Settings and then keys, exactly `size` bytes, ending in `last`."""
    data = bytearray(head)
    while len(data) < size:
        data += key_line(rng, kind) + b"\n"
    return bytes(data[: size - len(last)]) + last


THIN_HEAD = b"set num thin 4 2 3 2 1\ncoef 1 0\ncoef 2147483646 3\ncoef 3 2147483646\n"
TRIE_HEAD = b"set code trie 16 16 4 3 256\n"


def input_of_run(seed: int, number: int) -> bytes:
    """The input of one run: a few fixed sorts first, then random ones."""
    rng = random.Random(f"{seed}/{number}")
    first_runs = [
        lambda: EXAMPLE_INPUT,
        lambda: b"",
        lambda: b"\n",
        lambda: large_input(rng, THIN_HEAD, b"num", 65536, b""),
        lambda: large_input(rng, THIN_HEAD, b"num", 65537, b""),
        lambda: large_input(rng, TRIE_HEAD, b"code", 65536, b"\n"),
        lambda: large_input(rng, TRIE_HEAD, b"code", 65537, b"\n"),
        lambda: b"\n" * 65536,
        lambda: b"\0" * 65537,
        lambda: b"\n".join([b"set num fat 256 2 12 256 1"] + [b"coef 1 0"] * 12 + [b"0", b"2147483646", b"1"]),
    ]
    if number < len(first_runs):
        return first_runs[number]()
    return random_input(rng)


# What was compared


class Cover:
    """Counts of what the compared inputs held."""

    def __init__(self) -> None:
        self.inputs = 0
        self.keys = 0
        self.cells = 0
        self.refusals: Counter = Counter()
        self.line_details: Counter = Counter()
        self.levels: Counter = Counter()
        self.ready: Counter = Counter()

    def add(self, program: paths.Program, output: bytes) -> None:
        """Count one output, and the rule and kind of the program that gave it."""
        self.inputs += 1
        if program.state == "ready":
            self.ready[program.path_rule.rule.decode(), program.kind.decode()] += 1
        for line in output.splitlines():
            fields = line.split(b" ")
            if fields[0] == b"no":
                self.add_refusal(int(fields[2]), fields[3].decode())
            elif fields[0] != b"ready":
                self.keys += 1
                self.cells += len(fields) - 1

    def add_refusal(self, number: int, detail: str) -> None:
        """Count one refusal and its detail."""
        self.refusals[number] += 1
        if number == paths.LINE:
            self.line_details[int(detail)] += 1
        if number == paths.COEFFICIENT:
            self.levels["0" if detail == "0" else "above"] += 1

    def missing_cover(self) -> List[str]:
        """What the inputs have to hold and did not."""
        wanted = [(f"ready {r} {k}", self.ready[r, k]) for r in ("thin", "fat", "trie") for k in ("num", "code")]
        wanted += [(f"refusal {number}", self.refusals[number]) for number in (1, 2, 3, 4, 15)]
        wanted += [(f"LINE {detail}", self.line_details[detail]) for detail in range(10)]
        wanted += [(f"COEFFICIENT at level {level}", self.levels[level]) for level in ("0", "above")]
        return [name for name, count in wanted if count == 0]

    def summary(self) -> str:
        """The counts in one line."""
        refusals = " ".join(f"{number}:{self.refusals[number]}" for number in (1, 2, 3, 4, 15))
        details = " ".join(f"{detail}:{self.line_details[detail]}" for detail in range(10))
        ready = []
        for rule in ("thin", "fat", "trie"):
            kinds = " ".join(f"{kind}:{self.ready[rule, kind]}" for kind in ("num", "code"))
            ready.append(f"{rule} {kinds}")
        return (
            f"same: {self.inputs} inputs, {self.keys} keys, {self.cells} cells; ready {', '.join(ready)}; "
            f"refusals {refusals}; LINE {details}; COEFFICIENT 0:{self.levels['0']} above:{self.levels['above']}"
        )


def broken_promise(program: paths.Program, output: bytes) -> bool:
    """Whether a path in the peer's output has a wrong length, a cell not below the total, or a cell twice."""
    rule = program.path_rule
    for line in output.splitlines():
        fields = line.split(b" ")
        if fields[0] in (b"no", b"ready"):
            continue
        cells = [int(field) for field in fields[1:]]
        total = paths.total(rule.m, rule.k, rule.levels)
        if len(cells) != rule.levels * rule.tries or len(set(cells)) != len(cells) or max(cells) >= total:
            return True
    return False


def first_different_line(one: bytes, other: bytes) -> int:
    """The number, from 1, of the first line in which two different outputs differ."""
    ones = one.split(b"\n")
    others = other.split(b"\n")
    same = 0
    while same < min(len(ones), len(others)) and ones[same] == others[same]:
        same += 1
    return same + 1


def report(what: str, seed: int, number: int, data: bytes, expected: bytes, found: bytes) -> None:
    """Print a run that failed."""
    print(f"{what}: seed {seed}, run {number}")
    print(f"input ({len(data)} bytes): {data!r}")
    print(f"peer ({len(expected)} bytes): {expected!r}")
    print(f"program ({len(found)} bytes): {found!r}")


def agrees(program: str, seed: int, number: int, data: bytes, expected: bytes) -> bool:
    """Whether the program ends well and writes what the peer does; print the run where it does not."""
    try:
        ended = subprocess.run([program], input=data, capture_output=True, timeout=PROGRAM_SECONDS, check=False)
    except subprocess.TimeoutExpired:
        report(f"the program did not end in {PROGRAM_SECONDS} seconds", seed, number, data, expected, b"")
        return False
    wrongs = []
    if ended.stdout != expected:
        wrongs.append(f"the outputs differ from output line {first_different_line(expected, ended.stdout)} on")
    if ended.returncode != 0:
        wrongs.append(f"the program ended with status {ended.returncode}, standard error {ended.stderr!r}")
    if wrongs:
        report(" and ".join(wrongs), seed, number, data, expected, ended.stdout)
    return not wrongs


def same_run(program: str, seed: int, number: int, cover: Cover) -> bool:
    """Compare one run; print it where it fails."""
    data = input_of_run(seed, number)
    peer = paths.Program()
    expected = paths.run_on(peer, data)
    if broken_promise(peer, expected):
        report("the peer breaks a promise of the rules", seed, number, data, expected, b"")
        return False
    if not agrees(program, seed, number, data, expected):
        return False
    cover.add(peer, expected)
    return True


def compare_all(runs: int, failed: List[str], cover: Any, compare_run: Callable[[str, int, int, Any], bool]) -> int:
    """Compare all runs that the command line asks for, so many unless it says another number, and give the status."""
    parser = argparse.ArgumentParser(description="Compare a program with its peer on random inputs.")
    parser.add_argument("program", metavar="PROGRAM")
    parser.add_argument("--runs", type=int, default=runs, metavar="N")
    parser.add_argument("--seed", type=int, default=1, metavar="K")
    options = parser.parse_args()
    if failed:
        print(f"the peer fails examples of the rules: {', '.join(failed)}")
        return 1
    for number in range(options.runs):
        if not compare_run(options.program, options.seed, number, cover):
            return 1
    print(cover.summary())
    missing = cover.missing_cover()
    if missing:
        print(f"the inputs did not cover: {', '.join(missing)}")
        return 1
    return 0


if __name__ == "__main__":
    sys.exit(compare_all(3000, failed_examples(), Cover(), same_run))
