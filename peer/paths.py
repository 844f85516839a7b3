"""The path program, written from docs/RULES.md alone as an independent peer.

It shares no code with the program it is compared with. Each function carries the name the rules give the thing, and
does what the rules say in the plainest way: on bytes, and with Python's integers, which do not wrap.

    python3 peer/paths.py < input
"""

import sys
from typing import Callable, List, NamedTuple, Optional, Tuple

P = 2147483647
KEY_BYTES = 12
MOST_CELLS = 1048576
MOST_INPUT = 65536
MOST_LINE = 80
NUMBER_END = 2**64

SETTING = 1
COEFFICIENT = 2
SIZE = 3
KEY = 4
LINE = 15

KINDS = (b"num", b"code")
RULES = (b"thin", b"fat", b"trie")
CODE_ALPHABET = b"ABCDEFGHIJKLMNOPQRSTUVWXYZ0123456789-"
DIGITS = b"0123456789"


class Refusal(Exception):
    """An answer that turns a call down, by a number and at most one detail."""

    def __init__(self, number: int, detail: Optional[int] = None) -> None:
        super().__init__(number, detail)
        self.number = number
        self.detail = detail


class PathRule(NamedTuple):
    """A tree's settings; `coefficients` holds a pair (a, b) for each level, and is empty for a trie."""

    rule: bytes
    m: int
    k: int
    levels: int
    tries: int
    coefficients: Tuple[Tuple[int, int], ...]


# Keys


def sheet_bytes(number: int) -> bytes:
    """The 12 bytes of a sheet number."""
    if number > 2147483646:
        raise Refusal(KEY)
    return bytes(8) + number.to_bytes(4, "big")


def code_bytes(text: bytes) -> bytes:
    """The 12 bytes of a drawing code."""
    if not 1 <= len(text) <= KEY_BYTES:
        raise Refusal(KEY)
    for byte in text:
        if byte not in CODE_ALPHABET:
            raise Refusal(KEY)
    return text + bytes(KEY_BYTES - len(text))


def fold(key: bytes) -> int:
    """The key's bytes as one number, modulo p."""
    return int.from_bytes(key, "big") % P


def fnv1a(data: bytes) -> int:
    """32-bit FNV-1a over any bytes; over a key's 12 bytes it is the key's digest."""
    value = 2166136261
    for byte in data:
        value = ((value ^ byte) * 16777619) % 2**32
    return value


# Settings


def trie_width(m: int, k: int) -> Optional[int]:
    """The w of m = k = 2^w with w at least 1, or None where there is none."""
    for w in range(1, 9):
        if m == k == 2**w:
            return w
    return None


def check_setting(rule: bytes, m: int, k: int, levels: int, tries: int) -> None:
    """Refuse settings outside their ranges, and a trie whose m and k do not fit."""
    in_range = 1 <= m <= 256 and 2 <= k <= 256 and 1 <= levels <= 16 and 1 <= tries <= m
    if not in_range:
        raise Refusal(SETTING)
    if rule == b"trie" and trie_width(m, k) is None:
        raise Refusal(SETTING)


def check_groups(groups: int) -> None:
    """Refuse a number of groups outside its range."""
    if not 1 <= groups <= 256:
        raise Refusal(SETTING)


def check_coefficient(a: int, b: int, level: int) -> None:
    """Refuse a level's coefficients outside their ranges."""
    if not (1 <= a <= P - 1 and 0 <= b <= P - 1):
        raise Refusal(COEFFICIENT, level)


def check_size(m: int, k: int, levels: int) -> None:
    """Refuse a total that is too large."""
    if total(m, k, levels) > MOST_CELLS:
        raise Refusal(SIZE)


# Where cells lie


def first_cells(m: int, k: int, levels: int) -> List[int]:
    """The first cell of each level from 0 to `levels`; the last of them is the total."""
    firsts = [0]
    for level in range(levels):
        firsts.append(firsts[level] + m * k**level)
    return firsts


def total(m: int, k: int, levels: int) -> int:
    """The number of cells on all levels."""
    return first_cells(m, k, levels)[levels]


# Paths


def coefficient_value(a: int, b: int, folded: int, r: int) -> int:
    """The value h of a thin or fat level."""
    return ((a * folded + b) % P) % r


def thin_values(path_rule: PathRule, folded: int) -> List[int]:
    """The value h of each level of a thin rule."""
    values = []
    for level, (a, b) in enumerate(path_rule.coefficients):
        r = path_rule.m if level == 0 else path_rule.m * path_rule.k
        values.append(coefficient_value(a, b, folded, r))
    return values


def fat_values(path_rule: PathRule, folded: int) -> List[int]:
    """The value h of each level of a fat rule."""
    values = []
    for level, (a, b) in enumerate(path_rule.coefficients):
        r = path_rule.m * path_rule.k**level
        values.append(coefficient_value(a, b, folded, r))
    return values


def top_bits(digest: int, skipped: int, count: int) -> int:
    """The `count` bits of a 32-bit digest that begin `skipped` bits below its top."""
    return (digest >> (32 - skipped - count)) % 2**count


def trie_values(w: int, levels: int, digest: int) -> List[int]:
    """The value h of each level of a trie."""
    values = [top_bits(digest, 0, w)]
    for level in range(1, levels):
        values.append(top_bits(digest, w * (level - 1), 2 * w))
    return values


def descending_nodes(m: int, k: int, values: List[int]) -> List[int]:
    """The node at each level of a thin rule or a trie."""
    nodes = [0]
    for value in values[1:]:
        nodes.append(k * nodes[-1] + value // m)
    return nodes


def direct_nodes(m: int, values: List[int]) -> List[int]:
    """The node at each level of a fat rule."""
    return [value // m for value in values]


def cells(path_rule: PathRule, values: List[int], nodes: List[int]) -> List[int]:
    """The path: level by level, and within a level try by try."""
    m = path_rule.m
    firsts = first_cells(m, path_rule.k, path_rule.levels)
    found = []
    for level in range(path_rule.levels):
        index = values[level] % m
        for j in range(path_rule.tries):
            found.append(firsts[level] + nodes[level] * m + (index + j) % m)
    return found


def thin_path(path_rule: PathRule, folded: int) -> List[int]:
    """The path of a key with this fold under a thin rule."""
    values = thin_values(path_rule, folded)
    return cells(path_rule, values, descending_nodes(path_rule.m, path_rule.k, values))


def fat_path(path_rule: PathRule, folded: int) -> List[int]:
    """The path of a key with this fold under a fat rule."""
    values = fat_values(path_rule, folded)
    return cells(path_rule, values, direct_nodes(path_rule.m, values))


def trie_path(path_rule: PathRule, digest: int) -> List[int]:
    """The path of a key with this digest under a trie."""
    w = trie_width(path_rule.m, path_rule.k)
    if w is None:
        raise Refusal(SETTING)
    values = trie_values(w, path_rule.levels, digest)
    return cells(path_rule, values, descending_nodes(path_rule.m, path_rule.k, values))


def path(path_rule: PathRule, key: bytes) -> List[int]:
    """The path of a key, given by its 12 bytes."""
    if path_rule.rule == b"thin":
        return thin_path(path_rule, fold(key))
    if path_rule.rule == b"fat":
        return fat_path(path_rule, fold(key))
    return trie_path(path_rule, fnv1a(key))


# Lines and fields

Reader = Callable[[bytes], object]


def split_lines(data: bytes) -> List[bytes]:
    """The lines of an input, without their ends; no line follows a last byte 10."""
    lines = data.split(b"\n")
    if lines[-1] == b"":
        lines.pop()
    return lines


def split_fields(line: bytes) -> List[bytes]:
    """The fields of a line; some of them may be empty."""
    return line.split(b" ")


def read_number(field: bytes) -> Optional[int]:
    """The number a field holds, or None where it holds none."""
    if field == b"":
        return None
    for byte in field:
        if byte not in DIGITS:
            return None
    value = int(field)
    return value if value < NUMBER_END else None


def read_text(field: bytes) -> Optional[bytes]:
    """Any text but an empty field."""
    return field if field != b"" else None


def one_of(words: Tuple[bytes, ...]) -> Reader:
    """A reader for a field that is one of these words."""

    def read_word(field: bytes) -> Optional[bytes]:
        return field if field in words else None

    return read_word


def read_fields(fields: List[bytes], readers: List[Reader]) -> list:
    """What the readers make of the fields, from left to right, or LINE with the first wrong, missing or extra one."""
    values = []
    for position, reader in enumerate(readers, start=1):
        if position > len(fields):
            raise Refusal(LINE, position)
        value = reader(fields[position - 1])
        if value is None:
            raise Refusal(LINE, position)
        values.append(value)
    if len(fields) > len(readers):
        raise Refusal(LINE, len(readers) + 1)
    return values


SET_READERS: List[Reader] = [one_of((b"set",)), one_of(KINDS), one_of(RULES)] + [read_number] * 5
COEF_READERS: List[Reader] = [one_of((b"coef",)), read_number, read_number]


# The path program


class Program:
    """The path program: its state, and the settings taken so far."""

    def __init__(self) -> None:
        self.state = "waiting"
        self.kind = b""
        self.path_rule = PathRule(b"", 0, 0, 0, 0, ())

    def answer(self, number: int, line: bytes) -> bytes:
        """What is printed for one line: nothing, or one line with its end."""
        try:
            return self.take(line)
        except Refusal as refusal:
            detail = "-" if refusal.detail is None else str(refusal.detail)
            return f"no {number} {refusal.number} {detail}\n".encode()

    def take(self, line: bytes) -> bytes:
        """Take one line in the state the program is in."""
        if len(line) > MOST_LINE:
            raise Refusal(LINE, 0)
        fields = split_fields(line)
        if self.state == "waiting":
            return self.take_set(fields)
        if self.state == "collecting":
            return self.take_coef(fields)
        return self.take_key(fields)

    def take_set(self, fields: List[bytes]) -> bytes:
        """A line `set KIND RULE m k L t G` while waiting."""
        _, kind, rule, m, k, levels, tries, groups = read_fields(fields, SET_READERS)
        check_setting(rule, m, k, levels, tries)
        check_groups(groups)
        if rule == b"trie":
            check_size(m, k, levels)
        self.kind = kind
        self.path_rule = PathRule(rule, m, k, levels, tries, ())
        if rule == b"trie":
            return self.become_ready()
        self.state = "collecting"
        return b""

    def take_coef(self, fields: List[bytes]) -> bytes:
        """A line `coef a b` while collecting."""
        if fields[0] != b"coef":
            raise Refusal(LINE, 1)
        try:
            return self.take_coefficients(fields)
        except Refusal:
            self.state = "waiting"
            raise

    def take_coefficients(self, fields: List[bytes]) -> bytes:
        """The coefficients of the next level, and after the last of them the size."""
        _, a, b = read_fields(fields, COEF_READERS)
        so_far = self.path_rule.coefficients
        check_coefficient(a, b, len(so_far))
        self.path_rule = self.path_rule._replace(coefficients=so_far + ((a, b),))
        if len(self.path_rule.coefficients) < self.path_rule.levels:
            return b""
        check_size(self.path_rule.m, self.path_rule.k, self.path_rule.levels)
        return self.become_ready()

    def become_ready(self) -> bytes:
        """Go over to keys, and say so."""
        self.state = "ready"
        count = total(self.path_rule.m, self.path_rule.k, self.path_rule.levels)
        return f"ready {count}\n".encode()

    def take_key(self, fields: List[bytes]) -> bytes:
        """A key while ready: the key as it was written, and the cells of its path."""
        if self.kind == b"num":
            (number,) = read_fields(fields, [read_number])
            key = sheet_bytes(number)
        else:
            (text,) = read_fields(fields, [read_text])
            key = code_bytes(text)
        written = [str(cell).encode() for cell in path(self.path_rule, key)]
        return b" ".join([fields[0]] + written) + b"\n"


def run_on(program: Program, data: bytes) -> bytes:
    """The whole output of a fresh program for an input."""
    if len(data) > MOST_INPUT:
        return b"no 0 15 0\n"
    answers = [program.answer(number, line) for number, line in enumerate(split_lines(data), start=1)]
    return b"".join(answers)


def run(data: bytes) -> bytes:
    """The whole output for an input."""
    return run_on(Program(), data)


if __name__ == "__main__":
    sys.stdout.buffer.write(run(sys.stdin.buffer.read()))
