"""The archive, written from docs/RULES.md alone as an independent peer.

It shares no code with the archive that it stands beside. Each class and function carries the name the rules give the
thing, and does what the rules say in the plainest way, over any store of stores.py, any keep of keeps.py and any path
rule and kind of key of paths.py. `failed_examples` checks it against examples worked out by hand from the rules;
histories.py checks the law of histories on it.
"""

import sys
from typing import Dict, List, NamedTuple, Optional, Tuple, Union

sys.dont_write_bytecode = True  # leave no __pycache__ beside the sources

import keeps  # noqa: E402
import paths  # noqa: E402
import stores  # noqa: E402
from keeps import GONE, GROUP, NO_SLOT, STRANGER  # noqa: E402
from paths import KEY, Refusal  # noqa: E402
from stores import BEYOND, LENGTH, NO_CELL, WRITTEN  # noqa: E402

TWICE = 7
FULL_PATH = 8

MARK = 0x45
KIND_NUMBERS: Dict[bytes, int] = {b"num": 1, b"code": 2}
SHEET_NUMBER_BYTES = 4
GROUP_BYTES = 2
SLOT_BYTES = 4
FILING_BYTES = 4
KEY_AT = 2
GROUP_AT = KEY_AT + paths.KEY_BYTES
SLOT_AT = GROUP_AT + GROUP_BYTES
FILING_AT = SLOT_AT + SLOT_BYTES

ABSENT = "ABSENT"
EXHAUSTED = "EXHAUSTED"
FOUND = "FOUND"
RETIRED = "RETIRED"
FOREIGN = "FOREIGN"


# The entry in its cell


class Entry(NamedTuple):
    """What is written in a cell for a filed drawing; `number` is its filing number."""

    key: bytes
    group: int
    slot: int
    number: int


def is_admissible(kind: bytes, data: bytes) -> bool:
    """Whether bytes are the bytes of a key of that kind."""
    try:
        if kind == b"num":
            return data == paths.sheet_bytes(int.from_bytes(data[-SHEET_NUMBER_BYTES:], "big"))
        return data == paths.code_bytes(data.rstrip(b"\0"))
    except Refusal:
        return False


def check_key(kind: bytes, key: bytes) -> None:
    """Refuse bytes that are not admissible."""
    if not is_admissible(kind, key):
        raise Refusal(KEY)


def entry_bytes(kind: bytes, entry: Entry) -> bytes:
    """The 24 bytes of an entry; its key may be any 12 bytes."""
    group = entry.group.to_bytes(GROUP_BYTES, "big")
    slot = entry.slot.to_bytes(SLOT_BYTES, "big")
    number = entry.number.to_bytes(FILING_BYTES, "big")
    return bytes([MARK, KIND_NUMBERS[kind]]) + entry.key + group + slot + number


def read_entry(kind: bytes, content: bytes) -> Optional[Entry]:
    """The entry that bytes are in an archive of that kind, or None where they are none."""
    if len(content) != stores.CONTENT_BYTES or content[0] != MARK or content[1] != KIND_NUMBERS[kind]:
        return None
    key = content[KEY_AT:GROUP_AT]
    if not is_admissible(kind, key):
        return None
    group = int.from_bytes(content[GROUP_AT:SLOT_AT], "big")
    slot = int.from_bytes(content[SLOT_AT:FILING_AT], "big")
    return Entry(key, group, slot, int.from_bytes(content[FILING_AT:], "big"))


# Calls and answers


class File(NamedTuple):
    """The call that files a drawing; its key may be any bytes."""

    key: bytes
    group: int
    locator: int


class Find(NamedTuple):
    """The call that searches for a drawing; its key may be any bytes."""

    key: bytes


class Retire(NamedTuple):
    """The call that retires a group."""

    group: int


class Write(NamedTuple):
    """Anybody else's write beside the archive."""

    cell: int
    content: bytes


class Filed(NamedTuple):
    """The answer to a filing that was accepted; `number` is its filing number."""

    cell: int
    probes: int
    slot: int
    number: int


class Refused(NamedTuple):
    """An answer that turns a call down."""

    number: int
    detail: Optional[int] = None


class Searched(NamedTuple):
    """The answer to a search: no `cell` where it ended at none, a `locator` with FOUND, a `refusal` with FOREIGN."""

    verdict: str
    cell: Optional[int]
    probes: int
    locator: Optional[int] = None
    refusal: Optional[Refused] = None


class Retired(NamedTuple):
    """The answer to a retirement that was accepted: how many pairs the group had."""

    pairs: int


class Written(NamedTuple):
    """The answer to an outside write that was accepted."""

    cell: int


Call = Union[File, Find, Retire, Write]
Answer = Union[Filed, Searched, Retired, Written, Refused]


# The archive


class Settings(NamedTuple):
    """The settings of an archive; `groups` is the number of groups."""

    kind: bytes
    path_rule: paths.PathRule
    groups: int

    def total(self) -> int:
        """The number of cells of the tree."""
        return paths.total(self.path_rule.m, self.path_rule.k, self.path_rule.levels)


class State(NamedTuple):
    """The state of an archive: each cell of the store, None where it is blank; the list of each group, None once it is
    retired; and the count of accepted filings."""

    cells: Tuple[Optional[bytes], ...]
    groups: Tuple[Optional[Tuple[keeps.Pair, ...]], ...]
    count: int


class Stop(NamedTuple):
    """Where a walk stops: `cell` is None where it stops at none, `entry` is None where the cell is blank or none."""

    probes: int
    cell: Optional[int]
    entry: Optional[Entry]


class Archive:
    """A store, a keep and a path rule, with the count of accepted filings; blank where store and keep are."""

    def __init__(self, settings: Settings, store: stores.Store, keep: keeps.Keep) -> None:
        self.settings = settings
        self.store = store
        self.keep = keep
        self.count = 0

    def content(self, cell: int) -> Optional[bytes]:
        """What a cell holds, or None where it is blank; outside the store it counts as blank."""
        return self.store.content(cell) if cell < self.store.size() else None

    def pairs(self, group: int) -> Optional[Tuple[keeps.Pair, ...]]:
        """The list of a group, or None where it is retired."""
        return None if self.keep.is_retired(group) else tuple(self.keep.pairs(group))

    def state(self) -> State:
        """The state as it is now."""
        cells = tuple(self.content(cell) for cell in range(self.store.size()))
        groups = tuple(self.pairs(group) for group in range(self.settings.groups))
        return State(cells, groups, self.count)

    def walk(self, key: bytes) -> Stop:
        """Go over the path of a key to the first cell that is blank or holds an entry of this key."""
        path = paths.path(self.settings.path_rule, key)
        for probes, cell in enumerate(path, start=1):
            content = self.content(cell)
            if content is None:
                return Stop(probes, cell, None)
            entry = read_entry(self.settings.kind, content)
            if entry is not None and entry.key == key:
                return Stop(probes, cell, entry)
        return Stop(len(path), None, None)

    def file(self, key: bytes, group: int, locator: int) -> Filed:
        """File a drawing, or refuse and change nothing."""
        check_key(self.settings.kind, key)
        self.keep.check(group)
        probes, cell, entry = self.walk(key)
        if entry is not None:
            raise Refusal(TWICE, cell)
        if cell is None:
            raise Refusal(FULL_PATH)
        if not self.store.can_take(cell):
            raise Refusal(NO_CELL, cell)
        if not self.keep.room(group):
            raise Refusal(NO_SLOT, group)
        self.count += 1
        slot = self.keep.put(group, cell, locator)
        self.store.write(cell, entry_bytes(self.settings.kind, Entry(key, group, slot, self.count)))
        return Filed(cell, probes, slot, self.count)

    def find(self, key: bytes) -> Searched:
        """Search for a drawing, or refuse its key."""
        check_key(self.settings.kind, key)
        probes, cell, entry = self.walk(key)
        if cell is None:
            return Searched(EXHAUSTED, None, probes)
        if entry is None:
            return Searched(ABSENT, cell, probes)
        try:
            return Searched(FOUND, cell, probes, locator=self.keep.get(entry.group, entry.slot, cell))
        except Refusal as refusal:
            if refusal.number == GONE:
                return Searched(RETIRED, cell, probes)
            return Searched(FOREIGN, cell, probes, refusal=Refused(refusal.number, refusal.detail))

    def retire(self, group: int) -> Retired:
        """Retire a group, or refuse and change nothing."""
        return Retired(self.keep.strike(group))

    def write(self, cell: int, content: bytes) -> Written:
        """Anybody else's write, to any cell of the store."""
        self.store.write(cell, content)
        return Written(cell)

    def take(self, call: Call) -> Answer:
        """The answer to any call, refused or not."""
        try:
            if isinstance(call, File):
                return self.file(*call)
            if isinstance(call, Find):
                return self.find(*call)
            if isinstance(call, Retire):
                return self.retire(*call)
            return self.write(*call)
        except Refusal as refusal:
            return Refused(refusal.number, refusal.detail)


class Makes(NamedTuple):
    """What an archive stands on: the word and the numbers of a pile, the make of a keep and its slots or lines."""

    word: bytes
    numbers: Tuple[int, ...]
    keep: bytes
    places: int


def keep_memory(makes: Makes, groups: int) -> bytearray:
    """The memory a keep gets, before it is set up: a few bytes more than it needs."""
    needed = keeps.MAKES[makes.keep].needed(groups, makes.places)
    return bytearray([keeps.FRESH_BYTE]) * (needed + stores.SPARE_BYTES)


def blank_archive(settings: Settings, makes: Makes) -> Tuple[Archive, List[bytearray]]:
    """A blank archive, and its memories: those of the pile, then that of the keep."""
    _, new_pile = stores.PILES[makes.word]
    pile = new_pile(*makes.numbers)
    memory = keep_memory(makes, settings.groups)
    keep = keeps.set_up_keep(makes.keep, memory, settings.groups, makes.places)
    return Archive(settings, pile.top, keep), pile.memories + [memory]


class Step(NamedTuple):
    """A call of a history, its answer, and the state after it."""

    call: Call
    answer: Answer
    state: State


def step(archive: Archive, call: Call) -> Step:
    """Take a call."""
    answer = archive.take(call)
    return Step(call, answer, archive.state())


# Examples worked out by hand

Talk = List[Tuple[Call, Answer]]


def sheet(number: int) -> bytes:
    """The four bytes of any number behind eight zero bytes: a key where it is admissible."""
    return number.to_bytes(paths.KEY_BYTES, "big")


def thin_settings(m: int, levels: int, coefficients: Tuple[Tuple[int, int], ...]) -> Settings:
    """Sheet numbers, thin, k = 2, t = 1, two groups."""
    return Settings(b"num", paths.PathRule(b"thin", m, 2, levels, 1, coefficients), 2)


SIX_ENTRY = Entry(sheet(6), 1, 0, 9)
SIX_BYTES = bytes.fromhex("450100000000000000000000000600010000000000000009")
CODE_ENTRY = Entry(b"A-1" + bytes(9), 258, 65539, 2**32 - 1)
CODE_BYTES = bytes.fromhex("4502412d31000000000000000000010200010003ffffffff")
HIGHEST_ENTRY = Entry(sheet(2147483646), 0, 0, 0)

ENTRIES: List[Tuple[str, bytes, bytes, Optional[Entry]]] = [
    ("the rules' entry", b"num", SIX_BYTES, SIX_ENTRY),
    ("an entry of a code", b"code", CODE_BYTES, CODE_ENTRY),
    ("an entry of the other kind", b"code", SIX_BYTES, None),
    ("another mark", b"num", b"\x44" + SIX_BYTES[1:], None),
    ("a byte too few", b"num", SIX_BYTES[:-1], None),
    ("a byte too many", b"num", SIX_BYTES + b"\0", None),
    ("the highest sheet", b"num", entry_bytes(b"num", HIGHEST_ENTRY), HIGHEST_ENTRY),
    ("a sheet too high", b"num", entry_bytes(b"num", Entry(sheet(2147483647), 0, 0, 0)), None),
    ("a byte before a sheet", b"num", entry_bytes(b"num", Entry(b"\1" + bytes(11), 0, 0, 0)), None),
    ("a code behind its padding", b"code", entry_bytes(b"code", Entry(b"A\0B" + bytes(9), 0, 0, 0)), None),
    ("an empty code", b"code", entry_bytes(b"code", Entry(bytes(12), 0, 0, 0)), None),
    ("a blank cell's bytes", b"code", bytes(24), None),
]

RULES_SETTINGS = thin_settings(4, 3, ((1, 0), (1, 3), (3, 1)))
RULES_TALK: Talk = [
    (File(sheet(5), 0, 700), Filed(cell=1, probes=1, slot=0, number=1)),
    (File(sheet(13), 1, 701), Filed(cell=4, probes=2, slot=0, number=2)),
    (Find(sheet(9)), Searched(ABSENT, 8, 2)),
    (File(sheet(9), 0, 702), Filed(cell=8, probes=2, slot=1, number=3)),
    (File(sheet(5), 1, 703), Refused(TWICE, 1)),
    (File(sheet(21), 0, 704), Filed(cell=12, probes=3, slot=2, number=4)),
    (File(sheet(29), 0, 705), Refused(FULL_PATH)),
    (Retire(0), Retired(3)),
    (Find(sheet(5)), Searched(RETIRED, 1, 1)),
    (Find(sheet(13)), Searched(FOUND, 4, 2, locator=701)),
    (Retire(0), Refused(GONE, 0)),
    (Write(2, SIX_BYTES), Written(2)),
    (Find(sheet(6)), Searched(FOREIGN, 2, 1, refusal=Refused(STRANGER, 2))),
]

# With m = 1, two levels and coefficients (1, 0) there are 3 cells; even sheets have the path 0, 1 and odd ones 0, 2.
TINY_SETTINGS = thin_settings(1, 2, ((1, 0), (1, 0)))

ORDER_TALK: Talk = [
    (File(sheet(2147483647), 2, 9), Refused(KEY)),
    (Find(sheet(2147483647)), Refused(KEY)),
    (File(sheet(1), 2, 9), Refused(GROUP, 2)),
    (File(sheet(1), 0, 9), Filed(cell=0, probes=1, slot=0, number=1)),
    (File(sheet(3), 0, 9), Refused(NO_CELL, 2)),
    (File(sheet(1), 65535, 9), Refused(GROUP, 65535)),
    (File(sheet(1), 0, 9), Refused(TWICE, 0)),
    (Write(9, bytes(23)), Refused(LENGTH)),
    (Write(3, bytes(24)), Refused(BEYOND, 3)),
    (Write(0, bytes(24)), Refused(WRITTEN, 0)),
    (Write(1, bytes(24)), Refused(NO_CELL, 1)),
    (Retire(0), Retired(1)),
    (File(sheet(1), 0, 9), Refused(GONE, 0)),
    (File(sheet(1), 1, 9), Refused(TWICE, 0)),
    (Find(sheet(1)), Searched(RETIRED, 0, 1)),
    (Find(sheet(3)), Searched(ABSENT, 2, 2)),
    (Retire(2), Refused(GROUP, 2)),
]

SHORT_TALK: Talk = [
    (File(sheet(1), 0, 2**64 - 1), Filed(cell=0, probes=1, slot=0, number=1)),
    (File(sheet(3), 0, 9), Refused(NO_CELL, 2)),
    (Find(sheet(3)), Searched(ABSENT, 2, 2)),
    (File(sheet(2), 1, 9), Refused(NO_SLOT, 1)),
    (Find(sheet(2)), Searched(ABSENT, 1, 2)),
    (Write(1, entry_bytes(b"num", Entry(sheet(4), 0, 0, 1))), Written(1)),
    (Find(sheet(4)), Searched(FOREIGN, 1, 2, refusal=Refused(STRANGER, 1))),
    (Find(sheet(2)), Searched(EXHAUSTED, None, 2)),
    (File(sheet(2), 1, 9), Refused(FULL_PATH)),
    (File(sheet(2), 2, 9), Refused(GROUP, 2)),
    (File(sheet(4), 1, 9), Refused(TWICE, 1)),
    (Find(sheet(1)), Searched(FOUND, 0, 1, locator=2**64 - 1)),
    (Retire(0), Retired(1)),
    (Find(sheet(4)), Searched(RETIRED, 1, 2)),
    (File(sheet(2), 0, 9), Refused(GONE, 0)),
    (Retire(1), Retired(0)),
]

FOREIGN_TALK: Talk = [
    (Write(0, bytes(24)), Written(0)),
    (Write(1, entry_bytes(b"num", Entry(sheet(2), 2, 0, 1))), Written(1)),
    (Write(2, entry_bytes(b"num", Entry(sheet(2), 0, 0, 1))), Written(2)),
    (Find(sheet(2)), Searched(FOREIGN, 1, 2, refusal=Refused(GROUP, 2))),
    (Find(sheet(1)), Searched(EXHAUSTED, None, 2)),
    (File(sheet(2), 0, 9), Refused(TWICE, 1)),
    (File(sheet(1), 0, 9), Refused(FULL_PATH)),
]

TALKS: List[Tuple[str, Settings, Makes, Talk]] = [
    ("the rules' example", RULES_SETTINGS, Makes(b"plate", (28,), b"blocks", 3), RULES_TALK),
    ("the same on a reel and a ledger", RULES_SETTINGS, Makes(b"reel", (28, 5), b"ledger", 4), RULES_TALK),
    ("the order of refusals", TINY_SETTINGS, Makes(b"reel", (3, 1), b"blocks", 1), ORDER_TALK),
    ("a store too short", TINY_SETTINGS, Makes(b"plate", (2,), b"ledger", 1), SHORT_TALK),
    ("foreign entries", TINY_SETTINGS, Makes(b"join", (1, 2, 2), b"ledger", 1), FOREIGN_TALK),
]


def fails_entry(kind: bytes, content: bytes, entry: Optional[Entry]) -> bool:
    """Whether bytes are not read as that entry, or the entry is not written as these bytes."""
    return read_entry(kind, content) != entry or (entry is not None and entry_bytes(kind, entry) != content)


def fails_talk(settings: Settings, makes: Makes, talk: Talk) -> bool:
    """Whether a blank archive answers otherwise."""
    archive, _ = blank_archive(settings, makes)
    found = [archive.take(call) for call, _ in talk]
    return [(type(answer), answer) for answer in found] != [(type(wanted), wanted) for _, wanted in talk]


def failed_examples() -> List[str]:
    """The names of the examples that the peer gets wrong."""
    failed = [name for name, kind, content, entry in ENTRIES if fails_entry(kind, content, entry)]
    return failed + [name for name, settings, makes, talk in TALKS if fails_talk(settings, makes, talk)]
