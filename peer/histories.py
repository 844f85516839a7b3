"""Check the law of histories of docs/RULES.md on random histories of the archive in archive.py.

    python3 peer/histories.py [--runs N] [--seed K]

The archive is first checked against examples worked out by hand. Each run then makes one history with forged entries
and other outside writes, and a family of histories without any, on stores and keeps of several makes. The clauses of
the law are checked by brute force on calls and answers, in the words of the rules; nothing is asked of the archive but
its answers, its state and its memories. The status is 0 where every clause held and the histories covered what
`missing_cover` asks for; otherwise it is 1. Run number n of seed k always makes the same histories.
"""

import argparse
import random
import re
import sys
from collections import Counter
from itertools import combinations
from typing import Callable, Dict, FrozenSet, List, NamedTuple, Optional, Set, Tuple

sys.dont_write_bytecode = True  # leave no __pycache__ beside the sources

import archive  # noqa: E402
import keeps  # noqa: E402
import paths  # noqa: E402
import stores  # noqa: E402
from archive import (  # noqa: E402
    ABSENT,
    EXHAUSTED,
    FOREIGN,
    FOUND,
    FULL_PATH,
    RETIRED,
    TWICE,
    Answer,
    Call,
    File,
    Filed,
    Find,
    Makes,
    Refused,
    Retire,
    Retired,
    Searched,
    Settings,
    State,
    Step,
    Write,
    Written,
)
from keeps import GONE, GROUP, NO_SLOT, STRANGER  # noqa: E402
from make_histories import (  # noqa: E402
    AGREE,
    CHANGE_VERDICTS,
    DIFFER,
    HIGHEST_SHEET,
    KEEP_MAKES,
    MOST_16_BITS,
    MOST_32_BITS,
    PILE_WORDS,
    Family,
    Session,
    searched_history,
    some_family,
)
from paths import KEY, Refusal  # noqa: E402
from stores import BEYOND, CONTENT_BYTES, LENGTH, NO_CELL, WRITTEN  # noqa: E402

DEFAULT_RUNS = 2000

FILING = "filing"
WRITE = "write"
RETIREMENT = "retirement"
EVENTS = (FILING, WRITE, RETIREMENT)


# What happened, by calls and answers alone


class Event(NamedTuple):
    """An accepted call that changed something: a filing or a write with its cell and what stands there from then on,
    namely the key of an entry (None for bytes that are no entry), its group and its slot, and the locator of a filing;
    or a retirement with its group."""

    place: int
    word: str
    cell: Optional[int]
    key: Optional[bytes]
    group: int
    slot: int
    locator: Optional[int]


CODE = re.compile(rb"[A-Z0-9-]+\0*")
ENTRY_BEGINS = {b"num": b"\x45\x01", b"code": b"\x45\x02"}


def is_key(kind: bytes, data: bytes) -> bool:
    """Whether bytes are admissible."""
    if len(data) != 12:
        return False
    return int.from_bytes(data, "big") <= HIGHEST_SHEET if kind == b"num" else CODE.fullmatch(data) is not None


def entry_key(kind: bytes, content: bytes) -> Optional[bytes]:
    """The key of the entry that bytes are in an archive of that kind, or None where they are none."""
    marked = len(content) == 24 and content[:2] == ENTRY_BEGINS[kind]
    return content[2:14] if marked and is_key(kind, content[2:14]) else None


def event_of(kind: bytes, place: int, step: Step) -> Optional[Event]:
    """What a step changed, or None where it changed nothing."""
    call, answer = step.call, step.answer
    if isinstance(call, File) and isinstance(answer, Filed):
        return Event(place, FILING, answer.cell, call.key, call.group, answer.slot, call.locator)
    if isinstance(call, Write) and isinstance(answer, Written):
        group = int.from_bytes(call.content[14:16], "big")
        slot = int.from_bytes(call.content[16:20], "big")
        return Event(place, WRITE, call.cell, entry_key(kind, call.content), group, slot, None)
    if isinstance(call, Retire) and isinstance(answer, Retired):
        return Event(place, RETIREMENT, None, None, call.group, 0, None)
    return None


def events_of(session: Session) -> List[Event]:
    """What changed, in order."""
    events = [event_of(session.settings.kind, place, step) for place, step in enumerate(session.steps)]
    return [event for event in events if event is not None]


def standing_at(events: List[Event], place: int, cell: Optional[int]) -> Optional[Event]:
    """What had been written at a cell before a place of the history, or None where the cell was blank or none."""
    for event in events:
        if event.place < place and event.cell is not None and event.cell == cell:
            return event
    return None


def filed_before(events: List[Event], place: int, group: int) -> int:
    """How many filings of a group were accepted before a place of the history."""
    return sum(event.word == FILING and event.group == group for event in events if event.place < place)


def told(place: int, step: Step) -> str:
    """A step in words."""
    return f"{place}: {step.call} -> {step.answer}"


# Equal searches


class SearchPair(NamedTuple):
    """Two searches for one key, the events between them, and which sort of these touched the end of the first one."""

    first: Searched
    second: Searched
    between: List[Event]
    touched_by: str


def named_group(events: List[Event], place: int, found: Searched) -> Optional[int]:
    """The group that the entry found by a search names, or None where it found no entry."""
    if found.verdict in (ABSENT, EXHAUSTED):
        return None
    standing = standing_at(events, place, found.cell)
    return None if standing is None else standing.group


def touched_by(found: Searched, group: Optional[int], between: List[Event]) -> str:
    """What was accepted at the cell where a search ended, or of the group named there, or nothing."""
    for event in between:
        if event.word == RETIREMENT and event.group == group:
            return event.word
        if event.word != RETIREMENT and event.cell == found.cell:
            return event.word
    return ""


def unequal_searches(session: Session, events: List[Event], cover: "Cover") -> str:
    """Where two searches for one key are equal although touched, or unequal although not."""
    for searches in session.searches().values():
        for number, (first, one) in enumerate(searches):
            group = named_group(events, first, one)
            for second, other in searches[number + 1 :]:
                between = [event for event in events if first < event.place < second]
                pair = SearchPair(one, other, between, touched_by(one, group, between))
                if (one == other) != (pair.touched_by == ""):
                    equal = "equal" if one == other else "unequal"
                    return f"at {first} and {second} {equal}, touched by {pair.touched_by or 'nothing'}"
                cover.add_search_pair(pair)
    return ""


# What follows


def lost_filing(session: Session, events: List[Event], cover: "Cover") -> str:
    """Where a filed drawing is not found as it was filed, before its group is retired, or not RETIRED there after."""
    wanted: Dict[bytes, Searched] = {}
    groups: Dict[bytes, int] = {}
    for place, step in enumerate(session.steps):
        call, answer = step.call, step.answer
        if isinstance(call, File) and isinstance(answer, Filed):
            wanted[call.key] = Searched(FOUND, answer.cell, answer.probes, locator=call.locator)
            groups[call.key] = call.group
        elif isinstance(call, Retire) and isinstance(answer, Retired):
            for key in [key for key in wanted if groups[key] == call.group]:
                wanted[key] = wanted[key]._replace(verdict=RETIRED, locator=None)
        elif isinstance(call, Find) and call.key in wanted:
            if answer != wanted[call.key]:
                return f"{told(place, step)}, not {wanted[call.key]}"
            cover.follows[f"filed is {wanted[call.key].verdict}"] += 1
    return ""


def lost_find(session: Session, events: List[Event], cover: "Cover") -> str:
    """Where what a search found is not found again, before the group that the entry names is retired."""
    found: Dict[bytes, Searched] = {}
    groups: Dict[bytes, Optional[int]] = {}
    for place, step in enumerate(session.steps):
        call, answer = step.call, step.answer
        if isinstance(call, Retire) and isinstance(answer, Retired):
            found = {key: search for key, search in found.items() if groups[key] != call.group}
        elif isinstance(call, Find) and isinstance(answer, Searched):
            if call.key in found and answer != found[call.key]:
                return f"{told(place, step)}, not {found[call.key]}"
            cover.follows["found again"] += call.key in found
            if answer.verdict == FOUND:
                found[call.key] = answer
                groups[call.key] = named_group(events, place, answer)
    return ""


def too_many(session: Session, events: List[Event], cover: "Cover") -> str:
    """Where the count, or the pairs of a group, pass the number of written cells below the total."""
    total = session.settings.total()
    for place, step in enumerate(session.steps):
        written = sum(content is not None for content in step.state.cells[:total])
        most_pairs = max(len(pairs or ()) for pairs in step.state.groups)
        if step.state.count > written or most_pairs > written:
            return f"{told(place, step)}: count {step.state.count}, {most_pairs} pairs, {written} cells"
        cover.follows["count at the written cells"] += step.state.count == written
        cover.follows["count below the written cells"] += step.state.count < written
    return ""


# What a call changes


def changing_refusal(session: Session, events: List[Event], cover: "Cover") -> str:
    """Where a refusal, or a search, changed a cell, a group, the count or a byte of a memory."""
    state, memories = session.state_before, session.bytes_before
    for place, (step, bytes_after) in enumerate(zip(session.steps, session.bytes_after)):
        if isinstance(step.answer, (Refused, Searched)) and (step.state, bytes_after) != (state, memories):
            return told(place, step)
        state, memories = step.state, bytes_after
    return ""


def replaced(row: tuple, place: int, value: object) -> tuple:
    """A row with another value at a place."""
    return row[:place] + (value,) + row[place + 1 :]


def state_after(kind: bytes, state: State, step: Step) -> State:
    """The state that a step has to leave, by its answer and the state before it."""
    call, answer = step.call, step.answer
    if isinstance(call, File) and isinstance(answer, Filed):
        numbers = call.group.to_bytes(2, "big") + answer.slot.to_bytes(4, "big") + answer.number.to_bytes(4, "big")
        pairs = (state.groups[call.group] or ()) + ((answer.cell, call.locator),)
        return State(
            replaced(state.cells, answer.cell, ENTRY_BEGINS[kind] + call.key + numbers),
            replaced(state.groups, call.group, pairs),
            state.count + 1,
        )
    if isinstance(call, Retire) and isinstance(answer, Retired):
        return state._replace(groups=replaced(state.groups, call.group, None))
    if isinstance(call, Write) and isinstance(answer, Written):
        return state._replace(cells=replaced(state.cells, call.cell, call.content))
    return state


def spare_bytes(memories: Tuple[bytes, ...]) -> List[bytes]:
    """The bytes behind what is needed of each memory."""
    return [memory[-stores.SPARE_BYTES :] for memory in memories]


def wrong_change(session: Session, events: List[Event], cover: "Cover") -> str:
    """Where a call changed something else than its answer says, or a byte that nobody needs."""
    state = session.state_before
    for place, (step, bytes_after) in enumerate(zip(session.steps, session.bytes_after)):
        if step.state != state_after(session.settings.kind, state, step):
            return told(place, step)
        if spare_bytes(bytes_after) != spare_bytes(session.bytes_before):
            return f"{told(place, step)} touched a spare byte"
        state = step.state
    return ""


def wrong_entry(session: Session, events: List[Event], cover: "Cover") -> str:
    """Where bytes of an outside write, taken or not, are wrongly read as an entry or as none, or written otherwise."""
    kind = session.settings.kind
    for place, step in enumerate(session.steps):
        if isinstance(step.call, Write):
            content = step.call.content
            entry = archive.read_entry(kind, content)
            if (None if entry is None else entry.key) != entry_key(kind, content):
                return told(place, step)
            if entry is not None and archive.entry_bytes(kind, entry) != content:
                return told(place, step)
            cover.entries[entry is not None] += 1
    return ""


# What a call is answered after what was accepted before


class Story:
    """What a history came to so far: what was written at which cells, how many drawings were filed in which groups, and
    which groups are retired."""

    def __init__(self) -> None:
        self.standing: Dict[int, Event] = {}
        self.filed: Counter = Counter()
        self.retired: Set[int] = set()

    def add(self, event: Event) -> None:
        """Add what was accepted next."""
        if event.cell is not None:
            self.standing[event.cell] = event
        if event.word == FILING:
            self.filed[event.group] += 1
        if event.word == RETIREMENT:
            self.retired.add(event.group)

    def walk(self, path: List[int], key: bytes) -> Tuple[Optional[int], int]:
        """The first cell of a path that is blank or holds an entry of this key, or None, and the number of probes."""
        for place, cell in enumerate(path):
            if cell not in self.standing or self.standing[cell].key == key:
                return cell, place + 1
        return None, len(path)

    def is_full(self, makes: Makes, group: int) -> bool:
        """Whether a live group takes no pair."""
        used = self.filed[group] if makes.keep == b"blocks" else sum(self.filed.values())
        return used == makes.places


def wanted_of_group(settings: Settings, story: Story, group: int) -> Optional[Refused]:
    """The refusal of a group that is not there or retired, or None where it is live."""
    if group >= settings.groups:
        return Refused(GROUP, group)
    return Refused(GONE, group) if group in story.retired else None


def wanted_search(settings: Settings, story: Story, key: bytes) -> Answer:
    """The answer to a search; the entry of an outside write names no slot that was put for its cell."""
    if not is_key(settings.kind, key):
        return Refused(KEY)
    cell, probes = story.walk(paths.path(settings.path_rule, key), key)
    if cell is None:
        return Searched(EXHAUSTED, None, probes)
    if cell not in story.standing:
        return Searched(ABSENT, cell, probes)
    event = story.standing[cell]
    refused = wanted_of_group(settings, story, event.group)
    if refused is None and event.word == FILING:
        return Searched(FOUND, cell, probes, locator=event.locator)
    if refused == Refused(GONE, event.group):
        return Searched(RETIRED, cell, probes)
    return Searched(FOREIGN, cell, probes, refusal=refused or Refused(STRANGER, cell))


def wanted_filings(session: Session, story: Story, call: File) -> List[Answer]:
    """The answers to a filing: one, or two where there is a reel, of which only its store knows whether it is full."""
    settings = session.settings
    if not is_key(settings.kind, call.key):
        return [Refused(KEY)]
    refused = wanted_of_group(settings, story, call.group)
    if refused is not None:
        return [refused]
    cell, probes = story.walk(paths.path(settings.path_rule, call.key), call.key)
    if cell is None:
        return [Refused(FULL_PATH)]
    if cell in story.standing:
        return [Refused(TWICE, cell)]
    if cell >= session.store.size():
        return [Refused(NO_CELL, cell)]
    maybe: List[Answer] = [Refused(NO_CELL, cell)] if has_reel(session) else []
    if story.is_full(session.makes, call.group):
        return maybe + [Refused(NO_SLOT, call.group)]
    return maybe + [Filed(cell, probes, story.filed[call.group], sum(story.filed.values()) + 1)]


def wanted_writes(session: Session, story: Story, call: Write) -> List[Answer]:
    """The answers to an outside write: one, or two where there is a reel."""
    if len(call.content) != 24:
        return [Refused(LENGTH)]
    if call.cell >= session.store.size():
        return [Refused(BEYOND, call.cell)]
    if call.cell in story.standing or call.cell in session.past:
        return [Refused(WRITTEN, call.cell)]
    return [Written(call.cell)] + ([Refused(NO_CELL, call.cell)] if has_reel(session) else [])


def has_reel(session: Session) -> bool:
    """Whether there is a reel in the pile."""
    return session.makes.word not in (b"plate", b"window")


def wanted_answers(session: Session, story: Story, call: Call) -> List[Answer]:
    """The answers to a call that the rules allow."""
    if isinstance(call, File):
        return wanted_filings(session, story, call)
    if isinstance(call, Find):
        return [wanted_search(session.settings, story, call.key)]
    if isinstance(call, Write):
        return wanted_writes(session, story, call)
    return [wanted_of_group(session.settings, story, call.group) or Retired(story.filed[call.group])]


def wrong_answer(session: Session, events: List[Event], cover: "Cover") -> str:
    """Where an answer is another than the rules say after what was accepted before."""
    changes = {event.place: event for event in events}
    story = Story()
    for place, step in enumerate(session.steps):
        wanted = wanted_answers(session, story, step.call)
        if step.answer not in wanted:
            return f"{told(place, step)}, not {' or '.join(map(str, wanted))}"
        if place in changes:
            story.add(changes[place])
    return ""


Clause = Callable[[Session, List[Event], "Cover"], str]

CLAUSES: List[Tuple[str, Clause]] = [
    ("equal searches", unequal_searches),
    ("what follows, filed is found", lost_filing),
    ("what follows, found stays found", lost_find),
    ("what follows, count and pairs", too_many),
    ("a refusal changes nothing", changing_refusal),
    ("a call changes what it says", wrong_change),
    ("the entry both ways", wrong_entry),
    ("an answer follows from what was accepted", wrong_answer),
]


# Equal archives


class Account(NamedTuple):
    """The three things in which two histories agree or not."""

    filings: Tuple[Tuple[bytes, int], ...]
    retired: FrozenSet[int]
    locators: Tuple[int, ...]


REASONS = Account._fields


def account_of(session: Session) -> Account:
    """The accepted filings by key and group, the retired groups, and the locators filed in groups that are not."""
    filings = session.filings()
    retired = frozenset(session.retirements())
    locators = tuple(filing.locator for filing in filings if filing.group not in retired)
    return Account(tuple((filing.key, filing.group) for filing in filings), retired, locators)


def reasons_between(one: Account, other: Account) -> List[str]:
    """The things in which two histories do not agree."""
    return [reason for reason in REASONS if getattr(one, reason) != getattr(other, reason)]


class View(NamedTuple):
    """What is compared of two archives: every cell below the total, and answers of get."""

    cells: List[Optional[bytes]]
    answers: List[object]


Asked = List[Tuple[int, int, int]]


def asked_of(settings: Settings, sessions: List[Session]) -> Asked:
    """The groups, slots and cells to ask get for: all groups and some that are not there, for each the slots that occur
    in any of the histories and some past the last, with all cells that occur and some others."""
    most: Counter = Counter()
    cells = {0, settings.total() - 1, settings.total(), MOST_32_BITS}
    for session in sessions:
        most |= Counter(filing.group for filing in session.filings())
        cells.update(step.answer.cell for step in session.steps if isinstance(step.answer, Filed))
    asked = [(group, 0, 0) for group in (settings.groups, MOST_16_BITS)]
    for group in range(settings.groups):
        slots = list(range(most[group] + 2)) + [MOST_32_BITS]
        asked += [(group, slot, cell) for slot in slots for cell in sorted(cells)]
    return asked


def cell_content(store: stores.Store, cell: int) -> Optional[bytes]:
    """What the store says that a cell holds; outside it counts as blank."""
    buffer = bytearray(CONTENT_BYTES)
    return bytes(buffer) if cell < store.size() and store.read(cell, buffer) else None


def get_answer(keep: keeps.Keep, group: int, slot: int, cell: int) -> object:
    """The answer of get: a locator or a refusal."""
    try:
        return keep.get(group, slot, cell)
    except Refusal as refusal:
        return Refused(refusal.number, refusal.detail)


def view_of(session: Session, asked: Asked) -> View:
    """What is there to see after a history."""
    cells = [cell_content(session.store, cell) for cell in range(session.settings.total())]
    return View(cells, [get_answer(session.archive.keep, *numbers) for numbers in asked])


def different_bytes(one: bytes, other: bytes) -> List[int]:
    """The places in which two rows of bytes, equally long, differ."""
    return [place for place, (first, second) in enumerate(zip(one, other)) if first != second]


class Member(NamedTuple):
    """A history of a family, and what it is compared by."""

    session: Session
    account: Account
    view: View


def same_keeps(one: Session, other: Session) -> bool:
    """Whether two keeps are of one make with equal numbers; their groups are equal by the settings."""
    return (one.makes.keep, one.makes.places) == (other.makes.keep, other.makes.places)


def keep_bytes(session: Session) -> bytes:
    """The bytes of a keep's memory, with the few behind it."""
    return bytes(session.archive.keep.memory)


def broken_by_pair(one: Member, other: Member, cover: "Cover") -> Tuple[str, str]:
    """The clause that two histories break, and how, or nothing."""
    reasons = reasons_between(one.account, other.account)
    if (one.view == other.view) == bool(reasons):
        cells = "equal" if one.view.cells == other.view.cells else "unequal"
        answers = "equal" if one.view.answers == other.view.answers else "unequal"
        how = f"cells {cells}, answers of get {answers}; the histories differ in: {', '.join(reasons) or 'nothing'}"
        return "equal archives", how
    compared = not reasons and same_keeps(one.session, other.session)
    different = different_bytes(keep_bytes(one.session), keep_bytes(other.session)) if compared else []
    if different:
        return "equal keeps", f"bytes {different} differ"
    cover.add_archive_pair(one.session, other.session, reasons, compared)
    return "", ""


# What was covered

REFUSAL_NAMES = {GROUP: "GROUP", STRANGER: "STRANGER"}
FOREIGN_GROUP = f"{FOREIGN} GROUP"
FOREIGN_STRANGER = f"{FOREIGN} STRANGER"
VERDICTS = (ABSENT, EXHAUSTED, FOUND, RETIRED, FOREIGN_GROUP, FOREIGN_STRANGER)

# By the law nothing can touch the end of a first search that says EXHAUSTED, RETIRED or FOREIGN GROUP.
UNEQUAL_SEARCHES = [(ABSENT, verdict, word) for verdict in VERDICTS for word in (FILING, WRITE)]
UNEQUAL_SEARCHES += [(FOUND, RETIRED, RETIREMENT), (FOREIGN_STRANGER, RETIRED, RETIREMENT)]

ACCEPTED = ("Filed", "Searched", "Retired", "Written")
CALL_REFUSALS = [("File", number) for number in (KEY, GROUP, GONE, TWICE, FULL_PATH, NO_CELL, NO_SLOT)]
CALL_REFUSALS += [("Find", KEY), ("Retire", GROUP), ("Retire", GONE)]
CALL_REFUSALS += [("Write", number) for number in (LENGTH, BEYOND, WRITTEN, NO_CELL)]

FILED_FOUND = f"filed is {FOUND}"
FILED_RETIRED = f"filed is {RETIRED}"
FOLLOWS = (FILED_FOUND, FILED_RETIRED, "found again", "count at the written cells", "count below the written cells")

FULL_THINGS = ("store", "reel", "blocks", "ledger")
EXTRAS = ("refused calls", "searches", "order of retirements", "locators in retired groups", "cells past the total")

Combination = Tuple[bytes, bytes]


def verdict_name(found: Searched) -> str:
    """The verdict of a search, with the name of the refusal inside FOREIGN."""
    return found.verdict if found.refusal is None else f"{found.verdict} {REFUSAL_NAMES[found.refusal.number]}"


def combination(one: bytes, other: bytes) -> Combination:
    """Two makes in the order of the alphabet."""
    return min(one, other), max(one, other)


def all_combinations(makes: Tuple[bytes, ...]) -> List[Combination]:
    """Every two makes, and each with itself."""
    return sorted({combination(one, other) for one in makes for other in makes})


def shown(pair: Combination) -> str:
    """Two makes, or a rule and a kind, in words."""
    return f"{pair[0].decode()} and {pair[1].decode()}"


def full_things(session: Session) -> FrozenSet[str]:
    """What turned filings of a history down because it was too short or full."""
    things = set()
    for call, refused in session.refusals():
        if isinstance(call, File) and refused.number == NO_CELL and refused.detail is not None:
            things.add("store" if refused.detail >= session.store.size() else "reel")
        if isinstance(call, File) and refused.number == NO_SLOT:
            things.add(session.makes.keep.decode())
    return frozenset(things)


def retired_locators(session: Session) -> List[int]:
    """The locators filed in groups that are retired, in order."""
    retired = session.retirements()
    return [filing.locator for filing in session.filings() if filing.group in retired]


def extras_of(session: Session) -> List[object]:
    """What may differ in histories that agree, in the order of the names."""
    searches = sum(isinstance(step.answer, Searched) for step in session.steps)
    return [len(session.refusals()), searches, session.retirements(), retired_locators(session), session.past]


class Cover:
    """Counts of what the checked histories held."""

    def __init__(self) -> None:
        self.histories = 0
        self.settings: Counter = Counter()
        self.makes: Counter = Counter()
        self.answers: Counter = Counter()
        self.refusals: Counter = Counter()
        self.equal_searches: Counter = Counter()
        self.unequal_searches: Counter = Counter()
        self.untouched: Counter = Counter()
        self.entries: Counter = Counter()
        self.forged: Counter = Counter()
        self.given_between = 0
        self.follows: Counter = Counter()
        self.verdicts: Counter = Counter()
        self.reasons: Counter = Counter()
        self.alone: Counter = Counter()
        self.by_makes: Counter = Counter()
        self.by_stores: Counter = Counter()
        self.by_keeps: Counter = Counter()
        self.full: Counter = Counter()
        self.extras: Counter = Counter()
        self.equal_bytes: Counter = Counter()
        self.changes: Counter = Counter()

    def add_history(self, session: Session, events: List[Event]) -> None:
        """Count the settings, the makes, the answers and the searches at forged entries of a history."""
        self.histories += 1
        rule = session.settings.path_rule
        self.settings[rule.rule, session.settings.kind, min(rule.tries, 2)] += 1
        self.makes[session.makes.word, session.makes.keep] += 1
        for step in session.steps:
            if isinstance(step.answer, Refused):
                self.refusals[type(step.call).__name__, step.answer.number] += 1
            else:
                self.answers[type(step.answer).__name__] += 1
        for searches in session.searches().values():
            self.add_forged(events, [search for search in searches if verdict_name(search[1]) == FOREIGN_STRANGER])

    def add_forged(self, events: List[Event], searches: List[Tuple[int, Searched]]) -> None:
        """Count the searches that ended at one forged entry with a live group: whether its slot had been given out, and
        whether it was given out between the first and the last of them."""
        given = []
        for place, found in searches:
            standing = standing_at(events, place, found.cell)
            given.append(standing is not None and standing.slot < filed_before(events, place, standing.group))
        self.forged.update(given)
        self.given_between += given[:1] == [False] and given[-1:] == [True]

    def add_search_pair(self, pair: SearchPair) -> None:
        """Count two searches for one key."""
        name = verdict_name(pair.first)
        if pair.touched_by:
            self.unequal_searches[name, verdict_name(pair.second), pair.touched_by] += 1
            return
        self.equal_searches[name] += 1
        for word in {event.word for event in pair.between}:
            self.untouched[name, word] += 1

    def add_archive_pair(self, one: Session, other: Session, reasons: List[str], compared: bool) -> None:
        """Count two archives of a family, in what their histories differ, and whether bytes of keeps were compared."""
        verdict = DIFFER if reasons else AGREE
        store_pair = combination(one.makes.word, other.makes.word)
        keep_pair = combination(one.makes.keep, other.makes.keep)
        self.verdicts[verdict] += 1
        self.by_makes[store_pair, keep_pair, verdict] += 1
        for reason in reasons or [AGREE]:
            self.reasons[reason] += 1
            self.by_stores[store_pair, reason] += 1
            self.by_keeps[keep_pair, reason] += 1
        if len(reasons) == 1:
            self.alone[keep_pair, reasons[0]] += 1
        for thing in full_things(one) ^ full_things(other):
            self.full[thing, verdict] += 1
        if not reasons:
            pairs = zip(EXTRAS, extras_of(one), extras_of(other))
            self.extras.update(name for name, first, second in pairs if first != second)
        if compared:
            self.equal_bytes[one.makes.keep] += 1

    def wanted_histories(self) -> List[Tuple[str, int]]:
        """What single histories have to hold, each with how often it was met."""
        wanted = []
        for rule in paths.RULES:
            for kind in paths.KINDS:
                names = [(1, "t of 1"), (2, "t above 1")]
                both = shown((rule, kind))
                wanted += [(f"{both}, {name}", self.settings[rule, kind, tries]) for tries, name in names]
        for word in PILE_WORDS:
            wanted += [(shown((word, make)), self.makes[word, make]) for make in KEEP_MAKES]
        wanted += [(name, self.answers[name]) for name in ACCEPTED]
        wanted += [(f"refusal {number} of {name}", self.refusals[name, number]) for name, number in CALL_REFUSALS]
        wanted += [("bytes that are an entry", self.entries[True]), ("bytes that are none", self.entries[False])]
        wanted.append(("a forged entry with a slot not given out", self.forged[False]))
        wanted.append(("a forged entry with a slot of another cell", self.forged[True]))
        wanted.append(("a forged entry whose slot is given out between searches", self.given_between))
        wanted += [(f"what follows, {name}", self.follows[name]) for name in FOLLOWS]
        return wanted

    def wanted_searches(self) -> List[Tuple[str, int]]:
        """What pairs of searches have to hold, each with how often it was met."""
        wanted = []
        for verdict in VERDICTS:
            wanted.append((f"equal searches, {verdict}", self.equal_searches[verdict]))
            wanted += [(f"{verdict} untouched by a {word}", self.untouched[verdict, word]) for word in EVENTS]
        for first, second, word in UNEQUAL_SEARCHES:
            wanted.append((f"{first} then {second} by a {word}", self.unequal_searches[first, second, word]))
        return wanted

    def wanted_archives(self) -> List[Tuple[str, int]]:
        """What pairs of histories have to hold, each with how often it was met."""
        wanted = []
        for keep_pair in all_combinations(KEEP_MAKES):
            name = shown(keep_pair)
            wanted += [(f"{name}, {reason} alone", self.alone[keep_pair, reason]) for reason in REASONS]
            wanted += [(f"{name}, {reason}", self.by_keeps[keep_pair, reason]) for reason in (AGREE,) + REASONS]
            for pair in all_combinations(PILE_WORDS):
                for verdict in (AGREE, DIFFER):
                    wanted.append((f"{name} on {shown(pair)}, {verdict}", self.by_makes[pair, keep_pair, verdict]))
        for pair in all_combinations(PILE_WORDS):
            wanted += [(f"{shown(pair)}, {reason}", self.by_stores[pair, reason]) for reason in (AGREE,) + REASONS]
        for thing in FULL_THINGS:
            wanted += [(f"{verdict}, one {thing} full", self.full[thing, verdict]) for verdict in (AGREE, DIFFER)]
        wanted += [(f"histories that agree but for {name}", self.extras[name]) for name in EXTRAS]
        wanted += [(f"equal bytes of {make.decode()}", self.equal_bytes[make]) for make in KEEP_MAKES]
        for name, verdict in CHANGE_VERDICTS.items():
            wanted.append((f"histories that {verdict} with {name}", self.changes[name, verdict]))
        return wanted

    def wanted(self) -> List[Tuple[str, int]]:
        """What has to be met, each with how often it was met."""
        return self.wanted_histories() + self.wanted_searches() + self.wanted_archives()

    def missing_cover(self) -> List[str]:
        """What the histories have to hold and did not."""
        return [name for name, count in self.wanted() if count == 0]

    def summary(self) -> str:
        """The counts in one line."""
        calls = sum(self.answers.values()) + sum(self.refusals.values())
        firsts: Counter = Counter()
        touches: Counter = Counter()
        for (verdict, _, word), count in self.unequal_searches.items():
            firsts[verdict] += count
            touches[word] += count
        numbers: Counter = Counter()
        for (_, number), count in self.refusals.items():
            numbers[number] += count
        return (
            f"the law held: {self.histories} histories, {calls} calls; equal searches "
            f"{counted(self.equal_searches, VERDICTS)}; unequal {counted(firsts, (ABSENT, FOUND, FOREIGN_STRANGER))}, "
            f"touched by {counted(touches, EVENTS)}; archives {counted(self.verdicts, (AGREE, DIFFER))}, in "
            f"{counted(self.reasons, REASONS)}; equal bytes {counted(self.equal_bytes, KEEP_MAKES)}; "
            f"{counted(self.follows, FOLLOWS[:3])}; refusals {counted(numbers, tuple(sorted(numbers)))}"
        )


def counted(counts: Counter, names: tuple) -> str:
    """The counts of these names."""
    return " ".join(f"{name.decode() if isinstance(name, bytes) else name}:{counts[name]}" for name in names)


# Runs


class Broken(NamedTuple):
    """A clause that was broken, how, and the histories that break it."""

    clause: str
    how: str
    sessions: List[Session]


def broken_by_one(session: Session, cover: Cover) -> List[Broken]:
    """The clauses that one history breaks."""
    events = events_of(session)
    broken = []
    for name, clause in CLAUSES:
        how = clause(session, events, cover)
        if how:
            broken.append(Broken(name, how, [session]))
    if not broken:
        cover.add_history(session, events)
    return broken


def broken_by_family(family: Family, cover: Cover) -> List[Broken]:
    """The clauses that the histories of a family break, each by itself and every two of them."""
    broken = []
    for session in family.sessions:
        if any(isinstance(step.answer, Written) for step in session.steps):
            return [Broken("an outside write that has to be refused was accepted", "", [session])]
        broken += broken_by_one(session, cover)
    asked = asked_of(family.sessions[0].settings, family.sessions)
    members = [Member(session, account_of(session), view_of(session, asked)) for session in family.sessions]
    for one, other in combinations(members, 2):
        name, how = broken_by_pair(one, other, cover)
        if name:
            broken.append(Broken(name, how, [one.session, other.session]))
    cover.changes[family.change, DIFFER if reasons_between(members[2].account, members[3].account) else AGREE] += 1
    return broken


def broken_in_run(seed: int, number: int, cover: Cover) -> List[Broken]:
    """The clauses that the histories of one run break."""
    rng = random.Random(f"{seed}/{number}")
    return broken_by_one(searched_history(rng), cover) + broken_by_family(some_family(rng), cover)


def report(seed: int, number: int, broken: List[Broken]) -> None:
    """Print what a run broke, and each of the histories that did."""
    print(f"the law does not hold: seed {seed}, run {number}")
    sessions: List[Session] = []
    for clause, how, breakers in broken:
        sessions += [session for session in breakers if session not in sessions]
        names = " and ".join(str(sessions.index(session) + 1) for session in breakers)
        print(f"broken by history {names}: {clause} ({how})")
    for place, session in enumerate(sessions, start=1):
        print(f"history {place}: {session.settings}, {session.makes}, written past the total before: {session.past}")
        for line, step in enumerate(session.steps):
            print(f"    {told(line, step)}")


def check_all() -> int:
    """Check all runs that the command line asks for, and give the status."""
    parser = argparse.ArgumentParser(description="Check the law of histories on random histories.")
    parser.add_argument("--runs", type=int, default=DEFAULT_RUNS, metavar="N")
    parser.add_argument("--seed", type=int, default=1, metavar="K")
    options = parser.parse_args()
    failed = archive.failed_examples()
    if failed:
        print(f"the archive fails examples of the rules: {', '.join(failed)}")
        return 1
    cover = Cover()
    for number in range(options.runs):
        broken = broken_in_run(options.seed, number, cover)
        if broken:
            report(options.seed, number, broken)
            return 1
    print(cover.summary())
    missing = cover.missing_cover()
    if missing:
        print(f"the histories did not cover: {', '.join(missing)}")
        return 1
    return 0


if __name__ == "__main__":
    sys.exit(check_all())
