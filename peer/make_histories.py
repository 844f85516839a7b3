"""Make the random histories on which histories.py checks the law of histories of docs/RULES.md.

A searched history has outside writes of every sort, forged entries among them, and searches for the same few keys at
many points. A family is four histories with equal settings and no outside write, which often agree and often nearly
agree. Settings are small, so that paths collide and fill up, and stores and keeps are of every make, often too short or
soon full. What is made depends on the random numbers and on what the archive answers; nothing is checked here.
"""

import random
import sys
from typing import Callable, Dict, List, NamedTuple, Optional, Tuple

sys.dont_write_bytecode = True  # leave no __pycache__ beside the sources

import archive  # noqa: E402
import keeps  # noqa: E402
import paths  # noqa: E402
import stores  # noqa: E402
from archive import (  # noqa: E402
    Call,
    Entry,
    File,
    Filed,
    Find,
    Makes,
    Refused,
    Retire,
    Retired,
    Searched,
    Settings,
    State,
    Step,
    Write,
    Written,
)
from stores import CONTENT_BYTES  # noqa: E402

HIGHEST_SHEET = 2147483646
MOST_16_BITS = 2**16 - 1
MOST_32_BITS = 2**32 - 1
MOST_64_BITS = 2**64 - 1

PILE_WORDS = tuple(stores.PILES)
KEEP_MAKES = tuple(keeps.MAKES)
PAST_CONTENT = b"\xee" * CONTENT_BYTES

AGREE = "agree"
DIFFER = "differ"


# A history as it is made


class Session:
    """A history on a blank archive; `past` are cells past the total, written before it as far as they can be."""

    def __init__(self, settings: Settings, makes: Makes, past: List[int]) -> None:
        self.settings = settings
        self.makes = makes
        self.archive, self.memories = archive.blank_archive(settings, makes)
        self.store = self.archive.store
        self.past = [cell for cell in past if isinstance(self.archive.take(Write(cell, PAST_CONTENT)), Written)]
        self.state_before = self.archive.state()
        self.bytes_before = self.all_bytes()
        self.steps: List[Step] = []
        self.bytes_after: List[Tuple[bytes, ...]] = []

    def all_bytes(self) -> Tuple[bytes, ...]:
        """The bytes of every memory as they are now."""
        return tuple(bytes(memory) for memory in self.memories)

    def take(self, call: Call) -> None:
        """Take a call, and note its answer and what is there after it."""
        self.steps.append(archive.step(self.archive, call))
        self.bytes_after.append(self.all_bytes())

    def state(self) -> State:
        """The state after the last call."""
        return self.steps[-1].state if self.steps else self.state_before

    def filings(self) -> List[File]:
        """The filings that were accepted, in order."""
        return [step.call for step in self.steps if isinstance(step.call, File) and isinstance(step.answer, Filed)]

    def retirements(self) -> List[int]:
        """The groups whose retirement was accepted, in order."""
        steps = [(step.call, step.answer) for step in self.steps]
        return [call.group for call, answer in steps if isinstance(call, Retire) and isinstance(answer, Retired)]

    def refusals(self) -> List[Tuple[Call, Refused]]:
        """The calls that were turned down, and their answers."""
        return [(step.call, step.answer) for step in self.steps if isinstance(step.answer, Refused)]

    def searches(self) -> Dict[bytes, List[Tuple[int, Searched]]]:
        """For each key the places of its searches in the history, and their answers."""
        searches: Dict[bytes, List[Tuple[int, Searched]]] = {}
        for place, step in enumerate(self.steps):
            if isinstance(step.call, Find) and isinstance(step.answer, Searched):
                searches.setdefault(step.call.key, []).append((place, step.answer))
        return searches


# Settings and makes of a run


class Topic(NamedTuple):
    """What the calls of a run talk about: settings, a few keys and their paths."""

    settings: Settings
    keys: List[bytes]
    paths: Dict[bytes, List[int]]


EDGE_SHEETS = [255, 256, 65536, 2**24, 2**24 + 1, 2147483645, 2147483646]
LIKE_CODES = [b"ABCDEFGH", b"ABCDEFGHI", b"ABCDEFGHJ", b"ABCDEFGHIJKL", b"ABCDEFGHIJKM", b"BBCDEFGHIJKL"]
SHORT_CODES = [b"A", b"B", b"AB", b"BA", b"A-", b"-", b"0", b"00", b"Z9", b"ZZZZZZZZZZZZ", b"999999999999"]

STRANGE_KEYS: Dict[bytes, List[bytes]] = {
    b"num": [
        bytes(8) + b"\x7f\xff\xff\xff", bytes(8) + b"\xff\xff\xff\xff", b"\x01" + bytes(11),
        bytes(7) + b"\x01" + bytes(4), b"", bytes(11), bytes(13), bytes(4), b"A" + bytes(11),
    ],
    b"code": [
        bytes(12), b"", b"a" + bytes(11), b"A\0B" + bytes(9), b"A" * 11, b"A" * 13, b"A", b"A" + bytes(12),
        b"\0A" + bytes(10), b"A B" + bytes(9), bytes(11) + b"\x05", b"A" * 11 + b"\xff", b"A\n" + bytes(10),
    ],
}  # fmt: skip

ROOMY_PLACES = {b"blocks": 14, b"ledger": 20}


def some_coefficient(rng: random.Random, low: int) -> int:
    """A coefficient from so much on."""
    return rng.choice([low, low + 1, rng.randint(low, 9), rng.randint(low, paths.P - 1), paths.P - 1])


def some_rule(rng: random.Random) -> paths.PathRule:
    """A rule with a small tree, so that paths collide and fill up."""
    rule = rng.choice(paths.RULES)
    if rule == b"trie":
        m = k = rng.choice([2, 2, 4])
        levels = rng.randint(1, 4 if m == 2 else 2)
    else:
        m, k, levels = rng.choice([1, 1, 2, 2, 3, 4]), rng.choice([2, 2, 3]), rng.choice([1, 2, 2, 3, 3])
    tries = rng.randint(1, m) if rng.random() < 0.6 else 1
    pairs = [(some_coefficient(rng, 1), some_coefficient(rng, 0)) for _ in range(0 if rule == b"trie" else levels)]
    return paths.PathRule(rule, m, k, levels, tries, tuple(pairs))


def some_keys(rng: random.Random, kind: bytes, count: int) -> List[bytes]:
    """So many different keys: small numbers or the last ones, codes that begin or end alike, now and then any."""
    if kind == b"num":
        sheets = list(range(3 * count)) + EDGE_SHEETS + [rng.randint(100, 200), rng.randint(2**25, HIGHEST_SHEET - 2)]
        return [paths.sheet_bytes(number) for number in rng.sample(sheets, count)]
    any_codes = {bytes(rng.choices(paths.CODE_ALPHABET, k=rng.randint(3, 11))) for _ in range(3)}
    codes = LIKE_CODES + rng.choice([SHORT_CODES, SHORT_CODES, sorted(any_codes - set(LIKE_CODES))])
    return [paths.code_bytes(code) for code in rng.sample(codes, min(count, len(codes)))]


def some_topic(rng: random.Random, fewest: int, most: int) -> Topic:
    """Settings, and about so many keys."""
    settings = Settings(rng.choice(paths.KINDS), some_rule(rng), rng.randint(1, 4))
    keys = some_keys(rng, settings.kind, rng.randint(fewest, most))
    return Topic(settings, keys, {key: paths.path(settings.path_rule, key) for key in keys})


def some_size(rng: random.Random, total: int, cramped: bool) -> int:
    """A number of cells for a store under a tree of so many: sometimes more, and less only where it is cramped."""
    if cramped and rng.random() < 0.5:
        return rng.randint(max(1, total - 6), total)
    return total + rng.choice([0, 0, 1, 3])


def some_numbers(rng: random.Random, word: bytes, size: int, lines: int) -> Tuple[int, ...]:
    """The numbers of a pile whose topmost store has that size (a join at least 2 cells) and its reel so many lines."""
    first, extra = rng.randint(0, 2), rng.randint(1, 3)
    whole = first + size + extra
    part = rng.randint(1, whole - 1)
    if word == b"plate":
        return (size,)
    if word == b"reel":
        return size, lines
    if word == b"window":
        return whole, first, size
    if word == b"join":
        part = rng.randint(1, max(1, size - 1))
        return part, max(1, size - part), lines
    if word == b"shown":
        return part, whole - part, lines, first, size
    return part + extra, rng.randint(0, extra), part, whole - part, lines, first, size


def some_makes(rng: random.Random, settings: Settings, cramped: bool) -> Makes:
    """A store and a keep; where they are cramped, one or the other is often too short or soon full."""
    total = settings.total()
    word = rng.choice(PILE_WORDS)
    keep = rng.choice(KEEP_MAKES)
    lines = rng.randint(1, 5) if cramped and rng.random() < 0.6 else total + 4
    numbers = some_numbers(rng, word, some_size(rng, total, cramped), lines)
    places = ROOMY_PLACES[keep]
    if cramped and rng.random() < 0.5:
        places = rng.randint(1, 2) if keep == b"blocks" else rng.randint(1, 6)
    return Makes(word, numbers, keep, places)


def new_session(rng: random.Random, settings: Settings, makes: Makes) -> Session:
    """A history that begins, now and then with cells past the total that were written before."""
    past = [settings.total() + place for place in range(3)] if rng.random() < 0.2 else []
    return Session(settings, makes, rng.sample(past, min(len(past), rng.randint(1, 3))))


# Calls

EDGE_LOCATORS = [0, 1, 2**63, MOST_64_BITS]
FAR_GROUPS = [255, 256, 257, 32768, MOST_16_BITS]
FAR_CELLS = [2**20, 2**31, MOST_32_BITS]
WRONG_LENGTHS = [0, 1, 23, 25, 48]


def some_key(rng: random.Random, topic: Topic) -> bytes:
    """Mostly one of the few keys, else bytes that are not admissible."""
    return rng.choice(topic.keys if rng.random() < 0.94 else STRANGE_KEYS[topic.settings.kind])


def far_group(rng: random.Random, settings: Settings) -> int:
    """A group that is not there."""
    return rng.choice([settings.groups, settings.groups + 1] + FAR_GROUPS)


def some_group(rng: random.Random, settings: Settings) -> int:
    """Mostly a group that is there."""
    return rng.randrange(settings.groups) if rng.random() < 0.93 else far_group(rng, settings)


def some_locator(rng: random.Random) -> int:
    """Any locator."""
    return rng.choice(EDGE_LOCATORS + [rng.randrange(1000), rng.randrange(1000), rng.getrandbits(64)])


def far_cell(rng: random.Random, session: Session) -> int:
    """A cell outside the store."""
    return rng.choice([session.store.size(), session.store.size() + 1] + FAR_CELLS)


def some_cell(rng: random.Random, topic: Topic, session: Session) -> int:
    """A cell to write: mostly the first blank one of a key's path, or another of it, else any, or one past the end."""
    path = topic.paths[rng.choice(topic.keys)]
    pick = rng.random()
    if pick < 0.6:
        return next((cell for cell in path if not session.store.is_written(cell)), path[-1])
    if pick < 0.8:
        return rng.choice(path)
    return rng.randrange(session.store.size()) if pick < 0.94 else far_cell(rng, session)


def some_slot(rng: random.Random, session: Session, group: int) -> int:
    """A slot to forge: one that the group has given out, the one that it gives out next, or any."""
    given = sum(filing.group == group for filing in session.filings())
    if given and rng.random() < 0.5:
        return rng.randrange(given)
    return rng.choice([given, given, given, given + 1, rng.getrandbits(32), MOST_32_BITS])


def forged_entry(rng: random.Random, topic: Topic, session: Session, cell: int) -> bytes:
    """The bytes of an entry that nobody filed, mostly of a key that may stand in that cell."""
    settings = topic.settings
    fitting = [key for key in topic.keys if cell in topic.paths[key]]
    group = rng.randrange(settings.groups) if rng.random() < 0.7 else far_group(rng, settings)
    number = rng.choice([session.state().count, session.state().count + 1, rng.getrandbits(32)])
    entry = Entry(rng.choice(fitting or topic.keys), group, some_slot(rng, session, group), number)
    return archive.entry_bytes(settings.kind, entry)


def spoiled_entry(rng: random.Random, kind: bytes, content: bytes) -> bytes:
    """The bytes of an entry with another mark, another kind or a key that is not admissible."""
    pick = rng.randrange(3)
    if pick == 0:
        return bytes([rng.choice([0, 0x44, 0x46, 0x65, 0xFF])]) + content[1:]
    if pick == 1:
        return content[:1] + bytes([rng.choice([0, 3, 255, 3 - archive.KIND_NUMBERS[kind]])]) + content[2:]
    strange = [key for key in STRANGE_KEYS[kind] if len(key) == paths.KEY_BYTES]
    return content[:2] + rng.choice(strange) + content[14:]


def some_content(rng: random.Random, topic: Topic, session: Session, cell: int) -> bytes:
    """What to write at a cell: mostly a forged entry, else a spoiled one, any bytes, zeros, too few or too many."""
    entry = forged_entry(rng, topic, session, cell)
    pick = rng.random()
    if pick < 0.6:
        return entry
    if pick < 0.75:
        return spoiled_entry(rng, topic.settings.kind, entry)
    if pick < 0.88:
        return bytes(rng.randrange(256) for _ in range(CONTENT_BYTES))
    if pick < 0.93:
        return bytes(CONTENT_BYTES)
    return (entry + entry)[: rng.choice(WRONG_LENGTHS)]


def some_call(rng: random.Random, topic: Topic, session: Session) -> Call:
    """Any call."""
    pick = rng.random()
    if pick < 0.45:
        return File(some_key(rng, topic), some_group(rng, topic.settings), some_locator(rng))
    if pick < 0.85:
        cell = some_cell(rng, topic, session)
        return Write(cell, some_content(rng, topic, session, cell))
    if pick < 0.93:
        return Retire(some_group(rng, topic.settings))
    return Find(some_key(rng, topic))


def searched_history(rng: random.Random) -> Session:
    """A history with outside writes, and with searches for the same few keys at many points."""
    topic = some_topic(rng, 2, 5)
    session = new_session(rng, topic.settings, some_makes(rng, topic.settings, rng.random() < 0.4))
    chance = rng.choice([0.2, 0.4, 0.6])
    for _ in range(rng.randint(4, 20)):
        for key in topic.keys:
            if rng.random() < chance:
                session.take(Find(key))
        session.take(some_call(rng, topic, session))
    for key in topic.keys:
        session.take(Find(key))
    return session


# Families of histories without outside writes


class Plan(NamedTuple):
    """Filings in order, and groups to retire once all filings of them are done."""

    filings: List[File]
    retired: List[int]


Change = Callable[[random.Random, Topic, Plan], Optional[Plan]]


def some_filing(rng: random.Random, keys: List[bytes], groups: int) -> File:
    """A filing of one of these keys in one of the first so many groups."""
    return File(rng.choice(keys), rng.randrange(groups), some_locator(rng))


def first_calls(rng: random.Random, topic: Topic) -> List[Call]:
    """Filings, mostly of different keys, and retirements among them."""
    groups = rng.randint(1, topic.settings.groups)
    keys = rng.sample(topic.keys, rng.randint(1, len(topic.keys)))
    calls: List[Call] = [some_filing(rng, [key], groups) for key in keys]
    if rng.random() < 0.3:
        calls.append(some_filing(rng, topic.keys, groups))
    for group in range(topic.settings.groups):
        if rng.random() < 0.35:
            calls.insert(rng.randint(len(calls) // 2, len(calls)), Retire(group))
    return calls


def calls_of(rng: random.Random, plan: Plan) -> List[Call]:
    """The calls of a plan, with each retirement anywhere after the last filing of its group."""
    calls: List[Call] = list(plan.filings)
    for group in rng.sample(plan.retired, len(plan.retired)):
        filed = [place for place, call in enumerate(calls) if isinstance(call, File) and call.group == group]
        calls.insert(rng.randint(filed[-1] + 1 if filed else 0, len(calls)), Retire(group))
    return calls


def with_filing(plan: Plan, place: int, filing: File) -> Plan:
    """The plan with another filing at a place."""
    return plan._replace(filings=plan.filings[:place] + [filing] + plan.filings[place + 1 :])


def places_where(plan: Plan, retired: bool) -> List[int]:
    """The places of the filings in groups that are retired, or in those that are not."""
    return [place for place, filing in enumerate(plan.filings) if (filing.group in plan.retired) == retired]


def with_other_locator(rng: random.Random, plan: Plan, places: List[int]) -> Optional[Plan]:
    """The plan with a locator that differs in a bit at one of these places."""
    if not places:
        return None
    place = rng.choice(places)
    filing = plan.filings[place]
    return with_filing(plan, place, filing._replace(locator=filing.locator ^ 2 ** rng.randrange(64)))


def keys_left(topic: Topic, plan: Plan) -> List[bytes]:
    """The keys that a plan does not file."""
    filed = [filing.key for filing in plan.filings]
    return [key for key in topic.keys if key not in filed]


def groups_left(topic: Topic, groups: List[int]) -> List[int]:
    """The groups other than these."""
    return [group for group in range(topic.settings.groups) if group not in groups]


def change_nothing(rng: random.Random, topic: Topic, plan: Plan) -> Optional[Plan]:
    """The same plan."""
    return plan


def change_order(rng: random.Random, topic: Topic, plan: Plan) -> Optional[Plan]:
    """Two filings change places, often neighbours."""
    if len(plan.filings) < 2:
        return None
    one, other = sorted(rng.sample(range(len(plan.filings)), 2))
    if rng.random() < 0.5:
        other = one + 1
    return with_filing(with_filing(plan, one, plan.filings[other]), other, plan.filings[one])


def change_order_of_groups(rng: random.Random, topic: Topic, plan: Plan) -> Optional[Plan]:
    """Two neighbours in different groups change places, which often leaves their cells and slots as they were."""
    neighbours = list(zip(plan.filings, plan.filings[1:]))
    places = [place for place, (one, other) in enumerate(neighbours) if one.group != other.group]
    if not places:
        return None
    place = rng.choice(places)
    one, other = neighbours[place]
    return with_filing(with_filing(plan, place, other), place + 1, one)


def change_live_locator(rng: random.Random, topic: Topic, plan: Plan) -> Optional[Plan]:
    """One locator changes in a group that is not retired."""
    return with_other_locator(rng, plan, places_where(plan, retired=False))


def change_retired_locator(rng: random.Random, topic: Topic, plan: Plan) -> Optional[Plan]:
    """One locator changes in a group that is retired."""
    return with_other_locator(rng, plan, places_where(plan, retired=True))


def change_locator_order(rng: random.Random, topic: Topic, plan: Plan) -> Optional[Plan]:
    """Two different locators change places in groups that are not retired."""
    places = places_where(plan, retired=False)
    if len(places) < 2:
        return None
    one, other = rng.sample(places, 2)
    first, second = plan.filings[one], plan.filings[other]
    if first.locator == second.locator:
        return None
    half = with_filing(plan, one, first._replace(locator=second.locator))
    return with_filing(half, other, second._replace(locator=first.locator))


def change_retired_more(rng: random.Random, topic: Topic, plan: Plan) -> Optional[Plan]:
    """One more group is retired."""
    live = groups_left(topic, plan.retired)
    return plan._replace(retired=plan.retired + [rng.choice(live)]) if live else None


def change_retired_less(rng: random.Random, topic: Topic, plan: Plan) -> Optional[Plan]:
    """One group is not retired."""
    if not plan.retired:
        return None
    spared = rng.choice(plan.retired)
    return plan._replace(retired=[group for group in plan.retired if group != spared])


def change_retired_order(rng: random.Random, topic: Topic, plan: Plan) -> Optional[Plan]:
    """The groups are retired in any order, which `calls_of` makes."""
    return plan if len(plan.retired) > 1 else None


def change_filing_more(rng: random.Random, topic: Topic, plan: Plan) -> Optional[Plan]:
    """One more drawing is filed, last or anywhere."""
    keys = keys_left(topic, plan)
    if not keys:
        return None
    place = rng.choice([len(plan.filings), rng.randint(0, len(plan.filings))])
    filing = some_filing(rng, keys, topic.settings.groups)
    return plan._replace(filings=plan.filings[:place] + [filing] + plan.filings[place:])


def change_filing_less(rng: random.Random, topic: Topic, plan: Plan) -> Optional[Plan]:
    """One drawing is not filed, the last or any."""
    if not plan.filings:
        return None
    place = rng.choice([len(plan.filings) - 1, rng.randrange(len(plan.filings))])
    return plan._replace(filings=plan.filings[:place] + plan.filings[place + 1 :])


def change_group(rng: random.Random, topic: Topic, plan: Plan) -> Optional[Plan]:
    """One drawing is filed in another group."""
    if not plan.filings or topic.settings.groups == 1:
        return None
    place = rng.randrange(len(plan.filings))
    filing = plan.filings[place]
    return with_filing(plan, place, filing._replace(group=rng.choice(groups_left(topic, [filing.group]))))


def change_key(rng: random.Random, topic: Topic, plan: Plan) -> Optional[Plan]:
    """Another drawing is filed in the place of one."""
    keys = keys_left(topic, plan)
    if not plan.filings or not keys:
        return None
    place = rng.randrange(len(plan.filings))
    return with_filing(plan, place, plan.filings[place]._replace(key=rng.choice(keys)))


HARMLESS_CHANGES: Dict[str, Change] = {
    "no change": change_nothing,
    "another locator in a retired group": change_retired_locator,
    "another order of retirements": change_retired_order,
}
OTHER_CHANGES: Dict[str, Change] = {
    "another order of filings": change_order,
    "another order of filings in two groups": change_order_of_groups,
    "another locator in a live group": change_live_locator,
    "another order of locators": change_locator_order,
    "one group more retired": change_retired_more,
    "one group less retired": change_retired_less,
    "one filing more": change_filing_more,
    "one filing less": change_filing_less,
    "another group of a filing": change_group,
    "another key of a filing": change_key,
}
CHANGES = {**HARMLESS_CHANGES, **OTHER_CHANGES}
CHANGE_VERDICTS = {**dict.fromkeys(HARMLESS_CHANGES, AGREE), **dict.fromkeys(OTHER_CHANGES, DIFFER)}


def changed(rng: random.Random, topic: Topic, plan: Plan) -> Tuple[str, Plan]:
    """The name of one change, and the plan with it; none where it does not fit."""
    name = rng.choice(list(CHANGES))
    other = CHANGES[name](rng, topic, plan)
    return ("no change", plan) if other is None else (name, other)


def refused_calls(rng: random.Random, topic: Topic, session: Session) -> List[Call]:
    """Calls that are turned down as things are."""
    settings = topic.settings
    store = session.store
    strange = rng.choice(STRANGE_KEYS[settings.kind])
    key, locator = rng.choice(topic.keys), some_locator(rng)
    calls: List[Call] = [
        Find(strange),
        File(strange, some_group(rng, settings), locator),
        File(key, far_group(rng, settings), locator),
        Retire(far_group(rng, settings)),
        Write(rng.randrange(store.size() + 1), bytes(rng.choice(WRONG_LENGTHS))),
        Write(far_cell(rng, session), PAST_CONTENT),
    ]
    for filing in session.filings()[-2:]:
        calls.append(File(filing.key, rng.randrange(settings.groups), locator))
    for group in session.retirements()[-2:]:
        calls += [Retire(group), File(key, group, locator)]
    untakable = [cell for cell in range(store.size()) if not store.can_take(cell)]
    if untakable:
        calls += [Write(rng.choice(untakable), content) for content in (bytes(CONTENT_BYTES), PAST_CONTENT)]
    return calls


def family_member(rng: random.Random, topic: Topic, makes: Makes, calls: List[Call]) -> Session:
    """A history of these calls, with searches and calls that are turned down between them."""
    session = new_session(rng, topic.settings, makes)
    chance = rng.choice([0, 0.2, 0.5])
    for call in calls:
        if rng.random() < chance:
            session.take(rng.choice(refused_calls(rng, topic, session)))
        if rng.random() < chance:
            session.take(Find(rng.choice(topic.keys)))
        session.take(call)
    return session


def member_makes(rng: random.Random, topic: Topic, cramped: float, first: Makes) -> Makes:
    """A store and a keep for a further member of a family, half the time with a keep like that of the first."""
    makes = some_makes(rng, topic.settings, rng.random() < cramped)
    return makes._replace(keep=first.keep, places=first.places) if rng.random() < 0.5 else makes


class Family(NamedTuple):
    """Histories with equal settings: any calls; the same calls on another store and keep; what the first came to, in
    other calls; and that with one change, of which this is the name."""

    sessions: List[Session]
    change: str


def some_family(rng: random.Random) -> Family:
    """A family on stores and keeps of any makes, some of them too short or soon full."""
    topic = some_topic(rng, 3, 8)
    calls = first_calls(rng, topic)
    makes = some_makes(rng, topic.settings, rng.random() < 0.5)
    one = family_member(rng, topic, makes, calls)
    two = family_member(rng, topic, member_makes(rng, topic, 0.5, makes), calls)
    plan = Plan(one.filings(), one.retirements())
    if rng.random() < 0.5:
        plan = change_retired_locator(rng, topic, plan) or plan
    three = family_member(rng, topic, member_makes(rng, topic, 0.1, makes), calls_of(rng, plan))
    name, other_plan = changed(rng, topic, plan)
    four = family_member(rng, topic, member_makes(rng, topic, 0.1, makes), calls_of(rng, other_plan))
    return Family([one, two, three, four], name)
