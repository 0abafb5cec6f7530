#!/usr/bin/env python3
"""An executable model of the floor, written from its rules and from nothing else.

    python3 tools/model.py roll < sheet > lines
    python3 tools/model.py carousel FILE > lines
    python3 tools/model.py roll --letters fosh < sheet > lines

A floor is eight controllers that keep one list of entries alike. Read from top to bottom:
the configuration services, the services, what is kept, the envelopes, the ten calls (one
function each, named as the call), the roster, the run sheet. Nothing here is shared with
the programs, so that what they write can be compared with it.

Every call puts its questions strictly by rising number, each only where it applies, and
changes something only after the last. `ask` is one such question.
"""

from __future__ import annotations

import argparse
import sys
from dataclasses import dataclass, field, make_dataclass
from pathlib import Path

CONTROLLERS = 8
SEATS = 4
PLACES = 64            # of one list
EPOCHS = 32            # that can be stored; a promise or a new epoch may be one more
BAG = 1024             # envelopes
SHEET_BYTES = 65_536
DIGITS = 9             # of a number in a sheet
ROSTER_BYTES = 8

# How long each table handed in with a call must be.
TABLES = {"entries": 512, "openings": 2048, "committed": 8, "speculative": 8, "envelopes": 1024}


class Refused(Exception):
    """A no: the number of the question, and the number carried inside (0 for none)."""

    def __init__(self, number: int, inside: int = 0):
        self.number, self.inside = number, inside


def ask(number: int, yes: bool) -> None:
    """Put one question; a no is the refusal."""
    if not yes:
        raise Refused(number)


def carried(number: int, put, *given):
    """Put something to a service below; its refusal is carried inside `number`."""
    try:
        return put(*given)
    except Refused as below:
        raise Refused(number, below.number) from None


def record(name: str, fields: str) -> type:
    """A plain value with named fields, equal only to its own kind."""
    return make_dataclass(name, fields.split(), frozen=True)


# ---------------------------------------------------------------- configurations

def members_of(total: int) -> frozenset[int]:
    """The set that is written as the sum of 2^c over its controllers c."""
    return frozenset(c for c in range(CONTROLLERS) if total >> c & 1)


def lawful(members: int, leader: int) -> bool:
    """A configuration has one to eight members, and its leader is one of them."""
    return 1 <= members < 2 ** CONTROLLERS and leader in members_of(members)


@dataclass(frozen=True)
class Configuration:
    members: frozenset[int]
    leader: int

    def __post_init__(self):
        assert self.leader in self.members


class ConfigService:
    """A list of configurations (epoch e is the e-th), its limit and whether it is open.

    Refusals: 1 closed, 2 the expected epoch is not the last, 3 the list is at its limit,
    4 no such epoch. Each kind gives `listed`, `is_open` and `append`.
    """

    limit = EPOCHS

    def last(self) -> int:
        ask(1, self.is_open())
        return len(self.listed())

    def configuration(self, e: int) -> Configuration:
        ask(1, self.is_open())
        ask(4, 1 <= e <= len(self.listed()))
        return self.listed()[e - 1]

    def store(self, expected: int, configuration: Configuration) -> None:
        ask(1, self.is_open())
        ask(2, expected == len(self.listed()))
        ask(3, len(self.listed()) < self.limit)
        self.append(configuration)


class SingleTable(ConfigService):
    """One table, always open."""

    def __init__(self):
        self.rows: list[Configuration] = []

    def listed(self):
        return self.rows

    def is_open(self):
        return True

    def append(self, configuration):
        self.rows.append(configuration)


class Triple(ConfigService):
    """Three copies; open exactly when two or more are up. Its list is the longest copy."""

    def __init__(self):
        self.copies: list[list[Configuration]] = [[], [], []]
        self.is_up = [True, True, True]

    def listed(self):
        return max(self.copies, key=len)

    def is_open(self):
        return sum(self.is_up) >= 2

    def append(self, configuration):
        """Every copy that is up is brought level with the list, then takes the new one."""
        level = list(self.listed())
        for i in range(3):
            if self.is_up[i]:
                self.copies[i] = level + [configuration]

    def down(self, i: int) -> None:
        ask(5, i < 3)
        self.is_up[i] = False

    def up(self, i: int) -> None:
        ask(5, i < 3)
        self.is_up[i] = True


# ---------------------------------------------------------------- services

Load = record("Load", "r")      # a command, and the update of the same name
Draw = record("Draw", "d")      # a command, which gives the update Cut
Cut = record("Cut", "d")
Fetch = record("Fetch", "t")    # a command, which gives the update Swap
Swap = record("Swap", "s")


class Roll:
    """What is left on a roll, in millimetres. Refusals: 1 out of range, 2 not enough left."""

    commands = {"l": Load, "d": Draw}
    first = 0
    longest = 200_000
    widest_draw = 20_000

    def work(self, left, command):
        """The reply, which is the new left, and the update. Nothing is changed."""
        if isinstance(command, Load):
            ask(1, command.r <= self.longest)
            return command.r, command
        ask(1, 1 <= command.d <= self.widest_draw)
        ask(2, command.d <= left)
        return left - command.d, Cut(command.d)

    def apply(self, left, update):
        if isinstance(update, Load):
            return update.r
        return left - update.d if update.d <= left else 0


class Carousel:
    """Eight stations that hold each of eight tools once. Refusal: 1 no such tool."""

    commands = {"t": Fetch}
    first = tuple(range(8))

    def meaning(self, row):
        """A row that does not hold each tool exactly once means the first carousel."""
        return row if sorted(row) == list(self.first) else self.first

    def work(self, row, command):
        """The reply is the station of the tool, which is to change places with station 0."""
        ask(1, command.t < 8)
        s = self.meaning(row).index(command.t)
        return s, Swap(s)

    def apply(self, row, update):
        stations = list(self.meaning(row))
        if update.s < 8:
            stations[0], stations[update.s] = stations[update.s], stations[0]
        return tuple(stations)


# ---------------------------------------------------------------- what is kept

FRESH, LEADER, FOLLOWER = "fresh", "leader", "follower"

Entry = record("Entry", "epoch serial update")     # the epoch is the one it was made in


@dataclass
class Lead:
    """What a leader knows for its epoch; no other role keeps it."""

    members: frozenset[int]
    told: dict[int, int]   # the length each other member has told; absent: told nothing
    settled: int = 0


@dataclass
class Controller:
    running: bool = True
    role: str = FRESH
    epoch: int = 0         # 0 for none
    promise: int = 0
    entries: list[Entry] = field(default_factory=list)
    delivered: int = 0
    committed: object = None       # both states are set by start
    speculative: object = None
    lead: Lead | None = None


@dataclass
class Probing:
    """A seat that is not idle."""

    new: int
    stage: int
    yes: set[int] = field(default_factory=set)
    no: bool = False       # was a no for this stage heard?


@dataclass
class Floor:
    service: object
    configurations: ConfigService
    started: bool = False
    controllers: list[Controller] = field(
        default_factory=lambda: [Controller() for _ in range(CONTROLLERS)])
    seats: list[Probing | None] = field(default_factory=lambda: [None] * SEATS)
    openings: dict[int, tuple[Entry, ...]] = field(default_factory=dict)
    bag: list[Envelope] = field(default_factory=list)
    tables: dict[str, int] = field(default_factory=lambda: dict(TABLES))


# ---------------------------------------------------------------- envelopes

Accept = record("Accept", "e k entry")             # leader to the other members
Held = record("Held", "e h f")                     # follower f, which holds h places in e
Commit = record("Commit", "e n")                   # leader to all members, itself as well
Probe = record("Probe", "new e seat")              # seat to the members of e
Answer = record("Answer", "yes new e f seat")      # f to a seat
NewConfig = record("NewConfig", "e members")       # seat to the new leader
NewState = record("NewState", "e")                 # leader to the other members

# One sending. Sender and addressees are pairs such as ("controller", 3) and ("seat", 0).
Envelope = record("Envelope", "sender to message")


def controllers(numbers) -> frozenset[tuple[str, int]]:
    return frozenset(("controller", c) for c in numbers)


def ask_space(floor: Floor, to) -> None:
    """Question 13, asked only where something is sent: is there a free place in the bag?"""
    if to:
        ask(13, len(floor.bag) < BAG)


def send(floor: Floor, sender, to, message) -> None:
    """Envelopes are numbered from 0 and stay; without an addressee nothing is sent."""
    if to:
        floor.bag.append(Envelope(sender, frozenset(to), message))


def inner_numbers_in_range(sent: Envelope) -> bool:
    """The part of question 3 that looks into an envelope, by its kind."""
    m = sent.message
    if isinstance(m, Answer) and not (m.seat < SEATS and m.f < CONTROLLERS):
        return False
    if isinstance(m, (Accept, NewState)) and sent.sender not in controllers(range(CONTROLLERS)):
        return False
    return not isinstance(m, (NewConfig, NewState)) or 1 <= m.e <= EPOCHS


# ---------------------------------------------------------------- the calls

def ask_tables(floor: Floor) -> None:
    """Question 1."""
    ask(1, all(floor.tables[name] >= length for name, length in TABLES.items()))


def ask_first(floor: Floor, c: int = 0, seat: int = 0, envelope: int | None = None) -> None:
    """Questions 1 to 3 of every call but start, about those numbers that the call has."""
    ask_tables(floor)
    ask(2, floor.started)
    ask(3, c < CONTROLLERS and seat < SEATS)
    if envelope is not None:
        ask(3, envelope < len(floor.bag) and inner_numbers_in_range(floor.bag[envelope]))


def start(floor: Floor, members: int, leader: int) -> int:
    """Store epoch 1 and put its members into it; a leader has been told 0 by each."""
    ask_tables(floor)
    ask(2, not floor.started)
    ask(4, lawful(members, leader))
    first = Configuration(members_of(members), leader)
    carried(14, floor.configurations.store, 0, first)
    floor.started = True
    for c, it in enumerate(floor.controllers):
        it.committed = it.speculative = floor.service.first
        if c in first.members:
            it.role = LEADER if c == leader else FOLLOWER
            it.epoch = it.promise = 1
            it.entries, it.delivered = [], 0
    floor.controllers[leader].lead = Lead(
        first.members, told={f: 0 for f in first.members - {leader}})
    return 1


def order(floor: Floor, c: int, serial: int, command) -> int:
    """The leader works the command on its speculative state and sends the entry out."""
    ask_first(floor, c=c)
    it = floor.controllers[c]
    ask(5, it.running)
    ask(7, it.role == LEADER)
    ask(10, all(entry.serial != serial for entry in it.entries))
    ask(11, len(it.entries) < PLACES)
    reply, update = carried(12, floor.service.work, it.speculative, command)
    others = controllers(it.lead.members - {c})
    ask_space(floor, others)
    k, entry = len(it.entries), Entry(it.epoch, serial, update)
    it.entries.append(entry)
    it.speculative = floor.service.apply(it.speculative, update)
    send(floor, ("controller", c), others, Accept(it.epoch, k, entry))
    return reply


def settle(floor: Floor, c: int) -> int:
    """What all members hold is settled: the least of the own length and all lengths told."""
    ask_first(floor, c=c)
    it = floor.controllers[c]
    ask(5, it.running)
    ask(7, it.role == LEADER)
    ask(7, all(f in it.lead.told for f in it.lead.members - {c}))
    n = min([len(it.entries), *it.lead.told.values()])
    ask(8, n > it.lead.settled)
    everyone = controllers(it.lead.members)
    ask_space(floor, everyone)
    it.lead.settled = n
    send(floor, ("controller", c), everyone, Commit(it.epoch, n))
    return n


def hand(floor: Floor, envelope: int, c: int) -> int:
    """Give an envelope to one of its addressees; answers the places delivered by it."""
    ask_first(floor, c=c, envelope=envelope)
    sent, it = floor.bag[envelope], floor.controllers[c]
    ask(5, it.running)
    ask(6, ("controller", c) in sent.to)   # never so for an ANSWER, which goes to a seat
    return TAKE[type(sent.message)](floor, c, it, sent.message, sent.sender)


def take_accept(floor: Floor, c: int, it: Controller, m: Accept, sender) -> int:
    """A follower appends the entry, in sequence only, and tells the sender how far it is."""
    ask(7, it.role == FOLLOWER and it.epoch == m.e)
    ask(8, m.k >= len(it.entries))
    ask(9, m.k == len(it.entries))
    ask(11, len(it.entries) < PLACES)
    ask_space(floor, {sender})
    it.entries.append(m.entry)
    send(floor, ("controller", c), {sender}, Held(m.e, m.k + 1, c))
    return 0


def take_held(floor: Floor, c: int, it: Controller, m: Held, _sender) -> int:
    """The leader notes a greater length, or the first one, told by another member."""
    ask(7, it.role == LEADER and it.epoch == m.e and m.f in it.lead.members - {c})
    ask(8, m.f not in it.lead.told or m.h > it.lead.told[m.f])
    ask(9, m.h <= len(it.entries))
    it.lead.told[m.f] = m.h
    return 0


def take_commit(floor: Floor, c: int, it: Controller, m: Commit, _sender) -> int:
    """The places up to n that are not yet delivered are, into the committed state."""
    ask(7, it.role in (LEADER, FOLLOWER) and it.epoch == m.e)
    ask(8, m.n > it.delivered)
    ask(9, m.n <= len(it.entries))
    now = it.entries[it.delivered:m.n]
    for entry in now:
        it.committed = floor.service.apply(it.committed, entry.update)
    it.delivered = m.n
    return len(now)


def take_probe(floor: Floor, c: int, it: Controller, m: Probe, _sender) -> int:
    """Promise the new epoch; say yes exactly when the own epoch is at least the one probed."""
    ask(7, it.promise <= m.new)
    to = {("seat", m.seat)}
    ask_space(floor, to)
    it.promise = m.new
    send(floor, ("controller", c), to, Answer(it.epoch >= m.e, m.new, m.e, c, m.seat))
    return 0


def take_newconfig(floor: Floor, c: int, it: Controller, m: NewConfig, _sender) -> int:
    """Become leader: the list held opens the epoch, and nobody has told anything yet."""
    ask(7, it.promise == m.e and it.epoch < m.e)
    others = controllers(m.members - {c})
    ask_space(floor, others)
    it.role, it.epoch = LEADER, m.e
    it.lead = Lead(m.members, told={})
    floor.openings[m.e] = tuple(it.entries)
    it.speculative = it.committed
    for entry in it.entries[it.delivered:]:
        it.speculative = floor.service.apply(it.speculative, entry.update)
    send(floor, ("controller", c), others, NewState(m.e))
    return 0


def take_newstate(floor: Floor, c: int, it: Controller, m: NewState, sender) -> int:
    """Become follower with the opening list of the epoch, and tell its length."""
    ask(7, it.promise <= m.e and it.epoch < m.e)
    opening = floor.openings.get(m.e, ())
    ask(9, len(opening) >= it.delivered)
    ask_space(floor, {sender})
    it.role, it.lead = FOLLOWER, None
    it.epoch = it.promise = m.e
    it.entries = list(opening)
    send(floor, ("controller", c), {sender}, Held(m.e, len(opening), c))
    return 0


TAKE = {Accept: take_accept, Held: take_held, Commit: take_commit, Probe: take_probe,
        NewConfig: take_newconfig, NewState: take_newstate}


def report(floor: Floor, envelope: int) -> int:
    """Give an ANSWER to its seat. A yes counts for any stage, a no for the present one."""
    ask_first(floor, envelope=envelope)
    m = floor.bag[envelope].message
    ask(6, isinstance(m, Answer))
    seat = floor.seats[m.seat]
    ask(7, seat is not None and seat.new == m.new)
    if m.yes:
        ask(8, m.f not in seat.yes)
        seat.yes.add(m.f)
        return 1
    ask(8, m.e == seat.stage and not seat.no)
    seat.no = True
    return 0


def begin(floor: Floor, seat: int) -> int:
    """An idle seat probes the last epoch for the one after it."""
    ask_first(floor, seat=seat)
    ask(7, floor.seats[seat] is None)
    ask(13, len(floor.bag) < BAG)
    last = carried(14, floor.configurations.last)
    members = carried(14, floor.configurations.configuration, last).members
    floor.seats[seat] = Probing(new=last + 1, stage=last)
    send(floor, ("seat", seat), controllers(members), Probe(last + 1, last, seat))
    return last + 1


def lower(floor: Floor, seat: int) -> int:
    """With a no and no yes the seat goes one stage down and probes there."""
    ask_first(floor, seat=seat)
    it = floor.seats[seat]
    ask(7, it is not None and not it.yes and it.no and it.stage > 1)
    ask(13, len(floor.bag) < BAG)
    members = carried(14, floor.configurations.configuration, it.stage - 1).members
    it.stage, it.no = it.stage - 1, False
    send(floor, ("seat", seat), controllers(members), Probe(it.new, it.stage, seat))
    return it.stage


def propose(floor: Floor, seat: int, members: int, leader: int) -> int:
    """Store the new epoch under a leader that said yes, and tell that leader."""
    ask_first(floor, seat=seat)
    ask(4, lawful(members, leader))
    it = floor.seats[seat]
    ask(7, it is not None and leader in it.yes)
    ask(13, len(floor.bag) < BAG)
    proposed = Configuration(members_of(members), leader)
    carried(14, floor.configurations.store, max(it.new - 1, 0), proposed)
    floor.seats[seat] = None
    send(floor, ("seat", seat), controllers({leader}), NewConfig(it.new, proposed.members))
    return it.new


def abandon(floor: Floor, seat: int) -> int:
    """A probing seat becomes idle."""
    ask_first(floor, seat=seat)
    ask(7, floor.seats[seat] is not None)
    floor.seats[seat] = None
    return 0


def stop(floor: Floor, c: int) -> int:
    """A running controller is stopped for good."""
    ask_first(floor, c=c)
    ask(5, floor.controllers[c].running)
    floor.controllers[c].running = False
    return 0


def roster(floor: Floor, serial: int, place: bytearray) -> int:
    """Write each controller whose list holds the serial, once; later bytes stay.

    The order is free; here it is by rising number.
    """
    ask(1, floor.tables["entries"] >= TABLES["entries"] and len(place) >= ROSTER_BYTES)
    ask(2, floor.started)
    holders = [c for c, it in enumerate(floor.controllers)
               if any(entry.serial == serial for entry in it.entries)]
    place[:len(holders)] = bytes(holders)
    return len(holders)


# ---------------------------------------------------------------- run sheets

# Each call's letter, the call, and how many numbers follow. An order's last number is its
# command's, and the command's letter stands right before it.
CALLS = {"f": (start, 2), "o": (order, 3), "s": (settle, 1), "h": (hand, 2), "r": (report, 1),
         "b": (begin, 1), "w": (lower, 1), "p": (propose, 3), "a": (abandon, 1), "x": (stop, 1)}
LETTERS = "".join(CALLS)

# Each program's service and configuration service.
PROGRAMS = {"roll": (Roll, SingleTable), "carousel": (Carousel, Triple)}


def rows_of(sheet: bytes) -> list[bytes]:
    """Only the pair CR LF ends a row, and the last row may lack it."""
    rows = sheet.split(b"\r\n")
    if rows[-1] == b"":
        rows.pop()     # nothing stands behind the last pair, or the sheet is empty
    return rows


def is_number(part: str) -> bool:
    """One to nine decimal digits; leading zeros are digits, a sign is not."""
    return 1 <= len(part) <= DIGITS and all(c in "0123456789" for c in part)


def read(row: bytes, letters: str, commands: dict):
    """The call that a row asks for, and what is given to it.

    Each of the four questions is put to the whole row before the next one: 1 its bytes,
    2 its letters (a command letter that is not there is left to 3), 3 the count of its
    fields, 4 its numbers.
    """
    ask(1, all(33 <= byte <= 126 for byte in row))
    letter, *parts = row.decode("ascii").split(",")
    ask(2, letter in list(letters))
    command = None
    if letter == "o" and len(parts) >= 3:
        command = commands.get(parts.pop(2))
        ask(2, command is not None)
    call, count = CALLS[letter]
    ask(3, len(parts) == count)
    ask(4, all(is_number(part) for part in parts))
    given = [int(part) for part in parts]
    if command is not None:
        given[-1] = command(given[-1])
    return call, given


def play_row(floor: Floor, row: bytes, letters: str) -> tuple[int, int, int, int]:
    """What a row's line holds after its number: S number, floor number, inside, answer."""
    try:
        call, given = read(row, letters, floor.service.commands)
    except Refused as sheet:
        return sheet.number, 0, 0, 0
    try:
        return 0, 0, 0, call(floor, *given)
    except Refused as refusal:
        return 5, refusal.number, refusal.inside, 0


def new_floor(program: str) -> Floor:
    service, configurations = PROGRAMS[program]
    return Floor(service(), configurations())


def play(sheet: bytes, program: str, letters: str = LETTERS) -> bytes:
    """All lines for a sheet. A sheet that is too long is not played at all."""
    if len(sheet) > SHEET_BYTES:
        return b"0,6,0,0,0\r\n"
    floor = new_floor(program)
    return b"".join(b"%d,%d,%d,%d,%d\r\n" % (number, *play_row(floor, row, letters))
                    for number, row in enumerate(rows_of(sheet), start=1))


def main() -> None:
    parser = argparse.ArgumentParser(description="Play a run sheet on the model of the floor.")
    parser.add_argument("program", choices=PROGRAMS)
    parser.add_argument("file", nargs="?", help="the sheet (default: standard input)")
    parser.add_argument("--letters", default=LETTERS,
                        help="the call letters that the program knows (default: %(default)s)")
    given = parser.parse_args()
    if not set(given.letters) <= set(LETTERS):
        parser.error(f"--letters may hold only letters of {LETTERS}")
    sheet = Path(given.file).read_bytes() if given.file else sys.stdin.buffer.read()
    sys.stdout.buffer.write(play(sheet, given.program, given.letters))


if __name__ == "__main__":
    main()
