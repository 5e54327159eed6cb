"""A port, the events that it takes and the map that it makes, written from docs/REFERENCE.md ("Refusals", "How a frame is shared", "Certificates", "Words of
the line") and docs/olt-recording.5 ("THE STATE AFTER AN EVENT") by somebody who had not seen the code. The second auditor (second_opinion.py) and the second
planner (second_planner.py) use it. Rates are whole kbit/s, sizes are words of 4 bytes.
"""
import functools
from dataclasses import dataclass, field, make_dataclass
from fractions import Fraction

FRAME_WORDS = 9720
WORD_RATE = 256                       # kbit/s of one word in every frame
MAX_RATE = 2_488_320
MAX_OCCUPANCY = 16_777_215
MAX_ONU, MIN_ALLOC, MAX_ALLOC = 1022, 1024, 16383
MAX_ONUS, MAX_SERIES = 128, 16
MAX_ALLOCS, ALLOC_WORDS = {1: 256, 2: 512}, {1: 1, 2: 2}     # by rule; the overhead of an Alloc-ID
WINDOW = 64
LAST = 2**64 - 1
CHAPTER_EVENTS = 65_536
CONTINUES = 0xFFFF                    # the StartTime of a structure that continues a burst
CLASSES = ("none", "na", "be")
NONE, NA, BE = CLASSES


# Words of the line.


@functools.lru_cache(maxsize=100_000)
def with_hec(payload):
    word = remainder = payload << 12
    for place in range(remainder.bit_length() - 1, 11, -1):
        if remainder >> place & 1:
            remainder ^= 0b1010100111001 << (place - 12)
    word |= remainder
    return word << 1 | bin(word).count("1") % 2


def structure_bytes(alloc, start, grant, profile):
    payload = (alloc << 2 | 2) << 16 | start
    return with_hec((payload << 16 | grant) << 3 | profile).to_bytes(8, "big")


# Events.


@dataclass(frozen=True)
class Descriptor:
    fixed: int
    assured: int
    max: int
    kind: str

    @property
    def sold(self):
        return self.fixed + self.assured

    @property
    def weight(self):
        return self.max - self.sold if self.kind == BE else self.sold

    def refusal(self):
        if max(self.fixed, self.assured, self.max) > MAX_RATE:
            return "E05"
        if self.max < self.sold:
            return "E06"
        if self.kind == NA and self.sold == 0:
            return "E07"
        if self.kind != NONE and self.max == self.sold:
            return "E08"


Admit = make_dataclass("Admit", ("onu", "alloc", "descriptor"))
Change = make_dataclass("Change", ("alloc", "descriptor"))
Remove = make_dataclass("Remove", ("alloc",))
Report = make_dataclass("Report", ("frame", "onu", "occupancies"))     # of which None is garbled
Fail = make_dataclass("Fail", ("cause",))
Restore = make_dataclass("Restore", ())
MakeMap = make_dataclass("MakeMap", ())


# The state of a port.


@dataclass
class Row:
    onu: int
    alloc: int
    descriptor: Descriptor
    since: int
    report: int | None = None         # the frame of the counted report
    left: int = 0                     # its words that are not granted
    carry: int = 0

    @property
    def place(self):
        return self.onu, self.alloc

    @property
    def load(self):
        return WORD_RATE * self.left


@dataclass
class Polled:
    """A map of the window, for which reports may still come."""
    frame: int
    grants: list                      # (ONU-ID, Alloc-ID, payload words) in map order
    reporters: list = field(default_factory=list)

    def of_onu(self, onu):
        return [grant for grant in self.grants if grant[0] == onu]


@dataclass
class Port:
    rule: int = 2
    gap: int = 16
    profile: int = 0
    cause: int = 0                    # 0 if the port is up
    next: int = 0
    events: int = 0                   # taken in all
    rows: list = field(default_factory=list)
    window: list = field(default_factory=list)

    def row(self, alloc):
        return next((row for row in self.rows if row.alloc == alloc), None)

    def polled(self, frame):
        return next((polled for polled in self.window if polled.frame == frame), None)

    def onus(self):
        return {row.onu for row in self.rows}

    def capacity(self, onus=None, allocs=None):
        """In kbit/s; below 0 if the overhead is more than a frame."""
        onus = len(self.onus()) if onus is None else onus
        allocs = len(self.rows) if allocs is None else allocs
        return (FRAME_WORDS - (self.gap + 2) * onus - ALLOC_WORDS[self.rule] * allocs) * WORD_RATE

    def sold(self):
        return sum(row.descriptor.sold for row in self.rows)

    # Refusals.

    def refusal(self, event):
        """The first reason in the order of the pages, or None."""
        match event:
            case Admit():
                found = self.refuses_admission(event)
            case Change(alloc, descriptor):
                row = self.row(alloc)
                found = "E01" if row is None else None
                if row and self.sold() - row.descriptor.sold + descriptor.sold > self.capacity():
                    found = "E12"
            case Remove(alloc):
                found = None if self.row(alloc) else "E01"
            case Report():
                found = self.refuses_report(event)
            case MakeMap():
                found = "E17" if self.cause else "E19" if self.next == LAST else None
            case Fail():
                found = "E17" if self.cause else None
            case Restore():
                found = None if self.cause else "E18"
        return found or ("E20" if self.events >= LAST else None)

    def refuses_admission(self, event):
        onus = self.onus()
        if self.row(event.alloc):
            return "E02"
        if len(self.rows) >= MAX_ALLOCS[self.rule]:
            return "E09"
        if len(onus - {event.onu}) >= MAX_ONUS:
            return "E10"
        if sum(row.onu == event.onu for row in self.rows) >= MAX_SERIES:
            return "E11"
        capacity = self.capacity(len(onus | {event.onu}), len(self.rows) + 1)
        if self.sold() + event.descriptor.sold > capacity:
            return "E12"

    def refuses_report(self, event):
        if self.cause:
            return "E17"
        polled = self.polled(event.frame)
        if polled is None:
            return "E13"
        grants = polled.of_onu(event.onu)
        if not grants:
            return "E14"
        if len(grants) != len(event.occupancies):
            return "E15"
        if event.onu in polled.reporters:
            return "E16"

    # The state after an event.

    def apply(self, event):
        """What an event that is not refused does, a map aside."""
        self.events += 1
        match event:
            case Admit(onu, alloc, descriptor):
                self.rows.append(Row(onu, alloc, descriptor, self.next))
                self.rows.sort(key=lambda row: row.place)
            case Change(alloc, descriptor):
                self.row(alloc).descriptor = descriptor
            case Remove(alloc):
                self.rows.remove(self.row(alloc))
            case Report():
                self.take_report(event)
            case Fail(cause):
                self.forget_reports(cause)
            case Restore():
                self.forget_reports(0)

    def take_report(self, event):
        polled = self.polled(event.frame)
        polled.reporters = sorted(polled.reporters + [event.onu])
        for (onu, alloc, _), occupancy in zip(polled.of_onu(event.onu), event.occupancies):
            row = self.row(alloc)
            if occupancy is None or row is None or event.frame < row.since:
                continue
            if row.report is not None and event.frame < row.report:
                continue
            later = [grant for it in self.window if it.frame >= event.frame for grant in it.grants]
            granted = sum(words for *place, words in later if place == [onu, alloc])
            row.report, row.left = event.frame, max(0, occupancy - granted)

    def forget_reports(self, cause):
        self.cause, self.window = cause, []
        for row in self.rows:
            row.since, row.report, row.left = self.next, None, 0

    def apply_map(self, fair):
        self.events += 1
        for row, share in zip(self.rows, fair.shares):
            row.left = max(0, row.left - share.words)
            row.carry = share.owed % WORD_RATE if self.rule == 2 else 0
        grants = [(row.onu, row.alloc, share.words) for row, share in zip(self.rows, fair.shares)]
        self.window = (self.window + [Polled(self.next, grants)])[-WINDOW:]
        self.next += 1


# How a frame is shared.


@dataclass
class Share:
    """What one map gives one Alloc-ID, and why."""
    guaranteed: int
    weight: int
    cap: int
    numerator: int = 0                # of the surplus rate
    denominator: int = 1
    owed: int = 0
    words: int = 0
    start: int = CONTINUES

    @property
    def grant(self):
        return self.words + 1


@dataclass
class Filled:
    """A class whose surplus is shared: the half of a certificate."""
    level: tuple | None               # numerator and denominator, None for all
    saturated: list                   # a flag for each member, in map order

    def to_bytes(self):
        numerator, denominator = self.level or (0, 0)
        return (bytes([self.level is not None]) + numerator.to_bytes(8, "big") + denominator.to_bytes(8, "big")
                + len(self.saturated).to_bytes(2, "big") + bytes(self.saturated))


@dataclass
class FairMap:
    shares: list                      # one for each row
    filled: dict                      # by class
    members: dict                     # by class: the Alloc-IDs
    bytes: bytes = b""


def fill(surplus, members):
    """Shares a surplus among members, each with weight and cap."""
    if sum(cap for _, cap in members) <= surplus:
        return Filled(None, [True] * len(members))
    saturated = [False] * len(members)
    weight_left = sum(weight for weight, _ in members)
    for index in sorted(range(len(members)), key=lambda i: Fraction(members[i][1], members[i][0])):
        weight, cap = members[index]
        if cap * weight_left > weight * surplus:
            break
        saturated[index] = True
        surplus -= cap
        weight_left -= weight
    return Filled((surplus, weight_left), saturated)


def share_of(row):
    wanted = max(row.descriptor.fixed, row.load)
    guaranteed = min(row.descriptor.sold, wanted)
    return Share(guaranteed, row.descriptor.weight, min(row.descriptor.max, wanted) - guaranteed)


def share_class(surplus, shares):
    filled = fill(surplus, [(share.weight, share.cap) for share in shares])
    numerator, denominator = filled.level or (0, 1)
    for share, saturated in zip(shares, filled.saturated):
        share.denominator = denominator
        share.numerator = share.cap * denominator if saturated else share.weight * numerator
    left = surplus - sum(share.cap for share in shares) if filled.level is None else 0
    return filled, left


def fair_map(port):
    """The one map that follows from the state of a port."""
    shares = [share_of(row) for row in port.rows]
    surplus = port.capacity() - sum(share.guaranteed for share in shares)
    filled, members = {}, {}
    for kind in (NA, BE):
        chosen = [index for index, row in enumerate(port.rows) if row.descriptor.kind == kind]
        filled[kind], surplus = share_class(surplus, [shares[index] for index in chosen])
        members[kind] = [port.rows[index].alloc for index in chosen]
    for row, share in zip(port.rows, shares):
        share.owed = row.carry + share.guaranteed + share.numerator // share.denominator
        share.words = share.owed // WORD_RATE
    place_bursts(port, shares)
    fair = FairMap(shares, filled, members)
    fair.bytes = with_hec(len(shares) << 8).to_bytes(4, "big") + b"".join(
        structure_bytes(row.alloc, share.start, share.grant, port.profile)
        for row, share in zip(port.rows, shares))
    return fair


def place_bursts(port, shares):
    free, onu = 0, None               # the first word after the last burst, and its ONU
    for row, share in zip(port.rows, shares):
        if row.onu != onu:
            share.start = free + port.gap
            free, onu = share.start + 2, row.onu
        free += share.grant
