"""What a recording holds, read from its bytes by the second auditor (second_opinion.py): each chapter with its maps, and for each map the numbers from which it
follows, by docs/REFERENCE.md ("How a frame is shared")."""
import copy
import functools
from dataclasses import dataclass, field
from fractions import Fraction

from second_model import BE, CONTINUES, NA, MakeMap, fair_map
from second_opinion import HEAD_BYTES, MAGIC, TAG, Chapter, Recorded, entry_fault, lawful, map_fault, read_chapter

REFUSALS = {
    "E01": "NoSuchAlloc", "E02": "AllocTaken", "E09": "TooManyAllocs", "E10": "TooManyOnus", "E11": "SeriesFull", "E12": "Capacity", "E13": "StaleFrame",
    "E14": "NotPolled", "E15": "ReportCount", "E16": "AlreadyReported", "E17": "PortDown", "E18": "PortUp", "E19": "FrameLimit", "E20": "ChapterFull",
}


@dataclass
class Structure:
    """A structure of a map, by the bits of docs/REFERENCE.md ("Words of the line")."""
    alloc: int
    dbru: int
    ploam: int
    start: int | None
    grant: int
    fwi: int
    profile: int

    @property
    def words(self):
        return max(0, self.grant - 1)


def structure_of(word):
    start = word >> 32 & 0xFFFF
    return Structure(word >> 50, word >> 49 & 1, word >> 48 & 1, None if start == CONTINUES else start, word >> 16 & 0xFFFF, word >> 15 & 1, word >> 13 & 3)


@dataclass
class OfAlloc:
    """An Alloc-ID at a map: its row before the map, what the map has to give it and why, and its structure."""
    row: object
    share: object
    structure: Structure

    @functools.cached_property
    def surplus(self):
        return Fraction(self.share.numerator, self.share.denominator)


@dataclass
class Shared:
    """The surplus of a class, and the level as the certificate has it."""
    surplus: Fraction
    level: str


@dataclass
class Made:
    """A map as it stands in a chapter. Without the state before it there are no rows."""
    entry: int
    frame: int
    structures: list
    rows: list | None = None
    shared: dict = field(default_factory=dict)
    capacity: int = 0
    is_summed: bool = False


@dataclass
class Seen:
    """A chapter, and where it fails if it does."""
    bytes: int
    port: int
    number: int
    opening: object
    entries: list
    maps: list
    ends_as: object = None            # the port, without a fault
    failed: tuple | None = None       # the entry, why, and the line about it


def level_text(filled):
    return "all" if filled.level is None else f"{filled.level[0]}/{filled.level[1]}"


def explained(port, recorded, fair, made):
    """Adds to a map the rows from which it follows, if its certificate is the one of the state."""
    if recorded.certificate != fair.filled[NA].to_bytes() + fair.filled[BE].to_bytes():
        return
    structures = made.structures + [None] * len(port.rows)
    made.rows = [OfAlloc(copy.copy(row), share, structure) for row, share, structure in zip(port.rows, fair.shares, structures)]
    made.capacity, kinds = port.capacity(), {NA: Fraction(0), BE: Fraction(0)}
    for it in made.rows:
        kinds[it.row.descriptor.kind] = kinds.get(it.row.descriptor.kind, 0) + it.surplus
    left = made.capacity - sum(share.guaranteed for share in fair.shares)
    made.shared = {NA: Shared(Fraction(left), level_text(fair.filled[NA])), BE: Shared(left - kinds[NA], level_text(fair.filled[BE]))}
    made.is_summed = [it.row.alloc for it in made.rows] == [it.alloc for it in made.structures]


def made_of(place, entry):
    words = (int.from_bytes(entry.bytes[at : at + 8], "big") for at in range(4, len(entry.bytes), 8))
    return Made(place, entry.frame, [structure_of(word) for word in words])


def structure_text(it):
    if it is None:
        return "none"
    return f"alloc {it.alloc} dbru {it.dbru} ploam {it.ploam} start {'-' if it.start is None else it.start} grant {it.grant} fwi {it.fwi} profile {it.profile}"


def map_line(port, recorded, made, why):
    """Returns the line about a map that may not follow. Of a certificate it is the level of best effort that is changed (everything_recording.py)."""
    if why == "Certificate":
        return f"frame {recorded.frame}: the certificate is refused, best-effort class: Denominator"
    fair = fair_map(port)
    wanted = [structure_of(int.from_bytes(fair.bytes[at : at + 8], "big")) for at in range(4, len(fair.bytes), 8)]
    for place, (one, other) in enumerate(zip(made.structures, wanted)):
        if why == "Words" and one.grant != other.grant:
            return f"frame {recorded.frame} alloc {one.alloc}: {other.words} words are owed, a grant of {other.grant}; there is a grant of {one.grant}"
        if why == "Bursts" and one != other:
            return f"frame {recorded.frame} structure {place}: {structure_text(one)}; wanted {structure_text(other)}"
    return f"frame {recorded.frame}: the next frame is {port.next}"


def report_text(entry):
    return f"report {entry.frame} {entry.onu} " + " ".join("x" if it is None else str(it) for it in entry.occupancies)


def fault_line(port, entry, made, why):
    if why != "Event":
        return map_line(port, entry, made, why)
    code = port.refusal(entry)
    return f"{report_text(entry)}: {code} {REFUSALS[code]}" + (f" {port.cause}" if code == "E17" else "")


def taken_map(port, entry, made):
    """Takes a map, or returns why it may not follow. Notes the rows from which it follows."""
    fair = fair_map(port)
    explained(port, entry, fair, made)
    return "Event" if port.refusal(MakeMap()) else map_fault(port, entry, fair)


def replay(seen, port):
    """Replays a chapter from its opening, entry by entry, to its end or to its fault. Later maps have no rows."""
    seen.maps = [made_of(place, entry) for place, entry in enumerate(seen.entries) if isinstance(entry, Recorded)]
    by_entry = {made.entry: made for made in seen.maps}
    if not lawful(Chapter(seen.port, seen.number, port, [])):
        seen.failed = (0, "Opening", f"chapter {seen.number} opens with a state that no port can have")
        return
    for place, entry in enumerate(seen.entries):
        why = taken_map(port, entry, by_entry[place]) if place in by_entry else entry_fault(port, entry)
        if why:
            seen.failed = (place, why, fault_line(port, entry, by_entry.get(place), why))
            return
    seen.ends_as = port


def state_of(port):
    """Returns a port that stays as it is while the other one goes on."""
    state = copy.copy(port)
    state.rows, state.window = list(map(copy.copy, port.rows)), list(map(copy.copy, port.window))
    return state


def seen_of(piece, version):
    chapter = read_chapter(piece[HEAD_BYTES:], version)
    seen = Seen(len(piece), chapter.port_number, chapter.number, state_of(chapter.port), chapter.entries, [])
    replay(seen, chapter.port)
    return seen


class Reader:
    """Reads recordings, and reads a chapter that several of them have once."""

    def __init__(self):
        self.known = {}

    def chapter(self, piece, version):
        key = version, piece
        if key not in self.known:
            self.known[key] = seen_of(piece, version)
        return self.known[key]

    def read(self, data):
        """Returns the chapters of a recording up to the first byte at which there is no whole one, and the verdict on that, if there is such a byte."""
        at, found = 8, []
        while at < len(data):
            end = at + HEAD_BYTES + int.from_bytes(data[at + 1 : at + HEAD_BYTES], "big")
            if data[at] != TAG or len(data) < max(end, at + HEAD_BYTES):
                return found, f"{'badformat' if data[at] != TAG else 'truncated'} {at}"
            found.append(self.chapter(data[at:end], MAGIC[data[:8]]))
            at = end
        return found, None


def bad_of(chapters):
    """Returns the chapter of the first fault, the entry, why, and the line about it; None if all chapters are good."""
    ends, numbers = {}, {}
    for it in chapters:
        before = ends.get((it.port, it.number - 1))
        if it.failed and it.failed[1] == "Opening":
            return it, *it.failed
        if before is not None and before != it.opening:
            return it, 0, "Chain", f"chapter {it.number} does not open with the state at the end of the chapter before it"
        if numbers.get(it.port, -1) >= it.number:
            return it, 0, "Number", f"an earlier chapter of port {it.port} has the number {it.number} or a greater one"
        if it.failed:
            return it, *it.failed
        ends[it.port, it.number], numbers[it.port] = it.ends_as, it.number
    return None


@dataclass
class Recording:
    """A recording in a file, and its verdict."""
    name: str
    size: int
    chapters: list
    fault: str | None
    bad: tuple | None
    summed: dict = field(default_factory=dict)

    @property
    def is_good(self):
        return not self.fault and not self.bad

    @property
    def maps(self):
        return sum(len(it.maps) for it in self.chapters)

    @property
    def ports(self):
        return sorted({it.port for it in self.chapters})

    def of(self, port):
        return [it for it in self.chapters if port in (None, it.port)]

    def verdict(self):
        if self.bad and not (self.fault or "").startswith("badformat"):
            it, entry, why, _ = self.bad
            return f"bad port {it.port} chapter {it.number} entry {entry} {why}"
        return self.fault or f"good maps {self.maps}"

    def explanation(self):
        """Returns the second line about a recording that is not good, on standard error."""
        if self.verdict().startswith("bad port"):
            return [f"  {self.bad[3]}"]
        if not self.fault or self.fault.startswith("badformat"):
            return []
        last = next(((it.maps[-1].frame, it.port) for it in reversed(self.chapters) if it.maps), None)
        return [f"  {self.size} bytes, " + ("the last whole frame is %d of port %d" % last if last else "and no whole frame")]


def recording_in(reader, name, data):
    """Reads a recording. Its size is what is read of it: up to the length of a chapter that does not begin as one."""
    chapters, fault = reader.read(data)
    size = int(fault.split()[1]) + HEAD_BYTES if (fault or "").startswith("badformat") else len(data)
    return Recording(name, size, chapters, fault, bad_of(chapters))
