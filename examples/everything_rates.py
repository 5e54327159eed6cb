"""What maps add up to, by docs/AUDIT.md ("Settle a complaint"), docs/SOLD.md and docs/REFERENCE.md ("What is sure"): the answers of `olt rates`, as objects and
as lines, with exact fractions."""
import math
from dataclasses import dataclass, field
from fractions import Fraction

from second_model import BE, NA, NONE, WORD_RATE

FRAME_MS = Fraction(1, 8)
LATEST = 2**64 - 1


@dataclass
class OneMap:
    """An Alloc-ID in a map that is summed up. `run` is the same for maps in a row."""
    frame: int
    of: object
    run: tuple
    carries: bool

    @property
    def words(self):
        return self.of.structure.words

    @property
    def is_sold(self):
        return self.carries and 0 < self.of.row.descriptor.sold <= self.of.row.load


@dataclass
class Summed:
    """The maps of a port: all, each with whether it carries remainders, and those of each Alloc-ID."""
    made: list
    maps: dict
    figures: dict = field(default_factory=dict)

    def within(self, first, last):
        """Returns the maps of a range of frames."""
        maps = {alloc: [it for it in maps if first <= it.frame <= last] for alloc, maps in self.maps.items()}
        return Summed([it for it in self.made if first <= it[0].frame <= last], {alloc: it for alloc, it in maps.items() if it})


class Runs:
    """Numbers the maps in a row: of one admission, and of chapters whose numbers follow on each other."""

    def __init__(self):
        self.before, self.broken, self.admitted = None, 0, {}

    def begin(self, chapter):
        if self.before != chapter.number - 1:
            self.broken += 1

    def end(self, chapter):
        self.before = None if chapter.failed else chapter.number

    def take(self, entry):
        if type(entry).__name__ in ("Admit", "Remove"):
            self.admitted[entry.alloc] = self.admitted.get(entry.alloc, 0) + 1

    def of(self, alloc):
        return self.broken, self.admitted.get(alloc, 0)


def summed(recording, port, first=0, last=LATEST):
    """Returns the maps of a port in a range of frames, up to the fault of a chapter that fails; those of all frames are summed up once."""
    if port not in recording.summed:
        recording.summed[port] = all_maps(recording, port)
    whole = recording.summed[port]
    return whole if (first, last) == (0, LATEST) else whole.within(first, last)


def all_maps(recording, port):
    found, runs = Summed([], {}), Runs()
    for chapter in recording.of(port):
        runs.begin(chapter)
        add_chapter(found, runs, chapter)
        runs.end(chapter)
    return found


def summed_entries(chapter):
    """Returns the number of entries that are summed up: with that of a fault, but none behind an opening that is not lawful."""
    if not chapter.failed:
        return len(chapter.entries)
    return 0 if chapter.failed[1] == "Opening" else chapter.failed[0] + 1


def add_chapter(found, runs, chapter):
    made, carries = {it.entry: it for it in chapter.maps if it.is_summed}, chapter.opening.rule == 2
    for place, entry in enumerate(chapter.entries[: summed_entries(chapter)]):
        runs.take(entry)
        if place in made:
            found.made.append((made[place], carries))
            for it in made[place].rows:
                found.maps.setdefault(it.row.alloc, []).append(OneMap(made[place].frame, it, runs.of(it.row.alloc), carries))


def descriptors(maps):
    """Returns the maps with which the ONU or the descriptor is another than before."""
    found = []
    for it in maps:
        if not found or (found[-1].of.row.onu, found[-1].of.row.descriptor) != (it.of.row.onu, it.of.row.descriptor):
            found.append(it)
    return found


def idle(maps):
    """Returns the longest run of frames without a grant."""
    longest = run = 0
    before = None
    for it in maps:
        run = (run + 1 if before == it.frame - 1 else 1) if it.words == 0 else 0
        longest, before = max(longest, run), it.frame
    return longest


def sums_of(maps):
    below = sum(it.words < it.of.share.guaranteed // WORD_RATE for it in maps)
    return {
        "frames": len(maps), "load_sum": sum(it.of.row.load for it in maps), "owed_sum": sum(it.of.share.guaranteed for it in maps), "below": below,
        "granted_words": sum(it.words for it in maps), "surplus_sum": sum(math.floor(it.of.surplus) for it in maps), "idle": idle(maps),
    }


def shortfall(maps):
    """Returns the most words by which any maps in a row fall short of their guaranteed rates: the greatest rise of the sum of both since an earlier one."""
    most = owed = least = 0
    run = None
    for it in maps:
        if it.run != run:
            owed, least, run = 0, 0, it.run
        owed += it.of.share.guaranteed - WORD_RATE * it.words
        most, least = max(most, owed - least), min(least, owed)
    return math.floor(Fraction(most, WORD_RATE))


def longest_wait(maps):
    """Returns how many sold maps in a row it took at most to get a word."""
    longest = waiting = 0
    run = None
    for it in maps:
        waiting = waiting if it.run == run else 0
        waiting, run = waiting + 1 if it.is_sold and it.words == 0 else 0, it.run
        longest = max(longest, waiting)
    return longest + 1


def sold_of(maps):
    maps = [it for it in maps if it.carries]
    sold = [it for it in maps if it.is_sold]
    rates = [it.of.row.descriptor.sold for it in sold]
    return {
        "words": math.floor(Fraction(sum(rates), WORD_RATE)), "granted": sum(it.words for it in sold), "short": shortfall(maps),
        "wait": longest_wait(maps) if sold else None, "bound": math.ceil(Fraction(WORD_RATE, min(rates))) if sold else None,
    }


def sure_of(last, alloc):
    """Returns what is sure by the rows of the last map; None if the Alloc-ID is removed, or the rule drops remainders."""
    made, carries = last
    of = {it.row.alloc: it.row.descriptor for it in made.rows}
    if not carries or alloc not in of:
        return None
    own = of[alloc]
    taken = sum(it.max if own.kind == BE and it.kind == NA else it.sold for it in of.values())
    weights = sum(it.weight for it in of.values() if it.kind == own.kind)
    part = 0 if own.kind == NONE else math.floor(Fraction(max(0, made.capacity - taken) * own.weight, weights))
    return {"guaranteed": own.sold, "surplus": min(own.max - own.sold, part), "wait": math.ceil(Fraction(WORD_RATE, own.sold)) if own.sold else None}


def descriptor_object(it):
    return {"fixed": it.fixed, "assured": it.assured, "max": it.max, "class": it.kind}


def change_object(port, alloc, it):
    row = it.of.row
    return {"port": port, "alloc": alloc, "from": it.frame, "onu": row.onu, "descriptor": descriptor_object(row.descriptor), "weight": row.descriptor.weight}


def figures_of(found, alloc):
    if alloc not in found.figures:
        maps = found.maps[alloc]
        found.figures[alloc] = {"onu": maps[-1].of.row.onu, **sums_of(maps), "sold": sold_of(maps), "sure": sure_of(found.made[-1], alloc)}
    return found.figures[alloc]


def refused_objects(recording, port):
    return [{"port": it.port, "chapter": it.number, "refused": it.failed[0]} for it in recording.of(port) if it.failed]


def alloc_objects(recording, number, found, alloc):
    changes = [change_object(number, alloc, it) for it in descriptors(found.maps[alloc])]
    return [*changes, {"port": number, "alloc": alloc, "partial": not recording.is_good, **figures_of(found, alloc)}]


def rates_objects(recording, port, alloc, first, last):
    """Returns the objects of `olt rates`, and what the recording does not have."""
    by_port = {it: summed(recording, it, first, last) for it in recording.ports if port in (None, it)}
    refused, gone = refused_objects(recording, port), missing(recording, by_port, port, alloc)
    if gone:
        return refused, gone
    return refused + [
        it for number, found in by_port.items() for each in sorted(found.maps) if alloc in (None, each) for it in alloc_objects(recording, number, found, each)
    ], None


def no_maps(port):
    return f"no map of {'these frames' if port is None else f'port {port} in these frames'} is in the recording"


def no_port(recording, port):
    if not recording.chapters:
        return "the recording has no chapter"
    return f"port {port} is not in the recording (ports {recording.ports[0]} to {recording.ports[-1]})"


def missing(recording, by_port, port, alloc):
    if not by_port:
        return no_port(recording, port)
    if not any(found.maps for found in by_port.values()):
        return no_maps(port)
    if alloc is not None and not any(alloc in found.maps for found in by_port.values()):
        return f"Alloc-ID {alloc} is in none of these maps of the recording"
    return None


# Text.


def mean(total, number, places=1):
    """Returns a mean with one decimal place, rounded half up, or a dash."""
    if number == 0:
        return "-"
    tenths = math.floor(Fraction(total) / number * 10**places + Fraction(1, 2))
    return f"{tenths // 10**places}.{tenths % 10**places:0{places}}"


def dash(it):
    return "-" if it is None else str(it)


def descriptor_text(it):
    return f"fixed {it['fixed']} assured {it['assured']} max {it['max']} class {it['class']}"


def change_text(it):
    return f"port {it['port']} alloc {it['alloc']} from frame {it['from']} onu {it['onu']} {descriptor_text(it['descriptor'])} weight {it['weight']}"


def figures_lines(it):
    head, number, partial = f"port {it['port']} alloc {it['alloc']}", it["frames"], " partial" if it["partial"] else ""
    load, owed, granted, surplus = (mean(sum_of, number) for sum_of in (it["load_sum"], it["owed_sum"], WORD_RATE * it["granted_words"], it["surplus_sum"]))
    means = f"load {load} owed {owed} granted {granted} surplus {surplus}"
    sold, sure = it["sold"], it["sure"] or {"guaranteed": None, "surplus": None, "wait": None}
    ms = "-" if sure["wait"] is None else mean(sure["wait"] * FRAME_MS, 1, 3)
    return [
        f"{head} onu {it['onu']} frames {number} {means} below {it['below']} idle {it['idle']}{partial}",
        f"{head} sold {sold['words']} granted {sold['granted']} short {sold['short']} wait {dash(sold['wait'])} bound {dash(sold['bound'])}{partial}",
        f"{head} sure guaranteed {dash(sure['guaranteed'])} surplus {dash(sure['surplus'])} wait {dash(sure['wait'])} ms {ms}",
    ]


def rates_lines(objects):
    found = []
    for it in objects:
        if "refused" in it:
            found.append(f"port {it['port']} chapter {it['chapter']} refused at entry {it['refused']}")
        elif "weight" in it:
            found.append(change_text(it))
        else:
            found += figures_lines(it)
    return found
