"""Recordings with everything at once: random histories of four ports, whose chapters alternate in the file. Alloc-IDs of all classes come, change and go, also to
another ONU. Reports come late or garbled, the line fails and is restored, chapters are missing, and one port begins under the rule that drops remainders.
Faulty recordings are made from a good one.

The ports are those of second_model.py, and the bytes those of second_changes.py.
"""
from second_changes import chapter_bytes, entry_bytes, map_bytes, pieces, u
from second_model import BE, CLASSES, MAX_OCCUPANCY, NA, Admit, Change, Descriptor, Fail, MakeMap, Port, Remove, Report, Restore, fair_map
from second_opinion import HEAD_BYTES, TAG, Chapter, Recorded, read_chapter

CHAPTERS, OLD_CHAPTERS, ROWS = 300, 70, 7
OLD, NUMBERS = 5, (0, 5, 17, 63)
NO_PORT, NO_ALLOC = 3, 2_000
# Some Alloc-IDs are at several ports, and the order of the map is not that of the Alloc-IDs.
POOLS = {0: range(1024, 1033), 5: range(1028, 1037), 17: (1030, 1033, *range(1040, 1046), 9000), 63: (1024, *range(1040, 1047), 16383)}
KINDS, WEIGHTS = ("map", "report", "admit", "change", "remove", "fail"), (30, 30, 9, 8, 4)


def descriptor(r):
    """Returns a descriptor: each class, rates of less than a word, maxima of the whole line."""
    kind = r.choice(CLASSES)
    fixed, assured = (r.choice([0, r.randrange(1, 300), r.randrange(1, 25_000)]) for _ in range(2))
    if kind == NA and fixed + assured == 0:
        assured = 100
    room = r.choice([r.randrange(1, 2_000), r.randrange(1, 400_000), 2_400_000])
    return Descriptor(fixed, assured, fixed + assured + (room if kind in (NA, BE) or r.random() < 0.5 else 0), kind)


def piece(body):
    return u(TAG, 1) + u(len(body), 4) + body


class Life:
    """A port that takes random events, chapter by chapter."""

    def __init__(self, r, number, port):
        self.r, self.number, self.port, self.chapter = r, number, port, 0

    def opening(self, version):
        return chapter_bytes(Chapter(self.number, self.chapter, self.port, []), version)[HEAD_BYTES:-4]

    def next_chapter(self):
        """Returns the next chapter in each version that can have it."""
        openings = [self.opening(version) for version in (1, 2) if version == 2 or self.port.rule == 1]
        entries = [entry_bytes(self.entry()) for _ in range(self.r.choice([0, 1, *range(2, 15)]))]
        self.chapter += 1
        return [piece(it + u(len(entries), 4) + b"".join(entries)) for it in openings]

    def entry(self):
        event = None
        while event is None or self.port.refusal(event):
            event = self.event()
        if not isinstance(event, MakeMap):
            self.port.apply(event)
            return event
        fair, frame = fair_map(self.port), self.port.next
        self.port.apply_map(fair)
        return Recorded(frame, fair.bytes, [], fair.filled[NA].to_bytes() + fair.filled[BE].to_bytes())

    def event(self):
        if self.port.cause and self.r.random() < 0.6:
            return Restore()
        weights = (*WEIGHTS, 1 if self.number == 0 else 3)
        return getattr(self, self.r.choices(KINDS, weights)[0])()

    def map(self):
        return MakeMap()

    def fail(self):
        return Fail(self.r.randrange(1, 10))

    def admit(self):
        if len(self.port.rows) < ROWS:
            return Admit(self.r.choice([2, 30, 31, 1022]), self.r.choice(POOLS[self.number]), descriptor(self.r))

    def change(self):
        if self.port.rows:
            row = self.r.choice(self.port.rows)
            return Change(row.alloc, self.r.choice([descriptor(self.r), row.descriptor]))

    def remove(self):
        if len(self.port.rows) > 3:
            return Remove(self.r.choice(self.port.rows).alloc)

    def report(self):
        """A report of the last map, or a late one; some are refused, and not recorded."""
        if not self.port.window:
            return None
        polled = self.port.window[-1 - min(len(self.port.window) - 1, self.r.choice([0, 0, 0, 1, 3, 70]))]
        if not polled.grants:
            return None
        onu = self.r.choice(polled.grants)[0]
        return Report(polled.frame - self.r.choice([0] * 20 + [90]), onu, tuple(self.occupancy() for _ in polled.of_onu(onu)))

    def occupancy(self):
        return self.r.choice([None, 0, self.r.randrange(3), self.r.randrange(400), self.r.randrange(400), self.r.randrange(9_000), MAX_OCCUPANCY])


def life_of(r, number):
    """Returns a port at its beginning."""
    first = {0: 0, OLD: 1_000, 17: 2**63 + 5, 63: 77}[number]
    return Life(r, number, Port(1 if number == OLD else 2, {0: 16, OLD: 1, 17: 31, 63: 200}[number], {17: 2}.get(number, 0), 0, first))


def chapters_of(r, number):
    """Returns the recorded chapters of a port, each in the versions that can have it. Others are missing: with one of them a port takes the other rule."""
    life, found = life_of(r, number), []
    for place in range(CHAPTERS + 8):
        both = life.next_chapter()
        if number == OLD and place == OLD_CHAPTERS:
            life.port.rule = 2
        elif place != CHAPTERS // 2 and r.random() > 0.02 and not (number == 17 and place < 3) or number == OLD and place < OLD_CHAPTERS:
            found.append(both)
    return found


def mixed(r, lists):
    """Returns the items of lists, each list in its order."""
    lists, found = [list(it) for it in lists], []
    while any(lists):
        chosen = r.choices(lists, [len(it) for it in lists])[0]
        found.append(chosen.pop(0))
    return found


def histories(r):
    """Returns the chapters of the ports in version 2, by port, and those of the old port that can be in version 1."""
    both = {number: chapters_of(r, number) for number in NUMBERS}
    return {number: [it[-1] for it in found] for number, found in both.items()}, [it[0] for it in both[OLD][:OLD_CHAPTERS]]


# Faults.


def payloads_of(entry):
    return [int.from_bytes(entry.bytes[at : at + 8], "big") >> 13 for at in range(4, len(entry.bytes), 8)]


def with_map(entry, payloads, certificate=None):
    return Recorded(entry.frame, map_bytes(payloads), entry.structures, certificate or entry.certificate)


def other_words(r, entry):
    """Returns a map that grants a word too much."""
    payloads = payloads_of(entry)
    payloads[r.randrange(len(payloads))] += 1 << 3
    return with_map(entry, payloads)


def other_flags(r, entry):
    """Returns a map with a PLOAMu, and another structure without a DBRu."""
    payloads = payloads_of(entry)
    first, second = r.sample(range(len(payloads)), 2)
    payloads[first] ^= 1 << 35
    payloads[second] ^= 1 << 36
    return with_map(entry, payloads)


def other_level(_, entry):
    """Returns a map whose certificate has another level of best effort."""
    at = 19 + int.from_bytes(entry.certificate[17:19], "big")
    certificate = entry.certificate[:at] + b"\1" + u(3, 8) + u(2**63 + 9, 8) + entry.certificate[at + 17 :]
    return with_map(entry, payloads_of(entry), certificate)


def with_other_map(r, chapter, change):
    """Changes a map behind the first map of a chapter. Returns whether there is one."""
    places = [place for place, entry in enumerate(chapter.entries) if isinstance(entry, Recorded) and len(entry.structures) > 2]
    if len(places) < 2:
        return False
    place = r.choice(places[1:])
    chapter.entries[place] = change(r, chapter.entries[place])
    return True


def with_refused_report(_, chapter):
    """Adds a report that is refused: of a map that is not made yet."""
    if len(chapter.entries) < 4:
        return False
    chapter.entries.insert(len(chapter.entries) - 2, Report(2**63, 30, (7, None)))
    return True


def with_other_opening(_, chapter):
    """Opens a chapter with an Alloc-ID that was admitted after the next frame."""
    if not chapter.port.rows or not chapter.entries:
        return False
    chapter.port.rows[-1].since = chapter.port.next + 1
    return True


FAULTS = (
    lambda r, chapter: with_other_map(r, chapter, other_words), lambda r, chapter: with_other_map(r, chapter, other_flags),
    lambda r, chapter: with_other_map(r, chapter, other_level), with_refused_report, with_other_opening,
)


def reordered(r, data):
    """Returns a recording in which two chapters of a port are exchanged whose numbers follow on each other."""
    found = pieces(data)
    of_port = [place for place, it in enumerate(found) if it[HEAD_BYTES + 1] == NUMBERS[0]]
    first = r.randrange(len(of_port) // 2, len(of_port) - 1)
    one, other = of_port[first : first + 2]
    found[one], found[other] = found[other], found[one]
    return data[:8] + b"".join(found)


def with_other_byte(r, data):
    """Returns a recording with another byte where a chapter should begin."""
    found = pieces(data)
    place = r.randrange(len(found) // 2, len(found))
    found[place] = b"D" + found[place][1:]
    return data[:8] + b"".join(found)


def faulty(r, data):
    """Returns a recording of which five chapters fail, each in another way: somewhere in its middle half."""
    found = pieces(data)
    for fault in r.sample(FAULTS, len(FAULTS)):
        is_changed = False
        while not is_changed:
            place = r.randrange(len(found) // 4, 3 * len(found) // 4)
            chapter = read_chapter(found[place][HEAD_BYTES:], 2)
            is_changed = fault(r, chapter)
        found[place] = chapter_bytes(chapter, 2)
    return data[:8] + b"".join(found)
