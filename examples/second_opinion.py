#!/usr/bin/env python3
"""A second auditor of recordings, written from docs/olt-recording.5 and docs/REFERENCE.md by somebody who had not seen the code. What a port is and which map
it makes is in second_model.py, which the second planner uses too.

    examples/second_opinion.py FILE..

prints the verdict of each, as `olt audit` does. It is slow: its time is for whoever wants to see that the pages suffice, or to be judged by nobody's word.
"""
import sys
from dataclasses import dataclass

from second_model import (
    BE, CHAPTER_EVENTS, CLASSES, CONTINUES, FRAME_WORDS, LAST, MAX_ALLOC, MAX_ALLOCS, MAX_OCCUPANCY, MAX_ONU, MAX_ONUS, MAX_SERIES, MIN_ALLOC, NA, WINDOW,
    Admit, Change, Descriptor, Fail, MakeMap, Polled, Port, Remove, Report, Restore, Row, fair_map, with_hec,
)

MAGIC = {b"PONREC01": 1, b"PONREC02": 2}
TAG, HEAD_BYTES = 0x43, 5
MAX_STRUCTURES, MAX_PORT, MAX_GAP, MAX_CARRY = 512, 63, 256, 255
GARBLED = 0xFFFF_FFFF


class BadFormat(Exception):
    """A field out of its range, or a body that does not end where its length says."""


@dataclass
class Recorded:
    """A map as an entry has it."""
    frame: int
    bytes: bytes
    structures: list                  # Alloc-ID and GrantSize
    certificate: bytes


@dataclass
class Chapter:
    port_number: int
    number: int
    port: Port                        # as it opens
    entries: list


class Body:
    """Reads the fields of a chapter's body."""

    def __init__(self, body):
        self.body, self.at = body, 0

    def bytes(self, count):
        found = self.body[self.at:self.at + count]
        if len(found) < count:
            raise BadFormat
        self.at += count
        return found

    def number(self, width, least=0, most=LAST):
        number = int.from_bytes(self.bytes(width), "big")
        if not least <= number <= most:
            raise BadFormat
        return number

    def onu(self):
        return self.number(2, 0, MAX_ONU)

    def alloc(self):
        return self.number(2, MIN_ALLOC, MAX_ALLOC)

    def descriptor(self):
        rates = [self.number(4) for _ in range(3)]
        descriptor = Descriptor(*rates, CLASSES[self.number(1, 0, 2)])
        if descriptor.refusal():
            raise BadFormat
        return descriptor

    def row(self, version, rule):
        row = Row(self.onu(), self.alloc(), self.descriptor(), self.number(8))
        counts = self.number(1, 0, 1)
        frame = self.number(8, 0, LAST if counts else 0)
        row.left = self.number(4, 0, MAX_OCCUPANCY if counts else 0)
        row.report = frame if counts else None
        if version == 2:
            row.carry = self.number(1, 0, MAX_CARRY if rule == 2 else 0)
        return row

    def polled(self, rule):
        frame = self.number(8)
        grants = [(self.onu(), self.alloc(), self.number(2, 0, FRAME_WORDS))
                  for _ in range(self.number(2, 0, MAX_ALLOCS[rule]))]
        return Polled(frame, grants, [self.onu() for _ in range(self.number(1))])

    def occupancy(self):
        number = self.number(4)
        if number == GARBLED:
            return None
        if number > MAX_OCCUPANCY:
            raise BadFormat
        return number

    def entry(self):
        match self.number(1, 1, 7):
            case 1:
                return Admit(self.onu(), self.alloc(), self.descriptor())
            case 2:
                return Change(self.alloc(), self.descriptor())
            case 3:
                return Remove(self.alloc())
            case 4:
                return self.report()
            case 5:
                return self.map()
            case 6:
                return Fail(self.number(1, 1, 9))
            case 7:
                return Restore()

    def report(self):
        frame, onu = self.number(8), self.onu()
        return Report(frame, onu, tuple(self.occupancy() for _ in range(self.number(1, 1, MAX_SERIES))))

    def map(self):
        frame, begin = self.number(8), self.at
        structures = self.structures()
        written = self.body[begin:self.at]
        begin = self.at
        self.half_certificate()
        self.half_certificate()
        return Recorded(frame, written, structures, self.body[begin:self.at])

    def structures(self):
        head = self.number(4)
        count = head >> 21
        if head != with_hec(count << 8) or count > MAX_STRUCTURES:
            raise BadFormat
        found, series = [], MAX_SERIES      # as if a full burst went before: the first structure has a start
        for _ in range(count):
            word = self.number(8)
            start = word >> 32 & 0xFFFF
            series = series + 1 if start == CONTINUES else 1
            if word != with_hec(word >> 13) or series > MAX_SERIES or FRAME_WORDS <= start < CONTINUES:
                raise BadFormat
            found.append((word >> 50, word >> 16 & 0xFFFF))
        return found

    def half_certificate(self):
        fraction = self.number(1, 0, 1)
        numerator, denominator = self.number(8), self.number(8)
        if (denominator == 0) if fraction else (numerator or denominator):
            raise BadFormat
        for _ in range(self.number(2, 0, MAX_STRUCTURES)):
            self.number(1, 0, 1)


def read_chapter(body, version):
    body = Body(body)
    rule = body.number(1, 1, 2) if version == 2 else 1
    port_number, number = body.number(1, 0, MAX_PORT), body.number(8)
    port = Port(rule, body.number(2, 1, MAX_GAP), body.number(1, 0, 3), body.number(1, 0, 9), body.number(8), body.number(8))
    port.rows = [body.row(version, rule) for _ in range(body.number(2, 0, MAX_ALLOCS[rule]))]
    port.window = [body.polled(rule) for _ in range(body.number(1, 0, WINDOW))]
    entries = [body.entry() for _ in range(body.number(4, 0, CHAPTER_EVENTS))]
    if body.at != len(body.body):
        raise BadFormat
    return Chapter(port_number, number, port, entries)


# Lawful openings.


def ascending(items):
    return all(one < two for one, two in zip(items, items[1:]))


def lawful(chapter):
    """The conditions of LAWFUL OPENINGS."""
    port = chapter.port
    frames = [polled.frame for polled in port.window]
    return (
        lawful_rows(port)
        and all(lawful_report(port, row) for row in port.rows)
        and frames == list(range(port.next - len(frames), port.next))
        and all(lawful_polled(port, polled) for polled in port.window)
        and not (port.cause and (port.window or any(row.report is not None for row in port.rows)))
        and (chapter.number != 0 or not (port.rows or port.window or port.cause or port.events))
    )


def lawful_rows(port):
    onus = [row.onu for row in port.rows]
    return (
        ascending([row.place for row in port.rows])
        and len({row.alloc for row in port.rows}) == len(port.rows)
        and len(set(onus)) <= MAX_ONUS
        and all(onus.count(onu) <= MAX_SERIES for onu in set(onus))
        and port.sold() <= port.capacity()
    )


def lawful_report(port, row):
    if row.report is None:
        return row.since <= port.next
    polled = port.polled(row.report)
    return row.since <= row.report < port.next and (polled is None or row.onu in polled.reporters)


def lawful_polled(port, polled):
    owners = {row.alloc: row.onu for row in port.rows if row.since <= polled.frame}
    return (
        ascending([grant[:2] for grant in polled.grants])
        and ascending(polled.reporters)
        and {onu for onu, _, _ in polled.grants}.issuperset(polled.reporters)
        and all(owners.get(alloc, onu) == onu for onu, alloc, _ in polled.grants)
    )


# The verdict.


def entry_fault(port, entry):
    """Takes an entry, or returns why it may not follow."""
    event = MakeMap() if isinstance(entry, Recorded) else entry
    if port.refusal(event):
        return "Event"
    if event is not entry:
        return map_fault(port, entry, fair_map(port))
    port.apply(entry)
    return None


def map_fault(port, recorded, fair):
    """Takes a map, or returns why it may not follow: the fair one of the state is another."""
    if recorded.certificate != fair.filled[NA].to_bytes() + fair.filled[BE].to_bytes():
        return "Certificate"
    grants = [(row.alloc, share.grant) for row, share in zip(port.rows, fair.shares)]
    if recorded.structures != grants and [alloc for alloc, _ in recorded.structures] == [alloc for alloc, _ in grants]:
        return "Words"
    if recorded.bytes != fair.bytes or recorded.frame != port.next:
        return "Bursts"
    port.apply_map(fair)
    return None


def chapter_fault(chapter, ends):
    """Returns the verdict bad, or None; the port is then as the chapter ends, and is kept in ends by port and number."""
    index, why = 0, opening_fault(chapter, ends)
    for index, entry in enumerate(chapter.entries if why is None else []):
        why = entry_fault(chapter.port, entry)
        if why:
            break
    ends[chapter.port_number, chapter.number] = chapter.port
    return f"bad port {chapter.port_number} chapter {chapter.number} entry {index} {why}" if why else None


def opening_fault(chapter, ends):
    before = ends.get((chapter.port_number, chapter.number - 1))
    if not lawful(chapter):
        return "Opening"
    if before is not None and before != chapter.port:
        return "Chain"
    if any(port == chapter.port_number and number >= chapter.number for port, number in ends):
        return "Number"
    return None


def verdict(file):
    if len(file) < 8:
        return "truncated 0"
    version = MAGIC.get(file[:8])
    if version is None:
        return "badformat 0"
    at, maps, bad, ends = 8, 0, None, {}
    while at < len(file):
        if file[at] != TAG:
            return f"badformat {at}"
        end = at + HEAD_BYTES + int.from_bytes(file[at + 1:at + HEAD_BYTES], "big")
        if len(file) < at + HEAD_BYTES or len(file) < end:
            return bad or f"truncated {at}"
        try:
            chapter = read_chapter(file[at + HEAD_BYTES:end], version)
        except BadFormat:
            return f"badformat {at}"
        bad = bad or chapter_fault(chapter, ends)
        maps += sum(isinstance(entry, Recorded) for entry in chapter.entries)
        at = end
    return bad or f"good maps {maps}"


if __name__ == "__main__":
    for name in sys.argv[1:]:
        with open(name, "rb") as recording:
            print(verdict(recording.read()))
