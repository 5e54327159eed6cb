"""Recordings as bytes, and changed ones: in a field that stands in sound bytes, in the order of the chapters, or anywhere."""
import copy

from second_model import CLASSES, CONTINUES, LAST, MAX_OCCUPANCY, Admit, Change, Descriptor, Fail, Remove, Report, Restore, with_hec
from second_opinion import GARBLED, HEAD_BYTES, MAX_CARRY, TAG, Recorded, read_chapter


# The bytes.


def u(number, width):
    return number.to_bytes(width, "big")


def descriptor_bytes(it):
    return u(it.fixed, 4) + u(it.assured, 4) + u(it.max, 4) + u(CLASSES.index(it.kind), 1)


def entry_bytes(entry):
    match entry:
        case Admit(onu, alloc, descriptor):
            return u(1, 1) + u(onu, 2) + u(alloc, 2) + descriptor_bytes(descriptor)
        case Change(alloc, descriptor):
            return u(2, 1) + u(alloc, 2) + descriptor_bytes(descriptor)
        case Remove(alloc):
            return u(3, 1) + u(alloc, 2)
        case Report(frame, onu, occupancies):
            words = b"".join(u(GARBLED if it is None else it, 4) for it in occupancies)
            return u(4, 1) + u(frame, 8) + u(onu, 2) + u(len(occupancies), 1) + words
        case Recorded():
            return u(5, 1) + u(entry.frame, 8) + entry.bytes + entry.certificate
        case Fail(cause):
            return u(6, 1) + u(cause, 1)
        case Restore():
            return u(7, 1)


def row_bytes(row, version):
    report = u(row.report is not None, 1) + u(row.report or 0, 8) + u(row.left, 4)
    carry = u(row.carry, 1) if version == 2 else b""
    return u(row.onu, 2) + u(row.alloc, 2) + descriptor_bytes(row.descriptor) + u(row.since, 8) + report + carry


def polled_bytes(it):
    grants = b"".join(u(number, 2) for grant in it.grants for number in grant)
    return u(it.frame, 8) + u(len(it.grants), 2) + grants + u(len(it.reporters), 1) + b"".join(u(onu, 2) for onu in it.reporters)


def chapter_bytes(chapter, version):
    port = chapter.port
    body = (u(port.rule, 1) if version == 2 else b"") + u(chapter.port_number, 1) + u(chapter.number, 8)
    body += u(port.gap, 2) + u(port.profile, 1) + u(port.cause, 1) + u(port.next, 8) + u(port.events, 8)
    body += u(len(port.rows), 2) + b"".join(row_bytes(row, version) for row in port.rows)
    body += u(len(port.window), 1) + b"".join(map(polled_bytes, port.window))
    body += u(len(chapter.entries), 4) + b"".join(map(entry_bytes, chapter.entries))
    return u(TAG, 1) + u(len(body), 4) + body


def recording(chapters, version):
    return b"PONREC0%d" % version + b"".join(chapter_bytes(it, version) for it in chapters)


def pieces(data):
    """Returns the chapters of a recording as bytes."""
    found, at = [], 8
    while at < len(data):
        end = at + HEAD_BYTES + int.from_bytes(data[at + 1 : at + HEAD_BYTES], "big")
        found.append(data[at:end])
        at = end
    return found


# Changes.


def near(r, number, most, least=0):
    return max(least, min(most, number + r.choice([1, -1, 256, -256, r.randrange(-50, 50)])))


def change_row(r, port):
    row = r.choice(port.rows)
    what = r.randrange(8)
    if what == 0:
        row.onu = near(r, row.onu, 1022)
    elif what == 1:
        row.alloc = near(r, row.alloc, 16383, 1024)
    elif what == 2:
        row.since = near(r, row.since, LAST)
    elif what == 3:
        row.report, row.left = (None, 0) if row.report is not None else (near(r, port.next, LAST), 5)
    elif what == 4 and row.report is not None:
        row.report = near(r, row.report, LAST)
    elif what == 5 and row.report is not None:
        row.left = near(r, row.left, MAX_OCCUPANCY)
    elif what == 6 and port.rule == 2:
        row.carry = r.randrange(MAX_CARRY + 1)
    else:
        row.descriptor = Descriptor(1, near(r, row.descriptor.assured, 2_000_000), 2_488_320, r.choice(CLASSES))


def change_window(r, port):
    it = r.choice(port.window)
    what = r.randrange(6)
    if what == 0:
        it.frame = near(r, it.frame, LAST)
    elif what == 1 and it.reporters:
        it.reporters.remove(r.choice(it.reporters))
    elif what == 2:
        it.reporters.insert(r.randrange(len(it.reporters) + 1), r.randrange(5))
    elif what == 3 and it.grants:
        place = r.randrange(len(it.grants))
        onu, alloc, words = it.grants[place]
        it.grants[place] = r.choice([(near(r, onu, 1022), alloc, words), (onu, near(r, alloc, 16383, 1024), words), (onu, alloc, near(r, words, 9720))])
    elif what == 4 and it.grants:
        it.grants.remove(r.choice(it.grants))
    else:
        port.window.remove(it)


def change_opening(r, chapter):
    port = chapter.port
    what = r.randrange(14)
    if what == 0:
        port.gap = near(r, port.gap, 256, 1)
    elif what == 1:
        port.profile ^= 1
    elif what == 2:
        port.cause = r.randrange(10)
    elif what == 3:
        port.next = near(r, port.next, LAST)
    elif what == 4:
        port.events = r.choice([near(r, port.events, LAST), LAST, LAST - r.randrange(1, 50)])
    elif what == 5:
        chapter.number = near(r, chapter.number, LAST)
    elif what == 6:
        chapter.port_number = r.randrange(4)
    elif what == 7:
        port.rows.reverse()
    elif what <= 10 and port.rows:
        change_row(r, port)
    elif port.window:
        change_window(r, port)


def map_bytes(payloads):
    return u(with_hec(len(payloads) << 8), 4) + b"".join(u(with_hec(payload), 8) for payload in payloads)


def changed_map(r, entry):
    """Returns a map with another field of a structure, certificate or frame, and sound check bits."""
    frame, certificate = entry.frame, bytearray(entry.certificate)
    payloads = [int.from_bytes(entry.bytes[at : at + 8], "big") >> 13 for at in range(4, len(entry.bytes), 8)]
    place = r.randrange(len(payloads))
    what = r.randrange(8)
    if what == 0:
        frame = near(r, frame, LAST)
    elif what <= 2:
        payloads[place] = max(0, payloads[place] + (r.choice([1, -1, 5]) << 3))
    elif what == 3:
        payloads[place] ^= r.choice([1, 4, 1 << 35, 1 << 36, 1 << 37])
    elif what == 4 and payloads[place] >> 19 & CONTINUES != CONTINUES:
        payloads[place] ^= r.choice([1, 2, 16]) << 19
    elif what == 5:
        payloads.pop(place)
    elif what == 6:
        certificate[r.randrange(len(certificate))] ^= 1
    else:
        certificate[0], certificate[16] = 1, certificate[16] | 1
        certificate[r.randrange(1, 17)] ^= r.randrange(256)
    return Recorded(frame, map_bytes(payloads), entry.structures, bytes(certificate))


def changed_report(r, entry):
    what = r.randrange(4)
    if what == 0:
        return Report(near(r, entry.frame, LAST), entry.onu, entry.occupancies)
    if what == 1:
        return Report(entry.frame, near(r, entry.onu, 1022), entry.occupancies)
    if what == 2:
        return Report(entry.frame, entry.onu, (*entry.occupancies, 3)[:16])
    return Report(entry.frame, entry.onu, tuple(r.choice([None, near(r, it or 0, MAX_OCCUPANCY)]) for it in entry.occupancies))


def changed_entry(r, entry):
    match entry:
        case Recorded():
            return changed_map(r, entry) if entry.structures else entry
        case Report():
            return changed_report(r, entry)
        case Admit(onu, alloc, descriptor):
            return Admit(near(r, onu, 1022), near(r, alloc, 16383, 1024), descriptor)
        case Remove(alloc):
            return Remove(near(r, alloc, 16383, 1024))
        case Change(alloc, descriptor):
            return Change(near(r, alloc, 16383, 1024), descriptor)
        case _:
            return r.choice([Fail(r.randrange(1, 10)), Restore()])


def change_entries(r, entries):
    place = r.randrange(len(entries))
    what = r.randrange(6)
    if what == 0:
        entries.pop(place)
    elif what == 1:
        entries.insert(place, r.choice(entries))
    elif what == 2:
        entries[place - 1], entries[place] = entries[place], entries[place - 1]
    else:
        entries[place] = changed_entry(r, entries[place])


def with_a_field_changed(r, data):
    version = data[7] - ord("0")
    found = [read_chapter(piece[HEAD_BYTES:], version) for piece in pieces(data)]
    chapter = copy.deepcopy(r.choice(found))
    found = [chapter if (it.port_number, it.number) == (chapter.port_number, chapter.number) else it for it in found]
    if chapter.entries and r.random() < 0.6:
        change_entries(r, chapter.entries)
    else:
        change_opening(r, chapter)
    return recording(found, version)


def with_chapters_moved(r, data):
    found = pieces(data)
    one, other = r.randrange(len(found)), r.randrange(len(found))
    what = r.randrange(4)
    if what <= 1:
        found[one], found[other] = found[other], found[one]
    elif what == 2:
        found.insert(other, found[one])
    else:
        found.pop(one)
    return r.choice([data[:8]] * 20 + [b"PONREC01", b"PONREC03"]) + b"".join(found)


def with_bytes_changed(r, data):
    data = bytearray(data)
    at = r.randrange(len(data)) if r.random() < 0.7 else min(len(data) - 1, r.randrange(150))
    what = r.randrange(6)
    if what <= 1:
        data[at] ^= 1 << r.randrange(8)
    elif what == 2:
        data[at] = r.choice([0, 1, 2, TAG, 255])
    elif what == 3:
        del data[at:]
    elif what == 4:
        del data[at : at + r.randrange(1, 20)]
    else:
        data += r.choice([bytes([TAG]), bytes([TAG, 0, 0, 0, 0]), bytes([TAG, 255, 255, 255, 255, 2]), b"\0"])
    return bytes(data)


def changed(r, data):
    """Returns a changed recording, of a good one that has a chapter."""
    return r.choice([with_a_field_changed, with_a_field_changed, with_chapters_moved, with_bytes_changed])(r, data)
