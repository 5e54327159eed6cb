"""A plain model of a port under both rules, and its recordings: words are differences of sums of rates since the last admission, and nothing is carried.

The Alloc-IDs are of the class without surplus."""
import random

EVENTS = 120
GAP, FRAME_WORDS, WORD_RATE = 16, 9720, 256
ONUS, ALLOC_IDS = 6, 24
MAGIC = {1: b"PONREC01", 2: b"PONREC02"}
NO_SHARES = bytes(38)  # the certificate of a map without classes that share: level all twice, no flags


def remainder(power):
    """Returns x to this power modulo the polynomial of the header code (ITU-T G.987.3), as a number of 12 bits."""
    rest = 1
    for _ in range(power):
        rest = rest << 1 ^ (0x1539 if rest & 0x800 else 0)
    return rest


REMAINDERS = [remainder(power) for power in range(64)]


def sealed(payload, shift):
    """Returns the codeword of a payload: 12 check bits and a parity bit behind it."""
    word = payload << 12
    check = 0
    for power in range(12, shift):
        check ^= REMAINDERS[power] if word >> power & 1 else 0
    word |= check
    return word << 1 | bin(word).count("1") & 1


def number(value, size):
    return value.to_bytes(size, "big")


class Port:
    """A port, with all its maps and reports since it was opened."""

    def __init__(self, rule):
        self.rule, self.next, self.up = rule, 0, True
        self.rows, self.since, self.owed, self.given = {}, {}, {}, {}
        self.maps, self.reports, self.from_frame = {}, {}, 0

    def in_order(self):
        return sorted(self.rows, key=lambda it: (self.rows[it][0], it))

    def capacity(self, rows):
        onus = len({row[0] for row in rows.values()})
        return FRAME_WORDS - (GAP + 2) * onus - self.rule * len(rows)

    def fits(self, rows):
        return sum(row[1] + row[2] for row in rows.values()) <= WORD_RATE * self.capacity(rows)

    def load(self, alloc):
        frames = [it for it in self.reports if it >= self.since[alloc] and self.reports[it].get(alloc) is not None]
        if not frames:
            return 0
        granted = sum(words.get(alloc, 0) for frame, words in self.maps.items() if frame >= max(frames))
        return WORD_RATE * max(0, self.reports[max(frames)][alloc] - granted)

    def words(self, alloc):
        _, fixed, assured = self.rows[alloc]
        rate = min(fixed + assured, max(fixed, self.load(alloc)))
        before = self.owed[alloc]
        self.owed[alloc] += rate
        return rate // WORD_RATE if self.rule == 1 else self.owed[alloc] // WORD_RATE - before // WORD_RATE

    def make_map(self):
        """Returns the structures of the next map: Alloc-ID, start, words."""
        structures, start, last = [], GAP, None
        made = {alloc: self.words(alloc) for alloc in self.in_order()}
        for alloc, words in made.items():
            onu = self.rows[alloc][0]
            if last is not None and onu != last:
                start += 2 + GAP + sum(it[2] + 1 for it in structures if self.rows[it[0]][0] == last)
            structures.append((alloc, 0xFFFF if onu == last else start, words))
            last = onu
        self.maps[self.next] = made
        self.given[self.next] = {alloc: self.rows[alloc][0] for alloc in made}
        self.next += 1
        return structures


def map_bytes(frame, structures):
    head = sealed(len(structures) << 8, 31)
    words = [sealed(alloc << 37 | 1 << 36 | start << 19 | grant + 1 << 3, 63) for alloc, start, grant in structures]
    return b"\5" + number(frame, 8) + number(head, 4) + b"".join(number(it, 8) for it in words) + NO_SHARES


def descriptor(chance):
    fixed, assured = chance.choice([0, chance.randrange(4000)]), chance.choice([0, 100, chance.randrange(90000)])
    return fixed, assured


def rates(fixed, assured):
    return b"".join(number(it, 4) for it in (fixed, assured, fixed + assured)) + b"\0"


def admit(port, chance):
    alloc = 1024 + chance.randrange(ALLOC_IDS)
    row = alloc % ONUS, *descriptor(chance)
    if alloc in port.rows or not port.fits({**port.rows, alloc: row}):
        return None
    port.rows[alloc], port.since[alloc], port.owed[alloc] = row, port.next, 0
    return b"\1" + number(row[0], 2) + number(alloc, 2) + rates(*row[1:])


def change(port, chance):
    if not port.rows:
        return None
    alloc = chance.choice(sorted(port.rows))
    row = port.rows[alloc][0], *descriptor(chance)
    if not port.fits({**port.rows, alloc: row}):
        return None
    port.rows[alloc] = row
    return b"\2" + number(alloc, 2) + rates(*row[1:])


def remove(port, chance):
    if not port.rows:
        return None
    alloc = chance.choice(sorted(port.rows))
    del port.rows[alloc]
    return b"\3" + number(alloc, 2)


def fail_or_restore(port, chance):
    event = b"\6" + number(chance.randrange(1, 10), 1) if port.up else b"\7"
    port.up = not port.up
    port.reports, port.from_frame = {}, port.next
    port.since = dict.fromkeys(port.since, port.next)
    return event


def report(port, chance):
    frame = port.next - 1 - chance.randrange(3)
    if not port.up or frame < port.from_frame or not port.given.get(frame):
        return None
    onu = chance.choice(sorted(set(port.given[frame].values())))
    polled = sorted(alloc for alloc, owner in port.given[frame].items() if owner == onu)
    if any(alloc in port.reports.get(frame, {}) for alloc in polled):
        return None
    heard = {alloc: chance.choice([None, 0, chance.randrange(400)]) for alloc in polled}
    port.reports.setdefault(frame, {}).update(heard)
    said = b"".join(number(0xFFFFFFFF if it is None else it, 4) for it in heard.values())
    return b"\4" + number(frame, 8) + number(onu, 2) + number(len(heard), 1) + said


def history_at(port, seed):
    """Returns the entries of a random history at a port, and for each map its index, frame and structures."""
    chance = random.Random(seed)
    kinds = [admit] * 4 + [change] * 3 + [remove, fail_or_restore] + [report] * 8 + [None] * 12
    entries, maps = [], []
    while len(entries) < EVENTS:
        kind = chance.choice(kinds)
        if kind:
            event = kind(port, chance)
        elif port.up:
            maps.append((len(entries), port.next, port.make_map()))
            event = map_bytes(*maps[-1][1:])
        else:
            event = None
        if event:
            entries.append(event)
    return entries, maps


def history(seed, rule):
    """Returns a random history at a port of its own under a rule, as `history_at` does."""
    return history_at(Port(rule), seed)


def recording(entries, rule, version):
    opening = number(GAP, 2) + bytes(2 + 8 + 8 + 2 + 1)
    body = bytes([rule] * (version - 1)) + bytes(1 + 8) + opening + number(len(entries), 4) + b"".join(entries)
    return MAGIC[version] + b"\x43" + number(len(body), 4) + body
