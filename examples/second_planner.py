#!/usr/bin/env python3
"""A second planner, written from docs/REFERENCE.md by somebody who had not seen the code. What a port is and which map it makes is in second_model.py.

    examples/second_planner.py [SETTINGS] <LINES

answers management lines as `olt plan [--config SETTINGS]` does.
"""
import copy
import sys
from dataclasses import dataclass

from second_model import (
    BE, CHAPTER_EVENTS, CLASSES, CONTINUES, MAX_ALLOC, MAX_OCCUPANCY, MAX_ONU, MIN_ALLOC, LAST, NA, NONE, WORD_RATE,
    Admit, Change, Descriptor, Fail, MakeMap, Port, Remove, Report, Restore, fair_map,
)

NAMES = dict(word.split(":") for word in """
    E01:NoSuchAlloc E02:AllocTaken E03:AllocRange E04:OnuRange E05:RateRange E06:MaxBelowGuaranteed E07:NeedsGuarantee E08:NoSurplusRoom
    E09:TooManyAllocs E10:TooManyOnus E11:SeriesFull E12:Capacity E13:StaleFrame E14:NotPolled E15:ReportCount E16:AlreadyReported
    E17:PortDown E18:PortUp E19:FrameLimit E20:ChapterFull
    L1:UnknownCommand L2:WordCount L3:BadField L4:NoSuchPort L5:NoMap L6:LineLong L7:NotText""".split())
DESCRIPTOR = "<fixed> <assured> <max> <class>"
COMMANDS = {
    "admit": f"<onu> <alloc> {DESCRIPTOR}", "change": f"<alloc> {DESCRIPTOR}", "remove": "<alloc>", "report": "<frame> <onu> <occupancy> ..",
    "map": "", "fail": "<cause>", "restore": "", "cert": "", "show": "", "list": "", "why": "<alloc>", "sure": "<alloc>", "help": "",
}
EVENTS = {
    "admit": (Admit, "onu", "alloc", "descriptor"), "change": (Change, "alloc", "descriptor"), "remove": (Remove, "alloc"),
    "report": (Report, "frame", "onu", "occupancy"), "map": (MakeMap,), "fail": (Fail, "cause"), "restore": (Restore,),
}
MAX_LINE, MAX_DIGITS, MAX_OCCUPANCIES = 4096, 20, 16


class Refused(Exception):
    """A line that is refused, with its code."""


@dataclass
class LastMap:
    frame: int
    rows: list                        # as they were before it
    fair: object


@dataclass(eq=False)
class Desk:
    """A port with what `plan` keeps of its chapter."""
    port: Port
    entries: int = 0
    last: LastMap | None = None

    def take(self, event):
        code = self.port.refusal(event) or ("E20" if self.entries == CHAPTER_EVENTS else None)
        if code:
            raise Refused(code)
        if isinstance(event, MakeMap):
            self.last = LastMap(self.port.next, copy.deepcopy(self.port.rows), fair_map(self.port))
            self.port.apply_map(self.last.fair)
        else:
            self.port.apply(event)
        self.entries += 1


# The words of a line.


def number(word, least=0, most=LAST):
    if not (len(word) <= MAX_DIGITS and word.isascii() and word.isdigit() and least <= int(word) <= most):
        raise Refused("L3")
    return int(word)


def one_of(words, code):
    def read(word):
        if word not in words:
            raise Refused(code)
        return word
    return read


READERS = {
    "class": one_of(CLASSES, "L3"),
    "occupancy": lambda word: None if word == "x" else number(word, 0, MAX_OCCUPANCY),
    "cause": lambda word: number(word, 1, 9),
}


def fields_of(command, words):
    """Returns the fields of a command by their names; a report's are lists."""
    names = [name.strip("<>") for name in COMMANDS[command].split() if name != ".."]
    if command == "report" and len(names) < len(words) < len(names) + MAX_OCCUPANCIES:
        names += ["occupancy"] * (len(words) - len(names))
    if len(words) != len(names):
        raise Refused("L2")
    values = [READERS.get(name, number)(word) for name, word in zip(names, words)]
    fields = dict(zip(names, values))
    if command == "report":
        fields["occupancy"] = tuple(values[2:])
    if "class" in fields:
        fields["descriptor"] = Descriptor(*(fields.pop(name) for name in ("fixed", "assured", "max", "class")))
    return fields


def check_ranges(fields):
    if not MIN_ALLOC <= fields.get("alloc", MIN_ALLOC) <= MAX_ALLOC:
        raise Refused("E03")
    if fields.get("onu", 0) > MAX_ONU:
        raise Refused("E04")
    if "descriptor" in fields and fields["descriptor"].refusal():
        raise Refused(fields["descriptor"].refusal())


# Replies.


def level_text(filled):
    if filled is None:
        return "-"
    return "all" if filled.level is None else "%d/%d" % filled.level


def cert_text(last):
    halves = []
    for kind in (NA, BE):
        filled = last.fair.filled[kind]
        saturated = [str(alloc) for alloc, flag in zip(last.fair.members[kind], filled.saturated) if flag]
        halves.append(f"{kind} {level_text(filled)} {','.join(saturated) or '-'}")
    return f"cert {last.frame} {' '.join(halves)}"


def show_text(port):
    state = f"down {port.cause}" if port.cause else "up"
    return f"show {state} next {port.next} allocs {len(port.rows)} onus {len(port.onus())} guaranteed {port.sold()} capacity {port.capacity()}"


def row_text(row):
    it = row.descriptor
    report = "report - left -" if row.report is None else f"report {row.report} left {row.left}"
    return f"alloc {row.alloc} onu {row.onu} fixed {it.fixed} assured {it.assured} max {it.max} class {it.kind} {report} load {row.load}"


def list_text(port):
    granted = {grant[:2]: grant[2] for grant in port.window[-1].grants} if port.window else {}
    return "\n".join([f"list {len(port.rows)}"] + [f"{row_text(row)} words {granted.get(row.place, '-')}" for row in port.rows])


def why_text(last, alloc):
    for row, share in zip(last.rows, last.fair.shares):
        if row.alloc == alloc:
            level = level_text(last.fair.filled.get(row.descriptor.kind))
            start = "-" if share.start == CONTINUES else share.start
            return (f"why {last.frame} {row_text(row)} guaranteed {share.guaranteed} weight {share.weight} cap {share.cap} level {level} "
                    f"surplus {share.numerator}/{share.denominator} carry {row.carry} owed {share.owed} words {share.words} start {start} grant {share.grant}")
    raise Refused("E01")


def sure_surplus(port, row):
    """Returns the part by weight of what all that comes before the class leaves at most, up to the maximum."""
    kind = row.descriptor.kind
    if kind == NONE:
        return 0
    before = sum(other.max if (kind, other.kind) == (BE, NA) else other.sold for other in (it.descriptor for it in port.rows))
    weights = sum(it.descriptor.weight for it in port.rows if it.descriptor.kind == kind)
    part = max(0, port.capacity() - before) * row.descriptor.weight // weights
    return min(part, row.descriptor.max - row.descriptor.sold)


def sure_text(port, alloc):
    row = port.row(alloc)
    if row is None:
        raise Refused("E01")
    sold = row.descriptor.sold
    wait = -(-WORD_RATE // sold) if sold else "-"
    return f"sure alloc {alloc} guaranteed {sold} surplus {sure_surplus(port, row)} wait {wait}"


def help_text():
    lines = [f"<port> {name} {words}".rstrip() for name, words in COMMANDS.items()]
    return "\n".join([f"help {len(lines)}"] + lines)


def event_text(desk, kind, *arguments):
    desk.take(kind(*arguments))
    if kind is MakeMap:
        return f"map {desk.last.frame} {desk.last.fair.bytes.hex()}"
    return f"ok {desk.entries - 1}"


VIEWS = {
    "cert": lambda desk: cert_text(desk.last),
    "show": lambda desk: show_text(desk.port),
    "list": lambda desk: list_text(desk.port),
    "why": lambda desk, alloc: why_text(desk.last, alloc),
    "sure": lambda desk, alloc: sure_text(desk.port, alloc),
    "help": lambda _desk: help_text(),
}


def answer(desk, command, fields):
    if command in EVENTS:
        kind, *names = EVENTS[command]
        return event_text(desk, kind, *(fields[name] for name in names))
    if command in ("cert", "why") and desk.last is None:
        raise Refused("L5")
    return VIEWS[command](desk, **fields)


def words_of(line):
    """Returns the words of a line without its LF: none if it has no reply."""
    if len(line) > MAX_LINE:
        raise Refused("L6")
    line = line.removesuffix(b"\r")
    words = [word for word in line.replace(b"\t", b" ").split(b" ") if word]
    if not words or words[0].startswith(b"#"):
        return []
    if any(byte != 9 and not 32 <= byte <= 126 for byte in line):
        raise Refused("L7")
    return [word.decode() for word in words]


def checked_reply(desks, line):
    words = words_of(line)
    if not words:
        return None
    port = number(words[0])
    if port >= len(desks):
        raise Refused("L4")
    if len(words) < 2:
        raise Refused("L2")
    command = one_of(COMMANDS, "L1")(words[1])
    fields = fields_of(command, words[2:])
    check_ranges(fields)
    try:
        return answer(desks[port], command, fields)
    except Refused as refused:
        raise Refused(*refused.args, *([desks[port].port.cause] if refused.args == ("E17",) else [])) from None


def reply(desks, line):
    """Returns the reply to a line, or None if it has none."""
    try:
        return checked_reply(desks, line)
    except Refused as refused:
        code, *cause = refused.args
        return " ".join(["err", code, NAMES[code], *map(str, cause)])


def opened(tables):
    """Returns the ports of settings, given as the tables of a file."""
    desks = [Desk(Port(gap=table["gap"], profile=table.get("profile", 0), next=table.get("first", 0))) for table in tables]
    for desk, table in zip(desks, tables):
        for row in table.get("alloc", []):
            desk.take(Admit(row["onu"], row["alloc"], Descriptor(row["fixed"], row["assured"], row["max"], row["class"])))
    return desks


def main():
    desks = [Desk(Port())]
    if len(sys.argv) > 1:
        import tomllib
        with open(sys.argv[1], "rb") as settings:
            desks = opened(tomllib.load(settings)["port"])
    for line in sys.stdin.buffer:
        text = reply(desks, line.removesuffix(b"\n"))
        if text is not None:
            print(text)


if __name__ == "__main__":
    main()
