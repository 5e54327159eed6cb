"""Answers management lines of port 0 as `olt plan` does: a refusal is printed by its code alone."""

import sys

import sezhimow

CLASSES = {"none": sezhimow.Class.NONE, "na": sezhimow.Class.NON_ASSURED, "be": sezhimow.Class.BEST_EFFORT}


def show(port: sezhimow.Port) -> str:
    s = port.state()
    line = "up" if s.cause is None else f"down {s.cause}"
    return f"show {line} next {s.next_frame} allocs {s.alloc_ids} onus {s.onus} guaranteed {s.guaranteed} capacity {s.capacity}"


def take(port: sezhimow.Port, words: list[str]) -> None:
    what, rest = words[1], words[2:]
    if what == "admit":
        port.admit(*map(int, rest[:5]), CLASSES[rest[5]])
    elif what == "change":
        port.change(*map(int, rest[:4]), CLASSES[rest[4]])
    elif what == "remove":
        port.remove(int(rest[0]))
    elif what == "report":
        port.report(int(rest[0]), int(rest[1]), [sezhimow.GARBLED if o == "x" else int(o) for o in rest[2:]])
    elif what == "fail":
        port.fail(int(rest[0]))
    elif what == "restore":
        port.restore()
    else:
        raise ValueError(what)


def answer(port: sezhimow.Port, words: list[str]) -> str:
    if words[1] == "map":
        made = port.map()
        return f"map {made.frame} {made.data.hex()}"
    if words[1] == "show":
        return show(port)
    take(port, words)
    return f"ok {port.state().taken - 1}"


with sezhimow.Port(gap=16) as port:
    for line in sys.stdin:
        try:
            print(answer(port, line.split()))
        except sezhimow.Refused as refused:
            print(f"err E{refused.told:02d}")
