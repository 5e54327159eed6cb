"""The answers of `olt audit`, `info`, `why` and `dump`, by docs/olt.1 ("JSON"), docs/AUDIT.md and docs/REFERENCE.md: objects as the page names their keys, and
the lines that say the same."""
from everything_rates import dash, descriptor_object, descriptor_text, no_maps, no_port
from everything_seen import report_text, structure_text
from second_model import BE, NA, NONE
from second_opinion import Recorded

FRAME = 125


def kinds(chapter, name):
    return [it for it in chapter.entries if type(it).__name__ == name]


# Audits and what chapters hold.


def gaps_of(recording, from_zero):
    """Returns the missing chapters of each port before one that is there; before the first one only if numbers count from 0."""
    last, found = {}, {}
    for place, it in enumerate(recording.chapters):
        before = last.get(it.port, -1 if from_zero else it.number - 1)
        if it.number > before + 1:
            found[place] = {"port": it.port, "first": before + 1, "last": it.number - 1}
        last[it.port] = it.number
    return found


def place_of(recording):
    verdict = recording.verdict().split()
    if verdict[0] == "good":
        return None
    if verdict[0] == "bad":
        return {"port": int(verdict[2]), "chapter": int(verdict[4]), "entry": int(verdict[6]), "why": verdict[7]}
    return {"at": int(verdict[1])}


def audit_object(recording, name=None):
    gaps = list(gaps_of(recording, True).values())
    return {
        "file": name or recording.name, "verdict": recording.verdict().split()[0], "maps": recording.maps, "ports": recording.ports, "bytes": recording.size,
        "seconds": recording.maps * FRAME / 1_000_000, "complete": recording.maps > 0 and not gaps, "place": place_of(recording), "gaps": gaps,
    }


def gap_line(it):
    return f"port {it['port']} chapters {it['first']} to {it['last']} missing"


def gap_lines(recording):
    return [gap_line(it) for it in gaps_of(recording, True).values()] + ["no map"] * (recording.maps == 0)


def missing_line(recording, name=None):
    """Returns the line on standard error about the gaps, if there is one."""
    gaps = list(gaps_of(recording, True).values())
    if not gaps:
        return []
    count, first = sum(it["last"] - it["first"] + 1 for it in gaps), gaps[0]
    where = f"the first of port {first['port']}, chapters {first['first']} to {first['last']}"
    return [f"  {name or recording.name}: {count} chapters are missing in {len(gaps)} gaps, {where}"]


def owners_at_end(chapter):
    owners = {row.alloc: row.onu for row in chapter.opening.rows}
    for it in chapter.entries:
        if type(it).__name__ == "Admit":
            owners[it.alloc] = it.onu
        elif type(it).__name__ == "Remove":
            owners.pop(it.alloc, None)
    return owners


def chapter_object(it):
    causes = [str(entry.cause) for entry in kinds(it, "Fail")]
    maps, rows, end = it.maps, it.opening.rows, owners_at_end(it)
    return {
        "port": it.port, "chapter": it.number, "bytes": it.bytes, "first": maps[0].frame if maps else None, "last": maps[-1].frame if maps else None,
        "seconds": len(maps) * FRAME / 1_000_000, "maps": len(maps), "reports": len(kinds(it, "Report")), "failures": len(causes),
        "causes": {cause: causes.count(cause) for cause in causes}, "allocs": len(rows), "allocs_end": len(end), "onus": len({row.onu for row in rows}),
        "onus_end": len(set(end.values())),
    }


def total_object(recording):
    found = {key: sum(chapter_object(it)[key] for it in recording.chapters) for key in ("maps", "reports", "failures")}
    return {"chapters": len(recording.chapters), "bytes": recording.size, "seconds": recording.maps * FRAME / 1_000_000, **found}


def info_objects(recording):
    gaps, found = gaps_of(recording, False), []
    for place, it in enumerate(recording.chapters):
        gap = gaps.get(place)
        found += [{"port": gap["port"], "missing": [gap["first"], gap["last"]]}] if gap else []
        found.append(chapter_object(it))
    return [*found, total_object(recording)]


def seconds_text(maps):
    return f"{maps * FRAME // 1_000_000}.{maps * FRAME % 1_000_000:06}"


def info_line(it):
    if "missing" in it:
        return gap_line({"port": it["port"], "first": it["missing"][0], "last": it["missing"][1]})
    seconds = seconds_text(it["maps"])
    if "chapters" in it:
        return f"total chapters {it['chapters']} bytes {it['bytes']} seconds {seconds} maps {it['maps']} reports {it['reports']} failures {it['failures']}"
    frames = "-" if it["first"] is None else f"{it['first']} to {it['last']}"
    causes = "".join(f" cause {cause} {count}" for cause, count in sorted(it["causes"].items()))
    return (
        f"port {it['port']} chapter {it['chapter']} bytes {it['bytes']} frames {frames} seconds {seconds} maps {it['maps']} reports {it['reports']} "
        f"allocs {it['allocs']} to {it['allocs_end']} onus {it['onus']} to {it['onus_end']} failures {it['failures']}{causes}"
    )


# Why a map is as it is.


def found_map(recording, port, frame, alloc):
    """Returns the map that is asked for: with the Alloc-ID if there is one, at the lowest port; the first of a frame, or the last one."""
    found = [(chapter, made) for chapter in recording.of(port) for made in chapter.maps if frame in (None, made.frame)]
    with_alloc = [it for it in found if alloc is None or any(structure.alloc == alloc for structure in it[1].structures)]
    found = with_alloc or found
    lowest = min((chapter.port for chapter, _ in found), default=None)
    found = [it for it in found if it[0].port == lowest]
    return (found[-1] if frame is None else found[0]) if found else None


def no_map(recording, port, frame):
    """Returns the sentence about a map that is not there."""
    if not recording.of(port):
        return no_port(recording, port)
    frames = {}
    for it in recording.of(port):
        frames.setdefault(it.port, []).extend(made.frame for made in it.maps)
    frames = {number: of for number, of in frames.items() if of}
    if not frames or frame is None:
        return no_maps(port)
    lowest = min(frames)
    return f"frame {frame} of port {lowest} is not in the recording (frames {min(frames[lowest])} to {max(frames[lowest])})"


def report_object(chapter, made, row):
    """Returns the counted report: the occupancy as it came, if the chapter has it and the map of its frame; and the words that maps of the chapter granted
    since, which are not all if the map of its frame is in an earlier chapter."""
    if row.report is None:
        return None
    maps = [it for it in chapter.maps if it.entry < made.entry]
    granted = sum(it.words for made in maps if made.frame >= row.report for it in made.structures if it.alloc == row.alloc)
    return {"frame": row.report, "occupancy": occupancy_of(chapter, made, row), "granted": granted, "left": row.left}


def occupancy_of(chapter, made, row):
    polled = [it for it in chapter.maps if it.entry < made.entry and it.frame == row.report]
    reports = [it for it in chapter.entries[: made.entry] if type(it).__name__ == "Report" and (it.frame, it.onu) == (row.report, row.onu)]
    if not polled or not reports:
        return None
    owners = {it.row.alloc: it.row.onu for it in polled[0].rows}
    series = sorted(alloc for alloc, onu in owners.items() if onu == row.onu)
    return reports[-1].occupancies[series.index(row.alloc)]


def share_object(of, level):
    if of.row.descriptor.kind == NONE:
        return None
    share = of.share
    return {"weight": share.weight, "cap": share.cap, "level": level, "num": share.numerator, "den": share.denominator}


def structure_object(it):
    if it is None:
        return None
    return {"alloc": it.alloc, "dbru": it.dbru == 1, "ploam": it.ploam == 1, "start": it.start, "grant": it.grant, "fwi": it.fwi == 1, "profile": it.profile}


def why_object(chapter, made, of):
    row, share, kind = of.row, of.share, of.row.descriptor.kind
    level = made.shared[kind].level if kind != NONE else None
    return {
        "port": chapter.port, "frame": made.frame, "alloc": row.alloc, "onu": row.onu, "descriptor": descriptor_object(row.descriptor),
        "report": report_object(chapter, made, row), "share": share_object(of, level), "structure": structure_object(of.structure),
        "rates": {"load": row.load, "guaranteed": share.guaranteed, "carry": row.carry, "owed": share.owed, "words": share.owed // 256},
    }


def class_object(shared):
    return {"surplus": int(shared.surplus), "level": shared.level}


def why_objects(recording, port, frame, alloc):
    """Returns the objects of `olt why`, or what the recording does not have."""
    found = found_map(recording, port, frame, alloc)
    if not found:
        return [], no_map(recording, port, frame)
    chapter, made = found
    if made.rows is None:
        return [], f"frame {made.frame} of port {chapter.port} has no known state: chapter {chapter.number} is refused at entry {chapter.failed[0]}"
    rows = [it for it in made.rows if alloc in (None, it.row.alloc)]
    if alloc is not None and not rows:
        return [], f"Alloc-ID {alloc} is in none of these maps of the recording"
    classes = {kind: class_object(made.shared[kind]) for kind in (NA, BE)}
    head = {"port": chapter.port, "frame": made.frame, "chapter": chapter.number, "entry": made.entry, **classes}
    return [head, *(why_object(chapter, made, it) for it in rows)], None


def share_lines(it):
    rate, share, rates = it["descriptor"], it["share"], it["rates"]
    if share is None:
        return ["  surplus 0: the class shares none"]
    fixed, assured, most = (f"{key} {rate[key]}" for key in ("fixed", "assured", "max"))
    is_cap = share["num"] == share["cap"] * share["den"]
    return [
        f"  weight {share['weight']} = " + (f"{most} - {fixed} - {assured}" if rate["class"] == BE else f"{fixed} + {assured}"),
        f"  cap {share['cap']} = min({most}, max(load {rates['load']}, {fixed})) - guaranteed {rates['guaranteed']}", f"  level {share['level']}",
        f"  surplus {share['num']}/{share['den']} = " + (f"cap {share['cap']}" if is_cap else f"level * weight {share['weight']}"),
    ]


def report_lines(it):
    report, load = it["report"], it["rates"]["load"]
    if report is None:
        return ["  report -", f"  load {load}: no report counts"]
    return [
        f"  report frame {report['frame']} occupancy {dash(report['occupancy'])} granted since {report['granted']} left {report['left']}",
        f"  load {load} = 256 * left {report['left']}",
    ]


def row_lines(it, of):
    rate, rates, surplus = it["descriptor"], it["rates"], int(of.surplus)
    fixed, assured = (f"{key} {rate[key]}" for key in ("fixed", "assured"))
    return [
        f"alloc {it['alloc']} onu {it['onu']} {descriptor_text(rate)}", *report_lines(it),
        f"  guaranteed {rates['guaranteed']} = min({fixed} + {assured}, max({fixed}, load {rates['load']}))", *share_lines(it),
        f"  carry {rates['carry']}", f"  owed {rates['owed']} = carry {rates['carry']} + guaranteed {rates['guaranteed']} + whole surplus {surplus}",
        f"  words {rates['words']} = owed {rates['owed']} / 256", "  structure " + ("-" if of.structure is None else structure_text(of.structure)),
    ]


def why_lines(recording, objects):
    if not objects:
        return []
    head, rows = objects[0], objects[1:]
    made = next(made for chapter in recording.of(head["port"]) if chapter.number == head["chapter"] for made in chapter.maps if made.entry == head["entry"])
    by_alloc = {it.row.alloc: it for it in made.rows}
    shared = " ".join(f"{kind} surplus {head[kind]['surplus']} level {head[kind]['level']}" for kind in (NA, BE))
    lines = [f"port {head['port']} frame {head['frame']} chapter {head['chapter']} entry {head['entry']} {shared}"]
    return lines + [line for it in rows for line in row_lines(it, by_alloc[it["alloc"]])]


# Events.


def rates_text(it):
    return f"{it.fixed} {it.assured} {it.max} {it.kind}"


def event_text(it):
    name = type(it).__name__
    if name == "Report":
        return report_text(it)
    if isinstance(it, Recorded):
        return "map"
    words = {"Admit": lambda: f"{it.onu} {it.alloc} {rates_text(it.descriptor)}", "Change": lambda: f"{it.alloc} {rates_text(it.descriptor)}"}
    words |= {"Remove": lambda: str(it.alloc), "Fail": lambda: str(it.cause), "Restore": lambda: ""}
    return f"{name.lower()} {words[name]()}".rstrip()


def dump_chapter(it):
    """Returns the lines of a chapter: those of a later chapter are comments, and replies count the events of the port."""
    opening, mark = it.opening, "" if it.number == 0 else "# "
    remainders = {1: "dropped", 2: "carried"}[opening.rule]
    lines = [f"# port {it.port} chapter {it.number} first {opening.next} gap {opening.gap} profile {opening.profile} remainders {remainders}"]
    lines += [f"# onu {row.onu} alloc {row.alloc} {rates_text(row.descriptor)}" for row in opening.rows]
    for place, entry in enumerate(it.entries):
        reply = f"map {entry.frame} {entry.bytes.hex()}" if isinstance(entry, Recorded) else f"ok {opening.events + place}"
        lines += [f"{mark}{it.port} {event_text(entry)}", f"# {reply}"]
    return lines


def dump_lines(recording, port):
    return [line for it in recording.of(port) for line in dump_chapter(it)], None if recording.of(port) else no_port(recording, port)
