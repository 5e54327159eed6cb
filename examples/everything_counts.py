"""How often a recording has each thing that it needs to have everything: so that no view is compared on a recording that lacks what it shows."""
from second_model import BE, CLASSES, NA, WINDOW

BATCH = 64  # chapters that an audit reads at once, at most


def named(chapter, name):
    return [it for it in chapter.entries if type(it).__name__ == name]


def admissions_and_changes(chapters):
    """Returns for each admission and change of a port its kind, and the ONU and the descriptor before and after it."""
    owners, found = {}, []
    for chapter in chapters:
        owners.update({row.alloc: (row.onu, row.descriptor) for row in chapter.opening.rows})
        for it in (it for it in chapter.entries if type(it).__name__ in ("Admit", "Change")):
            kind, before = type(it).__name__, owners.get(it.alloc)
            owners[it.alloc] = it.onu if kind == "Admit" else before and before[0], it.descriptor
            found.append((kind, before, owners[it.alloc]))
    return [it for it in found if it[1]]


def row_counts(recording):
    found = [it for port in recording.ports for it in admissions_and_changes(recording.of(port))]
    return {
        "an Alloc-ID that is admitted again, to another ONU": sum(kind == "Admit" and before[0] != now[0] for kind, before, now in found),
        "an Alloc-ID that is admitted again, to its ONU": sum(kind == "Admit" and before[0] == now[0] for kind, before, now in found),
        "another descriptor": sum(kind == "Change" and before != now for kind, before, now in found),
        "a change to the same descriptor": sum(kind == "Change" and before == now for kind, before, now in found),
    }


def waits_in_vain(made):
    """Returns whether best effort has demand, and there is no surplus for it."""
    return made.shared[BE].surplus == 0 and any(it.row.descriptor.kind == BE and it.share.cap for it in made.rows)


def map_counts(recording):
    maps = [made for it in recording.chapters for made in it.maps]
    rows = [it for made in maps for it in made.rows]
    classes = {f"an Alloc-ID of the class {kind}": sum(it.row.descriptor.kind == kind for it in rows) for kind in CLASSES}
    levels = {f"a level of {kind} that is a fraction": sum(made.shared[kind].level != "all" for made in maps) for kind in (NA, BE)}
    waiting, idle = sum(map(waits_in_vain, maps)), sum(it.structure.words == 0 for it in rows)
    return {**classes, **levels, "best effort that waits without surplus": waiting, "a map without a word for somebody": idle}


def last_frame(chapter, entry):
    return max((made.frame for made in chapter.maps if made.entry < entry), default=0)


def report_counts(recording):
    found = [(it, place, entry) for it in recording.chapters for place, entry in enumerate(it.entries) if type(entry).__name__ == "Report"]
    return {
        "a report that comes late": sum(entry.frame < last_frame(it, place) for it, place, entry in found),
        "a report of a map of an earlier chapter": sum(all(made.frame != entry.frame for made in it.maps) for it, _, entry in found),
        "a garbled occupancy": sum(None in entry.occupancies for _, _, entry in found),
    }


def chapter_counts(recording):
    chapters = recording.chapters
    return {
        "chapters for more than ten batches": len(chapters) > 10 * BATCH, "a chapter of rule 1": sum(it.opening.rule == 1 for it in chapters),
        "a chapter of rule 2": sum(it.opening.rule == 2 for it in chapters), "a full window": sum(len(it.opening.window) == WINDOW for it in chapters),
        "a chapter without entries": sum(not it.entries for it in chapters), "a chapter of a port that is down": sum(it.opening.cause > 0 for it in chapters),
        **{f"an entry of the kind {name}": sum(len(named(it, name)) for it in chapters) for name in ("Fail", "Restore", "Remove")},
    }


def counts_of(recording):
    return {**chapter_counts(recording), **row_counts(recording), **map_counts(recording), **report_counts(recording)}
