"""What `olt picture` and `olt loads` draw: the parts of a map by docs/REFERENCE.md ("Words of the line", "How a frame is shared"), and the maps of an Alloc-ID
in steps of equally many frames. Both are drawn as text, and as the bars, lines and words of a picture in SVG."""
import math
import xml.etree.ElementTree as tree
from dataclasses import dataclass
from fractions import Fraction

from everything_rates import change_object, change_text, descriptors, mean, no_maps, no_port, summed
from second_model import BE, FRAME_WORDS, NA, NONE, WORD_RATE

BLUE, GREEN, ORANGE, GREY, EDGE = "#4e79a7", "#59a14f", "#f28e2b", "#d9d9d9", "#333333"
CLASS_NAMES = {NONE: "guaranteed only", NA: "non-assured", BE: "best effort"}
COLOURS = {NONE: BLUE, NA: GREEN, BE: ORANGE}
COLUMNS, COLUMN_WORDS, MARK_WORDS = 60, 162, 1_620
SIGNS = "# guaranteed, = granted beyond, in kbit/s; o waiting, in kB, and ms to grant it"
SCALE_LINES = [
    "words     0         1620      3240      4860      6480      8100      9720", "us        0.0       20.8      41.7      62.5      83.3      104.2     125.0",
    "          |---------|---------|---------|---------|---------|---------|",
]
MOST_STEPS = 60
WORD_BYTES, FRAMES_OF_MS = 4, 8


def svg_elements(text):
    """Returns the elements of a picture: each rectangle, line, curve and word with its attributes, and its title or its words."""
    try:
        elements = list(tree.fromstring(text).iter())
    except tree.ParseError as error:
        return [("no XML", (), str(error))]
    found = []
    for it in elements:
        title = it.find("{http://www.w3.org/2000/svg}title")
        words = it.text if title is None else title.text
        found.append((it.tag.split("}")[-1], tuple(sorted(it.attrib.items())), (words or "").strip()))
    return [it for it in found if it[0] != "title"]


def element(tag, words="", **attributes):
    return tag, tuple(sorted((name.replace("_", "-"), str(value)) for name, value in attributes.items())), words


def word_at(x, y, words, anchor=None, size=None, **more):
    named = {"text-anchor": anchor, "font-size": size}
    return element("text", str(words), x=x, y=y, **{name: it for name, it in named.items() if it is not None}, **more)


def head_elements(height, heading):
    """Returns the ground and the heading of a picture. A heading of more than 110 letters is drawn narrower."""
    narrower = {"textLength": 928, "lengthAdjust": "spacingAndGlyphs"} if len(heading) > 110 else {}
    return [
        element("svg", heading, width=960, height=height, viewBox=f"0 0 960 {height}", font_family="sans-serif", font_size=12),
        element("rect", width=960, height=height, fill="#ffffff"), word_at(16, 24, heading, size=14, font_weight="bold", **narrower),
    ]


def legend_elements(top, meanings):
    squares = [element("rect", x=x, y=top, width=12, height=12, fill=colour) for x, colour, _ in meanings]
    names = [word_at(x + 18, top + 10, name, "start") for x, _, name in meanings]
    return [it for pair in zip(squares, names) for it in pair]


# The map of a frame.


@dataclass
class Burst:
    """A burst: the word of its header, its grants with their first words, and the word of its trailer."""
    header: int
    grants: list
    trailer: int


def bursts_of(made):
    found = []
    for it in made.structures:
        if it.start is not None:
            found.append(Burst(it.start, [], it.start + 1))
        found[-1].grants.append((it, found[-1].trailer))
        found[-1].trailer += it.grant
    return found


def owners_before(chapter, entry):
    """Returns the ONU and the descriptor of each Alloc-ID before an entry of a chapter."""
    owners = {row.alloc: (row.onu, row.descriptor) for row in chapter.opening.rows}
    for it in chapter.entries[:entry]:
        name = type(it).__name__
        if name == "Admit":
            owners[it.alloc] = it.onu, it.descriptor
        elif name == "Change":
            owners[it.alloc] = owners[it.alloc][0], it.descriptor
        elif name == "Remove":
            del owners[it.alloc]
    return owners


def micros(words):
    """Returns the time of words in microseconds, rounded half up."""
    return mean(Fraction(125 * words, FRAME_WORDS), 1, 3)


def onu_name(owners, burst):
    return f"ONU {owners[burst.grants[0][0].alloc][0]}"


def sign_of(burst, gap, column):
    """Returns the sign of a column: of the part that has its middle word."""
    middle = column * COLUMN_WORDS + COLUMN_WORDS // 2
    for letter, (it, first) in zip("abcdefghijklmnop", burst.grants):
        if first <= middle < first + it.grant:
            return letter
    if burst.header // COLUMN_WORDS == column:
        return "|"
    return "." if 0 < burst.header - middle <= gap else " "


def burst_row(owners, burst, gap):
    end = min(burst.trailer // COLUMN_WORDS, COLUMNS - 1)
    return f"{onu_name(owners, burst):<10}{''.join(sign_of(burst, gap, column) for column in range(end + 1))}".rstrip()


def part_line(first, words, name):
    return f"{first:>6}  {micros(first):>7}  {words:>6}  {micros(words):>7}  {name}"


def part_lines(owners, burst, gap):
    grants = [
        part_line(first, it.grant, f"{letter}  grant of Alloc-ID {it.alloc}, {CLASS_NAMES[owners[it.alloc][1].kind]}")
        for letter, (it, first) in zip("abcdefghijklmnop", burst.grants)
    ]
    head = [part_line(burst.header - gap, gap, "gap"), part_line(burst.header, 1, f"header of {onu_name(owners, burst)}")]
    return [*head, *grants, part_line(burst.trailer, 1, "trailer")]


def picture_heading(chapter, made, bursts):
    used = bursts[-1].trailer + 1 if bursts else 0
    return (
        f"port {chapter.port} chapter {chapter.number} frame {made.frame} gap {chapter.opening.gap} bursts {len(bursts)} "
        f"structures {len(made.structures)} words {used} of {FRAME_WORDS}"
    )


def picture_lines(chapter, made):
    bursts, owners, gap = bursts_of(made), owners_before(chapter, made.entry), chapter.opening.gap
    rows = [burst_row(owners, it, gap) for it in bursts]
    parts = [line for it in bursts for line in part_lines(owners, it, gap)]
    return [picture_heading(chapter, made, bursts), "", *SCALE_LINES, *rows, "", "  word       us   words       us  part", *parts]


def bar(first, words, top, colour, title, is_light=False):
    light = {"fill_opacity": "0.7"} if is_light else {}
    title = f"{title}: {words} words from {first} to before {first + words}, {micros(words):>7} us from {micros(first):>7} us"
    return element("rect", title, x=first, y=top, width=words, height=16, fill=colour, **light)


def burst_bars(owners, burst, gap, top):
    grants = [
        bar(first, it.grant, top, COLOURS[owners[it.alloc][1].kind], f"Alloc-ID {it.alloc}, {CLASS_NAMES[owners[it.alloc][1].kind]}", place % 2 == 1)
        for place, (it, first) in enumerate(burst.grants)
    ]
    edges = [bar(at, 1, top, EDGE, name) for at, name in ((burst.header, "header"), (burst.trailer, "trailer"))]
    return [bar(burst.header - gap, gap, top, GREY, "gap"), edges[0], *grants, edges[1]]


def burst_names(owners, burst, top):
    """Returns the name of the ONU, and the Alloc-IDs of grants that have room for them: 12 words are a pixel."""
    wide = [(it, first) for it, first in burst.grants if it.grant // 12 >= 30]
    return [word_at(92, top + 12, onu_name(owners, burst), "end"), *(word_at(102 + first // 12, top + 12, it.alloc, size=9) for it, first in wide)]


def mark_elements(bottom):
    found = []
    for word in range(0, FRAME_WORDS + 1, MARK_WORDS):
        x = 100 + word // 12
        found += [word_at(x, 52, f"word {word}", "middle"), word_at(x, 70, f"{micros(word)} us", "middle")]
        found.append(element("line", x1=x, y1=76, x2=x, y2=bottom, stroke="#cccccc"))
    return found


def picture_elements(chapter, made):
    bursts, owners, gap = bursts_of(made), owners_before(chapter, made.entry), chapter.opening.gap
    bottom, tops = 76 + 22 * len(bursts), [82 + 22 * row for row in range(len(bursts))]
    bars = [it for top, burst in zip(tops, bursts) for it in burst_bars(owners, burst, gap, top)]
    names = [it for top, burst in zip(tops, bursts) for it in burst_names(owners, burst, top)]
    meanings = ((100, BLUE, "guaranteed only"), (280, GREEN, "non-assured"), (430, ORANGE, "best effort"), (580, GREY, "gap"))
    head, group = head_elements(bottom + 40, picture_heading(chapter, made, bursts)), element("g", transform="translate(100 0) scale(0.08333333 1)")
    return [*head, *mark_elements(bottom), group, *bars, *names, *legend_elements(bottom + 8, meanings)]


# An Alloc-ID along the frames.


@dataclass
class Step:
    """The maps of a step, and the means of their rates in kbit/s and of the words that wait in kB, as fractions."""
    first: int
    last: int
    maps: list

    def sum(self, of):
        return sum(map(of, self.maps))

    @property
    def loads(self):
        return self.sum(lambda it: it.of.row.left)

    @property
    def words(self):
        return self.sum(lambda it: it.words)

    @property
    def guaranteed(self):
        return Fraction(self.sum(lambda it: it.of.share.guaranteed), len(self.maps))

    @property
    def granted(self):
        return Fraction(WORD_RATE * self.words, len(self.maps))

    @property
    def backlog(self):
        return Fraction(WORD_BYTES * self.loads, 1000 * len(self.maps))

    @property
    def tenths(self):
        return math.floor(10 * self.backlog + Fraction(1, 2))

    def delay(self):
        """Returns the ms in which maps like these grant what waits, or a dash."""
        return "0.0" if self.loads == 0 else mean(self.loads, FRAMES_OF_MS * self.words)


@dataclass
class Loads:
    port: int
    alloc: int
    maps: list

    @property
    def frames(self):
        """Returns the frames of a step: as few, doubled from 1, as make no more than 60 steps."""
        frames = 1
        while (self.maps[-1].frame - self.maps[0].frame) // frames >= MOST_STEPS:
            frames *= 2
        return frames

    def steps(self):
        first, frames, found = self.maps[0].frame, self.frames, {}
        for it in self.maps:
            found.setdefault((it.frame - first) // frames, []).append(it)
        return [Step(first + step * frames, first + (step + 1) * frames - 1, found.get(step, [])) for step in range(max(found) + 1)]

    def heading(self):
        frames = f"frames {self.maps[0].frame} to {self.maps[-1].frame} maps {len(self.maps)}, means of {self.frames} frames a row"
        return f"port {self.port} alloc {self.alloc} {frames}"

    def scales(self, steps):
        """Returns the ends of the scales: the greatest maximum or granted rate, in kbit/s, and the greatest backlog in whole kB."""
        rate = max([1, *(it.of.row.descriptor.max for it in self.maps), *(math.floor(it.granted) for it in steps if it.maps)])
        return rate, math.ceil(Fraction(max([1, *(it.tenths for it in steps if it.maps)]), 10))


def loads_of(recording, port, alloc, first, last):
    """Returns the maps of an Alloc-ID at the lowest port that has it, or what the recording does not have."""
    by_port = {it: summed(recording, it, first, last).maps for it in recording.ports if port in (None, it)}
    for number, maps in by_port.items():
        if alloc in maps:
            return Loads(number, alloc, maps[alloc]), None
    if not by_port:
        return None, no_port(recording, port)
    if any(by_port.values()):
        return None, f"Alloc-ID {alloc} is in none of these maps of the recording"
    return None, no_maps(min(by_port) if len(by_port) == 1 else port)


def bar_text(columns, scale, value, sign, below=None, below_sign=None):
    """Returns a bar: each column has the sign of the value in its middle."""
    found = ""
    for column in range(columns):
        middle = (2 * column + 1) * scale // (2 * columns)
        found += below_sign if below is not None and middle < min(below, value) else sign if middle < value else " "
    return found


def step_line(step, rate, kilobytes):
    if not step.maps:
        return f"{step.first:>9}  no map"
    guaranteed, granted = math.floor(step.guaranteed), math.floor(step.granted)
    bars = bar_text(20, rate, granted, "=", guaranteed, "#"), bar_text(8, 10 * kilobytes, step.tenths, "o")
    means = [mean(it, 1) for it in (step.guaranteed, step.granted, step.backlog)]
    return f"{step.first:>9} {means[0]:>10} {means[1]:>10}  {bars[0]} {means[2]:>9} {step.delay():>7} {bars[1]}".rstrip()


def loads_lines(loads):
    steps = loads.steps()
    rate, kilobytes = loads.scales(steps)
    changes = [change_text(change_object(loads.port, loads.alloc, it)) for it in descriptors(loads.maps)]
    head = f"    frame guaranteed    granted  0{rate:>19}        kB      ms 0{kilobytes:>7}"
    return [loads.heading(), *changes, SIGNS, "", head, *(step_line(it, rate, kilobytes) for it in steps)]


def height_of(value, end, height):
    return math.ceil(Fraction(min(value, end) * height, end))


def step_bars(step, place, count, rate, kilobytes):
    left, right = 120 + 780 * place // count, 120 + 780 * (place + 1) // count
    guaranteed, granted = math.floor(step.guaranteed), math.floor(step.granted)
    waiting = f"backlog {mean(step.backlog, 1)} kB, {step.delay()} ms at the granted rate"
    title = f"frames {step.first} to {step.last}: guaranteed {guaranteed}, granted {granted} kbit/s, {waiting}"
    rates = [(268, height_of(value, rate, 220), colour) for value, colour in ((granted, ORANGE), (min(granted, guaranteed), BLUE))]
    heights = [*rates, (410, height_of(step.tenths, 10 * kilobytes, 110), GREY)]
    return [element("rect", title, x=left, y=low - high, width=right - left, height=high, fill=colour) for low, high, colour in heights]


def curve(steps, kilobytes):
    points, count = [], len(steps)
    for place, step in enumerate(steps):
        if step.maps:
            left, right = 120 + 780 * place // count, 120 + 780 * (place + 1) // count
            points.append(f"{left + (right - left) // 2},{410 - height_of(step.tenths, 10 * kilobytes, 110)} ")
    return element("polyline", fill="none", stroke="#333333", points="".join(points))


def scale_elements(low, height, end, lines, units, unit):
    found = []
    for line in range(lines + 1):
        value = end * line // lines
        y = low - height_of(value, end, height)
        found += [word_at(112, y + 6, f"{value // units} {unit}", "end"), element("line", x1=120, y1=y, x2=900, y2=y, stroke="#cccccc")]
    return found


def loads_elements(loads):
    steps = loads.steps()
    rate, kilobytes = loads.scales(steps)
    bars = [it for place, step in enumerate(steps) if step.maps for it in step_bars(step, place, len(steps), rate, kilobytes)]
    frames = [word_at(120, 426, f"frame {loads.maps[0].frame}", "start"), word_at(900, 426, f"frame {loads.maps[-1].frame}", "end")]
    meanings = ((120, BLUE, "guaranteed and granted"), (320, ORANGE, "granted beyond it"), (480, GREY, "words that wait, in kB"))
    scales = scale_elements(268, 220, rate, 4, 1, "kbit/s") + scale_elements(410, 110, 10 * kilobytes, 2, 10, "kB")
    return [*head_elements(470, loads.heading()), *scales, *bars, curve(steps, kilobytes), *frames, *legend_elements(442, meanings)]
