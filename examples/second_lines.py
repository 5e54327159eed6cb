"""Random settings and management lines. The second planner's ports are used to aim: most lines are taken, and some are refused in each way."""
import second_planner as planner

COMMANDS = [name for name in planner.COMMANDS if name != "help"]
WEIGHTS = [10, 4, 2, 30, 30, 0.6, 0.6, 3, 1, 2, 4, 3]
NOISE = [
    "", "\t ", "#x", " # x", "#" * 4096, "#" * 4097, "x map", "65 map", "99999999999999999999 map", "-0 map", "0", "0 map 1", "0 MAP", "0 mapp", " 00\tmap ",
    "0 map\r", "0 map\r\r", "0 m\x01p", "\x7f", "\xe9", "# \xe9", "0 fail 0", "0 fail 10", "0 fail x", "0 fail", "0 admit 1 2 3", "0 report 1", "0 report 1 2",
    "0 report 0 0 X", "0 report 0 0 16777216", "0 report 1 2" + " x" * 16, "0 report 1 2" + " x" * 17, "0 remove +1030", "0 remove 00000000000000001030",
    "0 remove 000000000000000001030", "0 change 1030 1 1 1 NA", "0 admit 1023 1023 9999999 9999999 1 na", "0 admit 1 1024 18446744073709551616 0 1 be",
    "0 show" + " " * 4089 + "\r", "0 show" + " " * 4090, "0 show" + " " * 4091, "0 help", "0 help 1",
]


def random_table(r):
    rows = [{"onu": r.randrange(3), "alloc": 1024 + row, "fixed": r.randrange(900), "assured": 7, "max": 40_000, "class": "be"} for row in range(3)]
    table = {"gap": r.choice([1, 16, 16, 40, 256]), "profile": r.randrange(4), "first": r.choice([0, 0, 1000, 2**63 - 1])}
    return {**table, "alloc": r.choice([[], [], rows])}


def random_tables(r):
    """Returns the tables of a settings file."""
    return [random_table(r) for _ in range(r.choice([1, 1, 2, 3]))]


def settings_text(tables):
    """Returns the tables as a settings file."""
    lines = []
    for table in tables:
        lines += ["[[port]]"] + [f"{key} = {value}" for key, value in table.items() if key != "alloc"]
        for row in table["alloc"]:
            lines += ["[[port.alloc]]"] + [f"{key} = {value!r}" for key, value in row.items()]
    return "\n".join(lines) + "\n"


class Lines:
    """A source of random lines for some ports."""

    def __init__(self, r, desks):
        self.r, self.desks = r, desks
        self.onus = r.choice([2, 4, 9, 30])
        self.allocs = r.choice([8, 20, 50])
        self.scale = r.choice([300, 40_000, 400_000])
        self.waiting = r.choice([3000, 300_000])

    def next(self):
        if self.r.random() < 0.03:
            return self.r.choice(NOISE)
        place = self.r.randrange(len(self.desks))
        port = self.desks[place].port
        if port.cause and self.r.random() < 0.5:
            return f"{place} restore"
        few = len(port.rows) < 3 and self.r.random() < 0.5
        command = "admit" if few else self.r.choices(COMMANDS, WEIGHTS)[0]
        return f"{place} {command} {self.words(command, port)}".rstrip()

    def words(self, command, port):
        if command == "admit":
            return f"{self.onu()} {self.alloc(port, 0.1)} {self.descriptor()}"
        if command == "change":
            return f"{self.alloc(port, 0.9)} {self.descriptor()}"
        if command in ("remove", "why", "sure"):
            return str(self.alloc(port, 0.9))
        if command == "report":
            return self.report(port)
        return str(self.r.randrange(1, 10)) if command == "fail" else ""

    def onu(self):
        return self.r.choice([self.r.randrange(self.onus)] * 40 + [1022, 1023])

    def alloc(self, port, known):
        if port.rows and self.r.random() < known:
            return self.r.choice(port.rows).alloc
        return self.r.choice([self.r.randrange(1024, 1024 + self.allocs)] * 20 + [1023, 16383, 16384])

    def rate(self):
        return self.r.choice([0, 0, 1, self.r.randrange(300), self.r.randrange(self.scale), 2_488_320 if self.r.random() < 0.1 else 256])

    def descriptor(self):
        fixed, assured = self.rate(), self.rate()
        more = self.r.choice([0, 1, self.r.randrange(1, self.scale * 4), self.r.randrange(1, 2_000_000), self.r.randrange(1, 2_000_000), 2_488_320])
        most = min(fixed + assured + more, self.r.choice([2_488_320] * 30 + [2_488_321, 10]))
        return f"{fixed} {assured} {most} {self.r.choice(['none', 'na', 'be', 'be'])}"

    def report(self, port):
        open_maps = [it for it in port.window if len(it.reporters) < len({onu for onu, _, _ in it.grants})]
        if not open_maps or self.r.random() < 0.02:
            return f"{self.r.randrange(port.next + 3)} {self.onu()} 1"
        polled = open_maps[-1] if self.r.random() < 0.6 else self.r.choice(open_maps)
        onus = sorted({onu for onu, _, _ in polled.grants})
        missing = [onu for onu in onus if onu not in polled.reporters]
        onu = self.r.choice(missing if self.r.random() < 0.97 else onus)
        count = max(1, len(polled.of_onu(onu)) + (self.r.choice([-1, 1]) if self.r.random() < 0.03 else 0))
        return f"{polled.frame} {onu} {' '.join(self.occupancy() for _ in range(count))}"

    def occupancy(self):
        often = [str(self.r.randrange(self.waiting)) for _ in range(4)]
        return self.r.choice(["x", "0", "16777215" if self.r.random() < 0.2 else "5", *often])


def answered(r, desks, count, seen=None):
    """Returns random lines, and the second planner's replies to them. Sees each line's reply before it makes the next."""
    source, lines, replies = Lines(r, desks), [], []
    for _ in range(count):
        lines.append(source.next().encode("latin-1"))
        text = planner.reply(desks, lines[-1])
        if text is not None:
            replies.append(text)
        if seen:
            seen()
    return lines, replies
