"""32 bursty ONUs under one port for 10,000 frames: what they request, what they are granted, what waits.

    python3 simulate.py [PICTURE]

Writes a line of sums, and with matplotlib a picture of the words of each 100 frames. Each ONU has one best-effort Alloc-ID, sends
bursts of packets at random, and reports its queue for each map.
"""

import random
import sys

from sezhimow import Class, Port, decode_map

ONUS, FRAMES, STEP = 32, 10_000, 100


class Onu:
    """A queue of words: off for a while, and then on at a rate of its own."""

    def __init__(self, number: int) -> None:
        self.random = random.Random(number)
        self.queue = 0
        self.on = False
        self.rate = self.random.randrange(100, 700)

    def arrive(self) -> int:
        if self.random.random() < 0.01:
            self.on = not self.on
        words = self.random.randrange(2 * self.rate) if self.on else 0
        self.queue += words
        return words

    def send(self, granted: int) -> int:
        sent = min(granted, self.queue)
        self.queue -= sent
        return sent


def frame(port: Port, onus: list[Onu]) -> tuple[int, int, int]:
    """Makes a map, and answers it. Returns the words that arrived, were sent, and wait."""
    arrived = sum(onu.arrive() for onu in onus)
    made = port.map()
    sent = 0
    for structure in decode_map(made.data).structures:
        number = structure.alloc_id - 1024
        sent += onus[number].send(structure.grant - 1)
        port.report(made.frame, number, [min(onus[number].queue, 16_777_215)])
    return arrived, sent, sum(onu.queue for onu in onus)


def simulate() -> list[tuple[int, int, int]]:
    """Returns the words that arrived and were sent in each 100 frames, and those that waited at their end."""
    onus = [Onu(number) for number in range(ONUS)]
    steps = []
    with Port(gap=16) as port:
        for number in range(ONUS):
            port.admit(number, 1024 + number, fixed=0, assured=2560, maximum=1_000_000, share=Class.BEST_EFFORT)
        for start in range(0, FRAMES, STEP):
            frames = [frame(port, onus) for _ in range(STEP)]
            steps.append((sum(f[0] for f in frames), sum(f[1] for f in frames), frames[-1][2]))
            port.turn().close()
    return steps


def draw(steps: list[tuple[int, int, int]], path: str) -> None:
    try:
        import matplotlib

        matplotlib.use("Agg")
        from matplotlib import pyplot
    except ImportError:
        print("no matplotlib here, so no picture", file=sys.stderr)
        return
    frames = [STEP * (k + 1) for k in range(len(steps))]
    for index, name in enumerate(("requested", "granted", "waiting")):
        pyplot.plot(frames, [step[index] for step in steps], label=name)
    pyplot.xlabel("frame of 125 us")
    pyplot.ylabel(f"words of 4 bytes in {STEP} frames")
    pyplot.legend()
    pyplot.savefig(path)


if __name__ == "__main__":
    found = simulate()
    print(f"{FRAMES} frames: {sum(s[0] for s in found)} words requested, {sum(s[1] for s in found)} granted, {found[-1][2]} waiting")
    if len(sys.argv) > 1:
        draw(found, sys.argv[1])
