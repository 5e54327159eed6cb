"""Writes random management lines of one port with this many maps: events that are taken, and some that are refused."""
import random
import sys

frames, seed = int(sys.argv[1]), int(sys.argv[2])
r = random.Random(seed)
rows, polled = {}, {}
print("0 restore")
for frame in range(frames):
    for _ in range(r.choice([0, 0, 0, 1, 2] if frame > 40 else [2, 3, 4])):
        kind = r.random()
        if kind < 0.7 or not rows:
            alloc, onu = r.randrange(1024, 1324), r.randrange(0, 40)
            fixed, assured = r.choice([0, 0, 1000, 2560, 5000]), r.choice([0, 0, 3000, 8000])
            word = r.choice(["none", "na", "be", "be"])
            most = fixed + assured + (r.choice([0, 10000, 100000]) if word != "none" else r.choice([0, 500]))
            print("0 admit", onu, alloc, fixed, assured, most, word)
            rows.setdefault(alloc, onu)
        elif kind < 0.85:
            alloc = r.choice(list(rows))
            print("0 change", alloc, r.choice([0, 4000]), r.choice([0, 6000]), r.choice([3000, 20000, 400000]), r.choice(["none", "na", "be"]))
        else:
            alloc = r.choice(list(rows))
            print("0 remove", alloc)
            rows.pop(alloc)
    print("0 map")
    if r.random() < 0.1:
        print("0 show")
    if r.random() < 0.01:
        print("0 fail", r.randrange(1, 10))
        print("0 map")
        print("0 restore")
    onus = sorted(set(rows.values()))
    for onu in r.sample(onus, min(len(onus), r.randrange(0, 12))):
        count = sum(o == onu for o in rows.values())
        if r.random() < 0.05:
            count += 1
        print("0 report", frame, onu, *[r.choice(["x", r.randrange(0, 60), r.randrange(0, 3000)]) if r.random() < 0.3 else r.randrange(0, 400) for _ in range(min(count, 16))])
