"""Prints the map of the README."""

import sezhimow

with sezhimow.Port(gap=16) as port:
    port.admit(onu=5, alloc_id=1024, fixed=2560, assured=0, maximum=2560)
    made = port.map()
    print("map", made.frame, made.data.hex())
