#!/usr/bin/env python3
"""A line that delays and loses packets, in user space: passes the Ethernet frames of two network devices on to each other, each a little later, and drops some. It says `ready`, and
goes on until it is ended. It needs the right to read raw frames.

    examples/bad_line.py DEVICE DEVICE
"""
import heapq
import itertools
import random
import select
import socket
import sys
import time

SEED = 20261127
# In seconds, and of all packets.
DELAY, VARIATION, LOSS = 0.003, 0.001, 0.02
EVERY_PROTOCOL = 3
LONGEST = 65_535
OUTGOING = 4
# With this option of packet sockets a frame has before it what the sender left to the device, such as its checksum.
SOL_PACKET, PACKET_VNET_HDR = 263, 15


def open_device(name):
    device = socket.socket(socket.AF_PACKET, socket.SOCK_RAW, socket.htons(EVERY_PROTOCOL))
    device.setsockopt(SOL_PACKET, PACKET_VNET_HDR, 1)
    device.bind((name, 0))
    return device


def main():
    one, other = map(open_device, sys.argv[1:])
    ends, chance, order, waiting = {one: other, other: one}, random.Random(SEED), itertools.count(), []
    print("ready", flush=True)
    while True:
        wait = max(0, waiting[0][0] - time.monotonic()) if waiting else None
        for device in select.select([one, other], [], [], wait)[0]:
            frame, address = device.recvfrom(LONGEST)
            if address[2] != OUTGOING and chance.random() >= LOSS:
                due = time.monotonic() + DELAY + VARIATION * chance.uniform(-1, 1)
                heapq.heappush(waiting, (due, next(order), ends[device], frame))
        while waiting and waiting[0][0] <= time.monotonic():
            _due, _number, to, frame = heapq.heappop(waiting)
            to.send(frame)


if __name__ == "__main__":
    main()
