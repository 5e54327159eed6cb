#!/usr/bin/env python3
"""Units of one port in another language, from docs/PEERS.md alone: connects to a terminal, reads its maps, and answers each burst. The first word says
how; all but `honest` are faults of the line.

    examples/peer.py WAY ADDRESS PORT
"""
import itertools
import socket
import sys
import time

UP, DOWN = b"\x55", b"\x44"
HEC_POLYNOMIAL, HEC_BITS = 0b1010100111001, 12
DBRU_POLYNOMIAL, DBRU_BITS = 0x107, 8
NO_START = 0xFFFF
NOBODY = 1023
# The same number of words waits at each Alloc-ID.
WAITING = 500
# A slow unit sends so many bytes of each answer one at a time.
SLOWLY, SLOW_BYTES = 0.12, 10
# A little room for bytes that nobody reads: the terminal's writes then wait early.
LITTLE_ROOM = 4096


def remainder(number, polynomial, bits):
    number <<= bits
    for place in range(number.bit_length() - 1, bits - 1, -1):
        if number >> place & 1:
            number ^= polynomial << (place - bits)
    return number


def with_hec(payload):
    """Returns a word with its HEC: the check bits, and the bit that makes the number of ones even."""
    word = payload << HEC_BITS | remainder(payload, HEC_POLYNOMIAL, HEC_BITS)
    return word << 1 | bin(word).count("1") & 1


def report_of(waiting):
    return (waiting << DBRU_BITS | remainder(waiting, DBRU_POLYNOMIAL, DBRU_BITS)).to_bytes(4, "big")


def record_of(frame, onu, reports):
    return UP + frame.to_bytes(8, "big") + with_hec(onu << 9).to_bytes(4, "big") + bytes([reports]) + report_of(WAITING) * reports


def read_map(stream):
    """Returns the frame of the next map and the number of structures of each of its bursts; None at the end."""
    head = stream.read(13)
    if len(head) < 13:
        return None
    assert head[:1] == DOWN
    structures = int.from_bytes(head[9:13], "big") >> 21
    bursts = []
    for _ in range(structures):
        start = int.from_bytes(stream.read(8)[2:4], "big")
        if start != NO_START:
            bursts.append(0)
        bursts[-1] += 1
    return int.from_bytes(head[1:9], "big"), bursts


def answers(frame, bursts):
    # The ONUs of the settings are numbered from 1, in the order of the map.
    return b"".join(record_of(frame, onu, reports) for onu, reports in enumerate(bursts, 1))


def honest(stream, line):
    for frame, bursts in iter(lambda: read_map(stream), None):
        line.sendall(answers(frame, bursts))


def of_another_frame(stream, line):
    for frame, bursts in iter(lambda: read_map(stream), None):
        line.sendall(answers(frame + 1000, bursts))


def of_nobody(stream, line):
    """Answers with the ONU-ID that no unit has."""
    for frame, bursts in iter(lambda: read_map(stream), None):
        line.sendall(b"".join(record_of(frame, NOBODY, reports) for reports in bursts))


def without_a_record(stream, line):
    read_map(stream)
    line.sendall(b"no record")
    stream.read()


def closed_inside_a_record(stream, line):
    line.sendall(answers(*read_map(stream))[:7])


def silent(stream, line):
    stream.read()


def slow(stream, line):
    for frame, bursts in iter(lambda: read_map(stream), None):
        answer = answers(frame, bursts)
        for byte in answer[:SLOW_BYTES]:
            line.sendall(bytes([byte]))
            time.sleep(SLOWLY)
        line.sendall(answer[SLOW_BYTES:])


def flooding(stream, line):
    """Answers each map, of as many bursts as the first has, before it is made, and reads no other."""
    _frame, bursts = read_map(stream)
    for frame in itertools.count():
        line.sendall(answers(frame, bursts))


WAYS = [honest, of_another_frame, of_nobody, without_a_record, closed_inside_a_record, silent, slow, flooding]


def connect(address, port):
    for _attempt in range(100):
        line = socket.socket()
        line.setsockopt(socket.SOL_SOCKET, socket.SO_RCVBUF, LITTLE_ROOM)
        try:
            line.connect((address, port))
            return line
        except ConnectionRefusedError:
            line.close()
            time.sleep(SLOWLY)
    sys.exit(f"nobody listens at {address}:{port}")


def main():
    way, address, port = sys.argv[1:]
    ways = {known.__name__: known for known in WAYS}
    with connect(address, int(port)) as line, line.makefile("rb") as stream:
        line.setsockopt(socket.IPPROTO_TCP, socket.TCP_NODELAY, 1)
        try:
            ways[way](stream, line)
        except (BrokenPipeError, ConnectionResetError):
            # The terminal gave up its link.
            pass


if __name__ == "__main__":
    main()
