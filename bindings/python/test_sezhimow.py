"""Tests of the module: python3 -m unittest, with SEZHIMOW_LIBRARY set to the shared library."""

import re
import threading
import unittest
from pathlib import Path

import sezhimow
from sezhimow import Class, ClassCertificate, Item, Level, Port, Refused, Told

HEADER = Path(__file__).parents[2] / "include" / "sezhimow.h"


def defined(name: str) -> int:
    """Returns the number that the header gives to a name."""
    return int(re.search(rf"#define {name} (\d+)u", HEADER.read_text())[1])


class Tests(unittest.TestCase):
    def refused(self, told, call, *arguments):
        with self.assertRaises(Refused) as raised:
            call(*arguments)
        self.assertEqual(raised.exception.told, told)
        return raised.exception

    def test_versions(self):
        major, minor, patch = sezhimow.version()
        self.assertEqual(major << 16 | minor << 8 | patch, defined("SEZ_VERSION"))
        self.assertEqual(sezhimow.abi(), defined("SEZ_ABI"))

    def test_a_call_that_is_not_taken_says_why(self):
        self.refused(Told.BAD_GAP, Port, 0)
        self.refused(Told.BAD_GAP, Port, 65552)
        self.refused(Told.BAD_PROFILE, Port, 1, 4)
        with Port() as port:
            self.refused(Told.NO_SUCH_ALLOC, port.remove, 1024)
            self.refused(Told.ALLOC_RANGE, port.remove, 66560)
            self.refused(Told.ONU_RANGE, port.admit, -1, 1024, 0, 0, 9)
            self.refused(Told.RATE_RANGE, port.admit, 1, 1024, 1 << 64, 0, 9)
            self.refused(Told.BAD_OCCUPANCY, port.report, 0, 1, [0xFFFFFFFF])
            self.refused(Told.BAD_COUNT, port.report, 0, 1, [None] * 17)
            self.refused(Told.NO_MAP, port.certificate)
            self.refused(Told.NO_MAP, port.why, 1024)
            self.refused(Told.PORT_UP, port.restore)
        self.refused(Told.CLOSED, port.map)
        port.close()

    def test_a_map_is_explained_and_checked(self):
        with Port() as port:
            port.admit(7, 2000, 0, 0, 256_000, Class.BEST_EFFORT)
            port.report(port.map().frame, 7, [100_000])
            made = port.map()
            why = port.why(2000)
            self.assertEqual((why.frame, why.guaranteed, why.item.cap, why.surplus), (1, 0, 256_000, (256_000, 1)))
            certificate = port.certificate_parts().best_effort
            self.assertEqual(certificate, ClassCertificate(Level(None), (True,)))
            sezhimow.check_class([why.item], port.state().capacity, certificate)
            other = ClassCertificate(Level(None), (False,))
            self.refused(Told.CERT_UNSATURATED, sezhimow.check_class, [why.item], 256_000, other)
            self.refused(Told.BAD_PROBLEM, sezhimow.check_class, [Item(0, 0)], 1, other)
            decoded = sezhimow.decode_map(made.data)
            self.assertEqual((decoded.size, decoded.structures[0].grant), (12, why.grant))
            self.refused(Told.SHORT, sezhimow.decode_map, made.data[:11])
            rows = list(port.rows())
            self.assertEqual(rows, [port.find(2000)])
            self.assertEqual(rows[0].load, 256 * rows[0].report[1])

    def test_a_chapter_is_written_on_another_thread(self):
        with Port() as port:
            port.admit(7, 2000, 0, 0, 256_000, Class.BEST_EFFORT)
            for _ in range(100):
                port.map()
            found = []
            with port.turn() as chapter:
                writer = threading.Thread(target=lambda: found.append(chapter.recording(5)))
                writer.start()
                port.map()
                writer.join()
            self.assertEqual(sezhimow.audit(found[0]), sezhimow.Good(100))
            self.assertEqual(sezhimow.audit(found[0][:9]), sezhimow.Truncated(8))
            self.assertEqual(sezhimow.audit(b"no recording"), sezhimow.Malformed(0))
            self.refused(Told.CLOSED, chapter.recording, 5)

    def test_a_port_goes_on_where_a_recording_ends(self):
        with Port() as port:
            port.admit(7, 2000, 0, 0, 256_000, Class.BEST_EFFORT)
            port.report(port.map().frame, 7, [100_000])
            with port.turn() as chapter:
                first = chapter.recording(5)
            with Port.resume(first, 5) as resumed:
                self.assertEqual((resumed.state(), list(resumed.rows())), (port.state(), list(port.rows())))
                self.assertEqual(resumed.map(), port.map())
                with resumed.turn() as chapter:
                    both = first + chapter.recording(5)[8:]
            self.assertEqual(sezhimow.audit(both), sezhimow.Good(2))
        self.refused(Told.NO_CHAPTER, Port.resume, first, 6)
        self.refused(Told.BAD_PORT, Port.resume, first, 64)
        raised = self.refused(Told.NOT_GOOD, Port.resume, first[:-1], 5)
        self.assertEqual(raised.verdict, sezhimow.Truncated(8))

    def test_a_map_as_grants(self):
        with Port() as port, Port() as other:
            for it in (port, other):
                it.admit(7, 2000, 0, 0, 256_000, Class.BEST_EFFORT)
                it.admit(7, 2001, 2560, 0, 2560)
            decoded = sezhimow.decode_map(port.map().data).structures
            frame, grants = other.map_grants()
            self.assertEqual((frame, grants[1].start), (0, None))
            self.assertEqual([(it.alloc_id, it.start, it.words) for it in grants], [(it.alloc_id, it.start, it.grant) for it in decoded])

    def test_heads_of_maps(self):
        with Port() as port:
            port.admit(7, 2000, 0, 0, 256_000, Class.BEST_EFFORT)
            head = bytearray(port.map().data[:4])
        self.assertEqual(sezhimow.seal_map_head(1), bytes(head))
        head[3] ^= 0x81
        self.assertEqual(sezhimow.open_map_head(bytes(head)), (1, 0, 2))
        self.assertEqual(sezhimow.open_map_head(sezhimow.seal_map_head(2047, 255)), (2047, 255, 0))
        self.refused(Told.BAD_HEADER, sezhimow.seal_map_head, 2048)
        self.refused(Told.SHORT, sezhimow.open_map_head, b"")

    def test_headers_and_reports(self):
        header = bytearray(sezhimow.seal_header(1022, 257))
        header[0] ^= 0x42
        self.assertEqual(sezhimow.open_header(bytes(header)), (1022, 257, 2))
        self.refused(Told.BAD_HEADER, sezhimow.seal_header, 1024, 0)
        self.assertEqual(sezhimow.open_report(sezhimow.seal_report(16_777_215)), 16_777_215)
        self.refused(Told.SHORT, sezhimow.open_report, b"")
        self.refused(Told.BAD_REPORT, sezhimow.open_report, b"\0\0\0\1")


if __name__ == "__main__":
    unittest.main()
