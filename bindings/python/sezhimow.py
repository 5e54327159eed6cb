"""The upstream scheduler of an XG-PON optical line terminal, over libsezhimow.

A Port makes the bandwidth map of each upstream frame. Rates are in kbit/s, occupancies in words of 4 bytes.

    with Port(gap=16) as port:
        port.admit(onu=5, alloc_id=1024, fixed=2560, assured=0, maximum=2560)
        print(port.map().data.hex())

The module loads the library that SEZHIMOW_LIBRARY names, or else libsezhimow.so.0. Every call that the library does not
take raises Refused, and changes nothing. A Port is for one thread at a time; ctypes releases the interpreter's lock.
"""

from __future__ import annotations

import ctypes
import os
from collections.abc import Iterator, Sequence
from dataclasses import dataclass
from enum import IntEnum
from types import TracebackType

__all__ = [
    "Bad",
    "Cause",
    "Certificate",
    "Chapter",
    "Class",
    "ClassCertificate",
    "Decoded",
    "GARBLED",
    "Good",
    "Grant",
    "Item",
    "Level",
    "Malformed",
    "Map",
    "NotGood",
    "Port",
    "Reason",
    "Refused",
    "Row",
    "State",
    "Structure",
    "Told",
    "Truncated",
    "Why",
    "abi",
    "audit",
    "check_class",
    "decode_map",
    "open_header",
    "open_map_head",
    "open_report",
    "seal_header",
    "seal_map_head",
    "seal_report",
    "version",
]

GARBLED = None
"""In place of an occupancy: the report was garbled."""

_GARBLED = 0xFFFFFFFF
_MAP_ROOM = 4100
_MOST = 512
_NO_START = 0xFFFF
_FRACTION = 2


class Told(IntEnum):
    """Why a call was not taken: the numbers of sezhimow.h."""

    NO_SUCH_ALLOC = 1
    ALLOC_TAKEN = 2
    ALLOC_RANGE = 3
    ONU_RANGE = 4
    RATE_RANGE = 5
    MAX_BELOW_GUARANTEED = 6
    NEEDS_GUARANTEE = 7
    NO_SURPLUS_ROOM = 8
    TOO_MANY_ALLOCS = 9
    TOO_MANY_ONUS = 10
    SERIES_FULL = 11
    CAPACITY = 12
    STALE_FRAME = 13
    NOT_POLLED = 14
    REPORT_COUNT = 15
    ALREADY_REPORTED = 16
    PORT_DOWN = 17
    PORT_UP = 18
    FRAME_LIMIT = 19
    CHAPTER_FULL = 20
    OUT_OF_MEMORY = 21
    CLOSED = 32
    IS_OPEN = 33
    BAD_GAP = 34
    BAD_PROFILE = 35
    BAD_CLASS = 36
    BAD_CAUSE = 37
    BAD_COUNT = 38
    BAD_OCCUPANCY = 39
    BAD_PORT = 40
    NO_ROOM = 41
    NO_MAP = 42
    NO_ROW = 43
    SHORT = 44
    BAD_CODE = 45
    BAD_HEADER = 46
    BAD_REPORT = 47
    TOO_MANY = 48
    SERIES_START = 49
    START_RANGE = 50
    SERIES_LONG = 51
    BAD_PROBLEM = 52
    BAD_LEVEL = 53
    CERT_LENGTH = 54
    CERT_DENOMINATOR = 55
    CERT_SATURATED = 56
    CERT_UNSATURATED = 57
    CERT_NOT_EXHAUSTED = 58
    CERT_OVERSPENT = 59
    NOT_GOOD = 60
    NO_CHAPTER = 61
    BAD_STATE = 62


class Class(IntEnum):
    """How an Alloc-ID shares surplus."""

    NONE = 0
    NON_ASSURED = 1
    BEST_EFFORT = 2


class Cause(IntEnum):
    """Why a line is failed; 6 to 9 are free."""

    OPERATOR = 1
    READ = 2
    WRITE = 3
    BAD_RECORD = 4
    END_OF_INPUT = 5


class Refused(Exception):
    """A call was not taken; `told` says why, and `place` where if that is the fault of one item or structure."""

    def __init__(self, told: Told, place: int = 0) -> None:
        super().__init__(told.name)
        self.told = told
        self.place = place


@dataclass(frozen=True)
class Map:
    """A bandwidth map: its frame, and its bytes as on the line."""

    frame: int
    data: bytes


@dataclass(frozen=True)
class Grant:
    """The grant of a map to an Alloc-ID; `start` is None if it continues the burst before it."""

    alloc_id: int
    start: int | None
    words: int


@dataclass(frozen=True)
class State:
    """What is shown of a port; `cause` is None if the line is up."""

    next_frame: int
    chapter: int
    taken: int
    kept: int
    alloc_ids: int
    onus: int
    guaranteed: int
    capacity: int
    cause: int | None


@dataclass(frozen=True)
class Row:
    """What is shown of an admitted Alloc-ID; `report` is the frame and the words left of the report that counts."""

    onu: int
    alloc_id: int
    fixed: int
    assured: int
    maximum: int
    share: Class
    load: int
    carry: int
    report: tuple[int, int] | None


@dataclass(frozen=True)
class Level:
    """The level of a class: `fraction` is its numerator and denominator, or None if each Alloc-ID gets its cap."""

    fraction: tuple[int, int] | None


@dataclass(frozen=True)
class ClassCertificate:
    """The level of a class, and whether each of its Alloc-IDs, in map order, gets its cap."""

    level: Level
    saturated: tuple[bool, ...]


@dataclass(frozen=True)
class Certificate:
    """The certificate of a map: of the non-assured and of the best-effort class."""

    non_assured: ClassCertificate
    best_effort: ClassCertificate


@dataclass(frozen=True)
class Item:
    """An item of a class problem: weight 1 to 2,488,320, cap 0 to 2,488,320 kbit/s."""

    weight: int
    cap: int


@dataclass(frozen=True)
class Why:
    """What the last map gives an Alloc-ID, with each number that it follows from. Rates are in kbit/s."""

    frame: int
    onu: int
    alloc_id: int
    fixed: int
    assured: int
    maximum: int
    share: Class
    report: tuple[int, int] | None
    load: int
    guaranteed: int
    item: Item
    surplus: tuple[int, int]
    carry: int
    owed: int
    level: Level | None
    start: int | None
    grant: int


class Reason(IntEnum):
    """Why a chapter of a recording is bad."""

    OPENING = 1
    CHAIN = 2
    NUMBER = 3
    EVENT = 4
    CERTIFICATE = 5
    WORDS = 6
    BURSTS = 7


@dataclass(frozen=True)
class Good:
    """Each chapter is good; together they have this number of maps."""

    maps: int


@dataclass(frozen=True)
class Bad:
    """The first chapter that fails, and the index of its entry, from 0."""

    port: int
    chapter: int
    entry: int
    why: Reason


@dataclass(frozen=True)
class Malformed:
    """The bytes are no recording from this place on."""

    at: int


@dataclass(frozen=True)
class Truncated:
    """The bytes end inside the chapter at this place."""

    at: int


class NotGood(Refused):
    """A recording is not good, as `verdict` says."""

    def __init__(self, verdict: Bad | Malformed | Truncated) -> None:
        super().__init__(Told.NOT_GOOD)
        self.verdict = verdict


@dataclass(frozen=True)
class Structure:
    """An allocation structure of a map; `start` is None if it continues the burst before it."""

    alloc_id: int
    start: int | None
    grant: int
    profile: int
    dbru: bool
    ploam: bool
    fwi: bool


@dataclass(frozen=True)
class Decoded:
    """What was decoded of a map: its structures, the bytes that it uses, and the corrected bits."""

    structures: tuple[Structure, ...]
    size: int
    corrected: int


class _Port(ctypes.Structure):
    _fields_ = [("owned", ctypes.c_void_p), ("is_open", ctypes.c_bool)]


class _Chapter(ctypes.Structure):
    _fields_ = [("owned", ctypes.c_void_p), ("is_open", ctypes.c_bool)]


class _MapInfo(ctypes.Structure):
    _fields_ = [("frame", ctypes.c_uint64), ("size", ctypes.c_size_t)]


class _StateInfo(ctypes.Structure):
    _fields_ = [
        ("next_frame", ctypes.c_uint64),
        ("chapter", ctypes.c_uint64),
        ("taken", ctypes.c_uint64),
        ("kept", ctypes.c_size_t),
        ("alloc_ids", ctypes.c_size_t),
        ("onus", ctypes.c_size_t),
        ("guaranteed", ctypes.c_uint64),
        ("capacity", ctypes.c_uint64),
        ("cause", ctypes.c_uint8),
    ]


class _RowInfo(ctypes.Structure):
    _fields_ = [
        ("fixed", ctypes.c_uint64),
        ("assured", ctypes.c_uint64),
        ("max", ctypes.c_uint64),
        ("load", ctypes.c_uint64),
        ("report_frame", ctypes.c_uint64),
        ("report_words", ctypes.c_uint32),
        ("onu", ctypes.c_uint16),
        ("alloc_id", ctypes.c_uint16),
        ("class_", ctypes.c_uint8),
        ("carry", ctypes.c_uint8),
        ("has_report", ctypes.c_bool),
    ]


class _GrantInfo(ctypes.Structure):
    _fields_ = [
        ("alloc_id", ctypes.c_uint16),
        ("start", ctypes.c_uint16),
        ("words", ctypes.c_uint16),
    ]


class _GrantsInfo(ctypes.Structure):
    _fields_ = [("frame", ctypes.c_uint64), ("count", ctypes.c_size_t)]


class _LevelsInfo(ctypes.Structure):
    _fields_ = [
        ("na_num", ctypes.c_uint64),
        ("na_den", ctypes.c_uint64),
        ("be_num", ctypes.c_uint64),
        ("be_den", ctypes.c_uint64),
        ("na_count", ctypes.c_size_t),
        ("be_count", ctypes.c_size_t),
        ("na_level", ctypes.c_uint8),
        ("be_level", ctypes.c_uint8),
    ]


class _ItemInfo(ctypes.Structure):
    _fields_ = [
        ("weight", ctypes.c_uint64),
        ("cap", ctypes.c_uint64),
    ]


class _WhyInfo(ctypes.Structure):
    _fields_ = [
        ("frame", ctypes.c_uint64),
        ("fixed", ctypes.c_uint64),
        ("assured", ctypes.c_uint64),
        ("max", ctypes.c_uint64),
        ("load", ctypes.c_uint64),
        ("guaranteed", ctypes.c_uint64),
        ("weight", ctypes.c_uint64),
        ("cap", ctypes.c_uint64),
        ("surplus_num", ctypes.c_uint64),
        ("surplus_den", ctypes.c_uint64),
        ("owed", ctypes.c_uint64),
        ("level_num", ctypes.c_uint64),
        ("level_den", ctypes.c_uint64),
        ("report_frame", ctypes.c_uint64),
        ("report_words", ctypes.c_uint32),
        ("onu", ctypes.c_uint16),
        ("alloc_id", ctypes.c_uint16),
        ("start", ctypes.c_uint16),
        ("grant", ctypes.c_uint16),
        ("class_", ctypes.c_uint8),
        ("level", ctypes.c_uint8),
        ("carry", ctypes.c_uint8),
        ("has_report", ctypes.c_bool),
    ]


class _VerdictInfo(ctypes.Structure):
    _fields_ = [
        ("maps", ctypes.c_uint64),
        ("chapter", ctypes.c_uint64),
        ("place", ctypes.c_size_t),
        ("verdict", ctypes.c_uint8),
        ("port", ctypes.c_uint8),
        ("why", ctypes.c_uint8),
    ]


class _HeaderInfo(ctypes.Structure):
    _fields_ = [
        ("onu", ctypes.c_uint16),
        ("indications", ctypes.c_uint16),
        ("corrected", ctypes.c_uint8),
    ]


class _MapHeadInfo(ctypes.Structure):
    _fields_ = [
        ("structures", ctypes.c_uint16),
        ("messages", ctypes.c_uint8),
        ("corrected", ctypes.c_uint8),
    ]


class _StructureInfo(ctypes.Structure):
    _fields_ = [
        ("alloc_id", ctypes.c_uint16),
        ("start", ctypes.c_uint16),
        ("grant", ctypes.c_uint16),
        ("profile", ctypes.c_uint8),
        ("dbru", ctypes.c_bool),
        ("ploam", ctypes.c_bool),
        ("fwi", ctypes.c_bool),
    ]


class _DecodedInfo(ctypes.Structure):
    _fields_ = [
        ("count", ctypes.c_size_t),
        ("size", ctypes.c_size_t),
        ("corrected", ctypes.c_uint32),
    ]


_U8, _U16, _U32, _U64, _SIZE = ctypes.c_uint8, ctypes.c_uint16, ctypes.c_uint32, ctypes.c_uint64, ctypes.c_size_t
_BYTES, _WORDS, _SIZE_OUT = ctypes.POINTER(_U8), ctypes.POINTER(_U32), ctypes.POINTER(_SIZE)
_FLAGS = ctypes.POINTER(ctypes.c_bool)
_PORT, _CHAPTER = ctypes.POINTER(_Port), ctypes.POINTER(_Chapter)

_SIGNATURES: dict[str, list[type]] = {
    "sez_version": [],
    "sez_abi": [],
    "sez_open": [_PORT, _U16, _U8, _U64],
    "sez_close": [_PORT],
    "sez_admit": [_PORT, _U16, _U16, _U64, _U64, _U64, _U8],
    "sez_change": [_PORT, _U16, _U64, _U64, _U64, _U8],
    "sez_remove": [_PORT, _U16],
    "sez_report": [_PORT, _U64, _U16, _WORDS, _SIZE],
    "sez_fail": [_PORT, _U8],
    "sez_restore": [_PORT],
    "sez_map": [_PORT, _BYTES, _SIZE, ctypes.POINTER(_MapInfo)],
    "sez_certificate": [_PORT, _BYTES, _SIZE, _SIZE_OUT],
    "sez_map_grants": [_PORT, ctypes.POINTER(_GrantInfo), _SIZE, ctypes.POINTER(_GrantsInfo)],
    "sez_levels": [_PORT, _FLAGS, _SIZE, _FLAGS, _SIZE, ctypes.POINTER(_LevelsInfo)],
    "sez_check_class": [ctypes.POINTER(_ItemInfo), _SIZE, _U64, _U8, _U64, _U64, _FLAGS, _SIZE, _SIZE_OUT],
    "sez_state": [_PORT, ctypes.POINTER(_StateInfo)],
    "sez_row": [_PORT, _SIZE, ctypes.POINTER(_RowInfo)],
    "sez_find": [_PORT, _U16, ctypes.POINTER(_RowInfo)],
    "sez_why": [_PORT, _U16, ctypes.POINTER(_WhyInfo)],
    "sez_turn": [_PORT, _CHAPTER],
    "sez_chapter_bytes": [_CHAPTER, _U8, _BYTES, _SIZE, _SIZE_OUT],
    "sez_chapter_close": [_CHAPTER],
    "sez_audit": [_BYTES, _SIZE, ctypes.POINTER(_VerdictInfo)],
    "sez_resume": [_PORT, _BYTES, _SIZE, _U8, ctypes.POINTER(_VerdictInfo)],
    "sez_header_seal": [_U16, _U16, _BYTES, _SIZE],
    "sez_header_open": [_BYTES, _SIZE, ctypes.POINTER(_HeaderInfo)],
    "sez_map_head_seal": [_U16, _U8, _BYTES, _SIZE],
    "sez_map_head_open": [_BYTES, _SIZE, ctypes.POINTER(_MapHeadInfo)],
    "sez_report_seal": [_U32, _BYTES, _SIZE],
    "sez_report_open": [_BYTES, _SIZE, ctypes.POINTER(_U32)],
    "sez_map_decode": [_BYTES, _SIZE, ctypes.POINTER(_StructureInfo), _SIZE, ctypes.POINTER(_DecodedInfo)],
}


def _load() -> ctypes.CDLL:
    library = ctypes.CDLL(os.environ.get("SEZHIMOW_LIBRARY", "libsezhimow.so.0"))
    for name, parameters in _SIGNATURES.items():
        function = getattr(library, name)
        function.argtypes = parameters
        function.restype = _U32
    return library


_library = _load()


def version() -> tuple[int, int, int]:
    """The version of the library."""
    number = _library.sez_version()
    return (number >> 16, number >> 8 & 0xFF, number & 0xFF)


def abi() -> int:
    """The version of the interface of the library."""
    return _library.sez_abi()


def _within(value: int, bits: int, told: Told) -> int:
    """ctypes cuts a number to its width: refuse one that does not fit."""
    if not 0 <= value < 1 << bits:
        raise Refused(told)
    return value


def _check(told: int, place: int = 0) -> None:
    if told != 0:
        raise Refused(Told(told), place)


def _level(kind: int, num: int, den: int) -> Level:
    return Level((num, den) if kind == _FRACTION else None)


def _report(info: _RowInfo | _WhyInfo) -> tuple[int, int] | None:
    return (info.report_frame, info.report_words) if info.has_report else None


def _start(start: int) -> int | None:
    return None if start == _NO_START else start


def _bytes_of(data: bytes) -> ctypes.Array[_U8]:
    return (_U8 * len(data)).from_buffer_copy(data)


def _row(info: _RowInfo) -> Row:
    return Row(
        onu=info.onu,
        alloc_id=info.alloc_id,
        fixed=info.fixed,
        assured=info.assured,
        maximum=info.max,
        share=Class(info.class_),
        load=info.load,
        carry=info.carry,
        report=_report(info),
    )


class Chapter:
    """A chapter that a port has returned."""

    def __init__(self) -> None:
        self._handle = _Chapter()

    def recording(self, number: int) -> bytes:
        """The recording of the chapter, as one of the port with this number, 0 to 63."""
        number = _within(number, 8, Told.BAD_PORT)
        size = _SIZE(0)
        room = (_U8 * 0)()
        told = _library.sez_chapter_bytes(self._handle, number, room, 0, size)
        while told == Told.NO_ROOM:
            room = (_U8 * size.value)()
            told = _library.sez_chapter_bytes(self._handle, number, room, size.value, size)
        _check(told)
        return bytes(room)[: size.value]

    def close(self) -> None:
        """Frees the chapter; does nothing once it is closed."""
        _library.sez_chapter_close(self._handle)

    def __enter__(self) -> Chapter:
        return self

    def __exit__(self, kind: type[BaseException] | None, error: BaseException | None, trace: TracebackType | None) -> None:
        self.close()

    def __del__(self) -> None:
        self.close()


class Port:
    """An open port: no Alloc-ID, the line up, `first` as its next frame. `gap` is in words, 1 to 256."""

    def __init__(self, gap: int = 16, profile: int = 0, first: int = 0) -> None:
        self._handle = _Port()
        self._room = (_U8 * _MAP_ROOM)()
        gap = _within(gap, 16, Told.BAD_GAP)
        profile = _within(profile, 8, Told.BAD_PROFILE)
        _check(_library.sez_open(self._handle, gap, profile, _within(first, 64, Told.FRAME_LIMIT)))

    @classmethod
    def resume(cls, recording: bytes, number: int) -> Port:
        """A port that goes on where the last chapter of the port with this number, 0 to 63, ends. NotGood if the audit says so."""
        port, info = cls.__new__(cls), _VerdictInfo()
        port._handle, port._room = _Port(), (_U8 * _MAP_ROOM)()
        number = _within(number, 8, Told.BAD_PORT)
        told = _library.sez_resume(port._handle, _bytes_of(recording), len(recording), number, info)
        verdict = _verdict(info)
        if told == Told.NOT_GOOD and not isinstance(verdict, Good):
            raise NotGood(verdict)
        _check(told)
        return port

    def admit(self, onu: int, alloc_id: int, fixed: int, assured: int, maximum: int, share: Class = Class.NONE) -> None:
        """Admits an Alloc-ID to an ONU: each later map has it."""
        alloc_id = _within(alloc_id, 16, Told.ALLOC_RANGE)
        onu = _within(onu, 16, Told.ONU_RANGE)
        rates = [_within(rate, 64, Told.RATE_RANGE) for rate in (fixed, assured, maximum)]
        _check(_library.sez_admit(self._handle, onu, alloc_id, *rates, _within(share, 8, Told.BAD_CLASS)))

    def change(self, alloc_id: int, fixed: int, assured: int, maximum: int, share: Class = Class.NONE) -> None:
        """Changes the rates and the class of an admitted Alloc-ID."""
        alloc_id = _within(alloc_id, 16, Told.ALLOC_RANGE)
        rates = [_within(rate, 64, Told.RATE_RANGE) for rate in (fixed, assured, maximum)]
        _check(_library.sez_change(self._handle, alloc_id, *rates, _within(share, 8, Told.BAD_CLASS)))

    def remove(self, alloc_id: int) -> None:
        """Removes an admitted Alloc-ID."""
        _check(_library.sez_remove(self._handle, _within(alloc_id, 16, Told.ALLOC_RANGE)))

    def report(self, frame: int, onu: int, occupancies: Sequence[int | None]) -> None:
        """Takes the report of an ONU for the map of a frame: words of each of its structures in order, or GARBLED."""
        onu = _within(onu, 16, Told.ONU_RANGE)
        if any(o == _GARBLED for o in occupancies):
            raise Refused(Told.BAD_OCCUPANCY)
        numbers = [_GARBLED if o is None else _within(o, 32, Told.BAD_OCCUPANCY) for o in occupancies]
        words = (_U32 * len(numbers))(*numbers)
        _check(_library.sez_report(self._handle, _within(frame, 64, Told.STALE_FRAME), onu, words, len(numbers)))

    def fail(self, cause: int) -> None:
        """Fails the line for a cause, 1 to 9."""
        _check(_library.sez_fail(self._handle, _within(cause, 8, Told.BAD_CAUSE)))

    def restore(self) -> None:
        """Restores a failed line."""
        _check(_library.sez_restore(self._handle))

    def map(self) -> Map:
        """Makes the map of the next frame."""
        info = _MapInfo()
        _check(_library.sez_map(self._handle, self._room, _MAP_ROOM, info))
        return Map(info.frame, bytes(self._room[: info.size]))

    def map_grants(self) -> tuple[int, tuple[Grant, ...]]:
        """Makes the map of the next frame; its frame, and its grants in place of its bytes."""
        info, grants = _GrantsInfo(), (_GrantInfo * _MOST)()
        _check(_library.sez_map_grants(self._handle, grants, _MOST, info))
        return (info.frame, tuple(Grant(it.alloc_id, _start(it.start), it.words) for it in grants[: info.count]))

    def certificate(self) -> bytes:
        """The bytes of the certificate of the last map."""
        size = _SIZE(0)
        told = _library.sez_certificate(self._handle, self._room, _MAP_ROOM, size)
        _check(told)
        return bytes(self._room[: size.value])

    def certificate_parts(self) -> Certificate:
        """The certificate of the last map in its parts."""
        info, na, be = _LevelsInfo(), (ctypes.c_bool * _MOST)(), (ctypes.c_bool * _MOST)()
        _check(_library.sez_levels(self._handle, na, _MOST, be, _MOST, info))
        return Certificate(
            ClassCertificate(_level(info.na_level, info.na_num, info.na_den), tuple(na[: info.na_count])),
            ClassCertificate(_level(info.be_level, info.be_num, info.be_den), tuple(be[: info.be_count])),
        )

    def why(self, alloc_id: int) -> Why:
        """Explains the last map for an Alloc-ID. It replays the kept chapter up to that map."""
        info = _WhyInfo()
        _check(_library.sez_why(self._handle, _within(alloc_id, 16, Told.ALLOC_RANGE), info))
        return Why(
            frame=info.frame,
            onu=info.onu,
            alloc_id=info.alloc_id,
            fixed=info.fixed,
            assured=info.assured,
            maximum=info.max,
            share=Class(info.class_),
            report=_report(info),
            load=info.load,
            guaranteed=info.guaranteed,
            item=Item(info.weight, info.cap),
            surplus=(info.surplus_num, info.surplus_den),
            carry=info.carry,
            owed=info.owed,
            level=_level(info.level, info.level_num, info.level_den) if info.level else None,
            start=_start(info.start),
            grant=info.grant,
        )

    def state(self) -> State:
        """Numbers of the port."""
        info = _StateInfo()
        _check(_library.sez_state(self._handle, info))
        return State(
            next_frame=info.next_frame,
            chapter=info.chapter,
            taken=info.taken,
            kept=info.kept,
            alloc_ids=info.alloc_ids,
            onus=info.onus,
            guaranteed=info.guaranteed,
            capacity=info.capacity,
            cause=info.cause or None,
        )

    def find(self, alloc_id: int) -> Row:
        """An admitted Alloc-ID."""
        info = _RowInfo()
        _check(_library.sez_find(self._handle, _within(alloc_id, 16, Told.ALLOC_RANGE), info))
        return _row(info)

    def rows(self) -> Iterator[Row]:
        """The admitted Alloc-IDs: by ascending ONU, and by ascending Alloc-ID of each."""
        for place in range(self.state().alloc_ids):
            info = _RowInfo()
            _check(_library.sez_row(self._handle, place, info))
            yield _row(info)

    def turn(self) -> Chapter:
        """Returns the kept chapter; the next one begins in the same state."""
        chapter = Chapter()
        _check(_library.sez_turn(self._handle, chapter._handle))
        return chapter

    def close(self) -> None:
        """Frees the port; does nothing once it is closed."""
        _library.sez_close(self._handle)

    def __enter__(self) -> Port:
        return self

    def __exit__(self, kind: type[BaseException] | None, error: BaseException | None, trace: TracebackType | None) -> None:
        self.close()

    def __del__(self) -> None:
        if hasattr(self, "_handle"):
            self.close()


def check_class(items: Sequence[Item], surplus: int, certificate: ClassCertificate) -> None:
    """Checks that a certificate is that of the items and the surplus in kbit/s; raises Refused with the first fault."""
    rows = (_ItemInfo * len(items))()
    for row, item in zip(rows, items):
        row.weight = _within(item.weight, 64, Told.BAD_PROBLEM)
        row.cap = _within(item.cap, 64, Told.BAD_PROBLEM)
    fraction = certificate.level.fraction
    num, den = fraction or (0, 0)
    flags = (ctypes.c_bool * len(certificate.saturated))(*certificate.saturated)
    place = _SIZE(0)
    told = _library.sez_check_class(
        rows,
        len(items),
        _within(surplus, 64, Told.BAD_PROBLEM),
        _FRACTION if fraction else 1,
        _within(num, 64, Told.BAD_LEVEL),
        _within(den, 64, Told.BAD_LEVEL),
        flags,
        len(flags),
        place,
    )
    _check(told, place.value)


def audit(data: bytes) -> Good | Bad | Malformed | Truncated:
    """Audits the bytes of a recording."""
    info = _VerdictInfo()
    _check(_library.sez_audit(_bytes_of(data), len(data), info))
    return _verdict(info)


def _verdict(info: _VerdictInfo) -> Good | Bad | Malformed | Truncated:
    if info.verdict == 0:
        return Good(info.maps)
    if info.verdict == 1:
        return Bad(info.port, info.chapter, info.place, Reason(info.why))
    return Malformed(info.place) if info.verdict == 2 else Truncated(info.place)


def seal_header(onu: int, indications: int) -> bytes:
    """The four bytes of the header of a burst: ONU-ID 0 to 1023, indications 0 to 511."""
    room = (_U8 * 4)()
    onu, indications = _within(onu, 16, Told.BAD_HEADER), _within(indications, 16, Told.BAD_HEADER)
    _check(_library.sez_header_seal(onu, indications, room, 4))
    return bytes(room)


def open_header(data: bytes) -> tuple[int, int, int]:
    """The ONU-ID, the indications and the corrected bits of the header at the front of a burst."""
    info = _HeaderInfo()
    _check(_library.sez_header_open(_bytes_of(data), len(data), info))
    return (info.onu, info.indications, info.corrected)


def seal_map_head(structures: int, messages: int = 0) -> bytes:
    """The four bytes of the head of a map: 0 to 2047 structures follow it, then 0 to 255 messages."""
    room = (_U8 * 4)()
    structures, messages = _within(structures, 16, Told.BAD_HEADER), _within(messages, 8, Told.BAD_HEADER)
    _check(_library.sez_map_head_seal(structures, messages, room, 4))
    return bytes(room)


def open_map_head(data: bytes) -> tuple[int, int, int]:
    """The structures, the messages and the corrected bits of the head at the front of a map."""
    info = _MapHeadInfo()
    _check(_library.sez_map_head_open(_bytes_of(data), len(data), info))
    return (info.structures, info.messages, info.corrected)


def seal_report(words: int) -> bytes:
    """The four bytes that report an occupancy, in words, 0 to 16,777,215."""
    room = (_U8 * 4)()
    _check(_library.sez_report_seal(_within(words, 32, Told.BAD_OCCUPANCY), room, 4))
    return bytes(room)


def open_report(data: bytes) -> int:
    """The occupancy that the first four bytes report."""
    words = _U32(0)
    _check(_library.sez_report_open(_bytes_of(data), len(data), words))
    return words.value


def decode_map(data: bytes) -> Decoded:
    """Decodes the map at the front of the bytes; raises Refused with the first fault, and its place."""
    rows, info = (_StructureInfo * _MOST)(), _DecodedInfo()
    told = _library.sez_map_decode(_bytes_of(data), len(data), rows, _MOST, info)
    _check(told, info.count)
    structures = tuple(
        Structure(row.alloc_id, _start(row.start), row.grant, row.profile, row.dbru, row.ploam, row.fwi)
        for row in rows[: info.count]
    )
    return Decoded(structures, info.size, info.corrected)
