use std::fmt;

/// Why a call was not taken. Nothing has changed then.
#[derive(Clone, Copy, Debug, PartialEq, Eq, Hash)]
#[repr(u32)]
pub enum Told {
    /// The Alloc-ID is not admitted.
    NoSuchAlloc = 1,
    /// The Alloc-ID is admitted already.
    AllocTaken = 2,
    /// The Alloc-ID is outside 1024 to 16383.
    AllocRange = 3,
    /// The ONU-ID is above 1022.
    OnuRange = 4,
    /// A rate is above 2,488,320 kbit/s.
    RateRange = 5,
    /// The maximum is below fixed and assured rate together.
    MaxBelowGuaranteed = 6,
    /// The non-assured class needs a fixed or an assured rate.
    NeedsGuarantee = 7,
    /// A class that shares surplus needs a maximum above fixed and assured rate.
    NoSurplusRoom = 8,
    /// The port has 512 Alloc-IDs.
    TooManyAllocs = 9,
    /// The port has 128 ONUs.
    TooManyOnus = 10,
    /// The ONU has 16 Alloc-IDs.
    SeriesFull = 11,
    /// The guaranteed rates and the overhead would not fit the line.
    Capacity = 12,
    /// The frame of the report is in no map of the window.
    StaleFrame = 13,
    /// The map of that frame did not poll the ONU.
    NotPolled = 14,
    /// The ONU had another number of structures in that map.
    ReportCount = 15,
    /// The ONU has reported for that frame.
    AlreadyReported = 16,
    /// The line is failed.
    PortDown = 17,
    /// The line is not failed.
    PortUp = 18,
    /// No frame number is left.
    FrameLimit = 19,
    /// The port keeps 65,536 events: turn it.
    ChapterFull = 20,
    /// Memory was refused.
    OutOfMemory = 21,
    /// The handle is closed. This crate has no closed handle.
    Closed = 32,
    /// The handle is open. This crate opens no handle twice.
    IsOpen = 33,
    /// The gap is outside 1 to 256 words.
    BadGap = 34,
    /// The burst profile is above 3.
    BadProfile = 35,
    /// The class is above 2. This crate passes none.
    BadClass = 36,
    /// The cause is outside 1 to 9.
    BadCause = 37,
    /// More than 16 occupancies.
    BadCount = 38,
    /// An occupancy is above 16,777,215.
    BadOccupancy = 39,
    /// The number of the port is above 63.
    BadPort = 40,
    /// The room is too small. This crate makes room.
    NoRoom = 41,
    /// No map was made in the kept chapter.
    NoMap = 42,
    /// There is no Alloc-ID at this place.
    NoRow = 43,
    /// There are fewer bytes than are needed.
    Short = 44,
    /// A word is more than two bits away from every codeword.
    BadCode = 45,
    /// A field of a header is out of its range.
    BadHeader = 46,
    /// The check byte of a report is wrong.
    BadReport = 47,
    /// A map has more than 512 structures.
    TooMany = 48,
    /// The first structure of a map has no start.
    SeriesStart = 49,
    /// A structure starts beyond the frame.
    StartRange = 50,
    /// A burst has more than 16 structures.
    SeriesLong = 51,
    /// More than 512 items, or a weight, a cap or the surplus out of its range.
    BadProblem = 52,
    /// The denominator of a level is 0.
    BadLevel = 53,
    /// A certificate has another number of flags than items.
    CertLength = 54,
    /// The denominator is not the weight of the unsaturated items.
    CertDenominator = 55,
    /// An item is saturated, and its cap is above its share.
    CertSaturated = 56,
    /// An item is not saturated, and its cap is at most its share.
    CertUnsaturated = 57,
    /// The rates are less than the surplus, and the level is a fraction.
    CertNotExhausted = 58,
    /// The rates are more than the surplus.
    CertOverspent = 59,
    /// The recording is not good: the verdict says why.
    NotGood = 60,
    /// No chapter of the recording is of the port.
    NoChapter = 61,
    /// No port of this version goes on from the end of the recording.
    BadState = 62,
}

use Told::*;

const ALL: [Told; 52] = [
    NoSuchAlloc,
    AllocTaken,
    AllocRange,
    OnuRange,
    RateRange,
    MaxBelowGuaranteed,
    NeedsGuarantee,
    NoSurplusRoom,
    TooManyAllocs,
    TooManyOnus,
    SeriesFull,
    Capacity,
    StaleFrame,
    NotPolled,
    ReportCount,
    AlreadyReported,
    PortDown,
    PortUp,
    FrameLimit,
    ChapterFull,
    OutOfMemory,
    Closed,
    IsOpen,
    BadGap,
    BadProfile,
    BadClass,
    BadCause,
    BadCount,
    BadOccupancy,
    BadPort,
    NoRoom,
    NoMap,
    NoRow,
    Short,
    BadCode,
    BadHeader,
    BadReport,
    TooMany,
    SeriesStart,
    StartRange,
    SeriesLong,
    BadProblem,
    BadLevel,
    CertLength,
    CertDenominator,
    CertSaturated,
    CertUnsaturated,
    CertNotExhausted,
    CertOverspent,
    NotGood,
    NoChapter,
    BadState,
];

impl Told {
    /// Turns what a call returned into a result.
    pub(crate) fn check(told: u32) -> Result<(), Told> {
        if told == 0 {
            return Ok(());
        }
        match ALL.into_iter().find(|known| known.number() == told) {
            Some(known) => Err(known),
            None => unreachable!("sezhimow told {told}"),
        }
    }

    /// The number of `sezhimow.h`.
    pub fn number(self) -> u32 {
        self as u32
    }
}

impl fmt::Display for Told {
    fn fmt(&self, f: &mut fmt::Formatter<'_>) -> fmt::Result {
        fmt::Debug::fmt(self, f)
    }
}

impl std::error::Error for Told {}
