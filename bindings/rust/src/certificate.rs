//! Certificates in their parts, their check, and the audit of recordings.

use crate::{ffi, Told};

/// The level of a class.
#[derive(Clone, Copy, Debug, PartialEq, Eq, Hash)]
pub enum Level {
    /// Each Alloc-ID of the class gets its cap.
    All,
    /// This many kbit/s for each unit of weight, as numerator and denominator.
    Fraction(u64, u64),
}

impl Level {
    pub(crate) fn of(kind: u8, num: u64, den: u64) -> Option<Level> {
        match kind {
            1 => Some(Level::All),
            2 => Some(Level::Fraction(num, den)),
            _ => None,
        }
    }

    fn parts(self) -> (u8, u64, u64) {
        match self {
            Level::All => (1, 0, 0),
            Level::Fraction(num, den) => (2, num, den),
        }
    }
}

/// The certificate of a class: its level, and whether each of its Alloc-IDs, in map order, gets its cap.
#[derive(Clone, Debug, PartialEq, Eq, Hash)]
pub struct ClassCertificate {
    /// The level of the Alloc-IDs that do not get their cap.
    pub level: Level,
    /// A flag for each Alloc-ID of the class.
    pub saturated: Vec<bool>,
}

/// The certificate of a map.
#[derive(Clone, Debug, PartialEq, Eq, Hash)]
pub struct Certificate {
    /// That of the non-assured class.
    pub non_assured: ClassCertificate,
    /// That of the best-effort class.
    pub best_effort: ClassCertificate,
}

/// An item of a class problem.
#[derive(Clone, Copy, Debug, PartialEq, Eq, Hash)]
pub struct Item {
    /// The weight, 1 to 2,488,320.
    pub weight: u64,
    /// The cap in kbit/s, 0 to 2,488,320.
    pub cap: u64,
}

/// Checks that a certificate is that of the items and the surplus in kbit/s. A fault of an item comes with its index, from
/// 0; another with 0.
pub fn check_class(
    items: &[Item],
    surplus: u64,
    certificate: &ClassCertificate,
) -> Result<(), (Told, usize)> {
    let items: Vec<_> = items
        .iter()
        .map(|item| ffi::ItemInfo {
            weight: item.weight,
            cap: item.cap,
        })
        .collect();
    let (level, num, den) = certificate.level.parts();
    let flags = certificate.saturated.as_slice();
    let mut place = 0;
    let told = unsafe {
        ffi::sez_check_class(
            items.as_ptr(),
            items.len(),
            surplus,
            level,
            num,
            den,
            flags.as_ptr(),
            flags.len(),
            &mut place,
        )
    };
    Told::check(told).map_err(|told| (told, place))
}

/// Why a chapter of a recording is bad.
#[derive(Clone, Copy, Debug, PartialEq, Eq, Hash)]
pub enum Reason {
    /// It does not open lawfully.
    Opening,
    /// It does not open with the end of the one before it.
    Chain,
    /// Its number does not ascend.
    Number,
    /// A check refuses the event.
    Event,
    /// The certificate of a map is not that of its state.
    Certificate,
    /// A grant is not what its certificate gives.
    Words,
    /// The map differs in another way.
    Bursts,
}

impl Reason {
    fn of(number: u8) -> Reason {
        match number {
            1 => Reason::Opening,
            2 => Reason::Chain,
            3 => Reason::Number,
            4 => Reason::Event,
            5 => Reason::Certificate,
            6 => Reason::Words,
            _ => Reason::Bursts,
        }
    }
}

/// The verdict on a recording.
#[derive(Clone, Copy, Debug, PartialEq, Eq, Hash)]
pub enum Verdict {
    /// Each chapter is good; together they have this number of maps.
    Good {
        /// The maps.
        maps: u64,
    },
    /// The first chapter that fails.
    Bad {
        /// Its port.
        port: u8,
        /// Its number.
        chapter: u64,
        /// The index of the entry that fails, from 0.
        entry: usize,
        /// Why it fails.
        why: Reason,
    },
    /// The bytes are no recording from this place on.
    Malformed {
        /// The place of a chapter, or 0.
        at: usize,
    },
    /// The bytes end inside the chapter at this place.
    Truncated {
        /// The place of a chapter, or 0.
        at: usize,
    },
}

/// Audits the bytes of a recording.
pub fn audit(bytes: &[u8]) -> Result<Verdict, Told> {
    let mut info = ffi::VerdictInfo::default();
    Told::check(unsafe { ffi::sez_audit(bytes.as_ptr(), bytes.len(), &mut info) })?;
    Ok(Verdict::of(&info))
}

impl Verdict {
    pub(crate) fn of(info: &ffi::VerdictInfo) -> Verdict {
        match info.verdict {
            0 => Verdict::Good { maps: info.maps },
            1 => Verdict::Bad {
                port: info.port,
                chapter: info.chapter,
                entry: info.place,
                why: Reason::of(info.why),
            },
            2 => Verdict::Malformed { at: info.place },
            _ => Verdict::Truncated { at: info.place },
        }
    }
}
