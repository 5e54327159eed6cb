//! The headers of bursts, the reports and the maps of the line, as values and as bytes.

use crate::{ffi, Told};

const NO_START: u16 = u16::MAX;
const MOST_STRUCTURES: usize = 512;

/// The header of an upstream burst.
#[derive(Clone, Copy, Debug, PartialEq, Eq, Hash)]
pub struct Header {
    /// The ONU-ID, 0 to 1023.
    pub onu: u16,
    /// The indications, 0 to 511.
    pub indications: u16,
}

impl Header {
    /// The four bytes of the header, with their code.
    pub fn seal(self) -> Result<[u8; 4], Told> {
        let mut room = [0; 4];
        Told::check(unsafe {
            ffi::sez_header_seal(self.onu, self.indications, room.as_mut_ptr(), 4)
        })?;
        Ok(room)
    }

    /// Reads the header at the front of a burst, and corrects up to two bits, whose number is returned too.
    pub fn open(bytes: &[u8]) -> Result<(Header, u8), Told> {
        let mut info = ffi::HeaderInfo::default();
        Told::check(unsafe { ffi::sez_header_open(bytes.as_ptr(), bytes.len(), &mut info) })?;
        Ok((
            Header {
                onu: info.onu,
                indications: info.indications,
            },
            info.corrected,
        ))
    }
}

/// The head of a map.
#[derive(Clone, Copy, Debug, PartialEq, Eq, Hash)]
pub struct MapHead {
    /// The number of structures that follow it, 0 to 2047.
    pub structures: u16,
    /// The number of messages after them.
    pub messages: u8,
}

impl MapHead {
    /// The four bytes of the head, with their code.
    pub fn seal(self) -> Result<[u8; 4], Told> {
        let mut room = [0; 4];
        Told::check(unsafe {
            ffi::sez_map_head_seal(self.structures, self.messages, room.as_mut_ptr(), 4)
        })?;
        Ok(room)
    }

    /// Reads the head at the front of a map, and corrects up to two bits, whose number is returned too.
    pub fn open(bytes: &[u8]) -> Result<(MapHead, u8), Told> {
        let mut info = ffi::MapHeadInfo::default();
        Told::check(unsafe { ffi::sez_map_head_open(bytes.as_ptr(), bytes.len(), &mut info) })?;
        Ok((
            MapHead {
                structures: info.structures,
                messages: info.messages,
            },
            info.corrected,
        ))
    }
}

/// The four bytes that report an occupancy, in words, 0 to 16,777,215.
pub fn seal_report(words: u32) -> Result<[u8; 4], Told> {
    let mut room = [0; 4];
    Told::check(unsafe { ffi::sez_report_seal(words, room.as_mut_ptr(), 4) })?;
    Ok(room)
}

/// The occupancy that the first four bytes report.
pub fn open_report(bytes: &[u8]) -> Result<u32, Told> {
    let mut words = 0;
    Told::check(unsafe { ffi::sez_report_open(bytes.as_ptr(), bytes.len(), &mut words) })?;
    Ok(words)
}

/// An allocation structure of a map.
#[derive(Clone, Copy, Debug, PartialEq, Eq, Hash)]
pub struct Structure {
    /// The Alloc-ID, 0 to 16383.
    pub alloc_id: u16,
    /// The first word of the burst; `None` if the structure continues the burst before it.
    pub start: Option<u16>,
    /// The granted words, that of a report included.
    pub grant: u16,
    /// The burst profile, 0 to 3.
    pub profile: u8,
    /// Whether a report is asked for.
    pub dbru: bool,
    /// Whether a message is asked for.
    pub ploam: bool,
    /// Whether a forced wake-up is indicated.
    pub fwi: bool,
}

/// What was decoded of a map.
#[derive(Clone, Debug, PartialEq, Eq, Hash)]
pub struct Decoded {
    /// Its structures, in order.
    pub structures: Vec<Structure>,
    /// The bytes that it uses.
    pub size: usize,
    /// The corrected bits.
    pub corrected: u32,
}

/// Decodes the map at the front of the bytes. A fault of a structure comes with its place, from 0; another with 0.
pub fn decode_map(bytes: &[u8]) -> Result<Decoded, (Told, usize)> {
    let mut rows = [ffi::StructureInfo::default(); MOST_STRUCTURES];
    let mut info = ffi::DecodedInfo::default();
    let told = unsafe {
        ffi::sez_map_decode(
            bytes.as_ptr(),
            bytes.len(),
            rows.as_mut_ptr(),
            rows.len(),
            &mut info,
        )
    };
    Told::check(told).map_err(|told| (told, info.count))?;
    let structures = rows[..info.count].iter().map(structure_of).collect();
    Ok(Decoded {
        structures,
        size: info.size,
        corrected: info.corrected,
    })
}

fn structure_of(info: &ffi::StructureInfo) -> Structure {
    Structure {
        alloc_id: info.alloc_id,
        start: start_of(info.start),
        grant: info.grant,
        profile: info.profile,
        dbru: info.dbru,
        ploam: info.ploam,
        fwi: info.fwi,
    }
}

pub(crate) fn start_of(start: u16) -> Option<u16> {
    (start != NO_START).then_some(start)
}
