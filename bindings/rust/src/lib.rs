//! The upstream scheduler of an XG-PON optical line terminal (ITU-T G.987.3), over `libsezhimow`.
//!
//! A [`Port`] makes the bandwidth map of each upstream frame of 125 µs. Rates are in kbit/s, occupancies in words of 4
//! bytes. A call that is not taken returns [`Told`], and changes nothing.
//!
//! ```
//! use sezhimow::{Class, Descriptor, Port};
//!
//! let mut port = Port::open(16, 0, 0)?;
//! port.admit(5, 1024, Descriptor { fixed: 2560, assured: 0, max: 2560, class: Class::None })?;
//! let map = port.map()?;
//! assert_eq!((map.frame, map.bytes.len()), (0, 12));
//! # Ok::<(), sezhimow::Told>(())
//! ```
#![warn(missing_docs)]

mod certificate;
mod codecs;
mod ffi;
mod told;

use std::ptr::null_mut;

pub use certificate::{
    audit, check_class, Certificate, ClassCertificate, Item, Level, Reason, Verdict,
};
pub use codecs::{decode_map, open_report, seal_report, Decoded, Header, MapHead, Structure};
pub use told::Told;

/// The greatest number of bytes of a map.
pub const MAP_ROOM: usize = 4100;

const GARBLED: u32 = u32::MAX;

const MOST_ALLOC_IDS: usize = 512;

/// The version of the library: its first, second and third number.
pub fn version() -> (u32, u32, u32) {
    let version = unsafe { ffi::sez_version() };
    (version >> 16, version >> 8 & 0xff, version & 0xff)
}

/// The version of the interface of the library.
pub fn abi() -> u32 {
    unsafe { ffi::sez_abi() }
}

/// How an Alloc-ID shares surplus.
#[derive(Clone, Copy, Debug, PartialEq, Eq, Hash)]
pub enum Class {
    /// It shares none.
    None,
    /// It shares with the non-assured class.
    NonAssured,
    /// It shares what the non-assured class leaves.
    BestEffort,
}

impl Class {
    fn number(self) -> u8 {
        match self {
            Class::None => 0,
            Class::NonAssured => 1,
            Class::BestEffort => 2,
        }
    }

    fn of(number: u8) -> Class {
        match number {
            1 => Class::NonAssured,
            2 => Class::BestEffort,
            _ => Class::None,
        }
    }
}

/// The rates of an Alloc-ID in kbit/s, each 0 to 2,488,320, and its class.
#[derive(Clone, Copy, Debug, PartialEq, Eq, Hash)]
pub struct Descriptor {
    /// Granted whatever the load.
    pub fixed: u64,
    /// Granted up to the load.
    pub assured: u64,
    /// No more is granted.
    pub max: u64,
    /// How it shares surplus.
    pub class: Class,
}

/// A bandwidth map.
#[derive(Clone, Debug, PartialEq, Eq, Hash)]
pub struct Map {
    /// Its frame.
    pub frame: u64,
    /// Its bytes, as on the line.
    pub bytes: Vec<u8>,
}

/// The grant of a map to an Alloc-ID.
#[derive(Clone, Copy, Debug, PartialEq, Eq, Hash)]
pub struct Grant {
    /// The Alloc-ID, 1024 to 16383.
    pub alloc_id: u16,
    /// The first word of the burst; `None` if the grant continues the burst before it.
    pub start: Option<u16>,
    /// The granted words, that of the report included.
    pub words: u16,
}

/// What is shown of a port.
#[derive(Clone, Copy, Debug, PartialEq, Eq, Hash)]
pub struct State {
    /// The frame of the next map.
    pub next_frame: u64,
    /// The number of the kept chapter, from 0.
    pub chapter: u64,
    /// The events taken since the port was opened.
    pub taken: u64,
    /// The events of the kept chapter, 0 to 65,536.
    pub kept: usize,
    /// The admitted Alloc-IDs, 0 to 512.
    pub alloc_ids: usize,
    /// The ONUs that own one of them, 0 to 128.
    pub onus: usize,
    /// The sum of the fixed and assured rates, in kbit/s.
    pub guaranteed: u64,
    /// What the overhead leaves of the line, in kbit/s.
    pub capacity: u64,
    /// The cause of the failure, 1 to 9, if the line is failed.
    pub cause: Option<u8>,
}

/// A report that counts.
#[derive(Clone, Copy, Debug, PartialEq, Eq, Hash)]
pub struct Report {
    /// The frame of the map that asked for it.
    pub frame: u64,
    /// Its words that were not granted since.
    pub words: u32,
}

/// What is shown of an admitted Alloc-ID.
#[derive(Clone, Copy, Debug, PartialEq, Eq, Hash)]
pub struct Row {
    /// The ONU, 0 to 1022.
    pub onu: u16,
    /// The Alloc-ID, 1024 to 16383.
    pub alloc_id: u16,
    /// Its rates and its class.
    pub descriptor: Descriptor,
    /// The offered load, in kbit/s.
    pub load: u64,
    /// What the last map left, in kbit/s, 0 to 255.
    pub carry: u8,
    /// The report that counts, if one does.
    pub report: Option<Report>,
}

/// What the last map gives an Alloc-ID, with each number that it follows from. Rates are in kbit/s.
#[derive(Clone, Copy, Debug, PartialEq, Eq, Hash)]
pub struct Why {
    /// The frame of the map.
    pub frame: u64,
    /// The ONU.
    pub onu: u16,
    /// The Alloc-ID.
    pub alloc_id: u16,
    /// Its rates and its class at the map.
    pub descriptor: Descriptor,
    /// The report that counted, if one did.
    pub report: Option<Report>,
    /// The offered load.
    pub load: u64,
    /// The guaranteed rate.
    pub guaranteed: u64,
    /// The weight in its class, and the most surplus that the load can use.
    pub item: Item,
    /// The surplus rate: numerator and denominator.
    pub surplus: (u64, u64),
    /// What the map before left, 0 to 255.
    pub carry: u8,
    /// The carry, the guaranteed rate and the whole kbit/s of the surplus rate.
    pub owed: u64,
    /// The level of its class; `None` for the class that shares no surplus.
    pub level: Option<Level>,
    /// The first word of the burst; `None` if the structure continues the burst before it.
    pub start: Option<u16>,
    /// The granted words, that of the report included.
    pub grant: u16,
}

impl Why {
    fn of(info: &ffi::WhyInfo) -> Why {
        Why {
            frame: info.frame,
            onu: info.onu,
            alloc_id: info.alloc_id,
            descriptor: Descriptor {
                fixed: info.fixed,
                assured: info.assured,
                max: info.max,
                class: Class::of(info.class),
            },
            report: info.has_report.then_some(Report {
                frame: info.report_frame,
                words: info.report_words,
            }),
            load: info.load,
            guaranteed: info.guaranteed,
            item: Item {
                weight: info.weight,
                cap: info.cap,
            },
            surplus: (info.surplus_num, info.surplus_den),
            carry: info.carry,
            owed: info.owed,
            level: Level::of(info.level, info.level_num, info.level_den),
            start: codecs::start_of(info.start),
            grant: info.grant,
        }
    }
}

impl Row {
    fn of(info: &ffi::RowInfo) -> Row {
        Row {
            onu: info.onu,
            alloc_id: info.alloc_id,
            descriptor: Descriptor {
                fixed: info.fixed,
                assured: info.assured,
                max: info.max,
                class: Class::of(info.class),
            },
            load: info.load,
            carry: info.carry,
            report: info.has_report.then_some(Report {
                frame: info.report_frame,
                words: info.report_words,
            }),
        }
    }
}

/// An open port. It may go to another thread.
pub struct Port {
    handle: ffi::Port,
}

// The library proves `Send` of what is behind the handle.
unsafe impl Send for Port {}

impl Port {
    /// Opens a port: no Alloc-ID, the line up, `first` as its next frame. `gap` is in words, 1 to 256; `profile` is 0 to 3.
    pub fn open(gap: u16, profile: u8, first: u64) -> Result<Port, Told> {
        let mut handle = ffi::Port {
            owned: null_mut(),
            is_open: false,
        };
        Told::check(unsafe { ffi::sez_open(&mut handle, gap, profile, first) })?;
        Ok(Port { handle })
    }

    /// Opens a port that goes on where the last chapter of the port with this number, 0 to 63, ends in a recording. The
    /// verdict comes with [`Told::NotGood`] alone.
    pub fn resume(recording: &[u8], number: u8) -> Result<Port, (Told, Option<Verdict>)> {
        let mut info = ffi::VerdictInfo::default();
        let mut handle = ffi::Port {
            owned: null_mut(),
            is_open: false,
        };
        let told = unsafe {
            ffi::sez_resume(
                &mut handle,
                recording.as_ptr(),
                recording.len(),
                number,
                &mut info,
            )
        };
        match Told::check(told) {
            Ok(()) => Ok(Port { handle }),
            Err(Told::NotGood) => Err((Told::NotGood, Some(Verdict::of(&info)))),
            Err(told) => Err((told, None)),
        }
    }

    /// Admits an Alloc-ID to an ONU: each later map has it.
    pub fn admit(&mut self, onu: u16, alloc_id: u16, descriptor: Descriptor) -> Result<(), Told> {
        let Descriptor {
            fixed,
            assured,
            max,
            class,
        } = descriptor;
        Told::check(unsafe {
            ffi::sez_admit(
                &mut self.handle,
                onu,
                alloc_id,
                fixed,
                assured,
                max,
                class.number(),
            )
        })
    }

    /// Changes the rates and the class of an admitted Alloc-ID.
    pub fn change(&mut self, alloc_id: u16, descriptor: Descriptor) -> Result<(), Told> {
        let Descriptor {
            fixed,
            assured,
            max,
            class,
        } = descriptor;
        Told::check(unsafe {
            ffi::sez_change(
                &mut self.handle,
                alloc_id,
                fixed,
                assured,
                max,
                class.number(),
            )
        })
    }

    /// Removes an admitted Alloc-ID.
    pub fn remove(&mut self, alloc_id: u16) -> Result<(), Told> {
        Told::check(unsafe { ffi::sez_remove(&mut self.handle, alloc_id) })
    }

    /// Takes the report of an ONU for the map of a frame: words of each of its structures in order, `None` if garbled.
    pub fn report(
        &mut self,
        frame: u64,
        onu: u16,
        occupancies: &[Option<u32>],
    ) -> Result<(), Told> {
        if occupancies.contains(&Some(GARBLED)) {
            return Err(Told::BadOccupancy);
        }
        let words: Vec<u32> = occupancies.iter().map(|o| o.unwrap_or(GARBLED)).collect();
        Told::check(unsafe {
            ffi::sez_report(&mut self.handle, frame, onu, words.as_ptr(), words.len())
        })
    }

    /// Fails the line for a cause, 1 to 9.
    pub fn fail(&mut self, cause: u8) -> Result<(), Told> {
        Told::check(unsafe { ffi::sez_fail(&mut self.handle, cause) })
    }

    /// Restores a failed line.
    pub fn restore(&mut self) -> Result<(), Told> {
        Told::check(unsafe { ffi::sez_restore(&mut self.handle) })
    }

    /// Makes the map of the next frame.
    pub fn map(&mut self) -> Result<Map, Told> {
        let mut bytes = vec![0; MAP_ROOM];
        let frame = self.map_into(&mut bytes)?;
        bytes.truncate(frame.1);
        Ok(Map {
            frame: frame.0,
            bytes,
        })
    }

    /// Makes the map of the next frame in the caller's room, of at least [`MAP_ROOM`] bytes. Returns its frame and the
    /// number of its bytes.
    pub fn map_into(&mut self, room: &mut [u8]) -> Result<(u64, usize), Told> {
        let mut info = ffi::MapInfo::default();
        Told::check(unsafe {
            ffi::sez_map(&mut self.handle, room.as_mut_ptr(), room.len(), &mut info)
        })?;
        Ok((info.frame, info.size))
    }

    /// Makes the map of the next frame. Returns its frame, and its grants in place of its bytes.
    pub fn map_grants(&mut self) -> Result<(u64, Vec<Grant>), Told> {
        let mut info = ffi::GrantsInfo::default();
        let mut grants = [ffi::GrantInfo::default(); MOST_ALLOC_IDS];
        Told::check(unsafe {
            ffi::sez_map_grants(
                &mut self.handle,
                grants.as_mut_ptr(),
                grants.len(),
                &mut info,
            )
        })?;
        let grants = grants[..info.count].iter().map(|grant| Grant {
            alloc_id: grant.alloc_id,
            start: codecs::start_of(grant.start),
            words: grant.words,
        });
        Ok((info.frame, grants.collect()))
    }

    /// The bytes of the certificate of the last map.
    pub fn certificate(&mut self) -> Result<Vec<u8>, Told> {
        filled(|room, size| unsafe {
            ffi::sez_certificate(&mut self.handle, room.as_mut_ptr(), room.len(), size)
        })
    }

    /// The certificate of the last map in its parts.
    pub fn certificate_parts(&mut self) -> Result<Certificate, Told> {
        let mut info = ffi::LevelsInfo::default();
        let (mut na, mut be) = (vec![false; MOST_ALLOC_IDS], vec![false; MOST_ALLOC_IDS]);
        Told::check(unsafe {
            ffi::sez_levels(
                &mut self.handle,
                na.as_mut_ptr(),
                na.len(),
                be.as_mut_ptr(),
                be.len(),
                &mut info,
            )
        })?;
        na.truncate(info.na_count);
        be.truncate(info.be_count);
        let level = |kind, num, den| Level::of(kind, num, den).unwrap_or(Level::All);
        Ok(Certificate {
            non_assured: ClassCertificate {
                level: level(info.na_level, info.na_num, info.na_den),
                saturated: na,
            },
            best_effort: ClassCertificate {
                level: level(info.be_level, info.be_num, info.be_den),
                saturated: be,
            },
        })
    }

    /// Explains the last map for an Alloc-ID. It replays the kept chapter up to that map.
    pub fn why(&mut self, alloc_id: u16) -> Result<Why, Told> {
        let mut info = ffi::WhyInfo::default();
        Told::check(unsafe { ffi::sez_why(&mut self.handle, alloc_id, &mut info) })?;
        Ok(Why::of(&info))
    }

    /// Numbers of the port. The receiver is mutable, since a handle is used by one call at a time.
    pub fn state(&mut self) -> Result<State, Told> {
        let mut info = ffi::StateInfo::default();
        Told::check(unsafe { ffi::sez_state(&mut self.handle, &mut info) })?;
        Ok(State {
            next_frame: info.next_frame,
            chapter: info.chapter,
            taken: info.taken,
            kept: info.kept,
            alloc_ids: info.alloc_ids,
            onus: info.onus,
            guaranteed: info.guaranteed,
            capacity: info.capacity,
            cause: (info.cause != 0).then_some(info.cause),
        })
    }

    /// The admitted Alloc-ID at a place, from 0: by ascending ONU, and by ascending Alloc-ID of each.
    pub fn row(&mut self, place: usize) -> Result<Row, Told> {
        let mut info = ffi::RowInfo::default();
        Told::check(unsafe { ffi::sez_row(&mut self.handle, place, &mut info) })?;
        Ok(Row::of(&info))
    }

    /// An admitted Alloc-ID.
    pub fn find(&mut self, alloc_id: u16) -> Result<Row, Told> {
        let mut info = ffi::RowInfo::default();
        Told::check(unsafe { ffi::sez_find(&mut self.handle, alloc_id, &mut info) })?;
        Ok(Row::of(&info))
    }

    /// Returns the kept chapter; the next one begins in the same state.
    pub fn turn(&mut self) -> Result<Chapter, Told> {
        let mut handle = ffi::Chapter {
            owned: null_mut(),
            is_open: false,
        };
        Told::check(unsafe { ffi::sez_turn(&mut self.handle, &mut handle) })?;
        Ok(Chapter { handle })
    }
}

impl Drop for Port {
    fn drop(&mut self) {
        let _closed = unsafe { ffi::sez_close(&mut self.handle) };
    }
}

/// A chapter that a port has returned. It may go to another thread.
pub struct Chapter {
    handle: ffi::Chapter,
}

// The library proves `Send` of what is behind the handle.
unsafe impl Send for Chapter {}

impl Chapter {
    /// The recording of the chapter, as one of the port with this number, 0 to 63.
    pub fn recording(&mut self, number: u8) -> Result<Vec<u8>, Told> {
        filled(|room, size| unsafe {
            ffi::sez_chapter_bytes(
                &mut self.handle,
                number,
                room.as_mut_ptr(),
                room.len(),
                size,
            )
        })
    }
}

impl Drop for Chapter {
    fn drop(&mut self) {
        let _closed = unsafe { ffi::sez_chapter_close(&mut self.handle) };
    }
}

// Makes room as a call asks for it.
fn filled(mut call: impl FnMut(&mut [u8], &mut usize) -> u32) -> Result<Vec<u8>, Told> {
    let mut bytes = Vec::new();
    let mut size = 0;
    loop {
        match Told::check(call(&mut bytes, &mut size)) {
            Err(Told::NoRoom) => bytes.resize(size, 0),
            Err(told) => return Err(told),
            Ok(()) => {
                bytes.truncate(size);
                return Ok(bytes);
            }
        }
    }
}
