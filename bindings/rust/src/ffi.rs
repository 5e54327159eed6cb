//! The functions of `sezhimow.h`, in its order.

#[repr(C)]
pub struct Port {
    pub owned: *mut u8,
    pub is_open: bool,
}

#[repr(C)]
pub struct Chapter {
    pub owned: *mut u8,
    pub is_open: bool,
}

#[repr(C)]
#[derive(Default)]
pub struct MapInfo {
    pub frame: u64,
    pub size: usize,
}

#[repr(C)]
#[derive(Clone, Copy, Default)]
pub struct GrantInfo {
    pub alloc_id: u16,
    pub start: u16,
    pub words: u16,
}

#[repr(C)]
#[derive(Default)]
pub struct GrantsInfo {
    pub frame: u64,
    pub count: usize,
}

#[repr(C)]
#[derive(Default)]
pub struct LevelsInfo {
    pub na_num: u64,
    pub na_den: u64,
    pub be_num: u64,
    pub be_den: u64,
    pub na_count: usize,
    pub be_count: usize,
    pub na_level: u8,
    pub be_level: u8,
}

#[repr(C)]
#[derive(Clone, Copy)]
pub struct ItemInfo {
    pub weight: u64,
    pub cap: u64,
}

#[repr(C)]
#[derive(Default)]
pub struct StateInfo {
    pub next_frame: u64,
    pub chapter: u64,
    pub taken: u64,
    pub kept: usize,
    pub alloc_ids: usize,
    pub onus: usize,
    pub guaranteed: u64,
    pub capacity: u64,
    pub cause: u8,
}

#[repr(C)]
#[derive(Default)]
pub struct RowInfo {
    pub fixed: u64,
    pub assured: u64,
    pub max: u64,
    pub load: u64,
    pub report_frame: u64,
    pub report_words: u32,
    pub onu: u16,
    pub alloc_id: u16,
    pub class: u8,
    pub carry: u8,
    pub has_report: bool,
}

#[repr(C)]
#[derive(Default)]
pub struct WhyInfo {
    pub frame: u64,
    pub fixed: u64,
    pub assured: u64,
    pub max: u64,
    pub load: u64,
    pub guaranteed: u64,
    pub weight: u64,
    pub cap: u64,
    pub surplus_num: u64,
    pub surplus_den: u64,
    pub owed: u64,
    pub level_num: u64,
    pub level_den: u64,
    pub report_frame: u64,
    pub report_words: u32,
    pub onu: u16,
    pub alloc_id: u16,
    pub start: u16,
    pub grant: u16,
    pub class: u8,
    pub level: u8,
    pub carry: u8,
    pub has_report: bool,
}

#[repr(C)]
#[derive(Default)]
pub struct VerdictInfo {
    pub maps: u64,
    pub chapter: u64,
    pub place: usize,
    pub verdict: u8,
    pub port: u8,
    pub why: u8,
}

#[repr(C)]
#[derive(Default)]
pub struct HeaderInfo {
    pub onu: u16,
    pub indications: u16,
    pub corrected: u8,
}

#[repr(C)]
#[derive(Default)]
pub struct MapHeadInfo {
    pub structures: u16,
    pub messages: u8,
    pub corrected: u8,
}

#[repr(C)]
#[derive(Clone, Copy, Default)]
pub struct StructureInfo {
    pub alloc_id: u16,
    pub start: u16,
    pub grant: u16,
    pub profile: u8,
    pub dbru: bool,
    pub ploam: bool,
    pub fwi: bool,
}

#[repr(C)]
#[derive(Default)]
pub struct DecodedInfo {
    pub count: usize,
    pub size: usize,
    pub corrected: u32,
}

extern "C" {
    pub fn sez_version() -> u32;
    pub fn sez_abi() -> u32;
    pub fn sez_open(port: *mut Port, gap: u16, profile: u8, first: u64) -> u32;
    pub fn sez_close(port: *mut Port) -> u32;
    pub fn sez_admit(
        port: *mut Port,
        onu: u16,
        alloc_id: u16,
        fixed: u64,
        assured: u64,
        max: u64,
        class: u8,
    ) -> u32;
    pub fn sez_change(
        port: *mut Port,
        alloc_id: u16,
        fixed: u64,
        assured: u64,
        max: u64,
        class: u8,
    ) -> u32;
    pub fn sez_remove(port: *mut Port, alloc_id: u16) -> u32;
    pub fn sez_report(
        port: *mut Port,
        frame: u64,
        onu: u16,
        words: *const u32,
        count: usize,
    ) -> u32;
    pub fn sez_fail(port: *mut Port, cause: u8) -> u32;
    pub fn sez_restore(port: *mut Port) -> u32;
    pub fn sez_map(port: *mut Port, room: *mut u8, room_size: usize, map: *mut MapInfo) -> u32;
    pub fn sez_certificate(
        port: *mut Port,
        room: *mut u8,
        room_size: usize,
        size: *mut usize,
    ) -> u32;
    pub fn sez_map_grants(
        port: *mut Port,
        grants: *mut GrantInfo,
        count: usize,
        info: *mut GrantsInfo,
    ) -> u32;
    pub fn sez_levels(
        port: *mut Port,
        na: *mut bool,
        na_size: usize,
        be: *mut bool,
        be_size: usize,
        levels: *mut LevelsInfo,
    ) -> u32;
    pub fn sez_check_class(
        items: *const ItemInfo,
        item_count: usize,
        surplus: u64,
        level: u8,
        num: u64,
        den: u64,
        saturated: *const bool,
        flag_count: usize,
        place: *mut usize,
    ) -> u32;
    pub fn sez_state(port: *mut Port, state: *mut StateInfo) -> u32;
    pub fn sez_row(port: *mut Port, place: usize, row: *mut RowInfo) -> u32;
    pub fn sez_find(port: *mut Port, alloc_id: u16, row: *mut RowInfo) -> u32;
    pub fn sez_why(port: *mut Port, alloc_id: u16, why: *mut WhyInfo) -> u32;
    pub fn sez_turn(port: *mut Port, chapter: *mut Chapter) -> u32;
    pub fn sez_chapter_bytes(
        chapter: *mut Chapter,
        number: u8,
        room: *mut u8,
        room_size: usize,
        size: *mut usize,
    ) -> u32;
    pub fn sez_chapter_close(chapter: *mut Chapter) -> u32;
    pub fn sez_audit(bytes: *const u8, size: usize, verdict: *mut VerdictInfo) -> u32;
    pub fn sez_resume(
        port: *mut Port,
        bytes: *const u8,
        size: usize,
        number: u8,
        verdict: *mut VerdictInfo,
    ) -> u32;
    pub fn sez_header_seal(onu: u16, indications: u16, room: *mut u8, room_size: usize) -> u32;
    pub fn sez_header_open(bytes: *const u8, size: usize, header: *mut HeaderInfo) -> u32;
    pub fn sez_map_head_seal(
        structures: u16,
        messages: u8,
        room: *mut u8,
        room_size: usize,
    ) -> u32;
    pub fn sez_map_head_open(bytes: *const u8, size: usize, head: *mut MapHeadInfo) -> u32;
    pub fn sez_report_seal(words: u32, room: *mut u8, room_size: usize) -> u32;
    pub fn sez_report_open(bytes: *const u8, size: usize, words: *mut u32) -> u32;
    pub fn sez_map_decode(
        bytes: *const u8,
        size: usize,
        rows: *mut StructureInfo,
        row_count: usize,
        decoded: *mut DecodedInfo,
    ) -> u32;
}
