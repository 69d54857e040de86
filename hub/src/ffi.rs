//! The library's C calls, each behind a function on slices.
//!
//! A byte slice lent to the library passes as its pointer, then its length. The library reads it for the
//! time of the call only and keeps no pointer. An empty slice's pointer is non-null and never read. The
//! declarations are held to the library's source by `tests/hub/boundary.rs`; the record passes as `items`.

use crate::Inputs;
use std::mem::offset_of;

/// A part of the AppID or of the text: `source` is 0 for no part, 1 for the AppID, 2 for the text.
#[repr(C)]
pub struct Location {
    pub source: u32,
    pub start: u32,
    pub len: u32,
}

/// What reading a head reports: `refusal` is 0 where it wrote an item of `item_len` bytes and a Location of
/// `text_len`.
#[repr(C)]
pub struct HeadRead {
    pub refusal: u32,
    pub item_len: u32,
    pub text_len: u32,
}

/// What cleaning reports: `refusal` is 0 where it wrote a list of `len` bytes.
#[repr(C)]
pub struct Cleaned {
    pub refusal: u32,
    pub len: u32,
}

/// What the tally reports: `refusal` is 0 where it counted.
#[repr(C)]
pub struct Tally {
    pub refusal: u32,
    pub kept: u32,
    pub too_long: u32,
    pub other_scheme: u32,
    pub not_facet: u32,
    pub other_label: u32,
}

/// Holds that a struct has so many bytes and none of them is free: its fields, all of them, stand one behind
/// another and fill it.
macro_rules! no_free_byte {
    ($bytes:literal, $name:ident { $($field:ident: $width:ty),+ }) => {
        const _: () = {
            let mut at = 0;
            $(
                assert!(offset_of!($name, $field) == at);
                at += size_of::<$width>();
            )+
            assert!(at == $bytes && size_of::<$name>() == $bytes);
        };
        const _: fn($name) = |$name { $($field),+ }| {
            $(let _: $width = $field;)+
        };
    };
}

no_free_byte!(12, Location { source: u32, start: u32, len: u32 });
no_free_byte!(12, HeadRead { refusal: u32, item_len: u32, text_len: u32 });
no_free_byte!(8, Cleaned { refusal: u32, len: u32 });
no_free_byte!(
    24,
    Tally { refusal: u32, kept: u32, too_long: u32, other_scheme: u32, not_facet: u32, other_label: u32 }
);

mod c {
    use super::Location;
    use super::{Cleaned, HeadRead, Tally};

    extern "C" {
        pub fn facets_private_label(
            host: *const u8,
            host_len: usize,
            table: *const u8,
            table_len: usize,
        ) -> u32;

        pub fn facets_decide(
            caller: *const u8,
            caller_len: usize,
            appid: *const u8,
            appid_len: usize,
            major: u16,
            minor: u16,
            items: *const u8,
            items_len: usize,
            text: *const u8,
            text_len: usize,
            body: *const u8,
            body_len: usize,
            table: *const u8,
            table_len: usize,
        ) -> u16;

        pub fn facets_decide_place(
            caller: *const u8,
            caller_len: usize,
            appid: *const u8,
            appid_len: usize,
            major: u16,
            minor: u16,
            items: *const u8,
            items_len: usize,
            text: *const u8,
            text_len: usize,
            body: *const u8,
            body_len: usize,
            table: *const u8,
            table_len: usize,
            place: *mut u32,
        ) -> u16;

        pub fn facets_fetch_location(
            caller: *const u8,
            caller_len: usize,
            appid: *const u8,
            appid_len: usize,
            items: *const u8,
            items_len: usize,
            text: *const u8,
            text_len: usize,
        ) -> Location;

        pub fn facets_read_head(
            head: *const u8,
            head_len: usize,
            start: u32,
            item: *mut u8,
            item_len: usize,
            text: *mut u8,
            text_len: usize,
        ) -> HeadRead;

        pub fn facets_clean(
            appid: *const u8,
            appid_len: usize,
            major: u16,
            minor: u16,
            body: *const u8,
            body_len: usize,
            table: *const u8,
            table_len: usize,
            out: *mut u8,
            out_len: usize,
        ) -> Cleaned;

        pub fn facets_tally(
            appid: *const u8,
            appid_len: usize,
            major: u16,
            minor: u16,
            body: *const u8,
            body_len: usize,
            table: *const u8,
            table_len: usize,
        ) -> Tally;
    }
}

/// The length of the host's private label, which is the host's last bytes; 0 where there is none.
pub fn private_label(host: &[u8], table: &[u8]) -> u32 {
    // SAFETY: both pointers are valid for reads of the lengths beside them during the call.
    unsafe { c::facets_private_label(host.as_ptr(), host.len(), table.as_ptr(), table.len()) }
}

/// The decision's code.
pub fn decide(inputs: &Inputs) -> u16 {
    let Inputs { caller, appid, major, minor, record, text, body, table } = *inputs;
    // SAFETY: every pointer is valid for reads of the length beside it during the call.
    unsafe {
        c::facets_decide(
            caller.as_ptr(),
            caller.len(),
            appid.as_ptr(),
            appid.len(),
            major,
            minor,
            record.as_ptr(),
            record.len(),
            text.as_ptr(),
            text.len(),
            body.as_ptr(),
            body.len(),
            table.as_ptr(),
            table.len(),
        )
    }
}

/// The decision's code; where it is 4, `place` becomes the place, and otherwise it stays.
pub fn decide_place(inputs: &Inputs, place: &mut u32) -> u16 {
    let Inputs { caller, appid, major, minor, record, text, body, table } = *inputs;
    // SAFETY: every pointer is valid for reads of the length beside it during the call, and `place` for a
    // read and a write.
    unsafe {
        c::facets_decide_place(
            caller.as_ptr(),
            caller.len(),
            appid.as_ptr(),
            appid.len(),
            major,
            minor,
            record.as_ptr(),
            record.len(),
            text.as_ptr(),
            text.len(),
            body.as_ptr(),
            body.len(),
            table.as_ptr(),
            table.len(),
            place,
        )
    }
}

/// The part to fetch.
pub fn fetch_location(caller: &[u8], appid: &[u8], record: &[u8], text: &[u8]) -> Location {
    // SAFETY: every pointer is valid for reads of the length beside it during the call.
    unsafe {
        c::facets_fetch_location(
            caller.as_ptr(),
            caller.len(),
            appid.as_ptr(),
            appid.len(),
            record.as_ptr(),
            record.len(),
            text.as_ptr(),
            text.len(),
        )
    }
}

/// Writes a head's record item to the beginning of `item` and its Location to that of `text`; a refusal changes
/// no byte of either.
pub fn read_head(head: &[u8], start: u32, item: &mut [u8], text: &mut [u8]) -> HeadRead {
    // SAFETY: every pointer is valid for reads of the length beside it during the call, and those of `item` and
    // `text` for writes too; these two overlap no other slice.
    unsafe {
        c::facets_read_head(
            head.as_ptr(),
            head.len(),
            start,
            item.as_mut_ptr(),
            item.len(),
            text.as_mut_ptr(),
            text.len(),
        )
    }
}

/// Writes the cleaned list to the beginning of `out`; a refusal changes no byte of it.
pub fn clean(appid: &[u8], major: u16, minor: u16, body: &[u8], table: &[u8], out: &mut [u8]) -> Cleaned {
    // SAFETY: every pointer is valid for reads of the length beside it during the call, and that of `out`
    // for writes too; `out` overlaps no other slice.
    unsafe {
        c::facets_clean(
            appid.as_ptr(),
            appid.len(),
            major,
            minor,
            body.as_ptr(),
            body.len(),
            table.as_ptr(),
            table.len(),
            out.as_mut_ptr(),
            out.len(),
        )
    }
}

/// Counts the selected entries.
pub fn tally(appid: &[u8], major: u16, minor: u16, body: &[u8], table: &[u8]) -> Tally {
    // SAFETY: every pointer is valid for reads of the length beside it during the call.
    unsafe {
        c::facets_tally(
            appid.as_ptr(),
            appid.len(),
            major,
            minor,
            body.as_ptr(),
            body.len(),
            table.as_ptr(),
            table.len(),
        )
    }
}
