//! The functions as the header has them, on arrays and buffers of any length: for what tests and measures the library. A
//! host calls those of the crate, which keep a want's record and a run record apart.

use crate::Ceilings;

mod library {
    extern "C" {
        pub fn kuxhoveza_layout_version() -> u32;

        pub fn kuxhoveza_transition(
            sheet: *const u32,
            sheet_len: usize,
            call: *const u64,
            call_len: usize,
            record: *const u64,
            record_len: usize,
            answer: *mut u64,
            answer_len: usize,
        ) -> u32;

        pub fn kuxhoveza_verdict(
            sheet: *const u32,
            sheet_len: usize,
            nodes: u32,
            visits: u32,
            activations: u32,
            attempts: u32,
            verdict: *mut u32,
            verdict_len: usize,
        ) -> u32;

        pub fn kuxhoveza_write_sheet(
            sheet: *const u32,
            sheet_len: usize,
            bytes: *mut u8,
            bytes_len: usize,
        ) -> u64;

        pub fn kuxhoveza_read_sheet(
            bytes: *const u8,
            bytes_len: usize,
            sheet: *mut u32,
            sheet_len: usize,
        ) -> u64;

        pub fn kuxhoveza_write_run(
            record: *const u64,
            record_len: usize,
            bytes: *mut u8,
            bytes_len: usize,
        ) -> u64;

        pub fn kuxhoveza_read_run(
            bytes: *const u8,
            bytes_len: usize,
            record: *mut u64,
            record_len: usize,
        ) -> u64;

        pub fn kuxhoveza_write_event(
            event: *const u64,
            event_len: usize,
            bytes: *mut u8,
            bytes_len: usize,
        ) -> u64;

        pub fn kuxhoveza_read_event(
            bytes: *const u8,
            bytes_len: usize,
            event: *mut u64,
            event_len: usize,
        ) -> u64;

        pub fn kuxhoveza_call(
            bytes: *const u8,
            bytes_len: usize,
            answer: *mut u8,
            answer_len: usize,
        ) -> u64;

        pub fn kuxhoveza_call_on(
            sheet: *const u32,
            sheet_len: usize,
            bytes: *const u8,
            bytes_len: usize,
            answer: *mut u8,
            answer_len: usize,
        ) -> u64;
    }
}

/// The layout's version of the library, which is to be `layout::LAYOUT_VERSION`.
pub fn layout_version() -> u32 {
    // SAFETY: it takes nothing.
    unsafe { library::kuxhoveza_layout_version() }
}

/// `layout::WRITTEN` and the answer in the first numbers of the buffer; or, with the buffer as it was, the first of these
/// that holds: `layout::BAD_SHEET_LENGTH`, `layout::BAD_CALL_LENGTH`, `layout::BAD_RECORD_LENGTH`,
/// `layout::SHORT_BUFFER`, `layout::BAD_CALL`, `layout::BAD_RECORD`.
pub fn transition(sheet: &[u32], call: &[u64], record: &[u64], answer: &mut [u64]) -> u32 {
    // SAFETY: every array is lent with its own length, the buffer alone. The function keeps none of them.
    unsafe {
        library::kuxhoveza_transition(
            sheet.as_ptr(),
            sheet.len(),
            call.as_ptr(),
            call.len(),
            record.as_ptr(),
            record.len(),
            answer.as_mut_ptr(),
            answer.len(),
        )
    }
}

/// `layout::WRITTEN` and the refusal's number and item in the first numbers of the buffer, 0 and 0 where there is none;
/// or, with the buffer as it was, `layout::BAD_SHEET_LENGTH` or `layout::SHORT_BUFFER`.
pub fn verdict(sheet: &[u32], ceilings: Ceilings, verdict: &mut [u32]) -> u32 {
    let Ceilings {
        nodes,
        visits,
        activations,
        attempts,
    } = ceilings;
    // SAFETY: the sheet and the buffer are lent with their own lengths, the buffer alone. The function keeps neither.
    unsafe {
        library::kuxhoveza_verdict(
            sheet.as_ptr(),
            sheet.len(),
            nodes,
            visits,
            activations,
            attempts,
            verdict.as_mut_ptr(),
            verdict.len(),
        )
    }
}

/// What a function of bytes returns: 0 or why nothing is written, and the size, an item or 0 (docs/BYTES.md).
pub fn parts(said: u64) -> (u32, u32) {
    (said as u32, (said >> 32) as u32)
}

/// A function of an array or of bytes and a buffer, both lent with their lengths.
macro_rules! bytes {
    ($(#[$about:meta])* $name:ident = $exported:ident($from:ident: $given:ty, $to:ident: $taken:ty)) => {
        $(#[$about])*
        pub fn $name($from: &[$given], $to: &mut [$taken]) -> u64 {
            // SAFETY: both are lent with their own lengths, the buffer alone. The function keeps neither.
            unsafe { library::$exported($from.as_ptr(), $from.len(), $to.as_mut_ptr(), $to.len()) }
        }
    };
}

bytes! {
    /// `layout::BAD_SHEET_LENGTH`; 20; `layout::SHORT_BYTES`; or the size.
    write_sheet = kuxhoveza_write_sheet(sheet: u32, bytes: u8)
}

bytes! {
    /// `layout::BAD_SHEET_LENGTH`; `layout::BAD_BYTES`; or 0.
    read_sheet = kuxhoveza_read_sheet(bytes: u8, sheet: u32)
}

bytes! {
    /// `layout::BAD_RECORD_LENGTH`; `layout::BAD_RECORD`; 25; `layout::SHORT_BYTES`; or the size.
    write_run = kuxhoveza_write_run(record: u64, bytes: u8)
}

bytes! {
    /// `layout::BAD_RECORD_LENGTH`; `layout::BAD_BYTES`; or 0.
    read_run = kuxhoveza_read_run(bytes: u8, record: u64)
}

bytes! {
    /// `layout::BAD_CALL_LENGTH`; `layout::BAD_CALL`; `layout::SHORT_BYTES`; or the size.
    write_event = kuxhoveza_write_event(event: u64, bytes: u8)
}

bytes! {
    /// `layout::BAD_CALL_LENGTH`; `layout::BAD_BYTES`; or 0.
    read_event = kuxhoveza_read_event(bytes: u8, event: u64)
}

bytes! {
    /// `layout::BAD_BYTES`; a refusal; `layout::SHORT_BYTES`; or the size of the answer.
    call = kuxhoveza_call(bytes: u8, answer: u8)
}

/// The same on a sheet in numbers, after `layout::BAD_SHEET_LENGTH`.
pub fn call_on(sheet: &[u32], bytes: &[u8], answer: &mut [u8]) -> u64 {
    // SAFETY: sheet, bytes and buffer are lent with their own lengths, the buffer alone. The function keeps none of them.
    unsafe {
        library::kuxhoveza_call_on(
            sheet.as_ptr(),
            sheet.len(),
            bytes.as_ptr(),
            bytes.len(),
            answer.as_mut_ptr(),
            answer.len(),
        )
    }
}
