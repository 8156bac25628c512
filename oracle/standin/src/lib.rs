//! The plain reading, in numbers and in bytes, under the library's C names, so that what calls the library can be tested without it.

use std::slice;

use boundary::bytes;
use calls::Ceilings;

#[no_mangle]
pub extern "C" fn kuxhoveza_layout_version() -> u32 {
    boundary::layout_version()
}

/// # Safety
///
/// What include/kuxhoveza.h says.
#[no_mangle]
pub unsafe extern "C" fn kuxhoveza_transition(
    sheet: *const u32,
    sheet_len: usize,
    call: *const u64,
    call_len: usize,
    record: *const u64,
    record_len: usize,
    answer: *mut u64,
    answer_len: usize,
) -> u32 {
    // SAFETY: the caller lends that many numbers, those of the buffer alone.
    let (sheet, call, record, answer) = unsafe {
        (
            slice::from_raw_parts(sheet, sheet_len),
            slice::from_raw_parts(call, call_len),
            slice::from_raw_parts(record, record_len),
            slice::from_raw_parts_mut(answer, answer_len),
        )
    };
    boundary::transition(sheet, call, record, answer)
}

/// # Safety
///
/// What include/kuxhoveza.h says.
#[no_mangle]
pub unsafe extern "C" fn kuxhoveza_verdict(
    sheet: *const u32,
    sheet_len: usize,
    nodes: u32,
    visits: u32,
    activations: u32,
    attempts: u32,
    verdict: *mut u32,
    verdict_len: usize,
) -> u32 {
    let ceilings = Ceilings {
        nodes,
        visits,
        activations,
        attempts,
    };
    // SAFETY: the caller lends that many numbers, those of the buffer alone.
    let (sheet, verdict) = unsafe {
        (
            slice::from_raw_parts(sheet, sheet_len),
            slice::from_raw_parts_mut(verdict, verdict_len),
        )
    };
    boundary::verdict(sheet, &ceilings, verdict)
}

/// A function of an array or of bytes and a buffer, as the plain reading has it.
macro_rules! exported {
    ($exported:ident($given:ty, $taken:ty) = $function:expr) => {
        /// # Safety
        ///
        /// What include/kuxhoveza.h says.
        #[no_mangle]
        pub unsafe extern "C" fn $exported(
            from: *const $given,
            from_len: usize,
            to: *mut $taken,
            to_len: usize,
        ) -> u64 {
            // SAFETY: the caller lends that many, those of the buffer alone.
            let (from, to) = unsafe {
                (
                    slice::from_raw_parts(from, from_len),
                    slice::from_raw_parts_mut(to, to_len),
                )
            };
            $function(from, to)
        }
    };
}

exported!(kuxhoveza_write_sheet(u32, u8) = bytes::write_sheet);
exported!(kuxhoveza_read_sheet(u8, u32) = bytes::read_sheet);
exported!(kuxhoveza_write_run(u64, u8) = bytes::write_run);
exported!(kuxhoveza_read_run(u8, u64) = bytes::read_run);
exported!(kuxhoveza_write_event(u64, u8) = bytes::write_event);
exported!(kuxhoveza_read_event(u8, u64) = bytes::read_event);
exported!(kuxhoveza_call(u8, u8) = bytes::call);

/// # Safety
///
/// What include/kuxhoveza.h says.
#[no_mangle]
pub unsafe extern "C" fn kuxhoveza_call_on(
    sheet: *const u32,
    sheet_len: usize,
    bytes: *const u8,
    bytes_len: usize,
    answer: *mut u8,
    answer_len: usize,
) -> u64 {
    // SAFETY: the caller lends that many, those of the buffer alone.
    let (sheet, bytes, answer) = unsafe {
        (
            slice::from_raw_parts(sheet, sheet_len),
            slice::from_raw_parts(bytes, bytes_len),
            slice::from_raw_parts_mut(answer, answer_len),
        )
    };
    boundary::bytes::call_on(sheet, bytes, answer)
}
