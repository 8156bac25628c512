//! What the library copies and clears in a call, by its copy with other names (build.rs).

/// A copy of so many bytes is a large one: of a run record.
pub const LARGE: usize = 3 * 1024;

/// Of one call, by the functions of memory that it calls. What the compiler moves without them is not among it.
#[derive(Debug, Clone, Copy, Default)]
pub struct Moved {
    /// Bytes of `memcpy` and `memmove`.
    pub copied: usize,
    /// Bytes of `memset`.
    pub cleared: usize,
    /// Copies of `LARGE` bytes or more.
    pub large: usize,
}

/// What the call moves and leaves in the buffer; nothing where the library is no archive.
#[cfg(not(counted))]
pub fn transition(_: &[u32], _: &[u64], _: &[u64], _: &mut [u64]) -> Option<Moved> {
    None
}

#[cfg(counted)]
pub use here::transition;

#[cfg(counted)]
mod here {
    use std::cell::Cell;
    use std::ptr;

    use super::{Moved, LARGE};

    thread_local! {
        static MOVED: Cell<Moved> = const { Cell::new(Moved { copied: 0, cleared: 0, large: 0 }) };
    }

    fn count_copy(bytes: usize) {
        let mut moved = MOVED.get();
        moved.copied += bytes;
        moved.large += usize::from(bytes >= LARGE);
        MOVED.set(moved);
    }

    #[no_mangle]
    unsafe extern "C" fn counted_memcpy(to: *mut u8, from: *const u8, bytes: usize) -> *mut u8 {
        count_copy(bytes);
        // SAFETY: what memcpy asks of its caller.
        unsafe { ptr::copy_nonoverlapping(from, to, bytes) };
        to
    }

    #[no_mangle]
    unsafe extern "C" fn counted_memmove(to: *mut u8, from: *const u8, bytes: usize) -> *mut u8 {
        count_copy(bytes);
        // SAFETY: what memmove asks of its caller.
        unsafe { ptr::copy(from, to, bytes) };
        to
    }

    #[no_mangle]
    unsafe extern "C" fn counted_memset(to: *mut u8, byte: i32, bytes: usize) -> *mut u8 {
        let mut moved = MOVED.get();
        moved.cleared += bytes;
        MOVED.set(moved);
        // SAFETY: what memset asks of its caller.
        unsafe { ptr::write_bytes(to, byte as u8, bytes) };
        to
    }

    extern "C" {
        fn counted_kuxhoveza_transition(
            sheet: *const u32,
            sheet_len: usize,
            call: *const u64,
            call_len: usize,
            record: *const u64,
            record_len: usize,
            answer: *mut u64,
            answer_len: usize,
        ) -> u32;
    }

    pub fn transition(
        sheet: &[u32],
        call: &[u64],
        record: &[u64],
        answer: &mut [u64],
    ) -> Option<Moved> {
        MOVED.set(Moved::default());
        // SAFETY: every array is lent with its own length, the buffer alone.
        let said = unsafe {
            counted_kuxhoveza_transition(
                sheet.as_ptr(),
                sheet.len(),
                call.as_ptr(),
                call.len(),
                record.as_ptr(),
                record.len(),
                answer.as_mut_ptr(),
                answer.len(),
            )
        };
        assert_eq!(said, 0);
        Some(MOVED.get())
    }
}
