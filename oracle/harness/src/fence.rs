//! Memory between pages that may not be touched: a read or a write beyond an array that is lent at its edge ends the
//! program.

use std::{ptr, slice};

/// Numbers and bytes: whatever stands in memory is one.
pub trait Plain: Copy + PartialEq {
    /// What stands in a buffer before a call.
    const BEFORE: Self;
}

impl Plain for u8 {
    const BEFORE: u8 = 0xee;
}

impl Plain for u32 {
    const BEFORE: u32 = 0xdead_beef;
}

impl Plain for u64 {
    const BEFORE: u64 = 0xdead_beef_dead_beef;
}

const PAGE: usize = 4096;

/// At which end of the memory an array stands.
#[derive(Clone, Copy, PartialEq, Eq)]
pub enum Edge {
    First,
    Last,
}

pub struct Fence {
    first: *mut u8,
    room: usize,
}

impl Fence {
    /// With room for so many bytes, and some more.
    pub fn new(bytes: usize) -> Fence {
        let room = bytes.div_ceil(PAGE) * PAGE;
        // SAFETY: new memory, of which all but the first and the last page is opened.
        unsafe {
            let flags = libc::MAP_PRIVATE | libc::MAP_ANONYMOUS;
            let all = libc::mmap(
                ptr::null_mut(),
                room + 2 * PAGE,
                libc::PROT_NONE,
                flags,
                -1,
                0,
            );
            assert_ne!(all, libc::MAP_FAILED, "no memory");
            let first = all.cast::<u8>().add(PAGE);
            let opened = libc::mprotect(first.cast(), room, libc::PROT_READ | libc::PROT_WRITE);
            assert_eq!(opened, 0, "no memory");
            Fence { first, room }
        }
    }

    /// So many numbers at that edge, all as before a call.
    pub fn buffer<T: Plain>(&mut self, edge: Edge, length: usize) -> &mut [T] {
        let room = self.room / size_of::<T>();
        assert!(length <= room);
        // SAFETY: the opened pages, which are this fence's alone and begin and end where a number does.
        let all = unsafe { slice::from_raw_parts_mut(self.first.cast::<T>(), room) };
        let buffer = match edge {
            Edge::First => &mut all[..length],
            Edge::Last => &mut all[room - length..],
        };
        buffer.fill(T::BEFORE);
        buffer
    }

    /// A copy at that edge.
    pub fn lent<T: Plain>(&mut self, edge: Edge, numbers: &[T]) -> &[T] {
        let copy = self.buffer(edge, numbers.len());
        copy.copy_from_slice(numbers);
        copy
    }
}

impl Drop for Fence {
    fn drop(&mut self) {
        // SAFETY: what `new` took, and nothing of it is lent any more.
        unsafe {
            libc::munmap(self.first.sub(PAGE).cast(), self.room + 2 * PAGE);
        }
    }
}
