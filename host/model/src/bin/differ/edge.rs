//! Memory that ends where nothing may be read: a read of the byte behind a slice ends the program.

use std::ffi::c_void;
use std::ptr;

extern "C" {
    fn mmap(
        at: *mut c_void,
        length: usize,
        may: i32,
        how: i32,
        file: i32,
        from: i64,
    ) -> *mut c_void;
    fn mprotect(at: *mut c_void, length: usize, may: i32) -> i32;
}

const NOTHING: i32 = 0;
const READ_AND_WRITE: i32 = 3;
/// Private, and of no file: as Linux numbers it.
const OWN: i32 = 0x22;
/// A multiple of every page size that Linux has.
const ROOM: usize = 1 << 16;

pub struct Edge {
    begin: *mut u8,
}

impl Edge {
    pub fn new() -> Edge {
        // SAFETY: new memory at a place of the system's choice; its second half is closed.
        unsafe {
            let begin = mmap(ptr::null_mut(), 2 * ROOM, READ_AND_WRITE, OWN, -1, 0);
            assert!(begin as isize != -1, "no memory");
            let closed = mprotect(begin.cast::<u8>().add(ROOM).cast(), ROOM, NOTHING);
            assert!(closed == 0, "memory cannot be closed");
            let begin = begin.cast();
            Edge { begin }
        }
    }

    /// Where these bytes stand now, the last of them just before the edge. None where they are
    /// too many.
    pub fn lend(&mut self, bytes: &[u8]) -> Option<*const u8> {
        let free = ROOM.checked_sub(bytes.len())?;
        // SAFETY: the bytes fit between the place and the edge, and nothing else uses them.
        unsafe {
            let place = self.begin.add(free);
            ptr::copy_nonoverlapping(bytes.as_ptr(), place, bytes.len());
            Some(place)
        }
    }
}
