//! Memories lent to the library. Each lies between two pages that may be neither read nor written, so that an access
//! outside it ends the program at once.

use std::ffi::{c_int, c_uint, c_void};

const PAGE: usize = 4096;
const READ: c_int = 1;
const WRITE: c_int = 2;
const PRIVATE_ANONYMOUS: c_int = 0x22;
const SLACK: u8 = 0xA5;
const ALARM: c_int = 14;
/// A report takes some microseconds.
const LONGEST: c_uint = 60;

unsafe extern "C" {
    fn mmap(at: *mut c_void, length: usize, protection: c_int, flags: c_int, file: c_int, offset: i64) -> *mut c_void;
    fn mprotect(at: *mut c_void, length: usize, protection: c_int) -> c_int;
    fn munmap(at: *mut c_void, length: usize) -> c_int;
    fn signal(number: c_int, handler: usize) -> usize;
    fn alarm(seconds: c_uint) -> c_uint;
    fn write(file: c_int, bytes: *const c_void, length: usize) -> isize;
    fn _exit(status: c_int) -> !;
}

/// Whether a memory that fills no whole number of pages ends at the page behind it or starts at the page before it.
#[derive(Clone, Copy, PartialEq, Eq, Debug)]
pub enum Side {
    EndsAtGuard,
    StartsAtGuard,
}

pub struct Memory {
    base: *mut u8,
    pages: usize,
    offset: usize,
    length: usize,
    /// Whether nobody may read or write it.
    closed: bool,
}

impl Memory {
    pub fn new(length: usize, side: Side) -> Memory {
        let mut memory = Memory::closed(length, side);
        memory.closed = false;
        memory.writable(true);
        if memory.pages > 0 {
            // SAFETY: the inner pages are mapped and writable.
            unsafe { std::ptr::write_bytes(memory.base.add(PAGE), SLACK, memory.pages * PAGE) };
        }
        memory
    }

    /// A memory that may be neither read nor written.
    pub fn closed(length: usize, side: Side) -> Memory {
        let pages = length.div_ceil(PAGE);
        let whole = (pages + 2) * PAGE;
        // SAFETY: a new mapping of this program's own; no other memory is touched.
        let base = unsafe { mmap(std::ptr::null_mut(), whole, 0, PRIVATE_ANONYMOUS, -1, 0) } as *mut u8;
        assert!(!base.is_null() && base as isize != -1, "no memory for the test");
        let offset = match side {
            Side::EndsAtGuard => PAGE + pages * PAGE - length,
            Side::StartsAtGuard => PAGE,
        };
        Memory { base, pages, offset, length, closed: true }
    }

    pub fn with(bytes: &[u8], side: Side) -> Memory {
        let mut memory = Memory::new(bytes.len(), side);
        memory.bytes_mut().copy_from_slice(bytes);
        memory
    }

    /// Lets the memory be written, or only read.
    pub fn writable(&self, writable: bool) {
        if self.pages > 0 {
            let protection = if writable { READ | WRITE } else { READ };
            // SAFETY: only the protection of this memory's own inner pages changes.
            let status = unsafe { mprotect(self.base.add(PAGE) as *mut c_void, self.pages * PAGE, protection) };
            assert_eq!(status, 0, "the protection of the test's memory");
        }
    }

    /// The pointer to lend. It is null for length 0.
    pub fn pointer(&self) -> *mut u8 {
        if self.length == 0 {
            return std::ptr::null_mut();
        }
        // SAFETY: the offset is inside the mapping.
        unsafe { self.base.add(self.offset) }
    }

    pub fn len(&self) -> usize {
        self.length
    }

    /// The bytes; none of a memory that nobody may read.
    pub fn bytes(&self) -> &[u8] {
        if self.closed {
            return &[];
        }
        // SAFETY: the bytes are mapped, and the library runs only inside calls.
        unsafe { std::slice::from_raw_parts(self.base.add(self.offset), self.length) }
    }

    pub fn bytes_mut(&mut self) -> &mut [u8] {
        if self.closed {
            return &mut [];
        }
        // SAFETY: the bytes are mapped, the library runs only inside calls, and the memory is borrowed alone.
        unsafe { std::slice::from_raw_parts_mut(self.base.add(self.offset), self.length) }
    }

    /// Changes the byte behind the memory, where there is one on its last page. For a deliberate fault.
    pub fn flip_behind(&mut self) {
        if !self.closed && self.offset + self.length < (self.pages + 1) * PAGE {
            // SAFETY: the byte is on the memory's last page, which is mapped.
            unsafe { *self.base.add(self.offset + self.length) ^= 1 };
        }
    }

    /// Whether the rest of the memory's first and last page is as it was. Nobody could touch that of a closed one.
    pub fn slack_untouched(&self) -> bool {
        if self.closed {
            return true;
        }
        // SAFETY: the inner pages are mapped.
        let inner = unsafe { std::slice::from_raw_parts(self.base.add(PAGE), self.pages * PAGE) };
        let first = self.offset - PAGE;
        let around = inner[..first].iter().chain(&inner[first + self.length..]);
        around.into_iter().all(|&byte| byte == SLACK)
    }
}

impl Drop for Memory {
    fn drop(&mut self) {
        // SAFETY: the mapping is this memory's own and is not used again.
        unsafe { munmap(self.base as *mut c_void, (self.pages + 2) * PAGE) };
    }
}

/// Ends the program with a line of counts where the library touches memory that was not lent, or does not end.
extern "C" fn on_fault(number: c_int) {
    let line: &[u8] = match number {
        ALARM => b"\nFAILED: a call of the library does not end\n0 passed, 1 failed\n",
        _ => b"\nFAILED: a call of the library faulted\n0 passed, 1 failed\n",
    };
    // SAFETY: both functions may be called from a handler.
    unsafe {
        write(1, line.as_ptr() as *const c_void, line.len());
        _exit(1);
    }
}

/// Makes a call that has to end long before the alarm.
pub fn within_time<T>(call: impl FnOnce() -> T) -> T {
    // SAFETY: an alarm changes no memory; its handler only writes a line and ends the program.
    unsafe { alarm(LONGEST) };
    let answer = call();
    // SAFETY: the same.
    unsafe { alarm(0) };
    answer
}

/// Sets the handler for illegal instructions, aborts, bus errors, arithmetic faults, accesses outside memory and calls
/// that do not end.
pub fn catch_faults() {
    for number in [4, 6, 7, 8, 11, ALARM] {
        // SAFETY: the handler only writes a line and ends the program.
        unsafe { signal(number, on_fault as *const () as usize) };
    }
}
