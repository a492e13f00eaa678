//! Fields: memory between two fences.

use std::cell::RefCell;
use std::ffi::{c_int, c_long, c_void};
use std::io;
use std::ptr::{null_mut, NonNull};

extern "C" {
    fn mmap(
        address: *mut c_void,
        bytes: usize,
        allowed: c_int,
        flags: c_int,
        file: c_int,
        offset: c_long,
    ) -> *mut c_void;
    fn mprotect(address: *mut c_void, bytes: usize, allowed: c_int) -> c_int;
    fn munmap(address: *mut c_void, bytes: usize) -> c_int;
    fn getpagesize() -> c_int;
}

/// Neither reading nor writing is allowed.
const NOTHING: c_int = 0;
/// Reading and writing are.
const READING_AND_WRITING: c_int = 1 | 2;
/// Memory from no file, for this process alone.
const PRIVATE: c_int = 2;
const ANONYMOUS: c_int = if cfg!(target_os = "linux") { 32 } else { 4096 };
/// What `mmap` gives where it fails.
const FAILED: usize = usize::MAX;

/// How many bytes each fence has. A single page would stop a step past the
/// end; so many stop a leap, too, such as that over an array of which only the
/// far end is written. The number is a multiple of every system's page.
const FENCE: usize = 1 << 20;

/// Memory from the system: a fence, bytes that can be read and written, and a
/// fence. It goes back when it is dropped.
struct Mapping {
    start: NonNull<u8>,
    bytes: usize,
}

impl Mapping {
    /// New memory with so many bytes between the fences, a multiple of a page.
    fn new(bytes: usize) -> Mapping {
        let whole = FENCE + bytes + FENCE;
        // SAFETY: this is new memory, at an address that the system chooses.
        let lowest = unsafe { mmap(null_mut(), whole, NOTHING, PRIVATE | ANONYMOUS, -1, 0) };
        assert!(lowest as usize != FAILED, "{}", io::Error::last_os_error());
        let start = lowest.cast::<u8>().wrapping_add(FENCE);
        // SAFETY: these bytes lie in the new memory, and nobody has them yet.
        let failed = unsafe { mprotect(start.cast(), bytes, READING_AND_WRITING) };
        assert!(failed == 0, "{}", io::Error::last_os_error());
        let start = NonNull::new(start).expect("a fence stands before it");
        Mapping { start, bytes }
    }
}

impl Drop for Mapping {
    fn drop(&mut self) {
        let lowest = self.start.as_ptr().wrapping_sub(FENCE);
        // SAFETY: this is all of the memory that `new` got, and the last of it.
        unsafe { munmap(lowest.cast(), FENCE + self.bytes + FENCE) };
    }
}

thread_local! {
    /// Memory that is in no use, to be used again: it is quicker than new
    /// memory.
    static FREE: RefCell<Vec<Mapping>> = const { RefCell::new(Vec::new()) };
}

/// Bytes between two fences. What is in them when they are taken is anything.
pub struct Field {
    /// It is only gone while the field is dropped.
    mapping: Option<Mapping>,
}

impl Field {
    /// A field with space for so many bytes, or somewhat more.
    pub fn with_space(bytes: usize) -> Field {
        let pages = bytes.div_ceil(page()).next_power_of_two();
        let bytes = pages * page();
        let used_before = FREE.with_borrow_mut(|free| {
            let at = free.iter().position(|mapping| mapping.bytes == bytes)?;
            Some(free.swap_remove(at))
        });
        Field {
            mapping: Some(used_before.unwrap_or_else(|| Mapping::new(bytes))),
        }
    }

    /// The first byte, right behind the lower fence.
    pub fn start(&self) -> *mut u8 {
        self.mapping().start.as_ptr()
    }

    /// The first byte of the upper fence.
    pub fn end(&self) -> *mut u8 {
        self.start().wrapping_add(self.mapping().bytes)
    }

    fn mapping(&self) -> &Mapping {
        self.mapping.as_ref().expect("the field is not dropped yet")
    }
}

impl Drop for Field {
    fn drop(&mut self) {
        let mapping = self.mapping.take();
        // At a thread's end there is nobody to use it again.
        let _ = FREE.try_with(|free| free.borrow_mut().extend(mapping));
    }
}

/// How many bytes a page has.
fn page() -> usize {
    // SAFETY: it takes nothing and only tells a number.
    unsafe { getpagesize() as usize }
}
