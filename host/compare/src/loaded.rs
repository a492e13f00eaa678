//! Other libraries, loaded while the program runs.
//!
//! Each is wrapped in functions of the same names, whose sources stand in
//! peers/. Where such a library has nothing for a call, the function is not
//! there.

use crate::{answered, Numbers};
use format::Kind;
use std::ffi::{c_char, c_int, c_void, CString};
use std::mem::transmute;
use std::ptr;

extern "C" {
    fn dlopen(file: *const c_char, flags: c_int) -> *mut c_void;
    fn dlsym(library: *mut c_void, name: *const c_char) -> *mut c_void;
}

/// All that a library needs is found at once, not at the first call.
const RTLD_NOW: c_int = 2;

/// What such a function writes: code, first and second number of an answer.
type Written = [usize; 3];
type Build = unsafe extern "C" fn(*const u8, usize) -> *mut c_void;
type Free = unsafe extern "C" fn(*mut c_void);
type Size = unsafe extern "C" fn(*const c_void) -> usize;
type Read = unsafe extern "C" fn(*mut c_void, usize, *mut u8, usize, *mut Written);
type Ask = unsafe extern "C" fn(*mut c_void, *const u8, usize, *mut Written);

/// A library that was loaded.
#[derive(Clone, Copy)]
pub struct Loaded {
    build: Build,
    free: Free,
    size: Size,
    read: Option<Read>,
    asks: [Option<Ask>; Kind::ALL.len()],
}

impl Loaded {
    /// Loads a library. It stays until the program ends.
    pub fn load(file: &str) -> Result<Loaded, String> {
        let path = CString::new(file).map_err(|error| format!("{file}: {error}"))?;
        // SAFETY: the path ends in a zero byte. What the library does while it
        // is loaded is as trusted as this program.
        let library = unsafe { dlopen(path.as_ptr(), RTLD_NOW) };
        if library.is_null() {
            return Err(format!("{file} can't be loaded"));
        }
        let find = |name: &str| {
            let name = CString::new(name).ok()?;
            // SAFETY: the library is loaded, and the name ends in a zero byte.
            let found = unsafe { dlsym(library, name.as_ptr()) };
            (!found.is_null()).then_some(found)
        };
        let need = |name: &str| find(name).ok_or_else(|| format!("{file} has no {name}"));
        // SAFETY: functions of these names have these types, in all of peers/.
        unsafe {
            Ok(Loaded {
                build: transmute::<*mut c_void, Build>(need("peer_build")?),
                free: transmute::<*mut c_void, Free>(need("peer_free")?),
                size: transmute::<*mut c_void, Size>(need("peer_size")?),
                read: find("peer_read").map(|found| transmute::<*mut c_void, Read>(found)),
                asks: Kind::ALL.map(|kind| {
                    let found = find(&format!("peer_{}", kind.name()));
                    found.map(|found| transmute::<*mut c_void, Ask>(found))
                }),
            })
        }
    }

    /// Builds a dictionary of the names in the list.
    pub fn build(self, list: &[u8]) -> Dictionary {
        // SAFETY: the pointer comes with the length of its own slice. The list
        // is sound, and nothing of it is kept.
        let names = unsafe { (self.build)(list.as_ptr(), list.len()) };
        Dictionary {
            names,
            library: self,
        }
    }

    /// Whether a name can be read back.
    pub fn reads(self) -> bool {
        self.read.is_some()
    }

    /// Whether this kind of question can be asked.
    pub fn asks(self, kind: Kind) -> bool {
        self.asks[kind.index()].is_some()
    }
}

/// A dictionary of a loaded library.
pub struct Dictionary {
    names: *mut c_void,
    library: Loaded,
}

// SAFETY: a dictionary is used by one thread at a time.
unsafe impl Send for Dictionary {}

impl Dictionary {
    /// How many bytes it has.
    pub fn size(&self) -> usize {
        // SAFETY: the names were built and are not yet freed.
        unsafe { (self.library.size)(self.names) }
    }

    /// Reads the name of this number into the room.
    pub fn read(&mut self, number: usize, room: &mut [u8]) -> Numbers {
        let mut written = Written::default();
        if let Some(read) = self.library.read {
            // SAFETY: as for the size; the pointer comes with the length of its
            // own slice.
            unsafe {
                read(
                    self.names,
                    number,
                    room.as_mut_ptr(),
                    room.len(),
                    ptr::from_mut(&mut written),
                )
            };
        }
        answered(written)
    }

    /// Asks a question of this kind.
    pub fn ask(&mut self, kind: Kind, question: &[u8]) -> Numbers {
        let mut written = Written::default();
        if let Some(ask) = self.library.asks[kind.index()] {
            // SAFETY: as for the size; the pointer comes with the length of its
            // own slice.
            unsafe {
                ask(
                    self.names,
                    question.as_ptr(),
                    question.len(),
                    ptr::from_mut(&mut written),
                )
            };
        }
        answered(written)
    }
}

impl Drop for Dictionary {
    fn drop(&mut self) {
        // SAFETY: the names were built, and this is the last use of them.
        unsafe { (self.library.free)(self.names) };
    }
}
