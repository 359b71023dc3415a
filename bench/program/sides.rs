//! The two sides, ours_X of bench/ours/lib.rattle and c_X of bench/walk.c, in one library that is opened by its path.

use std::ffi::{c_char, c_int, c_void, CString};
use std::mem::transmute;

extern "C" {
    fn dlopen(path: *const c_char, flags: c_int) -> *mut c_void;
    fn dlsym(library: *mut c_void, name: *const c_char) -> *mut c_void;
}

const RTLD_NOW: c_int = 2;

#[derive(Clone, Copy)]
pub struct Side {
    library: *mut c_void,
    prefix: &'static str,
}

/// Ours, and C's.
pub fn open(path: &str) -> [Side; 2] {
    let name = CString::new(path).expect("a path");
    let library = unsafe { dlopen(name.as_ptr(), RTLD_NOW) };
    assert!(!library.is_null(), "{path} is no library");
    ["ours", "c"].map(|prefix| Side { library, prefix })
}

/// Every function of a side is sound for every slice, so the calls are safe ones from here on.
impl Side {
    fn function(self, name: &str) -> *mut c_void {
        let symbol = CString::new(format!("{}_{name}", self.prefix)).expect("a name");
        unsafe { dlsym(self.library, symbol.as_ptr()) }
    }

    pub fn has(self, name: &str) -> bool {
        !self.function(name).is_null()
    }

    pub fn reader(self, name: &str) -> impl Fn(&[u8]) -> u64 {
        let read: unsafe extern "C" fn(*const u8, usize) -> u64 = unsafe { transmute(self.function(name)) };
        move |s| unsafe { read(s.as_ptr(), s.len()) }
    }

    /// Reads, and writes what was read.
    pub fn writer(self, name: &str) -> impl Fn(&[u8], &mut [u8]) -> u64 {
        let write: unsafe extern "C" fn(*const u8, usize, *mut u8, usize) -> u64 = unsafe { transmute(self.function(name)) };
        move |s, out| unsafe { write(s.as_ptr(), s.len(), out.as_mut_ptr(), out.len()) }
    }

    /// Adds what stands in the first message to the sum, and answers its length, 0 where there is none.
    pub fn message(self) -> impl Fn(&[u8], &mut u64) -> usize {
        let read: unsafe extern "C" fn(*const u8, usize, *mut u64) -> usize = unsafe { transmute(self.function("message")) };
        move |s, sum| unsafe { read(s.as_ptr(), s.len(), sum) }
    }

    /// Receives a stream in pieces that are as long as the last slice.
    pub fn session(self) -> impl Fn(&mut [u8], &[u8], &[u8]) -> u64 {
        type Session = unsafe extern "C" fn(*mut u8, usize, *const u8, usize, *const u8, usize) -> u64;
        let receive: Session = unsafe { transmute(self.function("session")) };
        move |buffer, stream, size| unsafe {
            receive(buffer.as_mut_ptr(), buffer.len(), stream.as_ptr(), stream.len(), size.as_ptr(), size.len())
        }
    }
}
