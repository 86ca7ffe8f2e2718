//! The libraries that are measured, each linked at several places by `tests/door/bench`: how code lies in its cache lines moves its time by up to a fifth, and any
//! change of the code moves it.

use std::ffi::{c_char, c_int, c_void, CString};
use std::path::Path;

use galebonnet_tests::generate::neon::NEON;

/// How many bytes behind the start of a cache line a library's code starts.
const PADS: [usize; 4] = [16, 32, 48, 64];

/// `galebonnet_read`, and the tuned reader's. A library from before the positions takes the first four
/// arguments alone: on x86-64 the System V calling convention passes six in registers and the caller
/// takes nothing back, so the two that such a function does not know of do it no harm.
pub type Read = unsafe extern "C" fn(*const u8, usize, *mut i32, usize, *mut f64, usize) -> u64;

/// The proved library at one place: the functions of include/galebonnet.h over slices.
pub struct Library {
    check: unsafe extern "C" fn(*const u8, usize) -> u64,
    read: Read,
    write: unsafe extern "C" fn(*const i32, usize, *const u8, usize, *mut u8, usize) -> u64,
    walk: unsafe extern "C" fn(*const u8, usize, usize) -> u64,
}

impl Library {
    pub fn check(&self, block: &[u8]) -> u64 {
        // SAFETY: pointer and length are those of a slice, which the function only reads.
        unsafe { (self.check)(block.as_ptr(), block.len()) }
    }

    pub fn read(&self, block: &[u8], table: &mut [i32], positions: &mut [f64]) -> u64 {
        called(self.read, block, table, positions)
    }

    /// Whether the reading knows of positions: a short table of them is refused.
    pub fn reads_positions(&self) -> bool {
        self.read(NEON.as_bytes(), &mut [0; 3856], &mut []) != 0
    }

    pub fn write(&self, table: &[i32], texts: &[u8], buffer: &mut [u8]) -> u64 {
        let (numbers, length, room) = (table.len(), texts.len(), buffer.len());
        // SAFETY: the three pairs are those of slices, and the one that is written to does not overlap the others.
        unsafe { (self.write)(table.as_ptr(), numbers, texts.as_ptr(), length, buffer.as_mut_ptr(), room) }
    }

    /// The kind (1 a block, 2 a stray run, others end the walk) and the end.
    pub fn walk(&self, file: &[u8], place: usize) -> (u64, usize) {
        // SAFETY: pointer and length are those of a slice, which the function only reads.
        let answer = unsafe { (self.walk)(file.as_ptr(), file.len(), place) };
        (answer >> 32, (answer & 0xffff_ffff) as usize)
    }
}

/// A reader called on slices.
pub fn called(read: Read, block: &[u8], table: &mut [i32], positions: &mut [f64]) -> u64 {
    let (length, numbers, floats) = (block.len(), table.len(), positions.len());
    // SAFETY: the three pairs are those of slices that do not overlap.
    unsafe { read(block.as_ptr(), length, table.as_mut_ptr(), numbers, positions.as_mut_ptr(), floats) }
}

/// The proved library in a folder, at each place; none where the folder is not there.
pub fn libraries(folder: &Path) -> Option<Vec<Library>> {
    let library = |opened: Opened| {
        // SAFETY: the types are those of include/galebonnet.h.
        unsafe {
            Library {
                check: opened.function("galebonnet_check"),
                read: opened.function("galebonnet_read"),
                write: opened.function("galebonnet_write"),
                walk: opened.function("galebonnet_walk"),
            }
        }
    };
    folder.is_dir().then(|| PADS.map(|pad| library(Opened::new(folder, pad))).into())
}

/// The tuned reader at each place.
pub fn tuned_readers(folder: &Path) -> Vec<Read> {
    // SAFETY: the type is that of src/tuned.rs.
    PADS.map(|pad| unsafe { Opened::new(folder, pad).function("tuned_read") }).into()
}

/// A shared library that stays open until the program ends.
struct Opened(*mut c_void);

extern "C" {
    fn dlopen(path: *const c_char, mode: c_int) -> *mut c_void;
    fn dlsym(library: *mut c_void, name: *const c_char) -> *mut c_void;
}

/// RTLD_NOW: every function is bound before the first call.
const NOW: c_int = 2;

impl Opened {
    fn new(folder: &Path, pad: usize) -> Opened {
        let path = folder.join(format!("{pad}.so"));
        let text = CString::new(path.to_str().expect("a path that is no text")).expect("a path with a zero");
        // SAFETY: the text is lent for the call.
        let library = unsafe { dlopen(text.as_ptr(), NOW) };
        assert!(!library.is_null(), "{} is not to be opened: run tests/door/bench", path.display());
        Opened(library)
    }

    /// The function of that name.
    ///
    /// # Safety
    ///
    /// It is a function of type `Function`.
    unsafe fn function<Function: Copy>(&self, name: &str) -> Function {
        let text = CString::new(name).expect("a name with a zero");
        // SAFETY: the library is open; the caller's word for the type, which is a pointer's size.
        unsafe {
            let function = dlsym(self.0, text.as_ptr());
            assert!(!function.is_null(), "the library has no {name}");
            std::mem::transmute_copy(&function)
        }
    }
}
