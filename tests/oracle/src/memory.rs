//! One memory file, mapped twice: `Log` holds the volume as a shared slice for good while the flash changes it, so the log reads
//! one view and the bench writes through the other, only while no method of `Log` runs.

use std::ffi::{c_char, c_int, c_uint, c_void};
use std::ptr;

#[cfg(target_pointer_width = "32")]
type FileLength = i32;
#[cfg(target_pointer_width = "64")]
type FileLength = i64;

unsafe extern "C" {
    fn memfd_create(name: *const c_char, flags: c_uint) -> c_int;
    fn ftruncate(file: c_int, length: FileLength) -> c_int;
    fn mmap(
        at: *mut c_void,
        length: usize,
        protection: c_int,
        flags: c_int,
        file: c_int,
        offset: FileLength,
    ) -> *mut c_void;
    fn munmap(at: *mut c_void, length: usize) -> c_int;
    fn close(file: c_int) -> c_int;
}

const PROT_READ: c_int = 1;
const PROT_WRITE: c_int = 2;
const MAP_SHARED: c_int = 1;
const MAP_FAILED: *mut c_void = usize::MAX as *mut c_void;

pub struct Volume {
    read: *mut c_void,
    write: *mut c_void,
    length: usize,
}

impl Volume {
    /// A map starts at a multiple of 4,096, and so of every page size.
    pub fn new(bytes: &[u8]) -> Volume {
        let length = bytes.len();
        let map = |file, protection| unsafe {
            let at = mmap(ptr::null_mut(), length, protection, MAP_SHARED, file, 0);
            assert!(at != MAP_FAILED, "no memory for the volume");
            at
        };
        let volume = unsafe {
            let file = memfd_create(c"volume".as_ptr(), 0);
            assert!(file >= 0, "no memory file");
            assert!(
                ftruncate(file, length as FileLength) == 0,
                "no room in the memory file"
            );
            let volume = Volume {
                read: map(file, PROT_READ),
                write: map(file, PROT_READ | PROT_WRITE),
                length,
            };
            close(file);
            volume
        };
        volume.put(0, bytes);
        volume
    }

    /// The view for the log.
    ///
    /// # Safety
    /// The slice must not be used after the volume is gone.
    pub unsafe fn lend(&self) -> &'static [u8] {
        unsafe { std::slice::from_raw_parts(self.read.cast(), self.length) }
    }

    /// Where the log's view starts.
    pub fn address(&self) -> usize {
        self.read as usize
    }

    /// Writes through the other view.
    pub fn put(&self, start: usize, bytes: &[u8]) {
        assert!(start + bytes.len() <= self.length);
        let to: *mut u8 = self.write.cast();
        for (i, byte) in bytes.iter().enumerate() {
            unsafe { to.add(start + i).write_volatile(*byte) };
        }
    }

    pub fn bytes(&self) -> Vec<u8> {
        let from: *const u8 = self.write.cast();
        (0..self.length)
            .map(|i| unsafe { from.add(i).read_volatile() })
            .collect()
    }
}

impl Drop for Volume {
    fn drop(&mut self) {
        unsafe {
            munmap(self.read, self.length);
            munmap(self.write, self.length);
        }
    }
}
