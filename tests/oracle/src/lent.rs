//! Memory that is lent to the log: it can be looked at while the log holds it, and lives until the bench is gone.

use crate::flash::Page;

#[derive(Default)]
pub struct Lent {
    bytes: Vec<*mut [u8]>,
    pages: Vec<*mut Page>,
}

impl Lent {
    pub fn bytes(&mut self, bytes: Vec<u8>) -> *mut [u8] {
        let bytes = Box::into_raw(bytes.into_boxed_slice());
        self.bytes.push(bytes);
        bytes
    }

    /// A page over bytes lent before.
    pub fn page(&mut self, bytes: *mut [u8]) -> &'static mut Page {
        let page = Box::into_raw(Box::new(Page(unsafe { &mut *bytes })));
        self.pages.push(page);
        unsafe { &mut *page }
    }
}

impl Drop for Lent {
    fn drop(&mut self) {
        for page in self.pages.drain(..) {
            drop(unsafe { Box::from_raw(page) });
        }
        for bytes in self.bytes.drain(..) {
            drop(unsafe { Box::from_raw(bytes) });
        }
    }
}
