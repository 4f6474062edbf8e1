//! The words of the two boards.

use crate::ffi::Library;
use core::fmt::Debug;
use core::marker::PhantomData;
use core::mem::size_of;

mod sealed {
    pub trait Sealed {}
    impl Sealed for u32 {}
    impl Sealed for u64 {}
}

/// The word of a board: `u32` or `u64`, and no other type. A page's header and an entry's length are a word each. A volume is
/// opened with the words of the board that wrote it: nothing on it tells them.
pub trait Word: sealed::Sealed + Library + Copy + Debug + Ord + From<u32> + Into<u64> {
    /// The bytes of a word, w: 4 or 8.
    const BYTES: usize = size_of::<Self>();

    /// C: an ID is at most this, and no page begins there.
    const CEILING: u64;

    /// The bytes of a block, 32 + 3w: an array of them.
    type Block: AsRef<[u8]> + AsMut<[u8]> + Copy + Debug + PartialEq;

    /// A block of zeros: no log's.
    const ZEROS: Self::Block;
}

impl Word for u32 {
    const CEILING: u64 = 0x7000_0000;
    type Block = [u8; 44];
    const ZEROS: [u8; 44] = [0; 44];
}

impl Word for u64 {
    const CEILING: u64 = 0x7000_0000_0000_0000;
    type Block = [u8; 56];
    const ZEROS: [u8; 56] = [0; 56];
}

/// The places in a block, as punelovash.h has them. Its numbers have 4 bytes or one, and the IDs are words.
pub struct At<W>(PhantomData<W>);

#[allow(missing_docs)]
impl<W: Word> At<W> {
    pub const PAGE_SIZE: usize = 0;
    pub const PAGE_COUNT: usize = 4;
    pub const FIRST_PAGE: usize = 8;
    pub const FLAGS: usize = 12;
    pub const STATE: usize = 15;
    pub const OLDEST: usize = 16;
    pub const READ: usize = 16 + W::BYTES;
    pub const APPEND: usize = 16 + 2 * W::BYTES;
    pub const KEPT: usize = 16 + 3 * W::BYTES;
    pub const REPORT: usize = 20 + 3 * W::BYTES;
    pub const REPORT_LOST: usize = 21 + 3 * W::BYTES;
    pub const REPORT_RESULT: usize = 22 + 3 * W::BYTES;
    pub const REQUEST: usize = 23 + 3 * W::BYTES;
    pub const REPORT_LENGTH: usize = 24 + 3 * W::BYTES;
    pub const REQUEST_PAGE: usize = 28 + 3 * W::BYTES;
}
