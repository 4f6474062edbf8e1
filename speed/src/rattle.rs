//! The proved log, through the functions of a board's archive.

use crate::memory::Volume;
use crate::side::{mark, Side, MARK};
use punelovash::raw::At;
use punelovash::Word;

/// The kind of a request for a write.
const WRITE: u8 = 1;

/// The driver's word.
const OK: u8 = 0;

pub struct Rattle<W: Word> {
    block: W::Block,
    lent: &'static [u8],
    page: Box<[u8]>,
    hold: Box<[u8]>,
    buffer: Box<[u8]>,
    ids: Box<[W]>,
    listed: Box<[u64]>,
    page_count: u32,
    slot: Option<u32>,
    length: u32,
    reports: usize,
    volume: Volume,
}

impl<W: Word> Rattle<W> {
    /// A number of 4 bytes in the block.
    fn number(&self, at: usize) -> u32 {
        let bytes = &self.block.as_ref()[at..at + 4];
        u32::from_le_bytes(bytes.try_into().expect("4 bytes"))
    }

    /// An ID in the block.
    fn id(&self, at: usize) -> usize {
        let mut bytes = [0; 8];
        bytes[..W::BYTES].copy_from_slice(&self.block.as_ref()[at..][..W::BYTES]);
        usize::from_le_bytes(bytes)
    }

    /// One of the getters; its number is above 0.
    #[inline(always)]
    pub fn get(&self, getter: impl FnOnce(*const u8, usize) -> bool) {
        let block = self.block.as_ref();
        assert!(getter(block.as_ptr(), block.len()));
    }

    /// A caller looks at what a call can give: the answer ..
    #[inline(always)]
    fn accepted(&self, answer: u32) {
        assert!(answer == 0);
    }

    /// .. the report ..
    #[inline(always)]
    fn take_report(&mut self) {
        if self.block.as_ref()[At::<W>::REPORT] != 0 {
            self.length = self.number(At::<W>::REPORT_LENGTH);
            if self.block.as_ref()[At::<W>::REPORT_RESULT] == 0 {
                self.reports += 1;
            }
        }
    }

    /// .. and the request.
    #[inline(always)]
    fn take_request(&mut self) {
        if self.block.as_ref()[At::<W>::REQUEST] == WRITE {
            self.slot = Some(self.number(At::<W>::REQUEST_PAGE));
        }
    }
}

impl<W: Word> Side for Rattle<W> {
    const WORD: usize = W::BYTES;

    fn new(page_size: usize, page_count: usize) -> Self {
        let volume = Volume::new(&vec![0xFF; page_size * page_count]);
        let mut side = Rattle {
            block: W::ZEROS,
            // Only used while the volume is there.
            lent: unsafe { volume.lend() },
            page: vec![0; page_size].into(),
            hold: vec![0; page_size].into(),
            buffer: vec![0x55; page_size].into(),
            ids: vec![W::from(0); page_count].into(),
            listed: vec![0; page_size * page_count / MARK].into(),
            page_count: page_count as u32,
            slot: None,
            length: 0,
            reports: 0,
            volume,
        };
        side.restart();
        side
    }

    #[inline(always)]
    fn restart(&mut self) {
        let block = self.block.as_mut();
        let answer = unsafe {
            W::restart(
                block.as_mut_ptr(),
                block.len(),
                self.page.len() as u32,
                self.page_count,
                0,
                1,
                1,
                1,
                self.lent.as_ptr(),
                self.lent.len(),
                self.page.as_mut_ptr(),
                self.page.len(),
                self.hold.as_ptr(),
                self.hold.len(),
            )
        };
        self.accepted(answer);
    }

    #[inline(always)]
    fn append(&mut self, length: usize) {
        let block = self.block.as_mut();
        let answer = unsafe {
            W::append(
                block.as_mut_ptr(),
                block.len(),
                self.lent.as_ptr(),
                self.lent.len(),
                self.page.as_mut_ptr(),
                self.page.len(),
                self.hold.as_mut_ptr(),
                self.hold.len(),
                self.buffer.as_ptr(),
                self.buffer.len(),
                length,
                OK,
            )
        };
        self.accepted(answer);
        self.take_report();
        self.take_request();
    }

    #[inline(always)]
    fn read(&mut self) {
        let block = self.block.as_mut();
        let answer = unsafe {
            W::read(
                block.as_mut_ptr(),
                block.len(),
                self.lent.as_ptr(),
                self.lent.len(),
                self.page.as_ptr(),
                self.page.len(),
                self.buffer.as_mut_ptr(),
                self.buffer.len(),
                self.buffer.len(),
            )
        };
        self.accepted(answer);
    }

    #[inline(always)]
    fn seek(&mut self, id: usize) {
        let block = self.block.as_mut();
        let answer = unsafe { W::seek(block.as_mut_ptr(), block.len(), id as u64) };
        self.accepted(answer);
    }

    #[inline(always)]
    fn sync(&mut self) {
        let block = self.block.as_mut();
        let answer = unsafe {
            W::sync(
                block.as_mut_ptr(),
                block.len(),
                self.lent.as_ptr(),
                self.lent.len(),
                self.page.as_mut_ptr(),
                self.page.len(),
                self.hold.as_ptr(),
                self.hold.len(),
                OK,
            )
        };
        self.accepted(answer);
        self.take_request();
    }

    #[inline(always)]
    fn erase(&mut self) {
        let block = self.block.as_mut();
        let answer = unsafe { W::erase(block.as_mut_ptr(), block.len(), OK) };
        self.accepted(answer);
    }

    #[inline(always)]
    fn write_complete(&mut self) {
        let block = self.block.as_mut();
        self.slot = None;
        let answer = unsafe {
            W::write_complete(
                block.as_mut_ptr(),
                block.len(),
                self.lent.as_ptr(),
                self.lent.len(),
                self.page.as_mut_ptr(),
                self.page.len(),
                self.hold.as_ptr(),
                self.hold.len(),
                1,
            )
        };
        self.accepted(answer);
        self.take_report();
    }

    #[inline(always)]
    fn erase_complete(&mut self) {
        let block = self.block.as_mut();
        let answer = unsafe {
            W::erase_complete(
                block.as_mut_ptr(),
                block.len(),
                self.lent.as_ptr(),
                self.lent.len(),
                self.page.as_mut_ptr(),
                self.page.len(),
                self.hold.as_ptr(),
                self.hold.len(),
                1,
                OK,
            )
        };
        self.accepted(answer);
        self.take_report();
    }

    #[inline(always)]
    fn deferred_call(&mut self) {
        let block = self.block.as_mut();
        let answer = unsafe { W::deferred_call(block.as_mut_ptr(), block.len()) };
        self.accepted(answer);
        self.take_report();
    }

    #[inline(always)]
    fn survey(&mut self) {
        let mut count = 0;
        let answer = unsafe {
            W::survey(
                self.page.len() as u32,
                self.page_count,
                0,
                self.lent.as_ptr(),
                self.lent.len(),
                self.ids.as_mut_ptr().cast(),
                self.ids.len(),
                &mut count,
            )
        };
        assert!(answer == 0 && count > 0);
    }

    fn append_mark(&mut self, stamp: u32) {
        self.buffer[..MARK].copy_from_slice(&mark(stamp));
        self.append(MARK);
    }

    #[inline(always)]
    fn nearest(&mut self, stamp: u32) -> usize {
        let mut id = 0;
        let block = self.block.as_ref();
        let answer = unsafe {
            W::nearest(
                block.as_ptr(),
                block.len(),
                self.lent.as_ptr(),
                self.lent.len(),
                self.page.as_ptr(),
                self.page.len(),
                stamp,
                &mut id,
            )
        };
        self.accepted(answer);
        id as usize
    }

    #[inline(always)]
    fn between(&mut self, first: u32, last: u32) -> usize {
        let mut count = 0;
        let block = self.block.as_ref();
        let answer = unsafe {
            W::between(
                block.as_ptr(),
                block.len(),
                self.lent.as_ptr(),
                self.lent.len(),
                self.page.as_ptr(),
                self.page.len(),
                first,
                last,
                self.listed.as_mut_ptr(),
                self.listed.len(),
                &mut count,
            )
        };
        self.accepted(answer);
        count as usize
    }

    #[inline(always)]
    fn entry(&mut self, mut look: impl FnMut(&[u8])) {
        look(&self.buffer[..self.length as usize]);
    }

    fn read_id(&self) -> usize {
        self.id(At::<W>::READ)
    }

    fn page_size(&self) -> usize {
        self.page.len()
    }

    fn oldest(&self) -> usize {
        self.id(At::<W>::OLDEST)
    }

    fn end(&self) -> usize {
        self.id(At::<W>::APPEND)
    }

    #[inline(always)]
    fn writing(&self) -> bool {
        self.slot.is_some()
    }

    fn flash(&mut self) {
        let slot = self.slot.expect("a write is under way") as usize;
        self.volume.put(slot * self.page.len(), &self.page);
    }

    fn put(&mut self, start: usize, bytes: &[u8]) {
        self.volume.put(start, bytes);
    }

    fn reports(&self) -> usize {
        self.reports
    }
}
