//! Tock's `Log`, with a driver and a client that do no more than its interface asks.

use crate::log::Log;
use crate::memory::Volume;
use crate::side::{by_reads, mark, nearest_by_reads, Side, MARK};
use kernel::deferred_call::DeferredCallClient;
use kernel::hil::flash::{Client as FlashClient, Error, Flash};
use kernel::hil::log::{LogRead, LogReadClient, LogWrite, LogWriteClient};
use kernel::ErrorCode;
use std::cell::Cell;
use std::hint::black_box;

/// The ceiling of IDs for words of 8 bytes; `Log` has none, the survey looks at it.
const CEILING: usize = 0x7000_0000_0000_0000;

/// A flash page, of fixed size as Tock's are.
pub struct Page<const P: usize>([u8; P]);

impl<const P: usize> AsMut<[u8]> for Page<P> {
    fn as_mut(&mut self) -> &mut [u8] {
        &mut self.0
    }
}

/// Starting an operation only notes it. The driver's word and the result of a write are kept in cells: no call knows them beforehand.
struct Driver<const P: usize> {
    word: Cell<Result<(), ErrorCode>>,
    ended: Cell<Result<(), Error>>,
    page_number: Cell<usize>,
    page: Cell<Option<&'static mut Page<P>>>,
    writing: Cell<bool>,
}

impl<const P: usize> Flash for Driver<P> {
    type Page = Page<P>;

    fn write_page(
        &self,
        page_number: usize,
        page: &'static mut Page<P>,
    ) -> Result<(), (ErrorCode, &'static mut Page<P>)> {
        self.page_number.set(page_number);
        match self.word.get() {
            Ok(()) => {
                self.writing.set(true);
                self.page.set(Some(page));
                Ok(())
            }
            Err(code) => Err((code, page)),
        }
    }

    fn erase_page(&self, page_number: usize) -> Result<(), ErrorCode> {
        self.page_number.set(page_number);
        self.word.get()
    }
}

/// Both clients: takes the buffer back and counts the reports that say OK.
struct Client {
    buffer: Cell<Option<&'static mut [u8]>>,
    length: Cell<usize>,
    reports: Cell<usize>,
}

impl Client {
    fn report(&self, result: Result<(), ErrorCode>) {
        if result.is_ok() {
            self.reports.set(self.reports.get() + 1);
        }
    }
}

impl LogReadClient for Client {
    fn read_done(&self, buffer: &'static mut [u8], length: usize, result: Result<(), ErrorCode>) {
        self.buffer.set(Some(buffer));
        self.length.set(length);
        self.report(result);
    }

    fn seek_done(&self, result: Result<(), ErrorCode>) {
        self.report(result);
    }
}

impl LogWriteClient for Client {
    fn append_done(
        &self,
        buffer: &'static mut [u8],
        length: usize,
        _lost: bool,
        result: Result<(), ErrorCode>,
    ) {
        self.buffer.set(Some(buffer));
        self.length.set(length);
        self.report(result);
    }

    fn sync_done(&self, result: Result<(), ErrorCode>) {
        self.report(result);
    }

    fn erase_done(&self, result: Result<(), ErrorCode>) {
        self.report(result);
    }
}

pub struct Original<const P: usize> {
    log: Log<'static, Driver<P>>,
    driver: &'static Driver<P>,
    client: &'static Client,
    page: *mut Page<P>,
    circular: bool,
    ids: Box<[usize]>,
    listed: Box<[u64]>,
    volume: Volume,
}

impl<const P: usize> Original<P> {
    /// The log, from the volume. The page is the log's from here on.
    #[inline(always)]
    fn open(
        volume: &Volume,
        driver: &'static Driver<P>,
        client: &'static Client,
        page: *mut Page<P>,
        circular: bool,
    ) -> Log<'static, Driver<P>> {
        // The volume outlives the log, and no log but this one has the page.
        let log = unsafe { Log::new(volume.lend(), driver, &mut *page, circular) };
        log.set_read_client(client);
        log.set_append_client(client);
        log
    }

    fn take_buffer(&self) -> &'static mut [u8] {
        self.client
            .buffer
            .take()
            .expect("the client has its buffer")
    }
}

impl<const P: usize> Side for Original<P> {
    const WORD: usize = size_of::<usize>();

    fn new(page_size: usize, page_count: usize) -> Self {
        assert!(page_size == P);
        let driver = Box::leak(Box::new(Driver {
            word: Cell::new(Ok(())),
            ended: Cell::new(Ok(())),
            page_number: Cell::new(0),
            page: Cell::new(None),
            writing: Cell::new(false),
        }));
        let client = Box::leak(Box::new(Client {
            buffer: Cell::new(Some(vec![0x55; P].leak())),
            length: Cell::new(0),
            reports: Cell::new(0),
        }));
        let page = Box::into_raw(Box::new(Page([0; P])));
        let volume = Volume::new(&vec![0xFF; P * page_count]);
        let circular = black_box(true);
        Original {
            log: Self::open(&volume, black_box(driver), client, page, circular),
            driver,
            client,
            page,
            circular,
            ids: vec![0; page_count].into(),
            listed: vec![0; P * page_count / MARK].into(),
            volume,
        }
    }

    #[inline(never)]
    fn restart(&mut self) {
        self.log = Self::open(
            &self.volume,
            self.driver,
            self.client,
            self.page,
            self.circular,
        );
    }

    #[inline(never)]
    fn append(&mut self, length: usize) {
        assert!(self.log.append(self.take_buffer(), length).is_ok());
    }

    #[inline(never)]
    fn read(&mut self) {
        let buffer = self.take_buffer();
        let length = buffer.len();
        assert!(self.log.read(buffer, length).is_ok());
    }

    #[inline(never)]
    fn seek(&mut self, id: usize) {
        assert!(self.log.seek(id).is_ok());
    }

    #[inline(never)]
    fn sync(&mut self) {
        assert!(self.log.sync().is_ok());
    }

    #[inline(never)]
    fn erase(&mut self) {
        assert!(self.log.erase().is_ok());
    }

    #[inline(never)]
    fn write_complete(&mut self) {
        let page = self.driver.page.take().expect("a write is under way");
        self.driver.writing.set(false);
        self.log.write_complete(page, self.driver.ended.get());
    }

    #[inline(never)]
    fn erase_complete(&mut self) {
        self.log.erase_complete(self.driver.ended.get());
    }

    /// The flag that asks for it is set by the log; it isn't looked at here.
    #[inline(never)]
    fn deferred_call(&mut self) {
        self.log.handle_deferred_call();
    }

    /// `Log` has none. This is what one would write: the headers are counted, gathered in the order of the slots, and sorted in place.
    #[inline(never)]
    fn survey(&mut self) {
        // The volume outlives the slice.
        let bytes = unsafe { self.volume.lend() };
        let valid = |at: usize| {
            let word = bytes[at..at + Self::WORD].try_into().expect("a word");
            let id = usize::from_le_bytes(word);
            (id < CEILING && id % bytes.len() == at).then_some(id)
        };
        let pages = || (0..bytes.len()).step_by(P).filter_map(valid);
        let count = pages().count();
        assert!(count > 0 && count <= self.ids.len());
        for (to, id) in self.ids.iter_mut().zip(pages()) {
            *to = id;
        }
        self.ids[..count].sort_unstable();
    }

    fn append_mark(&mut self, stamp: u32) {
        let buffer = self.take_buffer();
        buffer[..MARK].copy_from_slice(&mark(stamp));
        self.client.buffer.set(Some(buffer));
        self.append(MARK);
    }

    /// `Log` has no search: each entry is read.
    #[inline(never)]
    fn nearest(&mut self, stamp: u32) -> usize {
        nearest_by_reads(self, stamp)
    }

    #[inline(never)]
    fn between(&mut self, first: u32, last: u32) -> usize {
        let mut listed = std::mem::take(&mut self.listed);
        let mut count = 0;
        by_reads(self, |id, stamp| {
            if (first..=last).contains(&stamp) {
                listed[count] = id as u64;
                count += 1;
            }
        });
        self.listed = listed;
        count
    }

    #[inline(always)]
    fn entry(&mut self, mut look: impl FnMut(&[u8])) {
        let buffer = self.take_buffer();
        look(&buffer[..self.client.length.get()]);
        self.client.buffer.set(Some(buffer));
    }

    fn read_id(&self) -> usize {
        self.log.next_read_entry_id()
    }

    fn page_size(&self) -> usize {
        P
    }

    fn oldest(&self) -> usize {
        self.log.log_start()
    }

    fn end(&self) -> usize {
        self.log.log_end()
    }

    #[inline(always)]
    fn writing(&self) -> bool {
        self.driver.writing.get()
    }

    fn flash(&mut self) {
        let page = self.driver.page.take().expect("a write is under way");
        let slot = self.driver.page_number.get() - self.volume.address() / P;
        self.volume.put(slot * P, &page.0);
        self.driver.page.set(Some(page));
    }

    fn put(&mut self, start: usize, bytes: &[u8]) {
        self.volume.put(start, bytes);
    }

    fn reports(&self) -> usize {
        self.client.reports.get()
    }
}
