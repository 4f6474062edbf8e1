//! The flash driver and the clients that `Log` is given: they note what it asks and reports.

use crate::script::Word;
use kernel::ErrorCode;
use kernel::hil::flash::Flash;
use kernel::hil::log::{LogReadClient, LogWriteClient};
use std::cell::{Cell, RefCell};

/// A page buffer, of any length.
pub struct Page(pub &'static mut [u8]);

impl AsMut<[u8]> for Page {
    fn as_mut(&mut self) -> &mut [u8] {
        self.0
    }
}

/// An operation that the log asks for, with the flash page as the log numbers it.
#[derive(Clone, Copy)]
pub enum Request {
    Write(usize),
    Erase(usize),
}

/// Starting an operation only notes it: the bench changes the volume when it ends.
pub struct Driver {
    pub word: Cell<Word>,
    pub request: Cell<Option<Request>>,
    /// The page of an accepted write.
    pub page: Cell<Option<&'static mut Page>>,
}

impl Driver {
    pub fn new() -> Driver {
        Driver {
            word: Cell::new(Word::Ok),
            request: Cell::new(None),
            page: Cell::new(None),
        }
    }

    fn start(&self, request: Request) -> Result<(), ErrorCode> {
        self.request.set(Some(request));
        match self.word.get() {
            Word::Ok => Ok(()),
            Word::Busy => Err(ErrorCode::BUSY),
            Word::Fail => Err(ErrorCode::FAIL),
        }
    }
}

impl Flash for Driver {
    type Page = Page;

    fn write_page(
        &self,
        page_number: usize,
        page: &'static mut Page,
    ) -> Result<(), (ErrorCode, &'static mut Page)> {
        match self.start(Request::Write(page_number)) {
            Ok(()) => {
                self.page.set(Some(page));
                Ok(())
            }
            Err(code) => Err((code, page)),
        }
    }

    fn erase_page(&self, page_number: usize) -> Result<(), ErrorCode> {
        self.start(Request::Erase(page_number))
    }
}

/// An answer or a result as a number: 0 is OK.
pub fn number(result: Result<(), ErrorCode>) -> usize {
    match result {
        Ok(()) => 0,
        Err(code) => code as usize,
    }
}

/// Both clients. Buffers that come back are dropped: the bench keeps track of them.
#[derive(Default)]
pub struct Clients {
    pub reports: RefCell<Vec<String>>,
}

impl Clients {
    fn report(&self, report: String) {
        self.reports.borrow_mut().push(report);
    }
}

impl LogReadClient for Clients {
    fn read_done(&self, _buffer: &'static mut [u8], length: usize, result: Result<(), ErrorCode>) {
        self.report(format!("read_done {length} {}", number(result)));
    }

    fn seek_done(&self, result: Result<(), ErrorCode>) {
        self.report(format!("seek_done {}", number(result)));
    }
}

impl LogWriteClient for Clients {
    fn append_done(
        &self,
        _buffer: &'static mut [u8],
        length: usize,
        lost: bool,
        result: Result<(), ErrorCode>,
    ) {
        self.report(format!(
            "append_done {length} {} {}",
            usize::from(lost),
            number(result)
        ));
    }

    fn sync_done(&self, result: Result<(), ErrorCode>) {
        self.report(format!("sync_done {}", number(result)));
    }

    fn erase_done(&self, result: Result<(), ErrorCode>) {
        self.report(format!("erase_done {}", number(result)));
    }
}
