//! The bench: one log on one flash. It makes the calls and writes their trace.

use crate::flash::{Clients, Driver, Page, Request, number};
use crate::lent::Lent;
use crate::log::Log;
use crate::memory::Volume;
use crate::script::{Bad, Call, Fill, Left, Restart, Sizes, VOLUME_MOST, WIDTH, Word, bad};
use kernel::deferred_call::{self, DeferredCallClient};
use kernel::hil::flash::{Client, Error};
use kernel::hil::log::{LogRead, LogWrite};
use std::io::Write;
use std::panic::{AssertUnwindSafe, catch_unwind};

impl Sizes {
    /// The sizes that document 01 admits. The Rust has no refusal for others.
    pub fn check(self) -> Result<Sizes, Bad> {
        let least = 4 * WIDTH;
        if !(least..=4096).contains(&self.page_size) || !self.page_size.is_power_of_two() {
            return bad(format!(
                "for the Rust the page size is a power of two from {least} to 4096"
            ));
        }
        if !(1..=4096).contains(&self.count) || self.first > 16777215 {
            return bad(
                "for the Rust the page count is 1 to 4096, and the first page at most 16777215",
            );
        }
        Ok(self)
    }

    pub fn fill(&self, fill: Fill) -> Result<Vec<u8>, Bad> {
        let length = self.page_size * self.count;
        if length > VOLUME_MOST {
            return bad(format!("a volume of more than {VOLUME_MOST} bytes"));
        }
        match fill {
            Fill::All(value) => Ok(vec![value; length]),
            Fill::Bytes(bytes) if bytes.len() == length => Ok(bytes),
            Fill::Bytes(_) => bad(format!("for the Rust this volume has {length} bytes")),
        }
    }
}

/// An operation that the driver accepted, with its slot.
enum UnderWay {
    Nothing,
    Write(usize, &'static mut Page),
    Erase(usize),
}

pub struct Bench {
    sizes: Sizes,
    volume: Volume,
    driver: &'static Driver,
    clients: &'static Clients,
    /// Nothing: the power is off.
    log: Option<Box<Log<'static, Driver>>>,
    lent: Lent,
    /// The page buffer and the last read's client buffer, to look at after a call.
    page: *const [u8],
    buffer: *const [u8],
    under_way: UnderWay,
}

impl Bench {
    /// With the power off, and a page buffer of zeros.
    pub fn new(
        sizes: Sizes,
        volume: &[u8],
        driver: &'static Driver,
        clients: &'static Clients,
    ) -> Bench {
        let mut lent = Lent::default();
        let page = lent.bytes(vec![0; sizes.page_size]);
        Bench {
            sizes,
            volume: Volume::new(volume),
            driver,
            clients,
            log: None,
            lent,
            page,
            buffer: page,
            under_way: UnderWay::Nothing,
        }
    }

    /// A new log over the volume, after what an operation under way leaves there.
    pub fn restart(&mut self, out: &mut Vec<u8>, restart: Restart) -> Result<(), Bad> {
        let Restart {
            read,
            append,
            page,
            hold,
            left,
        } = restart;
        let fits = |buffer: &Option<Vec<u8>>| {
            buffer
                .as_ref()
                .is_none_or(|bytes| bytes.len() == self.sizes.page_size)
        };
        if !fits(&page) || !fits(&hold) {
            return bad(format!(
                "for the Rust these buffers have {} bytes",
                self.sizes.page_size
            ));
        }
        self.end_operation(left)?;
        let page = self.lent.bytes(page.unwrap_or_else(|| bytes_of(self.page)));
        self.page = page;
        let page = self.lent.page(page);

        self.forget();
        let (driver, clients, circular) = (self.driver, self.clients, self.sizes.circular);
        // The log is dropped before the volume.
        let volume = unsafe { self.volume.lend() };
        self.log = catch_unwind(AssertUnwindSafe(move || {
            let page = page; // moved in, not borrowed anew
            let log = Log::new(volume, driver, page, circular);
            if read {
                log.set_read_client(clients);
            }
            if append {
                log.set_append_client(clients);
            }
            Box::new(log)
        }))
        .ok();
        self.trace(out, "restart", self.log.as_ref().map(|_| 0));
        Ok(())
    }

    /// The power goes: nothing but a restart is delivered from here on.
    pub fn cut(&mut self, out: &mut Vec<u8>, left: Left) -> Result<(), Bad> {
        self.end_operation(Some(left))?;
        self.forget();
        put(out, format_args!("cut\n"));
        Ok(())
    }

    /// What was under way, asked and reported is gone.
    fn forget(&mut self) {
        self.log = None;
        self.under_way = UnderWay::Nothing;
        deferred_call::take_due();
        self.driver.page.take();
        self.driver.request.take();
        self.clients.reports.take();
    }

    pub fn call(&mut self, out: &mut Vec<u8>, call: Call) {
        let name = call.name();
        let reads = matches!(call, Call::Read { .. });
        let Some(log) = self.log.take() else {
            return not_delivered(out, name);
        };
        let answer = catch_unwind(AssertUnwindSafe(|| self.make(&log, call))).ok();
        if answer.is_some() {
            self.log = Some(log);
            self.start();
        }
        self.trace(out, name, answer);
        if reads && answer.is_some() {
            out.pop();
            out.push(b' ');
            put_bytes(out, self.buffer);
            out.push(b'\n');
        }
    }

    /// Makes the call, after what it leaves in the volume, and gives its answer.
    fn make(&mut self, log: &Log<'static, Driver>, call: Call) -> usize {
        let result = |good| if good { Ok(()) } else { Err(Error::FlashError) };
        match call {
            Call::Append { length, data, word } => {
                self.driver.word.set(word);
                let data = self.lent.bytes(data);
                number(
                    log.append(unsafe { &mut *data }, length)
                        .map_err(|(code, _)| code),
                )
            }
            Call::Read { length, buffer } => {
                let buffer = self.lent.bytes(buffer);
                self.buffer = buffer;
                number(
                    log.read(unsafe { &mut *buffer }, length)
                        .map_err(|(code, _)| code),
                )
            }
            Call::Seek(id) => number(log.seek(id)),
            Call::Sync(word) => {
                self.driver.word.set(word);
                number(log.sync())
            }
            Call::Erase(word) => {
                self.driver.word.set(word);
                number(log.erase())
            }
            // Made once for each time that the log asked for it, and only then.
            Call::Deferred => {
                if deferred_call::take_due() {
                    log.handle_deferred_call();
                }
                0
            }
            Call::WriteComplete { good, left } => {
                let page = self.end_write(left);
                log.write_complete(page, result(good));
                0
            }
            Call::EraseComplete { good, left, word } => {
                self.driver.word.set(word);
                self.end_erase(left);
                log.erase_complete(result(good));
                0
            }
        }
    }

    /// Ends the write under way and gives its page. Where there is none, the completion is not due (outside the domain), and the page a spare one.
    fn end_write(&mut self, left: Left) -> &'static mut Page {
        match std::mem::replace(&mut self.under_way, UnderWay::Nothing) {
            UnderWay::Write(slot, page) => {
                self.leave(slot, left, page.0);
                page
            }
            other => {
                self.under_way = other;
                let spare = self.lent.bytes(vec![0; self.sizes.page_size]);
                self.lent.page(spare)
            }
        }
    }

    /// Ends the erase under way, if there is one.
    fn end_erase(&mut self, left: Left) {
        if let UnderWay::Erase(slot) = self.under_way {
            self.under_way = UnderWay::Nothing;
            self.leave(slot, left, &[]);
        }
    }

    /// Ends the operation under way, if there is one, without a completion.
    fn end_operation(&mut self, left: Option<Left>) -> Result<(), Bad> {
        match (
            std::mem::replace(&mut self.under_way, UnderWay::Nothing),
            left,
        ) {
            (UnderWay::Nothing, _) => (),
            (_, None) => return bad("an operation is under way, so this line says what it leaves"),
            (UnderWay::Write(slot, page), Some(left)) => self.leave(slot, left, page.0),
            (UnderWay::Erase(_), Some(Left::New)) => return bad("an erase doesn't leave 'new'"),
            (UnderWay::Erase(slot), Some(left)) => self.leave(slot, left, &[]),
        }
        Ok(())
    }

    fn leave(&self, slot: usize, left: Left, new: &[u8]) {
        let start = slot * self.sizes.page_size;
        match left {
            Left::Old => (),
            Left::Blank => self.volume.put(start, &vec![0xFF; self.sizes.page_size]),
            Left::New => self.volume.put(start, new),
        }
    }

    /// Starts the operation that the call asked for, if the driver accepted it.
    fn start(&mut self) {
        if self.driver.word.get() == Word::Ok {
            match self.driver.request.get() {
                Some(Request::Write(page_number)) => {
                    let page = self
                        .driver
                        .page
                        .take()
                        .expect("an accepted write has its page");
                    self.under_way = UnderWay::Write(self.slot(page_number), page);
                }
                Some(Request::Erase(page_number)) => {
                    self.under_way = UnderWay::Erase(self.slot(page_number))
                }
                None => (),
            }
        }
    }

    /// The log numbers flash pages by address.
    fn slot(&self, page_number: usize) -> usize {
        page_number - self.volume.address() / self.sizes.page_size
    }

    /// Writes a call's line and takes its request and report. No answer: it panicked, and the log is gone.
    fn trace(&mut self, out: &mut Vec<u8>, name: &str, answer: Option<usize>) {
        let request = self.driver.request.take();
        let reports = self.clients.reports.take();
        let (Some(answer), Some(log)) = (answer, &self.log) else {
            return put(out, format_args!("panic {name}\n"));
        };
        put(out, format_args!("{name} {answer} "));
        match &reports[..] {
            [] => put(out, format_args!("-")),
            _ => put(out, format_args!("{}", reports.join(" and "))),
        }
        match request {
            None => put(out, format_args!(" -")),
            Some(Request::Write(page)) => put(
                out,
                format_args!(" write {}", self.sizes.first + self.slot(page)),
            ),
            Some(Request::Erase(page)) => put(
                out,
                format_args!(" erase {}", self.sizes.first + self.slot(page)),
            ),
        }
        let (oldest, read, append) = (log.log_start(), log.next_read_entry_id(), log.log_end());
        put(out, format_args!(" ? {oldest} {read} {append} ? "));
        put_bytes(out, self.page);
        put(out, format_args!(" ?\n"));
    }

    pub fn get(&self, out: &mut Vec<u8>) {
        match &self.log {
            None => not_delivered(out, "get"),
            Some(log) => {
                let (start, end, next) = (log.log_start(), log.log_end(), log.next_read_entry_id());
                put(
                    out,
                    format_args!("get {start} {end} {next} {}\n", log.get_size()),
                );
            }
        }
    }

    pub fn show_volume(&self, out: &mut Vec<u8>) {
        put(out, format_args!("volume "));
        put_bytes(out, &self.volume.bytes()[..]);
        put(out, format_args!("\n"));
    }
}

impl Drop for Bench {
    /// The log goes before what it was lent.
    fn drop(&mut self) {
        self.forget();
    }
}

fn not_delivered(out: &mut Vec<u8>, name: &str) {
    put(out, format_args!("{name} not delivered\n"));
}

fn put(out: &mut Vec<u8>, text: std::fmt::Arguments) {
    out.write_fmt(text).expect("memory");
}

/// A copy of bytes that may be lent to the log at the moment.
fn bytes_of(bytes: *const [u8]) -> Vec<u8> {
    let start: *const u8 = bytes.cast();
    (0..bytes.len())
        .map(|i| unsafe { start.add(i).read_volatile() })
        .collect()
}

fn put_bytes(out: &mut Vec<u8>, bytes: *const [u8]) {
    const DIGITS: &[u8; 16] = b"0123456789abcdef";
    if bytes.len() == 0 {
        out.push(b'-');
    }
    let start: *const u8 = bytes.cast();
    for i in 0..bytes.len() {
        let byte = unsafe { start.add(i).read_volatile() };
        out.push(DIGITS[usize::from(byte >> 4)]);
        out.push(DIGITS[usize::from(byte & 15)]);
    }
}
