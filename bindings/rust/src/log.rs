//! The log and its calls.

use crate::block;
use crate::numbers::{DriverWord, EntryID, Outcome, Request, State};
use crate::word::{At, Word};

/// The sizes of a log. A restart with others is refused as SHAPE.
#[derive(Clone, Copy, Debug, PartialEq, Eq, Hash)]
pub struct Geometry {
    /// Bytes of a page: a power of two from 4w (16 or 32) to 4,096.
    pub page_size: u32,
    /// Pages of the volume: 1 to 4,096.
    pub page_count: u32,
    /// The flash page number of the volume's first page: at most 16,777,215.
    pub first_page: u32,
}

/// How a log is used. The default is a circular log with both clients.
#[derive(Clone, Copy, Debug, PartialEq, Eq, Hash)]
pub struct Mode {
    /// The oldest page makes room for the newest; else the log is full after its last page.
    pub circular: bool,
    /// Reads and seeks are answered; else RESERVE.
    pub read_client: bool,
    /// Appends, syncs and erases are answered; else RESERVE.
    pub append_client: bool,
}

impl Default for Mode {
    fn default() -> Mode {
        Mode {
            circular: true,
            read_client: true,
            append_client: true,
        }
    }
}

/// Reading, by the names of Tock's `LogRead`. `volume` is the log's flash as memory.
pub trait LogRead {
    /// Reads the next entry, of at most `length` bytes, to the front of `buffer`, whose other bytes stay. After OK the deferred
    /// call is due, and reports the length.
    fn read(&mut self, volume: &[u8], buffer: &mut [u8], length: usize) -> Outcome;

    /// O, the ID of the oldest entry; 0 where there is no log.
    fn log_start(&self) -> EntryID;

    /// A, the end of the log; 0 where there is no log.
    fn log_end(&self) -> EntryID;

    /// R, where the next read looks for its entry; 0 where there is no log.
    fn next_read_entry_id(&self) -> EntryID;

    /// The next read is at `entry`. After OK the deferred call is due.
    fn seek(&mut self, entry: EntryID) -> Outcome;

    /// The bytes of the volume without its page headers; 0 where there is no log.
    fn get_size(&self) -> usize;
}

/// Writing, by the names of Tock's `LogWrite`. `volume` is the log's flash as memory, `word` the driver's word.
pub trait LogWrite {
    /// Appends the first `length` bytes of `data`. It is reported at once, or after a write's completion.
    fn append(&mut self, volume: &[u8], data: &[u8], length: usize, word: DriverWord) -> Outcome;

    /// Writes the page buffer to flash. It is reported by the write's completion; where the page has no entry it answers OK and
    /// nothing is reported. Each other sync costs the erase and the write of a page, also where nothing was appended since the last.
    /// A power cut in a later write of the same page can still take what was synced (`punelovash.h`, "What a power cut can still
    /// take").
    fn sync(&mut self, volume: &[u8], word: DriverWord) -> Outcome;

    /// Erases the log, page by page. It is reported by the last erase's completion. A driver's refusal leaves the log as it was.
    fn erase(&mut self, word: DriverWord) -> Outcome;
}

/// A log with words `W`: its block, and its page and hold buffer, owned or borrowed (`[u8; P]`, `&mut [u8]` ..). Each buffer has
/// the length of a page; else every call that looks at it is refused as SHAPE. `seek`, `erase` and the deferred call look at
/// neither, `read` not at the hold buffer.
#[derive(Clone, Debug)]
pub struct Log<B, W: Word> {
    block: W::Block,
    page: B,
    hold: B,
}

/// A log on the board with 4-byte words.
pub type Log4<B> = Log<B, u32>;

/// A log on the board with 8-byte words.
pub type Log8<B> = Log<B, u64>;

impl<B: AsRef<[u8]> + AsMut<[u8]>, W: Word> Log<B, W> {
    /// Buffers for a log. Before a restart every call is refused as SHAPE.
    pub fn new(page: B, hold: B) -> Self {
        Self::from_parts(W::ZEROS, page, hold)
    }

    /// A log from its parts, of whatever bytes.
    pub fn from_parts(block: W::Block, page: B, hold: B) -> Self {
        Log { block, page, hold }
    }

    /// The block, the page and the hold buffer.
    pub fn into_parts(self) -> (W::Block, B, B) {
        (self.block, self.page, self.hold)
    }

    /// The block's bytes.
    pub fn block(&self) -> &W::Block {
        &self.block
    }

    /// The page buffer: what a requested write is to put on flash. It stays the same until the write's completion.
    pub fn page(&self) -> &[u8] {
        self.page.as_ref()
    }

    /// The hold buffer.
    pub fn hold(&self) -> &[u8] {
        self.hold.as_ref()
    }

    /// What the log is doing; `None` where its number is no state's.
    pub fn state(&self) -> Option<State> {
        State::of(self.block.as_ref()[At::<W>::STATE])
    }

    /// The kept length: that of the entry under way, or last read or appended.
    pub fn kept_length(&self) -> usize {
        block::number_at(self.block.as_ref(), At::<W>::KEPT) as usize
    }

    /// Finds what the volume holds. The first call, and the call after a power cut. Refused as SHAPE, all is as before.
    pub fn restart(&mut self, sizes: Geometry, mode: Mode, volume: &[u8]) -> Outcome {
        let block = self.block.as_mut();
        let page = self.page.as_mut();
        let hold = self.hold.as_ref();
        // SAFETY: each pointer and length is of a slice that lives through the call; the mutable ones are borrowed as such.
        let number = unsafe {
            W::restart(
                block.as_mut_ptr(),
                block.len(),
                sizes.page_size,
                sizes.page_count,
                sizes.first_page,
                mode.circular.into(),
                mode.read_client.into(),
                mode.append_client.into(),
                volume.as_ptr(),
                volume.len(),
                page.as_mut_ptr(),
                page.len(),
                hold.as_ptr(),
                hold.len(),
            )
        };
        self.outcome(number)
    }

    /// The write that was requested has ended, well or not.
    pub fn write_complete(&mut self, volume: &[u8], good: bool) -> Outcome {
        let block = self.block.as_mut();
        let page = self.page.as_mut();
        let hold = self.hold.as_ref();
        // SAFETY: as in `restart`.
        let number = unsafe {
            W::write_complete(
                block.as_mut_ptr(),
                block.len(),
                volume.as_ptr(),
                volume.len(),
                page.as_mut_ptr(),
                page.len(),
                hold.as_ptr(),
                hold.len(),
                good.into(),
            )
        };
        self.outcome(number)
    }

    /// The erase that was requested has ended, well or not. `word` is for the next one.
    pub fn erase_complete(&mut self, volume: &[u8], good: bool, word: DriverWord) -> Outcome {
        let block = self.block.as_mut();
        let page = self.page.as_mut();
        let hold = self.hold.as_ref();
        // SAFETY: as in `restart`.
        let number = unsafe {
            W::erase_complete(
                block.as_mut_ptr(),
                block.len(),
                volume.as_ptr(),
                volume.len(),
                page.as_mut_ptr(),
                page.len(),
                hold.as_ptr(),
                hold.len(),
                good.into(),
                word.number(),
            )
        };
        self.outcome(number)
    }

    /// Reports the read or the seek that was answered OK.
    pub fn deferred_call(&mut self) -> Outcome {
        let block = self.block.as_mut();
        // SAFETY: as in `restart`.
        let number = unsafe { W::deferred_call(block.as_mut_ptr(), block.len()) };
        self.outcome(number)
    }

    /// `append`, where `start` asks the driver to start the request with the page buffer, and gives its word. It is called at
    /// most once, and only where there is a request.
    pub fn append_with<S>(&mut self, volume: &[u8], data: &[u8], length: usize, start: S) -> Outcome
    where
        S: FnOnce(Request, &[u8]) -> DriverWord,
    {
        self.asking(start, |log, word| log.append(volume, data, length, word))
    }

    /// `sync`, where `start` asks the driver.
    pub fn sync_with<S>(&mut self, volume: &[u8], start: S) -> Outcome
    where
        S: FnOnce(Request, &[u8]) -> DriverWord,
    {
        self.asking(start, |log, word| log.sync(volume, word))
    }

    /// `erase`, where `start` asks the driver. Its refusal leaves the log as it was.
    pub fn erase_with<S>(&mut self, start: S) -> Outcome
    where
        S: FnOnce(Request, &[u8]) -> DriverWord,
    {
        self.asking(start, |log, word| log.erase(word))
    }

    /// `erase_complete`, where `start` asks the driver to start the next erase. Its refusal is reported as the end of the erase.
    pub fn erase_complete_with<S>(&mut self, volume: &[u8], good: bool, start: S) -> Outcome
    where
        S: FnOnce(Request, &[u8]) -> DriverWord,
    {
        self.asking(start, |log, word| log.erase_complete(volume, good, word))
    }

    fn outcome(&self, number: u32) -> Outcome {
        block::outcome::<W>(&self.block, number)
    }

    /// The call as if the driver starts; if it refuses, the call from the same block with its word. The buffers are left alike
    /// whatever the word, so that the second call leaves what it would have left alone.
    fn asking<S, C>(&mut self, start: S, call: C) -> Outcome
    where
        S: FnOnce(Request, &[u8]) -> DriverWord,
        C: Fn(&mut Self, DriverWord) -> Outcome,
    {
        let before = self.block;
        let outcome = call(self, DriverWord::Ok);
        if outcome.request == Request::Nothing {
            return outcome;
        }
        match start(outcome.request, self.page.as_ref()) {
            DriverWord::Ok => outcome,
            word => {
                self.block = before;
                call(self, word)
            }
        }
    }
}

impl<B: AsRef<[u8]> + AsMut<[u8]>, W: Word> LogRead for Log<B, W> {
    fn read(&mut self, volume: &[u8], buffer: &mut [u8], length: usize) -> Outcome {
        let block = self.block.as_mut();
        let page = self.page.as_ref();
        // SAFETY: as in `restart`.
        let number = unsafe {
            W::read(
                block.as_mut_ptr(),
                block.len(),
                volume.as_ptr(),
                volume.len(),
                page.as_ptr(),
                page.len(),
                buffer.as_mut_ptr(),
                buffer.len(),
                length,
            )
        };
        self.outcome(number)
    }

    fn log_start(&self) -> EntryID {
        let block = self.block.as_ref();
        // SAFETY: the block lives through the call, which only reads it; so too in the other getters.
        EntryID(unsafe { W::log_start(block.as_ptr(), block.len()) })
    }

    fn log_end(&self) -> EntryID {
        let block = self.block.as_ref();
        // SAFETY: as in `log_start`.
        EntryID(unsafe { W::log_end(block.as_ptr(), block.len()) })
    }

    fn next_read_entry_id(&self) -> EntryID {
        let block = self.block.as_ref();
        // SAFETY: as in `log_start`.
        EntryID(unsafe { W::next_read_entry_id(block.as_ptr(), block.len()) })
    }

    fn seek(&mut self, entry: EntryID) -> Outcome {
        let block = self.block.as_mut();
        // SAFETY: as in `restart`.
        let number = unsafe { W::seek(block.as_mut_ptr(), block.len(), entry.0) };
        self.outcome(number)
    }

    fn get_size(&self) -> usize {
        let block = self.block.as_ref();
        // SAFETY: as in `log_start`.
        unsafe { W::get_size(block.as_ptr(), block.len()) }
    }
}

impl<B: AsRef<[u8]> + AsMut<[u8]>, W: Word> LogWrite for Log<B, W> {
    fn append(&mut self, volume: &[u8], data: &[u8], length: usize, word: DriverWord) -> Outcome {
        let block = self.block.as_mut();
        let page = self.page.as_mut();
        let hold = self.hold.as_mut();
        // SAFETY: as in `restart`.
        let number = unsafe {
            W::append(
                block.as_mut_ptr(),
                block.len(),
                volume.as_ptr(),
                volume.len(),
                page.as_mut_ptr(),
                page.len(),
                hold.as_mut_ptr(),
                hold.len(),
                data.as_ptr(),
                data.len(),
                length,
                word.number(),
            )
        };
        self.outcome(number)
    }

    fn sync(&mut self, volume: &[u8], word: DriverWord) -> Outcome {
        let block = self.block.as_mut();
        let page = self.page.as_mut();
        let hold = self.hold.as_ref();
        // SAFETY: as in `restart`.
        let number = unsafe {
            W::sync(
                block.as_mut_ptr(),
                block.len(),
                volume.as_ptr(),
                volume.len(),
                page.as_mut_ptr(),
                page.len(),
                hold.as_ptr(),
                hold.len(),
                word.number(),
            )
        };
        self.outcome(number)
    }

    fn erase(&mut self, word: DriverWord) -> Outcome {
        let block = self.block.as_mut();
        // SAFETY: as in `restart`.
        let number = unsafe { W::erase(block.as_mut_ptr(), block.len(), word.number()) };
        self.outcome(number)
    }
}
