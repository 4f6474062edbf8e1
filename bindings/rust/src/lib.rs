//! A log on flash memory, proved: a safe wrapper of libpunelovash.a and libpunelovash8.a.
//!
//! The log is defined by "document 01", as changed by the requests of document 02 that have landed; `punelovash.h` says of each
//! call what it answers and leaves. In short: a [`Log`] owns its state and has a page and a hold buffer of one flash page each.
//! The volume, the log's flash as memory, is lent to each call that looks at it, and only the flash driver writes it. Each call
//! gives an [`Outcome`]: an answer, at most one [`Report`] and at most one [`Request`] to the flash.
//!
//! There are two boards. [`Log4`] is a log with 4-byte words, [`Log8`] one with 8-byte words: `Log<B, u32>` and `Log<B, u64>`.
//! They have the same calls; [`Word`] says how they differ, and stands for either in code for both.
//!
//! ```
//! use punelovash::{Answer, DriverWord, Geometry, Log8, LogRead, LogWrite, Mode, Report, Request};
//!
//! let mut volume = [0xFF; 4 * 64];
//! let mut log = Log8::new([0; 64], [0; 64]); // or Log4
//! let sizes = Geometry { page_size: 64, page_count: 4, first_page: 0 };
//! assert_eq!(log.restart(sizes, Mode::default(), &volume).answer, Answer::Ok);
//!
//! // the entry fits in the page buffer, and is reported at once
//! let done = log.append(&volume, b"hello", 5, DriverWord::Ok);
//! assert_eq!(done.report, Report::AppendDone { length: 5, lost: false, result: Answer::Ok });
//!
//! // a sync asks for a write of the page buffer; its completion reports
//! let Request::Write(page) = log.sync(&volume, DriverWord::Ok).request else { panic!() };
//! let at = page.0 as usize * 64;
//! volume[at..at + 64].copy_from_slice(log.page());
//! assert_eq!(log.write_complete(&volume, true).report, Report::SyncDone(Answer::Ok));
//!
//! let mut buffer = [0; 64];
//! assert_eq!(log.read(&volume, &mut buffer, 64).answer, Answer::Ok);
//! assert_eq!(log.deferred_call().report, Report::ReadDone { length: 5, result: Answer::Ok });
//! assert_eq!(&buffer[..5], b"hello");
//! ```
//!
//! # Marks
//!
//! A [`Mark`] is an entry of 15 bytes with a stamp. In a log that has no other entries, [`Log::nearest`] and [`Log::between`] find
//! marks by their stamps. [`Log::entries`] goes over the entries of any log. None of the three changes anything, or moves the read
//! ID, and each answers whatever the log is doing.
//!
//! ```
//! use punelovash::{Answer, DriverWord, EntryID, Geometry, Log4, LogWrite, Mark, Mode};
//!
//! let volume = [0xFF; 4 * 128];
//! let mut log = Log4::new([0; 128], [0; 128]); // or Log8
//! let sizes = Geometry { page_size: 128, page_count: 4, first_page: 0 };
//! assert_eq!(log.restart(sizes, Mode::default(), &volume).answer, Answer::Ok);
//! for (picture, stamp) in [(1, 100), (2, 110), (3, 90)] {
//!     let mark = Mark { picture, stamp, turn: 0, region: 0, across: 0, down: 0 };
//!     assert_eq!(log.append(&volume, &mark.to_bytes(), Mark::SIZE, DriverWord::Ok).answer, Answer::Ok);
//! }
//!
//! assert_eq!(log.nearest(&volume, 104), Ok(EntryID(4)));
//! let mut ids = [0; 8];
//! assert_eq!(log.between(&volume, 100, 110, &mut ids), Ok(2));
//! assert_eq!(ids[..2], [4, 23]);
//!
//! for entry in log.entries(&volume) {
//!     let entry = entry.expect("the log that the restart made");
//!     let mark = Mark::from_bytes(entry.bytes).expect("a mark");
//!     assert_eq!(entry.id, EntryID(4 + 19 * u64::from(mark.picture - 1)));
//! }
//! ```
//!
//! # What is not promised
//!
//! What is proved is said in this folder's README. It is about the functions of the archives; this wrapper is tested. Of power cuts:
//!
//! - An entry reported done is on flash only once its page was written. A later write of the same page that is cut, or fails, and
//!   leaves the page blank takes all of its entries, those that were synced before too.
//! - That a restart finds exactly the pages on flash has three premises: the log began on a volume with no valid page header; no
//!   entry has a length whose remainder by 256 is 0 or 255; and a page whose write or erase failed or was cut is left as it was,
//!   all 0xFF, or as the write wanted it.
//!
//! # The driver's word
//!
//! A call that may request an operation is given the driver's word, which matters only where it makes a request. There are two
//! ways to use it; a request is started only where the word was `Ok`:
//!
//! - Give [`DriverWord::Ok`] and start what is requested. If the driver refuses, call the completion with `good` false: an
//!   operation that failed and left the old page. The log is Idle again, and the report says `Fail`.
//! - Use [`Log::append_with`], [`Log::sync_with`], [`Log::erase_with`] and [`Log::erase_complete_with`], which ask the driver in
//!   between. Its refusal is then the answer and the log is Idle; a refused erase leaves it as it was. An erase's completion answers
//!   `Ok` whatever the word, and reports the refusal of the next erase.
#![no_std]
#![warn(missing_docs)]

mod block;
mod ffi;
mod log;
mod marks;
mod numbers;
mod survey;
mod word;

pub use log::{Geometry, Log, Log4, Log8, LogRead, LogWrite, Mode};
pub use marks::{Entries, Entry, Mark, Refused};
pub use numbers::{Answer, DriverWord, EntryID, Outcome, PageNumber, Report, Request, State};
pub use survey::survey;
pub use word::Word;

/// The archives' functions and the places in a block, for code that does without the wrapper.
pub mod raw {
    pub use crate::ffi::Library;
    pub use crate::word::At;
}
