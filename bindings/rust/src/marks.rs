//! Marks, the two searches among them, and a log's entries one by one.

use crate::log::{Log, LogRead};
use crate::numbers::{Answer, EntryID};
use crate::word::Word;
use core::iter::FusedIterator;

const VERSION: u8 = 1;
const LENGTH: u8 = 12;
const LAST_TURN: u8 = 3;

/// A mark: what an entry of 15 bytes says, which begins with version 1 and the two-byte length 12.
///
/// `to_bytes` and `from_bytes` are plain Rust, not part of what is proved; they are tested against the library's searches.
///
/// ```
/// use punelovash::Mark;
///
/// let mark = Mark { picture: 7, stamp: 0x0102, turn: 3, region: 4, across: 5, down: 6 };
/// assert_eq!(mark.to_bytes(), [1, 0, 12, 0, 0, 0, 7, 0, 0, 1, 2, 3, 4, 5, 6]);
/// assert_eq!(Mark::from_bytes(&mark.to_bytes()), Some(mark));
/// assert_eq!(Mark::from_bytes(b"no mark"), None);
/// ```
#[derive(Clone, Copy, Debug, PartialEq, Eq, Hash)]
pub struct Mark {
    /// The picture's number.
    pub picture: u32,
    /// The stamp, in seconds.
    pub stamp: u32,
    /// The turn, in quarter turns: 0 to 3.
    pub turn: u8,
    /// The region.
    pub region: u8,
    /// The place across.
    pub across: u8,
    /// The place down.
    pub down: u8,
}

impl Mark {
    /// The bytes of a mark's entry.
    pub const SIZE: usize = 15;

    /// The mark's entry. With a turn above 3 it is no mark's.
    pub fn to_bytes(&self) -> [u8; Mark::SIZE] {
        let [p0, p1, p2, p3] = self.picture.to_be_bytes();
        let [s0, s1, s2, s3] = self.stamp.to_be_bytes();
        let Mark {
            turn,
            region,
            across,
            down,
            ..
        } = *self;
        [
            VERSION, 0, LENGTH, p0, p1, p2, p3, s0, s1, s2, s3, turn, region, across, down,
        ]
    }

    /// The mark that an entry's bytes are; `None` if they are another entry's.
    pub fn from_bytes(bytes: &[u8]) -> Option<Mark> {
        match *bytes {
            [VERSION, 0, LENGTH, p0, p1, p2, p3, s0, s1, s2, s3, turn, region, across, down]
                if turn <= LAST_TURN =>
            {
                Some(Mark {
                    picture: u32::from_be_bytes([p0, p1, p2, p3]),
                    stamp: u32::from_be_bytes([s0, s1, s2, s3]),
                    turn,
                    region,
                    across,
                    down,
                })
            }
            _ => None,
        }
    }
}

/// What a search answers where it is refused.
#[derive(Clone, Copy, Debug, PartialEq, Eq, Hash)]
pub struct Refused {
    /// `Shape`, `State`, `NoMark` or `NoEntry`; of [`Log::between`] also `Range` or `Size`.
    pub answer: Answer,
    /// With `NoMark`, the ID of the first entry that is no mark; else `None`.
    pub entry: Option<EntryID>,
}

/// What a search gives: the number it was lent, by its answer.
fn searched(number: u32, value: u64) -> Result<u64, Refused> {
    match Answer::of(number) {
        Answer::Ok => Ok(value),
        answer => Err(Refused {
            answer,
            entry: (answer == Answer::NoMark).then_some(EntryID(value)),
        }),
    }
}

/// Searches and entries. They change nothing, make no report and no request, and answer in every state and whatever the clients.
/// They look at the page buffer, but not at the hold buffer.
///
/// A search looks at every entry from O to the first FAIL of a read, and all of them have to be marks. The time grows with their
/// number, which has no bound but the ceiling where a volume has page headers many laps apart (`punelovash.h`, "Marks").
impl<B: AsRef<[u8]> + AsMut<[u8]>, W: Word> Log<B, W> {
    /// The ID of the mark whose stamp differs least from `stamp`, the earlier in the log where two differ alike.
    pub fn nearest(&self, volume: &[u8], stamp: u32) -> Result<EntryID, Refused> {
        let block = self.block().as_ref();
        let page = self.page();
        let mut id = 0;
        // SAFETY: each pointer and length is of a slice that lives through the call, which reads them; `id` is borrowed mutably.
        let number = unsafe {
            W::nearest(
                block.as_ptr(),
                block.len(),
                volume.as_ptr(),
                volume.len(),
                page.as_ptr(),
                page.len(),
                stamp,
                &mut id,
            )
        };
        searched(number, id).map(EntryID)
    }

    /// Writes the IDs of all marks with stamps from `first` to `last`, both included, in log order to the front of `ids`, and gives
    /// their count; the elements after it stay. Refused, all of `ids` stays.
    pub fn between(
        &self,
        volume: &[u8],
        first: u32,
        last: u32,
        ids: &mut [u64],
    ) -> Result<usize, Refused> {
        let block = self.block().as_ref();
        let page = self.page();
        let mut value = 0;
        // SAFETY: as in `nearest`; `ids` too is borrowed mutably.
        let number = unsafe {
            W::between(
                block.as_ptr(),
                block.len(),
                volume.as_ptr(),
                volume.len(),
                page.as_ptr(),
                page.len(),
                first,
                last,
                ids.as_mut_ptr(),
                ids.len(),
                &mut value,
            )
        };
        searched(number, value).map(|count| count as usize)
    }

    /// The entries from O on, marks or not. R stays.
    pub fn entries<'a>(&'a self, volume: &'a [u8]) -> Entries<'a, W> {
        Entries {
            block: self.block(),
            volume,
            page: self.page(),
            append: self.log_end(),
            at: self.log_start(),
            over: false,
        }
    }
}

/// An entry in its log.
#[derive(Clone, Copy, Debug, PartialEq, Eq, Hash)]
pub struct Entry<'a> {
    /// Its ID.
    pub id: EntryID,
    /// The length of its data.
    pub length: usize,
    /// The ID after it.
    pub end: EntryID,
    /// Its data, in the page buffer or the volume. Where they stand is plain Rust, not part of what is proved.
    pub bytes: &'a [u8],
}

/// The entries of a log, from [`Log::entries`]: up to where a read would answer FAIL. A refusal, `Shape` or `State`, is told once.
#[derive(Clone, Debug)]
pub struct Entries<'a, W: Word> {
    block: &'a W::Block,
    volume: &'a [u8],
    page: &'a [u8],
    append: EntryID,
    at: EntryID,
    over: bool,
}

impl<'a, W: Word> Entries<'a, W> {
    /// The entries from the first at `id` or past it on. `id` should be an entry's ID or its end, or a page's beginning: elsewhere
    /// what isn't an entry may be taken for one.
    pub fn at(self, id: EntryID) -> Self {
        Entries {
            at: id,
            over: false,
            ..self
        }
    }

    /// The data of an entry that `next_entry` gave: in the page buffer if its page is the one in which A - 1 is, else in the volume.
    fn bytes(&self, id: u64, length: usize) -> &'a [u8] {
        let page_size = self.page.len() as u64;
        let held = if id / page_size == (self.append.0 - 1) / page_size {
            self.page
        } else {
            self.volume
        };
        let from = (id + W::BYTES as u64) % held.len() as u64;
        &held[from as usize..][..length]
    }
}

impl<'a, W: Word> Iterator for Entries<'a, W> {
    type Item = Result<Entry<'a>, Answer>;

    fn next(&mut self) -> Option<Self::Item> {
        if self.over {
            return None;
        }
        let block = self.block.as_ref();
        let (mut id, mut length, mut end) = (0, 0, 0);
        // SAFETY: as in `Log::nearest`; the three numbers are borrowed mutably.
        let number = unsafe {
            W::next_entry(
                block.as_ptr(),
                block.len(),
                self.volume.as_ptr(),
                self.volume.len(),
                self.page.as_ptr(),
                self.page.len(),
                self.at.0,
                &mut id,
                &mut length,
                &mut end,
            )
        };
        let answer = Answer::of(number);
        self.over = answer != Answer::Ok;
        match answer {
            Answer::Ok => {
                self.at = EntryID(end);
                Some(Ok(Entry {
                    id: EntryID(id),
                    length,
                    end: EntryID(end),
                    bytes: self.bytes(id, length),
                }))
            }
            Answer::Fail => None,
            refusal => Some(Err(refusal)),
        }
    }
}

impl<W: Word> FusedIterator for Entries<'_, W> {}
