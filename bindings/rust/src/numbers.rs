//! What the library says in numbers, as types.

/// The ID of an entry: it counts bytes from the log's beginning. It is a word; 64 bits hold it on both boards.
#[derive(Clone, Copy, Debug, PartialEq, Eq, PartialOrd, Ord, Hash)]
pub struct EntryID(pub u64);

/// The number of a flash page: the first flash page plus the slot.
#[derive(Clone, Copy, Debug, PartialEq, Eq, PartialOrd, Ord, Hash)]
pub struct PageNumber(pub u32);

/// An answer, or the result in a report, by document 01's numbers.
#[derive(Clone, Copy, Debug, PartialEq, Eq, Hash)]
pub enum Answer {
    /// 0
    Ok,
    /// 1: end of log, bad entry header, no space left in a plain log; or the driver's word
    Fail,
    /// 2: the state isn't Idle; or the driver's word
    Busy,
    /// 5: the client isn't set
    Reserve,
    /// 6: a length or a seek's ID that isn't allowed
    Inval,
    /// 7: the entry is too long for a page, or for a read's length; more page IDs or marks than there is room for
    Size,
    /// 8: a read with its ID past the append ID
    Cancel,
    /// 20: sizes that aren't allowed, or a volume or buffer of another length
    Shape,
    /// 21: the block holds no log
    State,
    /// 22: a completion or a deferred call that isn't due
    Stray,
    /// 23: an append that needs a page at the ceiling
    Limit,
    /// 24: a search, at the first entry of the log that is no mark
    NoMark,
    /// 25: a search of a log that has no entry
    NoEntry,
    /// 26: a search whose first stamp is above its last
    Range,
    /// Any other number. The library gives none.
    Other(u32),
}

impl Answer {
    pub(crate) fn of(number: u32) -> Answer {
        match number {
            0 => Answer::Ok,
            1 => Answer::Fail,
            2 => Answer::Busy,
            5 => Answer::Reserve,
            6 => Answer::Inval,
            7 => Answer::Size,
            8 => Answer::Cancel,
            20 => Answer::Shape,
            21 => Answer::State,
            22 => Answer::Stray,
            23 => Answer::Limit,
            24 => Answer::NoMark,
            25 => Answer::NoEntry,
            26 => Answer::Range,
            other => Answer::Other(other),
        }
    }

    /// Document 01's number.
    pub fn number(self) -> u32 {
        match self {
            Answer::Ok => 0,
            Answer::Fail => 1,
            Answer::Busy => 2,
            Answer::Reserve => 5,
            Answer::Inval => 6,
            Answer::Size => 7,
            Answer::Cancel => 8,
            Answer::Shape => 20,
            Answer::State => 21,
            Answer::Stray => 22,
            Answer::Limit => 23,
            Answer::NoMark => 24,
            Answer::NoEntry => 25,
            Answer::Range => 26,
            Answer::Other(other) => other,
        }
    }
}

/// The driver's answer when it is asked to start an operation.
#[derive(Clone, Copy, Debug, PartialEq, Eq, Hash)]
pub enum DriverWord {
    /// It has started.
    Ok,
    /// It is busy, and has not.
    Busy,
    /// It has failed to start.
    Fail,
}

impl DriverWord {
    pub(crate) fn number(self) -> u8 {
        match self {
            DriverWord::Ok => 0,
            DriverWord::Busy => 2,
            DriverWord::Fail => 1,
        }
    }
}

/// What the log is doing.
#[derive(Clone, Copy, Debug, PartialEq, Eq, Hash)]
pub enum State {
    /// Nothing is under way.
    Idle,
    /// A read waits for the deferred call.
    Read,
    /// A seek waits for the deferred call.
    Seek,
    /// An append waits for a write's completion.
    Append,
    /// A sync waits for a write's completion.
    Sync,
    /// An erase waits for an erase's completion.
    Erase,
}

impl State {
    pub(crate) fn of(number: u8) -> Option<State> {
        match number {
            0 => Some(State::Idle),
            1 => Some(State::Read),
            2 => Some(State::Seek),
            3 => Some(State::Append),
            4 => Some(State::Sync),
            5 => Some(State::Erase),
            _ => None,
        }
    }
}

/// What a call reports: in Tock, a callback of the client. Every report leaves the log Idle.
#[derive(Clone, Copy, Debug, PartialEq, Eq, Hash)]
pub enum Report {
    /// No report.
    Nothing,
    /// An append is over.
    AppendDone {
        /// The entry's length; 0 where the result isn't Ok.
        length: usize,
        /// The oldest ID isn't w, the first: entries were overwritten or erased.
        lost: bool,
        /// Ok, Fail or Cancel.
        result: Answer,
    },
    /// A sync is over: Ok or Fail.
    SyncDone(Answer),
    /// An erase is over: Ok, Fail or Busy.
    EraseDone(Answer),
    /// A read is over.
    ReadDone {
        /// The entry's length.
        length: usize,
        /// Ok.
        result: Answer,
    },
    /// A seek is over: Ok.
    SeekDone(Answer),
}

/// What a call asks of the flash. It is to be started only where the driver's word was Ok.
#[derive(Clone, Copy, Debug, PartialEq, Eq, Hash)]
pub enum Request {
    /// No request.
    Nothing,
    /// The page buffer is to replace this page.
    Write(PageNumber),
    /// This page is to become all 0xFF.
    Erase(PageNumber),
}

/// What a call gives.
#[must_use]
#[derive(Clone, Copy, Debug, PartialEq, Eq, Hash)]
pub struct Outcome {
    /// The answer.
    pub answer: Answer,
    /// At most one report.
    pub report: Report,
    /// At most one flash request, given whatever the driver's word was.
    pub request: Request,
}
