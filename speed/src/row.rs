//! The rows of the table: for each, how a log is made ready, and the calls that are measured.

use crate::side::{
    fall, fill_page, fill_with_marks, flush, nearest_by_reads, next_page, store, Side,
};
use std::hint::black_box;

/// Makes calls so many times on each log. A macro, so that they stand in the loop and not in a function of their own.
macro_rules! repeat {
    ($logs:expr, $times:expr, $log:ident => $calls:expr) => {
        for $log in $logs.iter_mut() {
            for _ in 0..$times {
                $calls;
            }
        }
    };
}

#[derive(Clone, Copy, PartialEq)]
pub enum Kind {
    /// An append that fits in the page.
    Fits,
    /// An append that doesn't, with its completion; then the two alone.
    Flush,
    FlushAppend,
    FlushComplete,
    /// Appends one after the other, with flush and completion where they come.
    Steady,
    /// A read with its deferred call, of a page on flash or of the page buffer; then the two alone.
    ReadVolume,
    ReadBuffer,
    ReadAlone,
    ReadDeferred,
    /// A seek with its deferred call.
    Seek,
    /// A sync with its completion; then the two alone.
    Sync,
    SyncAlone,
    SyncComplete,
    /// A sync of an empty page, which asks for nothing.
    SyncEmpty,
    /// A restart on a full volume; and on one whose newest page is full of entries of 1 byte, the most that the walk can meet.
    Restart,
    RestartOnes,
    /// A survey of a volume that was gone around one and a half times, and of one whose IDs fall by slot.
    Survey,
    SurveyFalling,
    /// A search among a volume of marks, gone around one and a half times: the nearest one, half of them listed, and the nearest one by reads, each
    /// with its deferred call. `Log` has no search, so that on its side all three are by reads.
    Nearest,
    Between,
    NearestByReads,
}

pub struct Row {
    pub kind: Kind,
    pub page_size: usize,
    pub page_count: usize,
    /// The bytes of data of an entry; in a restart, the bytes of an entry on flash (of other pages than a newest one with entries of 1 byte).
    pub data: usize,
    /// The bytes that are left in the page when it is flushed.
    pub left: usize,
    /// How many logs there are: more than one where a call can't be repeated at once.
    logs: usize,
    /// How many times the calls are made on each log: once where there are more than one.
    times: usize,
}

const fn row(
    kind: Kind,
    sizes: (usize, usize),
    data: usize,
    left: usize,
    logs: usize,
    times: usize,
) -> Row {
    let (page_size, page_count) = sizes;
    Row {
        kind,
        page_size,
        page_count,
        data,
        left,
        logs,
        times,
    }
}

/// The logs of a row whose calls can't be repeated at once.
const MANY: usize = 32;

/// A restart's newest page.
pub const FULL: &str = "full";
pub const PADDED: &str = "padded";
pub const FULL_OF_ONES: &str = "full of 1-byte entries";

/// Pages of 512 bytes hold 7 entries of 64 bytes on every side.
const PAGE_ENTRIES: usize = 7;

pub fn rows() -> Vec<Row> {
    use Kind::*;
    let mut rows = vec![
        row(Fits, (4096, 4), 16, 0, 1, 150),
        row(Fits, (4096, 4), 64, 0, 1, 50),
        row(Flush, (512, 4), 64, 0, MANY, 1),
        row(Flush, (512, 4), 64, 32, MANY, 1),
        row(Steady, (512, 64), 64, 0, 1, 16 * PAGE_ENTRIES),
        row(ReadVolume, (4096, 4), 16, 0, 1, 150),
        row(ReadVolume, (4096, 4), 64, 0, 1, 50),
        row(ReadBuffer, (4096, 4), 16, 0, 1, 150),
        row(ReadBuffer, (4096, 4), 64, 0, 1, 50),
        row(Sync, (512, 4), 64, 0, MANY, 1),
        row(Sync, (512, 4), 64, 32, MANY, 1),
        row(SyncEmpty, (512, 4), 0, 0, 1, 100),
    ];
    for (kind, left) in [(Restart, 0), (Restart, 16), (RestartOnes, 0)] {
        for page_size in [512, 4096] {
            for page_count in [64, 1024, 4096] {
                let times = 4096 / page_count;
                rows.push(row(kind, (page_size, page_count), 72, left, 1, times));
            }
        }
    }
    for kind in [Survey, SurveyFalling] {
        for page_count in [64, 1024, 4096] {
            rows.push(row(kind, (32, page_count), 16, 0, 1, 1));
        }
    }
    for kind in [Nearest, Between, NearestByReads] {
        rows.push(row(kind, (4096, 256), 15, 0, 1, 1));
    }
    rows.extend([
        row(FlushAppend, (512, 4), 64, 0, MANY, 1),
        row(FlushComplete, (512, 4), 64, 0, MANY, 1),
        row(ReadAlone, (4096, 4), 16, 0, MANY, 1),
        row(ReadDeferred, (4096, 4), 16, 0, MANY, 1),
        row(SyncAlone, (512, 4), 64, 0, MANY, 1),
        row(SyncComplete, (512, 4), 64, 0, MANY, 1),
        row(Seek, (4096, 4), 0, 0, 1, 100),
    ]);
    rows
}

impl Row {
    /// What is measured, in words.
    pub fn name(&self) -> String {
        let (data, left, page) = (self.data, self.left, self.page_size);
        match self.kind {
            Kind::Fits => format!("append that fits, {data} bytes"),
            Kind::Flush => {
                format!("append with flush and completion, {data} bytes, {left} bytes padded")
            }
            Kind::FlushAppend => format!("append that flushes, {data} bytes, {left} bytes padded"),
            Kind::FlushComplete => format!("its write completion, {data} bytes"),
            Kind::Steady => format!("append, {data} bytes, every 7th with flush and completion"),
            Kind::ReadVolume => format!("read from the volume with deferred call, {data} bytes"),
            Kind::ReadBuffer => {
                format!("read from the page buffer with deferred call, {data} bytes")
            }
            Kind::ReadAlone => format!("read from the volume, {data} bytes"),
            Kind::ReadDeferred => "its deferred call".into(),
            Kind::Seek => "seek with deferred call".into(),
            Kind::Sync => format!("sync with completion, {left} bytes padded"),
            Kind::SyncAlone => format!("sync, {left} bytes padded"),
            Kind::SyncComplete => "its write completion, page full".into(),
            Kind::SyncEmpty => "sync of an empty page".into(),
            Kind::Restart | Kind::RestartOnes => {
                let (count, newest) = (self.page_count, self.newest());
                format!("restart, P = {page}, N = {count}, newest page {newest}")
            }
            Kind::Survey => format!("survey, N = {}, wrapped", self.page_count),
            Kind::SurveyFalling => format!("survey, N = {}, IDs fall by slot", self.page_count),
            Kind::Nearest => "nearest mark".into(),
            Kind::Between => "marks between two stamps, half of all".into(),
            Kind::NearestByReads => "nearest mark, by reads".into(),
        }
    }

    /// The newest page of a restart, in words.
    pub fn newest(&self) -> &'static str {
        match (self.kind, self.left) {
            (Kind::RestartOnes, _) => FULL_OF_ONES,
            (_, 0) => FULL,
            _ => PADDED,
        }
    }

    /// How many entries the newest page of a restart has, with words of so many bytes.
    pub fn newest_entries(&self, word: usize) -> usize {
        match self.kind {
            Kind::RestartOnes => (self.page_size - word) / (word + 1),
            _ => self.page_entries(),
        }
    }

    /// How many entries every other page has: as many on all sides.
    fn page_entries(&self) -> usize {
        self.page_size / self.data
    }

    /// A name for the command line.
    pub fn key(&self) -> String {
        self.name()
            .replace(|c: char| !c.is_ascii_alphanumeric(), " ")
            .split_whitespace()
            .collect::<Vec<_>>()
            .join("-")
    }

    /// Whether it is a part of another row.
    pub fn is_part(&self) -> bool {
        use Kind::*;
        matches!(
            self.kind,
            FlushAppend | FlushComplete | ReadAlone | ReadDeferred | SyncAlone | SyncComplete
        )
    }

    /// Whether it is a restart.
    pub fn is_restart(&self) -> bool {
        matches!(self.kind, Kind::Restart | Kind::RestartOnes)
    }

    /// Whether it is a survey, which `Log` has not.
    pub fn is_survey(&self) -> bool {
        matches!(self.kind, Kind::Survey | Kind::SurveyFalling)
    }

    /// Whether it is a search among marks.
    pub fn is_search(&self) -> bool {
        matches!(
            self.kind,
            Kind::Nearest | Kind::Between | Kind::NearestByReads
        )
    }

    /// The stamps that a search asks for, where the marks of each page are as many and their stamps 0, 1, 2 ..: half of those in the log lie between
    /// the two.
    fn stamps<S: Side>(&self, log: &S) -> (u32, u32) {
        let in_page = (self.page_size - S::WORD) / (S::WORD + self.data);
        let stamp = |id: usize| (id / self.page_size * in_page) as u32;
        let (oldest, end) = (stamp(log.oldest()), stamp(log.end()));
        (oldest + (end - oldest) / 4, oldest + (end - oldest) * 3 / 4)
    }

    /// How many times the row's calls are made by one `measure`.
    pub fn calls(&self) -> usize {
        self.logs * self.times
    }

    /// How many reports come from one `measure`: of a search by reads as many as there are marks, which isn't looked at.
    fn reports(&self) -> Option<usize> {
        use Kind::*;
        match self.kind {
            FlushAppend | ReadAlone | SyncAlone | SyncEmpty | Restart | RestartOnes | Survey
            | SurveyFalling => Some(0),
            Nearest | Between | NearestByReads => None,
            _ => Some(self.calls()),
        }
    }

    /// The logs, as far as they are made ready only once.
    pub fn set_up<S: Side>(&self) -> Vec<S> {
        (0..self.logs).map(|_| self.set_up_one()).collect()
    }

    fn set_up_one<S: Side>(&self) -> S {
        use Kind::*;
        let mut side = S::new(self.page_size, self.page_count);
        let log = &mut side;
        match self.kind {
            SyncEmpty => (),
            Restart | RestartOnes => self.fill_volume(log),
            Survey => (0..self.page_count * 3 / 2).for_each(|_| next_page(log, self.data)),
            SurveyFalling => fall(log, self.page_count),
            Nearest | Between | NearestByReads => self.fill_with_marks(log),
            Sync | SyncAlone | SyncComplete => {
                self.lap(log);
                if self.left != 0 {
                    fill_page(log, self.left);
                }
            }
            _ => self.lap(log),
        }
        if matches!(self.kind, ReadBuffer) {
            (0..self.times).for_each(|_| log.append(self.data));
        }
        side
    }

    /// Once around the volume and into a new page, with one entry in it.
    fn lap<S: Side>(&self, log: &mut S) {
        let length = self.data.max(16);
        (0..self.page_count + 2).for_each(|_| next_page(log, length));
    }

    /// Marks, and a look at the searches: what they find is what reads find.
    fn fill_with_marks<S: Side>(&self, log: &mut S) {
        fill_with_marks(log, self.page_count);
        let (first, last) = self.stamps(log);
        assert!(log.nearest(first) == nearest_by_reads(log, first));
        assert!(log.between(first, last) == (last - first + 1) as usize);
    }

    /// One and a half times around the volume, and the last page is written too: a restart finds the log's end where it is. All sides have as many
    /// entries in a page, each as long on flash, but for the last one of a page, which leaves `left` bytes, and for a newest page of 1-byte entries.
    fn fill_volume<S: Side>(&self, log: &mut S) {
        let newest = self.page_count * 3 / 2 - 1;
        for page in 0..newest {
            self.fill_one(log, page, self.page_entries(), self.data - S::WORD);
        }
        let length = match self.kind {
            Kind::RestartOnes => 1,
            _ => self.data - S::WORD,
        };
        self.fill_one(log, newest, self.newest_entries(S::WORD), length);
        flush(log);
        let end = log.end();
        log.restart();
        assert!(log.end() == end);
    }

    /// A page with so many entries of that length, but for the last one: it takes what the page has, less the `left` bytes.
    fn fill_one<S: Side>(&self, log: &mut S, page: usize, entries: usize, length: usize) {
        for _ in 1..entries {
            store(log, length);
        }
        fill_page(log, self.left);
        assert!(log.end() == (page + 1) * self.page_size - self.left);
    }

    /// Makes the logs ready for `measure`.
    pub fn prepare<S: Side>(&self, logs: &mut [S]) {
        logs.iter_mut().for_each(|log| self.prepare_one(log));
    }

    fn prepare_one<S: Side>(&self, log: &mut S) {
        use Kind::*;
        match self.kind {
            Fits => next_page(log, self.data),
            Flush | FlushAppend | FlushComplete => {
                if log.writing() {
                    log.write_complete();
                }
                fill_page(log, self.left);
                if self.kind == FlushComplete {
                    log.append(self.data);
                }
            }
            ReadVolume => seek_to(log, log.oldest()),
            ReadBuffer => {
                let page = (log.end() - 1) / self.page_size;
                seek_to(log, page * self.page_size + S::WORD);
            }
            ReadAlone => {
                log.deferred_call();
                seek_to(log, log.oldest());
            }
            ReadDeferred => {
                seek_to(log, log.oldest());
                log.read();
            }
            Sync | SyncAlone | SyncComplete => {
                if log.writing() {
                    log.write_complete();
                }
                if self.left == 0 {
                    fill_page(log, 0);
                }
                if self.kind == SyncComplete {
                    log.sync();
                }
            }
            Steady | Seek | SyncEmpty | Restart | RestartOnes | Survey | SurveyFalling
            | Nearest | Between | NearestByReads => (),
        }
    }

    /// The calls that are measured, on logs that are ready.
    #[inline(always)]
    pub fn measure<S: Side>(&self, logs: &mut [S]) {
        use Kind::*;
        let Row { data, times, .. } = *self;
        match self.kind {
            Fits => repeat!(logs, times, log => log.append(data)),
            FlushAppend => repeat!(logs, 1, log => log.append(data)),
            FlushComplete | SyncComplete => repeat!(logs, 1, log => log.write_complete()),
            Flush => repeat!(logs, 1, log => {
                log.append(data);
                log.write_complete();
            }),
            Steady => repeat!(logs, times, log => {
                log.append(data);
                if log.writing() {
                    log.write_complete();
                }
            }),
            ReadVolume | ReadBuffer => repeat!(logs, times, log => {
                log.read();
                log.deferred_call();
            }),
            ReadAlone => repeat!(logs, 1, log => log.read()),
            ReadDeferred => repeat!(logs, 1, log => log.deferred_call()),
            Seek => {
                let id = logs[0].oldest();
                repeat!(logs, times, log => {
                    log.seek(id);
                    log.deferred_call();
                });
            }
            Sync => repeat!(logs, 1, log => {
                log.sync();
                log.write_complete();
            }),
            SyncAlone => repeat!(logs, 1, log => log.sync()),
            SyncEmpty => repeat!(logs, times, log => log.sync()),
            Restart | RestartOnes => repeat!(logs, times, log => log.restart()),
            Survey | SurveyFalling => repeat!(logs, times, log => log.survey()),
            Nearest => {
                let (first, _) = self.stamps(&logs[0]);
                repeat!(logs, times, log => black_box(log.nearest(first)));
            }
            Between => {
                let (first, last) = self.stamps(&logs[0]);
                repeat!(logs, times, log => black_box(log.between(first, last)));
            }
            NearestByReads => {
                let (first, _) = self.stamps(&logs[0]);
                repeat!(logs, times, log => black_box(nearest_by_reads(log, first)));
            }
        }
    }

    /// Prepares and measures once, by way of `around`, and sees to it that every call reported what it should.
    #[inline(always)]
    pub fn once<S: Side>(&self, logs: &mut [S], around: impl FnOnce(&mut dyn FnMut())) {
        self.prepare(logs);
        let before = reports(logs);
        around(&mut || self.measure(logs));
        assert!(
            self.reports()
                .is_none_or(|reports_due| reports(logs) == before + reports_due),
            "{}: reports are missing",
            self.name()
        );
    }
}

fn seek_to<S: Side>(log: &mut S, id: usize) {
    log.seek(id);
    log.deferred_call();
}

fn reports<S: Side>(logs: &[S]) -> usize {
    logs.iter().map(S::reports).sum()
}
