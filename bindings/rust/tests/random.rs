//! Random lists of calls, completions, power cuts and restarts, on both boards: every answer, report, request, ID and byte read
//! is held to the model.

mod bench;

use bench::model::Model;
use bench::{full, on_both_boards, put_word, Flash, Left, Random};
use punelovash::{
    survey, Answer, DriverWord, EntryID, Geometry, Log, LogRead, LogWrite, Mode, Outcome, Report,
    Request, State, Word,
};
use std::collections::BTreeMap;

const LISTS: u64 = 1500;
const EVENTS: usize = 150;

struct Run<W: Word> {
    random: Random,
    sizes: Geometry,
    mode: Mode,
    /// the first ID of the page that the volume begins with; 0 where it is blank
    from: usize,
    log: Log<Vec<u8>, W>,
    flash: Flash,
    model: Model,
    met: BTreeMap<String, u64>,
}

impl<W: Word> Run<W> {
    fn new(seed: u64) -> Run<W> {
        let mut random = Random(seed);
        let w = W::BYTES as u32;
        let sizes = Geometry {
            page_size: random.pick(&[4 * w, 8 * w, 8 * w, 16 * w, 32 * w, 512]),
            page_count: random.pick(&[1, 2, 3, 4, 7]),
            first_page: random.pick(&[0, 9, 16_777_215]),
        };
        let mode = Mode {
            circular: !random.one_in(4),
            ..Mode::default()
        };
        let p = sizes.page_size as usize;
        let mut run = Run {
            sizes,
            mode,
            from: 0,
            log: Log::new(random.bytes(p), random.bytes(p)),
            flash: Flash::new(sizes, 0xFF),
            model: Model::new::<W>(sizes, mode),
            met: BTreeMap::new(),
            random,
        };
        if mode.circular && run.random.one_in(4) {
            run.begin_far_on();
        }
        run
    }

    /// The volume begins with a page that has a great ID, and no entry.
    fn begin_far_on(&mut self) {
        let p = self.p();
        let number = W::CEILING as usize / 2 / p + self.random.below(p);
        self.from = number * p;
        self.model.put_page(number);
        let slot = number % self.sizes.page_count as usize;
        put_word::<W>(&mut self.flash.volume, slot * p, self.from as u64);
        self.meet("begun far on".into());
    }

    fn p(&self) -> usize {
        self.sizes.page_size as usize
    }

    fn meet(&mut self, what: String) {
        *self.met.entry(what).or_default() += 1;
    }

    /// The two sides agree: on what the call gave, and on the log.
    fn agree(&mut self, name: &str, got: Outcome, want: Outcome) {
        assert_eq!(got, want, "{name}");
        assert_eq!(
            self.log.state(),
            Some(self.model.state),
            "state after {name}"
        );
        let ids = [
            self.log.log_start(),
            self.log.next_read_entry_id(),
            self.log.log_end(),
        ];
        let wanted = [self.model.start(), self.model.read, self.model.end()];
        assert_eq!(
            ids,
            wanted.map(|id| EntryID(id as u64)),
            "O, R and A after {name}"
        );
        assert_eq!(
            self.log.kept_length(),
            self.model.kept,
            "kept length after {name}"
        );
        assert_eq!(self.log.get_size(), self.model.size());
        self.meet("calls".into());
        self.meet(format!("{name} {:?}", got.answer));
        if got.report != Report::Nothing {
            assert_eq!(self.log.state(), Some(State::Idle), "state after a report");
            self.meet(match got.report {
                Report::AppendDone { lost, result, .. } => format!("append_done {lost} {result:?}"),
                Report::ReadDone { result, .. } => format!("read_done {result:?}"),
                other => format!("{other:?}"),
            });
        }
    }

    fn word(&mut self) -> DriverWord {
        match self.random.below(12) {
            0 => DriverWord::Busy,
            1 => DriverWord::Fail,
            _ => DriverWord::Ok,
        }
    }

    fn left(&mut self) -> Left {
        self.random.pick(&[Left::Old, Left::Blank, Left::New])
    }

    /// the driver starts what a call that was given its word has requested
    fn start(&mut self, got: Outcome, word: DriverWord) {
        self.flash.driver.word = word;
        self.flash.driver.start(got.request, self.log.page());
    }

    fn append(&mut self) {
        let p = self.p();
        let full = full::<W>(p);
        let length = match self.random.below(12) {
            0 => self.random.pick(&[0, full + 1, p, p + 1, usize::MAX]),
            1 => full,
            2..=5 => 1 + self.random.below(full),
            _ => 1 + self.random.below(full.min(20)),
        };
        if length != 0 && length <= full && [0, 255].contains(&(length % 256)) {
            return;
        }
        let room = match self.random.below(10) {
            0 => length.min(p) / 2,
            1..=3 => length.min(p) + self.random.below(5),
            _ => length.min(p),
        };
        let data = self.random.bytes(room);
        let word = self.word();
        let want = self.model.append(&data, length, word);
        let got = if self.random.one_in(2) {
            let Flash { volume, driver } = &mut self.flash;
            driver.word = word;
            self.log
                .append_with(volume, &data, length, |request, page| {
                    driver.start(request, page)
                })
        } else {
            let got = self.log.append(&self.flash.volume, &data, length, word);
            self.start(got, word);
            got
        };
        self.agree("append", got, want);
    }

    fn sync(&mut self) {
        let word = self.word();
        let want = self.model.sync(word);
        let got = if self.random.one_in(2) {
            let Flash { volume, driver } = &mut self.flash;
            driver.word = word;
            self.log
                .sync_with(volume, |request, page| driver.start(request, page))
        } else {
            let got = self.log.sync(&self.flash.volume, word);
            self.start(got, word);
            got
        };
        self.agree("sync", got, want);
    }

    fn erase(&mut self) {
        let word = self.word();
        let want = self.model.erase(word);
        let got = if self.random.one_in(2) {
            let driver = &mut self.flash.driver;
            driver.word = word;
            self.log
                .erase_with(|request, page| driver.start(request, page))
        } else {
            let got = self.log.erase(word);
            self.start(got, word);
            got
        };
        self.agree("erase", got, want);
    }

    /// A write's completion: of the write under way, or where STRAY refuses it.
    fn write_complete(&mut self) {
        let due = [State::Append, State::Sync].contains(&self.model.state);
        let good = !self.random.one_in(6);
        let left = self.left();
        if due {
            self.flash
                .end(if good { Left::New } else { left }, self.log.page());
        }
        let want = self.model.write_complete(good, left);
        let got = self.log.write_complete(&self.flash.volume, good);
        self.agree("write_complete", got, want);
    }

    /// An erase's completion: of the erase under way, or where STRAY refuses it.
    fn erase_complete(&mut self) {
        let due = self.model.state == State::Erase;
        let good = !self.random.one_in(8);
        let left = self.random.pick(&[Left::Old, Left::Blank]);
        let word = self.word();
        if due {
            self.flash
                .end(if good { Left::Blank } else { left }, self.log.page());
        }
        let want = self.model.erase_complete(good, left, word);
        let got = if self.random.one_in(2) {
            let Flash { volume, driver } = &mut self.flash;
            driver.word = word;
            self.log
                .erase_complete_with(volume, good, |request, page| driver.start(request, page))
        } else {
            let got = self.log.erase_complete(&self.flash.volume, good, word);
            self.start(got, word);
            got
        };
        self.agree("erase_complete", got, want);
        if got.report != Report::Nothing && got.request != Request::Nothing {
            self.meet(format!("erase stopped {word:?}"));
        }
    }

    /// The bytes that a read left in the buffer, where it was OK.
    fn read(&mut self, room: usize, length: usize) -> Option<Vec<u8>> {
        let mut buffer = self.random.bytes(room);
        let mut wanted = buffer.clone();
        let (want, entry) = self.model.read(room, length);
        let got = self.log.read(&self.flash.volume, &mut buffer, length);
        wanted[..entry.len()].copy_from_slice(&entry);
        self.agree("read", got, want);
        assert_eq!(buffer, wanted, "the bytes read, and those after them");
        (got.answer == Answer::Ok).then_some(entry)
    }

    fn some_read(&mut self) {
        let p = self.p();
        let length = match self.random.below(8) {
            0 => self.random.below(p),
            _ => p,
        };
        let room = match self.random.below(8) {
            0 => self.random.below(p),
            _ => length + self.random.below(5),
        };
        self.read(room, length);
    }

    fn seek(&mut self) {
        let (start, end) = (self.model.start(), self.model.end());
        let ids = self.model.ids();
        let id = match self.random.below(8) {
            0 => self.random.pick(&[start - 1, end + 1, 0, usize::MAX]),
            1 => self.random.pick(&[start, end]),
            _ if ids.is_empty() => end,
            _ => self.random.pick(&ids),
        };
        let want = self.model.seek(id);
        let got = self.log.seek(EntryID(id as u64));
        self.agree("seek", got, want);
    }

    fn deferred_call(&mut self) {
        let want = self.model.deferred_call();
        let got = self.log.deferred_call();
        self.agree("deferred_call", got, want);
    }

    /// A power cut, or a restart alone; with buffers as they are or others.
    fn restart(&mut self, clients: bool) {
        let left = match &self.flash.driver.operation {
            bench::Operation::Erase { .. } => self.random.pick(&[Left::Old, Left::Blank]),
            _ => self.left(),
        };
        if self.model.writing() {
            self.meet(format!("cut in a write {left:?}"));
        } else if self.model.erasing() {
            self.meet(format!("cut in an erase {left:?}"));
        }
        self.flash.end(left, self.log.page());
        if self.random.one_in(2) {
            let p = self.p();
            let (page, hold) = (self.random.bytes(p), self.random.bytes(p));
            self.log = if self.random.one_in(2) {
                Log::new(page, hold)
            } else {
                let mut block = W::ZEROS;
                block.as_mut().fill_with(|| self.random.next() as u8);
                Log::from_parts(block, page, hold)
            };
        }
        let mode = Mode {
            circular: self.mode.circular,
            read_client: clients || !self.random.one_in(10),
            append_client: clients || !self.random.one_in(10),
        };
        let want = self.model.restart(mode, left);
        let hold = self.log.hold().to_vec();
        let got = self.log.restart(self.sizes, mode, &self.flash.volume);
        self.agree("restart", got, want);
        assert_eq!(self.log.hold(), hold, "the hold buffer after a restart");
        self.survey();
    }

    /// The survey gives the IDs of the pages on flash, in rising order.
    fn survey(&mut self) {
        let mut want: Vec<u64> = self.model.page_ids();
        let other = W::from(u32::MAX);
        let mut ids = [other; 9];
        let count = survey(self.sizes, &self.flash.volume, &mut ids).expect("room for each ID");
        assert!(ids[count..].iter().all(|id| *id == other));
        want.sort();
        let found: Vec<u64> = ids[..count].iter().map(|id| (*id).into()).collect();
        assert_eq!(found, want, "the pages on flash");
        if let Some(short) = count.checked_sub(1) {
            let before = ids;
            let refused = survey(self.sizes, &self.flash.volume, &mut ids[..short]);
            assert_eq!(refused, Err(Answer::Size));
            assert_eq!(ids, before);
        }
        self.meet(format!("survey of {count}"));
    }

    /// After a restart, reading to the first FAIL gives the page book's entries.
    fn reads_back(&mut self) {
        let p = self.p();
        let mut entries = Vec::new();
        while let Some(entry) = self.read(p, p) {
            entries.push(entry);
            self.deferred_call();
        }
        assert_eq!(entries, self.model.book(), "the page book's entries");
        self.meet("read back".into());
        if !entries.is_empty() {
            self.meet("read back, some entries".into());
        }
    }

    fn event(&mut self) {
        match self.model.state {
            // mostly what leads on
            State::Append | State::Sync if !self.random.one_in(6) => return self.write_complete(),
            State::Erase if !self.random.one_in(6) => return self.erase_complete(),
            State::Erase if self.random.one_in(3) => return self.restart(true),
            State::Read | State::Seek if !self.random.one_in(6) => return self.deferred_call(),
            _ => {}
        }
        match self.random.below(40) {
            0..=17 => self.append(),
            18..=25 => self.some_read(),
            26..=28 => self.seek(),
            29..=31 => self.sync(),
            32 => self.erase(),
            33 => self.write_complete(),
            34 => self.erase_complete(),
            35..=36 => self.deferred_call(),
            37 => self.restart(false),
            38 => {
                self.restart(true);
                self.reads_back();
            }
            _ => self.some_read(),
        }
    }
}

on_both_boards! {
    random_lists_agree_with_the_model
    a_request_stands_whatever_the_word
}

fn random_lists_agree_with_the_model<W: Word>() {
    let mut met: BTreeMap<String, u64> = BTreeMap::new();
    let mut laps = 0;
    for seed in 0..LISTS {
        let run = std::panic::catch_unwind(|| {
            let mut run = Run::<W>::new(seed);
            run.restart(true);
            for _ in 0..EVENTS {
                run.event();
            }
            run.restart(true);
            run.reads_back();
            let laps = run.log.log_end().0 as usize / run.flash.volume.len();
            let before = run.from / run.flash.volume.len();
            (run.met, laps.saturating_sub(before))
        });
        let Ok((found, round)) = run else {
            panic!("in the list of seed {seed}");
        };
        laps += round;
        for (what, count) in found {
            *met.entry(what).or_default() += count;
        }
    }
    let wanted = [
        "append Ok",
        "append Busy",
        "append Inval",
        "append Size",
        "append Fail",
        "append Reserve",
        "sync Ok",
        "sync Busy",
        "sync Fail",
        "sync Reserve",
        "erase Ok",
        "erase Busy",
        "erase Fail",
        "erase Reserve",
        "read Ok",
        "read Busy",
        "read Inval",
        "read Size",
        "read Fail",
        "read Reserve",
        "seek Ok",
        "seek Busy",
        "seek Inval",
        "seek Reserve",
        "write_complete Ok",
        "write_complete Stray",
        "erase_complete Ok",
        "erase_complete Stray",
        "deferred_call Ok",
        "deferred_call Stray",
        "restart Ok",
        "append_done false Ok",
        "append_done true Ok",
        "append_done false Fail",
        "SyncDone(Ok)",
        "SyncDone(Fail)",
        "EraseDone(Ok)",
        "EraseDone(Fail)",
        "EraseDone(Busy)",
        "erase stopped Busy",
        "erase stopped Fail",
        "read_done Ok",
        "SeekDone(Ok)",
        "cut in a write Old",
        "cut in a write Blank",
        "cut in a write New",
        "cut in an erase Old",
        "cut in an erase Blank",
        "read back",
        "read back, some entries",
        "begun far on",
    ];
    for what in wanted {
        assert!(met.contains_key(what), "never met: {what}");
    }
    assert!(laps > 1000, "only {laps} laps");
    println!(
        "{} calls in {LISTS} lists, {laps} laps: {met:?}",
        met["calls"]
    );
    assert!(!met.keys().any(|what| what.contains("Other")));
}

fn a_request_stands_whatever_the_word<W: Word>() {
    let sizes = Geometry {
        page_size: 32,
        page_count: 2,
        first_page: 5,
    };
    for word in [DriverWord::Ok, DriverWord::Busy, DriverWord::Fail] {
        let flash = Flash::new(sizes, 0xFF);
        let mut log = Log::<_, W>::new([0; 32], [0; 32]);
        assert_eq!(
            log.restart(sizes, Mode::default(), &flash.volume).answer,
            Answer::Ok
        );
        assert_eq!(
            log.append(&flash.volume, &[7; 3], 3, word).answer,
            Answer::Ok
        );
        let synced = log.sync(&flash.volume, word);
        assert_eq!(synced.request, Request::Write(punelovash::PageNumber(5)));
        assert_eq!(synced.answer == Answer::Ok, word == DriverWord::Ok);
    }
}
