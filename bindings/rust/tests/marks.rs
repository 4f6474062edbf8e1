//! Marks, on both boards: worked cases, each refusal, the entries against what reads give, and the searches against a look at
//! each entry, over random logs and over blocks and volumes of any bytes.

mod bench;

use bench::any::{block, bytes, sizes_fit, sizes_in, Guarded};
use bench::{full, on_both_boards, put_word, Flash, Left, Random};
use punelovash::raw::At;
use punelovash::{
    Answer, DriverWord, Entries, EntryID, Geometry, Log, LogRead, LogWrite, Mark, Mode, Refused,
    Report, Request, State, Word,
};
use std::collections::BTreeMap;

const P: usize = 64;
const SIZES: Geometry = Geometry {
    page_size: P as u32,
    page_count: 4,
    first_page: 7,
};
const OK: DriverWord = DriverWord::Ok;
/// what an element of the IDs is before a search
const STAYS: u64 = 0x7777_7777_7777_7777;
const LISTS: u64 = 300;
const EVENTS: usize = 120;
const ROUNDS: usize = 40_000;

type Owned<W> = Log<Vec<u8>, W>;

fn fresh<W: Word>(sizes: Geometry) -> (Owned<W>, Flash) {
    let flash = Flash::new(sizes, 0xFF);
    let p = sizes.page_size as usize;
    let mut log = Log::new(vec![0x33; p], vec![0x44; p]);
    let restarted = log.restart(sizes, Mode::default(), &flash.volume);
    assert_eq!(restarted.answer, Answer::Ok);
    (log, flash)
}

fn mark(picture: u32, stamp: u32, turn: u8) -> Mark {
    Mark {
        picture,
        stamp,
        turn,
        region: 1,
        across: 0,
        down: 255,
    }
}

/// appends, the write of a page included
fn append<W: Word>(log: &mut Owned<W>, flash: &mut Flash, data: &[u8]) {
    let mut got = log.append(&flash.volume, data, data.len(), OK);
    if got.request != Request::Nothing {
        flash.driver.start(got.request, log.page());
        flash.end(Left::New, log.page());
        got = log.write_complete(&flash.volume, true);
    }
    let Report::AppendDone { result, .. } = got.report else {
        panic!("{got:?}");
    };
    assert_eq!(result, Answer::Ok);
}

/// Four marks in two pages, and their IDs.
fn four_marks<W: Word>(log: &mut Owned<W>, flash: &mut Flash) -> [u64; 4] {
    for (number, stamp) in [100, 110, 90, 110].into_iter().enumerate() {
        let mark = mark(number as u32 + 1, stamp, [0, 1, 2, 3][number]);
        append(log, flash, &mark.to_bytes());
    }
    match W::BYTES {
        4 => [4, 23, 42, 68],
        _ => [8, 31, 72, 95],
    }
}

fn refused(answer: Answer) -> Refused {
    Refused {
        answer,
        entry: None,
    }
}

fn no_mark(id: u64) -> Refused {
    Refused {
        answer: Answer::NoMark,
        entry: Some(EntryID(id)),
    }
}

/// The IDs that a search gives, with so much room. No element is written but theirs.
fn listed<W: Word, B: AsRef<[u8]> + AsMut<[u8]>>(
    log: &Log<B, W>,
    volume: &[u8],
    (first, last): (u32, u32),
    room: usize,
) -> Result<Vec<u64>, Refused> {
    let mut all = vec![STAYS; room + 4];
    let found = log.between(volume, first, last, &mut all[2..room + 2]);
    let count = found.unwrap_or(0);
    let (written, after) = all[2..].split_at(count);
    let others = all[..2].iter().chain(after);
    assert!(others.copied().all(|element| element == STAYS));
    found.map(|_| written.to_vec())
}

/// An entry: its ID, the ID after it, and its bytes.
type Found = (u64, u64, Vec<u8>);

/// What the iterator gives: at most so many.
fn stepped<W: Word>(entries: Entries<'_, W>, most: usize) -> Result<Vec<Found>, Answer> {
    let mut all = Vec::new();
    for entry in entries.take(most) {
        let entry = entry?;
        assert_eq!(entry.length, entry.bytes.len());
        all.push((entry.id.0, entry.end.0, entry.bytes.to_vec()));
    }
    Ok(all)
}

/// A copy of the log that reads at `from`: it is Idle, with a read client.
fn reader<W: Word, B: AsRef<[u8]> + AsMut<[u8]>>(log: &Log<B, W>, from: u64) -> Owned<W> {
    let mut block = *log.block();
    block.as_mut()[At::<W>::STATE] = 0;
    block.as_mut()[At::<W>::FLAGS] |= 2;
    put_word::<W>(block.as_mut(), At::<W>::READ, from);
    Log::from_parts(block, log.page().to_vec(), log.hold().to_vec())
}

/// What reads give from an ID on that isn't past A, at most so many: up to FAIL, or where the entry read ran past A.
fn read_on<W: Word, B: AsRef<[u8]> + AsMut<[u8]>>(
    log: &Log<B, W>,
    volume: &[u8],
    from: u64,
    most: usize,
) -> Vec<Found> {
    let mut copy = reader(log, from);
    let p = copy.page().len();
    let mut all = Vec::new();
    while all.len() < most {
        let mut buffer = vec![0; p];
        match copy.read(volume, &mut buffer, p).answer {
            Answer::Ok => {}
            Answer::Fail => break,
            Answer::Cancel if !all.is_empty() => break,
            other => panic!("a read answered {other:?}"),
        }
        buffer.truncate(copy.kept_length());
        let end = copy.next_read_entry_id().0;
        all.push((end - (W::BYTES + buffer.len()) as u64, end, buffer));
        assert_eq!(copy.deferred_call().answer, Answer::Ok);
    }
    all
}

/// The marks that entries are, or a search's refusal: of the first that is none, or because there is no entry.
fn marks(entries: &[Found]) -> Result<Vec<(u64, Mark)>, Refused> {
    if entries.is_empty() {
        return Err(refused(Answer::NoEntry));
    }
    let mark = |entry: &Found| Mark::from_bytes(&entry.2).map(|mark| (entry.0, mark));
    let marks = entries
        .iter()
        .map(|entry| mark(entry).ok_or(no_mark(entry.0)));
    marks.collect()
}

fn nearest(entries: &[Found], stamp: u32) -> Result<EntryID, Refused> {
    let marks = marks(entries)?;
    // the first of those that are alike
    let nearest = marks
        .iter()
        .min_by_key(|(_, mark)| mark.stamp.abs_diff(stamp));
    Ok(EntryID(nearest.expect("a mark").0))
}

fn between(entries: &[Found], range: (u32, u32), room: usize) -> Result<Vec<u64>, Refused> {
    let marks = marks(entries)?;
    if range.0 > range.1 {
        return Err(refused(Answer::Range));
    }
    let within = |mark: &Mark| range.0 <= mark.stamp && mark.stamp <= range.1;
    let ids = marks
        .iter()
        .filter(|(_, mark)| within(mark))
        .map(|(id, _)| *id);
    let ids: Vec<u64> = ids.collect();
    if ids.len() > room {
        return Err(refused(Answer::Size));
    }
    Ok(ids)
}

on_both_boards! {
    worked_cases
    what_is_a_mark
    entries_that_are_no_marks
    shape_and_state
    behind_a_blank_page
    random_logs_agree_with_reads
    any_bytes_are_answered_as_said
}

fn worked_cases<W: Word>() {
    let (mut log, mut flash) = fresh::<W>(SIZES);
    let all = (0, u32::MAX);
    assert_eq!(log.nearest(&flash.volume, 5), Err(refused(Answer::NoEntry)));
    for range in [(9, 3), (3, 9)] {
        let got = listed(&log, &flash.volume, range, 0);
        assert_eq!(got, Err(refused(Answer::NoEntry)));
    }
    assert_eq!(log.entries(&flash.volume).next(), None);

    let ids = four_marks(&mut log, &mut flash);
    let volume = &flash.volume;
    for (stamp, at) in [
        (105, 0),
        (106, 1),
        (110, 1),
        (0, 2),
        (94, 2),
        (95, 0),
        (u32::MAX, 1),
    ] {
        assert_eq!(log.nearest(volume, stamp), Ok(EntryID(ids[at])), "{stamp}");
    }
    let found = |range, room| listed(&log, volume, range, room);
    assert_eq!(found((100, 110), 3), Ok(vec![ids[0], ids[1], ids[3]]));
    assert_eq!(found((100, 110), 9), Ok(vec![ids[0], ids[1], ids[3]]));
    assert_eq!(found((100, 110), 2), Err(refused(Answer::Size)));
    assert_eq!(found((90, 90), 1), Ok(vec![ids[2]]));
    assert_eq!(found((90, 90), 0), Err(refused(Answer::Size)));
    assert_eq!(found((91, 99), 0), Ok(vec![]));
    assert_eq!(found(all, 4), Ok(ids.to_vec()));
    assert_eq!(found((5, 4), 4), Err(refused(Answer::Range)));
    assert_eq!(found((5, 4), 0), Err(refused(Answer::Range)));

    let size = (W::BYTES + Mark::SIZE) as u64;
    let stamps = [100, 110, 90, 110].into_iter();
    let want = ids.iter().zip(stamps).enumerate().map(|(k, (id, stamp))| {
        let mark = mark(k as u32 + 1, stamp, k as u8);
        (*id, id + size, mark.to_bytes().to_vec())
    });
    let want: Vec<Found> = want.collect();
    assert_eq!(stepped(log.entries(volume), 9), Ok(want.clone()));
    for (at, from) in [
        (0, 0),
        (1, ids[1]),
        (3, ids[2] + size),
        (3, ids[3]),
        (4, ids[3] + size),
    ] {
        let entries = log.entries(volume).at(EntryID(from));
        // on the 8-byte board the third mark's end is the fourth's ID, on the other the padding of its page
        assert_eq!(stepped(entries, 9), Ok(want[at..].to_vec()), "from {from}");
    }
    assert_eq!(log.entries(volume).at(EntryID(u64::MAX)).next(), None);
    let mut entries = log.entries(volume);
    assert_eq!(entries.by_ref().count(), 4);
    assert!((0..3).all(|_| entries.next().is_none()));
    assert_eq!(entries.at(EntryID(ids[3])).count(), 1);

    // while a read is under way, and with no client
    let mut buffer = [0; P];
    assert_eq!(log.read(&flash.volume, &mut buffer, P).answer, Answer::Ok);
    let before = (*log.block(), log.page().to_vec(), log.hold().to_vec());
    assert_eq!(log.nearest(&flash.volume, 0), Ok(EntryID(ids[2])));
    assert_eq!(listed(&log, &flash.volume, all, 4), Ok(ids.to_vec()));
    assert_eq!(stepped(log.entries(&flash.volume), 9), Ok(want.clone()));
    assert_eq!(
        (*log.block(), log.page().to_vec(), log.hold().to_vec()),
        before
    );
    let mode = Mode {
        read_client: false,
        append_client: false,
        ..Mode::default()
    };
    assert_eq!(log.restart(SIZES, mode, &flash.volume).answer, Answer::Ok);
    // the second page was not written
    let left = if W::BYTES == 4 { 3 } else { 2 };
    assert_eq!(
        listed(&log, &flash.volume, all, 4),
        Ok(ids[..left].to_vec())
    );
    assert_eq!(
        stepped(log.entries(&flash.volume), 9),
        Ok(want[..left].to_vec())
    );
}

/// The library takes for a mark what `from_bytes` does, with the same stamp.
fn agree_on<W: Word>(data: &[u8]) -> bool {
    let (mut log, mut flash) = fresh::<W>(SIZES);
    append(&mut log, &mut flash, data);
    let id = W::BYTES as u64;
    let Some(mark) = Mark::from_bytes(data) else {
        assert_eq!(log.nearest(&flash.volume, 1), Err(no_mark(id)), "{data:?}");
        return false;
    };
    assert_eq!(mark.to_bytes(), data);
    assert_eq!(log.nearest(&flash.volume, 1), Ok(EntryID(id)), "{data:?}");
    let found = |first, last| listed(&log, &flash.volume, (first, last), 1);
    assert_eq!(found(mark.stamp, mark.stamp), Ok(vec![id]), "{data:?}");
    assert_eq!(found(0, mark.stamp - 1), Ok(vec![]), "{data:?}");
    assert_eq!(found(mark.stamp + 1, u32::MAX), Ok(vec![]), "{data:?}");
    true
}

fn what_is_a_mark<W: Word>() {
    let good = mark(0x0A0B_0C0D, 0x0102_0304, 2).to_bytes();
    assert_eq!(good, [1, 0, 12, 10, 11, 12, 13, 1, 2, 3, 4, 2, 1, 0, 255]);
    for at in 0..Mark::SIZE {
        let taken = (0..=255).filter(|byte| {
            let mut data = good;
            data[at] = *byte;
            agree_on::<W>(&data)
        });
        let want = match at {
            0..=2 => 1,
            11 => 4,
            _ => 256,
        };
        assert_eq!(taken.count(), want, "byte {at}");
    }
    for length in 1..=full::<W>(P) {
        let mut data = vec![0; length];
        let front = length.min(Mark::SIZE);
        data[..front].copy_from_slice(&good[..front]);
        assert_eq!(agree_on::<W>(&data), length == Mark::SIZE, "{length}");
    }
    // a turn that is none's makes an entry that is no mark
    assert_eq!(Mark::from_bytes(&mark(1, 2, 4).to_bytes()), None);
    assert!(!agree_on::<W>(&mark(1, 2, 4).to_bytes()));
}

/// The first that is none is told, before all else that a search looks at.
fn entries_that_are_no_marks<W: Word>() {
    for before in 0..4 {
        let (mut log, mut flash) = fresh::<W>(SIZES);
        let mut end = 0;
        for number in 0..=before {
            append(&mut log, &mut flash, &mark(number, 7, 0).to_bytes());
            end = log.log_end().0;
        }
        append(&mut log, &mut flash, b"of another client");
        let next = log.entries(&flash.volume).at(EntryID(end)).next();
        let id = next.expect("an entry").expect("a log").id.0;
        append(&mut log, &mut flash, &mark(9, 7, 0).to_bytes());
        append(&mut log, &mut flash, b"another");
        assert_eq!(log.nearest(&flash.volume, 7), Err(no_mark(id)));
        for (range, room) in [((7, 7), 9), ((7, 7), 0), ((9, 3), 9), ((1, 2), 0)] {
            assert_eq!(listed(&log, &flash.volume, range, room), Err(no_mark(id)));
        }
        assert_eq!(log.entries(&flash.volume).count(), before as usize + 4);
    }
}

/// Each of the three calls is refused like this; the iterator says it once.
fn all_refused<W: Word, B: AsRef<[u8]> + AsMut<[u8]>>(
    log: &Log<B, W>,
    volume: &[u8],
    answer: Answer,
) {
    assert_eq!(log.nearest(volume, 7), Err(refused(answer)));
    assert_eq!(listed(log, volume, (9, 3), 2), Err(refused(answer)));
    assert_eq!(listed(log, volume, (3, 9), 0), Err(refused(answer)));
    let mut entries = log.entries(volume);
    assert_eq!(entries.next(), Some(Err(answer)));
    assert!((0..3).all(|_| entries.next().is_none()));
    assert_eq!(entries.at(EntryID(64)).next(), Some(Err(answer)));
}

fn shape_and_state<W: Word>() {
    let (mut log, mut flash) = fresh::<W>(SIZES);
    all_refused(
        &Log::<_, W>::new([0; P], [0; P]),
        &flash.volume,
        Answer::Shape,
    );
    let ids = four_marks(&mut log, &mut flash);
    let volume = flash.volume;
    all_refused(&log, &volume[1..], Answer::Shape);
    all_refused(&log, &volume[..3 * P], Answer::Shape);
    all_refused(&log, &[], Answer::Shape);
    all_refused(&log, &[&volume[..], &[0xFF]].concat(), Answer::Shape);
    let (block, page, hold) = log.into_parts();
    for length in [0, P - 1, P + 1, 2 * P] {
        let log = Log::<_, W>::from_parts(block, vec![1; length], hold.clone());
        all_refused(&log, &volume, Answer::Shape);
        // no call looks at the hold buffer
        let log = Log::<_, W>::from_parts(block, page.clone(), vec![1; length]);
        assert_eq!(log.nearest(&volume, 0), Ok(EntryID(ids[2])));
        assert_eq!(listed(&log, &volume, (0, 200), 4), Ok(ids.to_vec()));
        assert_eq!(log.entries(&volume).count(), 4);
    }
    let wrong = [
        (At::<W>::FLAGS, 8),
        (At::<W>::FLAGS, 255),
        (At::<W>::STATE, 6),
        (At::<W>::OLDEST, W::BYTES as u8 + 1),
        (At::<W>::APPEND, W::BYTES as u8 - 1),
        (At::<W>::READ + W::BYTES - 1, 0x80),
        (At::<W>::KEPT, full::<W>(P) as u8 + 1),
    ];
    for (at, byte) in wrong {
        let mut block = block;
        block.as_mut()[at] = byte;
        let log = Log::<_, W>::from_parts(block, page.clone(), hold.clone());
        all_refused(&log, &volume, Answer::State);
        all_refused(&log, &volume[1..], Answer::Shape);
    }
}

fn behind_a_blank_page<W: Word>() {
    let (mut log, mut flash) = fresh::<W>(SIZES);
    let mut count = 0;
    while log.log_end().0 as usize <= 2 * P {
        append(&mut log, &mut flash, &mark(count, count, 0).to_bytes());
        count += 1;
    }
    flash.volume[P..2 * P].fill(0xFF);
    let first = log.entries(&flash.volume).count();
    assert_eq!(first, if W::BYTES == 4 { 3 } else { 2 });
    let last = log
        .entries(&flash.volume)
        .last()
        .expect("an entry")
        .expect("a log");
    assert_eq!(log.nearest(&flash.volume, u32::MAX), Ok(last.id));
    let ids = listed(&log, &flash.volume, (0, u32::MAX), first).expect("room for each");
    assert_eq!(ids.len(), first);
    // the header's way to go on, from the end of the last entry: b is the blank page's number
    let b = (last.end.0 + P as u64 - 1) / P as u64;
    let behind = EntryID((b + 1) * P as u64 + W::BYTES as u64);
    assert!(behind <= log.log_end());
    let entries: Vec<_> = log.entries(&flash.volume).at(behind).collect();
    let [Ok(entry)] = entries[..] else {
        panic!("{entries:?}");
    };
    assert_eq!(entry.id, behind);
    assert_eq!(
        Mark::from_bytes(entry.bytes),
        Some(mark(count - 1, count - 1, 0))
    );
}

/// The log's entries are those that reads give, and its searches those among these; nothing of it changes.
fn agrees<W: Word>(
    log: &Owned<W>,
    volume: &[u8],
    random: &mut Random,
    met: &mut BTreeMap<String, u64>,
) {
    let before = (*log.block(), log.page().to_vec(), log.hold().to_vec());
    let most = 1000;
    let entries = read_on(log, volume, log.log_start().0, most);
    assert!(entries.len() < most);
    assert_eq!(stepped(log.entries(volume), most).as_ref(), Ok(&entries));
    let mut meet = |what: String| *met.entry(what).or_default() += 1;
    let mut of = |what: &str, answer| meet(format!("{what} {answer:?}"));
    let some = [
        0,
        40,
        u32::MAX,
        random.below(45) as u32,
        random.below(45) as u32,
    ];
    let stamps = entries
        .iter()
        .filter_map(|entry| Mark::from_bytes(&entry.2));
    let stamps: Vec<u32> = stamps.map(|mark| mark.stamp).chain(some).collect();
    for _ in 0..4 {
        let stamp = random.pick(&stamps);
        let got = log.nearest(volume, stamp);
        assert_eq!(got, nearest(&entries, stamp), "nearest to {stamp}");
        of("nearest", got.map_or_else(|no| no.answer, |_| Answer::Ok));
        let range = (random.pick(&stamps), random.pick(&stamps));
        let room = random.pick(&[entries.len(), entries.len() / 2, 0, entries.len() + 1]);
        let got = listed(log, volume, range, room);
        assert_eq!(got, between(&entries, range, room), "between {range:?}");
        of("between", got.map_or_else(|no| no.answer, |_| Answer::Ok));
    }
    // the entries are in the volume's pages and the page buffer
    let (a, o) = (log.log_end().0, log.log_start().0);
    let (p, n) = sizes_in::<W>(log.block().as_ref());
    assert!((a - 1) / p as u64 - o / p as u64 <= n as u64);
    // and from any ID on
    let at = a.saturating_sub(random.below(log.page().len() * 3) as u64);
    let want = read_on(log, volume, at, 5);
    assert_eq!(
        stepped(log.entries(volume).at(EntryID(at)), 5),
        Ok(want),
        "at {at}"
    );
    let past = a + random.below(100) as u64;
    assert_eq!(
        log.entries(volume).at(EntryID(past)).next(),
        None,
        "at {past}"
    );
    assert_eq!(
        (*log.block(), log.page().to_vec(), log.hold().to_vec()),
        before
    );
    if !entries.is_empty() {
        meet(format!("{:?}", log.state().expect("a state")));
        if log.block().as_ref()[At::<W>::FLAGS] & 6 == 0 {
            meet("no client".into());
        }
        if entries.iter().any(|entry| entry.0 > u64::from(u32::MAX)) {
            meet("far on".into());
        }
        if entries.iter().any(|entry| entry.1 == log.log_end().0) {
            meet("up to A".into());
        } else {
            meet("less than A".into());
        }
    }
}

/// One event: a call, or what ends the operation under way.
fn event<W: Word>(
    log: &mut Owned<W>,
    flash: &mut Flash,
    sizes: Geometry,
    others: bool,
    random: &mut Random,
) {
    let p = sizes.page_size as usize;
    let left = random.pick(&[Left::Old, Left::Blank, Left::New]);
    let word = random.pick(&[OK, OK, OK, OK, DriverWord::Busy, DriverWord::Fail]);
    let good = !random.one_in(5);
    let restarts = random.one_in(25);
    let state = log.state().expect("a state");
    if restarts {
        flash.end(left, log.page());
        let mode = Mode {
            circular: true,
            read_client: random.one_in(2),
            append_client: !random.one_in(5),
        };
        assert_eq!(log.restart(sizes, mode, &flash.volume).answer, Answer::Ok);
        return;
    }
    let got = match state {
        State::Append | State::Sync if random.one_in(2) => {
            flash.end(if good { Left::New } else { left }, log.page());
            log.write_complete(&flash.volume, good)
        }
        State::Erase if random.one_in(2) => {
            let left = random.pick(&[Left::Old, Left::Blank]);
            flash.end(if good { Left::Blank } else { left }, log.page());
            flash.driver.word = word;
            log.erase_complete(&flash.volume, good, word)
        }
        State::Read | State::Seek if random.one_in(2) => log.deferred_call(),
        _ => {
            flash.driver.word = word;
            match random.below(20) {
                0..=1 => log.read(&flash.volume, &mut vec![0; p], p),
                2 => log.seek(log.log_end()),
                3..=4 => log.sync(&flash.volume, word),
                5 if random.one_in(3) => log.erase(word),
                _ => {
                    let stamp = match random.below(12) {
                        0 => u32::MAX - random.below(3) as u32,
                        _ => random.below(45) as u32,
                    };
                    let data = if others && random.one_in(10) {
                        let length = 1 + random.below(full::<W>(p));
                        random.bytes(length)
                    } else {
                        mark(random.next() as u32, stamp, random.below(4) as u8)
                            .to_bytes()
                            .to_vec()
                    };
                    log.append(&flash.volume, &data, data.len(), word)
                }
            }
        }
    };
    if got.request != Request::Nothing {
        flash.driver.start(got.request, log.page());
    }
}

fn random_logs_agree_with_reads<W: Word>() {
    let mut met = BTreeMap::new();
    for seed in 0..LISTS {
        let run = std::panic::catch_unwind(|| {
            let mut met = BTreeMap::new();
            let mut random = Random(seed);
            let sizes = Geometry {
                page_size: random.pick(&[64, 64, 128, 512]),
                page_count: random.pick(&[1, 2, 3, 4]),
                first_page: 9,
            };
            let p = sizes.page_size as usize;
            let mut flash = Flash::new(sizes, 0xFF);
            if random.one_in(4) {
                let number = W::CEILING as usize / 2 / p + random.below(p);
                let slot = number % sizes.page_count as usize;
                put_word::<W>(&mut flash.volume, slot * p, (number * p) as u64);
            }
            let mut log = Log::<_, W>::new(random.bytes(p), random.bytes(p));
            let restarted = log.restart(sizes, Mode::default(), &flash.volume);
            assert_eq!(restarted.answer, Answer::Ok);
            let others = random.one_in(3);
            for _ in 0..EVENTS {
                event(&mut log, &mut flash, sizes, others, &mut random);
                agrees(&log, &flash.volume, &mut random, &mut met);
            }
            met
        });
        let Ok(found) = run else {
            panic!("in the list of seed {seed}");
        };
        for (what, count) in found {
            *met.entry(what).or_insert(0) += count;
        }
    }
    let wanted = [
        "nearest Ok",
        "nearest NoMark",
        "nearest NoEntry",
        "between Ok",
        "between NoMark",
        "between NoEntry",
        "between Range",
        "between Size",
        "Idle",
        "Read",
        "Seek",
        "Append",
        "Sync",
        "Erase",
        "no client",
        "up to A",
        "less than A",
    ];
    for what in wanted {
        assert!(met.contains_key(what), "never met: {what}");
    }
    assert_eq!(met.contains_key("far on"), W::BYTES == 8);
    println!("{met:?}");
}

/// Bytes of pages that hold marks, some of them with a wrong byte.
fn marked_bytes<W: Word>(random: &mut Random, p: usize, length: usize) -> Vec<u8> {
    let mut all = vec![0xFF; length];
    let wrong = random.pick(&[0, 1, 3]);
    for page in all.chunks_mut(p) {
        let mut at = W::BYTES;
        while at + W::BYTES + Mark::SIZE <= page.len() && !random.one_in(9) {
            let mark = mark(at as u32, random.below(9) as u32, random.below(4) as u8);
            put_word::<W>(page, at, Mark::SIZE as u64);
            page[at + W::BYTES..][..Mark::SIZE].copy_from_slice(&mark.to_bytes());
            at += W::BYTES + Mark::SIZE;
        }
    }
    if length > 0 {
        for _ in 0..wrong {
            let at = random.below(length);
            all[at] = random.next() as u8;
        }
    }
    all
}

fn any_bytes_are_answered_as_said<W: Word>() {
    let mut random = Random(11);
    let mut met: BTreeMap<String, u64> = BTreeMap::new();
    for _ in 0..ROUNDS {
        let w = W::BYTES;
        let p = random.pick(&[4 * w, 8 * w, 64, 128]);
        let n = 1 + random.below(4);
        let length = |random: &mut Random, right: usize| match random.below(60) {
            0 => 0,
            1 => right - 1,
            2 => right + 1,
            _ => right,
        };
        let some = |random: &mut Random, length: usize| match random.below(4) {
            0 => bytes::<W>(random, length),
            _ => marked_bytes::<W>(random, p, length),
        };
        let lengths = [length(&mut random, n * p), length(&mut random, p)];
        let volume = some(&mut random, lengths[0]);
        let page = some(&mut random, lengths[1]);
        let room = random.below(p);
        let hold = random.bytes(room);
        let before = block::<W>(&mut random, p, n);

        let mut pages = Guarded::new(&page);
        let mut holds = Guarded::new(&hold);
        let log = Log::<_, W>::from_parts(before, pages.bytes(), holds.bytes());
        let (block_p, block_n) = sizes_in::<W>(before.as_ref());
        let fit = sizes_fit::<W>(before.as_ref())
            && [lengths[0], lengths[1]] == [block_n * block_p, block_p];
        let gate = {
            let mut copy = Log::<_, W>::from_parts(before, page.clone(), hold.clone());
            copy.read(&volume, &mut [], 0).answer
        };
        assert_eq!(gate == Answer::Shape, !fit);
        // on so many pages a search would take too long
        let far = log.log_end().0.saturating_sub(log.log_start().0) > 1 << 16;
        if matches!(gate, Answer::Shape | Answer::State) {
            all_refused(&log, &volume, gate);
            *met.entry(format!("{gate:?}")).or_default() += 1;
        } else if far {
            let most = 100;
            let want = read_on(&log, &volume, log.log_start().0, most);
            assert_eq!(stepped(log.entries(&volume), most), Ok(want));
            *met.entry("A far from O".into()).or_default() += 1;
        } else {
            let most = 1 << 16;
            let entries = read_on(&log, &volume, log.log_start().0, most);
            assert_eq!(stepped(log.entries(&volume), most).as_ref(), Ok(&entries));
            let stamp = random.below(10) as u32;
            let got = log.nearest(&volume, stamp);
            assert_eq!(got, nearest(&entries, stamp));
            let answer = got.map_or_else(|no| no.answer, |_| Answer::Ok);
            *met.entry(format!("nearest {answer:?}")).or_default() += 1;
            let range = (random.below(10) as u32, random.below(10) as u32);
            let room = random.below(entries.len() + 2);
            let got = listed(&log, &volume, range, room);
            assert_eq!(got, between(&entries, range, room));
            let answer = got.map_or_else(|no| no.answer, |_| Answer::Ok);
            *met.entry(format!("between {answer:?}")).or_default() += 1;
            let any = random.below(p * (n + 2)) as u64;
            let a = log.log_end().0;
            let o = log.log_start().0;
            let at = random.pick(&[any, o + any, a - any.min(a), a, u64::MAX]);
            let want = if at > a {
                vec![]
            } else {
                read_on(&log, &volume, at, 9)
            };
            assert_eq!(stepped(log.entries(&volume).at(EntryID(at)), 9), Ok(want));
        }
        let (after, _, _) = log.into_parts();
        assert_eq!(after, before);
        assert_eq!(pages.bytes(), page);
        assert_eq!(holds.bytes(), hold);
        pages.check();
        holds.check();
    }
    let wanted = [
        "Shape",
        "State",
        "A far from O",
        "nearest Ok",
        "nearest NoMark",
        "nearest NoEntry",
        "between Ok",
        "between NoMark",
        "between NoEntry",
        "between Range",
        "between Size",
    ];
    for what in wanted {
        assert!(met.contains_key(what), "never met: {what}");
    }
    assert_eq!(met.len(), wanted.len(), "{met:?}");
    println!("{ROUNDS} blocks: {met:?}");
}
