//! Worked cases on both boards: those of document 01, cuts, refusals, and the two ways to drive the flash.

mod bench;

use bench::{full, on_both_boards, put_word, Flash, Left};
use punelovash::raw::At;
use punelovash::{
    survey, Answer, DriverWord, EntryID, Geometry, Log, Log4, Log8, LogRead, LogWrite, Mode,
    Outcome, PageNumber, Report, Request, State, Word,
};

const P: usize = 32;
const SIZES: Geometry = Geometry {
    page_size: P as u32,
    page_count: 4,
    first_page: 7,
};
const CIRCULAR: Mode = Mode {
    circular: true,
    read_client: true,
    append_client: true,
};
const PLAIN: Mode = Mode {
    circular: false,
    ..CIRCULAR
};
const OK: DriverWord = DriverWord::Ok;
const ONES: [u8; 64] = [1; 64];

type Array<W> = Log<[u8; P], W>;

fn fresh<W: Word>(mode: Mode) -> (Array<W>, Flash) {
    let flash = Flash::new(SIZES, 0xFF);
    let mut log = Log::new([0x33; 32], [0x44; 32]);
    let restarted = log.restart(SIZES, mode, &flash.volume);
    assert_eq!(restarted, nothing(Answer::Ok));
    (log, flash)
}

fn nothing(answer: Answer) -> Outcome {
    Outcome {
        answer,
        report: Report::Nothing,
        request: Request::Nothing,
    }
}

fn done(length: usize, lost: bool) -> Report {
    Report::AppendDone {
        length,
        lost,
        result: Answer::Ok,
    }
}

fn ids<W: Word>(log: &Array<W>) -> (usize, usize, usize) {
    let (EntryID(o), EntryID(r), EntryID(a)) =
        (log.log_start(), log.next_read_entry_id(), log.log_end());
    (o as usize, r as usize, a as usize)
}

/// appends, the write of a page included
fn append<W: Word>(log: &mut Array<W>, flash: &mut Flash, data: &[u8]) -> Report {
    let got = log.append(&flash.volume, data, data.len(), OK);
    assert_eq!(got.answer, Answer::Ok);
    if got.request == Request::Nothing {
        return got.report;
    }
    flash.driver.start(got.request, log.page());
    flash.end(Left::New, log.page());
    log.write_complete(&flash.volume, true).report
}

fn sync<W: Word>(log: &mut Array<W>, flash: &mut Flash, left: Left) {
    let got = log.sync(&flash.volume, OK);
    assert_eq!(got.answer, Answer::Ok);
    flash.driver.start(got.request, log.page());
    flash.end(left, log.page());
}

fn read<W: Word>(log: &mut Array<W>, flash: &Flash) -> Result<Vec<u8>, Answer> {
    let mut buffer = [0xAA; 40];
    let got = log.read(&flash.volume, &mut buffer, 32);
    if got.answer != Answer::Ok {
        assert_eq!(buffer, [0xAA; 40]);
        return Err(got.answer);
    }
    assert_eq!(log.state(), Some(State::Read));
    let length = log.kept_length();
    let report = log.deferred_call().report;
    let result = Answer::Ok;
    assert_eq!(report, Report::ReadDone { length, result });
    assert!(buffer[length..].iter().all(|byte| *byte == 0xAA));
    Ok(buffer[..length].to_vec())
}

fn read_all<W: Word>(log: &mut Array<W>, flash: &Flash) -> Vec<Vec<u8>> {
    let mut entries = Vec::new();
    loop {
        match read(log, flash) {
            Ok(entry) => entries.push(entry),
            Err(answer) => {
                assert_eq!(answer, Answer::Fail);
                return entries;
            }
        }
    }
}

on_both_boards! {
    a_fresh_log
    appends_that_fill_a_page_and_open_the_next
    laps_move_the_oldest_and_the_read_id
    a_plain_log_is_full_in_the_end
    cuts_in_a_sync
    an_erase_ends_in_an_empty_log
    seek_limits
    the_ceiling
    the_survey
    clients_that_are_not_set
    calls_that_are_not_due_and_a_busy_log
    no_log_before_a_restart
    refused_restarts_leave_the_log
    the_smallest_page
    a_block_that_holds_no_log
    a_driver_that_refuses
    borrowed_buffers_and_parts
    empty_slices
}

fn a_fresh_log<W: Word>() {
    let (w, full) = (W::BYTES, full::<W>(P));
    let (mut log, flash) = fresh::<W>(CIRCULAR);
    assert_eq!(ids(&log), (w, w, w));
    assert_eq!(log.get_size(), 4 * P - 4 * w);
    assert_eq!(log.state(), Some(State::Idle));
    assert_eq!(log.page(), [0; 32]);
    assert_eq!(log.hold(), [0x44; 32]);
    assert_eq!(log.sync(&flash.volume, OK), nothing(Answer::Ok));
    let got = log.append(&flash.volume, &ONES, full + 1, OK);
    assert_eq!(got, nothing(Answer::Size));
    let got = log.append(&flash.volume, &ONES, full, OK);
    assert_eq!(got.report, done(full, false));
    assert_eq!(ids(&log), (w, w, P));
}

fn appends_that_fill_a_page_and_open_the_next<W: Word>() {
    let (w, full) = (W::BYTES, full::<W>(P));
    let (mut log, mut flash) = fresh::<W>(CIRCULAR);
    assert_eq!(append(&mut log, &mut flash, &[1; 5]), done(5, false));
    assert_eq!(ids(&log), (w, w, 2 * w + 5));
    let rest = full - w - 5;
    assert_eq!(
        append(&mut log, &mut flash, &vec![2; rest]),
        done(rest, false)
    );
    assert_eq!(ids(&log), (w, w, P));
    let got = log.append(&flash.volume, &[3], 1, OK);
    assert_eq!(got.request, Request::Write(PageNumber(7)));
    assert_eq!(got.report, Report::Nothing);
    assert_eq!(log.state(), Some(State::Append));
    flash.driver.start(got.request, log.page());
    flash.end(Left::New, log.page());
    let got = log.write_complete(&flash.volume, true);
    assert_eq!(got.report, done(1, false));
    assert_eq!(ids(&log), (w, w, P + 2 * w + 1));

    let (mut log, mut flash) = fresh::<W>(CIRCULAR);
    append(&mut log, &mut flash, &vec![1; full - 4]);
    append(&mut log, &mut flash, &[2]);
    assert_eq!(ids(&log), (w, w, P + 2 * w + 1));
    assert_eq!(flash.volume[P - 4..P], [0xFF; 4]);
    assert_eq!(read_all(&mut log, &flash), [vec![1; full - 4], vec![2]]);
}

fn laps_move_the_oldest_and_the_read_id<W: Word>() {
    let (w, full) = (W::BYTES, full::<W>(P));
    let (mut log, mut flash) = fresh::<W>(CIRCULAR);
    for k in 0..5 {
        assert_eq!(
            append(&mut log, &mut flash, &vec![k; full]),
            done(full, false)
        );
    }
    assert_eq!(ids(&log), (w, w, 5 * P));
    assert_eq!(
        append(&mut log, &mut flash, &vec![5; full]),
        done(full, true)
    );
    assert_eq!(ids(&log), (P + w, P + w, 6 * P));
    for k in 6..100 {
        append(&mut log, &mut flash, &vec![k; full]);
    }
    let entries: Vec<_> = (95..100).map(|k| vec![k; full]).collect();
    assert_eq!(read_all(&mut log, &flash), entries);
}

fn a_plain_log_is_full_in_the_end<W: Word>() {
    let (w, full) = (W::BYTES, full::<W>(P));
    let (mut log, mut flash) = fresh::<W>(PLAIN);
    for k in 0..4 {
        append(&mut log, &mut flash, &vec![k; full]);
    }
    assert_eq!(ids(&log), (w, w, 4 * P));
    let got = log.append(&flash.volume, &ONES, 1, OK);
    assert_eq!(got, nothing(Answer::Fail));
    sync(&mut log, &mut flash, Left::New);
    let got = log.write_complete(&flash.volume, true);
    assert_eq!(got.report, Report::SyncDone(Answer::Ok));
    assert_eq!(ids(&log), (w, w, 4 * P));
    assert_eq!(read_all(&mut log, &flash).len(), 4);
}

fn cuts_in_a_sync<W: Word>() {
    let w = W::BYTES;
    for (left, end, count) in [
        (Left::Old, 2 * w + 5, 1),
        (Left::Blank, w, 0),
        (Left::New, 3 * w + 7, 2),
    ] {
        let (mut log, mut flash) = fresh::<W>(CIRCULAR);
        append(&mut log, &mut flash, &[1; 5]);
        sync(&mut log, &mut flash, Left::New);
        let got = log.write_complete(&flash.volume, true);
        assert_eq!(got.report, Report::SyncDone(Answer::Ok));
        append(&mut log, &mut flash, &[2; 2]);
        sync(&mut log, &mut flash, left);
        let mut log = Log::<_, W>::new([0x77; 32], [0x66; 32]);
        let got = log.restart(SIZES, CIRCULAR, &flash.volume);
        assert_eq!(got, nothing(Answer::Ok));
        assert_eq!(ids(&log), (w, w, end));
        let entries = [vec![1; 5], vec![2; 2]];
        assert_eq!(read_all(&mut log, &flash), entries[..count]);
    }
}

fn an_erase_ends_in_an_empty_log<W: Word>() {
    let (w, full) = (W::BYTES, full::<W>(P));
    let (mut log, mut flash) = fresh::<W>(CIRCULAR);
    for k in 0..9 {
        append(&mut log, &mut flash, &vec![k; full - 4]);
    }
    let mut got = log.erase(OK);
    assert_eq!(got.answer, Answer::Ok);
    while got.report == Report::Nothing {
        assert_eq!(log.state(), Some(State::Erase));
        flash.driver.start(got.request, log.page());
        flash.end(Left::Blank, log.page());
        got = log.erase_complete(&flash.volume, true, OK);
    }
    assert_eq!(got.report, Report::EraseDone(Answer::Ok));
    assert_eq!(got.request, Request::Nothing);
    assert_eq!(ids(&log), (w, w, w));
    assert!(flash.volume.iter().all(|byte| *byte == 0xFF));
    assert_eq!(log.page(), [0; 32]);
}

fn seek_limits<W: Word>() {
    let w = W::BYTES;
    let (mut log, mut flash) = fresh::<W>(CIRCULAR);
    append(&mut log, &mut flash, &[1; 5]);
    append(&mut log, &mut flash, &[2; 2]);
    for (id, answer) in [
        (w - 1, Answer::Inval),
        (w, Answer::Ok),
        (2 * w + 5, Answer::Ok),
        (3 * w + 7, Answer::Ok),
        (3 * w + 8, Answer::Inval),
        (usize::MAX, Answer::Inval),
    ] {
        let got = log.seek(EntryID(id as u64));
        assert_eq!(got, nothing(answer), "seek to {id}");
        let due = log.deferred_call().report;
        let sought = answer == Answer::Ok;
        assert_eq!(due == Report::SeekDone(Answer::Ok), sought);
    }
    let second = EntryID(2 * w as u64 + 5);
    assert_eq!(log.seek(second).answer, Answer::Ok);
    let got = log.seek(second);
    assert_eq!(got, nothing(Answer::Busy));
    let _ = log.deferred_call();
    assert_eq!(read_all(&mut log, &flash), [vec![2; 2]]);
}

fn the_ceiling<W: Word>() {
    let w = W::BYTES;
    let mut flash = Flash::new(SIZES, 0xFF);
    put_word::<W>(&mut flash.volume, 3 * P, W::CEILING - P as u64);
    put_word::<W>(&mut flash.volume, 3 * P + w, full::<W>(P) as u64);
    let mut log = Log::<_, W>::new([0; 32], [0; 32]);
    let got = log.restart(SIZES, CIRCULAR, &flash.volume);
    assert_eq!(got, nothing(Answer::Ok));
    assert_eq!(log.log_end(), EntryID(W::CEILING));
    let got = log.append(&flash.volume, &ONES, 1, OK);
    assert_eq!(got, nothing(Answer::Limit));
}

fn the_survey<W: Word>() {
    let full = full::<W>(P);
    let (mut log, mut flash) = fresh::<W>(CIRCULAR);
    assert_eq!(survey::<W>(SIZES, &flash.volume, &mut []), Ok(0));
    for k in 0..22 {
        append(&mut log, &mut flash, &vec![k; full]);
    }
    let word = |number: u32| W::from(number);
    let mut ids = [word(7); 5];
    assert_eq!(survey(SIZES, &flash.volume, &mut ids), Ok(4));
    assert_eq!(ids, [17 * 32, 18 * 32, 19 * 32, 20 * 32, 7].map(word));
    let mut few = [word(7); 3];
    let refused = survey(SIZES, &flash.volume, &mut few);
    assert_eq!(refused, Err(Answer::Size));
    let refused = survey(SIZES, &flash.volume[1..], &mut ids);
    assert_eq!(refused, Err(Answer::Shape));
    assert_eq!(few, [word(7); 3]);
}

fn clients_that_are_not_set<W: Word>() {
    let mode = Mode {
        read_client: false,
        append_client: false,
        ..CIRCULAR
    };
    let (mut log, flash) = fresh::<W>(mode);
    let volume = &flash.volume;
    assert_eq!(log.append(volume, &ONES, 1, OK), nothing(Answer::Reserve));
    assert_eq!(log.erase(OK), nothing(Answer::Reserve));
    assert_eq!(log.seek(EntryID(W::BYTES as u64)), nothing(Answer::Reserve));
    let got = log.read(volume, &mut [0; 32], 32);
    assert_eq!(got, nothing(Answer::Reserve));
}

fn calls_that_are_not_due_and_a_busy_log<W: Word>() {
    let (mut log, mut flash) = fresh::<W>(CIRCULAR);
    append(&mut log, &mut flash, &[1; 5]);
    let volume = &flash.volume;
    assert_eq!(log.write_complete(volume, true), nothing(Answer::Stray));
    assert_eq!(log.erase_complete(volume, true, OK), nothing(Answer::Stray));
    assert_eq!(log.deferred_call(), nothing(Answer::Ok));
    assert_eq!(log.sync(volume, OK).answer, Answer::Ok);
    assert_eq!(log.append(volume, &ONES, 1, OK), nothing(Answer::Busy));
    assert_eq!(log.sync(volume, OK), nothing(Answer::Busy));
    assert_eq!(log.erase(OK), nothing(Answer::Busy));
    assert_eq!(log.read(volume, &mut [0; 32], 32), nothing(Answer::Busy));
    assert_eq!(log.deferred_call(), nothing(Answer::Stray));
    assert_eq!(log.erase_complete(volume, true, OK), nothing(Answer::Stray));
}

fn no_log_before_a_restart<W: Word>() {
    let volume = [0xFF; 128];
    let mut log = Log::<_, W>::new([0; 32], [0; 32]);
    assert_eq!(log.append(&volume, &ONES, 1, OK), nothing(Answer::Shape));
    assert_eq!(log.sync(&volume, OK), nothing(Answer::Shape));
    assert_eq!(log.deferred_call(), nothing(Answer::Shape));
    assert_eq!(ids(&log), (0, 0, 0));
    assert_eq!(log.get_size(), 0);
    assert_eq!(log.block(), &W::ZEROS);
}

fn refused_restarts_leave_the_log<W: Word>() {
    let (mut log, mut flash) = fresh::<W>(CIRCULAR);
    append(&mut log, &mut flash, &[1; 5]);
    let before = *log.block();
    for (page_size, page_count, first_page) in [
        (16, 4, 0),
        (64, 4, 0),
        (32, 3, 0),
        (0, 0, 0),
        (24, 4, 0),
        (32, 4, 16_777_216),
        (u32::MAX, u32::MAX, u32::MAX),
    ] {
        let sizes = Geometry {
            page_size,
            page_count,
            first_page,
        };
        let got = log.restart(sizes, CIRCULAR, &flash.volume);
        assert_eq!(got, nothing(Answer::Shape), "{sizes:?}");
        assert_eq!(log.block(), &before);
    }
    let got = log.restart(SIZES, CIRCULAR, &flash.volume[..127]);
    assert_eq!(got, nothing(Answer::Shape));
    let got = log.restart(SIZES, CIRCULAR, &[]);
    assert_eq!(got, nothing(Answer::Shape));
    assert_eq!(log.block(), &before);
    assert_eq!(read_all(&mut log, &flash), [vec![1; 5]]);
}

fn the_smallest_page<W: Word>() {
    let restart = |p: usize| {
        let sizes = Geometry {
            page_size: p as u32,
            ..SIZES
        };
        let mut log = Log::<_, W>::new(vec![0; p], vec![0; p]);
        let answer = log.restart(sizes, CIRCULAR, &vec![0xFF; 4 * p]).answer;
        (answer, log.get_size())
    };
    let w = W::BYTES;
    assert_eq!(restart(2 * w), (Answer::Shape, 0));
    assert_eq!(restart(4 * w), (Answer::Ok, 4 * 3 * w));
}

fn a_block_that_holds_no_log<W: Word>() {
    let volume = [0xFF; 128];
    let (flags, state) = (At::<W>::FLAGS, At::<W>::STATE);
    for (at, byte) in [(flags, 8), (flags, 128), (flags, 255), (state, 6)] {
        // sizes that aren't allowed are SHAPE, and with others it is STATE
        for (page_size, answer) in [(0, Answer::Shape), (P as u8, Answer::State)] {
            let mut block = W::ZEROS;
            block.as_mut()[At::<W>::PAGE_SIZE] = page_size;
            block.as_mut()[At::<W>::PAGE_COUNT] = 4;
            block.as_mut()[at] = byte;
            block.as_mut()[At::<W>::REPORT] = 1; // a report and a request that nobody made
            block.as_mut()[At::<W>::REQUEST] = 1;
            let mut log = Log::<_, W>::from_parts(block, [0; 32], [0; 32]);
            assert_eq!(log.append(&volume, &ONES, 1, OK), nothing(answer));
            assert_eq!(log.erase(OK), nothing(answer));
            let start = |_: Request, _: &[u8]| panic!("nothing is requested");
            assert_eq!(log.sync_with(&volume, start), nothing(answer));
            assert_eq!(
                log.append(&volume[1..], &ONES, 1, OK),
                nothing(Answer::Shape)
            );
            assert_eq!(log.block(), &block);
            assert_eq!(log.state().is_none(), at == state);
            assert_eq!(ids(&log), (0, 0, 0));
            let got = log.restart(SIZES, CIRCULAR, &volume);
            assert_eq!(got, nothing(Answer::Ok));
        }
    }
}

fn a_driver_that_refuses<W: Word>() {
    let (w, full) = (W::BYTES, full::<W>(P));
    for (word, answer) in [
        (DriverWord::Busy, Answer::Busy),
        (DriverWord::Fail, Answer::Fail),
    ] {
        let (mut log, mut flash) = fresh::<W>(CIRCULAR);
        for k in 0..5 {
            append(&mut log, &mut flash, &vec![k; full]);
        }
        // directly, and by asking in between: the same log and buffers
        let mut other = log.clone();
        let got = log.append(&flash.volume, &vec![5; full], full, word);
        let mut asked = 0;
        let again = other.append_with(&flash.volume, &vec![5; full], full, |request, _| {
            assert_eq!(request, Request::Write(PageNumber(7)));
            asked += 1;
            word
        });
        assert_eq!(asked, 1);
        assert_eq!(got, again);
        assert_eq!(got.answer, answer);
        assert_eq!(log.block(), other.block());
        assert_eq!(log.page(), other.page());
        assert_eq!(log.hold(), other.hold());
        assert_eq!(log.state(), Some(State::Idle));
        assert_eq!(ids(&log), (P + w, P + w, 5 * P));
        // the same append, once the driver is willing
        append(&mut log, &mut flash, &vec![5; full]);
        let entries: Vec<_> = (1..6).map(|k| vec![k; full]).collect();
        assert_eq!(read_all(&mut log, &flash), entries);

        // a refused erase leaves the log as it was: it goes on, and is erased later
        let before = ids(&log);
        let got = log.erase_with(|_, _| word);
        assert_eq!(got.answer, answer);
        assert_eq!(
            (got.report, got.request),
            (Report::Nothing, Request::Erase(PageNumber(8)))
        );
        assert_eq!(log.state(), Some(State::Idle));
        assert_eq!(ids(&log), before);
        // the same by an erase that is started, and reported as failed
        assert_eq!(log.erase(OK).answer, Answer::Ok);
        let got = log.erase_complete(&flash.volume, false, OK);
        assert_eq!(got.report, Report::EraseDone(Answer::Fail));
        assert_eq!(log.state(), Some(State::Idle));
        assert_eq!(ids(&log), before);
        append(&mut log, &mut flash, &vec![6; full]);
    }
}

fn borrowed_buffers_and_parts<W: Word>() {
    let mut volume = vec![0xFF; 128];
    let (mut page, mut hold) = (vec![0; 32], vec![0; 32]);
    let block = {
        let mut log = Log::<_, W>::new(&mut page[..], &mut hold[..]);
        let got = log.restart(SIZES, CIRCULAR, &volume);
        assert_eq!(got.answer, Answer::Ok);
        let got = log.append(&volume, b"kept", 4, OK);
        assert_eq!(got.report, done(4, false));
        assert_eq!(log.sync(&volume, OK).answer, Answer::Ok);
        *log.block()
    };
    volume[..32].copy_from_slice(&page);
    let mut log = Log::<_, W>::from_parts(block, page, hold);
    let got = log.write_complete(&volume, true);
    assert_eq!(got.report, Report::SyncDone(Answer::Ok));
    let log: &mut dyn LogRead = &mut log;
    let mut buffer = [0; 32];
    assert_eq!(log.read(&volume, &mut buffer, 32).answer, Answer::Ok);
    assert_eq!(&buffer[..4], b"kept");
}

fn empty_slices<W: Word>() {
    let mut log: Log<Vec<u8>, W> = Log::new(vec![], vec![]);
    assert_eq!(log.restart(SIZES, CIRCULAR, &[]), nothing(Answer::Shape));
    assert_eq!(log.append(&[], &[], 0, OK), nothing(Answer::Shape));
    assert_eq!(log.read(&[], &mut [], 0), nothing(Answer::Shape));
    let (mut log, mut flash) = fresh::<W>(CIRCULAR);
    assert_eq!(
        log.append(&flash.volume, &[], 0, OK),
        nothing(Answer::Inval)
    );
    append(&mut log, &mut flash, &[1; 5]);
    assert_eq!(log.read(&flash.volume, &mut [], 0), nothing(Answer::Size));
}

#[test]
fn a_page_of_16_bytes_is_for_one_board() {
    let sizes = Geometry {
        page_size: 16,
        ..SIZES
    };
    let volume = [0xFF; 64];
    let mut four = Log4::new([0; 16], [0; 16]);
    assert_eq!(four.restart(sizes, CIRCULAR, &volume), nothing(Answer::Ok));
    let mut eight = Log8::new([0; 16], [0; 16]);
    let got = eight.restart(sizes, CIRCULAR, &volume);
    assert_eq!(got, nothing(Answer::Shape));
}

#[test]
fn answers_have_their_numbers() {
    for (answer, number) in [
        (Answer::Ok, 0),
        (Answer::Fail, 1),
        (Answer::Busy, 2),
        (Answer::Reserve, 5),
        (Answer::Inval, 6),
        (Answer::Size, 7),
        (Answer::Cancel, 8),
        (Answer::Shape, 20),
        (Answer::State, 21),
        (Answer::Stray, 22),
        (Answer::Limit, 23),
    ] {
        assert_eq!(answer.number(), number);
    }
}
