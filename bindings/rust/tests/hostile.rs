//! Blocks, volumes and buffers of any bytes and lengths, on both boards: every call answers by the table, a refusal changes
//! nothing, and no byte outside of what is lent is written.

mod bench;

use bench::any::{block, bytes, holds_log, sizes_fit, sizes_in, Guarded};
use bench::{full, on_both_boards, Random};
use punelovash::raw::At;
use punelovash::{
    Answer, DriverWord, EntryID, Geometry, Log, LogRead, LogWrite, Mode, Outcome, Report, Request,
    Word,
};
use std::collections::BTreeMap;

const ROUNDS: usize = 150_000;

on_both_boards! { any_bytes_are_answered_by_the_table }

fn any_bytes_are_answered_by_the_table<W: Word>() {
    let mut random = Random(7);
    let mut met: BTreeMap<(usize, u32), u64> = BTreeMap::new();
    for _ in 0..ROUNDS {
        let w = W::BYTES;
        let p = random.pick(&[4 * w, 4 * w, 8 * w, 64]);
        let n = 1 + random.below(4);
        let length = |random: &mut Random, right: usize| match random.below(40) {
            0 => 0,
            1 => right - 1,
            2 => right + 1,
            _ => right,
        };
        let lengths = [
            length(&mut random, n * p),
            length(&mut random, p),
            length(&mut random, p),
        ];
        let volume = bytes::<W>(&mut random, lengths[0]);
        let page = bytes::<W>(&mut random, lengths[1]);
        let hold = bytes::<W>(&mut random, lengths[2]);
        let room = random.below(p + 3);
        let buffer = bytes::<W>(&mut random, room);
        let size = random.pick(&[0, 1, full::<W>(p), p, room, room + 1, usize::MAX]);
        let any = random.below(8 * p);
        let id = EntryID(random.pick(&[w, p + w, 0, usize::MAX, any]) as u64);
        let word = random.pick(&[DriverWord::Ok, DriverWord::Busy, DriverWord::Fail]);
        let good = random.one_in(2);
        let call = random.below(9);
        let before = block::<W>(&mut random, p, n);
        let sizes = Geometry {
            page_size: random.pick(&[p as u32, p as u32, p as u32, 0, 24, u32::MAX]),
            page_count: n as u32,
            first_page: random.pick(&[0, 5, 16_777_215, 16_777_216]),
        };

        let mut pages = Guarded::new(&page);
        let mut holds = Guarded::new(&hold);
        let mut buffers = Guarded::new(&buffer);
        let mut log = Log::<_, W>::from_parts(before, pages.bytes(), holds.bytes());
        let got = match call {
            0 => log.append(&volume, &buffer, size, word),
            1 => log.read(&volume, buffers.bytes(), size),
            2 => log.seek(id),
            3 => log.sync(&volume, word),
            4 => log.erase(word),
            5 => log.write_complete(&volume, good),
            6 => log.erase_complete(&volume, good, word),
            7 => log.deferred_call(),
            _ => log.restart(sizes, Mode::default(), &volume),
        };
        let _ = (log.state(), log.get_size(), log.log_start(), log.log_end());
        let (after, _, _) = log.into_parts();
        let (before, after) = (before.as_ref(), after.as_ref());
        pages.check();
        holds.check();
        buffers.check();
        *met.entry((call, got.answer.number())).or_default() += 1;
        assert!(!matches!(got.answer, Answer::Other(_)), "{got:?}");

        // SHAPE looks at the sizes, and at the lengths of what the call is lent
        if call != 8 {
            let (p, n) = sizes_in::<W>(before);
            let fits = [lengths[0] == n * p, lengths[1] == p, lengths[2] == p];
            let lent = match call {
                2 | 4 | 7 => &fits[..0],
                1 => &fits[..2],
                _ => &fits[..],
            };
            let fit = sizes_fit::<W>(before) && lent.iter().all(|fits| *fits);
            assert_eq!(got.answer == Answer::Shape, !fit, "call {call}: {got:?}");
            if fit && !holds_log::<W>(before) {
                assert_eq!(got.answer, Answer::State);
            }
            // sizes, mode and clients are a restart's to set
            assert_eq!(after[..At::<W>::STATE], before[..At::<W>::STATE]);
        } else if got.answer == Answer::Ok {
            assert_eq!(after[At::<W>::FLAGS], 7, "circular, with both clients");
        }
        assert_eq!(after[13..15], before[13..15], "bytes that are not used");
        let said = match word {
            _ if ![0, 3, 4].contains(&call) => None,
            DriverWord::Ok => None,
            DriverWord::Busy => Some(Answer::Busy),
            DriverWord::Fail => Some(Answer::Fail),
        };
        let nothing = Outcome {
            answer: got.answer,
            report: Report::Nothing,
            request: Request::Nothing,
        };
        let refused = match got.answer {
            Answer::Ok => false,
            _ if got.request != Request::Nothing => {
                assert_eq!(Some(got.answer), said, "the driver's refusal");
                false
            }
            Answer::Cancel => {
                // R = O
                assert_eq!(after[At::<W>::READ..][..w], before[At::<W>::OLDEST..][..w]);
                let rest = At::<W>::APPEND..At::<W>::REPORT;
                assert_eq!(after[rest.clone()], before[rest]);
                assert_eq!(got, nothing);
                false
            }
            _ => true,
        };
        if refused {
            assert_eq!(got, nothing);
            let log = ..At::<W>::REPORT;
            assert_eq!(after[log], before[log], "the log after {:?}", got.answer);
            assert_eq!(
                pages.bytes(),
                page,
                "the page buffer after {:?}",
                got.answer
            );
        }
        if refused || call != 0 {
            assert_eq!(holds.bytes(), hold, "the hold buffer");
        }
        if call != 1 || got.answer != Answer::Ok {
            assert_eq!(buffers.bytes(), buffer, "the read buffer");
        }
    }
    // every answer that a call can give was met
    let table: [(usize, &[u32]); 9] = [
        (0, &[0, 1, 2, 5, 6, 7, 20, 21, 23]),
        (1, &[0, 1, 2, 5, 6, 7, 8, 20, 21]),
        (2, &[0, 2, 5, 6, 20, 21]),
        (3, &[0, 1, 2, 5, 20, 21]),
        (4, &[0, 1, 2, 5, 20, 21]),
        (5, &[0, 20, 21, 22]),
        (6, &[0, 20, 21, 22]),
        (7, &[0, 20, 21, 22]),
        (8, &[0, 20]),
    ];
    for (call, answers) in table {
        let found: Vec<u32> = met
            .keys()
            .filter(|key| key.0 == call)
            .map(|key| key.1)
            .collect();
        for answer in &found {
            assert!(answers.contains(answer), "call {call} answered {answer}");
        }
        for answer in answers {
            assert!(
                found.contains(answer),
                "call {call} never answered {answer}"
            );
        }
    }
    println!("{ROUNDS} calls: {met:?}");
}
