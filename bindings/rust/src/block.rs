//! What stands in a block: the log and what the last call gave.

use crate::numbers::{Answer, Outcome, PageNumber, Report, Request};
use crate::word::{At, Word};

/// A number of 4 bytes.
pub(crate) fn number_at(block: &[u8], at: usize) -> u32 {
    let mut number = 0;
    for (i, byte) in block.iter().skip(at).take(4).enumerate() {
        number |= u32::from(*byte) << (8 * i);
    }
    number
}

fn report_in<W: Word>(block: &[u8]) -> Report {
    let result = Answer::of(u32::from(block[At::<W>::REPORT_RESULT]));
    let length = number_at(block, At::<W>::REPORT_LENGTH) as usize;
    match block[At::<W>::REPORT] {
        1 => Report::AppendDone {
            length,
            lost: block[At::<W>::REPORT_LOST] != 0,
            result,
        },
        2 => Report::SyncDone(result),
        3 => Report::EraseDone(result),
        4 => Report::ReadDone { length, result },
        5 => Report::SeekDone(result),
        _ => Report::Nothing,
    }
}

fn request_in<W: Word>(block: &[u8]) -> Request {
    let page = PageNumber(number_at(block, At::<W>::REQUEST_PAGE));
    match block[At::<W>::REQUEST] {
        1 => Request::Write(page),
        2 => Request::Erase(page),
        _ => Request::Nothing,
    }
}

/// What a call gave: its answer, and what stands in the block. After SHAPE and STATE that may be an earlier call's.
pub(crate) fn outcome<W: Word>(block: &W::Block, number: u32) -> Outcome {
    let answer = Answer::of(number);
    let block = block.as_ref();
    match answer {
        Answer::Shape | Answer::State => Outcome {
            answer,
            report: Report::Nothing,
            request: Request::Nothing,
        },
        _ => Outcome {
            answer,
            report: report_in::<W>(block),
            request: request_in::<W>(block),
        },
    }
}
