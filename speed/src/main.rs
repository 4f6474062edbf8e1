//! Drives Tock's `Log` and the proved log of both boards by the same calls, and compares what they cost.
//!
//!     speed tables [WHOLE]   times, instructions (by valgrind), the growth of restart, stack use; WHOLE is this program in the profile `whole`
//!     speed rows             the names of the rows
//!     speed count ROW SIDE   a row's calls, once, for callgrind; SIDE is rust, punelovash8 or punelovash

mod count;
#[rustfmt::skip] // not ours to format
#[allow(dead_code)]
#[path = "../../target/speed/log.rs"]
mod log;
#[allow(dead_code)]
#[path = "../../tests/oracle/src/memory.rs"]
mod memory;
mod original;
mod rattle;
mod row;
mod side;
mod stack;
mod table;
mod time;

use original::Original;
use rattle::Rattle;
use row::Row;
use std::path::Path;
use std::process::ExitCode;

fn find(name: &str) -> Option<Row> {
    row::rows().into_iter().find(|row| row.key() == name)
}

/// Whether there is such a row and side.
fn count(name: &str, side: &str) -> bool {
    let Some(row) = find(name) else {
        return false;
    };
    match (side, row.page_size) {
        ("rust", 32) => count::run::<Original<32>>(&row),
        ("rust", 512) => count::run::<Original<512>>(&row),
        ("rust", 4096) => count::run::<Original<4096>>(&row),
        ("punelovash8", _) => count::run::<Rattle<u64>>(&row),
        ("punelovash", _) => count::run::<Rattle<u32>>(&row),
        _ => return false,
    }
    true
}

/// Whether the words are a command.
fn run(words: &[&str]) -> bool {
    match *words {
        ["tables"] => table::print(None),
        ["tables", whole] => table::print(Some(Path::new(whole))),
        ["rows"] => row::rows().iter().for_each(|row| println!("{}", row.key())),
        ["count", row, side] => return count(row, side),
        _ => return false,
    }
    true
}

fn main() -> ExitCode {
    let arguments: Vec<String> = std::env::args().skip(1).collect();
    let words: Vec<&str> = arguments.iter().map(String::as_str).collect();
    if !run(&words) {
        eprintln!("usage: speed tables [WHOLE] | rows | count ROW SIDE");
        return ExitCode::from(2);
    }
    ExitCode::SUCCESS
}
