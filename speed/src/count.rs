//! Instructions a call, counted by valgrind's callgrind: it runs this program again and counts only inside `counted`.

use crate::row::Row;
use crate::side::Side;
use std::path::Path;
use std::process::Command;

/// How often the calls of a row are measured in one run.
const TIMES: usize = 2;

/// callgrind counts from here to the return. The loop around the calls is counted too; it is the same on every side.
#[no_mangle]
#[inline(never)]
fn counted(calls: &mut dyn FnMut()) {
    calls();
}

/// Runs a row. The first time is not counted.
pub fn run<S: Side>(row: &Row) {
    let mut logs = row.set_up::<S>();
    row.once(&mut logs, |calls| calls());
    for _ in 0..TIMES {
        row.once(&mut logs, |calls| counted(calls));
    }
}

/// Instructions a call in a build of this program; nothing where valgrind can't be run.
pub fn instructions(program: &Path, row: &Row, side: &str) -> Option<f64> {
    let run = Command::new("valgrind")
        .args([
            "--tool=callgrind",
            "--callgrind-out-file=/dev/null",
            "--toggle-collect=counted",
        ])
        .arg(program)
        .args(["count", &row.key(), side])
        .output()
        .ok()?;
    let said = String::from_utf8_lossy(&run.stderr).into_owned();
    assert!(
        run.status.success(),
        "{} of {side} failed:\n{said}",
        row.name()
    );
    let collected = said
        .lines()
        .find_map(|line| line.split_once("Collected :"))?
        .1;
    let collected: f64 = collected.trim().parse().ok()?;
    Some(collected / (TIMES * row.calls()) as f64)
}
