//! Tock's `Log`, unchanged or altered, behind the script and trace of the replay programs.
//!
//!     oracle [--interactive] < SCRIPT > TRACE
//!
//! With --interactive each line is answered at once, and a `sizes` line begins a new script.

mod bench;
mod flash;
mod lent;
#[rustfmt::skip] // not ours to format
#[cfg_attr(feature = "altered", path = "../../../target/oracle/altered.rs")]
#[cfg_attr(not(feature = "altered"), path = "../../../target/oracle/log.rs")]
mod log;
mod memory;
mod script;

use bench::Bench;
use flash::{Clients, Driver};
use script::{Bad, Line, Sizes, bad};
use std::io::{self, BufRead, Write};
use std::process::ExitCode;

/// The longest script.
const SCRIPT_MOST: usize = 4 << 20;

/// How far a script has come.
enum Stage {
    Start,
    Sized(Sizes),
    Filled(Bench),
    Running(Bench),
    /// Only while a line is run.
    Between,
}

struct Oracle {
    driver: &'static Driver,
    clients: &'static Clients,
    interactive: bool,
    stage: Stage,
}

impl Oracle {
    fn line(&mut self, line: &str, out: &mut Vec<u8>) -> Result<(), Bad> {
        let line = script::parse(line)?;
        if let Line::Nothing = line {
            return Ok(());
        }
        if self.interactive && matches!(line, Line::Sizes(_)) {
            self.stage = Stage::Start;
        }
        self.stage = match (std::mem::replace(&mut self.stage, Stage::Between), line) {
            (Stage::Start, Line::Sizes(sizes)) => Stage::Sized(sizes.check()?),
            (Stage::Sized(sizes), Line::Fill(fill)) => {
                let volume = sizes.fill(fill)?;
                Stage::Filled(Bench::new(sizes, &volume, self.driver, self.clients))
            }
            (Stage::Filled(mut bench) | Stage::Running(mut bench), Line::Restart(restart)) => {
                bench.restart(out, restart)?;
                Stage::Running(bench)
            }
            (Stage::Running(mut bench), line) => {
                match line {
                    Line::Call(call) => bench.call(out, call),
                    Line::Cut(left) => bench.cut(out, left)?,
                    Line::Get => bench.get(out),
                    Line::Volume => bench.show_volume(out),
                    _ => return bad("this line is out of its place"),
                }
                Stage::Running(bench)
            }
            _ => return bad("a script begins with sizes, volume and restart"),
        };
        Ok(())
    }
}

fn run(oracle: &mut Oracle) -> io::Result<ExitCode> {
    let mut input = io::stdin().lock();
    let mut output = io::stdout().lock();
    let mut line = Vec::new();
    let mut out = Vec::new();
    let (mut count, mut read) = (0, 0);
    loop {
        line.clear();
        let length = input.read_until(b'\n', &mut line)?;
        if length == 0 {
            output.write_all(&out)?;
            return Ok(ExitCode::SUCCESS);
        }
        count += 1;
        read += length;
        if line.last() == Some(&b'\n') {
            line.pop();
        }
        let done = match std::str::from_utf8(&line) {
            _ if read > SCRIPT_MOST && !oracle.interactive => bad("the script has more than 4 MiB"),
            Ok(line) => oracle.line(line, &mut out),
            Err(_) => bad("not a line of a script"),
        };
        if let Err(what) = &done {
            writeln!(out, "line {count}: {what}")?;
        }
        if oracle.interactive || out.len() > 1 << 16 || done.is_err() {
            output.write_all(&out)?;
            output.flush()?;
            out.clear();
        }
        if done.is_err() {
            return Ok(ExitCode::FAILURE);
        }
    }
}

fn main() -> ExitCode {
    let arguments: Vec<String> = std::env::args().skip(1).collect();
    let interactive = match &arguments[..] {
        [] => false,
        [option] if option == "--interactive" => true,
        _ => {
            eprintln!("usage: oracle [--interactive] < SCRIPT > TRACE");
            return ExitCode::from(2);
        }
    };
    let mut oracle = Oracle {
        driver: Box::leak(Box::new(Driver::new())),
        clients: Box::leak(Box::default()),
        interactive,
        stage: Stage::Start,
    };
    match run(&mut oracle) {
        Ok(code) => code,
        Err(error) => {
            eprintln!("oracle: {error}");
            ExitCode::from(2)
        }
    }
}
