//! The tables, in Markdown.

use crate::count;
use crate::row::{rows, Kind, Row, FULL, FULL_OF_ONES, PADDED};
use crate::side::{SIDES, WORDS};
use crate::stack;
use crate::time::{self, Spread, Times};
use std::path::Path;

/// A number for each side.
type Numbers = [f64; SIDES.len()];

/// A row with what was measured.
struct Line {
    row: Row,
    times: Times,
    /// Instructions a call.
    instructions: Option<Numbers>,
    /// Those of Rust where it is compiled as one piece.
    whole: Option<f64>,
}

impl Line {
    fn of(row: Row, whole: Option<&Path>) -> Line {
        let program = std::env::current_exe().expect("this program has a path");
        let counts = SIDES.map(|side| count::instructions(&program, &row, side));
        let known = counts.iter().all(Option::is_some);
        Line {
            times: time::of(&row),
            instructions: known.then(|| counts.map(|count| count.unwrap_or_default())),
            whole: whole.and_then(|whole| count::instructions(whole, &row, SIDES[0])),
            row,
        }
    }

    /// The columns of instructions: Rust, Rust in one piece, then each board with its ratios to these.
    fn counts(&self) -> Vec<String> {
        let number = |number: Option<f64>| number.map_or("-".into(), short);
        let rust = self.instructions.map(|sides| sides[0]);
        let mut columns = vec![number(rust), number(self.whole)];
        for side in 1..SIDES.len() {
            let board = self.instructions.map(|sides| sides[side]);
            let ratio = |to: Option<f64>| {
                let ratio = board.zip(to).map(|(board, to)| board / to);
                ratio.map_or("-".into(), |ratio| format!("{ratio:.2}"))
            };
            columns.extend([number(board), ratio(rust), ratio(self.whole)]);
        }
        columns
    }

    /// The columns of times: Rust, then each board with its ratio.
    fn times(&self) -> Vec<String> {
        let mut columns = vec![spread(&self.times.sides[0])];
        for side in 1..SIDES.len() {
            let of = [&self.times.sides[side], &self.times.ratios[side]];
            columns.extend(of.map(spread));
        }
        columns
    }
}

/// A number with three digits.
fn short(number: f64) -> String {
    match number {
        n if n < 9.995 => format!("{n:.2}"),
        n if n < 99.95 => format!("{n:.1}"),
        n => thousands(n),
    }
}

fn thousands(number: f64) -> String {
    let digits = format!("{number:.0}");
    let mut text = String::new();
    for (i, digit) in digits.chars().enumerate() {
        if i > 0 && (digits.len() - i) % 3 == 0 {
            text.push(',');
        }
        text.push(digit);
    }
    text
}

fn spread(spread: &Spread) -> String {
    format!(
        "{} ({} to {})",
        short(spread.middle),
        short(spread.low),
        short(spread.high)
    )
}

/// A table's title, its head and the line below it.
fn print_head(title: &str, columns: &[&str]) {
    println!("## {title}\n");
    println!("| {} |", columns.join(" | "));
    println!("|{}", "---|".repeat(columns.len()));
}

fn print_line(name: &str, columns: &[String]) {
    println!("| {name} | {} |", columns.join(" | "));
}

fn print_lines(title: &str, lines: &[&Line]) {
    let [rust, eight, four] = SIDES;
    let counts = [
        "call",
        rust,
        "rust, one piece",
        eight,
        "ratio",
        "ratio to one piece",
        four,
        "ratio",
        "ratio to one piece",
    ];
    print_head(&format!("{title}: instructions"), &counts);
    for line in lines {
        print_line(&line.row.name(), &line.counts());
    }
    println!();
    let times = ["call", rust, eight, "ratio", four, "ratio"];
    print_head(&format!("{title}: nanoseconds"), &times);
    for line in lines {
        print_line(&line.row.name(), &line.times());
    }
    println!();
}

/// The head of a table with a column for each side.
fn print_sides(title: &str, what: &str) {
    let [rust, eight, four] = SIDES;
    print_head(title, &[what, rust, eight, four]);
}

/// The restart with those sizes and that newest page.
fn restart<'a>(lines: &'a [Line], newest: &str, p: usize, n: usize) -> &'a Line {
    let is_it = |line: &&Line| {
        let row = &line.row;
        row.is_restart() && (row.newest(), row.page_size, row.page_count) == (newest, p, n)
    };
    lines.iter().find(is_it).expect("there is such a row")
}

/// What a step costs, in instructions, with so many steps from one line to the other.
fn print_steps(what: &str, from: &Line, to: &Line, steps: [usize; SIDES.len()]) {
    if let (Some(from), Some(to)) = (from.instructions, to.instructions) {
        let growth = |side| format!("{:.2}", (to[side] - from[side]) / steps[side] as f64);
        let columns: Vec<String> = (0..SIDES.len()).map(growth).collect();
        print_line(what, &columns);
    }
}

/// What one page more, one byte of a page more, or one entry of the newest page more costs a restart, in instructions.
fn print_growth(lines: &[Line]) {
    print_sides("Growth of restart, in instructions", "restart");
    let each = |steps: usize| [steps; SIDES.len()];
    for newest in [FULL, PADDED, FULL_OF_ONES] {
        let of = |p, n| restart(lines, newest, p, n);
        for p in [512, 4096] {
            for (n, more) in [(64, 1024), (1024, 4096)] {
                let what = format!("a page more, P = {p}, N from {n} to {more}");
                let what = format!("{what}, newest page {newest}");
                print_steps(&what, of(p, n), of(p, more), each(more - n));
            }
        }
        for n in [64, 1024, 4096] {
            let what = format!("a byte more, N = {n}, P from 512 to 4,096, newest page {newest}");
            print_steps(&what, of(512, n), of(4096, n), each(4096 - 512));
        }
    }
    print_entry_growth(lines);
    println!();
}

/// Between the rows with the newest page full, the entries of that page alone differ.
fn print_entry_growth(lines: &[Line]) {
    for p in [512, 4096] {
        for n in [64, 1024, 4096] {
            let [few, many] = [FULL, FULL_OF_ONES].map(|newest| restart(lines, newest, p, n));
            let more = |word| many.row.newest_entries(word) - few.row.newest_entries(word);
            let what = format!("an entry more, P = {p}, N = {n}, newest page full");
            print_steps(&what, few, many, WORDS.map(more));
        }
    }
}

/// What one page more costs a survey, in instructions.
fn print_survey_growth(lines: &[Line]) {
    print_sides("Growth of the survey, in instructions", "survey");
    for (kind, what) in [
        (Kind::Survey, "wrapped"),
        (Kind::SurveyFalling, "IDs fall by slot"),
    ] {
        let found = |n| {
            let is_it = |line: &&Line| line.row.kind == kind && line.row.page_count == n;
            lines.iter().find(is_it).and_then(|line| line.instructions)
        };
        for (n, more) in [(64, 1024), (1024, 4096)] {
            if let (Some(from), Some(to)) = (found(n), found(more)) {
                let growth = |side| short((to[side] - from[side]) / (more - n) as f64);
                let columns: Vec<String> = (0..SIDES.len()).map(growth).collect();
                print_line(
                    &format!("a page more, N from {n} to {more}, {what}"),
                    &columns,
                );
            }
        }
    }
    println!();
}

/// How many bytes of the volume a search among marks goes over in a second.
fn print_rates(lines: &[&Line]) {
    print_sides("Marks, beside reads: MiB a second", "call");
    for line in lines {
        let bytes = (line.row.page_size * line.row.page_count) as f64;
        let rate = |side: &Spread| short(bytes / side.middle * 1e9 / f64::from(1 << 20));
        let columns: Vec<String> = line.times.sides.iter().map(rate).collect();
        print_line(&line.row.name(), &columns);
    }
    println!();
}

fn print_stack() {
    print_sides("Stack, in bytes", "call");
    for stack::Use { call, sides } in stack::table() {
        let columns = sides.map(|used| used.map_or("-".into(), |bytes| bytes.to_string()));
        print_line(call, &columns);
    }
    println!();
}

pub fn print(whole: Option<&Path>) {
    let lines = rows().into_iter().map(|row| Line::of(row, whole));
    let lines: Vec<Line> = lines.collect();
    let (surveys, of_log): (Vec<&Line>, Vec<&Line>) = lines.iter().partition(|l| l.row.is_survey());
    let (searches, of_log): (Vec<&Line>, Vec<&Line>) =
        of_log.into_iter().partition(|l| l.row.is_search());
    let (parts, calls): (Vec<&Line>, Vec<&Line>) =
        of_log.into_iter().partition(|l| l.row.is_part());
    print_lines("Calls", &calls);
    print_lines("Parts of them", &parts);
    print_growth(&lines);
    print_lines("Survey, beside a sort", &surveys);
    print_survey_growth(&lines);
    print_lines("Marks, beside reads", &searches);
    print_rates(&searches);
    print_stack();
}
