//! The lines of a script.

use std::fmt;

/// The driver's word.
#[derive(Clone, Copy, PartialEq)]
pub enum Word {
    Ok,
    Busy,
    Fail,
}

/// What an operation leaves in its slot.
#[derive(Clone, Copy, PartialEq)]
pub enum Left {
    Old,
    Blank,
    New,
}

/// What the volume holds at first.
pub enum Fill {
    Bytes(Vec<u8>),
    All(u8),
}

/// The first line, of a script whose width is this Rust's.
pub struct Sizes {
    pub page_size: usize,
    pub count: usize,
    pub first: usize,
    pub circular: bool,
}

pub enum Line {
    /// An empty line or a comment.
    Nothing,
    Sizes(Sizes),
    Fill(Fill),
    Restart(Restart),
    /// What the operation under way leaves, if there is one.
    Cut(Left),
    Call(Call),
    Get,
    Volume,
}

/// No bytes for a buffer: it stays as it is. What the operation under way leaves may be missing where there is none.
pub struct Restart {
    pub read: bool,
    pub append: bool,
    pub page: Option<Vec<u8>>,
    pub hold: Option<Vec<u8>>,
    pub left: Option<Left>,
}

pub enum Call {
    Append {
        length: usize,
        data: Vec<u8>,
        word: Word,
    },
    Read {
        length: usize,
        buffer: Vec<u8>,
    },
    Seek(usize),
    Sync(Word),
    Erase(Word),
    Deferred,
    WriteComplete {
        good: bool,
        left: Left,
    },
    EraseComplete {
        good: bool,
        left: Left,
        word: Word,
    },
}

impl Call {
    pub fn name(&self) -> &'static str {
        match self {
            Call::Append { .. } => "append",
            Call::Read { .. } => "read",
            Call::Seek(_) => "seek",
            Call::Sync(_) => "sync",
            Call::Erase(_) => "erase",
            Call::Deferred => "deferred",
            Call::WriteComplete { .. } => "write_complete",
            Call::EraseComplete { .. } => "erase_complete",
        }
    }
}

/// Why a line is bad, in plain words.
pub struct Bad(String);

impl fmt::Display for Bad {
    fn fmt(&self, f: &mut fmt::Formatter) -> fmt::Result {
        f.write_str(&self.0)
    }
}

pub fn bad<T>(what: impl Into<String>) -> Result<T, Bad> {
    Err(Bad(what.into()))
}

/// The bytes of a word of this Rust: a script must have the same width.
pub const WIDTH: usize = size_of::<usize>();
/// The longest page, hold or client buffer.
const BUFFER_MOST: usize = 8192;
/// The longest volume.
pub const VOLUME_MOST: usize = 65536;

fn number(word: &str) -> Result<usize, Bad> {
    if word.is_empty() || word.len() > 20 || !word.bytes().all(|b| b.is_ascii_digit()) {
        return bad(format!("'{word}' is not a number"));
    }
    let Ok(value) = word.parse::<u64>() else {
        return bad(format!("{word} is not below 2^64"));
    };
    match usize::try_from(value) {
        Ok(value) => Ok(value),
        Err(_) => bad(format!("{word} is more than a word of this Rust holds")),
    }
}

fn bytes(word: &str, most: usize) -> Result<Vec<u8>, Bad> {
    if word == "-" {
        return Ok(Vec::new());
    }
    let digit = |b: u8| match b {
        b'0'..=b'9' => Some(b - b'0'),
        b'a'..=b'f' => Some(b - b'a' + 10),
        _ => None,
    };
    if word.is_empty() || word.len() % 2 != 0 {
        return bad("bytes are an even number of hexadecimal digits, or '-'");
    }
    if word.len() / 2 > most {
        return bad(format!("more than {most} bytes"));
    }
    let pairs = word.as_bytes().chunks(2);
    match pairs
        .map(|pair| Some(digit(pair[0])? * 16 + digit(pair[1])?))
        .collect()
    {
        Some(bytes) => Ok(bytes),
        None => bad("bytes are lower-case hexadecimal digits"),
    }
}

fn buffer(word: &str) -> Result<Vec<u8>, Bad> {
    bytes(word, BUFFER_MOST)
}

fn kept_or_buffer(word: &str) -> Result<Option<Vec<u8>>, Bad> {
    if word == "=" {
        Ok(None)
    } else {
        buffer(word).map(Some)
    }
}

fn flag(word: &str) -> Result<bool, Bad> {
    match word {
        "0" => Ok(false),
        "1" => Ok(true),
        _ => bad(format!("'{word}' is neither 0 nor 1")),
    }
}

fn driver(word: &str) -> Result<Word, Bad> {
    match word {
        "ok" => Ok(Word::Ok),
        "busy" => Ok(Word::Busy),
        "fail" => Ok(Word::Fail),
        _ => bad(format!("'{word}' is not ok, busy or fail")),
    }
}

fn mode(word: &str) -> Result<bool, Bad> {
    match word {
        "circular" => Ok(true),
        "plain" => Ok(false),
        _ => bad(format!("'{word}' is neither circular nor plain")),
    }
}

/// A script says the width of its board's words.
fn own_width(word: &str) -> Result<(), Bad> {
    match number(word)? {
        width if width == WIDTH => Ok(()),
        width @ (4 | 8) => bad(format!(
            "words of {width} bytes, but this Rust has words of {WIDTH}"
        )),
        width => bad(format!("a width of {width}: it is 4 or 8")),
    }
}

fn sizes(page_size: &str, count: &str, first: &str, kind: &str, width: &str) -> Result<Sizes, Bad> {
    own_width(width)?;
    Ok(Sizes {
        page_size: number(page_size)?,
        count: number(count)?,
        first: number(first)?,
        circular: mode(kind)?,
    })
}

fn good(word: &str) -> Result<bool, Bad> {
    match word {
        "ok" => Ok(true),
        "fail" => Ok(false),
        _ => bad(format!("'{word}' is neither ok nor fail")),
    }
}

/// What a cut leaves; whether the operation can leave it is known only where there is one.
fn left_by_cut(word: &str) -> Result<Left, Bad> {
    match word {
        "old" => Ok(Left::Old),
        "blank" => Ok(Left::Blank),
        "new" => Ok(Left::New),
        _ => bad(format!("'{word}' is not old, blank or new")),
    }
}

/// What a write leaves: the new page if it ends well.
fn left_by_write(good: bool, word: &str) -> Result<Left, Bad> {
    match (word, good) {
        ("new", _) => Ok(Left::New),
        ("old", false) => Ok(Left::Old),
        ("blank", false) => Ok(Left::Blank),
        _ => bad(format!("such a write doesn't leave '{word}'")),
    }
}

/// What an erase leaves: a blank page if it ends well.
fn left_by_erase(good: bool, word: &str) -> Result<Left, Bad> {
    match (word, good) {
        ("blank", _) => Ok(Left::Blank),
        ("old", false) => Ok(Left::Old),
        _ => bad(format!("such an erase doesn't leave '{word}'")),
    }
}

fn restart(
    read: &str,
    append: &str,
    page: &str,
    hold: &str,
    left: Option<&str>,
) -> Result<Restart, Bad> {
    Ok(Restart {
        read: flag(read)?,
        append: flag(append)?,
        page: kept_or_buffer(page)?,
        hold: kept_or_buffer(hold)?,
        left: left.map(left_by_cut).transpose()?,
    })
}

pub fn parse(line: &str) -> Result<Line, Bad> {
    if line.is_empty() || line.starts_with('#') {
        return Ok(Line::Nothing);
    }
    let words: Vec<&str> = line.split(' ').collect();
    let call = match words[..] {
        ["sizes", page_size, count, first, kind] => {
            return Ok(Line::Sizes(sizes(page_size, count, first, kind, "4")?));
        }
        ["sizes", page_size, count, first, kind, width] => {
            return Ok(Line::Sizes(sizes(page_size, count, first, kind, width)?));
        }
        ["volume", "all", value] => {
            return match u8::try_from(number(value)?) {
                Ok(value) => Ok(Line::Fill(Fill::All(value))),
                Err(_) => bad(format!("{value} is not a byte")),
            };
        }
        ["volume", word] => return Ok(Line::Fill(Fill::Bytes(bytes(word, VOLUME_MOST)?))),
        ["restart", read, append, page, hold] => {
            return Ok(Line::Restart(restart(read, append, page, hold, None)?));
        }
        ["restart", read, append, page, hold, left] => {
            return Ok(Line::Restart(restart(
                read,
                append,
                page,
                hold,
                Some(left),
            )?));
        }
        ["cut", left] => return Ok(Line::Cut(left_by_cut(left)?)),
        ["get"] => return Ok(Line::Get),
        ["volume"] => return Ok(Line::Volume),
        ["append", length, data, word] => Call::Append {
            length: number(length)?,
            data: buffer(data)?,
            word: driver(word)?,
        },
        ["read", length, lent] => Call::Read {
            length: number(length)?,
            buffer: buffer(lent)?,
        },
        ["seek", id] => Call::Seek(number(id)?),
        ["sync", word] => Call::Sync(driver(word)?),
        ["erase", word] => Call::Erase(driver(word)?),
        ["deferred"] => Call::Deferred,
        ["write_complete", how, left] => {
            let good = good(how)?;
            Call::WriteComplete {
                good,
                left: left_by_write(good, left)?,
            }
        }
        ["erase_complete", how, left, word] => {
            let good = good(how)?;
            Call::EraseComplete {
                good,
                left: left_by_erase(good, left)?,
                word: driver(word)?,
            }
        }
        ["survey" | "state" | "walk" | "nearest" | "between", ..] => {
            return bad(format!("the Rust has no {}", words[0]));
        }
        _ => return bad(format!("not a line of a script: '{}'", words[0])),
    };
    Ok(Line::Call(call))
}
