//! A flash in memory, numbers from a seed, and both boards.
#![allow(dead_code, unused_macros, unused_imports)]

pub mod any;
pub mod model;

use punelovash::{DriverWord, Geometry, PageNumber, Request, Word};

/// Tests that are functions of the board's words, on both boards.
macro_rules! on_both_boards {
    ($($test:ident)*) => {
        mod words_of_4_bytes {
            $(#[test] fn $test() { super::$test::<u32>() })*
        }
        mod words_of_8_bytes {
            $(#[test] fn $test() { super::$test::<u64>() })*
        }
    };
}
pub(crate) use on_both_boards;

/// The most data that an entry has in a page of `p` bytes: it fills the page.
pub fn full<W: Word>(p: usize) -> usize {
    p - 2 * W::BYTES
}

/// A number as a word on flash or in a block.
pub fn put_word<W: Word>(bytes: &mut [u8], at: usize, number: u64) {
    bytes[at..][..W::BYTES].copy_from_slice(&number.to_le_bytes()[..W::BYTES]);
}

/// What an operation that failed or was cut has left. A write that ends well leaves the new page, an erase all 0xFF.
#[derive(Clone, Copy, Debug, PartialEq, Eq)]
pub enum Left {
    Old,
    Blank,
    New,
}

#[derive(Clone, Debug, PartialEq, Eq)]
pub enum Operation {
    Nothing,
    Write { slot: usize, page: Vec<u8> },
    Erase { slot: usize },
}

/// The operation under way. It is apart from the volume, which is lent to the log's calls.
pub struct Driver {
    geometry: Geometry,
    pub operation: Operation,
    /// what it says when it is asked to start
    pub word: DriverWord,
}

impl Driver {
    fn slot(&self, page: PageNumber) -> usize {
        let slot = page.0.checked_sub(self.geometry.first_page);
        let slot = slot.filter(|slot| *slot < self.geometry.page_count);
        slot.expect("a page of the volume") as usize
    }

    /// Starts a request, or refuses it.
    pub fn start(&mut self, request: Request, page: &[u8]) -> DriverWord {
        if self.word == DriverWord::Ok {
            let started = match request {
                Request::Nothing => return DriverWord::Ok,
                Request::Write(number) => Operation::Write {
                    slot: self.slot(number),
                    page: page.to_vec(),
                },
                Request::Erase(number) => Operation::Erase {
                    slot: self.slot(number),
                },
            };
            assert_eq!(self.operation, Operation::Nothing, "one at a time");
            self.operation = started;
        }
        self.word
    }
}

pub struct Flash {
    pub volume: Vec<u8>,
    pub driver: Driver,
}

impl Flash {
    pub fn new(geometry: Geometry, byte: u8) -> Flash {
        let length = geometry.page_size as usize * geometry.page_count as usize;
        Flash {
            volume: vec![byte; length],
            driver: Driver {
                geometry,
                operation: Operation::Nothing,
                word: DriverWord::Ok,
            },
        }
    }

    /// The operation under way ends. `page` is the log's page buffer, which must not have changed since a write was started.
    pub fn end(&mut self, left: Left, page: &[u8]) {
        let p = self.driver.geometry.page_size as usize;
        let operation = std::mem::replace(&mut self.driver.operation, Operation::Nothing);
        let (slot, new) = match operation {
            Operation::Nothing => return,
            Operation::Write {
                slot,
                page: written,
            } => {
                assert_eq!(written, page, "the page buffer during a write");
                (slot, written)
            }
            Operation::Erase { slot } => (slot, vec![0xFF; p]),
        };
        let place = &mut self.volume[slot * p..][..p];
        match left {
            Left::Old => {}
            Left::Blank => place.fill(0xFF),
            Left::New => place.copy_from_slice(&new),
        }
    }
}

/// SplitMix64.
pub struct Random(pub u64);

impl Random {
    pub fn next(&mut self) -> u64 {
        self.0 = self.0.wrapping_add(0x9E37_79B9_7F4A_7C15);
        let mut z = self.0;
        z = (z ^ (z >> 30)).wrapping_mul(0xBF58_476D_1CE4_E5B9);
        z = (z ^ (z >> 27)).wrapping_mul(0x94D0_49BB_1331_11EB);
        z ^ (z >> 31)
    }

    pub fn below(&mut self, n: usize) -> usize {
        (self.next() % n as u64) as usize
    }

    pub fn one_in(&mut self, n: usize) -> bool {
        self.below(n) == 0
    }

    pub fn bytes(&mut self, n: usize) -> Vec<u8> {
        (0..n).map(|_| self.next() as u8).collect()
    }

    pub fn pick<T: Copy>(&mut self, of: &[T]) -> T {
        of[self.below(of.len())]
    }
}
