//! Blocks and buffers of any bytes.

use super::{full, put_word, Random};
use punelovash::raw::At;
use punelovash::Word;

const GUARD: usize = 16;

/// Bytes between two rows of 0xA5.
pub struct Guarded(Vec<u8>);

impl Guarded {
    pub fn new(bytes: &[u8]) -> Guarded {
        let mut all = vec![0xA5; GUARD];
        all.extend_from_slice(bytes);
        all.extend_from_slice(&[0xA5; GUARD]);
        Guarded(all)
    }

    pub fn bytes(&mut self) -> &mut [u8] {
        let end = self.0.len() - GUARD;
        &mut self.0[GUARD..end]
    }

    pub fn check(&self) {
        let end = self.0.len() - GUARD;
        assert!(self.0[..GUARD].iter().all(|byte| *byte == 0xA5));
        assert!(self.0[end..].iter().all(|byte| *byte == 0xA5));
    }
}

pub fn put(block: &mut [u8], at: usize, number: u32) {
    block[at..at + 4].copy_from_slice(&number.to_le_bytes());
}

pub fn number(block: &[u8], at: usize) -> usize {
    u32::from_le_bytes(block[at..at + 4].try_into().unwrap()) as usize
}

/// Flags and a state that a log can have.
pub fn holds_log<W: Word>(block: &[u8]) -> bool {
    block[At::<W>::FLAGS] <= 7 && block[At::<W>::STATE] <= 5
}

pub fn sizes_in<W: Word>(block: &[u8]) -> (usize, usize) {
    let p = number(block, At::<W>::PAGE_SIZE);
    (p, number(block, At::<W>::PAGE_COUNT))
}

pub fn sizes_fit<W: Word>(block: &[u8]) -> bool {
    let (p, n) = sizes_in::<W>(block);
    let pages = (1..=4096).contains(&n) && number(block, At::<W>::FIRST_PAGE) <= 16_777_215;
    (4 * W::BYTES..=4096).contains(&p) && p.is_power_of_two() && pages
}

/// A block of any bytes, or one that is nearly a log's.
pub fn block<W: Word>(random: &mut Random, p: usize, n: usize) -> W::Block {
    let mut all = W::ZEROS;
    let block = all.as_mut();
    block.fill_with(|| random.next() as u8);
    if random.one_in(20) {
        return all;
    }
    put(block, At::<W>::PAGE_SIZE, p as u32);
    put(block, At::<W>::PAGE_COUNT, n as u32);
    put(block, At::<W>::FIRST_PAGE, random.below(100) as u32);
    block[At::<W>::FLAGS] = random.below(8) as u8;
    block[At::<W>::STATE] = random.below(6) as u8;
    let w = W::BYTES;
    let last = W::CEILING as usize / p - 1;
    let any = random.below(last);
    let oldest = random.pick(&[0, 1, n, any, last]) * p + w;
    let ahead = random.below(p * (n + 1));
    let append = random.pick(&[oldest + ahead, oldest + p - w]);
    let any = random.below(append + 9);
    let read = random.pick(&[oldest, append, append + 1, any]);
    put_word::<W>(block, At::<W>::OLDEST, oldest as u64);
    put_word::<W>(block, At::<W>::READ, read as u64);
    put_word::<W>(block, At::<W>::APPEND, append as u64);
    put(block, At::<W>::KEPT, random.below(full::<W>(p) + 1) as u32);
    if random.one_in(6) {
        let at = random.below(At::<W>::REPORT);
        block[at] = random.next() as u8;
    }
    all
}

/// Bytes that are now and then headers and small lengths.
pub fn bytes<W: Word>(random: &mut Random, length: usize) -> Vec<u8> {
    let kind = random.below(4);
    (0..length)
        .map(|i| match kind {
            0 => 0xFF,
            1 => random.next() as u8,
            _ if i % W::BYTES == 0 => random.pick(&[1, 2, 4, 8, 0, 0xFF]),
            _ => 0,
        })
        .collect()
}
