//! The survey's order, on both boards: worked cases, and volumes with any headers against a sort.

mod bench;

use bench::{on_both_boards, put_word, Random};
use punelovash::{survey, Geometry, Word};

const P: usize = 32;
const ROUNDS: usize = 3000;

on_both_boards! {
    worked_cases
    any_headers
    a_wrapped_volume
}

/// A volume with these header words, one for each slot.
fn volume<W: Word>(headers: &[u64]) -> Vec<u8> {
    let mut volume = vec![0xFF; headers.len() * P];
    for (slot, header) in headers.iter().enumerate() {
        put_word::<W>(&mut volume, slot * P, *header);
    }
    volume
}

/// The survey of such a volume, into as many elements as there are slots: the IDs, and the elements after them.
fn surveyed<W: Word>(headers: &[u64]) -> (Vec<u64>, Vec<u64>) {
    let sizes = Geometry {
        page_size: P as u32,
        page_count: headers.len() as u32,
        first_page: 0,
    };
    let mut ids = vec![W::from(7); headers.len()];
    let count = survey(sizes, &volume::<W>(headers), &mut ids).expect("room for each ID");
    let ids: Vec<u64> = ids.into_iter().map(Into::into).collect();
    let (front, rest) = ids.split_at(count);
    (front.to_vec(), rest.to_vec())
}

fn gives<W: Word>(headers: &[u64], want: &[u64]) {
    let (ids, rest) = surveyed::<W>(headers);
    assert_eq!(ids, want, "headers by slot: {headers:?}");
    assert!(rest.iter().all(|id| *id == 7));
}

/// The valid headers, sorted.
fn sorted<W: Word>(headers: &[u64]) -> Vec<u64> {
    let size = (headers.len() * P) as u64;
    let slots = headers.iter().zip((0..).step_by(P));
    let valid = slots.filter(|(id, at)| **id < W::CEILING && **id % size == *at);
    let mut ids: Vec<u64> = valid.map(|(id, _)| *id).collect();
    ids.sort();
    ids
}

fn worked_cases<W: Word>() {
    let c = W::CEILING;
    gives::<W>(&[128, 160, 64, 96], &[64, 96, 128, 160]);
    gives::<W>(&[384, 288, 192, 96], &[96, 192, 288, 384]);
    gives::<W>(&[0, 128, 64, 96], &[0, 64, 96]);
    gives::<W>(&[128, 32, 64, 1_879_048_160], &[32, 64, 128, 1_879_048_160]);
    gives::<W>(&[c, 32, 64, c - 32], &[32, 64, c - 32]);
    gives::<W>(&[288, 128, 64], &[64, 128, 288]);
    gives::<W>(&[u64::MAX; 4], &[]);
}

/// A header: of any lap, or of the ceiling's, or of another slot, or any word at all.
fn header<W: Word>(random: &mut Random, slot: usize, n: usize) -> u64 {
    let size = (n * P) as u64;
    let at = (slot * P) as u64;
    let lap = match random.below(4) {
        0 => random.next() % (W::CEILING / size + 2),
        _ => random.next() % 5,
    };
    match random.below(8) {
        0 => random.next(),
        1 => lap * size + (at + P as u64) % size,
        _ => lap * size + at,
    }
}

fn any_headers<W: Word>() {
    let mut random = Random(1);
    let mut most = 0;
    for _ in 0..ROUNDS {
        let n = 1 + random.below(40);
        let all = u64::MAX >> (64 - 8 * W::BYTES);
        let headers: Vec<u64> = (0..n)
            .map(|slot| header::<W>(&mut random, slot, n) & all)
            .collect();
        let want = sorted::<W>(&headers);
        most = most.max(want.len());
        gives::<W>(&headers, &want);
    }
    assert!(most > 30, "volumes with many pages were met");
}

/// As many pages as there may be, one and a half times around.
fn a_wrapped_volume<W: Word>() {
    let n = 4096;
    let page = |slot: u64| if slot < n / 2 { slot + n } else { slot };
    let headers: Vec<u64> = (0..n).map(|slot| page(slot) * P as u64).collect();
    let want: Vec<u64> = (n / 2..n + n / 2).map(|page| page * P as u64).collect();
    gives::<W>(&headers, &want);
}
