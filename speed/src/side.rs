//! What is measured, and the same for all sides: one log with its volume, its buffers and its client.

/// The sides, in the order in which they are measured: Tock's `Log` as it is built for 64 bits, with words of 8 bytes; the
/// proved log with words of 8 bytes, and with words of 4.
pub const SIDES: [&str; 3] = ["rust", "punelovash8", "punelovash"];

/// The bytes of a word on each of them.
pub const WORDS: [usize; SIDES.len()] = [8, 8, 4];

/// A log that is driven. Every call is expected to be accepted: a refusal ends the program.
///
/// One call of a `Side` is one call of machine code: the methods of `Log` are compiled into functions that aren't inlined, and the library's
/// functions are called in place.
pub trait Side {
    /// The bytes of a page header, and of an entry's.
    const WORD: usize;

    /// A log on a volume that is all 0xFF.
    fn new(page_size: usize, page_count: usize) -> Self;

    fn restart(&mut self);
    fn append(&mut self, length: usize);
    fn read(&mut self);
    fn seek(&mut self, id: usize);
    fn sync(&mut self);
    fn erase(&mut self);
    /// A write has ended well. What the flash does is left to `flash`.
    fn write_complete(&mut self);
    fn erase_complete(&mut self);
    fn deferred_call(&mut self);
    /// The IDs of the pages on flash, rising, to a slice with room for every page.
    fn survey(&mut self);

    /// Appends a mark with that stamp.
    fn append_mark(&mut self, stamp: u32);
    /// The ID of the mark that is nearest to a stamp.
    fn nearest(&mut self, stamp: u32) -> usize;
    /// The IDs of the marks from a first to a last stamp, to a slice with room for every mark: how many they are.
    fn between(&mut self, first: u32, last: u32) -> usize;
    /// The bytes that the last read gave.
    fn entry(&mut self, look: impl FnMut(&[u8]));
    /// R.
    fn read_id(&self) -> usize;

    fn page_size(&self) -> usize;
    fn oldest(&self) -> usize;
    fn end(&self) -> usize;

    /// Whether a write has been asked for and not been completed.
    fn writing(&self) -> bool;
    /// The flash writes the page that was asked for.
    fn flash(&mut self);
    /// Puts bytes on the flash that no call asked for.
    fn put(&mut self, start: usize, bytes: &[u8]);
    /// How many reports have come that said OK.
    fn reports(&self) -> usize;
}

/// The bytes of a mark.
pub const MARK: usize = 15;

/// A mark with that stamp.
pub fn mark(stamp: u32) -> [u8; MARK] {
    let mut bytes = [0; MARK];
    bytes[..3].copy_from_slice(&[1, 0, 12]);
    bytes[7..11].copy_from_slice(&stamp.to_be_bytes());
    bytes
}

/// The stamp of a mark.
fn stamp_of(bytes: &[u8]) -> u32 {
    let mark: &[u8; MARK] = bytes.try_into().expect("a mark");
    assert!(mark[..3] == [1, 0, 12] && mark[11] <= 3);
    u32::from_be_bytes([mark[7], mark[8], mark[9], mark[10]])
}

/// Every mark of the log by reads, with its ID: what one would write without a reader of its own. R is at the log's end afterwards.
#[inline(always)]
pub fn by_reads<S: Side>(side: &mut S, mut each: impl FnMut(usize, u32)) {
    side.seek(side.oldest());
    side.deferred_call();
    while side.read_id() < side.end() {
        side.read();
        side.deferred_call();
        let id = side.read_id() - MARK - S::WORD;
        side.entry(|bytes| each(id, stamp_of(bytes)));
    }
}

/// The nearest mark by reads.
#[inline(always)]
pub fn nearest_by_reads<S: Side>(side: &mut S, stamp: u32) -> usize {
    let mut best: Option<(u32, usize)> = None;
    by_reads(side, |id, other| {
        let difference = other.abs_diff(stamp);
        if best.is_none_or(|(least, _)| difference < least) {
            best = Some((difference, id));
        }
    });
    best.expect("a mark").1
}

/// The write that was asked for is done.
pub fn write<S: Side>(side: &mut S) {
    side.flash();
    side.write_complete();
}

/// Appends an entry, with flush and completion where it doesn't fit.
pub fn store<S: Side>(side: &mut S, length: usize) {
    side.append(length);
    if side.writing() {
        write(side);
    }
}

/// Appends marks with the stamps 0, 1, 2 .., until the log is one and a half times around its volume: how many they are.
pub fn fill_with_marks<S: Side>(side: &mut S, page_count: usize) -> u32 {
    let mut stamp = 0;
    while side.end() < side.page_size() * page_count * 3 / 2 {
        side.append_mark(stamp);
        if side.writing() {
            write(side);
        }
        stamp += 1;
    }
    stamp
}

/// Appends entries until one has gone to the next page.
pub fn next_page<S: Side>(side: &mut S, length: usize) {
    loop {
        side.append(length);
        if side.writing() {
            return write(side);
        }
    }
}

/// Appends one entry after which the page has `left` bytes left.
pub fn fill_page<S: Side>(side: &mut S, left: usize) {
    let at = side.end() % side.page_size();
    side.append(side.page_size() - left - at - S::WORD);
    assert!(!side.writing());
}

/// Writes the page buffer to flash.
pub fn flush<S: Side>(side: &mut S) {
    side.sync();
    write(side);
}

/// Every slot holds a page, and each page has a lower ID than the one in the slot before it.
pub fn fall<S: Side>(side: &mut S, page_count: usize) {
    for slot in 0..page_count {
        let page = (page_count - slot) * page_count + slot;
        let id = page * side.page_size();
        side.put(slot * side.page_size(), &id.to_le_bytes()[..S::WORD]);
    }
}
