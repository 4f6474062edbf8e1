//! The survey.

use crate::log::Geometry;
use crate::numbers::Answer;
use crate::word::Word;

/// Writes the ID of each page that the volume holds, the page's number times the page size, once to `ids`, which are words of
/// the board, and gives their count. The IDs rise from element to element; elements after the count stay. `Err` is `Shape`, or
/// `Size` where there are more IDs than elements; then all of `ids` stays.
pub fn survey<W: Word>(sizes: Geometry, volume: &[u8], ids: &mut [W]) -> Result<usize, Answer> {
    let mut count = 0;
    // SAFETY: each pointer and length is of a slice that lives through the call; `ids` and `count` are borrowed mutably.
    let number = unsafe {
        W::survey(
            sizes.page_size,
            sizes.page_count,
            sizes.first_page,
            volume.as_ptr(),
            volume.len(),
            ids.as_mut_ptr().cast(),
            ids.len(),
            &mut count,
        )
    };
    match Answer::of(number) {
        Answer::Ok => Ok(count),
        refusal => Err(refusal),
    }
}
