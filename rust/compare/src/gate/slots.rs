//! Document 02, A.4, "Numbered slots": the free slots in the words.

use super::words::{Slot, Words, FREE_PLACES};

/// "at opening they lie in rising order", "0 after the last".
pub fn opening(k: u8) -> [u8; FREE_PLACES] {
    let mut free = [0; FREE_PLACES];
    for (place, slot) in free.iter_mut().zip(1..=k) {
        *place = slot;
    }
    free
}

/// "The slot returned longest ago goes out first": the first of the row, and the
/// words left, in which the others have moved up. A row without a slot, which no
/// sound gate has at a yes, gives none.
pub fn give(words: &Words) -> (Slot, Words) {
    let mut left = *words;
    left.free.rotate_left(1);
    left.free[FREE_PLACES - 1] = 0;
    (Slot(words.free[0]), left)
}

/// A slot returned now goes out last: it comes after the others. A row that has no
/// place left, which no sound gate has when a plugin is inside, stays as it is.
pub fn take_back(words: &Words, slot: Slot) -> Words {
    let mut left = *words;
    if let Some(place) = left.free.iter_mut().find(|place| **place == 0) {
        *place = slot.0;
    }
    left
}
