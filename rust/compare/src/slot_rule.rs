//! Document 02, A.4: the paragraph that slots are compared with, as a row of free
//! slots and each plugin's slot. It is fed each call's letter and plugin and what the
//! plain queue said; nothing of the gate reaches it.

use std::collections::VecDeque;

use crate::queue::Reply;

#[derive(Clone, Debug)]
pub struct SlotRule {
    free: VecDeque<u8>,
    /// 0 for a plugin that has none.
    slots: Vec<u8>,
}

impl SlotRule {
    /// "Slots are numbered 1 to k ... at opening they lie in rising order."
    pub fn open(n: usize, k: usize) -> SlotRule {
        SlotRule {
            free: (1..=k as u8).collect(),
            slots: vec![0; n],
        }
    }

    /// A call of plugin p, and what the queue said to it. "The slot returned longest
    /// ago goes out first ... A look that answers yes gives the slot": it is
    /// returned here, else 0. An accepted leave returns p's slot, if p has one: "A
    /// handed-back turn returns no slot."
    pub fn feed(&mut self, letter: u8, p: usize, said: Reply) -> u8 {
        match (letter, said) {
            (b'L', Reply::YesNo(true)) => {
                let slot = self.free.pop_front().expect("at most k are inside");
                self.slots[p - 1] = slot;
                slot
            }
            (b'B', Reply::Done) => {
                let slot = std::mem::take(&mut self.slots[p - 1]);
                self.free.extend((slot != 0).then_some(slot));
                0
            }
            _ => 0,
        }
    }

    /// Each plugin's slot, "0 unless inside".
    pub fn slots(&self) -> &[u8] {
        &self.slots
    }

    /// "the free slots in order".
    pub fn free(&self) -> impl Iterator<Item = u8> + '_ {
        self.free.iter().copied()
    }
}
