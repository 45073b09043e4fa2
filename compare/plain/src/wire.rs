//! The telegraph: slips come out in the order in which they were put.

use crate::slip::Slip;
use std::collections::VecDeque;

/// So many slips can wait.
pub const ROOM: usize = 64;

pub struct Telegraph {
    waiting: VecDeque<Slip>,
}

impl Telegraph {
    pub fn new() -> Telegraph {
        Telegraph {
            waiting: VecDeque::with_capacity(ROOM),
        }
    }

    pub fn waiting(&self) -> usize {
        self.waiting.len()
    }

    pub fn is_full(&self) -> bool {
        self.waiting.len() == ROOM
    }

    /// Puts the slip if there is room, and says whether there was.
    pub fn put(&mut self, slip: Slip) -> bool {
        if self.is_full() {
            return false;
        }
        self.waiting.push_back(slip);
        true
    }

    pub fn take(&mut self) -> Option<Slip> {
        self.waiting.pop_front()
    }
}

impl Default for Telegraph {
    fn default() -> Telegraph {
        Telegraph::new()
    }
}
