//! How sheets are weighted.

use plain::line::BLOCKS;
use plain::slip::Side;

/// How a sheet is weighted, in percent where nothing else is said.
#[derive(Clone, Copy)]
pub struct Mood {
    /// Calls with arguments drawn blindly.
    pub wild: usize,
    /// Arguments out of range.
    pub wide: usize,
    /// Damaged lines.
    pub damage: usize,
    /// Deliver, where something waits.
    pub deliver: usize,
    pub arrive: usize,
    pub withdraw: usize,
    pub repeat: usize,
    pub form: usize,
    /// The highest train number used.
    pub trains: usize,
    pub classes: &'static [u8],
    /// How many of the blocks are used.
    pub blocks: usize,
    /// The end that does nearly all the asking, or both.
    pub asker: Option<Side>,
    /// Fill the wire now and then.
    pub flood: bool,
}

pub const CALM: Mood = Mood {
    wild: 4,
    wide: 0,
    damage: 0,
    deliver: 55,
    arrive: 60,
    withdraw: 8,
    repeat: 8,
    form: 15,
    trains: 9_999,
    classes: b"PFWL",
    blocks: BLOCKS,
    asker: None,
    flood: false,
};
