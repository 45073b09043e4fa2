//! What the two ends of a block say to each other.

#[derive(Clone, Copy, Debug, PartialEq, Eq)]
pub enum Side {
    West = 0,
    East = 1,
}

impl Side {
    pub fn other(self) -> Side {
        match self {
            Side::West => Side::East,
            Side::East => Side::West,
        }
    }
}

#[derive(Clone, Copy, Debug, PartialEq, Eq)]
pub enum Class {
    Passenger,
    Freight,
    Work,
    LightEngine,
}

impl Class {
    pub fn from_letter(letter: u8) -> Option<Class> {
        match letter {
            b'P' => Some(Class::Passenger),
            b'F' => Some(Class::Freight),
            b'W' => Some(Class::Work),
            b'L' => Some(Class::LightEngine),
            _ => None,
        }
    }
}

/// The kind of a permission; also what a signal off Stop shows.
#[derive(Clone, Copy, Debug, PartialEq, Eq)]
pub enum Kind {
    Clear = 1,
    Permissive = 2,
}

#[derive(Clone, Copy, Debug, PartialEq, Eq)]
pub enum Message {
    Wanted { train: u32, class: Class },
    Given(Kind),
    NotClear,
    Entered,
    Out,
    Withdraw,
    Released,
}

impl Message {
    pub fn number(self) -> u32 {
        match self {
            Message::Wanted { .. } => 1,
            Message::Given(Kind::Clear) => 2,
            Message::Given(Kind::Permissive) => 3,
            Message::NotClear => 4,
            Message::Entered => 5,
            Message::Out => 6,
            Message::Withdraw => 7,
            Message::Released => 8,
        }
    }
}

/// A slip on the wire: which asking of which block it belongs to, and the end it goes to.
#[derive(Clone, Copy, Debug, PartialEq, Eq)]
pub struct Slip {
    pub block: usize,
    pub to: Side,
    pub serial: u32,
    pub message: Message,
}
