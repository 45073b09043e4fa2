//! Why a call was turned away.

#[derive(Clone, Copy, Debug, PartialEq, Eq)]
pub enum Cause {
    Argument = 1,
    Promised = 2,
    NewestNotIn = 3,
    FourRows = 4,
    TrainHasRow = 5,
    NoSerial = 6,
    NoRow = 7,
    Another = 8,
    AtStop = 9,
    NotReported = 10,
    WireFull = 11,
    NothingWaits = 12,
    Unreadable = 13,
}

#[derive(Clone, Copy, Debug, PartialEq, Eq)]
pub enum Layer {
    Line = 1,
    Station = 2,
    Wire = 3,
    Sheet = 4,
}

#[derive(Clone, Copy, Debug, PartialEq, Eq)]
pub struct Fault {
    pub cause: Cause,
    pub layer: Layer,
    pub place: usize,
}

impl Fault {
    /// The argument at this position, from 1, is bad.
    pub fn argument(position: usize) -> Fault {
        Fault {
            cause: Cause::Argument,
            layer: Layer::Line,
            place: position,
        }
    }

    /// The line of the sheet cannot be read from this column on.
    pub fn unreadable(column: usize) -> Fault {
        Fault {
            cause: Cause::Unreadable,
            layer: Layer::Sheet,
            place: column,
        }
    }
}
