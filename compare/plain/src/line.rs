//! The line: three stations, two blocks, one telegraph.

use crate::end::{End, Heard};
use crate::fault::{Cause, Fault, Layer};
use crate::slip::{Class, Message, Side, Slip};
use crate::wire::Telegraph;

pub const STATIONS: usize = 3;
pub const BLOCKS: usize = STATIONS - 1;
pub const LAST_TRAIN: u32 = 9_999;

/// A call as it was read: its arguments can still be out of range.
#[derive(Clone, Copy, Debug, PartialEq, Eq)]
pub enum Call {
    Ask {
        block: u32,
        side: Side,
        train: u32,
        class: u8,
    },
    Withdraw {
        block: u32,
        side: Side,
    },
    Show {
        block: u32,
        side: Side,
    },
    Enter {
        block: u32,
        side: Side,
        train: u32,
    },
    Form {
        block: u32,
        side: Side,
    },
    Arrive {
        block: u32,
        side: Side,
        train: u32,
    },
    Repeat {
        block: u32,
        side: Side,
        train: u32,
    },
    Deliver,
    Fade,
}

/// One end of one block of this line.
#[derive(Clone, Copy)]
struct Place {
    block: usize,
    side: Side,
}

impl Place {
    fn fault(self, cause: Cause) -> Fault {
        Fault {
            cause,
            layer: Layer::Station,
            place: 2 * self.block + self.side as usize,
        }
    }

    /// A slip to the other end.
    fn slip(self, serial: u32, message: Message) -> Slip {
        Slip {
            block: self.block,
            to: self.side.other(),
            serial,
            message,
        }
    }
}

#[derive(Default)]
pub struct Line {
    pub ends: [[End; 2]; BLOCKS],
    pub wire: Telegraph,
}

impl Line {
    pub fn new() -> Line {
        Line::default()
    }

    pub fn perform(&mut self, call: Call) -> Result<u32, Fault> {
        match call {
            Call::Ask {
                block,
                side,
                train,
                class,
            } => {
                let at = place(block, side)?;
                let train = known_train(train)?;
                let class = Class::from_letter(class).ok_or(Fault::argument(4))?;
                self.ask(at, train, class)
            }
            Call::Withdraw { block, side } => {
                self.say(place(block, side)?, Message::Withdraw, End::withdraw)
            }
            Call::Show { block, side } => {
                let at = place(block, side)?;
                match self.end(at).show() {
                    Ok(kind) => Ok(kind as u32),
                    Err(cause) => Err(at.fault(cause)),
                }
            }
            Call::Enter { block, side, train } => {
                let at = place(block, side)?;
                let train = known_train(train)?;
                self.say(at, Message::Entered, |end| end.enter(train))
            }
            Call::Form { block, side } => self.say(place(block, side)?, Message::Entered, |end| {
                let (row, _) = end.held()?;
                end.present(row.serial, row.train)
            }),
            Call::Arrive { block, side, train } => {
                let at = place(block, side)?;
                let train = known_train(train)?;
                self.say(at, Message::Out, |end| end.arrive(train))
            }
            Call::Repeat { block, side, train } => {
                let at = place(block, side)?;
                let train = known_train(train)?;
                self.repeat(at, train)
            }
            Call::Deliver => self.deliver(),
            Call::Fade => Ok(0),
        }
    }

    fn end(&mut self, at: Place) -> &mut End {
        &mut self.ends[at.block][at.side as usize]
    }

    fn full(&self) -> Fault {
        Fault {
            cause: Cause::WireFull,
            layer: Layer::Wire,
            place: self.wire.waiting(),
        }
    }

    fn ask(&mut self, at: Place, train: u32, class: Class) -> Result<u32, Fault> {
        let serial = self
            .end(at)
            .may_ask(train)
            .map_err(|cause| at.fault(cause))?;
        if !self
            .wire
            .put(at.slip(serial, Message::Wanted { train, class }))
        {
            return Err(self.full());
        }
        self.end(at).ask(serial, train, class);
        Ok(serial)
    }

    fn repeat(&mut self, at: Place, train: u32) -> Result<u32, Fault> {
        let (serial, message) = self
            .end(at)
            .repeat(train)
            .map_err(|cause| at.fault(cause))?;
        if !self.wire.put(at.slip(serial, message)) {
            return Err(self.full());
        }
        Ok(message.number())
    }

    /// Does something at an end and says so to the other; answers whether the wire took the slip.
    fn say(
        &mut self,
        at: Place,
        message: Message,
        act: impl FnOnce(&mut End) -> Result<u32, Cause>,
    ) -> Result<u32, Fault> {
        let serial = act(self.end(at)).map_err(|cause| at.fault(cause))?;
        Ok(u32::from(self.wire.put(at.slip(serial, message))))
    }

    fn deliver(&mut self) -> Result<u32, Fault> {
        let slip = self.wire.take().ok_or(Fault {
            cause: Cause::NothingWaits,
            layer: Layer::Wire,
            place: 0,
        })?;
        let at = Place {
            block: slip.block,
            side: slip.to,
        };
        let outcome = match self.end(at).hear(slip.serial, slip.message) {
            Heard::Nothing => 0,
            Heard::Row => 1,
            Heard::Reply(message) => {
                if self.wire.put(at.slip(slip.serial, message)) {
                    2
                } else {
                    3
                }
            }
        };
        Ok(10 * slip.message.number() + outcome)
    }
}

fn place(block: u32, side: Side) -> Result<Place, Fault> {
    let block = block as usize;
    if block < BLOCKS {
        Ok(Place { block, side })
    } else {
        Err(Fault::argument(1))
    }
}

fn known_train(train: u32) -> Result<u32, Fault> {
    if (1..=LAST_TRAIN).contains(&train) {
        Ok(train)
    } else {
        Err(Fault::argument(3))
    }
}
