//! One end of a block: what it keeps, and what calls and slips do to it.

use crate::book;
use crate::fault::Cause;
use crate::slip::{Class, Kind, Message};

/// At most so many own rows.
pub const OWN_ROWS: usize = 4;

#[derive(Clone, Copy, Debug, PartialEq, Eq)]
pub enum State {
    Asking,
    Held(Kind),
    In,
    Withdrawing,
}

/// A permission this end has asked for.
#[derive(Clone, Copy, Debug)]
pub struct Own {
    pub serial: u32,
    pub train: u32,
    pub class: Class,
    pub state: State,
}

/// A permission this end has given.
#[derive(Clone, Copy, Debug)]
pub struct Promise {
    pub serial: u32,
    pub train: u32,
    pub class: Class,
    pub kind: Kind,
    pub reported: bool,
}

/// What hearing a slip came to.
pub enum Heard {
    Nothing,
    Row,
    Reply(Message),
}

#[derive(Debug, Default)]
pub struct End {
    /// From the oldest to the newest; only the newest can be anything but In.
    pub own: Vec<Own>,
    /// From the oldest to the newest.
    pub promised: Vec<Promise>,
    pub last_used: u32,
    pub last_heard: u32,
    pub signal: Option<Kind>,
}

impl End {
    /// The serial that an asking for this train would have.
    pub fn may_ask(&self, train: u32) -> Result<u32, Cause> {
        if !self.promised.is_empty() {
            return Err(Cause::Promised);
        }
        if self.own.last().is_some_and(|row| row.state != State::In) {
            return Err(Cause::NewestNotIn);
        }
        if self.own.len() >= OWN_ROWS {
            return Err(Cause::FourRows);
        }
        if self.own.iter().any(|row| row.train == train) {
            return Err(Cause::TrainHasRow);
        }
        self.last_used.checked_add(1).ok_or(Cause::NoSerial)
    }

    pub fn ask(&mut self, serial: u32, train: u32, class: Class) {
        self.last_used = serial;
        self.own.push(Own {
            serial,
            train,
            class,
            state: State::Asking,
        });
    }

    /// Takes back what was asked for or is held; answers its serial.
    pub fn withdraw(&mut self) -> Result<u32, Cause> {
        let row = self
            .own
            .last_mut()
            .filter(|row| matches!(row.state, State::Asking | State::Held(_)))
            .ok_or(Cause::NoRow)?;
        row.state = State::Withdrawing;
        self.signal = None;
        Ok(row.serial)
    }

    /// The row that is Held, and its kind.
    pub fn held(&self) -> Result<(Own, Kind), Cause> {
        match self.own.last() {
            Some(row) => match row.state {
                State::Held(kind) => Ok((*row, kind)),
                _ => Err(Cause::NoRow),
            },
            None => Err(Cause::NoRow),
        }
    }

    pub fn show(&mut self) -> Result<Kind, Cause> {
        let (_, kind) = self.held()?;
        self.signal = Some(kind);
        Ok(kind)
    }

    /// The train has passed the signal; answers the serial of its row.
    pub fn enter(&mut self, train: u32) -> Result<u32, Cause> {
        let (row, _) = self.held()?;
        if row.train != train {
            return Err(Cause::Another);
        }
        if self.signal.is_none() {
            return Err(Cause::AtStop);
        }
        self.pass();
        Ok(row.serial)
    }

    /// A form of this serial and train is presented: the signal is not asked.
    pub fn present(&mut self, serial: u32, train: u32) -> Result<u32, Cause> {
        let (row, _) = self.held()?;
        if row.serial != serial || row.train != train {
            return Err(Cause::Another);
        }
        self.pass();
        Ok(row.serial)
    }

    fn pass(&mut self) {
        if let Some(row) = self.own.last_mut() {
            row.state = State::In;
        }
        self.signal = None;
    }

    /// The train has arrived here; answers the serial of its promise.
    pub fn arrive(&mut self, train: u32) -> Result<u32, Cause> {
        let oldest = self.promised.first().ok_or(Cause::NoRow)?;
        if oldest.train != train {
            return Err(Cause::Another);
        }
        if !oldest.reported {
            return Err(Cause::NotReported);
        }
        Ok(self.promised.remove(0).serial)
    }

    /// The serial and the slip that the train's row stands for.
    pub fn repeat(&self, train: u32) -> Result<(u32, Message), Cause> {
        let row = self
            .own
            .iter()
            .find(|row| row.train == train)
            .ok_or(Cause::NoRow)?;
        let message = match row.state {
            State::Asking => Message::Wanted {
                train: row.train,
                class: row.class,
            },
            State::Held(_) => return Err(Cause::NoRow),
            State::In => Message::Entered,
            State::Withdrawing => Message::Withdraw,
        };
        Ok((row.serial, message))
    }

    /// A slip of this serial has come.
    pub fn hear(&mut self, serial: u32, message: Message) -> Heard {
        match message {
            Message::Wanted { train, class } => {
                Heard::Reply(self.hear_wanted(serial, train, class))
            }
            Message::Given(kind) => match self.own_row(serial, State::Asking) {
                Some(index) => {
                    self.own[index].state = State::Held(kind);
                    Heard::Row
                }
                None => Heard::Nothing,
            },
            Message::NotClear => self.drop_own(serial, State::Asking),
            Message::Out => self.drop_own(serial, State::In),
            Message::Released => self.drop_own(serial, State::Withdrawing),
            Message::Entered => match self.promised.iter_mut().find(|row| row.serial == serial) {
                Some(row) => {
                    row.reported = true;
                    Heard::Row
                }
                None => Heard::Reply(Message::Out),
            },
            Message::Withdraw => {
                self.last_heard = self.last_heard.max(serial);
                self.promised.retain(|row| row.serial != serial);
                Heard::Reply(Message::Released)
            }
        }
    }

    fn hear_wanted(&mut self, serial: u32, train: u32, class: Class) -> Message {
        if let Some(row) = self.promised.iter().find(|row| row.serial == serial) {
            return Message::Given(row.kind);
        }
        if serial <= self.last_heard {
            return Message::NotClear;
        }
        self.last_heard = serial;
        if !self.own.is_empty() {
            return Message::NotClear;
        }
        let passengers = self
            .promised
            .iter()
            .filter(|row| row.class == Class::Passenger)
            .count();
        let kind = if self.promised.is_empty() {
            Kind::Clear
        } else if book::may_follow(class, self.promised.len(), passengers) {
            Kind::Permissive
        } else {
            return Message::NotClear;
        };
        self.promised.push(Promise {
            serial,
            train,
            class,
            kind,
            reported: false,
        });
        Message::Given(kind)
    }

    fn own_row(&self, serial: u32, state: State) -> Option<usize> {
        self.own
            .iter()
            .position(|row| row.serial == serial && row.state == state)
    }

    fn drop_own(&mut self, serial: u32, state: State) -> Heard {
        match self.own_row(serial, state) {
            Some(index) => {
                self.own.remove(index);
                Heard::Row
            }
            None => Heard::Nothing,
        }
    }
}
