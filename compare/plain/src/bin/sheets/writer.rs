//! The writer of a sheet, which performs what it writes on a line of its own.

use crate::damage::damage;
use crate::dice::Dice;
use crate::mood::Mood;
use plain::end::State;
use plain::line::{Call, Line, BLOCKS};
use plain::slip::Side;
use plain::{sheet, wire};

pub const SIDES: [Side; 2] = [Side::West, Side::East];

pub struct Writer {
    pub dice: Dice,
    pub mood: Mood,
    line: Line,
    pub sheet: Vec<u8>,
}

impl Writer {
    pub fn new(dice: Dice, mood: Mood) -> Writer {
        Writer {
            dice,
            mood,
            line: Line::new(),
            sheet: Vec::new(),
        }
    }

    pub fn write(&mut self, text: &[u8]) {
        self.sheet.extend_from_slice(text);
        self.sheet.push(b'\n');
        if let Ok(call) = sheet::read(text) {
            let _ = self.line.perform(call);
        }
    }

    pub fn call(&mut self, call: Call) {
        let text = spell(call);
        if self.dice.percent(self.mood.damage) {
            let text = damage(&mut self.dice, text);
            self.write(&text);
        } else {
            self.write(&text);
        }
    }

    pub fn place(&mut self) -> (usize, Side) {
        (self.dice.below(self.mood.blocks), self.dice.pick(&SIDES))
    }

    pub fn class(&mut self) -> u8 {
        self.dice.pick(self.mood.classes)
    }

    pub fn fresh_train(&mut self) -> u32 {
        self.dice.between(1, self.mood.trains) as u32
    }

    /// A train that some end of the block knows, or else a fresh one.
    pub fn some_train(&mut self, block: usize) -> u32 {
        let [west, east] = &self.line.ends[block];
        let known: Vec<u32> = [west, east]
            .iter()
            .flat_map(|end| {
                let own = end.own.iter().map(|row| row.train);
                own.chain(end.promised.iter().map(|row| row.train))
            })
            .collect();
        if known.is_empty() || self.dice.percent(10) {
            self.fresh_train()
        } else {
            self.dice.pick(&known)
        }
    }

    /// Any call whatever, without a look at what could lead on.
    pub fn wild(&mut self) -> Call {
        let (at, side) = self.place();
        let mut block = at as u32;
        let mut train = self.some_train(at);
        let mut class = self.class();
        if self.dice.percent(self.mood.wide) {
            match self.dice.below(4) {
                0 => {
                    block = self.dice.pick(&[
                        2, 3, 9, 14, 15, 255, 256, 257, 65_535, 65_536, 65_537, 99_999,
                    ])
                }
                1 => {
                    train = self.dice.pick(&[
                        0, 10_000, 10_001, 32_768, 65_535, 65_536, 65_548, 75_535, 99_999,
                    ])
                }
                2 => class = b'A' + self.dice.below(26) as u8,
                _ => {
                    block = self.dice.pick(&[1, 2, 99_999]);
                    train = self.dice.pick(&[0, 1, 10_000]);
                    class = b'A' + self.dice.below(26) as u8;
                }
            }
        }
        match self.dice.below(9) {
            0 => Call::Ask {
                block,
                side,
                train,
                class,
            },
            1 => Call::Withdraw { block, side },
            2 => Call::Show { block, side },
            3 => Call::Enter { block, side, train },
            4 => Call::Form { block, side },
            5 => Call::Arrive { block, side, train },
            6 => Call::Repeat { block, side, train },
            7 => Call::Deliver,
            _ => Call::Fade,
        }
    }

    /// A call that leads on, most of the time.
    pub fn next(&mut self) -> Call {
        if self.dice.percent(self.mood.wild) {
            return self.wild();
        }
        if self.line.wire.waiting() > 0 && self.dice.percent(self.mood.deliver) {
            return Call::Deliver;
        }
        let (at, side) = self.place();
        self.next_at(at, side)
    }

    pub fn next_at(&mut self, at: usize, side: Side) -> Call {
        let mood = self.mood;
        let block = at as u32;
        let end = &self.line.ends[at][side as usize];
        if let Some(oldest) = end.promised.first() {
            let train = oldest.train;
            if self
                .dice
                .percent(if oldest.reported { mood.arrive } else { 3 })
            {
                return Call::Arrive { block, side, train };
            }
            return Call::Deliver;
        }
        let shown = end.signal.is_some();
        let newest = end.own.last().copied();
        match newest.map(|row| row.state) {
            Some(State::Held(_)) => {
                let train = newest.map_or(1, |row| row.train);
                if self.dice.percent(mood.withdraw) {
                    Call::Withdraw { block, side }
                } else if self.dice.percent(mood.form) {
                    Call::Form { block, side }
                } else if self.dice.percent(if shown { 85 } else { 8 }) {
                    Call::Enter { block, side, train }
                } else {
                    Call::Show { block, side }
                }
            }
            Some(State::Asking) if self.dice.percent(mood.withdraw) => {
                Call::Withdraw { block, side }
            }
            Some(_) if self.dice.percent(mood.repeat) => {
                let rows = &self.line.ends[at][side as usize].own;
                let train = rows[self.dice.below(rows.len())].train;
                Call::Repeat { block, side, train }
            }
            Some(State::Asking | State::Withdrawing) => Call::Deliver,
            Some(State::In) | None => {
                if mood.asker.is_some_and(|asker| asker != side) && !self.dice.percent(4) {
                    return Call::Deliver;
                }
                let class = self.class();
                let train = if self.dice.percent(5) {
                    self.some_train(at)
                } else {
                    self.fresh_train()
                };
                Call::Ask {
                    block,
                    side,
                    train,
                    class,
                }
            }
        }
    }

    pub fn until(&mut self, bytes: usize) {
        while self.sheet.len() < bytes {
            if self.mood.flood {
                self.flood(bytes);
            } else {
                let call = self.next();
                self.call(call);
            }
        }
    }

    pub fn lines(&mut self, count: usize) {
        for _ in 0..count {
            let call = self.next();
            self.call(call);
        }
    }

    /// Works a while, fills the wire by repeating, goes on with a full wire, and delivers.
    pub fn flood(&mut self, bytes: usize) {
        let count = self.dice.between(5, 60);
        self.lines(count);
        self.fill(bytes);
        for _ in 0..self.dice.between(1, 16) {
            let (at, side) = self.place();
            let mut call = if self.dice.percent(15) {
                self.wild()
            } else {
                self.next_at(at, side)
            };
            if call == Call::Deliver && self.dice.percent(80) {
                call = self.wild();
            }
            self.call(call);
            if self.dice.percent(50) {
                self.fill(bytes);
            }
        }
        let left = self.dice.pick(&[0, 0, 0, 1, 5, 30, 60]);
        let mut most = self.dice.between(60, 200);
        while self.line.wire.waiting() > left && most > 0 && self.sheet.len() < bytes {
            self.call(Call::Deliver);
            most -= 1;
        }
    }

    /// Repeats one row's slip, or a few rows' slips, until the wire is full.
    pub fn fill(&mut self, bytes: usize) {
        let mut row = None;
        let mut tries = 200;
        while !self.line.wire.is_full() && self.sheet.len() < bytes && tries > 0 {
            tries -= 1;
            if row.is_none() || self.dice.percent(3) {
                let (at, side) = self.place();
                let rows = &self.line.ends[at][side as usize].own;
                let free: Vec<u32> = rows
                    .iter()
                    .filter(|row| !matches!(row.state, State::Held(_)))
                    .map(|row| row.train)
                    .collect();
                if free.is_empty() {
                    let call = self.next();
                    self.call(call);
                    continue;
                }
                row = Some((at, side, self.dice.pick(&free)));
            }
            if let Some((at, side, train)) = row {
                self.call(Call::Repeat {
                    block: at as u32,
                    side,
                    train,
                });
            }
        }
    }

    /// Four own rows: three trains enter, the wire is full of the other block's slips when the first arrives, so that
    /// its OUT is lost, and a fourth follows.
    pub fn four(&mut self) {
        let (at, side) = self.place();
        let (block, other) = (at as u32, side.other());
        let elsewhere = (at + 1) % BLOCKS;
        self.call(Call::Ask {
            block: elsewhere as u32,
            side,
            train: 5_000,
            class: b'F',
        });
        for train in 1..=4 {
            if train == 4 {
                for _ in 0..wire::ROOM {
                    self.call(Call::Repeat {
                        block: elsewhere as u32,
                        side,
                        train: 5_000,
                    });
                }
                self.call(Call::Arrive {
                    block,
                    side: other,
                    train: 1,
                });
                for _ in 0..2 * wire::ROOM {
                    self.call(Call::Deliver);
                }
            }
            let class = self.dice.pick(b"FWL");
            self.call(Call::Ask {
                block,
                side,
                train,
                class,
            });
            for _ in 0..4 {
                self.call(Call::Deliver);
            }
            self.call(Call::Show { block, side });
            self.call(Call::Enter { block, side, train });
            if self.dice.percent(90) {
                self.call(Call::Deliver);
            }
        }
        let train = self.dice.between(1, 9) as u32;
        let class = self.class();
        self.call(Call::Ask {
            block,
            side,
            train,
            class,
        });
        self.call(Call::Repeat {
            block,
            side,
            train: 1,
        });
    }

    pub fn done(mut self) -> Vec<u8> {
        if self.dice.percent(25) {
            self.sheet.pop();
        }
        self.sheet
    }
}

fn spell(call: Call) -> Vec<u8> {
    let end = |side: Side| if side == Side::West { 'w' } else { 'e' };
    match call {
        Call::Ask {
            block,
            side,
            train,
            class,
        } => format!("ask {block} {} {train} {}", end(side), class as char),
        Call::Withdraw { block, side } => format!("withdraw {block} {}", end(side)),
        Call::Show { block, side } => format!("show {block} {}", end(side)),
        Call::Enter { block, side, train } => format!("enter {block} {} {train}", end(side)),
        Call::Form { block, side } => format!("form {block} {}", end(side)),
        Call::Arrive { block, side, train } => format!("arrive {block} {} {train}", end(side)),
        Call::Repeat { block, side, train } => format!("repeat {block} {} {train}", end(side)),
        Call::Deliver => "deliver".into(),
        Call::Fade => "fade".into(),
    }
    .into_bytes()
}
