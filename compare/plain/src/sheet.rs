//! Reading a sheet: its lines, and the call on a line.

use crate::fault::Fault;
use crate::line::Call;
use crate::slip::Side;

/// The lines of a sheet. A line feed ends a line; the last line may do without.
pub fn lines(sheet: &[u8]) -> impl Iterator<Item = &[u8]> {
    let body = sheet.strip_suffix(b"\n").unwrap_or(sheet);
    let count = if sheet.is_empty() { 0 } else { usize::MAX };
    body.split(|&byte| byte == b'\n').take(count)
}

/// The words of a line, parted by one space each.
struct Words<'a> {
    line: &'a [u8],
    /// Where the next word begins, from 0; beyond the line's length where no word is left.
    next: usize,
}

/// A word and the column at which it begins.
struct Word<'a> {
    text: &'a [u8],
    column: usize,
}

impl Word<'_> {
    fn fault(&self) -> Fault {
        Fault::unreadable(self.column)
    }
}

impl<'a> Words<'a> {
    fn word(&mut self) -> Result<Word<'a>, Fault> {
        let start = self.next;
        let rest = self
            .line
            .get(start..)
            .ok_or(Fault::unreadable(self.line.len() + 1))?;
        let length = rest
            .iter()
            .position(|&byte| byte == b' ')
            .unwrap_or(rest.len());
        self.next = start + length + 1;
        Ok(Word {
            text: &rest[..length],
            column: start + 1,
        })
    }

    /// One to five digits with no needless zero in front.
    fn number(&mut self) -> Result<u32, Fault> {
        let word = self.word()?;
        match word.text {
            [b'0'] => Ok(0),
            [b'1'..=b'9', rest @ ..] if rest.len() < 5 && rest.iter().all(u8::is_ascii_digit) => {
                Ok(word
                    .text
                    .iter()
                    .fold(0, |number, digit| 10 * number + u32::from(digit - b'0')))
            }
            _ => Err(word.fault()),
        }
    }

    fn side(&mut self) -> Result<Side, Fault> {
        let word = self.word()?;
        match word.text {
            b"w" => Ok(Side::West),
            b"e" => Ok(Side::East),
            _ => Err(word.fault()),
        }
    }

    fn capital(&mut self) -> Result<u8, Fault> {
        let word = self.word()?;
        match word.text {
            &[letter @ b'A'..=b'Z'] => Ok(letter),
            _ => Err(word.fault()),
        }
    }

    /// No word is left.
    fn done(&self) -> Result<(), Fault> {
        if self.next > self.line.len() {
            Ok(())
        } else {
            Err(Fault::unreadable(self.next + 1))
        }
    }
}

/// Reads the call on a line.
pub fn read(line: &[u8]) -> Result<Call, Fault> {
    let mut words = Words { line, next: 0 };
    let name = words.word()?;
    let call = match name.text {
        b"ask" => Call::Ask {
            block: words.number()?,
            side: words.side()?,
            train: words.number()?,
            class: words.capital()?,
        },
        b"withdraw" => Call::Withdraw {
            block: words.number()?,
            side: words.side()?,
        },
        b"show" => Call::Show {
            block: words.number()?,
            side: words.side()?,
        },
        b"enter" => Call::Enter {
            block: words.number()?,
            side: words.side()?,
            train: words.number()?,
        },
        b"form" => Call::Form {
            block: words.number()?,
            side: words.side()?,
        },
        b"arrive" => Call::Arrive {
            block: words.number()?,
            side: words.side()?,
            train: words.number()?,
        },
        b"repeat" => Call::Repeat {
            block: words.number()?,
            side: words.side()?,
            train: words.number()?,
        },
        b"deliver" => Call::Deliver,
        b"fade" => Call::Fade,
        _ => return Err(name.fault()),
    };
    words.done()?;
    Ok(call)
}
