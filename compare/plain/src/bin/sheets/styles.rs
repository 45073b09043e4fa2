//! The styles of sheets.

use crate::dice::Dice;
use crate::mood::{Mood, CALM};
use crate::writer::{Writer, SIDES};
use plain::line::{Call, BLOCKS};
use plain::SHEET_ROOM;

/// Makes a sheet; its seed chooses where a style has a fixed number of cases.
pub type Make = fn(Dice, u64) -> Vec<u8>;

pub const STYLES: [(&str, Make); 13] = [
    ("journey", journey),
    ("crowd", crowd),
    ("crossing", crossing),
    ("flood", flood),
    ("four", four),
    ("wild", wild),
    ("wide", wide),
    ("damaged", damaged),
    ("noise", noise),
    ("edge", edge),
    ("sweep", sweep),
    ("full", full),
    ("fulldamaged", fulldamaged),
];

fn written(mut dice: Dice, mood: Mood, low: usize, high: usize) -> Vec<u8> {
    let bytes = dice.between(low, high);
    let mut writer = Writer::new(dice, mood);
    writer.until(bytes);
    writer.done()
}

/// Trains go from end to end; short.
fn journey(mut dice: Dice, _: u64) -> Vec<u8> {
    let mood = Mood {
        wild: dice.pick(&[0, 2, 5, 10]),
        deliver: dice.pick(&[40, 55, 70]),
        form: dice.pick(&[5, 15, 40]),
        repeat: dice.pick(&[3, 8, 25]),
        ..CALM
    };
    written(dice, mood, 10, 4_000)
}

/// Trains follow each other.
fn crowd(mut dice: Dice, _: u64) -> Vec<u8> {
    let mood = Mood {
        arrive: dice.pick(&[2, 8, 20]),
        withdraw: dice.pick(&[1, 5]),
        trains: dice.pick(&[6, 40, 9_999]),
        classes: dice.pick::<&[u8]>(&[b"FWL", b"FWLFWLFWLP", b"F"]),
        asker: Some(dice.pick(&SIDES)),
        ..CALM
    };
    written(dice, mood, 200, 8_000)
}

/// Both ends of one block ask at once, withdraw and repeat.
fn crossing(mut dice: Dice, _: u64) -> Vec<u8> {
    let mood = Mood {
        blocks: dice.pick(&[1, BLOCKS]),
        deliver: dice.pick(&[10, 25, 45]),
        withdraw: dice.pick(&[15, 40]),
        repeat: dice.pick(&[15, 40]),
        trains: 30,
        ..CALM
    };
    written(dice, mood, 100, 6_000)
}

/// The wire is full now and then.
fn flood(mut dice: Dice, _: u64) -> Vec<u8> {
    let mood = Mood {
        flood: true,
        arrive: dice.pick(&[20, 60]),
        classes: dice.pick::<&[u8]>(&[b"FWL", b"PFWL"]),
        trains: dice.pick(&[12, 9_999]),
        ..CALM
    };
    written(dice, mood, 4_000, 25_000)
}

/// As flood, after an end had four own rows.
fn four(mut dice: Dice, _: u64) -> Vec<u8> {
    let bytes = dice.between(4_000, 10_000);
    let mood = Mood {
        flood: dice.percent(50),
        trains: 9,
        classes: b"FWLFWLP",
        ..CALM
    };
    let mut writer = Writer::new(dice, mood);
    writer.four();
    writer.until(bytes);
    writer.done()
}

/// Blind calls on few trains.
fn wild(mut dice: Dice, _: u64) -> Vec<u8> {
    let mood = Mood {
        wild: dice.pick(&[60, 100]),
        trains: 5,
        ..CALM
    };
    written(dice, mood, 10, 4_000)
}

/// Readable arguments out of range.
fn wide(dice: Dice, _: u64) -> Vec<u8> {
    let mood = Mood {
        wild: 40,
        wide: 70,
        ..CALM
    };
    written(dice, mood, 10, 4_000)
}

/// Journeys with damaged lines between.
fn damaged(mut dice: Dice, _: u64) -> Vec<u8> {
    let mood = Mood {
        damage: dice.pick(&[10, 40, 90]),
        wide: 20,
        ..CALM
    };
    written(dice, mood, 10, 5_000)
}

/// Bytes, words and pieces of words in any order.
fn noise(mut dice: Dice, _: u64) -> Vec<u8> {
    let pieces: [&[u8]; 24] = [
        b"ask",
        b"withdraw",
        b"show",
        b"enter",
        b"form",
        b"arrive",
        b"repeat",
        b"deliver",
        b"fade",
        b" ",
        b" ",
        b" ",
        b"\n",
        b"\n",
        b"0",
        b"1",
        b"w",
        b"e",
        b"12",
        b"F",
        b"P",
        b"\r",
        b"\t",
        b"\0",
    ];
    let bytes = dice.between(0, 3_000);
    let raw = dice.pick(&[0, 5, 100]);
    let mut sheet = Vec::new();
    while sheet.len() < bytes {
        if dice.percent(raw) {
            sheet.push(dice.below(256) as u8);
        } else {
            sheet.extend_from_slice(dice.pick(&pieces));
        }
    }
    sheet
}

/// Empty, tiny and huge sheets, and cuts at each place around the room's end.
fn edge(mut dice: Dice, seed: u64) -> Vec<u8> {
    let cut = |dice: Dice, mood: Mood, kept: usize| {
        let mut writer = Writer::new(dice, mood);
        writer.until(SHEET_ROOM - 2_000);
        writer.mood.damage = 0;
        // The line that is cut begins so that this many of its bytes, its line feed among them, are kept.
        let start = SHEET_ROOM - kept;
        while writer.sheet.len() + 80 < start {
            writer.call(Call::Deliver);
        }
        while !(start - writer.sheet.len()).is_multiple_of(8) {
            writer.call(Call::Fade);
        }
        while writer.sheet.len() < start {
            writer.call(Call::Deliver);
        }
        let last =
            writer
                .dice
                .pick::<&[u8]>(&[b"ask 0 w 1234 F", b"enter 1 e 1234", b"deliver more x"]);
        writer.write(last);
        writer.lines(3);
        writer.sheet
    };
    match seed % 40 {
        0 => Vec::new(),
        1 => b"\n".to_vec(),
        2 => b"fade".to_vec(),
        3 => b"fade\n".to_vec(),
        4 => b" ".to_vec(),
        5 => b"\n\n".to_vec(),
        6 => b"fade\n\nfade".to_vec(),
        7 => vec![b'\n'; SHEET_ROOM],
        8 => vec![b'\n'; SHEET_ROOM + 1],
        9 => [vec![b'\n'; SHEET_ROOM - 1], b"x".to_vec()].concat(),
        10 => vec![b'a'; SHEET_ROOM],
        11 => vec![b'a'; SHEET_ROOM + 1],
        12 => vec![b' '; SHEET_ROOM + 4_464],
        13 => vec![0; SHEET_ROOM],
        14 => vec![255; SHEET_ROOM],
        15 => b"deliver\n".repeat(SHEET_ROOM / 8),
        16 => b"deliver\n".repeat(SHEET_ROOM / 8 + 1),
        17 => b"fade\n".repeat(SHEET_ROOM / 5 + 1),
        18 => (0..=255).flat_map(|byte| [byte, b'\n']).collect(),
        19 => (0..=255)
            .flat_map(|byte| [b'f', b'a', b'd', b'e', byte, b'\n'])
            .collect(),
        20 => [b"fade ".to_vec(), vec![b'0'; SHEET_ROOM]].concat(),
        21 => [b"ask 0 w ".to_vec(), vec![b'1'; SHEET_ROOM]].concat(),
        22 => b" \n".repeat(SHEET_ROOM / 2),
        23 => b"ask 0 w 1 F\nwithdraw 0 w\ndeliver\ndeliver\ndeliver\ndeliver\n".repeat(1_500),
        other => {
            let damage = dice.pick(&[0, 20]);
            cut(dice, Mood { damage, ..CALM }, other as usize - 24)
        }
    }
}

/// One good line with each byte replaced by each other, each cut, and each byte left out or doubled.
fn sweep(_: Dice, seed: u64) -> Vec<u8> {
    let lines: [&[u8]; 20] = [
        b"ask 0 w 12 F",
        b"ask 1 e 9999 P",
        b"ask 99999 w 0 Z",
        b"withdraw 0 w",
        b"withdraw 1 e",
        b"show 0 w",
        b"show 1 e",
        b"enter 0 w 12",
        b"enter 1 e 10000",
        b"form 0 w",
        b"form 1 e",
        b"arrive 0 e 12",
        b"arrive 12345 w 54321",
        b"repeat 0 w 12",
        b"repeat 1 e 7",
        b"deliver",
        b"deliver ",
        b"fade",
        b"fade  x",
        b"",
    ];
    let line = lines[seed as usize % lines.len()];
    let mut sheet = Vec::new();
    let mut write = |parts: [&[u8]; 3]| {
        for part in parts {
            sheet.extend_from_slice(part);
        }
        sheet.push(b'\n');
    };
    for at in 0..=line.len() {
        write([&line[..at], b"", b""]);
        write([&line[..at], b" ", b""]);
        write([&line[..at], b" ", &line[at..]]);
        write([&line[..at], b"0", &line[at..]]);
        write([&line[..at], b"\0", &line[at..]]);
        write([&line[..at], b"\n", &line[at..]]);
        if at < line.len() {
            write([&line[..at], b"", &line[at + 1..]]);
            write([&line[..=at], b"", &line[at..]]);
        }
    }
    for at in 0..line.len() {
        // Two sheets share the bytes of a long line.
        let half = (seed as usize / lines.len()) % 2 * 128;
        let range = if line.len() < 14 {
            0..256
        } else {
            half..half + 128
        };
        for byte in range {
            write([&line[..at], &[byte as u8], &line[at + 1..]]);
        }
    }
    sheet
}

/// More than the room, cut mid-line most of the time.
fn full(mut dice: Dice, seed: u64) -> Vec<u8> {
    let mood = match seed % 4 {
        0 => CALM,
        1 => Mood {
            arrive: 10,
            withdraw: 3,
            classes: b"FWL",
            asker: Some(dice.pick(&SIDES)),
            ..CALM
        },
        2 => Mood {
            flood: true,
            trains: 50,
            ..CALM
        },
        _ => Mood {
            deliver: 30,
            withdraw: 25,
            repeat: 25,
            ..CALM
        },
    };
    written(dice, mood, SHEET_ROOM + 30, SHEET_ROOM + 400)
}

/// The same with damage.
fn fulldamaged(mut dice: Dice, seed: u64) -> Vec<u8> {
    let damage = dice.pick(&[5, 30, 80]);
    let mood = Mood {
        damage,
        wide: 30,
        flood: seed % 2 == 1,
        ..CALM
    };
    written(dice, mood, SHEET_ROOM + 500, SHEET_ROOM + 2_000)
}
