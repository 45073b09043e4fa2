//! Damage to a line.

use crate::dice::Dice;

/// Damages a line; no line feed comes in.
pub fn damage(dice: &mut Dice, text: Vec<u8>) -> Vec<u8> {
    let mut words: Vec<Vec<u8>> = text
        .split(|&byte| byte == b' ')
        .map(<[u8]>::to_vec)
        .collect();
    let at = dice.below(words.len());
    let last = words.len() - 1;
    match dice.below(24) {
        0 => {
            words.remove(at);
        }
        1 => words.truncate(at + 1),
        2 => words.insert(at, Vec::new()),
        3 => words.push(Vec::new()),
        4 => words.push(b"more".to_vec()),
        5 => {
            let extra =
                dice.pick::<&[u8]>(&[b"0", b"w", b"12", b"F", b"deliver", b"\t", b"\r", b"\0"]);
            words.insert(at, extra.to_vec());
        }
        6 => {
            let place = dice.below(text.len());
            let mut text = text;
            if let Some(space) = text[place..].iter().position(|&byte| byte == b' ') {
                text[place + space] = dice.pick(b"\t\r\0_,\x0b\xa0");
            } else {
                text.push(b'\t');
            }
            return text;
        }
        7 => words[last].push(b'\r'),
        8 => words[at].push(dice.pick(b"\t\r\0 \x7f\x80\xff")),
        9 => words[at].insert(0, dice.pick(b"\t\r\0 +-0\x80\xff")),
        10 => {
            let place = dice.below(text.len());
            let mut text = text;
            text[place] = 128 + dice.below(128) as u8;
            return text;
        }
        11 => {
            let place = dice.below(text.len() + 1);
            let mut text = text;
            text.insert(place, dice.pick(b"\0 \t\x01\xc3\xe9"));
            return text;
        }
        12 => words[at].insert(0, b'0'),
        13 => {
            words[at] = dice
                .pick::<&[u8]>(&[b"123456", b"100000", b"999999", b"000001", b"4294967296"])
                .to_vec()
        }
        14 => {
            words[at] = dice
                .pick::<&[u8]>(&[b"00", b"01", b"00000", b"012", b"0x1", b"1.", b"-1", b"+1"])
                .to_vec()
        }
        15 => words[last] = vec![b'A' + dice.below(26) as u8],
        16 => {
            words[last] = dice
                .pick::<&[u8]>(&[b"f", b"p", b"PF", b"@", b"[", b"1", b"w"])
                .to_vec()
        }
        17 => {
            words[0] = dice
                .pick::<&[u8]>(&[
                    b"Ask",
                    b"ASK",
                    b"as",
                    b"asks",
                    b"present",
                    b"with",
                    b"withdrawn",
                    b"Show",
                    b"shew",
                    b"ente",
                    b"enters",
                    b"forms",
                    b"arive",
                    b"repea",
                    b"deliverr",
                    b"Deliver",
                    b"fad",
                    b"fader",
                    b"",
                    b"#",
                ])
                .to_vec();
        }
        18 => {
            if let Some(word) = words.get_mut(2) {
                *word = dice
                    .pick::<&[u8]>(&[b"x", b"W", b"E", b"we", b"west", b"0", b"1", b""])
                    .to_vec();
            } else {
                words[at].clear();
            }
        }
        19 => {
            let other = dice.below(words.len());
            words.swap(at, other);
        }
        20 => return Vec::new(),
        21 => {
            let place = dice.below(text.len());
            let mut text = text;
            let byte = dice.below(256) as u8;
            text[place] = if byte == b'\n' { b'\r' } else { byte };
            return text;
        }
        22 => {
            let byte = dice.pick(b"a0 \0");
            let length = dice.between(6, 400);
            words[at] = vec![byte; length];
        }
        _ => return text[..dice.below(text.len())].to_vec(),
    }
    words.join(&b' ')
}
