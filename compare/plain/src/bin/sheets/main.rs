//! Makes sheets from a style and a seed.
//!
//!     sheets STYLE SEED               prints one sheet
//!     sheets --into DIR FIRST COUNT   writes DIR/STYLE-SEED for every style and COUNT seeds from FIRST on
//!     sheets --styles                 prints the styles' names
//!
//! The same style and seed always make the same sheet. The writer of a sheet performs what it writes on a line of its
//! own, so that it can choose calls that lead on.

mod damage;
mod dice;
mod mood;
mod styles;
mod writer;

use dice::Dice;
use std::io::{self, Write};
use std::path::Path;
use std::{env, fs, process};
use styles::STYLES;

fn make(style: usize, seed: u64) -> Vec<u8> {
    STYLES[style].1(Dice::new(style, seed), seed)
}

fn into(dir: &Path, first: u64, count: u64) -> io::Result<()> {
    fs::create_dir_all(dir)?;
    for (style, (name, _)) in STYLES.iter().enumerate() {
        for seed in first..first + count {
            fs::write(dir.join(format!("{name}-{seed}")), make(style, seed))?;
        }
    }
    Ok(())
}

fn usage() -> ! {
    eprintln!("usage: sheets STYLE SEED | sheets --into DIR FIRST COUNT | sheets --styles");
    process::exit(2)
}

fn main() -> io::Result<()> {
    let words: Vec<String> = env::args().skip(1).collect();
    let words: Vec<&str> = words.iter().map(String::as_str).collect();
    match words[..] {
        ["--styles"] => {
            for (name, _) in STYLES {
                println!("{name}");
            }
            Ok(())
        }
        ["--into", dir, first, count] => match (first.parse(), count.parse()) {
            (Ok(first), Ok(count)) => into(Path::new(dir), first, count),
            _ => usage(),
        },
        [style, seed] => match (
            STYLES.iter().position(|(name, _)| *name == style),
            seed.parse(),
        ) {
            (Some(style), Ok(seed)) => io::stdout().lock().write_all(&make(style, seed)),
            _ => usage(),
        },
        _ => usage(),
    }
}
