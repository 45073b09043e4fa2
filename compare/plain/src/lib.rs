//! The sheet program in plain Rust, written from the documents alone.

pub mod book;
pub mod end;
pub mod fault;
pub mod line;
pub mod report;
pub mod sheet;
pub mod slip;
pub mod wire;

use fault::Fault;
use line::Line;
use std::io::{self, Read, Write};

/// Only so many bytes of a sheet are read.
pub const SHEET_ROOM: usize = 65_536;

/// Performs a sheet and makes its report.
pub fn perform(sheet: &[u8]) -> Vec<u8> {
    perform_by(sheet, report::push)
}

/// The same, with another way of writing the report's lines.
pub fn perform_by(sheet: &[u8], push: impl Fn(&mut Vec<u8>, usize, Result<u32, Fault>)) -> Vec<u8> {
    let sheet = &sheet[..sheet.len().min(SHEET_ROOM)];
    let mut report = Vec::with_capacity(2 * sheet.len());
    let mut line = Line::new();
    for (index, text) in sheet::lines(sheet).enumerate() {
        let answer = sheet::read(text).and_then(|call| line.perform(call));
        push(&mut report, index + 1, answer);
    }
    report
}

/// Reads a sheet on standard input and prints its report.
pub fn serve(perform: impl Fn(&[u8]) -> Vec<u8>) -> io::Result<()> {
    let mut sheet = Vec::with_capacity(SHEET_ROOM);
    io::stdin()
        .lock()
        .take(SHEET_ROOM as u64)
        .read_to_end(&mut sheet)?;
    let mut out = io::stdout().lock();
    out.write_all(&perform(&sheet))?;
    out.flush()
}
