//! Writing the report.

use crate::fault::Fault;
use std::io::Write;

/// One line of the report.
pub fn push(report: &mut Vec<u8>, number: usize, answer: Result<u32, Fault>) {
    push_number(report, number);
    match answer {
        Ok(answer) => {
            report.extend_from_slice(b" ok ");
            push_number(report, answer as usize);
        }
        Err(fault) => {
            report.extend_from_slice(b" no ");
            push_number(report, fault.cause as usize);
            report.push(b' ');
            push_number(report, fault.layer as usize);
            report.push(b' ');
            push_number(report, fault.place);
        }
    }
    report.push(b'\n');
}

fn push_number(report: &mut Vec<u8>, number: usize) {
    let mut digits = [0; 20];
    let mut start = digits.len();
    let mut rest = number;
    loop {
        start -= 1;
        digits[start] = b'0' + (rest % 10) as u8;
        rest /= 10;
        if rest == 0 {
            break;
        }
    }
    report.extend_from_slice(&digits[start..]);
}

/// The same line, by the standard library's formatting.
pub fn push_formatted(report: &mut Vec<u8>, number: usize, answer: Result<u32, Fault>) {
    let written = match answer {
        Ok(answer) => writeln!(report, "{number} ok {answer}"),
        Err(Fault {
            cause,
            layer,
            place,
        }) => {
            writeln!(
                report,
                "{number} no {} {} {place}",
                cause as u8, layer as u8
            )
        }
    };
    written.expect("a Vec takes every byte");
}
