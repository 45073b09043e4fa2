//! The sheet program again, with its report written by the standard library's formatting; for measuring only.

use plain::report;
use std::io;

fn main() -> io::Result<()> {
    plain::serve(|sheet| plain::perform_by(sheet, report::push_formatted))
}
