//! The sheet program.

use std::io;

fn main() -> io::Result<()> {
    plain::serve(plain::perform)
}
