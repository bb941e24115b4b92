//! Writes the standard input of the program of `crates/cases`, made of
//! `tests/cases/cases.txt`.

use std::io::{self, Write};

fn main() -> io::Result<()> {
    let invalid = |line| io::Error::new(io::ErrorKind::InvalidData, line);
    let octets = trial::cases::octets().map_err(invalid)?;
    io::stdout().write_all(&octets)
}
