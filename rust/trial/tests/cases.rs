//! The program of `crates/cases` reads what `tests/cases/cases.txt` tells.

use trial::cases::octets;

/// The program reads so many octets, and no more.
const MOST: usize = 131_072;

#[test]
fn the_text_is_what_the_program_reads() {
    let read = include_bytes!("../../../crates/cases/stdin");
    let told = octets().expect("lines of a known form");
    let same = told.iter().zip(read).take_while(|(a, b)| a == b).count();
    assert_eq!(told.len(), read.len(), "the same up to octet {same}");
    assert_eq!(same, read.len(), "the same up to octet {same}");
    assert!(read.len() <= MOST, "{} octets", read.len());
}
