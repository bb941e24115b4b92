//! What the tests share: octets from hexadecimal, and the vector files.

#![allow(dead_code)]

use plain::{Record, Transfer};

/// The octets that a line's hexadecimal gives; `-` gives none.
pub fn octets(hex: &str) -> Vec<u8> {
    let digits: Vec<u8> = hex
        .chars()
        .filter(|c| !c.is_whitespace() && *c != '-')
        .map(|c| c.to_digit(16).expect("a hexadecimal digit") as u8)
        .collect();
    assert_eq!(digits.len() % 2, 0);
    digits
        .chunks(2)
        .map(|pair| pair[0] << 4 | pair[1])
        .collect()
}

/// The fields of each line of a vector file, which has some.
pub fn vectors(file: &str) -> Vec<Vec<String>> {
    let path = format!("{}/../../tests/vectors/{file}", env!("CARGO_MANIFEST_DIR"));
    let text = std::fs::read_to_string(&path).expect("the vector file");
    let fields = |line: &str| line.split('|').map(|f| f.trim().to_owned()).collect();
    let lines: Vec<Vec<String>> = text
        .lines()
        .filter(|line| !line.is_empty() && !line.starts_with('#'))
        .map(fields)
        .collect();
    assert!(!lines.is_empty(), "{path} has no lines");
    lines
}

/// What a vector expects.
pub enum Expected {
    /// The words after `accepted`.
    Accepted(Vec<String>),
    /// The number and place after `refused`.
    Refused(plain::Refusal),
}

/// Takes apart `accepted ...` or `refused NUMBER PLACE`.
pub fn expected(field: &str) -> Expected {
    let mut words = field.split_whitespace();
    match words.next() {
        Some("accepted") => Expected::Accepted(words.map(str::to_owned).collect()),
        Some("refused") => {
            let mut next = || {
                words
                    .next()
                    .expect("a word")
                    .parse::<usize>()
                    .expect("a number")
            };
            let number = next() as u8;
            Expected::Refused(plain::Refusal::new(number, next()))
        }
        other => panic!("neither accepted nor refused: {other:?}"),
    }
}

/// A record with these common parameters, the last of them with these transfer
/// parameters and their values.
pub fn record(common: &[(u8, u32)], transfers: &[(Transfer, &[u8])]) -> Record {
    let mut record = Record::default();
    for &(header, value) in common {
        record.push_common(header, value);
    }
    for (parameter, values) in transfers {
        record.push_transfer(parameter.clone(), values);
    }
    record
}

/// A transfer parameter with this header and 0 in all fields.
pub fn transfer(header: u8) -> Transfer {
    Transfer {
        header,
        ..Transfer::default()
    }
}

/// The message M of the bench table.
pub const M: [u8; 23] = [
    0x01, 0x01, 0x83, 0x39, 0x30, 0x00, 0x04, 0x01, 0x06, 0x11, 0xC5, 0x0A, 0x90, 0x04, 0x21, 0x3A,
    0x52, 0x81, 0x98, 0x03, 0x21, 0x0A, 0x00,
];
