//! The bench table, cases 1 to 15.

mod support;

use plain::{Record, Refusal, Transfer};
use support::{octets, record, transfer, M};

/// Reads K and what follows it.
fn after_k(rest: &str) -> Result<Record, Refusal> {
    both(&octets(&format!("01 01 06 11 {rest}")))
}

/// Reads, and sees that the verdict is the same.
fn both(message: &[u8]) -> Result<Record, Refusal> {
    let record = plain::read(message);
    assert_eq!(plain::verdict(message), record.clone().map(|_| ()));
    record
}

fn refused(number: u8, place: usize) -> Result<Record, Refusal> {
    Err(Refusal::new(number, place))
}

#[test]
fn case_1() {
    let common = [(0x01, 1), (0x83, 12345), (0x04, 1), (0x06, 0x11), (0xC5, 0)];
    let transfers: [(Transfer, &[u8]); 3] = [
        (transfer(0x90), &[1, 2, 0, 3]),
        (transfer(0x52), &[0x81]),
        (transfer(0x98), &[1, 2, 0]),
    ];
    assert_eq!(both(&M), Ok(record(&common, &transfers)));
}

#[test]
fn case_2() {
    let expected = record(&[(0x01, 1), (0x06, 0x11)], &[]);
    assert_eq!(after_k("00"), Ok(expected));
}

#[test]
fn case_3() {
    assert_eq!(both(&[]), refused(1, 0));
}

#[test]
fn case_4() {
    assert_eq!(after_k(""), refused(4, 4));
}

#[test]
fn case_5() {
    assert_eq!(both(&octets("01 02 06 11 00")), refused(5, 0));
}

#[test]
fn case_6() {
    assert_eq!(both(&octets("01 01 00")), refused(6, 2));
}

#[test]
fn case_7() {
    assert_eq!(after_k("00 00"), refused(7, 5));
}

#[test]
fn cases_8_to_13() {
    assert_eq!(after_k("C5 01 08 00"), refused(8, 6));
    assert_eq!(after_k("C5 02 81 01 00"), refused(9, 6));
    assert_eq!(after_k("C5 04 41 00 41 01 00"), refused(10, 8));
    assert_eq!(after_k("C5 01 41 00"), refused(11, 6));
    assert_eq!(after_k("C5 02 41 02 00"), refused(12, 6));
    assert_eq!(after_k("C5 03 90 01 00 00"), refused(13, 8));
}

#[test]
fn case_14() {
    let number = Transfer {
        number_type: 3,
        plan: 1,
        screening: 1,
        ..transfer(0xD7)
    };
    let expected = record(&[(0x01, 1), (0x06, 0x11), (0xC5, 0)], &[(number, &[0])]);
    assert_eq!(after_k("C5 05 D7 03 83 11 00 00"), Ok(expected));
}

#[test]
fn case_15() {
    let mut buffer = M;
    assert_eq!(
        plain::replace(&mut buffer, 23, &octets("98 02 21"), 0),
        Ok(22)
    );
    let edited = "01 01 83 39 30 00 04 01 06 11 C5 09 90 04 21 3A 52 81 98 02 21 00 00";
    assert_eq!(buffer[..], octets(edited));
    assert_eq!((buffer[11], buffer[21], buffer[22]), (9, 0, 0));
}
