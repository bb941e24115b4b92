//! Listing the rows of the message M of the bench table.

mod support;

use plain::{rows, spans, Refusal, Row};
use support::M;

const ROWS_OF_M: [(u16, u8, u16); 9] = [
    (0, 0x01, 1),
    (2, 0x83, 3),
    (6, 0x04, 1),
    (8, 0x06, 1),
    (10, 0xC5, 10),
    (12, 0x90, 3),
    (16, 0x52, 1),
    (18, 0x98, 3),
    (22, 0x00, 0),
];

fn tuples(rows: &[Row]) -> Vec<(u16, u8, u16)> {
    rows.iter().map(|r| (r.offset, r.header, r.len)).collect()
}

#[test]
fn rows_of_m() {
    assert_eq!(tuples(&rows(&M).unwrap()), ROWS_OF_M);
}

#[test]
fn the_table_keeps_what_is_not_given() {
    let old = Row {
        offset: 7,
        header: 7,
        len: 7,
    };
    let mut table = [old; 10];
    assert_eq!(spans(&M, &mut table), Ok(9));
    assert_eq!(tuples(&table[..9]), ROWS_OF_M);
    assert_eq!(table[9], old);

    let mut short = [old; 8];
    assert_eq!(spans(&M, &mut short), Err(Refusal::new(15, 0)));
    assert_eq!(short, [old; 8]);
    assert_eq!(spans(&M[..22], &mut short), Err(Refusal::new(4, 22)));
}
