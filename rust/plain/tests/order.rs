//! The connection order in messages, records and edits.

mod opened;
mod support;

use opened::{edits_refuse_at_0, message, written};
use plain::transfer::ORDER;
use plain::{find_transfer, order, order_spans, Refusal, Row};
use std::collections::BTreeMap;
use support::{octets, vectors, M};

/// Digits, a trunk and characters, sound; and with faults of its own, by number.
/// Reading's place of 13 is that of the 0D.
const SOUND: &str = "E0 0C 2B 91 03 21 0A 41 05 C9 03 11 02 03";
const FAULTY: [(&str, u8); 8] = [
    ("E0 06 2B 91 03 21 0A", 11),
    ("E0 00", 12),
    ("E0 06 2B 91 03 21 0A 41", 12),
    ("E0 07 2B 91 03 21 0D 41 05", 13),
    ("E0 01 2A", 19),
    ("E0 03 2B D3 05", 19),
    ("E0 03 2B 42 05", 19),
    ("E0 05 2B 41 05 41 05", 19),
];

fn row(offset: u16, header: u8, len: u16) -> Row {
    Row {
        offset,
        header,
        len,
    }
}

#[test]
fn form_and_parameters_as_rows() {
    let rows = [
        row(8, 0x2B, 0),
        row(9, 0x91, 3),
        row(13, 0x41, 1),
        row(15, 0xC9, 4),
    ];
    let sound = message(SOUND);
    assert_eq!(order(&sound).as_deref(), Ok(&rows[..]));
    let total: usize = rows.iter().map(|row| 1 + usize::from(row.len)).sum();
    assert_eq!(find_transfer(&sound, 0x20, 0), Ok(8..8 + total));
    assert_eq!(order(&message("E0 01 28")), Ok(vec![row(8, 0x28, 0)]));
}

/// The parameters of the orders in the vectors' messages, by form and header.
fn in_vectors() -> BTreeMap<(u8, u8), Vec<u8>> {
    let mut parameters = BTreeMap::new();
    for line in vectors("messages.txt") {
        let message = octets(&line[0]);
        let rows = order(&message).unwrap_or_default();
        for row in rows.iter().skip(1) {
            let start = usize::from(row.offset);
            let parameter = &message[start..=start + usize::from(row.len)];
            parameters.insert((rows[0].header, row.header), parameter.to_vec());
        }
    }
    parameters
}

/// The vectors, which `vectors.rs` puts to the codec, have every form with all
/// headers that may stand under it.
#[test]
fn every_form_with_every_header() {
    let parameters = in_vectors();
    for form in 0..=255 {
        for header in 0..=255 {
            let known = parameters.iter().find(|((_, known), _)| *known == header);
            let parameter = known.map_or(vec![header], |(_, octets)| octets.clone());
            let may_stand = parameters.contains_key(&(form, header));
            let expected = may_stand.then_some(()).ok_or(Refusal::new(19, 6));
            let contents = [&[form], &parameter[..]].concat();
            assert_eq!(written(ORDER, &contents).map(|_| ()), expected);
        }
    }
}

#[test]
fn the_table_keeps_what_is_not_given() {
    let old = row(7, 7, 7);
    let mut table = [old; 6];
    assert_eq!(order_spans(&message(SOUND), &mut table), Ok(4));
    assert_eq!(table[3..], [row(15, 0xC9, 4), old, old]);

    let mut short = [old; 3];
    let refused = order_spans(&message(SOUND), &mut short);
    assert_eq!(refused, Err(Refusal::new(15, 0)));
    assert_eq!(short, [old; 3]);
    let absent = order_spans(&M, &mut []);
    assert_eq!(absent, Err(Refusal::new(16, 0)));
}

#[test]
fn absent_or_refused_by_reading() {
    let absent = Err(Refusal::new(16, 0));
    assert_eq!(order(&M), absent);
    assert_eq!(order(&octets("01 01 06 11 00")), absent);
    assert_eq!(order(&[]), Err(Refusal::new(1, 0)));
    let mut cut = message(SOUND);
    cut.pop();
    assert_eq!(order(&cut), Err(Refusal::new(4, cut.len())));
}

#[test]
fn read_with_the_place_of_the_header_or_the_octet() {
    for (parameter, number) in FAULTY {
        let refused = Refusal::new(number, if number == 13 { 12 } else { 6 });
        assert_eq!(plain::verdict(&message(parameter)), Err(refused));
        assert_eq!(order(&message(parameter)), Err(refused));
    }
}

#[test]
fn written_by_the_same_rule() {
    assert_eq!(written(ORDER, &octets(SOUND)[2..]), Ok(message(SOUND)));
    for (parameter, number) in FAULTY.into_iter().filter(|(_, number)| *number != 11) {
        let refused = Err(Refusal::new(number, 6));
        assert_eq!(written(ORDER, &octets(parameter)[2..]), refused);
    }
}

#[test]
fn edits_refuse_it_at_0() {
    edits_refuse_at_0(&FAULTY, SOUND, "E0 01 28");
}
