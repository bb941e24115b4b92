//! The sequence, 04, with every octet in messages and with every mark beside many
//! numbers in records, put to both codecs in every call that reads or writes it.

mod calls;

use calls::{all_readers, lent, readings, same, same_in_all};
use trial::record::{Common, Record};
use trial::Input;

/// Transfer data with 41, F7, E0 and CC, which has a code, and with 7E, FD and D6 as
/// the mobile call profile asks for them, and the end mark.
const DATA: [u8; 27] = [
    0xC5, 0x18, 0x41, 0x00, 0xF7, 0x02, 0x00, 0x02, 0xE0, 0x01, 0x28, 0xCC, 0x07, 0x01, 0xFA, 0x04,
    0xFE, 0x02, 0x80, 0x07, 0x7E, 0x03, 0xFD, 0x00, 0xD6, 0x00, 0x00,
];

/// A message with this octet for its sequence, and with what the calls ask for.
fn message(octet: u8) -> Vec<u8> {
    [&[0x01, 0x01, 0x04, octet, 0x06, 0x11], &DATA[..]].concat()
}

/// The number of the answer to every one of the calls on the message.
fn number(message: &[u8]) -> u8 {
    same_in_all(&all_readers(message))
}

#[test]
fn with_every_octet() {
    for octet in 0..=255 {
        let expected = if octet & 0x7F == 1 { 0 } else { 5 };
        assert_eq!(number(&message(octet)), expected, "{octet:02X}");
    }
}

#[test]
fn with_every_octet_in_every_place() {
    for octet in 0..=255 {
        let mut parameters = [vec![0x01, 0x01], vec![0x04, octet], vec![0x06, 0x11]];
        for _ in 0..parameters.len() {
            parameters.rotate_left(1);
            let message = [&parameters.concat()[..], &DATA[..]].concat();
            number(&message);
            number(&[&[0x04, 0x01], &message[..]].concat());
            for end in 0..message.len() {
                same_in_all(&readings(&message[..end]));
            }
        }
    }
}

/// The image of a record with these numbers and marks, each of a 04 of its own,
/// between 01 and 06, whose mark is `other`.
fn image(sequences: &[(u32, u8)], other: u8) -> Vec<u8> {
    let common = |header, value, more_data| Common {
        header,
        value,
        more_data,
        ..Common::default()
    };
    let sequences = sequences.iter();
    let mut all = vec![common(0x01, 1, other)];
    all.extend(sequences.map(|&(value, more_data)| common(0x04, value, more_data)));
    all.push(common(0x06, 0x11, other));
    Record { common: all }.image()
}

/// The number of the answer to writing the record of an image.
fn written(image: Vec<u8>) -> u8 {
    let room = lent();
    same(&Input::Write { image, room })
}

#[test]
fn with_every_mark_beside_many_numbers() {
    let numbers = (0..=300).chain((8..32).map(|bit| 1 | 1 << bit));
    for value in numbers.chain([0x7FFF_FFFF, u32::MAX]) {
        for more_data in 0..=255 {
            let expected = match (value, more_data) {
                (1, 0 | 1) => 0,
                (1, _) => 12,
                _ => 5,
            };
            assert_eq!(written(image(&[(value, more_data)], 0)), expected);
        }
    }
}

#[test]
fn with_every_mark_of_other_parameters() {
    for other in 0..=255 {
        assert_eq!(written(image(&[(1, 1)], other)), 0);
        assert_eq!(written(image(&[], other)), 0);
    }
}

#[test]
fn repeated() {
    for again in [(1, 0), (1, 1), (1, 2), (2, 0), (2, 2), (129, 255)] {
        assert_eq!(written(image(&[(1, 0), again], 0)), 3);
    }
    assert_eq!(written(image(&[(1, 2), (1, 0)], 0)), 12);
    assert_eq!(written(image(&[(2, 2), (1, 0)], 0)), 5);
}
