//! The sequence, 04: its number and its more-data mark in messages and records.

mod support;

use plain::{image, read, verdict, write, Common, Record, Refusal};
use support::{octets, M};

/// A message with this octet for its sequence.
fn message(octet: u8) -> [u8; 7] {
    [0x01, 0x01, 0x04, octet, 0x06, 0x11, 0x00]
}

/// The record of such a message with this number and this mark.
fn record(number: u32, more_data: u8) -> Record {
    let mut record = Record::default();
    record.push_common(0x01, 1);
    record.common.push(Common {
        header: 0x04,
        value: number,
        more_data,
        ..Common::default()
    });
    record.push_common(0x06, 0x11);
    record
}

/// The message that is written of a record.
fn written(record: &Record) -> Result<Vec<u8>, Refusal> {
    let mut room = [0; 272];
    let len = write(record, &mut room)?;
    Ok(room[..len].to_vec())
}

#[test]
fn read_as_number_and_mark() {
    for octet in 0..=255 {
        let expected = match octet {
            0x01 => Ok(record(1, 0)),
            0x81 => Ok(record(1, 1)),
            _ => Err(Refusal::new(5, 2)),
        };
        assert_eq!(read(&message(octet)), expected);
    }
}

#[test]
fn written_of_number_and_mark() {
    for number in (0..=300).chain([0x8001, 0x0100_0001, 0x8000_0001, u32::MAX]) {
        for more_data in 0..=255 {
            let expected = match (number, more_data) {
                (1, 0) => Ok(message(0x01).to_vec()),
                (1, 1) => Ok(message(0x81).to_vec()),
                (1, _) => Err(Refusal::new(12, 2)),
                _ => Err(Refusal::new(5, 2)),
            };
            assert_eq!(written(&record(number, more_data)), expected);
        }
    }
}

#[test]
fn after_repeated_and_cut() {
    let refused = |hex: &str| verdict(&octets(hex)).map_err(|r| (r.number, r.place));
    assert_eq!(refused("04 01 01 01 04 02 06 11 00"), Err((3, 4)));
    assert_eq!(refused("04 02 01 01 04 01 06 11 00"), Err((5, 0)));
    assert_eq!(refused("01 01 06 11 04"), Err((4, 4)));
    assert_eq!(refused("01 01 06 11 04 02"), Err((5, 4)));
    assert_eq!(refused("01 01 06 11 04 81"), Err((4, 6)));
}

#[test]
fn the_mark_of_another_parameter_is_not_looked_at() {
    let record = read(&M).expect("M is sound");
    let mut marked = record.clone();
    for parameter in marked.common.iter_mut().filter(|c| c.header != 0x04) {
        parameter.more_data = 9;
    }
    assert_eq!(written(&marked).as_deref(), Ok(&M[..]));
    assert_eq!(image(&marked), image(&record));
}

#[test]
fn unequal_marks_are_unequal_records() {
    assert_ne!(record(1, 0), record(1, 1));
    assert_ne!(image(&record(1, 0)), image(&record(1, 1)));
}
