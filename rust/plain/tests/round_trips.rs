//! What is read is written back; what is written is read back; images return.

mod support;

use plain::{Record, Refusal, Row, Transfer};
use std::ops::Range;
use support::{octets, record, transfer, vectors, M};

/// The messages of the vectors and the bench table that reading accepts.
fn accepted() -> Vec<Vec<u8>> {
    let mut messages: Vec<Vec<u8>> = vectors("messages.txt")
        .iter()
        .map(|line| octets(&line[0]))
        .filter(|message| plain::verdict(message).is_ok())
        .collect();
    messages.push(M.to_vec());
    assert!(messages.len() > 40);
    messages
}

#[test]
fn messages_return() {
    for message in accepted() {
        let record = plain::read(&message).unwrap();
        let mut room = vec![0xEE; message.len()];
        assert_eq!(plain::write(&record, &mut room), Ok(message.len()));
        assert_eq!(room, message);

        room.fill(0xEE);
        room.pop();
        let short = room.clone();
        assert_eq!(plain::write(&record, &mut room), Err(Refusal::new(15, 0)));
        assert_eq!(room, short);
    }
}

#[test]
fn images_return() {
    for message in accepted() {
        let record = plain::read(&message).unwrap();
        assert_eq!(plain::from_image(&plain::image(&record)), Ok(record));
    }
}

#[test]
fn row_sums_are_the_lengths() {
    for message in accepted() {
        let rows = plain::rows(&message).unwrap();
        let data = plain::find_common(&message, 0xC5).unwrap_or(0..0);
        let inside = |row: &&plain::Row| data.contains(&usize::from(row.offset));
        let size = |row: &plain::Row| 1 + usize::from(row.header >> 6 == 3) + usize::from(row.len);
        let inner: usize = rows.iter().filter(inside).map(size).sum();
        let outer: usize = rows.iter().filter(|row| !inside(row)).map(size).sum();
        assert_eq!(inner, data.len());
        assert_eq!(outer, message.len());
    }
}

#[test]
fn a_parameter_removed_and_appended_stands_last() {
    for message in accepted() {
        let Ok(data) = plain::find_common(&message, 0xC5) else {
            continue;
        };
        for (row, which) in transfers(&message, &data) {
            let name = row.header & 0x3F;
            let contents = plain::find_transfer(&message, name, which).unwrap();
            assert_eq!(contents.len(), usize::from(row.len));
            let parameter = &message[row.offset.into()..contents.end];

            let mut buffer = message.clone();
            let n = plain::remove(&mut buffer, message.len(), name, which).unwrap();
            assert_eq!(n + parameter.len(), message.len());
            assert!(buffer[n..].iter().all(|&octet| octet == 0));
            assert_eq!(plain::append(&mut buffer, n, parameter), Ok(message.len()));

            let expected = [
                &message[..row.offset.into()],
                &message[contents.end..data.end],
                parameter,
                &message[data.end..],
            ];
            assert_eq!(buffer, expected.concat());
            let all = transfers(&buffer, &data);
            let (_, last) = all.last().expect("the parameter that was appended");
            assert_eq!(
                plain::replace(&mut buffer, message.len(), parameter, *last),
                Ok(message.len())
            );
            assert_eq!(buffer, expected.concat());
        }
    }
}

/// The rows of the transfer parameters, each with which of its name it is.
fn transfers(message: &[u8], data: &Range<usize>) -> Vec<(Row, usize)> {
    let rows = plain::rows(message).unwrap();
    let inside = rows.into_iter().filter(|r| data.contains(&r.offset.into()));
    let mut counts = [0; 64];
    let which = |row: Row| {
        let count: &mut usize = &mut counts[usize::from(row.header & 0x3F)];
        *count += 1;
        (row, *count - 1)
    };
    inside.map(which).collect()
}

/// A record with 01, 06 and a C5 of this transfer parameter.
fn with_transfer(parameter: Transfer, values: &[u8]) -> Record {
    let common = [(0x01, 1), (0x06, 0x11), (0xC5, 0)];
    record(&common, &[(parameter, values)])
}

#[test]
fn digits_of_every_count_return() {
    for header in [0x90, 0x91, 0x95, 0x98, 0xA3, 0xD7, 0xDC, 0xDA] {
        for count in 0..=63 {
            let digits = (0..count).map(|i| (i % 12) as u8);
            let first = (header == 0xDA).then_some(0x06);
            let values: Vec<u8> = first.into_iter().chain(digits).collect();
            let record = with_transfer(transfer(header), &values);
            let mut room = [0; 272];
            let len = plain::write(&record, &mut room).unwrap();
            assert_eq!(plain::read(&room[..len]), Ok(record));
        }
    }
}

#[test]
fn fields_of_every_value_return_or_are_refused() {
    type Field = fn(&mut Transfer) -> &mut u8;
    let fields: [(u8, u8, Field); 12] = [
        (0x90, 1, |t| &mut t.notification),
        (0x91, 1, |t| &mut t.notification),
        (0x91, 1, |t| &mut t.verification),
        (0x95, 1, |t| &mut t.notification),
        (0x98, 3, |t| &mut t.dialling),
        (0xD7, 127, |t| &mut t.number_type),
        (0xD7, 1, |t| &mut t.incomplete),
        (0xD7, 7, |t| &mut t.plan),
        (0xD7, 3, |t| &mut t.presentation),
        (0xD7, 3, |t| &mut t.screening),
        (0xDC, 127, |t| &mut t.number_type),
        (0xDC, 3, |t| &mut t.presentation),
    ];
    for (header, most, field) in fields {
        for value in 0..=255 {
            let mut parameter = transfer(header);
            *field(&mut parameter) = value;
            let record = with_transfer(parameter, &[]);
            let mut room = [0; 272];
            match plain::write(&record, &mut room) {
                Ok(len) => {
                    assert!(value <= most);
                    assert_eq!(plain::read(&room[..len]), Ok(record));
                }
                Err(refusal) => {
                    assert!(value > most);
                    assert_eq!(refusal, Refusal::new(12, 6));
                }
            }
        }
    }
}
