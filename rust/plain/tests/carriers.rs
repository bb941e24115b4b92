//! The carriers in messages, records and edits: up to three times, and opened.

mod opened;
mod support;

use opened::{edits_refuse_at_0, message, written};
use plain::transfer::CARRIERS;
use plain::{append, carrier_digits, carrier_spans, carriers, find_transfer};
use plain::{read, remove, replace, verdict, write, CarrierRow, Refusal};
use support::{octets, record, transfer, M};

/// Two carriers: one with a code of three digits and carried octets, and one that
/// is empty; sound, and with each fault of its own, by number. Reading's place of
/// 13 is that of the 1A.
const SOUND: &str = "CC 0E 01 FA 09 FE 03 80 21 03 FC 02 AA BB F8 00";
const FAULTY: [(&str, u8); 9] = [
    ("CC 0E 01 FA 09 FE 03 80 21 03", 11),
    ("CC 00", 12),
    ("CC 01 04", 12),
    ("CC 02 01 FA", 12),
    ("CC 05 01 F7 02 FC 00", 12),
    ("CC 05 01 F8 02 FE 00", 12),
    ("CC 06 01 F8 03 FE 01 80", 12),
    ("CC 07 01 F8 04 FE 02 01 00", 12),
    ("CC 07 01 F8 04 FE 02 80 1A", 13),
];

const ABSENT: Refusal = Refusal::new(16, 0);

fn row(level: u8, tag: u8, offset: u16, len: u16, digits: u16) -> CarrierRow {
    CarrierRow {
        level,
        tag,
        offset,
        len,
        digits,
    }
}

#[test]
fn direction_and_entries_as_rows() {
    let rows = [
        row(0, 0x01, 8, 0, 0),
        row(1, 0xFA, 9, 9, 0),
        row(2, 0xFE, 11, 3, 3),
        row(2, 0xFC, 16, 2, 0),
        row(1, 0xF8, 20, 0, 0),
    ];
    assert_eq!(carriers(&message(SOUND), 0).as_deref(), Ok(&rows[..]));
    let bare = carriers(&message("CC 01 03"), 0);
    assert_eq!(bare, Ok(vec![row(0, 0x03, 8, 0, 0)]));
}

#[test]
fn digits_of_a_code() {
    let digits = |row| carrier_digits(&message(SOUND), 0, row);
    assert_eq!(digits(2), Ok(vec![1, 2, 3]));
    for row in [0, 1, 3, 4, 5, 258, usize::MAX] {
        assert_eq!(digits(row), Err(ABSENT));
    }
    let codes = message("CC 0F 00 FE 0C FE 01 00 FE 02 00 90 FE 03 80 09 00");
    let digits = |row| carrier_digits(&codes, 0, row);
    assert_eq!(digits(2), Ok(vec![]));
    assert_eq!(digits(3), Ok(vec![0, 9]));
    assert_eq!(digits(4), Ok(vec![9, 0, 0]));
    assert_eq!(digits(1), Err(ABSENT));
}

#[test]
fn the_table_keeps_what_is_not_given() {
    let old = row(7, 7, 7, 7, 7);
    let mut table = [old; 7];
    assert_eq!(carrier_spans(&message(SOUND), 0, &mut table), Ok(5));
    assert_eq!(table[4..], [row(1, 0xF8, 20, 0, 0), old, old]);

    let mut short = [old; 4];
    let refused = carrier_spans(&message(SOUND), 0, &mut short);
    assert_eq!(refused, Err(Refusal::new(15, 0)));
    assert_eq!(short, [old; 4]);
    assert_eq!(carrier_spans(&M, 0, &mut []), Err(ABSENT));
    assert_eq!(carrier_spans(&message(SOUND), 1, &mut []), Err(ABSENT));
}

#[test]
fn absent_or_refused_by_reading() {
    for message in [&M[..], &octets("01 01 06 11 00")] {
        assert_eq!(carriers(message, 0), Err(ABSENT));
        assert_eq!(carrier_digits(message, 0, 0), Err(ABSENT));
    }
    assert_eq!(carriers(&[], 9), Err(Refusal::new(1, 0)));
    assert_eq!(carrier_digits(&[], 9, 9), Err(Refusal::new(1, 0)));
    let mut cut = message(SOUND);
    cut.pop();
    assert_eq!(carriers(&cut, 9), Err(Refusal::new(4, cut.len())));
}

#[test]
fn read_with_the_place_of_the_header_or_the_octet() {
    for (parameter, number) in FAULTY {
        let refused = Refusal::new(number, if number == 13 { 14 } else { 6 });
        assert_eq!(verdict(&message(parameter)), Err(refused));
        assert_eq!(carriers(&message(parameter), 0), Err(refused));
    }
}

#[test]
fn written_by_the_same_rule() {
    assert_eq!(written(CARRIERS, &octets(SOUND)[2..]), Ok(message(SOUND)));
    for (parameter, number) in FAULTY.into_iter().filter(|(_, number)| *number != 11) {
        let refused = Err(Refusal::new(number, 6));
        assert_eq!(written(CARRIERS, &octets(parameter)[2..]), refused);
    }
}

#[test]
fn edits_refuse_it_at_0() {
    edits_refuse_at_0(&FAULTY, SOUND, "CC 01 00");
}

/// K with so many CC, of which each has its index for its direction, another
/// parameter before the second, and one behind the last.
fn several(count: u8) -> Vec<u8> {
    let parameters = (0..count).map(|direction| match direction {
        1 => format!("41 01 CC 01 {direction:02X} "),
        _ => format!("CC 01 {direction:02X} "),
    });
    message(&(parameters.collect::<String>() + "46 00"))
}

#[test]
fn up_to_three_times() {
    for count in 0..=3 {
        assert_eq!(verdict(&several(count)), Ok(()));
    }
    assert_eq!(verdict(&several(4)), Err(Refusal::new(10, 17)));
    // The fourth one's header comes before what is wrong with its contents.
    let fourth = message("CC 01 00 CC 01 00 CC 01 00 CC 00");
    assert_eq!(verdict(&fourth), Err(Refusal::new(10, 15)));
    let again = message("CC 01 00 41 00 CC 01 00 41 00");
    assert_eq!(verdict(&again), Err(Refusal::new(10, 14)));
    let other_pli = message("CC 01 00 CC 01 00 CC 01 00 0C");
    assert_eq!(verdict(&other_pli), Err(Refusal::new(9, 15)));
}

#[test]
fn written_up_to_three_times() {
    for count in 0..=4 {
        let common = [(0x01, 1), (0x06, 0x11), (0xC5, 0)];
        let contents: Vec<[u8; 1]> = (0..count).map(|direction| [direction % 4]).collect();
        let carriers = contents.iter().map(|c| (transfer(CARRIERS), &c[..]));
        let record = record(&common, &carriers.collect::<Vec<_>>());
        let mut room = [0; 272];
        match write(&record, &mut room) {
            Ok(len) => assert_eq!(read(&room[..len]), Ok(record)),
            Err(refusal) => assert_eq!((refusal, count), (Refusal::new(10, 15), 4)),
        }
    }
}

/// Where the contents of each CC stand in three of them.
const CONTENTS: [usize; 3] = [8, 13, 16];

#[test]
fn which_one_is_found() {
    for (which, at) in CONTENTS.into_iter().enumerate() {
        assert_eq!(find_transfer(&several(3), 0x0C, which), Ok(at..at + 1));
        let rows = carriers(&several(3), which);
        assert_eq!(rows, Ok(vec![row(0, which as u8, at as u16, 0, 0)]));
    }
    for which in [3, 4, 256, 65_536, usize::MAX] {
        assert_eq!(find_transfer(&several(3), 0x0C, which), Err(ABSENT));
        assert_eq!(carriers(&several(3), which), Err(ABSENT));
        assert_eq!(carrier_digits(&several(3), which, 0), Err(ABSENT));
    }
}

#[test]
fn which_one_is_replaced_or_removed() {
    let sound = several(3);
    let n = sound.len();
    let new = octets(SOUND);
    for (which, at) in CONTENTS.into_iter().enumerate() {
        let mut buffer = [&sound[..], &[0xEE; 20]].concat();
        let len = replace(&mut buffer, n, &new, which).expect("a sound replacement");
        assert_eq!(buffer[at - 2..at - 2 + new.len()], new);
        assert_eq!(buffer[at - 2 + new.len()..len], sound[at + 1..]);
        assert_eq!(buffer[6..at - 2], sound[6..at - 2]);

        let mut buffer = sound.clone();
        let len = remove(&mut buffer, n, 0x0C, which).expect("a sound removal");
        assert_eq!((len, buffer[5]), (n - 3, sound[5] - 3));
        assert_eq!(
            buffer[6..len],
            [&sound[6..at - 2], &sound[at + 1..]].concat()
        );
    }
    for which in [3, 256, usize::MAX] {
        let mut buffer = sound.clone();
        assert_eq!(replace(&mut buffer, n, &new, which), Err(ABSENT));
        assert_eq!(remove(&mut buffer, n, 0x0C, which), Err(ABSENT));
        assert_eq!(remove(&mut buffer, n, 0x01, which), Err(ABSENT));
        assert_eq!(buffer, sound);
    }
}

#[test]
fn appended_up_to_three_times() {
    let mut buffer = [&several(0)[..], &[0xEE; 20]].concat();
    let mut n = several(0).len();
    for _ in 0..3 {
        n = append(&mut buffer, n, &[0xCC, 0x01, 0x02]).expect("one more CC");
    }
    let before = buffer.clone();
    for fourth in [&[0xCC, 0x01, 0x02][..], &[0xCC], &[0xCC, 0x00]] {
        let refused = append(&mut buffer, n, fourth);
        assert_eq!(refused, Err(Refusal::new(10, 0)));
    }
    assert_eq!(buffer, before);
    assert_eq!(verdict(&buffer[..n]), Ok(()));
}
