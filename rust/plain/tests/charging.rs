//! The charging information in messages, records and edits.

mod opened;
mod support;

use opened::{edits_refuse_at_0, message, written};
use plain::transfer::CHARGING;
use plain::{charging, Charging, Refusal};
use support::{octets, M};

/// An MBI alone, sound; and with each fault of its own, by number. Reading's place
/// of 13 is that of the last octet.
const SOUND: &str = "F7 04 00 05 12 31";
const FAULTY: [(&str, u8); 4] = [
    ("F7 04 00 05 12", 11),
    ("F7 04 00 06 12 31", 12),
    ("F7 04 00 05 12 3A", 13),
    ("F7 04 00 05 12 32", 18),
];

#[test]
fn told_by_name() {
    let expected = Charging {
        kind: 5,
        mbi: 12,
        check_digit: 1,
        ..Charging::default()
    };
    assert_eq!(charging(&message(SOUND)), Ok(expected));
}

#[test]
fn absent_or_refused_by_reading() {
    let absent = Err(Refusal::new(16, 0));
    assert_eq!(charging(&M), absent);
    assert_eq!(charging(&octets("01 01 06 11 00")), absent);
    assert_eq!(charging(&[]), Err(Refusal::new(1, 0)));
    let mut cut = message(SOUND);
    cut.pop();
    assert_eq!(charging(&cut), Err(Refusal::new(4, 12)));
}

#[test]
fn read_with_the_place_of_the_header_or_the_octet() {
    for (parameter, number) in FAULTY {
        let refused = Refusal::new(number, if number == 13 { 11 } else { 6 });
        assert_eq!(plain::verdict(&message(parameter)), Err(refused));
        assert_eq!(charging(&message(parameter)), Err(refused));
    }
}

#[test]
fn written_by_the_same_rule() {
    assert_eq!(written(CHARGING, &octets(SOUND)[2..]), Ok(message(SOUND)));
    for (parameter, number) in FAULTY.into_iter().filter(|(_, number)| *number > 11) {
        let refused = Err(Refusal::new(number, 6));
        assert_eq!(written(CHARGING, &octets(parameter)[2..]), refused);
    }
    assert_eq!(written(CHARGING, &[]), Err(Refusal::new(12, 6)));
}

#[test]
fn edits_refuse_it_at_0() {
    edits_refuse_at_0(&FAULTY, SOUND, "F7 02 00 02");
}
