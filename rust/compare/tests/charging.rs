//! The charging information with every octet in every place, and of every kind
//! and length, put to both codecs in every call that reads or writes it.

mod calls;
mod opened;

use calls::{lent, readings, same, same_in_all};
use opened::{parameter, writings};
use plain::transfer::CHARGING;
use trial::messages::with_alone;
use trial::outcome::CHARGING_LEN;
use trial::Input;

/// Sound contents of every kind.
const SOUND: [&[u8]; 8] = [
    b"\x00\x01123456789012343",
    b"\x00\x02",
    b"\x00\x03\x1A2340565",
    b"\x00\x04\xA712098008",
    b"\x00\x05\x121",
    b"\x00\x08\x0A01180240360999",
    b"\x00\x09\xFF01180240360999123456",
    b"\x00\x0A\x00011802403609999876543",
];

/// Whether the codecs accept the contents, on which they agree in every call.
fn agree(contents: &[u8]) -> bool {
    let message = with_alone(&parameter(CHARGING, contents));
    let mut calls = readings(&message).to_vec();
    calls.extend(writings(CHARGING, contents, SOUND[1]));
    calls.push(Input::Charging {
        message,
        out: lent(),
    });
    same_in_all(&calls) == 0
}

#[test]
fn with_every_octet_in_every_place() {
    for contents in SOUND {
        assert!(agree(contents));
        for at in 0..contents.len() {
            for octet in 0..=255 {
                let mut contents = contents.to_vec();
                contents[at] = octet;
                agree(&contents);
            }
        }
    }
}

/// All octets behind the kind are '1', which does for an MBI and a unit fee too.
/// Where there is a check digit, it is wrong.
#[test]
fn of_every_kind_and_length() {
    let mut accepted = Vec::new();
    for kind in 0..=255 {
        assert!(!agree(&[kind]));
        for len in 0..=30 {
            let contents = [&[0x00, kind], &vec![b'1'; len][..]].concat();
            if agree(&contents) {
                accepted.push((kind, len));
            }
        }
    }
    assert!(!agree(&[]));
    assert_eq!(accepted, [(2, 0), (8, 15), (9, 21), (10, 22)]);
}

#[test]
fn into_octets_of_every_length() {
    let message = with_alone(&parameter(CHARGING, SOUND[6]));
    for len in 0..=CHARGING_LEN + 2 {
        let (message, out) = (message.clone(), vec![0xEE; len]);
        let number = same(&Input::Charging { message, out });
        assert_eq!(number == 0, len >= CHARGING_LEN);
    }
}
