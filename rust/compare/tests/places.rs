//! The place of 13: bad digits, fillers and characters wherever they can stand, put
//! to both codecs in every call that reads a message. Where the first bad one
//! stands is told by `halves`, which knows neither codec.

mod calls;
#[path = "../../trial/tests/halves/mod.rs"]
mod halves;
mod opened;

use calls::{all_readers, buffer, lent, outcome};
use halves::{bad, slots, Part, Slot};
use opened::{image, writings, EMPTY};
use trial::messages::with_alone;
use trial::Input;

/// Sound parameters that hold digits or characters, all but those under PLI 10:
/// numbers of an even and of an odd count, every rate kind, every header of a
/// connection order, alone and with others; carriers with one code and with three.
const COUNTED: [&[u8]; 27] = [
    b"\xD7\x05\x03\x11\x21\x43\x65",
    b"\xD7\x05\x83\x11\x21\x43\x05",
    b"\xDC\x05\x03\x11\x21\x43\x65",
    b"\xDC\x05\x83\x04\x21\x43\x05",
    b"\xDA\x06\x06\x03\x11\x21\x43\x65",
    b"\xDA\x06\x06\x83\x11\x21\x43\x05",
    b"\xF7\x11\x00\x01123456789012343",
    b"\xF7\x0A\x00\x03\x1A2340565",
    b"\xF7\x0B\x00\x04\xA712098008",
    b"\xF7\x04\x00\x05\x121",
    b"\xF7\x11\x00\x08\x0A01180240360999",
    b"\xF7\x17\x00\x09\xFF01180240360999123456",
    b"\xF7\x18\x00\x0A\x00011802403609999876543",
    b"\xE0\x06\x21\x91\x06\x21\x43\x65",
    b"\xE0\x06\x21\x91\x05\x21\x43\x05",
    b"\xE0\x08\x2E\x92\x05\x01\x10\x21\x43\x65",
    b"\xE0\x08\x2E\x92\x05\x81\x10\x21\x43\x05",
    b"\xE0\x08\x24\xC9\x05\x11\x001;\x03",
    b"\xE0\x08\x22\xCA\x05\x11\x031;\x03",
    b"\xE0\x08\x31\xCD\x05\x11\x021;\x03",
    b"\xE0\x05\x3D\xD2180",
    b"\xE0\x11\x22\xC9\x04\x11\x0012\x91\x03\x21\x0A\xCA\x04\x12\x003;",
    b"\xE0\x11\x31\xD2180\x41\x05\xCD\x03\x11\x00\x03\xC9\x03\x11\x001",
    b"\xE0\x08\x2E\x43\x81\x92\x03\x81\x10\x05",
    b"\xCC\x09\x01\xFA\x06\xFE\x04\x00\x21\x43\x65",
    b"\xCC\x09\x01\xFA\x06\xFE\x04\x80\x21\x43\x05",
    b"\xCC\x17\x02\xFE\x0B\xFE\x03\x80\x21\x03\xFC\x01\xAA\xFE\x01\x00\xF8\x00\xFB\x05\xFE\x03\x00\x90\x09",
];

/// Where the header stands in a message with nothing before it in C5.
const FIRST: usize = 6;

/// All sound parameters, those under PLI 10 with an even and with an odd count.
fn sound() -> Vec<Vec<u8>> {
    let mut all = Vec::new();
    for header in [0x90, 0x91, 0x95, 0x98, 0xA3] {
        all.push(vec![header, 0x06, 0x21, 0x43, 0x65]);
        all.push(vec![header, 0x05, 0x21, 0x43, 0x05]);
    }
    all.extend(COUNTED.map(<[u8]>::to_vec));
    all
}

/// A message with this parameter between 41 and 45, and where its header stands.
fn message(parameter: &[u8]) -> (Vec<u8>, usize) {
    let data = [&[0x41, 0x00], parameter, &[0x45, 0x00]].concat();
    (with_alone(&data), 8)
}

/// Asserts that the answer to each of the calls is this number at this place.
fn refused(calls: &[Input], number: u8, place: usize) {
    for input in calls {
        let outcome = outcome(input);
        let told = (outcome.number(), outcome.place());
        assert_eq!(told, (number, place), "{input:02X?}");
    }
}

/// Asserts that the calls are answered with 13 at the first bad octet of the
/// parameter, whose header stands at `header`; if none is bad, not with 13.
fn judged(calls: &[Input], header: usize, parameter: &[u8]) {
    match bad(parameter).first() {
        Some(first) => refused(calls, 13, header + first.at),
        None => assert!(calls.iter().all(|input| outcome(input).number() != 13)),
    }
}

/// The same in every call that reads a message with this parameter.
fn judged_in_all(parameter: &[u8]) {
    let (message, header) = message(parameter);
    judged(&all_readers(&message), header, parameter);
}

/// The parameter with another octet.
fn with(parameter: &[u8], at: usize, octet: u8) -> Vec<u8> {
    let mut parameter = parameter.to_vec();
    parameter[at] = octet;
    parameter
}

/// The parameter with a bad value in this slot: 15 is neither a digit nor a filler,
/// and `?` no character that may be there.
fn spoilt(parameter: &[u8], slot: Slot) -> Vec<u8> {
    let octet = parameter[slot.at];
    let octet = match slot.part {
        Part::Low => octet | 0x0F,
        Part::High | Part::Filler => octet | 0xF0,
        Part::Character => b'?',
    };
    with(parameter, slot.at, octet)
}

/// The offsets of the octets with digits or characters.
fn offsets(parameter: &[u8]) -> Vec<usize> {
    let mut offsets: Vec<usize> = slots(parameter).iter().map(|slot| slot.at).collect();
    offsets.dedup();
    offsets
}

#[test]
fn sound_ones_are_accepted() {
    for parameter in sound() {
        let (message, _) = message(&parameter);
        let reading = &all_readers(&message)[0];
        assert_eq!(outcome(reading).number(), 0, "{parameter:02X?}");
        assert!(bad(&parameter).is_empty() && !slots(&parameter).is_empty());
    }
}

/// Each octet is put to one of the calls, by turns.
#[test]
fn every_octet_in_every_place() {
    for parameter in sound() {
        for at in offsets(&parameter) {
            for octet in 0..=255 {
                let parameter = with(&parameter, at, octet);
                let (message, header) = message(&parameter);
                let calls = all_readers(&message);
                let turn = (at + usize::from(octet)) % calls.len();
                judged(&calls[turn..=turn], header, &parameter);
            }
        }
    }
}

#[test]
fn every_value_of_every_half_in_every_call() {
    for parameter in sound() {
        for at in offsets(&parameter) {
            for value in 0..16 {
                let octet = parameter[at];
                judged_in_all(&with(&parameter, at, octet & 0xF0 | value));
                judged_in_all(&with(&parameter, at, octet & 0x0F | value << 4));
            }
        }
    }
}

/// Also a digit and its filler, both halves of an octet, and two parameters of one
/// connection order.
#[test]
fn any_two_together() {
    for parameter in sound() {
        let slots = slots(&parameter);
        for (i, first) in slots.iter().enumerate() {
            for second in &slots[i + 1..] {
                let both = spoilt(&spoilt(&parameter, *first), *second);
                assert_eq!(bad(&both)[0].at, first.at);
                judged_in_all(&both);
            }
        }
    }
}

/// The parameters with the most digits that a message has room for.
#[test]
fn anywhere_in_the_longest() {
    let dialled = [&[0x98, 0xFF], &[0x21; 31][..], &[0x05]].concat();
    let number = [&[0xD7, 0xF9, 0x83, 0x11], &[0x21; 246][..], &[0x05]].concat();
    let order = [&[0xE0, 0x83, 0x21, 0x91, 0xFF], &[0x21; 127][..], &[0x05]].concat();
    let code = [&[0xFA, 0xF6, 0xFE, 0xF4, 0x80], &[0x21; 242][..], &[0x05]].concat();
    let carriers = [&[0xCC, 0xF9, 0x01], &code[..]].concat();
    for parameter in [dialled, number, order, carriers] {
        let offsets = offsets(&parameter);
        for slot in slots(&parameter) {
            let every_eighth = slot.at % 8 == 0 || offsets.ends_with(&[slot.at]);
            let parameter = spoilt(&parameter, slot);
            let (message, header) = message(&parameter);
            let calls = all_readers(&message);
            let count = if every_eighth { calls.len() } else { 1 };
            judged(&calls[..count], header, &parameter);
        }
    }
}

/// Two bad parameters, the last octet of the one and the first of the other: the
/// place is in the first.
#[test]
fn two_parameters() {
    let differ = |one: &[u8], other: &[u8]| one[0] & 0x3F != other[0] & 0x3F;
    let all: Vec<Vec<u8>> = sound();
    for one in all.iter().step_by(2) {
        for other in all.iter().skip(1).step_by(2).filter(|o| differ(one, o)) {
            let (last, first) = (slots(one)[slots(one).len() - 1], slots(other)[0]);
            let data = [spoilt(one, last), spoilt(other, first)].concat();
            let message = with_alone(&[&[0x41, 0x00], &data[..]].concat());
            refused(&all_readers(&message), 13, 8 + last.at);
        }
    }
}

/// Other numbers have the place of the header, also beside bad digits.
#[test]
fn other_numbers_at_the_header() {
    let faults: [(&[u8], u8); 23] = [
        (b"\x88\x01\x00", 8),
        (b"\x81\x01\x00", 9),
        (b"\x90\x3F\x00", 11),
        (b"\x90\x41\x00", 12),
        (b"\xA3\x81\x1D", 12),
        (b"\xD7\x02\x83\x11", 12),
        (b"\xDC\x03\x00\x08\xAA", 12),
        (b"\xDC\x03\x80\x0A\x1D", 12),
        (b"\xDA\x03\x06\x83\x11", 12),
        (b"\xF7\x04\x00\x06\x00?", 12),
        (b"\xF7\x05\x00\x05\x00??", 12),
        (b"\xF7\x04\x00\x05\x122", 18),
        (b"\xE0\x04\x31\xD2??", 12),
        (b"\xE0\x05\x2A\x91\x01\x00\x00", 19),
        (b"\xE0\x07\x21\xD2???\x91\x00", 19),
        (b"\xE0\x06\x24\xC9\x03\x11\x04?", 12),
        (b"\xE0\x06\x2E\x92\x03\x01\x11\xAA", 12),
        (b"\xE0\x0A\x31\xC9\x03\x11\x04\x03\xD2???", 12),
        (b"\xCC\x07\x04\xFA\x04\xFE\x02\x00\xAA", 12),
        (b"\xCC\x08\x01\xFA\x04\xFE\x02\x00\xAA\xF8", 12),
        (b"\xCC\x09\x01\xFA\x04\xFE\x02\x00\xAA\xF7\x00", 12),
        (b"\xCC\x0B\x01\xFA\x04\xFE\x02\x80\x1A\xFA\x02\xFE\x00", 12),
        (b"\xCC\x0A\x01\xFA\x07\xFE\x02\x00\xAA\xFE\x01\x80", 12),
    ];
    for (parameter, number) in faults {
        let (message, header) = message(parameter);
        refused(&all_readers(&message), number, header);
    }
    let repeated = with_alone(b"\x90\x01\x01\x90\x01\x00");
    refused(&all_readers(&repeated), 10, FIRST + 3);
}

/// In a connection order 13 of one parameter comes before 12 and 19 of a later one.
#[test]
fn before_other_faults_of_an_order() {
    let orders: [(&[u8], usize); 3] = [
        (b"\xE0\x06\x21\x91\x01\x1D\x91\x00", 5),
        (b"\xE0\x08\x31\xD21?0\xD3\x00\x00", 5),
        (b"\xE0\x08\x31\xD218?\xC9\x03\x11", 6),
    ];
    for (parameter, at) in orders {
        let (message, header) = message(parameter);
        refused(&all_readers(&message), 13, header + at);
    }
}

#[test]
fn digits_written_at_the_header() {
    for header in [0x90, 0x91, 0x95, 0x98, 0xA3, 0xD7, 0xDC, 0xDA] {
        let before: &[u8] = if header == 0xDA { &[0x06] } else { &[] };
        for at in 0..7 {
            for digit in [12, 13, 15, 16, 255] {
                let mut digits = [1; 7];
                digits[at] = digit;
                let image = image(header, &[before, &digits].concat());
                let room = lent();
                refused(&[Input::Write { image, room }], 13, FIRST);
            }
        }
    }
}

#[test]
fn contents_written_at_the_header() {
    for parameter in COUNTED
        .iter()
        .filter(|p| matches!(p[0], 0xF7 | 0xE0 | 0xCC))
    {
        for slot in slots(parameter) {
            let new = spoilt(parameter, slot);
            let [write, ..] = writings(parameter[0], &new[2..], &parameter[2..]);
            refused(&[write], 13, FIRST);
        }
    }
}

#[test]
fn new_ones_at_0() {
    for parameter in sound() {
        for slot in slots(&parameter) {
            let new = spoilt(&parameter, slot);
            let (without, n) = buffer(&EMPTY);
            let append = Input::Append {
                buffer: without,
                n,
                new: new.clone(),
            };
            let (buffer, n) = buffer(&with_alone(&parameter));
            let which = 0;
            let replace = Input::Replace {
                buffer,
                n,
                new,
                which,
            };
            refused(&[append, replace], 13, 0);
        }
    }
}
