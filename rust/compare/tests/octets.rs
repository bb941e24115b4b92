//! The two codecs give the same answers and leave the same octets.

use codec::boundary;
use trial::{answer, Input};

const SEED: u64 = 7;
const COUNT: u64 = 200_000;

#[test]
fn over_many_inputs() {
    let coverage =
        compare::compare(SEED, COUNT, |_| ()).unwrap_or_else(|difference| panic!("{difference}"));
    println!("{coverage}");
    assert_eq!(coverage.lacking(), [""; 0]);
    assert_eq!(coverage.surplus(), [""; 0]);
}

#[test]
fn over_all_code_values() {
    for header in 0..=255 {
        for octet in 0..=255 {
            let input = Input::Class { header, octet };
            assert_eq!(compare::proved(&input), answer(&input), "{input:02X?}");
        }
    }
}

/// The packed form of a refusal.
fn refused(number: u64, place: u64) -> u64 {
    number << 32 | place << 16
}

#[test]
fn lengths_beyond_any_message() {
    let long = vec![0x01; 70_000];
    let mut lent = vec![0x5A; 70_000];
    assert_eq!(boundary::read(&long, &mut lent), refused(1, 0));
    assert_eq!(boundary::write(&long, &mut lent), refused(1, 0));
    assert_eq!(boundary::rows(&long, &mut lent), refused(1, 0));
    assert_eq!(boundary::find_common(&long, 0x01), refused(1, 0));
    assert_eq!(boundary::find_transfer(&long, 0x10, 0), refused(1, 0));
    assert_eq!(boundary::charging(&long, &mut lent), refused(1, 0));
    assert_eq!(boundary::order(&long, &mut lent), refused(1, 0));
    assert_eq!(boundary::profile_read(&long, &mut lent), refused(1, 0));
    assert_eq!(boundary::profile_write(&long, &mut lent), refused(1, 0));
    assert_eq!(boundary::added_classes(&long, &mut lent), refused(1, 0));
    assert_eq!(boundary::carriers(&long, 0, &mut lent), refused(1, 0));
    let digits = boundary::carrier_digits(&long, 0, 0, &mut lent);
    assert_eq!(digits, refused(1, 0));
    for n in [70_001, 1 << 32, usize::MAX] {
        assert_eq!(boundary::replace(&mut lent, n, &long, 0), refused(15, 0));
        assert_eq!(boundary::append(&mut lent, n, &long), refused(15, 0));
        assert_eq!(boundary::remove(&mut lent, n, 0x10, 0), refused(15, 0));
    }
    let removed = boundary::remove(&mut lent, 70_000, 0x10, 0);
    assert_eq!(removed, refused(1, 0));
    assert!(lent.iter().all(|&octet| octet == 0x5A));
}

/// The replacement behind 41, or the parameter CC behind its length octet, has
/// more octets than it can have.
#[test]
fn new_parameters_beyond_any() {
    let message = [0x01, 0x01, 0x06, 0x11, 0xC5, 0x02, 0x41, 0x01, 0x00];
    let before = [&message[..], &[0x5A; 600]].concat();
    let mut buffer = before.clone();
    for more in [257, 258, 511, 512, 65_534, 65_535, 65_536, 65_537, 70_000] {
        let long = |head: &[u8]| [head, &vec![0x01; more]].concat();
        let n = message.len();
        let replaced = boundary::replace(&mut buffer, n, &long(&[0x41]), 0);
        assert_eq!(replaced, refused(11, 0));
        let appended = boundary::append(&mut buffer, n, &long(&[0xCC, 0xFF]));
        assert_eq!(appended, refused(11, 0));
        assert_eq!(buffer, before);
    }
}

#[test]
fn room_beyond_any_message() {
    let message = [0x01, 0x01, 0x06, 0x11, 0xC5, 0x00, 0x00];
    let mut buffer = vec![0x5A; 70_000];
    buffer[..7].copy_from_slice(&message);
    assert_eq!(boundary::append(&mut buffer, 7, &[0x41, 0x01]), 9);
    let edited = [0x01, 0x01, 0x06, 0x11, 0xC5, 0x02, 0x41, 0x01, 0x00, 0x5A];
    assert_eq!(buffer[..10], edited);

    let mut image = vec![0x5A; 70_000];
    let len = boundary::read(&message, &mut image) as usize;
    assert_eq!(len, 1 + 3 * 7);
    assert_eq!(boundary::write(&image[..len], &mut buffer), 7);
    assert_eq!(buffer[..7], message);
    assert_eq!(boundary::rows(&message, &mut image), 4);
    let order = [0x01, 0x01, 0x06, 0x11, 0xC5, 0x03, 0xE0, 0x01, 0x28, 0x00];
    assert_eq!(boundary::order(&order, &mut buffer), 1);
    assert_eq!(buffer[..7], [0x08, 0x00, 0x28, 0x00, 0x00, 0x00, 0x00]);
    for memory in [image, buffer] {
        assert!(memory[len..].iter().all(|&octet| octet == 0x5A));
    }
}

#[test]
fn room_beyond_any_carriers() {
    let message = [
        0x01, 0x01, 0x06, 0x11, 0xC5, 0x09, 0xCC, 0x07, 0x01, 0xFA, 0x04, 0xFE, 0x02, 0x80, 0x07,
        0x00,
    ];
    let [mut table, mut out] = [(); 2].map(|()| vec![0x5A; 70_000]);
    assert_eq!(boundary::carriers(&message, 0, &mut table), 3);
    let rows = [
        [0, 0x01, 8, 0, 0, 0, 0, 0],
        [1, 0xFA, 9, 0, 4, 0, 0, 0],
        [2, 0xFE, 11, 0, 2, 0, 1, 0],
    ];
    assert_eq!(table[..24], rows.concat());
    assert_eq!(boundary::carrier_digits(&message, 0, 2, &mut out), 1);
    assert_eq!(out[0], 7);
    for (memory, len) in [(table, 24), (out, 1)] {
        assert!(memory[len..].iter().all(|&octet| octet == 0x5A));
    }
}

#[test]
fn room_beyond_any_message_of_the_profile() {
    let message = [
        0x01, 0x01, 0x06, 0x11, 0xC5, 0x08, 0x7E, 0x03, 0xFD, 0x00, 0xD6, 0x02, 0xFE, 0x01, 0x00,
    ];
    let [mut image, mut room, mut out] = [(); 3].map(|()| vec![0x5A; 70_000]);
    let len = boundary::profile_read(&message, &mut image) as usize;
    assert_eq!(len, 1 + 3 * 7 + 3 * 11 + 1 + 2);
    assert_eq!(boundary::profile_write(&image[..len], &mut room), 15);
    assert_eq!(room[..15], message);
    assert_eq!(boundary::added_classes(&message, &mut out), 2);
    assert_eq!(out[..2], [0xFE, 0x01]);
    for (memory, len) in [(image, len), (room, 15), (out, 2)] {
        assert!(memory[len..].iter().all(|&octet| octet == 0x5A));
    }
}
