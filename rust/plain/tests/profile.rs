//! The mobile call profile: each of its rules from both sides, and the order of
//! the refusals.

mod support;

use plain::{added_classes, profile_read, profile_write, read, write};
use plain::{AddedClass, AddedName, Network, Record, Refusal, Transfer};
use support::{octets, record, transfer};

/// The transfer parameters of a call from each of the networks.
const PHS: &str = "7E 02 FD 03 84 21 43";
const MOBILE: &str = "7E 03 D6 04 FD 01 FC 08 FD 03 84 21 43";

/// A message with this signal kind and these transfer parameters.
fn message(signal: u8, parameters: &str) -> Vec<u8> {
    let data = octets(parameters);
    let head = [0x01, 0x01, 0x06, signal, 0xC5, data.len() as u8];
    [&head, &data[..], &[0x00]].concat()
}

/// The added classes of these names and values.
fn classes(pairs: &[(AddedName, u8)]) -> Vec<AddedClass> {
    let class = |&(name, value): &(AddedName, u8)| AddedClass { name, value };
    pairs.iter().map(class).collect()
}

/// The message that is written of a record by the profile.
fn written(record: &Record) -> Result<Vec<u8>, Refusal> {
    let mut room = [0; 272];
    let len = profile_write(record, &mut room)?;
    Ok(room[..len].to_vec())
}

/// What the profile tells of a message that reading accepts: the network and the
/// added classes, none if it refuses it. It refuses with 20 at the end mark, in
/// reading, in writing and where the added classes are asked for.
fn told(message: &[u8]) -> Option<(Network, Option<Vec<AddedClass>>)> {
    let record = read(message).expect("a message that reading accepts");
    let refused = Refusal::new(20, message.len() - 1);
    match profile_read(message) {
        Ok(profile) => {
            assert_eq!(profile.record, record);
            assert_eq!(written(&record).as_deref(), Ok(message));
            let absent = Refusal::new(16, 0);
            assert_eq!(added_classes(message), profile.added.clone().ok_or(absent));
            Some((profile.network, profile.added))
        }
        Err(refusal) => {
            assert_eq!(refusal, refused, "{message:02X?}");
            assert_eq!(written(&record), Err(refused));
            assert_eq!(added_classes(message), Err(refused));
            None
        }
    }
}

/// Whether a call enquiry with these transfer parameters is in the profile.
fn is_in(parameters: &str) -> bool {
    told(&message(0x11, parameters)).is_some()
}

#[test]
fn network_and_added_classes() {
    assert_eq!(told(&message(0x11, PHS)), Some((Network::Phs, None)));
    let pairs = [(AddedName::Mobile1, 0x01), (AddedName::Mobile2, 0x08)];
    let mobile = Some((Network::Mobile, Some(classes(&pairs))));
    assert_eq!(told(&message(0x11, MOBILE)), mobile);
}

#[test]
fn signal_kind_11_alone() {
    let kinds = [
        0x11, 0x12, 0x23, 0x24, 0x25, 0x26, 0x31, 0x61, 0x62, 0x71, 0x72, 0x73, 0x74,
    ];
    for kind in kinds {
        for parameters in [PHS, MOBILE] {
            assert_eq!(told(&message(kind, parameters)).is_some(), kind == 0x11);
        }
    }
}

#[test]
fn network_2_or_3() {
    for octet in 0..=255 {
        let with = |rest: &str| is_in(&format!("7E {octet:02X} {rest}"));
        assert_eq!(with("FD 00"), octet == 2, "{octet:02X}");
        assert_eq!(with("FD 00 D6 00"), matches!(octet, 2 | 3), "{octet:02X}");
    }
    assert!(!is_in("FD 00 D6 00"));
}

#[test]
fn region_of_any_contents() {
    for network in ["7E 02", "7E 03 D6 00"] {
        assert!(!is_in(network));
        for region in ["FD 00", "FD 01 00", "FD 04 01 02 03 04"] {
            assert!(is_in(&format!("{network} {region}")));
            assert!(is_in(&format!("{region} {network}")));
        }
    }
}

#[test]
fn added_classes_of_a_mobile_call() {
    assert!(!is_in("7E 03 FD 00"));
    assert!(is_in("7E 03 FD 00 D6 00"));
    assert!(is_in("7E 03 FD 00 D6 02 FE 01"));
    let empty = told(&message(0x11, "7E 02 FD 00 D6 00"));
    assert_eq!(empty, Some((Network::Phs, Some(vec![]))));
}

/// In the order in which they come; what stands in a value is no name.
#[test]
fn pairs_of_name_and_value() {
    use AddedName::{Fixed1, LongDistance1, LongDistance2, Mobile1, Mobile2, Mobile3};
    let sound: [(&str, &[(AddedName, u8)]); 8] = [
        ("00", &[]),
        ("02 FE 01", &[(Fixed1, 0x01)]),
        ("02 01 FE", &[(LongDistance1, 0xFE)]),
        ("02 01 05", &[(LongDistance1, 0x05)]),
        ("02 01 01", &[(LongDistance1, 0x01)]),
        (
            "04 01 FE 02 FE",
            &[(LongDistance1, 0xFE), (LongDistance2, 0xFE)],
        ),
        ("04 FE 02 02 FE", &[(Fixed1, 0x02), (LongDistance2, 0xFE)]),
        (
            "0C FC FF FB FB 02 00 FE 01 01 80 FD 05",
            &[
                (Mobile2, 0xFF),
                (Mobile3, 0xFB),
                (LongDistance2, 0x00),
                (Fixed1, 0x01),
                (LongDistance1, 0x80),
                (Mobile1, 0x05),
            ],
        ),
    ];
    for (network, octet) in [(Network::Phs, 2), (Network::Mobile, 3)] {
        for (added, pairs) in sound {
            let message = message(0x11, &format!("7E {octet:02X} FD 00 D6 {added}"));
            let expected = (network, Some(classes(pairs)));
            assert_eq!(told(&message), Some(expected), "{added}");
        }
    }
}

#[test]
fn no_pairs() {
    let faulty = [
        "01 01",
        "03 FE 01 01",
        "0D 01 00 02 00 FB 00 FC 00 FD 00 FE 00 01",
        "02 00 01",
        "02 03 01",
        "02 05 01",
        "02 80 FE",
        "02 FA FB",
        "02 FF FE",
        "04 FE 01 05 01",
        "04 FE 01 FE 02",
        "04 01 02 01 02",
        "06 01 02 02 01 01 FE",
        "0E 01 00 02 00 FB 00 FC 00 FD 00 FE 00 01 00",
    ];
    for added in faulty {
        for network in ["7E 02", "7E 03"] {
            assert!(!is_in(&format!("{network} FD 00 D6 {added}")), "{added}");
        }
    }
}

/// The place is that of the end mark, wherever the common parameters stand.
#[test]
fn at_the_end_mark() {
    let sound = octets("C5 07 7E 03 FD 00 D6 01 01 83 39 30 00 06 11 04 81 01 01 00");
    assert_eq!(profile_read(&sound), Err(Refusal::new(20, 19)));
    let bare = octets("01 01 06 11 00");
    assert_eq!(profile_read(&bare), Err(Refusal::new(20, 4)));
    let full = [
        &octets("01 01 82 01 02 03 83 04 05 06 04 01 06 11 C5 FF 7E 02 CE FB")[..],
        &[0x00; 252],
    ];
    assert_eq!(profile_read(&full.concat()), Err(Refusal::new(20, 271)));
}

/// None of these is in the profile, and reading refuses each.
#[test]
fn after_all_of_reading() {
    let refused = [
        ("", 1, 0),
        ("01 01 06 12 07 00", 2, 4),
        ("01 01 06 12 06 11 00", 3, 4),
        ("01 01 06 12", 4, 4),
        ("01 01 06 13 00", 5, 2),
        ("06 12 00", 6, 2),
        ("01 01 06 12 00 00", 7, 5),
        ("01 01 06 11 C5 03 7E 04 08 00", 8, 8),
        ("01 01 06 11 C5 03 7E 04 56 00", 9, 8),
        ("01 01 06 11 C5 04 7E 04 7E 02 00", 10, 8),
        ("01 01 06 11 C5 04 D6 02 05 01 D6 00", 2, 10),
        ("01 01 06 11 C5 03 D6 02 01 00", 11, 6),
        ("01 01 06 11 C5 06 D6 02 05 01 41 02 00", 12, 10),
        ("01 01 06 11 C5 07 D6 02 05 01 90 01 00 00", 13, 12),
        ("01 01 06 12 C5 06 F7 04 00 05 12 32 00", 18, 6),
        ("01 01 06 12 C5 03 E0 01 2A 00", 19, 6),
    ];
    for (message, number, place) in refused {
        let (message, refused) = (octets(message), Refusal::new(number, place));
        assert_eq!(read(&message), Err(refused));
        assert_eq!(profile_read(&message), Err(refused));
        assert_eq!(added_classes(&message), Err(refused));
    }
}

/// A record of a call that comes from no network.
fn stray(common: &[(u8, u32)], transfers: &[(Transfer, &[u8])]) -> Record {
    let common = [&[(0x01, 1), (0x06, 0x11)], common].concat();
    record(&common, transfers)
}

/// Records that are out of the profile, each with the number by which writing
/// refuses it.
fn not_written() -> Vec<(Record, u8)> {
    let one = |header, values| stray(&[(0xC5, 0)], &[(transfer(header), values)]);
    let twice = [(transfer(0x41), &[0][..]), (transfer(0x41), &[0])];
    let wide = [(transfer(0xCE), &[0; 127][..]), (transfer(0xCD), &[0; 127])];
    vec![
        (one(0xCE, &[0; 256]), 1),
        (stray(&[(0x07, 0)], &[]), 2),
        (stray(&[(0x01, 1)], &[]), 3),
        (stray(&[(0x04, 2)], &[]), 5),
        (record(&[(0x06, 0x11)], &[]), 6),
        (record(&[(0x01, 1)], &[]), 6),
        (one(0x08, &[]), 8),
        (one(0x81, &[0]), 9),
        (stray(&[(0xC5, 0)], &twice), 10),
        (one(0x41, &[0, 0]), 11),
        (one(0x41, &[2]), 12),
        (stray(&[(0x83, 0x0100_0000)], &[]), 12),
        (one(0x90, &[12]), 13),
        (stray(&[(0xC5, 0)], &wide), 14),
        (one(0xF7, &[0, 5, 0x12, b'2']), 18),
        (one(0xE0, &[0x2A]), 19),
    ]
}

#[test]
fn after_all_of_writing() {
    for (record, number) in not_written() {
        for len in [0, 300] {
            let mut room = vec![0xEE; len];
            let refused = write(&record, &mut room).unwrap_err();
            assert_eq!(refused.number, number, "{record:?}");
            assert_eq!(profile_write(&record, &mut room), Err(refused));
            assert_eq!(room, vec![0xEE; len]);
        }
    }
}

/// 20 comes before 15, and a refusal leaves the room as it was.
#[test]
fn before_the_room() {
    for (parameters, is_in) in [(PHS, true), (MOBILE, true), ("7E 03 FD 00", false)] {
        let message = message(0x11, parameters);
        let record = read(&message).unwrap();
        for len in 0..message.len() + 3 {
            let mut room = vec![0xEE; len];
            let expected = match is_in {
                false => Err(Refusal::new(20, message.len() - 1)),
                true if len < message.len() => Err(Refusal::new(15, 0)),
                true => Ok(message.len()),
            };
            assert_eq!(profile_write(&record, &mut room), expected);
            let kept = expected.unwrap_or(0);
            assert_eq!(room[..kept], message[..kept]);
            assert!(room[kept..].iter().all(|&octet| octet == 0xEE));
        }
    }
}

/// What a record holds of a parameter under another than C5 is no part of it.
#[test]
fn transfer_parameters_of_c5_alone() {
    let call: [(Transfer, &[u8]); 2] = [(transfer(0x7E), &[2]), (transfer(0xFD), &[])];
    let mut outside = record(&[(0x06, 0x11), (0x01, 1)], &call);
    outside.push_common(0xC5, 0);
    assert_eq!(written(&outside), Err(Refusal::new(20, 6)));

    let mut inside = record(&[(0x06, 0x11), (0x01, 1)], &[(transfer(0xD6), &[5])]);
    inside.push_common(0xC5, 0);
    for (parameter, values) in call {
        inside.push_transfer(parameter, values);
    }
    let message = octets("06 11 01 01 C5 04 7E 02 FD 00 00");
    assert_eq!(written(&inside), Ok(message));
}

#[test]
fn absent_after_the_profile() {
    assert_eq!(added_classes(&message(0x11, PHS)), Err(Refusal::new(16, 0)));
    let refused = Err(Refusal::new(20, 8));
    assert_eq!(added_classes(&message(0x11, "FD 00")), refused);
    assert_eq!(added_classes(&message(0x12, "FD 00")), refused);
}
