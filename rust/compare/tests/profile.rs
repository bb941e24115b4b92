//! The mobile call profile: every network, signal kind, name and value, and D6 of
//! every length, put to both codecs in every call by the profile. What is to be
//! answered is told by `Call::broken`, which asks neither codec.

mod calls;
#[path = "../../trial/tests/profile/mod.rs"]
mod profile;

use calls::{enquiries, outcome, readings, same_in_all};
use profile::{Call, NAMES};
use trial::record::{Common, Record, Transfer};
use trial::{Input, Outcome};

const PHS: u8 = 2;
const MOBILE: u8 = 3;

/// A call enquiry with this network, an empty FD and, if there is one, this D6.
fn enquiry(network: u8, added: Option<&[u8]>) -> Call {
    Call {
        signal: 0x11,
        network: Some(network),
        region: Some(vec![]),
        added: added.map(<[u8]>::to_vec),
    }
}

/// The headers of the transfer parameters of a call, with their contents.
fn contents(call: &Call) -> Vec<(u8, Vec<u8>)> {
    let network = call.network.map(|octet| (0x7E, vec![octet]));
    let region = call.region.clone().map(|octets| (0xFD, octets));
    let added = call.added.clone().map(|octets| (0xD6, octets));
    [network, region, added].into_iter().flatten().collect()
}

/// C5 with these parameters.
fn data(parameters: &[(u8, Vec<u8>)]) -> Vec<u8> {
    let counted =
        |header: u8, contents: &[u8]| [&[header, contents.len() as u8], contents].concat();
    let octets = |(header, contents): &(u8, Vec<u8>)| match header >> 6 {
        3 => counted(*header, contents),
        _ => [&[*header], &contents[..]].concat(),
    };
    let data: Vec<u8> = parameters.iter().flat_map(octets).collect();
    counted(0xC5, &data)
}

/// A message with the parameters of a call.
fn message(call: &Call) -> Vec<u8> {
    let head = [0x01, 0x01, 0x06, call.signal];
    [&head, &data(&contents(call))[..], &[0x00]].concat()
}

/// The image of the record of such a message.
fn image(call: &Call) -> Vec<u8> {
    let transfer = |(header, values)| Transfer {
        header,
        values,
        ..Transfer::default()
    };
    let transfers = contents(call).into_iter().map(transfer).collect();
    image_of(&[(0x01, 1), (0x06, call.signal.into())], transfers)
}

/// The image of a record with these common parameters, and then a C5.
fn image_of(common: &[(u8, u32)], transfers: Vec<Transfer>) -> Vec<u8> {
    let parameter = |&(header, value): &(u8, u32)| Common {
        header,
        value,
        ..Common::default()
    };
    let mut common: Vec<Common> = common.iter().map(parameter).collect();
    common.push(Common {
        header: 0xC5,
        transfers,
        ..Common::default()
    });
    Record { common }.image()
}

fn read_into(message: &[u8], len: usize) -> Outcome {
    let (message, image) = (message.to_vec(), vec![0xEE; len]);
    outcome(&Input::ProfileRead { message, image })
}

fn written_into(image: &[u8], len: usize) -> Outcome {
    let (image, room) = (image.to_vec(), vec![0xEE; len]);
    outcome(&Input::ProfileWrite { image, room })
}

fn opened_into(message: &[u8], len: usize) -> Outcome {
    let (message, out) = (message.to_vec(), vec![0xEE; len]);
    outcome(&Input::AddedClasses { message, out })
}

/// An outcome with these octets in the front of so many lent ones.
fn giving(octets: &[u8], len: usize) -> Outcome {
    let mut memory = vec![0xEE; len];
    memory[..octets.len()].copy_from_slice(octets);
    let packed = octets.len() as u64;
    Outcome { packed, memory }
}

/// A refusal, so many octets being lent.
fn refusal(number: u64, place: usize, len: usize) -> Outcome {
    Outcome {
        packed: number << 32 | (place as u64) << 16,
        memory: vec![0xEE; len],
    }
}

/// Octets enough for all that is given of a message here.
const AMPLE: usize = 310;

/// Whether the call keeps the rules, by which the three calls are answered; reading
/// accepts its message in any case.
fn judged(call: &Call) -> bool {
    let (message, image) = (message(call), image(call));
    assert_eq!(same_in_all(&readings(&message)), 0, "{call:02X?}");
    let outcomes = [
        read_into(&message, AMPLE),
        written_into(&image, AMPLE),
        opened_into(&message, AMPLE),
    ];
    if !call.broken().is_empty() {
        let refused = refusal(20, message.len() - 1, AMPLE);
        assert_eq!(outcomes, [(); 3].map(|()| refused.clone()), "{call:02X?}");
        return false;
    }
    let opened = match &call.added {
        Some(octets) => giving(octets, AMPLE),
        None => refusal(16, 0, AMPLE),
    };
    let expected = [giving(&image, AMPLE), giving(&message, AMPLE), opened];
    assert_eq!(outcomes, expected, "{call:02X?}");
    true
}

#[test]
fn every_network() {
    let added: [Option<&[u8]>; 5] = [None, Some(&[]), Some(&[0xFE, 1]), Some(&[5, 1]), Some(&[1])];
    for added in added {
        let within = |network: &u8| judged(&enquiry(*network, added));
        let networks: Vec<u8> = (0..=255).filter(within).collect();
        let expected: &[u8] = match added {
            None => &[PHS],
            Some([] | [0xFE, _]) => &[PHS, MOBILE],
            Some(_) => &[],
        };
        assert_eq!(networks, expected, "{added:02X?}");
        let network = None;
        assert!(!judged(&Call {
            network,
            ..enquiry(PHS, added)
        }));
    }
}

#[test]
fn every_signal_kind() {
    let kinds = [
        0x11, 0x12, 0x23, 0x24, 0x25, 0x26, 0x31, 0x61, 0x62, 0x71, 0x72, 0x73, 0x74,
    ];
    for signal in 0..=255 {
        for call in [enquiry(PHS, None), enquiry(MOBILE, Some(&[0xFD, 1]))] {
            let call = Call { signal, ..call };
            if kinds.contains(&signal) {
                assert_eq!(judged(&call), signal == 0x11);
                continue;
            }
            let calls = enquiries(&message(&call)).map(|input| outcome(&input));
            assert_eq!(calls, [(); 2].map(|()| refusal(5, 2, AMPLE)));
            assert_eq!(written_into(&image(&call), AMPLE), refusal(5, 2, AMPLE));
        }
    }
}

#[test]
fn region_of_every_length() {
    for network in [PHS, MOBILE] {
        let call = enquiry(network, Some(&[0x01, 0xFE]));
        for len in 0..=247 {
            let region = Some(vec![len as u8; len]);
            assert!(judged(&Call {
                region,
                ..call.clone()
            }));
        }
        assert!(!judged(&Call {
            region: None,
            ..call
        }));
    }
}

/// Each value under one of the networks, by turns.
#[test]
fn every_name_with_every_value() {
    let mut within = 0;
    for name in 0..=255 {
        for value in 0..=255 {
            let network = [PHS, MOBILE][usize::from(name ^ value) % 2];
            within += usize::from(judged(&enquiry(network, Some(&[name, value]))));
        }
    }
    assert_eq!(within, NAMES.len() * 256);
}

/// A listed name with every other, before it and behind it; what each has for its
/// value is the other.
#[test]
fn every_two_names() {
    let mut within = 0;
    for network in [PHS, MOBILE] {
        for one in NAMES {
            for other in 0..=255 {
                let before = judged(&enquiry(network, Some(&[one, other, other, one])));
                let behind = judged(&enquiry(network, Some(&[other, one, one, other])));
                assert_eq!(before, NAMES.contains(&other) && one != other);
                assert_eq!(behind, before);
                within += usize::from(before);
            }
        }
    }
    assert_eq!(within, 2 * 6 * 5);
}

/// The names in turn, and from the seventh on again.
#[test]
fn of_every_length() {
    for network in [PHS, MOBILE] {
        for len in 0..=249 {
            let octet = |at: usize| match at % 2 {
                0 => NAMES[at / 2 % NAMES.len()],
                _ => at as u8,
            };
            let added: Vec<u8> = (0..len).map(octet).collect();
            let (message, end) = (message(&enquiry(network, Some(&added))), len + 12);
            let expected = match len % 2 == 0 && len <= 12 {
                true => giving(&added, AMPLE),
                false => refusal(20, end, AMPLE),
            };
            assert_eq!(opened_into(&message, AMPLE), expected);
            if len <= 14 {
                assert_eq!(
                    judged(&enquiry(network, Some(&added))),
                    expected.packed >> 32 == 0
                );
            }
        }
    }
}

/// Every choice of names, and each with one more that stands there already.
#[test]
fn every_choice_of_names() {
    for choice in 0..1 << NAMES.len() {
        let chosen = |at: &usize| choice >> at & 1 == 1;
        let names: Vec<u8> = (0..NAMES.len())
            .filter(chosen)
            .map(|at| NAMES[at])
            .collect();
        let added: Vec<u8> = names.iter().flat_map(|&name| [name, !name]).collect();
        assert!(judged(&enquiry(MOBILE, Some(&added))));
        for again in names {
            for at in (0..=added.len()).step_by(2) {
                let mut added = added.clone();
                added.splice(at..at, [again, 0x00]);
                assert!(!judged(&enquiry(PHS, Some(&added))));
            }
        }
    }
}

/// All orders of so many things, each as the places that they take.
fn orders(count: usize) -> Vec<Vec<usize>> {
    let Some(last) = count.checked_sub(1) else {
        return vec![vec![]];
    };
    let mut all = Vec::new();
    for order in orders(last) {
        for at in 0..count {
            let mut order = order.clone();
            order.insert(at, last);
            all.push(order);
        }
    }
    all
}

#[test]
fn all_names_in_every_order() {
    for order in orders(NAMES.len()) {
        let pair = |&at: &usize| [NAMES[at], at as u8];
        let added: Vec<u8> = order.iter().flat_map(pair).collect();
        assert!(judged(&enquiry(MOBILE, Some(&added))));
    }
}

/// The parameters of C5 and the common ones in every order, with others among them;
/// the place is that of the end mark.
#[test]
fn in_every_place() {
    for (added, is_in) in [(&[0xFE, 0x01][..], true), (&[0x05, 0x01], false)] {
        let mut parameters = contents(&enquiry(MOBILE, Some(added)));
        parameters.extend([(0x41, vec![0x00]), (0xCE, vec![0xD6, 0x00, 0x7E])]);
        for order in orders(parameters.len()) {
            let ordered: Vec<_> = order.iter().map(|&at| parameters[at].clone()).collect();
            let mut common = [
                vec![0x01, 0x01],
                vec![0x06, 0x11],
                vec![0x83, 0x06, 0x12, 0x00],
                data(&ordered),
            ];
            common.rotate_left(order[0] % 4);
            let message = [&common.concat()[..], &[0x00]].concat();
            let read = read_into(&message, AMPLE);
            let expected = match is_in {
                true => (0, 0),
                false => (20, message.len() - 1),
            };
            assert_eq!((read.number(), read.place()), expected);
            let opened = match is_in {
                true => giving(added, AMPLE),
                false => refusal(20, message.len() - 1, AMPLE),
            };
            assert_eq!(opened_into(&message, AMPLE), opened);
        }
    }
}

/// A message of 272 octets with this network.
fn longest(network: u8) -> Vec<u8> {
    let added = NAMES.map(|name| [name, name]).concat();
    let call = Call {
        region: Some(vec![0x7E; 237]),
        ..enquiry(network, Some(&added))
    };
    let common = [
        &[0x82, 0x01, 0x02, 0x03, 0x83, 0x04, 0x05, 0x06][..],
        &[0x01, 0x01, 0x04, 0x81, 0x06, 0x11],
    ];
    [&common.concat(), &data(&contents(&call))[..], &[0x00]].concat()
}

#[test]
fn of_272_octets() {
    for (network, is_in) in [(PHS, true), (MOBILE, true), (4, false)] {
        let message = longest(network);
        assert_eq!(message.len(), 272);
        let read = outcome(&Input::Read {
            message: message.clone(),
            image: vec![0xEE; 1200],
        });
        let image = &read.memory[..read.value()];
        let filled = |octets: &[u8], len: usize| match is_in {
            false => refusal(20, 271, len),
            true if len < octets.len() => refusal(15, 0, len),
            true => giving(octets, len),
        };
        for more in 0..5 {
            let (image_len, room_len) = (image.len() - 2 + more, 270 + more);
            assert_eq!(read_into(&message, image_len), filled(image, image_len));
            assert_eq!(written_into(image, room_len), filled(&message, room_len));
        }
    }
}

/// 15 is the last of the refusals, and 20 comes before 16.
#[test]
fn into_octets_of_every_length() {
    let calls = [
        enquiry(PHS, None),
        enquiry(PHS, Some(&[])),
        enquiry(MOBILE, Some(&[0xFE, 0x01])),
        enquiry(MOBILE, Some(&NAMES.map(|name| [name, 0x01]).concat())),
        enquiry(MOBILE, None),
        enquiry(PHS, Some(&[0x01])),
    ];
    for call in calls {
        let (message, image) = (message(&call), image(&call));
        let is_in = call.broken().is_empty();
        let filled = |octets: &[u8], len: usize| match is_in {
            false => refusal(20, message.len() - 1, len),
            true if len < octets.len() => refusal(15, 0, len),
            true => giving(octets, len),
        };
        for len in 0..=image.len() + 2 {
            assert_eq!(read_into(&message, len), filled(&image, len));
            assert_eq!(written_into(&image, len), filled(&message, len));
            let opened = match &call.added {
                Some(octets) => filled(octets, len),
                None if is_in => refusal(16, 0, len),
                None => refusal(20, message.len() - 1, len),
            };
            assert_eq!(opened_into(&message, len), opened);
        }
    }
}

/// Reading's numbers and places come first, whatever rules are not kept beside.
#[test]
fn after_all_of_reading() {
    let refused: [(&[u8], u64, usize); 16] = [
        (b"", 1, 0),
        (b"\x01\x01\x06\x12\x07\x00", 2, 4),
        (b"\x01\x01\x06\x12\x06\x11\x00", 3, 4),
        (b"\x01\x01\x06\x12", 4, 4),
        (b"\x01\x01\x06\x12\xC5\x04\x7E\x02\xFD", 4, 4),
        (b"\x01\x01\x06\x12\x04\x02\x00", 5, 4),
        (b"\x06\x12\x00", 6, 2),
        (b"\x01\x01\x06\x12\x00\x00", 7, 5),
        (b"\x01\x01\x06\x11\xC5\x03\x7E\x04\x08\x00", 8, 8),
        (b"\x01\x01\x06\x11\xC5\x03\x7E\x04\x56\x00", 9, 8),
        (b"\x01\x01\x06\x11\xC5\x04\x7E\x04\x7E\x02\x00", 10, 8),
        (b"\x01\x01\x06\x11\xC5\x05\x7E\x04\xD6\x02\x01\x00", 11, 8),
        (
            b"\x01\x01\x06\x11\xC5\x06\xD6\x02\x05\x01\x41\x02\x00",
            12,
            10,
        ),
        (
            b"\x01\x01\x06\x11\xC5\x07\xD6\x02\x05\x01\x90\x01\x00\x00",
            13,
            12,
        ),
        (b"\x01\x01\x06\x12\xC5\x06\xF7\x04\x00\x05\x122\x00", 18, 6),
        (b"\x01\x01\x06\x12\xC5\x03\xE0\x01\x2A\x00", 19, 6),
    ];
    for (message, number, place) in refused {
        for len in [0, AMPLE] {
            assert_eq!(read_into(message, len), refusal(number, place, len));
            assert_eq!(opened_into(message, len), refusal(number, place, len));
        }
    }
}

/// The image of a record, and the number and place with which writing refuses it.
type Refused = (Vec<u8>, u64, usize);

/// Records that are not in the profile, refused by a common parameter; C5 stands
/// behind all others.
fn refused_by_common() -> [Refused; 7] {
    type Held = (u8, u32);
    let record = |common: &[Held], number, place| (image_of(common, vec![]), number, place);
    [
        record(&[(0x01, 1); 6], 1, 0),
        record(&[(0x01, 1), (0x06, 0x12), (0x07, 0)], 2, 4),
        record(&[(0x06, 0x12), (0x01, 1), (0x01, 1)], 3, 4),
        record(&[(0x01, 1), (0x06, 0x111)], 5, 2),
        record(&[(0x01, 1), (0x06, 0x12), (0x83, 1 << 24)], 12, 4),
        record(&[(0x06, 0x12)], 6, 4),
        record(&[(0x83, 1), (0x01, 1)], 6, 8),
    ]
}

/// The same, refused by a transfer parameter, or by all of them together.
fn refused_by_transfer() -> [Refused; 10] {
    type Held<'v> = (u8, &'v [u8]);
    let record = |held: &[Held], number, place| {
        let transfer = |&(header, values): &Held| Transfer {
            header,
            values: values.to_vec(),
            ..Transfer::default()
        };
        let transfers = held.iter().map(transfer).collect();
        let image = image_of(&[(0x01, 1), (0x06, 0x11)], transfers);
        (image, number, place)
    };
    [
        record(&[(0xCE, &[0; 256])], 1, 0),
        record(&[(0x7E, &[4]), (0x08, &[])], 8, 8),
        record(&[(0x7E, &[4]), (0x16, &[])], 9, 8),
        record(&[(0xD6, &[5]), (0xD6, &[])], 10, 9),
        record(&[(0x7E, &[4, 2])], 11, 6),
        record(&[(0xD6, &[5]), (0x41, &[2])], 12, 9),
        record(&[(0xD6, &[5]), (0x90, &[12])], 13, 9),
        record(&[(0xD6, &[5; 120]), (0xFD, &[0; 132])], 14, 4),
        record(&[(0xF7, &[0, 5, 0x12, b'2'])], 18, 6),
        record(&[(0xE0, &[0x2A])], 19, 6),
    ]
}

/// Writing's numbers and places come first, 6 too.
#[test]
fn after_all_of_writing() {
    let all = refused_by_common().into_iter().chain(refused_by_transfer());
    for (image, number, place) in all {
        for len in [0, AMPLE] {
            assert_eq!(written_into(&image, len), refusal(number, place, len));
        }
    }
}

/// An image that is not whole, or has an octet left over, is 1 at 0, in the profile
/// and not.
#[test]
fn of_no_whole_image() {
    for call in [enquiry(MOBILE, Some(&[0xFE, 0x01])), enquiry(MOBILE, None)] {
        let image = image(&call);
        for end in 0..image.len() {
            assert_eq!(written_into(&image[..end], AMPLE), refusal(1, 0, AMPLE));
        }
        let more = [&image[..], &[0x00]].concat();
        assert_eq!(written_into(&more, AMPLE), refusal(1, 0, AMPLE));
    }
}

/// Every octet of a message in the profile, and every other in its place: the answer
/// is that of reading, or by the rules.
#[test]
fn with_every_octet_in_every_place() {
    let sound = message(&enquiry(MOBILE, Some(&[0xFE, 0x01, 0x02, 0xFE])));
    for at in 0..sound.len() {
        for octet in 0..=255 {
            let mut message = sound.clone();
            message[at] = octet;
            let [read, opened] = enquiries(&message).map(|input| outcome(&input));
            let reading = same_in_all(&readings(&message));
            let broken = reading == 0 && !profile::call_in(&message).broken().is_empty();
            let number = if broken { 20 } else { reading };
            assert_eq!(read.number(), number, "{message:02X?}");
            let absent = number == 0 && profile::call_in(&message).added.is_none();
            assert_eq!(opened.number(), if absent { 16 } else { number });
        }
    }
}
