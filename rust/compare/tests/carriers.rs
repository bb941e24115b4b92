//! The carriers: every tag, length and octet, put to both codecs in every call that
//! reads or writes them; up to three of them, and which one is meant. What is to be
//! answered is told by `entries`, which asks neither codec.

mod calls;
#[path = "../../trial/tests/entries/mod.rs"]
mod entries;
mod opened;

use calls::{outcome, readings, same, same_in_all};
use entries::{told, Row, Told};
use opened::{parameter, EMPTY};
use plain::carriers::CARRIER_ROW_LIMIT;
use plain::transfer::{layout_of, Layout, CARRIERS};
use trial::messages::with_alone;
use trial::outcome::CARRIER_ROW_LEN;
use trial::record::Record;
use trial::{Input, Outcome};

/// The name of the carriers.
const NAME: u8 = 0x0C;

/// Where the header of CC, and its contents, stand in a message with nothing before
/// it in C5.
const HEADER: usize = 6;
const CONTENTS: usize = 8;

fn opening(message: &[u8], which: usize, len: usize) -> Input {
    Input::Carriers {
        message: message.to_vec(),
        which,
        table: vec![0xEE; len],
    }
}

fn digits_of(message: &[u8], which: usize, row: usize, len: usize) -> Input {
    Input::CarrierDigits {
        message: message.to_vec(),
        which,
        row,
        out: vec![0xEE; len],
    }
}

/// Octets enough for the rows, and for the digits, of any CC.
const TABLE: usize = CARRIER_ROW_LEN * CARRIER_ROW_LIMIT + 3;
const OUT: usize = 500;

/// An outcome with this value, and these octets in the front of so many lent ones.
fn giving(value: usize, octets: &[u8], len: usize) -> Outcome {
    let mut memory = vec![0xEE; len];
    memory[..octets.len()].copy_from_slice(octets);
    let packed = value as u64;
    Outcome { packed, memory }
}

/// A refusal, so many octets being lent.
fn refusal(number: u64, place: usize, len: usize) -> Outcome {
    Outcome {
        packed: number << 32 | (place as u64) << 16,
        memory: vec![0xEE; len],
    }
}

/// The octets of rows in a table, of a CC whose contents start at `start`.
fn table_of(rows: &[Row], start: usize) -> Vec<u8> {
    let octets = |row: &Row| {
        let digits = row.digits.as_ref().map_or(0, Vec::len);
        let numbers = [start + row.offset, row.len, digits];
        let numbers = numbers.map(|number| (number as u16).to_le_bytes());
        [&[row.level, row.tag], &numbers.concat()[..]].concat()
    };
    rows.iter().flat_map(octets).collect()
}

/// Whether the contents are sound, by which both calls that open them are answered.
fn is_opened(contents: &[u8]) -> bool {
    let message = with_alone(&parameter(CARRIERS, contents));
    let opened = outcome(&opening(&message, 0, TABLE));
    let expected = |len| match told(contents) {
        Told::Form => refusal(12, HEADER, len),
        Told::Digit(at) => refusal(13, CONTENTS + at, len),
        Told::Rows(rows) => {
            let table = table_of(&rows, CONTENTS);
            giving(rows.len(), &table, len)
        }
    };
    assert_eq!(opened, expected(TABLE), "{contents:02X?}");
    let Told::Rows(rows) = told(contents) else {
        let digits = outcome(&digits_of(&message, 0, 0, OUT));
        assert_eq!(digits, expected(OUT), "{contents:02X?}");
        return false;
    };
    for (index, row) in rows.iter().enumerate() {
        let expected = match &row.digits {
            Some(digits) => giving(digits.len(), digits, OUT),
            None => refusal(16, 0, OUT),
        };
        let digits = outcome(&digits_of(&message, 0, index, OUT));
        assert_eq!(digits, expected, "{contents:02X?} {index}");
    }
    true
}

/// The same, with the calls that read and write the contents answered by it, too.
fn judged(contents: &[u8]) -> bool {
    let is_sound = is_opened(contents);
    let message = with_alone(&parameter(CARRIERS, contents));
    let mut calls = readings(&message).to_vec();
    calls.extend(opened::writings(CARRIERS, contents, &[0x00]));
    let number = same_in_all(&calls);
    let expected = match told(contents) {
        Told::Form => 12,
        Told::Digit(_) => 13,
        Told::Rows(_) => 0,
    };
    assert_eq!(number, expected, "{contents:02X?}");
    is_sound
}

/// How many of the contents are sound, that the alphabet gives with this length.
fn sound_of(alphabet: &[u8], len: usize, judge: fn(&[u8]) -> bool) -> usize {
    let mut count = 0;
    let mut chosen = vec![0; len];
    loop {
        let contents: Vec<u8> = chosen.iter().map(|&at| alphabet[at]).collect();
        count += usize::from(judge(&contents));
        let Some(at) = chosen.iter().rposition(|&at| at + 1 < alphabet.len()) else {
            return count;
        };
        chosen[at] += 1;
        chosen[at + 1..].fill(0);
    }
}

fn all_octets() -> Vec<u8> {
    (0..=255).collect()
}

/// No octet, one and two: a direction alone is sound, and nothing more of two octets.
#[test]
fn all_of_two_octets() {
    assert!(!judged(&[]));
    assert_eq!(sound_of(&all_octets(), 1, judged), 4);
    assert_eq!(sound_of(&all_octets(), 2, is_opened), 0);
}

/// Directions, tags, lengths and the first octets of codes, on both sides of their
/// limits, in every order.
#[test]
fn all_of_six_octets_among_some() {
    let alphabet = [
        0x00, 0x01, 0x02, 0x03, 0x04, 0x80, 0xF7, 0xF8, 0xFB, 0xFC, 0xFE, 0xFF,
    ];
    let counts: Vec<usize> = (0..=5)
        .map(|len| sound_of(&alphabet, len, is_opened))
        .collect();
    assert_eq!(counts[..5], [0, 4, 0, 4 * 4, 0]);
    assert!(counts[5] > 4 * 16);
    let alphabet = [0x01, 0x02, 0x03, 0x80, 0xFA, 0xFC, 0xFE];
    assert!(sound_of(&alphabet, 6, is_opened) > 0);
}

/// What a code of two octets holds.
#[test]
fn all_codes_of_two_octets() {
    let code = |held: &[u8]| {
        let dependent = parameter(0xFE, held);
        [&[0x01], &parameter(0xFA, &dependent)[..]].concat()
    };
    assert!(!judged(&code(&[])));
    let alone = (0..=255).filter(|&first| judged(&code(&[first])));
    assert_eq!(alone.collect::<Vec<u8>>(), [0x00]);
    let mut sound = 0;
    for first in 0..=255 {
        for octet in 0..=255 {
            sound += usize::from(is_opened(&code(&[first, octet])));
        }
    }
    assert_eq!(sound, 100 + 10);
}

/// The octets of a code's digits, of an even and of an odd count.
#[test]
fn all_digits_of_two_octets() {
    for (first, expected) in [(0x00, 100 * 100), (0x80, 100 * 10)] {
        let mut sound = 0;
        for one in 0..=255 {
            for other in 0..=255 {
                let contents = [0x02, 0xFE, 0x05, 0xFE, 0x03, first, one, other];
                sound += usize::from(is_opened(&contents));
            }
        }
        assert_eq!(sound, expected);
    }
}

/// Sound contents with all that they can have.
const SOUND: [&[u8]; 8] = [
    &[0x03],
    &[0x01, 0xF8, 0x00],
    &[0x00, 0xFA, 0x02, 0xFC, 0x00],
    &[0x02, 0xFB, 0x05, 0xFE, 0x03, 0x00, 0x21, 0x90],
    &[0x01, 0xFE, 0x05, 0xFE, 0x03, 0x80, 0x21, 0x03],
    &[0x01, 0xFD, 0x04, 0xFD, 0x02, 0xFE, 0x00, 0xF9, 0x00],
    &[
        0x03, 0xFB, 0x0A, 0xFE, 0x02, 0x80, 0x09, 0xFC, 0x01, 0xAA, 0xFE, 0x01, 0x00, 0xF8, 0x00,
        0xFE, 0x04, 0xFE, 0x02, 0x00, 0x99,
    ],
    &[
        0x00, 0xFA, 0x00, 0xFA, 0x06, 0xFD, 0x00, 0xFE, 0x02, 0x80, 0x00, 0xFA, 0x04, 0xFC, 0x02,
        0xFE, 0x00,
    ],
];

#[test]
fn with_every_octet_in_every_place() {
    for contents in SOUND {
        assert!(judged(contents), "{contents:02X?}");
        for at in 0..contents.len() {
            for octet in 0..=255 {
                let mut contents = contents.to_vec();
                contents[at] = octet;
                judged(&contents);
            }
        }
    }
}

/// Any two octets of one with two codes, among those that count.
#[test]
fn with_any_two_octets_among_some() {
    let contents = [
        0x01, 0xFA, 0x08, 0xFE, 0x02, 0x80, 0x07, 0xFE, 0x02, 0x00, 0x21, 0xFB, 0x00,
    ];
    assert!(judged(&contents));
    let some = [
        0x00, 0x01, 0x02, 0x04, 0x0A, 0x10, 0x80, 0xA0, 0xF8, 0xFC, 0xFE,
    ];
    for first in 0..contents.len() {
        for second in first + 1..contents.len() {
            for one in some {
                for other in some {
                    let mut contents = contents;
                    (contents[first], contents[second]) = (one, other);
                    is_opened(&contents);
                }
            }
        }
    }
}

#[test]
fn cut_everywhere_and_with_every_octet_more() {
    for contents in SOUND {
        for len in 0..contents.len() {
            judged(&contents[..len]);
        }
        for octet in 0..=255 {
            judged(&[contents, &[octet]].concat());
        }
    }
}

/// Every length octet at either level, with just so many octets behind it, one fewer
/// or one more, and the outer length right or told by one too high or too low.
#[test]
fn of_every_length() {
    for told_len in 0..=248u8 {
        let right = usize::from(told_len);
        for len in right.saturating_sub(1)..=right + 1 {
            let dependent = [&[0xFD, told_len], &vec![0xAA; len][..]].concat();
            for more in [0, 1, 2] {
                let outer = (dependent.len() + more).saturating_sub(1) as u8;
                let contents = [&[0x01, 0xFA, outer], &dependent[..]].concat();
                if contents.len() <= 253 {
                    let is_sound = judged(&contents);
                    assert_eq!(is_sound, len == right && more == 1, "{contents:02X?}");
                }
            }
        }
    }
}

/// A code with each count of digits, from none to the most of which there is room.
#[test]
fn codes_of_every_count() {
    for count in 0..=494usize {
        let codes: Vec<u8> = (0..count).map(|at| (at % 10) as u8).collect();
        let pair = |pair: &[u8]| pair[0] | pair.get(1).unwrap_or(&0) << 4;
        let digits: Vec<u8> = codes.chunks(2).map(pair).collect();
        let held = [&[(count as u8 & 1) << 7], &digits[..]].concat();
        let contents = [&[0x01], &parameter(0xFE, &parameter(0xFE, &held))[..]].concat();
        assert!(judged(&contents), "{count}");
        let message = with_alone(&parameter(CARRIERS, &contents));
        for len in count.saturating_sub(1)..=count + 1 {
            let expected = match len < count {
                true => refusal(15, 0, len),
                false => giving(count, &codes, len),
            };
            assert_eq!(outcome(&digits_of(&message, 0, 2, len)), expected);
        }
    }
}

/// Entries that are all empty, at either level, as many as there is room for.
#[test]
fn of_every_count_of_rows() {
    for count in 0..=126usize {
        let outer = [vec![0x00], [0xF9, 0x00].repeat(count)].concat();
        assert!(judged(&outer), "{count}");
        if count > 0 {
            let inner = parameter(0xFC, &[0xFD, 0x00].repeat(count - 1));
            assert!(judged(&[&[0x03], &inner[..]].concat()), "{count}");
        }
        let message = with_alone(&parameter(CARRIERS, &outer));
        for len in 0..=CARRIER_ROW_LEN * (count + 2) {
            let number = same(&opening(&message, 0, len));
            let is_short = len < CARRIER_ROW_LEN * (count + 1);
            assert_eq!(number, if is_short { 15 } else { 0 });
        }
    }
}

/// Edits and records can have contents that no message has room for.
#[test]
fn longer_than_any_message() {
    for len in 245..=255usize {
        let carried = parameter(0xFC, &vec![0xFE; len - 5]);
        let sound = [&[0x01], &parameter(0xFE, &carried)[..]].concat();
        let mut faulty = sound.clone();
        faulty[1] = 0xF7;
        let expected = if len <= 253 { 0 } else { 14 };
        for (contents, expected) in [(sound, expected), (faulty, 12)] {
            let calls = opened::writings(CARRIERS, &contents, &[0x00]);
            assert_eq!(calls.map(|input| same(&input)), [expected; 3], "{len}");
        }
    }
}

/// So many CC, of which each has its index for its direction, with others between.
fn several(count: u8) -> Vec<u8> {
    let carriers = (0..count).map(|index| match index {
        1 => vec![0x41, 0x01, 0xCC, 0x01, index],
        _ => vec![0xCC, 0x01, index],
    });
    let parameters: Vec<u8> = carriers.flatten().chain([0x46, 0x00]).collect();
    with_alone(&parameters)
}

/// Numbers that count none of four; some are 0 or 1 where octets are lost.
const FAR: [usize; 11] = [
    4,
    5,
    255,
    256,
    257,
    65_536,
    65_537,
    1 << 32,
    (1 << 32) + 1,
    usize::MAX - 1,
    usize::MAX,
];

/// The calls that ask for one of the name.
fn asking(message: &[u8], name: u8, which: usize, new: &[u8]) -> [Input; 3] {
    let (buffer, n) = calls::buffer(message);
    [
        Input::FindTransfer {
            message: message.to_vec(),
            name,
            which,
        },
        Input::Replace {
            buffer: buffer.clone(),
            n,
            new: new.to_vec(),
            which,
        },
        Input::Remove {
            buffer,
            n,
            name,
            which,
        },
    ]
}

/// Each of none to three CC, and one that is not there.
#[test]
fn which_one() {
    for count in 0..=3 {
        let message = several(count);
        for which in (0..4).chain(FAR) {
            let expected = if which < count.into() { 0 } else { 16 };
            let mut calls = asking(&message, NAME, which, &[0xCC, 0x01, 0x03]).to_vec();
            calls.push(opening(&message, which, TABLE));
            assert_eq!(same_in_all(&calls), expected, "{count} {which}");
            assert_eq!(same(&digits_of(&message, which, 0, OUT)), 16);
        }
    }
    assert_eq!(same(&opening(&several(4), 0, TABLE)), 10);
}

/// Every other name stands once, and there is no second one.
#[test]
fn which_one_of_every_name() {
    let names = (0..64).filter(|&name| layout_of(name) != Layout::Unused);
    for name in names.filter(|&name| name != NAME) {
        let mut rng = trial::Rng::new(name.into());
        let parameter = trial::parameters::sound(&mut rng, name, 20);
        let message = with_alone(&[&parameter[..], &[0xCC, 0x01, 0x00]].concat());
        for which in (0..4).chain(FAR) {
            let calls = asking(&message, name, which, &parameter);
            let expected = if which == 0 { 0 } else { 16 };
            assert_eq!(same_in_all(&calls), expected, "{name:02X} {which}");
        }
    }
}

/// The edited message, made of its parameters.
#[test]
fn which_one_is_edited() {
    let parts = [
        &[0xCC, 0x01, 0x00][..],
        &[0x41, 0x01],
        &[0xCC, 0x01, 0x01],
        &[0xCC, 0x01, 0x02],
    ];
    let places = [0, 2, 3];
    let news: [&[u8]; 3] = [&[0xCC, 0x01, 0x03], &[0xCC, 0x03, 0x03, 0xF8, 0x00], &[]];
    for (which, at) in places.into_iter().enumerate() {
        for new in news {
            let mut edited = parts;
            edited[at] = new;
            let message = with_alone(&parts.concat());
            let [_, replace, remove] = asking(&message, NAME, which, new);
            let outcome = outcome(if new.is_empty() { &remove } else { &replace });
            let expected = with_alone(&edited.concat());
            assert_eq!(outcome.packed, expected.len() as u64);
            assert_eq!(outcome.memory[..expected.len()], expected);
        }
    }
}

/// The call that writes a record with this parameter so many times.
fn written(parameter: &[u8], count: usize) -> Input {
    let mut record = Record::read(&with_alone(parameter)).expect("a sound message");
    let data = record.common.last_mut().expect("C5");
    data.transfers = vec![data.transfers[0].clone(); count];
    Input::Write {
        image: record.image(),
        room: vec![0xEE; 300],
    }
}

/// Every name as often as four times, read, written and appended.
#[test]
fn how_often_names_stand() {
    for name in (0..64).filter(|&name| layout_of(name) != Layout::Unused) {
        let limit = if name == NAME { 3 } else { 1 };
        let mut rng = trial::Rng::new(name.into());
        let parameter = trial::parameters::sound(&mut rng, name, 20);
        for count in 1..=4 {
            let message = with_alone(&parameter.repeat(count));
            let is_over = count > limit;
            let place = HEADER + limit * parameter.len();
            let expected = if is_over { (10, place) } else { (0, 0) };
            for input in readings(&message)
                .iter()
                .chain([&written(&parameter, count)])
            {
                let outcome = outcome(input);
                assert_eq!((outcome.number(), outcome.place()), expected, "{name:02X}");
            }
            let (buffer, n) = calls::buffer(&with_alone(&parameter.repeat(count - 1)));
            if count <= limit + 1 {
                let new = parameter.clone();
                let appended = same(&Input::Append { buffer, n, new });
                assert_eq!(appended, if is_over { 10 } else { 0 });
            }
        }
    }
}

/// Every name, CC three times, in the order of the names and from the last; and one
/// more.
#[test]
fn fifty_four_parameters() {
    let mut rng = trial::Rng::new(1);
    let names = (0..64).filter(|&name| layout_of(name) != Layout::Unused);
    let mut parameters: Vec<Vec<u8>> = names
        .map(|name| trial::parameters::sound(&mut rng, name, trial::parameters::shortest(name)))
        .collect();
    parameters.extend([vec![0xCC, 0x01, 0x02], vec![0xCC, 0x01, 0x03]]);
    assert_eq!(parameters.len(), 54);
    for _ in 0..2 {
        parameters.reverse();
        let message = with_alone(&parameters.concat());
        let ample = vec![0xEE; 1200];
        let read = outcome(&Input::Read {
            message: message.clone(),
            image: ample.clone(),
        });
        let image = read.memory[..read.value()].to_vec();
        let room = ample.clone();
        assert_eq!(same(&Input::Write { image, room }), 0);
        let table = ample;
        let rows = outcome(&Input::Rows { message, table });
        assert_eq!(rows.packed, 54 + 4);
        let one_more = with_alone(&[parameters.concat(), vec![0xCC, 0x01, 0x00]].concat());
        assert_eq!(same_in_all(&readings(&one_more)), 10);
    }
}

/// Rows that there are not, and rows that are no code.
#[test]
fn digits_of_every_row() {
    let contents = [
        0x01, 0xFE, 0x07, 0xFE, 0x02, 0x80, 0x07, 0xFC, 0x01, 0xFE, 0xFA, 0x00,
    ];
    assert!(judged(&contents));
    let message = with_alone(&parameter(CARRIERS, &contents));
    for row in (0..260).chain([65_538, (1 << 32) + 2, usize::MAX]) {
        for len in [0, 1, 2] {
            let expected = match (row, len) {
                (2, 0) => refusal(15, 0, len),
                (2, _) => giving(1, &[7], len),
                _ => refusal(16, 0, len),
            };
            assert_eq!(outcome(&digits_of(&message, 0, row, len)), expected);
        }
    }
}

/// 15 is the last of the refusals: without carriers it is 16, also where there is no
/// room for any row.
#[test]
fn without_carriers() {
    for message in [&EMPTY[..], &[0x01, 0x01, 0x06, 0x11, 0x00]] {
        for which in [0, 1, usize::MAX] {
            for len in [0, 7, 8, 300] {
                assert_eq!(same(&opening(message, which, len)), 16);
                assert_eq!(same(&digits_of(message, which, 0, len)), 16);
            }
        }
    }
}

/// Reading's numbers and places come first, whatever is asked for.
#[test]
fn after_all_of_reading() {
    let refused: [(&[u8], u64, usize); 15] = [
        (b"", 1, 0),
        (b"\x01\x01\x06\x12\x07\x00", 2, 4),
        (b"\x01\x01\x06\x12\x06\x11\x00", 3, 4),
        (b"\x01\x01\x06\x12", 4, 4),
        (b"\x01\x01\x06\x12\x04\x02\x00", 5, 4),
        (b"\x06\x12\x00", 6, 2),
        (b"\x01\x01\x06\x12\x00\x00", 7, 5),
        (b"\x01\x01\x06\x11\xC5\x04\xCC\x01\x00\x08\x00", 8, 9),
        (b"\x01\x01\x06\x11\xC5\x04\xCC\x01\x00\x0C\x00", 9, 9),
        (
            b"\x01\x01\x06\x11\xC5\x07\xCC\x01\x00\x41\x00\x41\x00\x00",
            10,
            11,
        ),
        (b"\x01\x01\x06\x11\xC5\x05\xCC\x01\x00\xCC\x01\x00", 11, 9),
        (b"\x01\x01\x06\x11\xC5\x05\xCC\x01\x00\xCC\x00\x00", 12, 9),
        (
            b"\x01\x01\x06\x11\xC5\x06\xCC\x01\x00\x90\x01\x00\x00",
            13,
            11,
        ),
        (b"\x01\x01\x06\x12\xC5\x06\xF7\x04\x00\x05\x122\x00", 18, 6),
        (b"\x01\x01\x06\x12\xC5\x03\xE0\x01\x2A\x00", 19, 6),
    ];
    for (message, number, place) in refused {
        for len in [0, TABLE] {
            for which in [0, 1, usize::MAX] {
                let expected = refusal(number, place, len);
                assert_eq!(outcome(&opening(message, which, len)), expected);
                assert_eq!(outcome(&digits_of(message, which, 0, len)), expected);
            }
        }
    }
}

/// By the mobile call profile CC is read as without it.
#[test]
fn in_the_profile() {
    let call = |carriers: &[u8]| with_alone(&[carriers, &[0x7E, 0x02, 0xFD, 0x00]].concat());
    let three = [0xCC, 0x01, 0x00].repeat(3);
    let numbers = |message: &[u8]| calls::enquiries(message).map(|input| same(&input));
    assert_eq!(numbers(&call(&three)), [0, 16]);
    assert_eq!(numbers(&call(&[0xCC, 0x01, 0x00].repeat(4))), [10; 2]);
    assert_eq!(numbers(&call(&[0xCC, 0x01, 0x04])), [12; 2]);
    assert_eq!(
        numbers(&call(b"\xCC\x07\x01\xFA\x04\xFE\x02\x00\x0A")),
        [13; 2]
    );
}
