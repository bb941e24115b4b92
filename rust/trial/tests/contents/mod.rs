//! The contents of a transfer parameter that is opened, in calls of every kind.

use crate::transfer_at;
use plain::transfer::name_of;
use trial::messages::with_alone;
use trial::record::Record;
use trial::{Input, Outcome};

/// The contents under this header, of PLI 11, that were accepted, or for which the
/// call was refused.
pub fn contents_in(header: u8, input: &Input, outcome: &Outcome) -> Option<Vec<u8>> {
    let accepted = match outcome.number() {
        0 => true,
        12 | 13 | 18 | 19 => false,
        _ => return None,
    };
    if let Some(message) = input.message() {
        return match accepted {
            true => found_in(header, message),
            false => counted(header, parameter_at(message, outcome.place())),
        };
    }
    match input {
        Input::Write { image, .. } => {
            let record = plain::from_image(image).ok()?;
            match accepted {
                true => found_in(header, &outcome.memory[..outcome.value()]),
                false => held_at(header, record.into(), outcome.place()),
            }
        }
        Input::Replace { new, .. } | Input::Append { new, .. } if outcome.place() == 0 => {
            counted(header, new)
        }
        _ => None,
    }
}

/// The octets from the header on of the transfer parameter of which one stands at
/// `place`. All before it is sound.
pub fn parameter_at(message: &[u8], place: usize) -> &[u8] {
    let mut at = 0;
    while message[at] != 0xC5 {
        at += 2 + usize::from(message[at] >> 6);
    }
    at += 2;
    while at + len_of(&message[at..]) <= place {
        at += len_of(&message[at..]);
    }
    &message[at..]
}

/// How many octets the transfer parameter has that begins these, by its PLI.
pub fn len_of(octets: &[u8]) -> usize {
    let count = usize::from(*octets.get(1).unwrap_or(&0));
    match octets[0] >> 6 {
        0b00 => 1,
        0b01 => 2,
        0b10 => 2 + (count & 0x3F).div_ceil(2),
        _ => 2 + count,
    }
}

/// The contents in a sound message.
fn found_in(header: u8, message: &[u8]) -> Option<Vec<u8>> {
    let found = plain::find_transfer(message, name_of(header), 0).ok()?;
    Some(message[found].to_vec())
}

/// The contents of the parameter that begins these octets.
fn counted(header: u8, octets: &[u8]) -> Option<Vec<u8>> {
    match octets {
        [first, len, contents @ ..] if *first == header => {
            contents.get(..(*len).into()).map(<[u8]>::to_vec)
        }
        _ => None,
    }
}

/// The contents in a record whose header would stand at `place`.
fn held_at(header: u8, mut record: Record, place: usize) -> Option<Vec<u8>> {
    let parameter = transfer_at(&mut record, place)?;
    (parameter.header == header).then(|| parameter.values.clone())
}

/// The number with which reading refuses the contents, 0 where it accepts them.
pub fn number(header: u8, contents: &[u8]) -> u8 {
    let parameter = [&[header, contents.len() as u8], contents].concat();
    let verdict = plain::verdict(&with_alone(&parameter));
    verdict.map_or_else(|refusal| refusal.number, |()| 0)
}

/// The same with another octet in one place.
pub fn number_with(header: u8, contents: &[u8], at: usize, octet: u8) -> u8 {
    let mut contents = contents.to_vec();
    contents[at] = octet;
    number(header, &contents)
}
