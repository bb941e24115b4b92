//! What occurs of the sequence, 04: its number and its mark, right and wrong.

use std::collections::BTreeSet;
use trial::record::{Common, Record};
use trial::{Input, Outcome};

/// Something about a sequence; what is wrong, if it is, is this alone.
#[derive(Clone, Copy, Debug, PartialEq, Eq, PartialOrd, Ord)]
pub enum Sight {
    /// In a message it is this octet.
    Octet(u8),
    /// In a record it has this number.
    Number(u32),
    /// In a record it has this mark.
    Mark(u8),
    /// In a record both are wrong.
    Both,
    /// It stands there already, and has another number than 1.
    Again,
    /// It stands there already, and has a mark that is too large, in a record.
    AgainMarked,
    /// The message ends before its octet.
    Cut,
    /// It has another number than 1, and the message ends behind it.
    Last,
}

pub type Sights = BTreeSet<Sight>;

/// All that is to be seen of messages.
pub fn all_read() -> Sights {
    let mut all = Sights::from([Sight::Again, Sight::Cut, Sight::Last]);
    all.extend([0x01, 0x81].map(Sight::Octet));
    all.extend([0x00, 0x02, 0x03, 0x40, 0x41, 0x7F].map(Sight::Octet));
    all.extend([0x80, 0x82, 0x83, 0xC0, 0xC1, 0xFF].map(Sight::Octet));
    all
}

/// All that is to be seen of records.
pub fn all_written() -> Sights {
    let mut all = Sights::from([Sight::Again, Sight::AgainMarked, Sight::Both]);
    all.extend([0, 1, 2, 127, 128, 129, 255, 256, 257].map(Sight::Number));
    all.extend([0x0100_0001, u32::MAX].map(Sight::Number));
    all.extend([0, 1, 2, 128, 129, 255].map(Sight::Mark));
    all
}

/// What is seen in a call.
pub fn sights(input: &Input, outcome: &Outcome) -> Sights {
    let seen_in = |message| in_message(message, outcome);
    let seen = match input {
        Input::Write { image, .. } => in_record(image, outcome),
        _ => input.message().or(input.edited()).map(seen_in),
    };
    seen.into_iter().flatten().collect()
}

fn in_message(message: &[u8], outcome: &Outcome) -> Vec<Sight> {
    if let Ok(found) = plain::find_common(message, 0x04) {
        return vec![Sight::Octet(message[found.start])];
    }
    let behind = message.get(outcome.place()..).unwrap_or(&[]);
    match (outcome.number(), behind) {
        (3, [0x04, octet, ..]) if octet & 0x7F != 1 => vec![Sight::Again],
        (4, [0x04]) => vec![Sight::Cut],
        (5, [0x04, _]) => vec![Sight::Last],
        (5, [0x04, octet, ..]) if is_mended(message, outcome.place() + 1) => {
            vec![Sight::Octet(*octet)]
        }
        _ => vec![],
    }
}

/// Whether the message is accepted with 01 in this place.
fn is_mended(message: &[u8], at: usize) -> bool {
    let mut mended = message.to_vec();
    mended[at] = 0x01;
    plain::verdict(&mended).is_ok()
}

fn in_record(image: &[u8], outcome: &Outcome) -> Option<Vec<Sight>> {
    let mut record = Record::from(plain::from_image(image).ok()?);
    let mut sequences = record.common.iter_mut().filter(|c| c.header == 0x04);
    let first = sequences.next()?;
    if let (3, Some(again)) = (outcome.number(), sequences.next()) {
        return Some(match (again.value, again.more_data) {
            (1, 0 | 1) => vec![],
            (1, _) => vec![Sight::AgainMarked],
            _ => vec![Sight::Again],
        });
    }
    let Common {
        value, more_data, ..
    } = *first;
    (first.value, first.more_data) = (1, 0);
    let mended = plain::from_image(&record.image()).ok()?;
    plain::write(&mended, &mut [0; 272]).ok()?;
    Some(match (value, more_data) {
        (1, mark) => vec![Sight::Number(1), Sight::Mark(mark)],
        (number, 0 | 1) => vec![Sight::Number(number)],
        _ => vec![Sight::Both],
    })
}
