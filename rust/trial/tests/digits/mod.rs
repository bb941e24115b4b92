//! What occurs of bad digits, fillers and characters in messages that reading
//! refuses for them.

use crate::contents::{len_of, parameter_at};
use crate::halves::{bad, slots, Part, Slot};
use std::collections::BTreeSet;
use trial::{Input, Outcome};

/// Where digits or characters stand.
#[derive(Clone, Copy, Debug, PartialEq, Eq, PartialOrd, Ord)]
pub enum Holder {
    /// In the transfer parameter with this header.
    Transfer(u8),
    /// In the MBI of F7.
    Mbi,
    /// In the characters of F7.
    Charging,
    /// In the parameter with this header of E0.
    Order(u8),
    /// In a code of CC.
    Code,
}

/// Something about the octet that holds the first bad half or character.
#[derive(Clone, Copy, Debug, PartialEq, Eq, PartialOrd, Ord)]
pub enum Sight {
    /// Its low half alone is bad.
    Low,
    /// Its high half alone, which is a digit.
    High,
    /// Both, which are digits.
    Both,
    /// The filler alone.
    Filler,
    /// The digit below the filler, and the filler.
    DigitAndFiller,
    /// The octet is a character.
    Character,
    /// It is the first octet of its holder's digits or characters, of several.
    First,
    /// It is the last.
    Last,
    /// Something is bad in a later octet, too.
    More,
    /// The filler in a later octet is bad, too.
    FillerToo,
    /// Other transfer parameters stand before.
    Behind,
}

pub type Sights = BTreeSet<(Holder, Sight)>;

/// All that is to be seen.
pub fn all() -> Sights {
    const ANYWHERE: [Sight; 4] = [Sight::First, Sight::Last, Sight::More, Sight::Behind];
    const HALVES: [Sight; 3] = [Sight::Low, Sight::High, Sight::Both];
    const FILLER: [Sight; 3] = [Sight::Filler, Sight::DigitAndFiller, Sight::FillerToo];
    let mut all = Sights::new();
    let mut see = |holder, sights: &[&[Sight]]| {
        all.extend(sights.concat().into_iter().map(|sight| (holder, sight)));
    };
    for header in [0x90, 0x91, 0x95, 0x98, 0xA3, 0xD7, 0xDC, 0xDA] {
        see(Holder::Transfer(header), &[&ANYWHERE, &HALVES, &FILLER]);
    }
    for header in [0x91, 0x92] {
        see(Holder::Order(header), &[&ANYWHERE, &HALVES, &FILLER]);
    }
    see(Holder::Code, &[&ANYWHERE, &HALVES, &FILLER]);
    for header in [0xC9, 0xCA, 0xCD, 0xD2] {
        see(Holder::Order(header), &[&ANYWHERE, &[Sight::Character]]);
    }
    see(Holder::Mbi, &[&HALVES, &[Sight::More, Sight::Behind]]);
    see(Holder::Charging, &[&ANYWHERE, &[Sight::Character]]);
    all
}

/// What is seen in a call: the message that it is handed is refused with 13.
pub fn sights(input: &Input, outcome: &Outcome) -> Sights {
    match input.message().or(input.edited()) {
        // The place 0 is that of a new parameter.
        Some(message) if outcome.number() == 13 && outcome.place() > 0 => {
            in_message(message, outcome.place())
        }
        _ => Sights::new(),
    }
}

fn in_message(message: &[u8], place: usize) -> Sights {
    let octets = parameter_at(message, place);
    let parameter = &octets[..len_of(octets)];
    let header_at = message.len() - octets.len();
    let bad = bad(parameter);
    let first = bad[0];
    assert_eq!(header_at + first.at, place, "{message:02X?}");

    let mut seen = vec![of_octet(&bad)];
    let later = || bad.iter().filter(|slot| slot.at > first.at);
    if later().next().is_some() {
        seen.push(Sight::More);
    }
    if later().any(|slot| slot.part == Part::Filler && slot.holder == first.holder) {
        seen.push(Sight::FillerToo);
    }
    if message[header_at - 2] != 0xC5 {
        seen.push(Sight::Behind);
    }
    seen.extend(of_offset(parameter, first));
    let holder = holder_of(parameter[0], first);
    seen.into_iter().map(|sight| (holder, sight)).collect()
}

/// What of the first bad octet is bad.
fn of_octet(bad: &[Slot]) -> Sight {
    let parts: Vec<Part> = bad
        .iter()
        .take_while(|slot| slot.at == bad[0].at)
        .map(|slot| slot.part)
        .collect();
    match parts[..] {
        [Part::Low] => Sight::Low,
        [Part::High] => Sight::High,
        [Part::Low, Part::High] => Sight::Both,
        [Part::Filler] => Sight::Filler,
        [Part::Low, Part::Filler] => Sight::DigitAndFiller,
        _ => Sight::Character,
    }
}

/// Where among its holder's octets it stands.
fn of_offset(parameter: &[u8], first: Slot) -> Option<Sight> {
    let holder = holder_of(parameter[0], first);
    let mut own = slots(parameter);
    own.retain(|slot| holder_of(parameter[0], *slot) == holder);
    let (start, end) = (own[0].at, own[own.len() - 1].at);
    match first.at {
        _ if start == end => None,
        at if at == start => Some(Sight::First),
        at if at == end => Some(Sight::Last),
        _ => None,
    }
}

fn holder_of(header: u8, slot: Slot) -> Holder {
    match (header, slot.part) {
        (0xF7, Part::Character) => Holder::Charging,
        (0xF7, _) => Holder::Mbi,
        (0xE0, _) => Holder::Order(slot.holder),
        (0xCC, _) => Holder::Code,
        _ => Holder::Transfer(header),
    }
}
