//! Messages by class.

use plain::common::MESSAGE_LIMIT;
use plain::transfer::Layout;
use trial::messages::{damage, scratch, sequence, sound_draft, Size};
use trial::parameters::{names_with, sound};
use trial::Rng;

/// A class of messages.
#[derive(Clone, Copy, Debug, PartialEq, Eq)]
pub enum Class {
    /// Sound, of at most 24 octets.
    Short,
    /// As M of the bench table, with other call numbers, marks and digits.
    MLike,
    /// Sound, of 272 octets.
    Full,
    /// Sound, of so many octets; one number fills the transfer data.
    Digits(usize),
    /// Sound, of so many octets; every 16 octets of transfer data have two
    /// parameters.
    Parameters(usize),
    /// Refused; half short, half full.
    Damaged,
    /// Nine tenths sound, one tenth refused; half short, half full.
    Mix,
}

/// The classes that every operation is measured on.
pub const CLASSES: [(&str, Class); 6] = [
    ("short", Class::Short),
    ("m-like", Class::MLike),
    ("full", Class::Full),
    ("digits", Class::Digits(MESSAGE_LIMIT)),
    ("damaged", Class::Damaged),
    ("mix", Class::Mix),
];

/// The lengths of the messages that show how the cost grows.
pub const LENGTHS: [usize; 9] = [23, 48, 80, 112, 144, 176, 208, 240, MESSAGE_LIMIT];

/// The class of a series with messages of a length.
pub type OfLength = fn(usize) -> Class;

/// The series, which have messages of each of these lengths.
pub const SERIES: [(&str, OfLength); 2] =
    [("digits", Class::Digits), ("parameters", Class::Parameters)];

/// The most octets of a short message.
const SHORT_LIMIT: usize = 24;

const M: [u8; 23] = [
    0x01, 0x01, 0x83, 0x39, 0x30, 0x00, 0x04, 0x01, 0x06, 0x11, 0xC5, 0x0A, 0x90, 0x04, 0x21, 0x3A,
    0x52, 0x81, 0x98, 0x03, 0x21, 0x0A, 0x00,
];

impl Class {
    /// The class of this name: one of [`CLASSES`], or a series and a length.
    pub fn named(name: &str) -> Option<Self> {
        let listed = CLASSES.iter().find(|(known, _)| *known == name);
        listed.map(|(_, class)| *class).or_else(|| {
            let (series, len) = name.split_once('-')?;
            let len = len.parse().ok().filter(|len| LENGTHS.contains(len))?;
            let (_, class) = SERIES.iter().find(|(known, _)| *known == series)?;
            Some(class(len))
        })
    }

    /// So many messages.
    pub fn messages(self, rng: &mut Rng, count: usize) -> Vec<Vec<u8>> {
        (0..count).map(|index| self.message(rng, index)).collect()
    }

    fn message(self, rng: &mut Rng, index: usize) -> Vec<u8> {
        match self {
            Class::Short => short(rng),
            Class::MLike => m_like(rng),
            Class::Full => full(rng),
            Class::Digits(len) => digits(rng, len),
            Class::Parameters(len) => parameters(rng, len),
            Class::Damaged => damaged(rng, size_at(index)),
            Class::Mix => match (index % 20, size_at(index)) {
                (0 | 1, size) => damaged(rng, size),
                (_, Size::Full) => full(rng),
                _ => short(rng),
            },
        }
    }
}

/// The size of the message at `index`, where half are short and half full.
pub fn size_at(index: usize) -> Size {
    match index % 2 {
        0 => Size::Short,
        _ => Size::Full,
    }
}

fn short(rng: &mut Rng) -> Vec<u8> {
    loop {
        let message = sound_draft(rng, Size::Short).octets();
        if message.len() <= SHORT_LIMIT {
            return message;
        }
    }
}

fn full(rng: &mut Rng) -> Vec<u8> {
    sound_draft(rng, Size::Full).octets()
}

fn m_like(rng: &mut Rng) -> Vec<u8> {
    let mut message = M.to_vec();
    for at in [3, 4] {
        message[at] = rng.octet();
    }
    message[7] = sequence(rng);
    let mut digit = || rng.between(1, 10) as u8;
    for at in [14, 15, 20] {
        message[at] = digit() | digit() << 4;
    }
    message[21] = digit();
    message
}

/// A message of `len` octets that has every common parameter once; `data` puts
/// the transfer data, of as many octets as it is told, behind what stands.
fn around(rng: &mut Rng, len: usize, data: fn(&mut Rng, usize, &mut Vec<u8>)) -> Vec<u8> {
    let mut message = vec![0x01, 0x01];
    for header in [0x82, 0x83] {
        message.extend([header, rng.octet(), rng.octet(), rng.octet()]);
    }
    message.extend([0x04, sequence(rng), 0x06, 0x11]);
    // C5, its length octet and the end mark are still to come.
    let left = len - message.len() - 3;
    message.extend([0xC5, left as u8]);
    data(rng, left, &mut message);
    message.push(0x00);
    message
}

fn digits(rng: &mut Rng, len: usize) -> Vec<u8> {
    const CODES: [u8; 12] = [0, 1, 2, 3, 4, 5, 6, 7, 8, 9, 11, 12];
    around(rng, len, |rng, data, message| {
        message.extend([0xD7, data as u8 - 2, 0x03, 0x11]);
        message.extend((4..data).map(|_| rng.pick(&CODES) | rng.pick(&CODES) << 4));
    })
}

fn parameters(rng: &mut Rng, len: usize) -> Vec<u8> {
    const TWO: usize = 16;
    around(rng, len, |rng, data, message| {
        let octets = names_with(|layout| matches!(layout, Layout::Octet { .. }));
        // The names that take any contents under PLI 11, more than are needed.
        let carried = [Layout::Carried, Layout::Open].map(|wanted| names_with(|l| l == wanted));
        for (k, (octet, carried)) in octets.into_iter().zip(carried.concat()).enumerate() {
            let Some(left) = data.checked_sub(k * TWO).filter(|&left| left > 0) else {
                break;
            };
            message.extend(sound(rng, octet, 2));
            let len = left.min(TWO) - 4;
            message.extend([0xC0 | carried, len as u8]);
            message.extend(rng.octets(len));
        }
    })
}

fn damaged(rng: &mut Rng, size: Size) -> Vec<u8> {
    loop {
        let mut draft = sound_draft(rng, size);
        let message = if rng.one_in(2) {
            damage(rng, &mut draft);
            draft.octets()
        } else {
            let mut octets = draft.octets();
            scratch(rng, &mut octets);
            octets
        };
        if (1..=MESSAGE_LIMIT).contains(&message.len()) && plain::verdict(&message).is_err() {
            return message;
        }
    }
}
