//! What occurs of the charging information: every rate kind, at its limits.

use crate::contents;
use plain::transfer::CHARGING;
use std::collections::BTreeSet;

/// The rate kinds, and how many octets each has behind the kind.
const KINDS: [(u8, usize); 8] = [
    (1, 15),
    (2, 0),
    (3, 8),
    (4, 9),
    (5, 2),
    (8, 15),
    (9, 21),
    (10, 22),
];

/// Where the kind stands, and what is behind it.
const KIND: usize = 1;
const FIRST: usize = 2;

/// Something about the contents of a kind; what is wrong, if it is, is this alone.
#[derive(Clone, Copy, Debug, PartialEq, Eq, PartialOrd, Ord)]
pub enum Sight {
    /// They are sound.
    Sound,
    /// One octet is missing.
    Short,
    /// One octet is left over.
    Long,
    /// The first character is this one, which is no digit.
    First(u8),
    /// The last character is.
    Last(u8),
    /// The tens of the MBI are this code.
    Tens(u8),
    /// The ones are.
    Ones(u8),
    /// The check digit is so much too high.
    Check(i8),
}

/// Rate kinds, and what was seen of them.
pub type Sights = BTreeSet<(u8, Sight)>;

/// All that is to be seen.
pub fn all() -> Sights {
    let mut all = Sights::new();
    for (kind, len) in KINDS {
        let mut see = |sights: &[Sight]| all.extend(sights.iter().map(|&sight| (kind, sight)));
        see(&[Sight::Sound, Sight::Long]);
        if len > 0 {
            see(&[Sight::Short]);
            see(&[0x2F, 0x3A].map(Sight::First));
            see(&[0x2F, 0x3A].map(Sight::Last));
        }
        if has_mbi(kind) {
            see(&[0, 1, 10, 11].map(Sight::Tens));
            see(&[0, 1, 10, 11].map(Sight::Ones));
        }
        if matches!(kind, 1 | 3..=5) {
            see(&[1, -1].map(Sight::Check));
        }
    }
    all
}

fn has_mbi(kind: u8) -> bool {
    matches!(kind, 3..=5)
}

/// What is seen of contents that were answered with this number.
pub fn sights(contents: &[u8], number: u8) -> Sights {
    let Some(kind) = kind_of(contents) else {
        return Sights::new();
    };
    let seen = match number {
        0 => sound(contents),
        12 => of_length(contents),
        13 => of_digits(contents),
        _ => of_check_digit(contents),
    };
    seen.into_iter().map(|sight| (kind, sight)).collect()
}

/// The rate kind, if it is one of those that there are.
pub fn kind_of(contents: &[u8]) -> Option<u8> {
    let kind = contents.get(KIND).copied();
    kind.filter(|kind| KINDS.iter().any(|(known, _)| known == kind))
}

fn number_with(contents: &[u8], at: usize, octet: u8) -> u8 {
    contents::number_with(CHARGING, contents, at, octet)
}

fn sound(contents: &[u8]) -> Vec<Sight> {
    let halves = match has_mbi(contents[KIND]) {
        true => vec![
            Sight::Tens(contents[FIRST] >> 4),
            Sight::Ones(contents[FIRST] & 0x0F),
        ],
        false => vec![],
    };
    [vec![Sight::Sound], halves].concat()
}

fn of_length(contents: &[u8]) -> Vec<Sight> {
    let known = KINDS.into_iter().find(|(kind, _)| *kind == contents[KIND]);
    let len = contents.len() - FIRST;
    match known {
        Some((_, right)) if len + 1 == right => vec![Sight::Short],
        Some((_, right)) if len == right + 1 => vec![Sight::Long],
        _ => vec![],
    }
}

fn of_digits(contents: &[u8]) -> Vec<Sight> {
    let (octet, last) = (contents[FIRST], contents.len() - 1);
    let first = FIRST + usize::from(contents[KIND] > 1);
    let mut seen = Vec::new();
    if number_with(contents, first, b'0') != 13 {
        seen.push(Sight::First(contents[first]));
    }
    if number_with(contents, last, b'0') != 13 {
        seen.push(Sight::Last(contents[last]));
    }
    if has_mbi(contents[KIND]) && number_with(contents, FIRST, octet & 0x0F | 0x10) != 13 {
        seen.push(Sight::Tens(octet >> 4));
    }
    if has_mbi(contents[KIND]) && number_with(contents, FIRST, octet & 0xF0 | 0x01) != 13 {
        seen.push(Sight::Ones(octet & 0x0F));
    }
    seen
}

fn of_check_digit(contents: &[u8]) -> Vec<Sight> {
    let last = contents.len() - 1;
    let is = |more: i8| number_with(contents, last, contents[last].wrapping_add_signed(-more)) == 0;
    [1, -1]
        .into_iter()
        .filter(|&more| is(more))
        .map(Sight::Check)
        .collect()
}
