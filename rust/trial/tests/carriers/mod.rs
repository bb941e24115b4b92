//! What occurs of the carriers: every tag, length and code, at their limits.

use crate::contents;
use plain::transfer::CARRIERS;
use std::collections::BTreeSet;

/// Something about carriers; what is wrong, if it is, is this alone, but for
/// [`Sight::Twofold`]. The level is 1 for a carrier entry, 2 for a dependent one.
#[derive(Clone, Copy, Debug, PartialEq, Eq, PartialOrd, Ord)]
pub enum Sight {
    /// There is no direction.
    Empty,
    /// All is sound with this direction.
    Direction(u8),
    /// The direction is this one, which there is not.
    NoDirection(u8),
    /// At this level a sound entry with this tag that holds something.
    Entry(u8, u8),
    /// The same that holds nothing.
    EmptyEntry(u8, u8),
    /// An entry with this tag, which there is not.
    NoEntry(u8, u8),
    /// A tag that stands there already, sound.
    Again(u8),
    /// A tag without a length octet.
    TagAlone(u8),
    /// One octet of what an entry holds is missing.
    Short(u8),
    /// A code holds nothing.
    EmptyCode,
    /// This zero bit of a code is set.
    ZeroBit(u8),
    /// A code has an odd count, and no digit.
    OddAlone,
    /// A sound code has no digit.
    NoDigits,
    /// A sound code has an odd count of digits.
    Odd,
    /// A sound code has an even count of digits, and some.
    Even,
    /// A digit has this code.
    Code(u8),
    /// A filler is not 0.
    Filler,
    /// The form is bad, and a digit before it, too.
    Twofold,
}

pub type Sights = BTreeSet<Sight>;

/// All that is to be seen.
pub fn all() -> Sights {
    let mut all = Sights::from([
        Sight::Empty,
        Sight::EmptyCode,
        Sight::OddAlone,
        Sight::NoDigits,
        Sight::Odd,
        Sight::Even,
        Sight::Filler,
        Sight::Twofold,
    ]);
    all.extend((0..4).map(Sight::Direction));
    all.extend([4, 8, 0x10, 0x40, 0x80, 0xFF].map(Sight::NoDirection));
    for tag in 0xF8..=0xFE {
        all.extend([Sight::Entry(1, tag), Sight::EmptyEntry(1, tag)]);
    }
    all.extend((0xFC..=0xFE).map(|tag| Sight::Entry(2, tag)));
    all.extend((0xFC..=0xFD).map(|tag| Sight::EmptyEntry(2, tag)));
    all.extend([0xF7, 0xFF].map(|tag| Sight::NoEntry(1, tag)));
    all.extend([0xFB, 0xFF, 0xF8].map(|tag| Sight::NoEntry(2, tag)));
    for level in [1, 2] {
        all.extend([
            Sight::Again(level),
            Sight::TagAlone(level),
            Sight::Short(level),
        ]);
    }
    all.extend((0..7).map(|bit| Sight::ZeroBit(1 << bit)));
    all.extend([0, 9, 10, 15].map(Sight::Code));
    all
}

/// An entry that is there, with the offset of its tag in the contents.
struct Entry<'c> {
    level: u8,
    tag: u8,
    at: usize,
    held: &'c [u8],
}

/// What stands in the way of an entry, if it is seen, and the offset of its tag.
type Broken = Option<(Sight, usize)>;

/// The entries in `octets`, which stand at `start` of the contents, up to the first
/// that is not there or has another tag: that is told by its sight.
fn walk<'c>(level: u8, octets: &'c [u8], start: usize, entries: &mut Vec<Entry<'c>>) -> Broken {
    let lowest = if level == 1 { 0xF8 } else { 0xFC };
    let mut rest = octets;
    while let Some((&tag, behind)) = rest.split_first() {
        let at = start + octets.len() - rest.len();
        let is_tag = (lowest..=0xFE).contains(&tag);
        let Some((&len, behind)) = behind.split_first() else {
            return Some((Sight::TagAlone(level), at)).filter(|_| is_tag);
        };
        let len = usize::from(len);
        if !is_tag {
            return Some((Sight::NoEntry(level, tag), at));
        }
        let Some(held) = behind.get(..len) else {
            return Some((Sight::Short(level), at)).filter(|_| len == behind.len() + 1);
        };
        entries.push(Entry {
            level,
            tag,
            at,
            held,
        });
        if level == 1 {
            let inside = walk(2, held, at + 2, entries);
            if inside.is_some() {
                return inside;
            }
        }
        rest = &behind[len..];
    }
    None
}

fn number(contents: &[u8]) -> u8 {
    contents::number(CARRIERS, contents)
}

/// Whether the contents are accepted with another octet in one place.
fn mends(contents: &[u8], at: usize, octet: u8) -> bool {
    contents::number_with(CARRIERS, contents, at, octet) == 0
}

fn is_code(entry: &&Entry) -> bool {
    entry.level == 2 && entry.tag == 0xFE
}

/// Whether a digit of a code is none; of an odd count the filler is not looked at.
fn is_bad(entry: &Entry) -> bool {
    let digits = entry.held.get(1..).unwrap_or(&[]);
    digits.iter().any(|octet| octet & 0x0F > 9)
}

/// What is seen of contents.
pub fn sights(contents: &[u8]) -> Vec<Sight> {
    let Some((&direction, octets)) = contents.split_first() else {
        return vec![Sight::Empty];
    };
    let mut entries = Vec::new();
    let broken = walk(1, octets, 1, &mut entries);
    match number(contents) {
        0 => sound(direction, &entries),
        12 if direction > 3 && mends(contents, 0, 0) => vec![Sight::NoDirection(direction)],
        12 if direction > 3 => vec![],
        12 if entries.iter().filter(is_code).any(is_bad) => vec![Sight::Twofold],
        12 => match broken {
            Some((Sight::NoEntry(level, tag), at)) if mends(contents, at, 0xFC) => {
                vec![Sight::NoEntry(level, tag)]
            }
            Some((Sight::NoEntry(..), _)) => vec![],
            Some((sight, _)) => vec![sight],
            None => of_codes(contents, &entries),
        },
        _ => of_digits(contents, &entries),
    }
}

fn sound(direction: u8, entries: &[Entry]) -> Vec<Sight> {
    let mut seen = vec![Sight::Direction(direction)];
    for (index, entry) in entries.iter().enumerate() {
        let Entry { level, tag, .. } = *entry;
        seen.push(match entry.held {
            [] => Sight::EmptyEntry(level, tag),
            _ => Sight::Entry(level, tag),
        });
        let before = entries[..index].iter().rev();
        let mut beside = before.take_while(|before| before.level >= level);
        if beside.any(|before| (before.level, before.tag) == (level, tag)) {
            seen.push(Sight::Again(level));
        }
    }
    for code in entries.iter().filter(is_code) {
        let digits = &code.held[1..];
        seen.push(match code.held {
            [_] => Sight::NoDigits,
            [0x80, ..] => Sight::Odd,
            _ => Sight::Even,
        });
        // The low halves alone: the last high one may be a filler.
        seen.extend(digits.iter().map(|octet| Sight::Code(octet & 0x0F)));
    }
    seen
}

/// What is seen of contents in which a code is of bad form.
fn of_codes(contents: &[u8], entries: &[Entry]) -> Vec<Sight> {
    let mut seen = Vec::new();
    for code in entries.iter().filter(is_code) {
        match code.held {
            [] if mends(contents, code.at, 0xFC) => seen.push(Sight::EmptyCode),
            [0x80] if mends(contents, code.at + 2, 0x00) => seen.push(Sight::OddAlone),
            [first, ..] if mends(contents, code.at + 2, first & 0x80) => {
                seen.push(Sight::ZeroBit(first & 0x7F));
            }
            _ => {}
        }
    }
    seen
}

/// What is seen of contents in which a digit or a filler is bad.
fn of_digits(contents: &[u8], entries: &[Entry]) -> Vec<Sight> {
    let mut seen = Vec::new();
    for code in entries.iter().filter(is_code) {
        let last = code.held.len() - 1;
        for (index, &octet) in code.held.iter().enumerate().skip(1) {
            let at = code.at + 2 + index;
            if mends(contents, at, octet & 0xF0 | 0x01) {
                seen.push(Sight::Code(octet & 0x0F));
            }
            let is_filled = index == last && code.held[0] == 0x80;
            if is_filled && mends(contents, at, octet & 0x0F) {
                seen.push(Sight::Filler);
            }
        }
    }
    seen
}
