//! What occurs of the connection order: every form and header, at their limits.

use crate::contents;
use plain::transfer::ORDER;
use std::collections::BTreeSet;
use trial::order::{FORMS, HEADERS};

/// Something about an order; what is wrong, if it is, is this alone.
#[derive(Clone, Copy, Debug, PartialEq, Eq, PartialOrd, Ord)]
pub enum Sight {
    /// There is no form.
    Empty,
    /// This form, which there is not.
    NoForm(u8),
    /// This header, which there is not.
    NoHeader(u8),
    /// This header, which is not under the form.
    Stranger(u8),
    /// This header, which stands there already.
    Again(u8),
    /// Under this form a sound parameter with this header.
    Sound(u8, u8),
    /// One octet of a parameter with this header is missing.
    Cut(u8),
    /// Its length octet is this one, and wrong.
    Length(u8, u8),
    /// Its repeat count is this one.
    Repeat(u8, u8),
    /// One of its digits has this code.
    Code(u8, u8),
    /// One of its characters is this one.
    Character(u8, u8),
    /// Its filler is not 0.
    Filler(u8),
    /// 43 does not have bit 7.
    Unmarked,
    /// 92 has an odd count, and no digit.
    Odd,
    /// 92 has one of the low four bits of its second octet.
    LowBits,
}

pub type Sights = BTreeSet<Sight>;

/// Parameters with a code or kind, and then a repeat count.
const REPEATED: [u8; 4] = [0xC9, 0xCA, 0xCC, 0xCD];

/// All that is to be seen.
pub fn all() -> Sights {
    let mut all = Sights::from([Sight::Empty, Sight::Unmarked, Sight::Odd, Sight::LowBits]);
    all.extend([0x20, 0x2A, 0x2F, 0x30, 0x40, 0x43, 0x45, 0x48].map(Sight::NoForm));
    all.extend([0x40, 0x44, 0x90, 0x93, 0xC8, 0xD0, 0xD1, 0xD3].map(Sight::NoHeader));
    for header in HEADERS {
        all.extend([
            Sight::Stranger(header),
            Sight::Again(header),
            Sight::Cut(header),
        ]);
    }
    for (form, headers) in FORMS {
        all.extend(headers.iter().map(|&header| Sight::Sound(form, header)));
    }
    for header in REPEATED {
        all.extend([3, 4].map(|count| Sight::Repeat(header, count)));
        let right = if header == 0xCC { 2 } else { 3 };
        all.extend((0..right).map(|len| Sight::Length(header, len)));
    }
    all.extend([0, 2].map(|len| Sight::Length(0x42, len)));
    all.extend([0, 1].map(|len| Sight::Length(0x92, len)));
    all.extend([0, 1, 12, 13].map(|code| Sight::Code(0x91, code)));
    all.extend([0, 9, 10, 15].map(|code| Sight::Code(0x92, code)));
    all.extend([0x91, 0x92].map(Sight::Filler));
    for header in [0xC9, 0xCA, 0xCD] {
        let octets = *b"\x02\x03\x04/09:;<";
        all.extend(octets.map(|octet| Sight::Character(header, octet)));
    }
    all.extend(b"/09:".map(|octet| Sight::Character(0xD2, octet)));
    all
}

/// How many octets follow a header, told by the first of them.
fn len_behind(header: u8, octets: &[u8]) -> usize {
    let first = octets.first().map_or(0, |&first| first.into());
    match header {
        0x41 | 0x43 => 1,
        0xD2 => 3,
        0x91 => 1 + usize::div_ceil(first, 2),
        _ => 1 + first,
    }
}

/// What is seen of contents.
pub fn sights(contents: &[u8]) -> Sights {
    let Some(&form) = contents.first() else {
        return Sights::from([Sight::Empty]);
    };
    if number(&[form]) == 19 {
        return Sights::from([Sight::NoForm(form)]);
    }
    let mut seen = Sights::new();
    let mut before = Vec::new();
    let mut at = 1;
    while let Some(&header) = contents.get(at) {
        let end = at + 1 + len_behind(header, &contents[at + 1..]);
        let upto = &contents[..end.min(contents.len())];
        let more = match number(upto) {
            0 => sound(form, &upto[at..]),
            12 if end > upto.len() + 1 => vec![],
            12 if end > upto.len() => vec![Sight::Cut(header)],
            12 => of_form(upto, at),
            13 => of_digits(upto, at),
            _ if !HEADERS.contains(&header) => vec![Sight::NoHeader(header)],
            _ if before.contains(&header) => vec![Sight::Again(header)],
            _ => vec![Sight::Stranger(header)],
        };
        seen.extend(more);
        if number(upto) > 0 {
            break;
        }
        before.push(header);
        at = end;
    }
    seen
}

fn number(contents: &[u8]) -> u8 {
    contents::number(ORDER, contents)
}

/// Whether the contents are accepted with another octet in one place.
fn mends(contents: &[u8], at: usize, octet: u8) -> bool {
    contents::number_with(ORDER, contents, at, octet) == 0
}

/// Where in a parameter its digits or characters start.
fn digits_at(header: u8) -> usize {
    match header {
        0x91 => 2,
        0xD2 => 1,
        _ => 4,
    }
}

/// What is seen of a sound parameter.
fn sound(form: u8, parameter: &[u8]) -> Vec<Sight> {
    let header = parameter[0];
    let mut seen = vec![Sight::Sound(form, header)];
    if REPEATED.contains(&header) {
        seen.push(Sight::Repeat(header, parameter[3]));
    }
    let digits = parameter.get(digits_at(header)..).unwrap_or(&[]);
    match header {
        0x91 | 0x92 => {
            // The low halves alone: the last high one may be a filler.
            seen.extend(digits.iter().map(|octet| Sight::Code(header, octet & 0x0F)));
        }
        0xC9 | 0xCA | 0xCD | 0xD2 => {
            seen.extend(digits.iter().map(|&octet| Sight::Character(header, octet)));
        }
        _ => {}
    }
    seen
}

/// What is seen of the last parameter, which starts at `at` and is of bad form.
fn of_form(contents: &[u8], at: usize) -> Vec<Sight> {
    let (header, own) = (contents[at], &contents[at + 1..]);
    let mut seen = Vec::new();
    match (header, own) {
        (0x43, _) => seen.push(Sight::Unmarked),
        (0x92, [len, first, second, ..]) if *len > 1 => {
            if mends(contents, at + 2, first & 0x7F) {
                seen.push(Sight::Odd);
            }
            if mends(contents, at + 3, second & 0xF0) {
                seen.push(Sight::LowBits);
            }
        }
        (_, [_, _, repeat, ..]) if mends(contents, at + 3, 3) => {
            seen.push(Sight::Repeat(header, *repeat));
        }
        (_, [_, _, repeat, ..]) if header != 0x42 && *repeat > 3 => {}
        (_, [len, ..]) => seen.push(Sight::Length(header, *len)),
        (_, []) => {}
    }
    seen
}

/// What is seen of the last parameter, which starts at `at` and has a bad digit.
fn of_digits(contents: &[u8], at: usize) -> Vec<Sight> {
    let header = contents[at];
    let mut seen = Vec::new();
    for (place, &octet) in contents.iter().enumerate().skip(at + digits_at(header)) {
        match header {
            0x91 | 0x92 => {
                if mends(contents, place, octet & 0xF0 | 0x01) {
                    seen.push(Sight::Code(header, octet & 0x0F));
                }
                if place + 1 == contents.len() && mends(contents, place, octet & 0x0F) {
                    seen.push(Sight::Filler(header));
                }
            }
            _ if mends(contents, place, b'0') => seen.push(Sight::Character(header, octet)),
            _ => {}
        }
    }
    seen
}
