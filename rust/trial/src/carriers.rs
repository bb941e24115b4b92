//! Contents of the carriers: sound ones, and spoilt ones.

use crate::parameters::{codes, count, packed, spoil, with_filler};
use crate::rng::Rng;

/// The tags of carrier entries.
const CARRIER_TAGS: [u8; 7] = [0xF8, 0xF9, 0xFA, 0xFB, 0xFC, 0xFD, 0xFE];
/// The tags of dependent entries that are carried.
const CARRIED_TAGS: [u8; 2] = [0xFC, 0xFD];
/// The tag of a dependent entry that is a code.
const CODE: u8 = 0xFE;

/// Octets that are no tags of carrier entries: those beside them, and others.
const NO_CARRIERS: [u8; 8] = [0xF7, 0xF7, 0xFF, 0xFF, 0x00, 0x7E, 0xEE, 0x01];
/// The same of dependent entries; some are tags of carrier entries.
const NO_DEPENDENTS: [u8; 9] = [0xFB, 0xFB, 0xFF, 0xFF, 0x00, 0x7E, 0xF8, 0xFA, 0xEE];

/// The codes of digits, and those that are none.
const CODES: [u8; 10] = [0, 1, 2, 3, 4, 5, 6, 7, 8, 9];
const SPARE: [u8; 6] = [10, 10, 11, 12, 13, 15];

/// The octets of the shortest contents.
pub(crate) const SHORTEST: usize = 1;

/// The most octets of contents that a message has room for.
const MOST: usize = 253;

/// How many octets a dependent entry among spoilt ones holds at most.
const FEW: usize = 12;

/// An entry with what it holds.
fn entry(tag: u8, held: &[u8]) -> Vec<u8> {
    [&[tag, held.len() as u8], held].concat()
}

fn direction(rng: &mut Rng) -> u8 {
    rng.below(4) as u8
}

/// What a code holds with these codes of digits.
fn code_of(codes: &[u8]) -> Vec<u8> {
    let first = (codes.len() as u8 & 1) << 7;
    [&[first], &packed(codes)[..]].concat()
}

/// A sound dependent entry that holds at most so many octets, or one.
fn dependent(rng: &mut Rng, most: usize) -> Vec<u8> {
    if rng.one_in(3) {
        let len = match rng.below(3) {
            0 => 0,
            _ => count(rng, most),
        };
        return entry(rng.pick(&CARRIED_TAGS), &rng.octets(len));
    }
    let len = match rng.below(4) {
        0 => 0,
        _ => count(rng, 2 * most.saturating_sub(1)),
    };
    let codes = codes(rng, &CODES, len);
    entry(CODE, &code_of(&codes))
}

/// A sound carrier entry that holds at most so many octets.
fn carrier(rng: &mut Rng, most: usize) -> Vec<u8> {
    let mut held = Vec::new();
    for _ in 0..rng.pick(&[0, 1, 1, 2, 2, 3]) {
        let dependent = dependent(rng, most.min(FEW));
        if held.len() + dependent.len() <= most {
            held.extend(dependent);
        }
    }
    entry(rng.pick(&CARRIER_TAGS), &held)
}

/// Sound carrier entries, a few of them.
fn entries(rng: &mut Rng) -> Vec<Vec<u8>> {
    let most = rng.pick(&[0, 2, 6, 20]);
    (0..rng.below(4)).map(|_| carrier(rng, most)).collect()
}

/// Sound contents of at most so many octets, which are not fewer than
/// [`SHORTEST`].
pub(crate) fn sound(rng: &mut Rng, most: usize) -> Vec<u8> {
    let most = most.min(MOST);
    if most > SHORTEST + 4 && rng.one_in(8) {
        return full(rng, most);
    }
    let mut contents = vec![direction(rng)];
    for entry in entries(rng) {
        if contents.len() + entry.len() <= most {
            contents.extend(entry);
        }
    }
    contents
}

/// Contents of just so many octets, or one fewer: of one carried entry, of one code,
/// or of entries that are all empty, at either level.
fn full(rng: &mut Rng, most: usize) -> Vec<u8> {
    let direction = direction(rng);
    // Behind the direction, and behind the tag and the length octet of one carrier
    // entry and of one dependent one.
    let (outer, inner) = (most - 1, most - 3);
    let carrier = rng.pick(&CARRIER_TAGS);
    let entries = match rng.below(5) {
        0 => entry(
            carrier,
            &entry(rng.pick(&CARRIED_TAGS), &rng.octets(inner - 2)),
        ),
        1 => [carrier, 0x00].repeat(outer / 2),
        2 => {
            let empty = [rng.pick(&CARRIED_TAGS), 0x00];
            entry(carrier, &empty.repeat(inner / 2))
        }
        _ => {
            let octets = inner.saturating_sub(3);
            let len = (2 * octets).saturating_sub(rng.below(2));
            let codes = codes(rng, &CODES, len);
            entry(carrier, &entry(CODE, &code_of(&codes)))
        }
    };
    [&[direction], &entries[..]].concat()
}

/// Contents with this carrier entry, with sound ones before it and, unless it is to
/// be the last, behind it.
fn among_others(rng: &mut Rng, entry: Vec<u8>, is_last: bool) -> Vec<u8> {
    let mut all = entries(rng);
    let at = match is_last {
        true => all.len(),
        false => rng.between(0, all.len()),
    };
    all.insert(at, entry);
    [&[direction(rng)], &all.concat()[..]].concat()
}

/// A carrier entry with this dependent one, with sound ones before it and, unless it
/// is to be the last, behind it.
fn with_dependent(rng: &mut Rng, own: Vec<u8>, is_last: bool) -> Vec<u8> {
    let mut all: Vec<Vec<u8>> = (0..rng.below(3)).map(|_| dependent(rng, 4)).collect();
    let at = match is_last {
        true => all.len(),
        false => rng.between(0, all.len()),
    };
    all.insert(at, own);
    entry(rng.pick(&CARRIER_TAGS), &all.concat())
}

/// The entry cut behind its tag, or by one octet or more of what it holds; one that
/// is empty tells an octet that is not there.
fn cut(rng: &mut Rng, mut entry: Vec<u8>) -> Vec<u8> {
    match entry.len() {
        _ if rng.one_in(3) => entry.truncate(1),
        2 => entry[1] = rng.pick(&[1, 1, 2, 0xFF]),
        len if rng.one_in(2) => entry.truncate(len - 1),
        len => entry.truncate(rng.between(2, len - 1)),
    }
    entry
}

/// Contents without a direction or with another one, with another tag, with lengths
/// that do not close, or with a code that is empty, has a zero bit set, or has an odd
/// count and no digit.
pub(crate) fn bad_form(rng: &mut Rng) -> Vec<u8> {
    match rng.below(16) {
        0 => vec![],
        1 | 2 => {
            let bad = rng.pick(&[4, 4, 5, 8, 0x10, 0x40, 0x80, 0x83, 0xFF]);
            [&[bad], &entries(rng).concat()[..]].concat()
        }
        3 | 4 => {
            let mut stranger = carrier(rng, FEW);
            stranger[0] = rng.pick(&NO_CARRIERS);
            among_others(rng, stranger, false)
        }
        5 | 6 => {
            let whole = carrier(rng, FEW);
            let cut = cut(rng, whole);
            among_others(rng, cut, true)
        }
        7 | 8 => {
            let mut stranger = dependent(rng, FEW);
            stranger[0] = rng.pick(&NO_DEPENDENTS);
            let carrier = with_dependent(rng, stranger, false);
            among_others(rng, carrier, false)
        }
        9 | 10 => {
            let whole = dependent(rng, FEW);
            let cut = cut(rng, whole);
            let carrier = with_dependent(rng, cut, true);
            among_others(rng, carrier, false)
        }
        _ => {
            let code = bad_code(rng);
            let carrier = with_dependent(rng, code, false);
            among_others(rng, carrier, false)
        }
    }
}

/// A code of bad form.
fn bad_code(rng: &mut Rng) -> Vec<u8> {
    match rng.below(4) {
        0 => entry(CODE, &[]),
        1 => entry(CODE, &[0x80]),
        _ => {
            let len = rng.below(5);
            let mut held = code_of(&codes(rng, &CODES, len));
            held[0] |= rng.bit_of(0x7F);
            entry(CODE, &held)
        }
    }
}

/// Contents with a digit or a filler that is wrong, or with more of them.
pub(crate) fn bad_digit(rng: &mut Rng) -> Vec<u8> {
    let mut contents = vec![direction(rng)];
    let mut all = entries(rng);
    for _ in 0..rng.pick(&[1, 1, 1, 2]) {
        let code = code_with_bad_digit(rng);
        let carrier = with_dependent(rng, code, false);
        let at = rng.between(0, all.len());
        all.insert(at, carrier);
    }
    contents.extend(all.concat());
    contents
}

fn code_with_bad_digit(rng: &mut Rng) -> Vec<u8> {
    let len = rng.pick(&[1, 1, 2, 3, 5, 8, 9]);
    let mut codes = codes(rng, &CODES, len);
    let filler = spoil(rng, &mut codes, &SPARE);
    with_filler(entry(CODE, &code_of(&codes)), filler)
}

/// Contents with a bad digit, and something else that may be wrong.
pub(crate) fn twofold(rng: &mut Rng) -> Vec<u8> {
    let mut contents = bad_digit(rng);
    match rng.below(7) {
        0 => contents[0] |= rng.bit_of(0xFC),
        1 => contents.push(rng.pick(&CARRIER_TAGS)),
        2 => contents.push(rng.pick(&NO_CARRIERS)),
        3 => {
            let code = bad_code(rng);
            contents.extend(with_dependent(rng, code, false));
        }
        4 => {
            let keep = rng.between(1, contents.len() - 1);
            contents.truncate(keep);
        }
        _ => {
            let at = rng.below(contents.len());
            contents[at] = rng.octet();
        }
    }
    contents
}

#[cfg(test)]
mod tests {
    use super::*;

    #[test]
    fn just_so_many_octets() {
        let mut rng = Rng::new(5);
        for most in SHORTEST + 5..=MOST {
            for _ in 0..20 {
                let len = full(&mut rng, most).len();
                assert!((most - 1..=most).contains(&len), "{len} of {most}");
            }
        }
    }
}
