//! The rules of the carriers, CC, said apart from both codecs: what is wrong with
//! contents, or else what their rows are.

#![allow(dead_code)]

/// What contents come to. Offsets are counted from their first octet.
#[derive(Clone, Debug, PartialEq, Eq)]
pub enum Told {
    /// 12.
    Form,
    /// 13, at the octet with this offset.
    Digit(usize),
    /// They are sound, and these are their rows.
    Rows(Vec<Row>),
}

/// A row.
#[derive(Clone, Debug, PartialEq, Eq)]
pub struct Row {
    pub level: u8,
    pub tag: u8,
    pub offset: usize,
    pub len: usize,
    /// The digits, if it is a code.
    pub digits: Option<Vec<u8>>,
}

/// The entries from `at` to `end`, by the offsets of their tags; none if they do not
/// close there, or if a tag is below the lowest one, or FF.
fn entries(octets: &[u8], mut at: usize, end: usize, lowest: u8) -> Option<Vec<usize>> {
    let mut tags = Vec::new();
    while at != end {
        let is_tag = octets[at] >= lowest && octets[at] != 0xFF;
        if !is_tag || at + 2 > end {
            return None;
        }
        tags.push(at);
        at += 2 + usize::from(octets[at + 1]);
        if at > end {
            return None;
        }
    }
    Some(tags)
}

/// The tags of all entries with their levels, each dependent one behind its carrier
/// entry.
fn tags(contents: &[u8]) -> Option<Vec<(u8, usize)>> {
    let mut all = Vec::new();
    for carrier in entries(contents, 1, contents.len().max(1), 0xF8)? {
        all.push((1, carrier));
        let end = carrier + 2 + usize::from(contents[carrier + 1]);
        let dependents = entries(contents, carrier + 2, end, 0xFC)?;
        all.extend(dependents.into_iter().map(|tag| (2, tag)));
    }
    Some(all)
}

/// Whether what a code holds is of the right form.
fn is_code(held: &[u8]) -> bool {
    matches!(held, [0x00, ..] | [0x80, _, ..])
}

/// The halves of the octets of a code's digits, the low one first.
fn halves(held: &[u8]) -> Vec<u8> {
    let halves = held[1..].iter().map(|octet| [octet % 16, octet / 16]);
    halves.flatten().collect()
}

/// The digits of a code, and of an odd count the half that is left over.
fn digits(held: &[u8]) -> (Vec<u8>, Option<u8>) {
    let mut digits = halves(held);
    let filler = match held[0] {
        0x80 => digits.pop(),
        _ => None,
    };
    (digits, filler)
}

/// Which half is the first bad one in what a code holds, counted from its first digit.
fn first_bad(held: &[u8]) -> Option<usize> {
    let (digits, filler) = digits(held);
    let bad_filler = filler.filter(|filler| *filler != 0);
    let bad_digit = digits.iter().position(|digit| *digit > 9);
    bad_digit.or(bad_filler.map(|_| digits.len()))
}

/// The direction's row.
fn first_row(contents: &[u8]) -> Option<Row> {
    let direction = contents.first().filter(|direction| **direction < 4)?;
    Some(Row {
        level: 0,
        tag: *direction,
        offset: 0,
        len: 0,
        digits: None,
    })
}

/// What contents come to.
pub fn told(contents: &[u8]) -> Told {
    let (Some(first), Some(tags)) = (first_row(contents), tags(contents)) else {
        return Told::Form;
    };
    let mut rows = vec![first];
    let mut bad = None;
    for (level, offset) in tags {
        let (tag, len) = (contents[offset], usize::from(contents[offset + 1]));
        let held = &contents[offset + 2..offset + 2 + len];
        let is_code_tag = (level, tag) == (2, 0xFE);
        if is_code_tag && !is_code(held) {
            return Told::Form;
        }
        if is_code_tag && bad.is_none() {
            bad = first_bad(held).map(|half| offset + 3 + half / 2);
        }
        rows.push(Row {
            level,
            tag,
            offset,
            len,
            digits: is_code_tag.then(|| digits(held).0),
        });
    }
    bad.map_or(Told::Rows(rows), Told::Digit)
}
