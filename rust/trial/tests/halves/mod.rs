//! Where a transfer parameter holds digits and characters, in their order, and
//! which of them are bad: the first of these is what 13 is about.

#![allow(dead_code)]

/// What one of them is.
#[derive(Clone, Copy, Debug, PartialEq, Eq)]
pub enum Part {
    /// The low half of an octet.
    Low,
    /// The high half.
    High,
    /// The high half that is left over behind an odd count of digits.
    Filler,
    /// A whole octet.
    Character,
}

/// A digit, a filler or a character.
#[derive(Clone, Copy)]
pub struct Slot {
    /// The offset of its octet behind the header of the transfer parameter.
    pub at: usize,
    /// What it is.
    pub part: Part,
    /// The header of the parameter that holds it: of the transfer parameter, in a
    /// connection order of the one in that; in carriers the tag of the code.
    pub holder: u8,
    is_right: fn(u8) -> bool,
}

impl Slot {
    /// Whether it is bad in this octet.
    pub fn is_bad(&self, octet: u8) -> bool {
        let value = match self.part {
            Part::Low => octet & 0x0F,
            Part::High | Part::Filler => octet >> 4,
            Part::Character => octet,
        };
        !(self.is_right)(value)
    }
}

/// Digits in half-octets, the low half before the high, and the filler last.
fn halves(holder: u8, start: usize, count: usize, is_right: fn(u8) -> bool) -> Vec<Slot> {
    let slot = |i: usize, part, is_right| Slot {
        at: start + i / 2,
        part,
        holder,
        is_right,
    };
    let digit = |i| slot(i, [Part::Low, Part::High][i % 2], is_right);
    let mut slots: Vec<Slot> = (0..count).map(digit).collect();
    if count % 2 == 1 {
        slots.push(slot(count, Part::Filler, |value| value == 0));
    }
    slots
}

fn characters(holder: u8, octets: std::ops::Range<usize>, is_right: fn(u8) -> bool) -> Vec<Slot> {
    let slot = |at| Slot {
        at,
        part: Part::Character,
        holder,
        is_right,
    };
    octets.map(slot).collect()
}

/// The digits of a number whose two octets of fields stand at `start`.
fn number(holder: u8, octets: &[u8], start: usize, is_right: fn(u8) -> bool) -> Vec<Slot> {
    let odd = usize::from(octets[start] >> 7);
    let count = 2 * (octets.len() - start - 2);
    halves(holder, start + 2, count.saturating_sub(odd), is_right)
}

fn is_digit(octet: u8) -> bool {
    octet.is_ascii_digit()
}

/// The digits and characters of a whole transfer parameter whose form is right.
pub fn slots(parameter: &[u8]) -> Vec<Slot> {
    let is_number_code = |code| matches!(code, 0..=9 | 11 | 12);
    match *parameter {
        [header @ (0x90 | 0x91 | 0x95 | 0x98 | 0xA3), count, ..] => {
            let count = usize::from(count & 0x3F);
            halves(header, 2, count, |code| matches!(code, 1..=12))
        }
        [header @ (0xD7 | 0xDC), ..] => number(header, parameter, 2, is_number_code),
        [0xDA, _, 0x06, ..] => number(0xDA, parameter, 3, is_number_code),
        [0xF7, _, _, 1, ..] => characters(0xF7, 4..parameter.len(), is_digit),
        [0xF7, _, _, 3..=5, ..] => {
            let mbi = halves(0xF7, 4, 2, |code| matches!(code, 1..=10));
            [mbi, characters(0xF7, 5..parameter.len(), is_digit)].concat()
        }
        [0xF7, _, _, 8..=10, ..] => characters(0xF7, 5..parameter.len(), is_digit),
        [0xE0, ..] => in_order(parameter),
        [0xCC, ..] => in_carriers(parameter),
        _ => Vec::new(),
    }
}

/// Those of a connection order, up to the first parameter that is cut.
fn in_order(order: &[u8]) -> Vec<Slot> {
    let mut slots = Vec::new();
    let mut at = 3;
    while let Some(&header) = order.get(at) {
        let first = order.get(at + 1).map_or(0, |&first| usize::from(first));
        let end = at
            + 1
            + match header {
                0x41 | 0x43 => 1,
                0xD2 => 3,
                0x91 => 1 + first.div_ceil(2),
                _ => 1 + first,
            };
        if end > order.len() {
            break;
        }
        slots.extend(match header {
            0x91 => halves(header, at + 2, first, |code| matches!(code, 1..=12)),
            0x92 if first >= 2 => number(header, &order[..end], at + 2, |code| code <= 9),
            0xC9 | 0xCA | 0xCD => characters(header, at + 4..end, |octet| {
                is_digit(octet) || octet == b';' || octet == 0x03
            }),
            0xD2 => characters(header, at + 1..end, is_digit),
            _ => Vec::new(),
        });
        at = end;
    }
    slots
}

/// Those of the codes in carriers: the entries stand behind the header, the length
/// octet and the direction.
fn in_carriers(carriers: &[u8]) -> Vec<Slot> {
    let mut slots = Vec::new();
    let mut at = 3;
    while let Some(&[_, len]) = carriers.get(at..at + 2) {
        let end = at + 2 + usize::from(len);
        at += 2;
        while at < end {
            let own = at + 2;
            let (tag, len) = (carriers[at], usize::from(carriers[at + 1]));
            if tag == 0xFE {
                let count = 2 * (len - 1) - usize::from(carriers[own] >> 7);
                slots.extend(halves(tag, own + 1, count, |code| code <= 9));
            }
            at = own + len;
        }
    }
    slots
}

/// Those that are bad.
pub fn bad(parameter: &[u8]) -> Vec<Slot> {
    let mut slots = slots(parameter);
    slots.retain(|slot| slot.is_bad(parameter[slot.at]));
    slots
}
