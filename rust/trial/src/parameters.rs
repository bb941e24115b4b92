//! Transfer parameters in octets: sound ones of every name, and spoilt ones.

use crate::carriers;
use crate::charging;
use crate::order;
use crate::rng::Rng;
use plain::transfer::{layout_of, name_of, Layout, CARRIERS, CHARGING, ORDER};

/// The name of the carriers.
pub const CARRIERS_NAME: u8 = name_of(CARRIERS);
/// The name of the charging information.
pub const CHARGING_NAME: u8 = name_of(CHARGING);
/// The name of the connection order.
pub const ORDER_NAME: u8 = name_of(ORDER);

/// What can be wrong with a transfer parameter by itself.
#[derive(Clone, Copy, Debug, PartialEq, Eq)]
pub enum Fault {
    /// The name is unused.
    UnusedName,
    /// The PLI is not the name's.
    WrongPli,
    /// Octets are missing at the end, or left over.
    WrongLength,
    /// A zero bit is set, or the form is bad.
    BadForm,
    /// A digit is spare, or the filler is not 0, or more than one of them.
    SpareDigit,
    /// A digit is spare, and something else is wrong, too.
    Twofold,
    /// The check digit of the charging information is wrong.
    CheckDigit,
    /// A form or header cannot stand in the connection order.
    Order,
}

/// All faults.
pub const FAULTS: [Fault; 8] = [
    Fault::UnusedName,
    Fault::WrongPli,
    Fault::WrongLength,
    Fault::BadForm,
    Fault::SpareDigit,
    Fault::Twofold,
    Fault::CheckDigit,
    Fault::Order,
];

/// The names whose layout is as wanted.
pub fn names_with(wanted: impl Fn(Layout) -> bool) -> Vec<u8> {
    (0..64).filter(|&name| wanted(layout_of(name))).collect()
}

/// The names in use, in any order.
pub fn shuffled_names(rng: &mut Rng) -> Vec<u8> {
    let mut names = names_with(|layout| layout != Layout::Unused);
    rng.shuffle(&mut names);
    names
}

/// The octets of the shortest parameter of a name in use.
pub fn shortest(name: u8) -> usize {
    match layout_of(name) {
        Layout::Unused | Layout::Open => 1,
        Layout::Octet { .. } | Layout::Digits { .. } | Layout::Carried => 2,
        Layout::GenericNumber => 3,
        Layout::Order => 2 + order::SHORTEST,
        Layout::Carriers => 2 + carriers::SHORTEST,
        Layout::UserNumber | Layout::CallingNumber | Layout::Two { .. } => 4,
        Layout::Charging => 2 + charging::SHORTEST,
        Layout::Four => 6,
    }
}

/// A count up to `most`, small as a rule.
pub(crate) fn count(rng: &mut Rng, most: usize) -> usize {
    let most = if rng.one_in(6) { most } else { most.min(5) };
    rng.between(0, most)
}

/// A parameter with a length octet.
fn counted(name: u8, contents: &[u8]) -> Vec<u8> {
    let mut octets = vec![0xC0 | name, contents.len() as u8];
    octets.extend_from_slice(contents);
    octets
}

/// The charging information with these contents.
fn charged(contents: Vec<u8>) -> Vec<u8> {
    counted(CHARGING_NAME, &contents)
}

/// The connection order with these contents.
fn ordered(contents: Vec<u8>) -> Vec<u8> {
    counted(ORDER_NAME, &contents)
}

/// The carriers with these contents.
fn carried(contents: Vec<u8>) -> Vec<u8> {
    counted(CARRIERS_NAME, &contents)
}

/// A sound parameter of `name` in at most `room` octets, if [`shortest`] goes
/// into them; of an unused name, one that is sound but for its name.
pub fn sound(rng: &mut Rng, name: u8, room: usize) -> Vec<u8> {
    let spare = room.saturating_sub(shortest(name));
    match layout_of(name) {
        Layout::Unused | Layout::Open => carried_by_any_pli(rng, name, spare),
        Layout::Octet { zero } => vec![0x40 | name, rng.octet() & !zero],
        Layout::Digits { zero } => dialled_digits(rng, name, zero, spare),
        Layout::UserNumber => counted(name, &number(rng, spare)),
        Layout::CallingNumber => counted(name, &calling_number(rng, spare)),
        Layout::GenericNumber => {
            let mut contents = vec![0x06];
            if spare >= 2 && rng.below(3) > 0 {
                contents.extend(number(rng, spare - 2));
            } else {
                let len = count(rng, spare);
                contents.extend(rng.octets(len));
                contents[0] = rng.pick(&[0x00, 0x05, 0x07, 0x16, 0x86, 0xFF]);
            }
            counted(name, &contents)
        }
        Layout::Four => counted(name, &rng.octets(4)),
        Layout::Two { zero } => counted(name, &[rng.octet(), rng.octet() & !zero]),
        Layout::Charging => charged(charging::sound(rng, charging::SHORTEST + spare)),
        Layout::Order => ordered(order::sound(rng, order::SHORTEST + spare)),
        Layout::Carriers => carried(carriers::sound(rng, carriers::SHORTEST + spare)),
        Layout::Carried => {
            let len = count(rng, spare);
            counted(name, &rng.octets(len))
        }
    }
}

/// A sound parameter under PLI 10 with at most `spare` octets of digits.
fn dialled_digits(rng: &mut Rng, name: u8, zero: u8, spare: usize) -> Vec<u8> {
    let most = (2 * spare).min(63);
    let len = match rng.one_in(12) {
        true => most,
        false => count(rng, most),
    };
    let codes = codes(rng, &DIALLED_CODES, len);
    let mut octets = dialled(name, &codes);
    octets[1] |= rng.octet() & 0xC0 & !zero;
    octets
}

/// A parameter of `name` under any PLI, with any contents.
fn carried_by_any_pli(rng: &mut Rng, name: u8, spare: usize) -> Vec<u8> {
    let pli = match spare {
        0 => 0,
        _ => rng.octet() & 0xC0,
    };
    with_pli(rng, pli | name, spare.saturating_sub(1))
}

/// A parameter of any header, with any contents of the length its PLI gives,
/// `spare` octets at most beside the count or length octet.
fn with_pli(rng: &mut Rng, header: u8, spare: usize) -> Vec<u8> {
    match header >> 6 {
        0 => vec![header],
        1 => vec![header, rng.octet()],
        2 => {
            let half_octets = count(rng, (2 * spare).min(63));
            let mut octets = vec![header, rng.octet() & 0xC0 | half_octets as u8];
            octets.extend(rng.octets(half_octets.div_ceil(2)));
            octets
        }
        _ => {
            let len = count(rng, spare.min(255));
            counted(header & 0x3F, &rng.octets(len))
        }
    }
}

pub(crate) const DIALLED_CODES: [u8; 12] = [1, 2, 3, 4, 5, 6, 7, 8, 9, 10, 11, 12];
pub(crate) const DIALLED_SPARE: [u8; 4] = [0, 13, 14, 15];
const NUMBER_CODES: [u8; 12] = [0, 1, 2, 3, 4, 5, 6, 7, 8, 9, 11, 12];
const NUMBER_SPARE: [u8; 4] = [10, 13, 14, 15];

pub(crate) fn codes(rng: &mut Rng, from: &[u8], len: usize) -> Vec<u8> {
    (0..len).map(|_| rng.pick(from)).collect()
}

/// Codes in half-octets, the first low.
pub(crate) fn packed(codes: &[u8]) -> Vec<u8> {
    codes
        .chunks(2)
        .map(|pair| pair[0] | pair.get(1).unwrap_or(&0) << 4)
        .collect()
}

/// A parameter under PLI 10 with these codes and no upper bits.
fn dialled(name: u8, codes: &[u8]) -> Vec<u8> {
    let mut octets = vec![0x80 | name, codes.len() as u8];
    octets.extend(packed(codes));
    octets
}

/// A number with these codes.
fn number_of(number_type: u8, second: u8, codes: &[u8]) -> Vec<u8> {
    let odd = (codes.len() as u8 & 1) << 7;
    let mut octets = vec![odd | number_type & 0x7F, second];
    octets.extend(packed(codes));
    octets
}

/// A sound number with at most `spare` octets of digits.
fn number(rng: &mut Rng, spare: usize) -> Vec<u8> {
    let len = count(rng, 2 * spare);
    let codes = codes(rng, &NUMBER_CODES, len);
    let number_type = match rng.below(3) {
        0 => rng.pick(&[1, 2, 3, 4, 112, 125, 126]),
        _ => rng.octet(),
    };
    number_of(number_type, rng.octet(), &codes)
}

/// The same for DC.
fn calling_number(rng: &mut Rng, spare: usize) -> Vec<u8> {
    let mut octets = number(rng, spare);
    if rng.one_in(3) {
        octets = vec![0, 0x08 | rng.octet() & 0x03];
    } else if octets[1] & 0x0C == 0x08 {
        octets[1] ^= rng.pick(&[0x04, 0x08]);
    }
    octets
}

/// A parameter with one fault.
pub fn spoilt(rng: &mut Rng, fault: Fault) -> Vec<u8> {
    match fault {
        Fault::UnusedName => {
            let name = rng.pick(&names_with(|layout| layout == Layout::Unused));
            let header = rng.octet() & 0xC0 | name;
            with_pli(rng, header, 6)
        }
        Fault::WrongPli => wrong_pli(rng),
        Fault::WrongLength => wrong_length(rng),
        Fault::BadForm => bad_form(rng),
        Fault::SpareDigit => spoilt_digits(rng),
        Fault::Twofold => match rng.below(8) {
            0 => charged(charging::twofold(rng)),
            1 => ordered(order::twofold(rng)),
            2 => carried(carriers::twofold(rng)),
            _ => twofold(rng),
        },
        Fault::CheckDigit => charged(charging::wrong_check_digit(rng)),
        Fault::Order => ordered(order::not_ordered(rng)),
    }
}

/// A parameter with any fault.
pub fn spoilt_somehow(rng: &mut Rng) -> Vec<u8> {
    let fault = rng.pick(&FAULTS);
    spoilt(rng, fault)
}

/// A parameter with bad digits or characters, one of them or more.
pub fn spoilt_digits(rng: &mut Rng) -> Vec<u8> {
    match rng.weighted(&[4, 1, 2, 1]) {
        0 => spare_digit(rng),
        1 => charged(charging::bad_digit(rng)),
        2 => ordered(order::bad_digit(rng)),
        _ => carried(carriers::bad_digit(rng)),
    }
}

/// The charging information, sound or spoilt.
pub fn charging_somehow(rng: &mut Rng) -> Vec<u8> {
    match rng.below(2) {
        0 => sound(rng, CHARGING_NAME, usize::MAX),
        _ => spoilt_charging(rng),
    }
}

/// The charging information with any fault of its own.
pub fn spoilt_charging(rng: &mut Rng) -> Vec<u8> {
    charged(match rng.weighted(&[3, 4, 1, 2]) {
        0 => charging::bad_form(rng),
        1 => charging::bad_digit(rng),
        2 => charging::twofold(rng),
        _ => charging::wrong_check_digit(rng),
    })
}

/// The connection order, sound or spoilt.
pub fn order_somehow(rng: &mut Rng) -> Vec<u8> {
    match rng.below(2) {
        0 => {
            let room = rng.pick(&[3, 12, 40, 40, 40, 257]);
            sound(rng, ORDER_NAME, room)
        }
        _ => spoilt_order(rng),
    }
}

/// The connection order with any fault of its own.
pub fn spoilt_order(rng: &mut Rng) -> Vec<u8> {
    ordered(match rng.weighted(&[6, 4, 1, 5]) {
        0 => order::bad_form(rng),
        1 => order::bad_digit(rng),
        2 => order::twofold(rng),
        _ => order::not_ordered(rng),
    })
}

/// The carriers, sound or spoilt.
pub fn carriers_somehow(rng: &mut Rng) -> Vec<u8> {
    match rng.below(2) {
        0 => sound_carriers(rng),
        _ => spoilt_carriers(rng),
    }
}

/// The carriers, sound.
pub fn sound_carriers(rng: &mut Rng) -> Vec<u8> {
    let room = rng.pick(&[3, 12, 40, 40, 40, 80, 255]);
    sound(rng, CARRIERS_NAME, room)
}

/// The carriers with any fault of their own.
pub fn spoilt_carriers(rng: &mut Rng) -> Vec<u8> {
    carried(match rng.weighted(&[6, 4, 2]) {
        0 => carriers::bad_form(rng),
        1 => carriers::bad_digit(rng),
        _ => carriers::twofold(rng),
    })
}

fn wrong_pli(rng: &mut Rng) -> Vec<u8> {
    let name = rng.pick(&names_with(|layout| layout.pli().is_some()));
    let right = layout_of(name).pli().unwrap_or(0);
    let pli = (right + rng.between(1, 3) as u8) % 4;
    with_pli(rng, pli << 6 | name, 6)
}

fn wrong_length(rng: &mut Rng) -> Vec<u8> {
    let name = rng.pick(&names_with(|layout| layout != Layout::Unused));
    let mut octets = sound(rng, name, 24);
    let counted = octets[0] >> 6 >= 2;
    match rng.below(4) {
        0 if counted => octets[1] = octets[1].wrapping_add(1),
        1 if counted => octets[1] = octets[1].wrapping_sub(1),
        2 => octets.push(rng.octet()),
        _ if octets.len() > 1 => {
            let keep = rng.between(1, octets.len() - 1);
            octets.truncate(keep);
        }
        _ => {
            octets[0] |= 0xC0;
            octets.extend([3, 0]);
        }
    }
    octets
}

fn bad_form(rng: &mut Rng) -> Vec<u8> {
    let name = if rng.one_in(3) {
        rng.pick(&[0x1C, 0x1C, 0x1B, CHARGING_NAME, ORDER_NAME, CARRIERS_NAME])
    } else {
        rng.pick(&names_with(has_form))
    };
    match layout_of(name) {
        Layout::Octet { zero } | Layout::Digits { zero } => {
            let mut octets = sound(rng, name, 16);
            octets[1] |= rng.bit_of(zero);
            octets
        }
        Layout::CallingNumber if rng.below(3) > 0 => counted(name, &number_not_withheld(rng)),
        Layout::GenericNumber if rng.below(4) > 0 => {
            let mut contents = bad_number(rng);
            contents.insert(0, 0x06);
            counted(name, &contents)
        }
        Layout::GenericNumber => counted(name, &[]),
        Layout::Four => {
            let len = rng.pick(&[0, 1, 2, 3, 3, 5, 5, 6, 9, 250]);
            counted(name, &rng.octets(len))
        }
        Layout::Two { zero } if rng.one_in(2) => {
            let second = rng.octet() & !zero | rng.bit_of(zero);
            counted(name, &[rng.octet(), second])
        }
        Layout::Two { .. } => {
            let len = rng.pick(&[0, 1, 1, 3, 3, 4, 250]);
            counted(name, &rng.octets(len))
        }
        Layout::Charging => charged(charging::bad_form(rng)),
        Layout::Order => ordered(order::bad_form(rng)),
        Layout::Carriers => carried(carriers::bad_form(rng)),
        _ => counted(name, &bad_number(rng)),
    }
}

/// Whether contents of a length that the PLI rule gives can be of a bad form.
fn has_form(layout: Layout) -> bool {
    match layout {
        Layout::Octet { zero } | Layout::Digits { zero } => zero != 0,
        Layout::Unused | Layout::Open | Layout::Carried => false,
        _ => true,
    }
}

/// Octets too few for a number, or an odd mark without a digit.
fn bad_number(rng: &mut Rng) -> Vec<u8> {
    match rng.below(3) {
        0 => vec![],
        1 => vec![rng.octet()],
        _ => vec![rng.octet() | 0x80, rng.octet()],
    }
}

/// A number with presentation 2 and something that must not stand beside it.
fn number_not_withheld(rng: &mut Rng) -> Vec<u8> {
    let screening = rng.octet() & 0x03;
    match rng.below(6) {
        0 => vec![rng.bit_of(0xFF), 0x08 | screening],
        1 => vec![0x80, 0x08 | screening, rng.octet() & 0x07],
        2 => vec![0, 0x08 | screening | rng.bit_of(0xF0)],
        3 => vec![0, 0x08 | screening, rng.octet()],
        4 => vec![0x80, 0x08 | screening],
        _ => {
            let spare = rng.pick(&[4, 4, 4, 250]);
            let octets = number(rng, spare);
            let second = octets[1] & !0x0C | 0x08;
            [&[octets[0] | 0x01, second], &octets[2..]].concat()
        }
    }
}

fn spare_digit(rng: &mut Rng) -> Vec<u8> {
    let name = rng.pick(&[0x10, 0x11, 0x15, 0x18, 0x23, 0x17, 0x1C, 0x1A]);
    let is_dialled = matches!(layout_of(name), Layout::Digits { .. });
    let (listed, spare) = if is_dialled {
        (DIALLED_CODES, DIALLED_SPARE)
    } else {
        (NUMBER_CODES, NUMBER_SPARE)
    };
    let len = match (rng.below(16), is_dialled) {
        (0, true) => rng.between(50, 63),
        (0, false) => rng.between(100, 500),
        _ => 1 + count(rng, 20),
    };
    let mut codes = codes(rng, &listed, len);
    let filler = spoil(rng, &mut codes, &spare);
    let octets = if is_dialled {
        dialled(name, &codes)
    } else {
        let second = rng.octet() & !0x0C;
        let mut contents = number_of(rng.octet(), second, &codes);
        if name == 0x1A {
            contents.insert(0, 0x06);
        }
        counted(name, &contents)
    };
    with_filler(octets, filler)
}

/// Spoils digits: puts a spare code among the codes, or two into one octet or
/// anywhere, and gives the filler, which is 0 unless, where the count is odd, it is
/// spoilt as well or alone.
pub(crate) fn spoil(rng: &mut Rng, codes: &mut [u8], spare: &[u8]) -> u8 {
    let filler = match codes.len() % 2 == 1 && rng.one_in(2) {
        true => rng.pick(&[1, 1, 2, 4, 8, 9, 10, 15]),
        false => 0,
    };
    if filler == 0 || rng.one_in(3) {
        let at = rng.below(codes.len());
        codes[at] = rng.pick(spare);
        let second = match rng.below(6) {
            0 => at ^ 1,
            1 => rng.below(codes.len()),
            _ => at,
        };
        if let Some(code) = codes.get_mut(second) {
            *code = rng.pick(spare);
        }
    }
    filler
}

/// The octets with this filler in the last high half, which is 0.
pub(crate) fn with_filler(mut octets: Vec<u8>, filler: u8) -> Vec<u8> {
    if let Some(last) = octets.last_mut() {
        *last |= filler << 4;
    }
    octets
}

/// A spare digit beside a set bit, a withheld number or a wrong length.
fn twofold(rng: &mut Rng) -> Vec<u8> {
    let mut octets = spare_digit(rng);
    match octets[0] {
        _ if rng.one_in(4) => {
            octets.pop();
        }
        0xDC => octets[3] = octets[3] & !0x0C | 0x08,
        0xD7 | 0xDA => octets[1] = octets[1].wrapping_add(rng.pick(&[1, 0xFF])),
        _ => octets[1] ^= rng.bit_of(0xC0),
    }
    octets
}

#[cfg(test)]
mod tests {
    use super::*;
    use crate::messages::with_alone;

    fn verdict(parameter: &[u8]) -> Result<(), plain::Refusal> {
        plain::verdict(&with_alone(parameter))
    }

    #[test]
    fn sound_ones_are_accepted_and_fit() {
        let mut rng = Rng::new(1);
        for round in 0..20_000 {
            let names = shuffled_names(&mut rng);
            let name = names[round % names.len()];
            let room = shortest(name) + rng.below(200);
            let octets = sound(&mut rng, name, room);
            assert_eq!(verdict(&octets), Ok(()), "{octets:02X?}");
            assert!(octets.len() <= room);
            let tight = sound(&mut rng, name, shortest(name));
            assert_eq!(verdict(&tight), Ok(()), "{tight:02X?}");
            assert_eq!(tight.len(), shortest(name));
        }
    }

    #[test]
    fn spoilt_ones_are_refused_for_their_fault() {
        let mut rng = Rng::new(2);
        let number = |fault, rng: &mut Rng| verdict(&spoilt(rng, fault)).map_err(|r| r.number);
        for _ in 0..20_000 {
            assert_eq!(number(Fault::UnusedName, &mut rng), Err(8));
            assert_eq!(number(Fault::WrongPli, &mut rng), Err(9));
            assert_eq!(number(Fault::BadForm, &mut rng), Err(12));
            assert_eq!(number(Fault::SpareDigit, &mut rng), Err(13));
            assert_eq!(number(Fault::CheckDigit, &mut rng), Err(18));
            assert_eq!(number(Fault::Order, &mut rng), Err(19));
        }
    }
}
