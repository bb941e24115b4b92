//! The charging information, F7: an octet that is carried unread, the rate kind,
//! and the fields that the kind has.

use crate::fault::{formed, Fault};
use crate::finding::find_transfer;
use crate::refusal::Refusal;
use crate::transfer::{name_of, CHARGING};

/// What the charging information tells: the rate kind, and the fields as whole
/// numbers, 0 for those that the kind does not have. Times are in half seconds.
#[derive(Clone, Copy, Debug, Default, PartialEq, Eq)]
pub struct Charging {
    /// The rate kind: 1 to 5 or 8 to 10.
    pub kind: u8,
    /// The unit fee, in yen.
    pub unit_fee: u16,
    /// How many units are counted at the beginning.
    pub initial_units: u16,
    /// How long a unit lasts by day: for 10 yen under kind 1, for the unit fee
    /// under the kinds 8 to 10.
    pub day: u16,
    /// How long a unit lasts by night, as by day.
    pub night: u16,
    /// How long a unit lasts late at night, first part, as by day.
    pub late_night_1: u16,
    /// How long a unit lasts late at night, second part, as by day.
    pub late_night_2: u16,
    /// The MBI of the call's fee: its two digits as a number.
    pub mbi: u16,
    /// How long a unit of the information's fee lasts: for 10 yen.
    pub information_interval: u16,
    /// How many units the information's fee is.
    pub information_units: u16,
    /// The time for which the information is free.
    pub free_time: u16,
    /// The check digit.
    pub check_digit: u16,
}

/// How a field is drawn.
#[derive(Clone, Copy, PartialEq, Eq)]
enum Drawn {
    /// One octet, whatever its value.
    Octet,
    /// So many IA5 digits, the highest first.
    Digits(usize),
    /// One octet of two codes: the tens in the high half, the ones in the low.
    Halves,
    /// One IA5 digit, with which the kind and all digits add up to a number that
    /// ends in 9.
    CheckDigit,
}

/// A field of a kind.
struct Field {
    drawn: Drawn,
    /// Which number it is.
    number: fn(&mut Charging) -> &mut u16,
}

impl Field {
    const fn new(drawn: Drawn, number: fn(&mut Charging) -> &mut u16) -> Self {
        Field { drawn, number }
    }
}

const UNIT_FEE: Field = Field::new(Drawn::Octet, |c| &mut c.unit_fee);
const INITIAL_UNITS: Field = Field::new(Drawn::Digits(2), |c| &mut c.initial_units);
const DAY: Field = Field::new(Drawn::Digits(3), |c| &mut c.day);
const NIGHT: Field = Field::new(Drawn::Digits(3), |c| &mut c.night);
const LATE_NIGHT_1: Field = Field::new(Drawn::Digits(3), |c| &mut c.late_night_1);
const LATE_NIGHT_2: Field = Field::new(Drawn::Digits(3), |c| &mut c.late_night_2);
const MBI: Field = Field::new(Drawn::Halves, |c| &mut c.mbi);
const INTERVAL: Field = Field::new(Drawn::Digits(3), |c| &mut c.information_interval);
const UNITS: Field = Field::new(Drawn::Digits(4), |c| &mut c.information_units);
const FREE_TIME: Field = Field::new(Drawn::Digits(3), |c| &mut c.free_time);
const CHECK_DIGIT: Field = Field::new(Drawn::CheckDigit, |c| &mut c.check_digit);

/// The fields of a rate kind, in their order; none if there is no such kind.
#[rustfmt::skip]
fn fields_of(kind: u8) -> Option<&'static [Field]> {
    Some(match kind {
        1 => &[INITIAL_UNITS, DAY, NIGHT, LATE_NIGHT_1, LATE_NIGHT_2, CHECK_DIGIT],
        2 => &[],
        3 => &[MBI, INTERVAL, FREE_TIME, CHECK_DIGIT],
        4 => &[MBI, UNITS, FREE_TIME, CHECK_DIGIT],
        5 => &[MBI, CHECK_DIGIT],
        8 => &[UNIT_FEE, INITIAL_UNITS, DAY, NIGHT, LATE_NIGHT_1, LATE_NIGHT_2],
        9 => &[UNIT_FEE, INITIAL_UNITS, DAY, NIGHT, LATE_NIGHT_1, LATE_NIGHT_2,
               INTERVAL, FREE_TIME],
        10 => &[UNIT_FEE, INITIAL_UNITS, DAY, NIGHT, LATE_NIGHT_1, LATE_NIGHT_2,
                UNITS, FREE_TIME],
        _ => return None,
    })
}

/// What the octets of a field hold.
struct Value {
    number: u16,
    /// The sum of its digits.
    sum: u16,
}

impl Drawn {
    /// How many octets the field has.
    const fn len(self) -> usize {
        match self {
            Drawn::Digits(count) => count,
            Drawn::Octet | Drawn::Halves | Drawn::CheckDigit => 1,
        }
    }

    /// What the octets of the field hold; 13 if a character or a half of them is
    /// no digit.
    fn value(self, octets: &[u8]) -> Result<Value, Fault> {
        let first = octets[0];
        match self {
            Drawn::Octet => Ok(Value {
                number: first.into(),
                sum: 0,
            }),
            Drawn::Halves => {
                let halves = [first >> 4, first & 0x0F].map(digit_of_half);
                decimal(halves.map(|digit| (0, digit)))
            }
            Drawn::Digits(_) | Drawn::CheckDigit => {
                let digits = octets.iter().map(|&octet| digit_of_character(octet));
                decimal(digits.enumerate())
            }
        }
    }
}

/// The number of these digits, the highest first, each with the offset of its
/// octet; 13 at the first that is none.
fn decimal(digits: impl IntoIterator<Item = (usize, Option<u8>)>) -> Result<Value, Fault> {
    let mut value = Value { number: 0, sum: 0 };
    for (at, digit) in digits {
        let digit = u16::from(digit.ok_or(Fault::Digit { at })?);
        value.number = 10 * value.number + digit;
        value.sum += digit;
    }
    Ok(value)
}

/// The digit of an IA5 character.
fn digit_of_character(octet: u8) -> Option<u8> {
    octet.is_ascii_digit().then(|| octet - b'0')
}

/// The digit of a code in half an octet: 10 is zero.
fn digit_of_half(code: u8) -> Option<u8> {
    matches!(code, 1..=10).then_some(code % 10)
}

/// Opens the contents. Refused are 12, 13, then 18.
pub(crate) fn open(contents: &[u8]) -> Result<Charging, Fault> {
    let [_, kind, octets @ ..] = contents else {
        return Err(Fault::Form);
    };
    let fields = fields_of(*kind).ok_or(Fault::Form)?;
    formed(octets.len() == fields.iter().map(|field| field.drawn.len()).sum())?;
    let mut charging = Charging {
        kind: *kind,
        ..Charging::default()
    };
    let mut sum = u16::from(*kind);
    let mut rest = octets;
    for field in fields {
        let start = contents.len() - rest.len();
        let (octets, behind) = rest.split_at(field.drawn.len());
        let value = field.drawn.value(octets);
        let value = value.map_err(|fault| fault.behind(start))?;
        *(field.number)(&mut charging) = value.number;
        sum += value.sum;
        rest = behind;
    }
    let checked = fields.iter().any(|field| field.drawn == Drawn::CheckDigit);
    if checked && sum % 10 != 9 {
        return Err(Fault::CheckDigit);
    }
    Ok(charging)
}

/// The charging information of `message`.
///
/// Refused are reading's 1 to 13, 18 and 19, then 16 at 0 if there is none.
pub fn charging(message: &[u8]) -> Result<Charging, Refusal> {
    let contents = find_transfer(message, name_of(CHARGING), 0)?;
    // Reading has opened them and found nothing wrong.
    open(&message[contents]).map_err(|fault| Refusal::placeless(fault.into()))
}

#[cfg(test)]
mod tests {
    use super::*;

    /// A bad digit in the octet at this offset.
    const fn bad(at: usize) -> Fault {
        Fault::Digit { at }
    }

    /// Contents of this kind: any first octet, the kind, what stands before the
    /// characters, and these without the blanks between them.
    fn contents(kind: u8, before: &[u8], characters: &str) -> Vec<u8> {
        let characters = characters.bytes().filter(|&octet| octet != b' ');
        let head = [0x55, kind].into_iter().chain(before.iter().copied());
        head.chain(characters).collect()
    }

    /// Sound contents of every kind, and what they tell.
    #[rustfmt::skip]
    fn sound() -> [(Vec<u8>, Charging); 8] {
        let none = Charging::default();
        let by_unit_fee = Charging { initial_units: 1, day: 180, night: 240,
                                     late_night_1: 360, late_night_2: 999, ..none };
        [
            (contents(1, &[], "12 345 678 901 234 3"),
             Charging { kind: 1, initial_units: 12, day: 345, night: 678,
                        late_night_1: 901, late_night_2: 234, check_digit: 3, ..none }),
            (contents(2, &[], ""),
             Charging { kind: 2, ..none }),
            (contents(3, &[0x1A], "234 056 5"),
             Charging { kind: 3, mbi: 10, information_interval: 234, free_time: 56,
                        check_digit: 5, ..none }),
            (contents(4, &[0xA7], "1209 800 8"),
             Charging { kind: 4, mbi: 7, information_units: 1209, free_time: 800,
                        check_digit: 8, ..none }),
            (contents(5, &[0x12], "1"),
             Charging { kind: 5, mbi: 12, check_digit: 1, ..none }),
            (contents(8, &[10], "01 180 240 360 999"),
             Charging { kind: 8, unit_fee: 10, ..by_unit_fee }),
            (contents(9, &[255], "01 180 240 360 999 123 456"),
             Charging { kind: 9, unit_fee: 255, information_interval: 123,
                        free_time: 456, ..by_unit_fee }),
            (contents(10, &[0], "01 180 240 360 999 9876 543"),
             Charging { kind: 10, unit_fee: 0, information_units: 9876,
                        free_time: 543, ..by_unit_fee }),
        ]
    }

    #[test]
    fn every_kind_with_its_fields() {
        for (mut contents, charging) in sound() {
            for first in [0x00, 0x55, 0xFF] {
                contents[0] = first;
                assert_eq!(open(&contents), Ok(charging));
            }
        }
    }

    #[test]
    fn no_other_kind() {
        let known = sound().map(|(_, charging)| charging.kind);
        for kind in (0..=255).filter(|kind| !known.contains(kind)) {
            for (mut contents, _) in sound() {
                contents[1] = kind;
                assert_eq!(open(&contents), Err(Fault::Form));
            }
        }
    }

    #[test]
    fn no_other_length() {
        assert_eq!(open(&[]), Err(Fault::Form));
        assert_eq!(open(&[0x02]), Err(Fault::Form));
        for (contents, _) in sound() {
            assert_eq!(open(&contents[..contents.len() - 1]), Err(Fault::Form));
            assert_eq!(open(&[&contents[..], b"0"].concat()), Err(Fault::Form));
        }
    }

    /// Every character of sound contents is changed: none of the other octets
    /// behind the kind is one.
    #[test]
    fn characters_are_digits() {
        let mut characters = 0;
        for (contents, _) in sound() {
            for at in (2..contents.len()).filter(|&at| contents[at].is_ascii_digit()) {
                let with = |octet| {
                    let mut contents = contents.clone();
                    contents[at] = octet;
                    open(&contents).map(|_| ())
                };
                assert_eq!([with(0x2F), with(0x3A)], [Err(bad(at)); 2]);
                assert!([with(b'0'), with(b'9')].iter().all(|r| *r != Err(bad(at))));
                characters += 1;
            }
        }
        assert_eq!(characters, 15 + 7 + 8 + 1 + 14 + 20 + 21);
    }

    #[test]
    fn halves_are_codes() {
        for octet in 0..=255 {
            let (tens, ones) = (octet >> 4, octet & 0x0F);
            let (ten, one) = (u16::from(tens % 10), u16::from(ones % 10));
            for digit in 0..10 {
                let opened = open(&[0x00, 5, octet, b'0' + digit]);
                let codes = (1..=10).contains(&tens) && (1..=10).contains(&ones);
                let sums = (5 + ten + one + u16::from(digit)) % 10 == 9;
                let expected = match (codes, sums) {
                    (false, _) => Err(bad(2)),
                    (true, false) => Err(Fault::CheckDigit),
                    (true, true) => Ok(10 * ten + one),
                };
                assert_eq!(opened.map(|charging| charging.mbi), expected);
            }
        }
    }

    #[test]
    fn one_check_digit_alone() {
        assert!(open(b"\x00\x05\x12\x31").is_ok());
        assert_eq!(open(b"\x00\x05\x12\x32"), Err(Fault::CheckDigit));
        for (mut contents, charging) in sound() {
            let Some(last) = contents.len().checked_sub(1).filter(|&last| last > 1) else {
                continue;
            };
            let mut accepted = 0;
            for digit in b'0'..=b'9' {
                contents[last] = digit;
                match open(&contents) {
                    Ok(_) => accepted += 1,
                    Err(fault) => assert_eq!(fault, Fault::CheckDigit),
                }
            }
            assert_eq!(accepted, if charging.kind < 8 { 1 } else { 10 });
        }
    }

    #[test]
    fn the_first_fault_counts() {
        assert_eq!(open(b"\x00\x05\x02\x3A"), Err(bad(2)));
        assert_eq!(open(b"\x00\x05\x12\x3A"), Err(bad(3)));
        assert_eq!(open(b"\x00\x05\x02\x32"), Err(bad(2)));
        assert_eq!(open(b"\x00\x05\x02\x32\x32"), Err(Fault::Form));
        assert_eq!(open(b"\x00\x06\x02\x32"), Err(Fault::Form));
        assert_eq!(open(b"\x00\x041234/678:"), Err(bad(6)));
    }
}
