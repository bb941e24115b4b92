//! The number in D7, DC and DA with 06: two octets of fields, then digits.

use crate::digits::{octets_for, NUMBER};
use crate::fault::{formed, Fault};
use crate::record::Transfer;

/// Octet 1: the count of digits is odd.
const ODD: u8 = 0x80;
/// The presentation under which DC holds no number.
const WITHHELD: u8 = 2;

/// Tries 12 and 13 on a number.
pub(crate) fn check(octets: &[u8]) -> Result<(), Fault> {
    let [first, _, digits @ ..] = octets else {
        return Err(Fault::Form);
    };
    let odd = first & ODD != 0;
    formed(!(odd && digits.is_empty()))?;
    NUMBER.check(digits, odd).map_err(|fault| fault.behind(2))
}

/// The same for DC, which with presentation 2 holds nothing but its screening.
pub(crate) fn check_calling(octets: &[u8]) -> Result<(), Fault> {
    match octets {
        [first, second, digits @ ..] if second >> 2 & 0x03 == WITHHELD => {
            formed(*first == 0 && second & 0xF0 == 0 && digits.is_empty())
        }
        _ => check(octets),
    }
}

/// Takes the fields of a checked number into `parameter`, and appends its
/// digits to `values`.
pub(crate) fn take(octets: &[u8], parameter: &mut Transfer, values: &mut Vec<u8>) {
    let (first, second, digits) = (octets[0], octets[1], &octets[2..]);
    parameter.number_type = first & 0x7F;
    parameter.incomplete = second >> 7;
    parameter.plan = second >> 4 & 0x07;
    parameter.presentation = second >> 2 & 0x03;
    parameter.screening = second & 0x03;
    let count = 2 * digits.len() - usize::from(first & ODD != 0);
    NUMBER.decode(digits, count, values);
}

/// Whether the fields of `parameter` fit their bits.
pub(crate) fn fits(parameter: &Transfer) -> bool {
    parameter.number_type <= 0x7F
        && parameter.incomplete <= 1
        && parameter.plan <= 7
        && parameter.presentation <= 3
        && parameter.screening <= 3
}

/// Whether DC may hold these digits and what else it holds: with presentation 2
/// its type, incomplete mark and plan are 0, and there are no digits.
pub(crate) fn calling_formed(parameter: &Transfer, digits: &[u8]) -> bool {
    parameter.presentation != WITHHELD
        || (parameter.number_type == 0
            && parameter.incomplete == 0
            && parameter.plan == 0
            && digits.is_empty())
}

/// Lays the fields of `parameter` and `digits`, all of them checked, into the
/// front of `octets`.
pub(crate) fn lay(parameter: &Transfer, digits: &[u8], octets: &mut [u8]) {
    let odd = if digits.len() % 2 == 1 { ODD } else { 0 };
    octets[0] = odd | parameter.number_type;
    octets[1] = parameter.incomplete << 7
        | parameter.plan << 4
        | parameter.presentation << 2
        | parameter.screening;
    NUMBER.encode(digits, &mut octets[2..2 + octets_for(digits.len())]);
}

#[cfg(test)]
mod tests {
    use super::*;

    #[test]
    fn forms() {
        assert_eq!(check(&[]), Err(Fault::Form));
        assert_eq!(check(&[0x03]), Err(Fault::Form));
        assert_eq!(check(&[0x03, 0x11]), Ok(()));
        assert_eq!(check(&[0x83, 0x11]), Err(Fault::Form));
        assert_eq!(check(&[0x83, 0x11, 0x00]), Ok(()));
        assert_eq!(check(&[0x83, 0x11, 0x10]), Err(Fault::Digit { at: 2 }));
        assert_eq!(check(&[0x03, 0x11, 0x0A]), Err(Fault::Digit { at: 2 }));
        assert_eq!(
            check(&[0x03, 0x11, 0x00, 0xA0]),
            Err(Fault::Digit { at: 3 })
        );
        assert_eq!(check(&[0x03, 0x11, 0xCB]), Ok(()));
    }

    #[test]
    fn withheld() {
        assert_eq!(check(&[0x01, 0x88]), Ok(()));
        assert_eq!(check_calling(&[0x00, 0x0B]), Ok(()));
        assert_eq!(check_calling(&[0x01, 0x0B]), Err(Fault::Form));
        assert_eq!(check_calling(&[0x80, 0x0B, 0x01]), Err(Fault::Form));
        assert_eq!(check_calling(&[0x00, 0x1B]), Err(Fault::Form));
        assert_eq!(check_calling(&[0x00, 0x0B, 0x11]), Err(Fault::Form));
        assert_eq!(check_calling(&[0x00, 0x07, 0x11]), Ok(()));
    }
}
