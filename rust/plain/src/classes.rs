//! Classes of code values.

use crate::refusal::Refusal;
use crate::transfer::{layout_of, Layout};

/// The class of a code value.
#[derive(Clone, Copy, Debug, PartialEq, Eq, Hash)]
pub enum Class {
    /// The value has a name.
    Named,
    /// The value is held back.
    HeldBack,
    /// The value is spare.
    Spare,
}

/// The class of `octet` under a transfer parameter's `header`; under D7 and DC
/// it is the first octet, whose bit 7 is not looked at.
///
/// Refused are 17 at 0 if there is no class list for the header, then 12 at 0
/// if a zero bit is set.
pub fn class_of(header: u8, octet: u8) -> Result<Class, Refusal> {
    let class = listed_class(header, octet).ok_or(Refusal::placeless(Refusal::NO_CLASS_LIST))?;
    match layout_of(header) {
        Layout::Octet { zero } if octet & zero != 0 => Err(Refusal::placeless(Refusal::BAD_FORM)),
        _ => Ok(class),
    }
}

/// The class in the list of `header`, if it has one.
fn listed_class(header: u8, octet: u8) -> Option<Class> {
    let named = match header {
        0x42 => matches!(octet, 0..=6 | 8..=15),
        0x46 => matches!(octet, 1 | 2),
        0x52 => matches!(octet & 0x0F, 0..=4 | 14 | 15),
        0x67 => matches!(octet, 0..=3),
        0x68 => matches!(octet, 1..=3),
        0x6E => matches!(octet, 0 | 2 | 3 | 8 | 9 | 10),
        0x6F => matches!(octet, 0..=2),
        0x75 => matches!(octet & 0x0F, 1..=12) && matches!(octet >> 4, 1..=12),
        0x79 | 0x7A => matches!(octet, 1 | 2),
        0x7C => matches!(octet, 0 | 1),
        0x7E => matches!(octet, 2..=7),
        0xD7 | 0xDC => return Some(number_type_class(octet & 0x7F)),
        _ => return None,
    };
    Some(if named { Class::Named } else { Class::Spare })
}

/// The class of a number type.
fn number_type_class(number_type: u8) -> Class {
    match number_type {
        1 | 3 | 4 | 126 => Class::Named,
        2 | 112..=125 => Class::HeldBack,
        _ => Class::Spare,
    }
}

#[cfg(test)]
mod tests {
    use super::*;

    /// How many octets of a header are refused with 12, named, held back, spare.
    fn counts(header: u8) -> [usize; 4] {
        let mut counts = [0; 4];
        for octet in 0..=255 {
            match class_of(header, octet) {
                Err(refusal) => {
                    assert_eq!(refusal, Refusal::new(12, 0));
                    counts[0] += 1;
                }
                Ok(Class::Named) => counts[1] += 1,
                Ok(Class::HeldBack) => counts[2] += 1,
                Ok(Class::Spare) => counts[3] += 1,
            }
        }
        counts
    }

    #[test]
    fn every_list() {
        assert_eq!(counts(0x42), [240, 15, 0, 1]);
        assert_eq!(counts(0x46), [252, 2, 0, 2]);
        assert_eq!(counts(0x52), [192, 28, 0, 36]);
        assert_eq!(counts(0x67), [248, 4, 0, 4]);
        assert_eq!(counts(0x68), [0, 3, 0, 253]);
        assert_eq!(counts(0x6E), [0, 6, 0, 250]);
        assert_eq!(counts(0x6F), [252, 3, 0, 1]);
        assert_eq!(counts(0x75), [0, 144, 0, 112]);
        assert_eq!(counts(0x79), [0, 2, 0, 254]);
        assert_eq!(counts(0x7A), [0, 2, 0, 254]);
        assert_eq!(counts(0x7C), [0, 2, 0, 254]);
        assert_eq!(counts(0x7E), [0, 6, 0, 250]);
        assert_eq!(counts(0xD7), [0, 8, 30, 218]);
        assert_eq!(counts(0xDC), [0, 8, 30, 218]);
    }

    #[test]
    fn fourteen_lists() {
        let listed = (0..=255).filter(|&header| class_of(header, 0) != Err(Refusal::new(17, 0)));
        assert_eq!(listed.count(), 14);
        assert_eq!(class_of(0x41, 0xFF), Err(Refusal::new(17, 0)));
        assert_eq!(class_of(0x02, 0x01), Err(Refusal::new(17, 0)));
    }
}
