//! The charging information, opened.

use crate::CHARGING_LEN;

/// What the charging information, F7, tells: the rate kind and its fields as
/// whole numbers. Times are in half seconds. A field that the kind does not have
/// is 0.
#[derive(Clone, Copy, Debug, Default, PartialEq, Eq, Hash)]
pub struct Charging {
    /// The rate kind: 1 to 5 or 8 to 10.
    pub kind: u8,
    /// The unit fee in yen, of the kinds 8 to 10.
    pub unit_fee: u16,
    /// How many units are counted at the beginning, of the kinds 1 and 8 to 10.
    pub initial_units: u16,
    /// How long a unit lasts by day, of the kinds 1 and 8 to 10: half seconds for
    /// 10 yen under kind 1, for the unit fee under the others.
    pub day: u16,
    /// How long a unit lasts by night; kinds and unit as by day.
    pub night: u16,
    /// How long a unit lasts late at night, first part; as by day.
    pub late_night_1: u16,
    /// How long a unit lasts late at night, second part; as by day.
    pub late_night_2: u16,
    /// The two digits of the MBI as a number, of the kinds 3 to 5.
    pub mbi: u16,
    /// How long a unit of the information's fee lasts, of the kinds 3 and 9: half
    /// seconds for 10 yen.
    pub information_interval: u16,
    /// How many units the information's fee is, of the kinds 4 and 10.
    pub information_units: u16,
    /// How many half seconds the information is free, of the kinds 3, 4, 9 and 10.
    pub free_time: u16,
    /// The check digit, of the kinds 1 and 3 to 5.
    pub check_digit: u16,
}

impl Charging {
    /// That of the octets in which the static library gives it.
    pub(crate) fn of(octets: &[u8; CHARGING_LEN]) -> Self {
        let number = |index: usize| {
            let low = 1 + 2 * index;
            u16::from_le_bytes([octets[low], octets[low + 1]])
        };
        Charging {
            kind: octets[0],
            unit_fee: number(0),
            initial_units: number(1),
            day: number(2),
            night: number(3),
            late_night_1: number(4),
            late_night_2: number(5),
            mbi: number(6),
            information_interval: number(7),
            information_units: number(8),
            free_time: number(9),
            check_digit: number(10),
        }
    }
}

#[cfg(test)]
mod tests {
    use super::*;

    #[test]
    fn eleven_numbers_behind_the_kind() {
        let octets = std::array::from_fn(|index| index as u8);
        let expected = Charging {
            kind: 0,
            unit_fee: 0x0201,
            initial_units: 0x0403,
            day: 0x0605,
            night: 0x0807,
            late_night_1: 0x0A09,
            late_night_2: 0x0C0B,
            mbi: 0x0E0D,
            information_interval: 0x100F,
            information_units: 0x1211,
            free_time: 0x1413,
            check_digit: 0x1615,
        };
        assert_eq!(Charging::of(&octets), expected);
    }
}
