//! Digits in half-octets: the two codings, first digit in the low half.

use crate::fault::{none_bad, Fault};

/// The octets that hold `half_octets` half-octets: half as many, rounded up.
/// PLI 10 counts in half-octets and PLI 11 in octets; this is the one way from
/// the first to the second.
pub(crate) const fn octets_for(half_octets: usize) -> usize {
    half_octets.div_ceil(2)
}

/// The highest digit value, that of `#`.
pub(crate) const HIGHEST: u8 = 11;

/// One way of coding the digits 0 to 9, `*` and `#` in half-octets.
pub(crate) struct Coding {
    /// The code of each digit value: 0 to 9, 10 for `*`, 11 for `#`.
    code: [u8; 12],
    /// For each octet, the digit values of its low half and its high half, or
    /// [`SPARE`].
    digits: [[u8; 2]; 256],
}

/// Stands where a spare code has no digit value: all bits are set, so that one
/// of it among digit values shows in their union.
const SPARE: u8 = 0xFF;

/// The coding under PLI 10: zero is 10, and code 0 is spare.
pub(crate) static DIALLED: Coding = Coding::new([10, 1, 2, 3, 4, 5, 6, 7, 8, 9, 11, 12]);

/// The coding in the numbers of D7, DC and DA: zero is 0, and code 10 is spare.
pub(crate) static NUMBER: Coding = Coding::new([0, 1, 2, 3, 4, 5, 6, 7, 8, 9, 11, 12]);

impl Coding {
    const fn new(code: [u8; 12]) -> Self {
        let mut digit = [SPARE; 16];
        let mut value = 0;
        while value < code.len() {
            digit[code[value] as usize] = value as u8;
            value += 1;
        }
        let mut digits = [[SPARE; 2]; 256];
        let mut octet = 0;
        while octet < digits.len() {
            digits[octet] = [digit[octet & 0x0F], digit[octet >> 4]];
            octet += 1;
        }
        Coding { code, digits }
    }

    /// The digit values of an octet's low half and its high half.
    fn pair(&self, octet: u8) -> [u8; 2] {
        self.digits[usize::from(octet)]
    }

    /// 13 unless `octets` hold digits only, the last high half being 0 where the
    /// count of digits is `odd`.
    pub(crate) fn check(&self, octets: &[u8], odd: bool) -> Result<(), Fault> {
        let (pairs, last) = match octets.split_last() {
            Some((&last, pairs)) if odd => (pairs, Some(last)),
            _ => (octets, None),
        };
        // All pairs are looked at in one go, which is quick where nothing is wrong
        // with them; which of them is bad is asked only where one is.
        let union = pairs.iter().fold(0, |union, &octet| {
            let [low, high] = self.pair(octet);
            union | low | high
        });
        if union == SPARE {
            let is_bad = |&octet: &u8| self.pair(octet).contains(&SPARE);
            return none_bad(pairs.iter().position(is_bad));
        }
        let is_bad_last = |octet: u8| octet >= 0x10 || !self.lists(octet);
        none_bad(last.is_some_and(is_bad_last).then_some(pairs.len()))
    }

    fn lists(&self, code: u8) -> bool {
        self.pair(code)[0] != SPARE
    }

    /// Appends the `count` digits of accepted `octets`, which are as many as
    /// they take, to `values`.
    pub(crate) fn decode(&self, octets: &[u8], count: usize, values: &mut Vec<u8>) {
        let start = values.len();
        values.resize(start + count, 0);
        let mut pairs = values[start..].chunks_exact_mut(2);
        for (pair, &octet) in pairs.by_ref().zip(octets) {
            pair.copy_from_slice(&self.pair(octet));
        }
        if let ([last], Some(&octet)) = (pairs.into_remainder(), octets.last()) {
            *last = self.pair(octet)[0];
        }
    }

    /// Lays `digits`, none over [`HIGHEST`], into `octets`, which are as many
    /// as they take.
    pub(crate) fn encode(&self, digits: &[u8], octets: &mut [u8]) {
        let code = |digit: u8| self.code[usize::from(digit)];
        let pairs = digits.chunks_exact(2);
        if let ([last], Some(octet)) = (pairs.remainder(), octets.last_mut()) {
            *octet = code(*last);
        }
        for (octet, pair) in octets.iter_mut().zip(pairs) {
            *octet = code(pair[0]) | code(pair[1]) << 4;
        }
    }
}

/// 13 unless `octets` hold the digits 0 to 9 alone, zero being code 0, and the last
/// high half is 0 where the count of digits is `odd`.
pub(crate) fn check_decimal(octets: &[u8], odd: bool) -> Result<(), Fault> {
    let is_bad = |(at, &octet): (usize, &u8)| {
        let is_filled = odd && at + 1 == octets.len();
        octet & 0x0F > 9 || octet >> 4 > if is_filled { 0 } else { 9 }
    };
    none_bad(octets.iter().enumerate().position(is_bad))
}

/// Whether all values are digits.
pub(crate) fn all_digits(values: &[u8]) -> bool {
    values
        .iter()
        .fold(true, |all, &value| all & (value <= HIGHEST))
}

#[cfg(test)]
mod tests {
    use super::*;

    #[test]
    fn half_octets_round_up() {
        let octets: Vec<usize> = (0..6).map(octets_for).collect();
        assert_eq!(octets, [0, 1, 1, 2, 2, 3]);
    }

    #[test]
    fn spare_codes() {
        let spare =
            |coding: &Coding| -> Vec<u8> { (0..16).filter(|&c| !coding.lists(c)).collect() };
        assert_eq!(spare(&DIALLED), [0, 13, 14, 15]);
        assert_eq!(spare(&NUMBER), [10, 13, 14, 15]);
    }

    #[test]
    fn zero_differs_between_the_codings() {
        let mut octet = [0];
        DIALLED.encode(&[0], &mut octet);
        assert_eq!(octet, [0x0A]);
        NUMBER.encode(&[0], &mut octet);
        assert_eq!(octet, [0x00]);
    }

    #[test]
    fn all_digits_return() {
        let digits: Vec<u8> = (0..12).chain([7]).collect();
        for coding in [&DIALLED, &NUMBER] {
            let mut octets = [0; 7];
            coding.encode(&digits, &mut octets);
            assert_eq!(coding.check(&octets, true), Ok(()));
            let mut values = Vec::new();
            coding.decode(&octets, digits.len(), &mut values);
            assert_eq!(values, digits);
        }
    }

    #[test]
    fn low_half_is_first_and_filler_is_zero() {
        let mut values = Vec::new();
        DIALLED.decode(&[0x21, 0x03], 3, &mut values);
        assert_eq!(values, [1, 2, 3]);
        let bad = Err(Fault::Digit { at: 1 });
        assert_eq!(DIALLED.check(&[0x21, 0x03], true), Ok(()));
        assert_eq!(DIALLED.check(&[0x21, 0x13], true), bad);
        assert_eq!(DIALLED.check(&[0x21, 0x03], false), bad);
    }

    #[test]
    fn decimal_digits() {
        for octet in 0..=255 {
            let is_pair = octet & 0x0F <= 9 && octet >> 4 <= 9;
            let at = |at| Err(Fault::Digit { at });
            let told = |is_sound: bool, place| if is_sound { Ok(()) } else { at(place) };
            assert_eq!(check_decimal(&[octet], false), told(is_pair, 0));
            assert_eq!(check_decimal(&[octet], true), told(octet <= 9, 0));
            assert_eq!(check_decimal(&[0x99, octet], false), told(is_pair, 1));
            assert_eq!(check_decimal(&[0x99, octet], true), told(octet <= 9, 1));
            assert_eq!(check_decimal(&[octet, 0x00], true), told(is_pair, 0));
        }
        assert_eq!(check_decimal(&[], false), Ok(()));
    }

    /// Any two of the six halves are 15, which is neither a digit nor a filler.
    #[test]
    fn the_first_bad_half_counts() {
        for (sound, odd) in [([0x21, 0x43, 0x65], false), ([0x21, 0x43, 0x05], true)] {
            for (first, second) in (0..6).flat_map(|i| (i..6).map(move |k| (i, k))) {
                let mut octets = sound;
                for half in [first, second] {
                    octets[half / 2] |= [0x0F, 0xF0][half % 2];
                }
                let bad = Err(Fault::Digit { at: first / 2 });
                assert_eq!(DIALLED.check(&octets, odd), bad, "{octets:02X?}");
                assert_eq!(NUMBER.check(&octets, odd), bad, "{octets:02X?}");
                assert_eq!(check_decimal(&octets, odd), bad, "{octets:02X?}");
            }
        }
    }
}
