//! The one number that a function of the static library answers with.

use crate::refusal::Refusal;

/// What an accepted call gives.
#[derive(Debug, PartialEq, Eq)]
pub(crate) struct Accepted {
    /// The offset of what was found; 0 for other calls.
    pub(crate) place: usize,
    /// A length, a count or a class.
    pub(crate) value: usize,
}

/// Takes `number * 2^32 + place * 2^16 + value` apart; number 0 is accepted.
pub(crate) fn unpack(answer: u64) -> Result<Accepted, Refusal> {
    let number = (answer >> 32) as u8;
    let place = usize::from((answer >> 16) as u16);
    let value = usize::from(answer as u16);
    match number {
        0 => Ok(Accepted { place, value }),
        _ => Err(Refusal { number, place }),
    }
}

#[cfg(test)]
mod tests {
    use super::*;

    #[test]
    fn three_numbers_in_one() {
        let (place, value) = (0x1234, 0xFEDC);
        assert_eq!(unpack(0x1234_FEDC), Ok(Accepted { place, value }));
        assert_eq!(unpack(0x0D_0110_0000), Err(Refusal::new(13, 0x110)));
    }
}
