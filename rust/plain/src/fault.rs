//! What can be wrong with a transfer parameter.

use crate::refusal::Refusal;

/// What is wrong with it.
#[derive(Clone, Copy, Debug, PartialEq, Eq)]
pub(crate) enum Fault {
    /// The number of what is wrong with its header, or 11.
    Header(u8),
    /// A zero bit is set, or the form is bad.
    Form,
    /// A digit is spare, a character may not be there, or the filler is not 0.
    Digit {
        /// The offset of the octet that holds the first of them.
        at: usize,
    },
    /// The check digit of the charging information is wrong.
    CheckDigit,
    /// A form or a header cannot stand in the connection order.
    Order,
}

impl Fault {
    /// The same fault, where so many octets more stand in front.
    pub(crate) const fn behind(self, more: usize) -> Fault {
        match self {
            Fault::Digit { at } => Fault::Digit { at: more + at },
            _ => self,
        }
    }

    /// The refusal in reading, of a parameter whose header stands at `offset`: the
    /// place of 13 is the bad octet's, that of all others the header's.
    pub(crate) fn placed(self, offset: usize) -> Refusal {
        let place = match self {
            Fault::Digit { at } => offset + at,
            _ => offset,
        };
        Refusal::new(self.into(), place)
    }
}

/// The number alone: writing and editing tell no more of a fault.
impl From<Fault> for u8 {
    fn from(fault: Fault) -> u8 {
        match fault {
            Fault::Header(number) => number,
            Fault::Form => Refusal::BAD_FORM,
            Fault::Digit { .. } => Refusal::SPARE_DIGIT,
            Fault::CheckDigit => Refusal::CHECK_DIGIT,
            Fault::Order => Refusal::CONNECTION_ORDER,
        }
    }
}

/// 12 unless it is well formed.
pub(crate) fn formed(well: bool) -> Result<(), Fault> {
    well.then_some(()).ok_or(Fault::Form)
}

/// 13 if there is a bad octet, of which the first is at this offset.
pub(crate) fn none_bad(bad: Option<usize>) -> Result<(), Fault> {
    bad.map_or(Ok(()), |at| Err(Fault::Digit { at }))
}
