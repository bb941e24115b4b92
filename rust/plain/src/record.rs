//! The record: a message as a sequence of values.

use crate::common::{COMMON_LIMIT, SEQUENCE, TRANSFER_DATA};
use crate::digits::octets_for;
use crate::transfer::{Held, DATA_LIMIT, TRANSFER_LIMIT};
use std::ops::Range;

/// A message's common parameters in their order, without the end mark.
///
/// The values of all transfer parameters stand in one vector, in the order of
/// the parameters: so reading, taking an image and adding to a record put them,
/// and records so made are equal where all parameters and their values are.
#[derive(Clone, Debug, Default, PartialEq, Eq)]
pub struct Record {
    /// The common parameters, at most 6.
    pub common: Vec<Common>,
    /// The values of all transfer parameters, one after the other.
    pub(crate) values: Vec<u8>,
}

/// One common parameter.
#[derive(Clone, Debug, Default, PartialEq, Eq)]
pub struct Common {
    /// The header octet.
    pub header: u8,
    /// The call number of 82 and 83, the number of 04, the octet of 01 and 06;
    /// C5 has none: it is not looked at, and 0 where a record is handed out.
    pub value: u32,
    /// The more-data mark of 04: 0 or 1; the others have none: it is not looked
    /// at, and 0 where a record is handed out.
    pub more_data: u8,
    /// The transfer parameters of C5, in their order; the others have none.
    pub transfers: Vec<Transfer>,
}

/// One transfer parameter.
///
/// Which fields it has, and what its values are, is decided by the header (for
/// DA by its first value too). Fields that it does not have are not looked at,
/// and are 0 where a record is handed out.
#[derive(Clone, Debug, Default, PartialEq, Eq)]
pub struct Transfer {
    /// The header octet: PLI and name.
    pub header: u8,
    /// The notification mark of 90, 91 and 95: 0 or 1.
    pub notification: u8,
    /// The verification mark of 91: 0 or 1.
    pub verification: u8,
    /// The type of the dialled digits, 98: 0 to 3.
    pub dialling: u8,
    /// The number type of D7, DC and DA with 06: 0 to 127.
    pub number_type: u8,
    /// The incomplete mark of D7, DC and DA with 06: 0 or 1.
    pub incomplete: u8,
    /// The plan of D7, DC and DA with 06: 0 to 7.
    pub plan: u8,
    /// The presentation of D7, DC and DA with 06: 0 to 3.
    pub presentation: u8,
    /// The screening of D7, DC and DA with 06: 0 to 3.
    pub screening: u8,
    /// Where its values stand among those of the record; [`Record::values_of`]
    /// gives them.
    pub values: Range<usize>,
}

impl Record {
    /// The values of a transfer parameter of this record: digits, first digit
    /// first (0 to 9, 10 for `*`, 11 for `#`), under PLI 10 but for the five
    /// names without layout, and for D7 and DC; for DA with 06 that octet, then
    /// digits; otherwise the contents. A parameter of another record, whose
    /// values would stand past the last, has none.
    pub fn values_of(&self, parameter: &Transfer) -> &[u8] {
        self.values
            .get(parameter.values.clone())
            .unwrap_or_default()
    }

    /// Adds a common parameter with the more-data mark 0, without transfer
    /// parameters.
    pub fn push_common(&mut self, header: u8, value: u32) {
        self.common.push(Common {
            header,
            value,
            ..Common::default()
        });
    }

    /// Adds a transfer parameter with these values to the last common parameter;
    /// nothing where there is none.
    pub fn push_transfer(&mut self, parameter: Transfer, values: &[u8]) {
        if self.common.is_empty() {
            return;
        }
        let start = self.values.len();
        self.values.extend_from_slice(values);
        self.enter(parameter, start);
    }

    /// Adds a transfer parameter whose values are those from `start` on.
    pub(crate) fn enter(&mut self, mut parameter: Transfer, start: usize) {
        parameter.values = start..self.values.len();
        if let Some(data) = self.common.last_mut() {
            data.transfers.push(parameter);
        }
    }

    /// Whether the record is within its limits: at most 6 common parameters,
    /// and in all its C5 together at most 54 transfer parameters, whose
    /// contents, laid out, come to at most 255 octets.
    pub fn within_limits(&self) -> bool {
        if self.common.len() > COMMON_LIMIT {
            return false;
        }
        let mut count = 0;
        let mut octets = 0;
        for data in self.common.iter().filter(|c| c.header == TRANSFER_DATA) {
            count += data.transfers.len();
            if count > TRANSFER_LIMIT {
                return false;
            }
            let lens = data.transfers.iter().map(|t| self.contents_len(t));
            octets += lens.sum::<usize>();
        }
        octets <= DATA_LIMIT
    }

    fn contents_len(&self, parameter: &Transfer) -> usize {
        contents_len(parameter.header, self.values_of(parameter))
    }

    /// How a transfer parameter of this record is held.
    pub(crate) fn held(&self, parameter: &Transfer) -> Held {
        Held::of(parameter.header, self.values_of(parameter))
    }
}

/// How many octets the contents of a transfer parameter with this header and
/// these values come to, laid out.
pub fn contents_len(header: u8, values: &[u8]) -> usize {
    let count = values.len();
    match Held::of(header, values) {
        Held::Octets => count,
        Held::Digits => 1 + octets_for(count),
        Held::Number => 2 + octets_for(count),
        Held::Generic => 3 + octets_for(count - 1),
    }
}

impl Common {
    /// The value and the more-data mark, with 0 for one that it does not have.
    pub(crate) fn own(&self) -> (u32, u8) {
        match self.header {
            TRANSFER_DATA => (0, 0),
            SEQUENCE => (self.value, self.more_data),
            _ => (self.value, 0),
        }
    }
}

impl Transfer {
    /// The eight fields in the order of their declaration, with 0 for those
    /// that a parameter so held does not have.
    pub(crate) fn fields(&self, held: Held) -> [u8; 8] {
        match (held, self.header) {
            (Held::Digits, 0x90 | 0x95) => [self.notification, 0, 0, 0, 0, 0, 0, 0],
            (Held::Digits, 0x91) => [self.notification, self.verification, 0, 0, 0, 0, 0, 0],
            (Held::Digits, 0x98) => [0, 0, self.dialling, 0, 0, 0, 0, 0],
            (Held::Digits | Held::Octets, _) => [0; 8],
            (Held::Number | Held::Generic, _) => [
                0,
                0,
                0,
                self.number_type,
                self.incomplete,
                self.plan,
                self.presentation,
                self.screening,
            ],
        }
    }

    /// Sets all eight fields, in the order of their declaration.
    pub(crate) fn set_fields(&mut self, fields: [u8; 8]) {
        [
            self.notification,
            self.verification,
            self.dialling,
            self.number_type,
            self.incomplete,
            self.plan,
            self.presentation,
            self.screening,
        ] = fields;
    }
}
