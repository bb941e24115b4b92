//! The record: a message as a sequence of values.
//!
//! A record can hold more than a message can: any header, any number. Writing
//! refuses what is out of range.
//!
//! The values of all transfer parameters stand in one vector of the record, and
//! each parameter says where its own do: [`Record::values_of`] gives them.

use std::fmt;
use std::hash::{Hash, Hasher};
use std::iter;

/// Header of the sequence.
const SEQUENCE: u8 = 0x04;
/// The number of every sequence.
const SEQUENCE_NUMBER: u32 = 1;
/// Header of the transfer data.
pub(crate) const TRANSFER_DATA: u8 = 0xC5;

/// A message's common parameters in their order, without the end mark.
///
/// Records are equal if they have the same parameters with the same values,
/// wherever these stand. What a parameter does not have counts too; it is 0, or
/// none, in a record that was read.
///
/// ```
/// use codec::{Record, Transfer};
///
/// let mut record = Record::default();
/// record.push_common(0x01, 1);
/// record.push_sequence(true);
/// record.push_common(0x06, 0x11);
/// let dialled = Transfer { dialling: 1, ..Transfer::new(0x98) };
/// record.push_transfer(dialled, &[1, 2]);
/// let message = [
///     0x01, 0x01, 0x04, 0x81, 0x06, 0x11, 0xC5, 0x03, 0x98, 0x42, 0x21, 0x00,
/// ];
/// assert_eq!(codec::write_to_vec(&record)?, message);
/// assert_eq!(codec::read(&message)?, record);
/// # Ok::<(), codec::Refusal>(())
/// ```
#[derive(Clone, Default)]
pub struct Record {
    /// The common parameters.
    pub common: Vec<Common>,
    /// The octets among which the values of all transfer parameters stand; of a
    /// record that was read, those of its image.
    octets: Vec<u8>,
}

/// A common parameter.
#[derive(Clone, Debug, Default)]
pub struct Common {
    /// The header.
    pub header: u8,
    /// The call number of 82 and 83, the number of 04, which is 1, the octet of
    /// 01 and 06. C5 has none: 0 where read, not looked at in writing.
    pub value: u32,
    /// The more-data mark of 04, one bit. The others have none: 0 where read, not
    /// looked at in writing.
    pub more_data: u8,
    /// The transfer parameters of C5, in their order. The others have none:
    /// empty where read, not looked at in writing.
    pub transfers: Vec<Transfer>,
}

/// A transfer parameter.
///
/// The header says which of the fields it has; DA, which is a number if its
/// first value is 06, says so by that value too. Those that it does not have are
/// 0 where read, and not looked at in writing.
#[derive(Clone, Copy, Debug, Default)]
pub struct Transfer {
    /// The header: PLI and name.
    pub header: u8,
    /// The notification mark of 90, 91 and 95, one bit.
    pub notification: u8,
    /// The verification mark of 91, one bit.
    pub verification: u8,
    /// The type of the dialled digits, 98, two bits.
    pub dialling: u8,
    /// The type of a number (D7, DC, DA with 06), seven bits.
    pub number_type: u8,
    /// The incomplete mark of a number, one bit.
    pub incomplete: u8,
    /// The plan of a number, three bits.
    pub plan: u8,
    /// The presentation of a number, two bits.
    pub presentation: u8,
    /// The screening of a number, two bits.
    pub screening: u8,
    /// Where its values stand in its record; [`Record::values_of`] gives them.
    pub values: Stretch,
}

/// Where the values of a transfer parameter stand in the record that gave it;
/// by default there are none.
#[derive(Clone, Copy, Debug, Default)]
pub struct Stretch {
    start: usize,
    end: usize,
}

impl Record {
    /// The record of these common parameters, whose values stand in `octets`.
    pub(crate) fn of(common: Vec<Common>, octets: Vec<u8>) -> Self {
        Record { common, octets }
    }

    /// The first common parameter with this header, if there is one.
    pub fn common(&self, header: u8) -> Option<&Common> {
        self.common.iter().find(|common| common.header == header)
    }

    /// The first transfer parameter with this name (the lower six bits of its
    /// header), if there is one.
    pub fn transfer(&self, name: u8) -> Option<&Transfer> {
        self.transfers(name).next()
    }

    /// All transfer parameters with this name, in their order. In a record that was
    /// read there are three at most with that of the carriers, CC, and one with any
    /// other.
    pub fn transfers(&self, name: u8) -> impl Iterator<Item = &Transfer> {
        let data = self.common.iter().filter(|c| c.header == TRANSFER_DATA);
        data.flat_map(|c| &c.transfers)
            .filter(move |t| t.header & 0x3F == name)
    }

    /// The values of a transfer parameter of this record.
    ///
    /// They are digits under PLI 10, D7 and DC, the first digit first: 0 to 9,
    /// 10 for `*`, 11 for `#`. For DA with 06, that octet and then digits. For
    /// all others, and for the names without layout (07, 24, 30, 31, 3B), the
    /// contents.
    ///
    /// Of a parameter of another record it gives what stands there in this one,
    /// or none.
    pub fn values_of(&self, parameter: &Transfer) -> &[u8] {
        let Stretch { start, end } = parameter.values;
        self.octets.get(start..end).unwrap_or_else(no_values)
    }

    /// Adds a common parameter with the more-data mark 0, without transfer
    /// parameters.
    pub fn push_common(&mut self, header: u8, value: u32) {
        self.common.push(Common::new(header, value));
    }

    /// Adds a sequence, 04, with this more-data mark.
    pub fn push_sequence(&mut self, more_data: bool) {
        self.common.push(Common::sequence(more_data));
    }

    /// Adds a transfer parameter with these values to the last C5; where there
    /// is none, to one that is added for it.
    pub fn push_transfer(&mut self, parameter: Transfer, values: &[u8]) {
        if self.common(TRANSFER_DATA).is_none() {
            self.push_common(TRANSFER_DATA, 0);
        }
        let values = self.hold(values);
        let mut from_last = self.common.iter_mut().rev();
        if let Some(data) = from_last.find(|c| c.header == TRANSFER_DATA) {
            data.transfers.push(Transfer {
                values,
                ..parameter
            });
        }
    }

    /// Takes up values, and says where they stand: to be set as the `values` of
    /// a transfer parameter of this record that is to have them. Values that no
    /// parameter has any more stay in the record.
    pub fn hold(&mut self, values: &[u8]) -> Stretch {
        let start = self.octets.len();
        self.octets.extend_from_slice(values);
        Stretch::new(start, self.octets.len())
    }

    /// What the record says, parameter by parameter.
    fn parts(&self) -> impl Iterator<Item = Part<'_>> {
        self.common.iter().flat_map(move |common| {
            let head = Part::Common {
                header: common.header,
                value: common.value,
                more_data: common.more_data,
            };
            let transfers = common.transfers.iter().map(|t| Part::Transfer {
                header: t.header,
                fields: t.fields(),
                values: self.values_of(t),
            });
            iter::once(head).chain(transfers)
        })
    }
}

/// Apart from its only use, so that the compiler takes that for the rare case.
#[cold]
#[inline(never)]
fn no_values<'r>() -> &'r [u8] {
    &[]
}

/// What a record says of one parameter. The transfer parameters of a common one
/// follow it.
#[derive(Debug, PartialEq, Eq, Hash)]
enum Part<'r> {
    Common {
        header: u8,
        value: u32,
        more_data: u8,
    },
    Transfer {
        header: u8,
        fields: [u8; 8],
        values: &'r [u8],
    },
}

impl PartialEq for Record {
    fn eq(&self, other: &Self) -> bool {
        self.parts().eq(other.parts())
    }
}

impl Eq for Record {}

impl Hash for Record {
    fn hash<H: Hasher>(&self, state: &mut H) {
        self.parts().for_each(|part| part.hash(state));
    }
}

impl fmt::Debug for Record {
    fn fmt(&self, f: &mut fmt::Formatter<'_>) -> fmt::Result {
        f.debug_list().entries(self.parts()).finish()
    }
}

impl Common {
    /// A common parameter with the more-data mark 0, without transfer parameters.
    pub fn new(header: u8, value: u32) -> Self {
        Common {
            header,
            value,
            ..Common::default()
        }
    }

    /// A sequence, 04, with the number 1, the only one that it can have, and this
    /// more-data mark.
    pub fn sequence(more_data: bool) -> Self {
        Common {
            more_data: more_data.into(),
            ..Common::new(SEQUENCE, SEQUENCE_NUMBER)
        }
    }
}

impl Transfer {
    /// A transfer parameter with 0 in all fields and no values.
    pub fn new(header: u8) -> Self {
        Transfer {
            header,
            ..Transfer::default()
        }
    }

    /// The eight fields, in their order.
    pub(crate) fn fields(&self) -> [u8; 8] {
        [
            self.notification,
            self.verification,
            self.dialling,
            self.number_type,
            self.incomplete,
            self.plan,
            self.presentation,
            self.screening,
        ]
    }

    /// Sets the eight fields, in their order.
    pub(crate) fn set_fields(&mut self, fields: [u8; 8]) {
        [
            self.notification,
            self.verification,
            self.dialling,
            self.number_type,
            self.incomplete,
            self.plan,
            self.presentation,
            self.screening,
        ] = fields;
    }
}

impl Stretch {
    /// From the octet `start` on, up to the octet `end`.
    pub(crate) fn new(start: usize, end: usize) -> Self {
        Stretch { start, end }
    }
}

#[cfg(test)]
mod tests {
    use super::*;
    use std::collections::HashSet;

    #[test]
    fn a_transfer_parameter_is_sought_in_every_c5() {
        let mut record = Record::default();
        for header in [0x90, 0x98] {
            record.push_common(TRANSFER_DATA, 0);
            record.push_transfer(Transfer::new(header), &[]);
        }
        assert_eq!(record.transfer(0x18).map(|t| t.header), Some(0x98));
        assert!(record.transfer(0x17).is_none());
    }

    #[test]
    fn all_transfer_parameters_of_a_name() {
        let mut record = Record::default();
        for (header, value) in [(0xCC, 1), (0x41, 0), (0xCC, 2), (0xCC, 3)] {
            record.push_transfer(Transfer::new(header), &[value]);
        }
        let values = |name| {
            let all = record.transfers(name);
            all.map(|t| record.values_of(t).to_vec())
                .collect::<Vec<_>>()
        };
        assert_eq!(values(0x0C), [[1], [2], [3]]);
        assert_eq!(values(0x01), [[0]]);
        assert!(values(0x02).is_empty());
    }

    #[test]
    fn a_transfer_parameter_is_added_to_the_last_c5() {
        let mut record = Record::default();
        record.push_transfer(Transfer::new(0x90), &[1]);
        record.push_common(TRANSFER_DATA, 0);
        record.push_common(0x01, 1);
        record.push_transfer(Transfer::new(0x98), &[2, 3]);
        let headers = |at: usize| {
            let all = record.common[at].transfers.iter().map(|t| t.header);
            all.collect::<Vec<_>>()
        };
        assert_eq!(
            [headers(0), headers(1), headers(2)],
            [&[0x90][..], &[0x98], &[]]
        );
        assert_eq!(record.values_of(&record.common[1].transfers[0]), [2, 3]);
    }

    /// Two transfer parameters, 90 with 1 and 98 with 2 and 3.
    fn record() -> Record {
        let mut record = Record::default();
        record.push_common(0x01, 1);
        record.push_transfer(Transfer::new(0x90), &[1]);
        record.push_transfer(Transfer::new(0x98), &[2, 3]);
        record
    }

    #[test]
    fn where_values_stand_makes_no_difference() {
        let mut other = Record::default();
        other.push_common(0x01, 1);
        other.push_transfer(Transfer::new(0x98), &[2, 3]);
        other.push_transfer(Transfer::new(0x90), &[9, 9, 9]);
        other.common[1].transfers.swap(0, 1);
        assert_ne!(other, record());
        other.common[1].transfers[0].values = other.hold(&[1]);
        assert_eq!(other, record());
        assert_eq!(format!("{other:?}"), format!("{:?}", record()));
        assert_eq!(HashSet::from([other, record()]).len(), 1);
    }

    #[test]
    fn all_else_makes_one() {
        let changes: [fn(&mut Record); 9] = [
            |record| record.common[0].header = 0x04,
            |record| record.common[1].value = 1,
            |record| record.common[0].more_data = 1,
            |record| record.common[1].transfers[0].header = 0x91,
            |record| record.common[1].transfers[0].screening = 1,
            |record| record.common[1].transfers.swap(0, 1),
            |record| record.common[0].transfers = record.common[1].transfers.clone(),
            |record| record.common[1].transfers[1].values = Stretch::default(),
            |record| record.push_common(0x04, 1),
        ];
        for change in changes {
            let mut other = record();
            change(&mut other);
            assert_ne!(other, record());
        }
        assert_ne!(Record::default(), record());
    }

    #[test]
    fn a_sequence_has_its_number_and_its_mark() {
        let records = [(false, 0), (true, 1)].map(|(more_data, mark)| {
            let mut record = Record::default();
            record.push_sequence(more_data);
            let Common {
                header,
                value,
                more_data,
                ref transfers,
            } = record.common[0];
            assert_eq!((header, value, more_data), (0x04, 1, mark));
            assert!(transfers.is_empty());
            record
        });
        assert_ne!(records[0], records[1]);
    }

    #[test]
    fn parameters_of_other_records_are_no_harm() {
        let values = |start, end| {
            let values = Stretch::new(start, end);
            let parameter = Transfer {
                values,
                ..Transfer::new(0x98)
            };
            record().values_of(&parameter).to_vec()
        };
        assert_eq!(values(0, 3), [1, 2, 3]);
        assert_eq!(values(3, 3), []);
        for (start, end) in [(0, 4), (4, 4), (2, 1), (usize::MAX, 0), (0, usize::MAX)] {
            assert_eq!(values(start, end), []);
        }
    }
}
