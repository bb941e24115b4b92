//! Records whose transfer parameters have their values with them, so that any
//! can be changed by itself.

use plain::Refusal;

/// A record.
#[derive(Clone, Debug, Default, PartialEq, Eq)]
pub struct Record {
    /// The common parameters.
    pub common: Vec<Common>,
}

/// A common parameter.
#[derive(Clone, Debug, Default, PartialEq, Eq)]
pub struct Common {
    /// The header.
    pub header: u8,
    /// The value of any but C5.
    pub value: u32,
    /// The more-data mark of 04.
    pub more_data: u8,
    /// The transfer parameters of C5.
    pub transfers: Vec<Transfer>,
}

/// A transfer parameter.
#[derive(Clone, Debug, Default, PartialEq, Eq)]
pub struct Transfer {
    /// The header.
    pub header: u8,
    /// The eight fields, by the order that they have in an image.
    pub fields: [u8; 8],
    /// The values.
    pub values: Vec<u8>,
}

/// Index of the notification mark among the fields.
pub const NOTIFICATION: usize = 0;
/// Index of the verification mark.
pub const VERIFICATION: usize = 1;
/// Index of the type of dialling.
pub const DIALLING: usize = 2;
/// Index of the number type.
pub const NUMBER_TYPE: usize = 3;
/// Index of the incomplete mark.
pub const INCOMPLETE: usize = 4;
/// Index of the plan.
pub const PLAN: usize = 5;
/// Index of the presentation.
pub const PRESENTATION: usize = 6;
/// Index of the screening.
pub const SCREENING: usize = 7;

/// The headers of the parameters with fields; DA has them with 06.
pub const WITH_FIELDS: [u8; 7] = [0x90, 0x91, 0x95, 0x98, 0xD7, 0xDC, 0xDA];

/// The fields under a header by their indices, and the most that each can be.
pub fn fields_of(header: u8) -> &'static [(usize, u8)] {
    match header {
        0x90 | 0x95 => &[(NOTIFICATION, 1)],
        0x91 => &[(NOTIFICATION, 1), (VERIFICATION, 1)],
        0x98 => &[(DIALLING, 3)],
        0xD7 | 0xDC | 0xDA => &[
            (NUMBER_TYPE, 127),
            (INCOMPLETE, 1),
            (PLAN, 7),
            (PRESENTATION, 3),
            (SCREENING, 3),
        ],
        _ => &[],
    }
}

/// The fields that a parameter has, as [`fields_of`] tells them.
pub fn fields_in(parameter: &Transfer) -> &'static [(usize, u8)] {
    match (parameter.header, parameter.values.first()) {
        (0xDA, first) if first != Some(&0x06) => &[],
        (header, _) => fields_of(header),
    }
}

impl Record {
    /// The record of a message, or reading's refusal.
    ///
    /// # Errors
    ///
    /// Those of [`plain::read`].
    pub fn read(message: &[u8]) -> Result<Self, Refusal> {
        plain::read(message).map(Record::from)
    }

    /// The image with every field as it is, also those a parameter does not have.
    pub fn image(&self) -> Vec<u8> {
        let mut octets = vec![self.common.len() as u8];
        for parameter in &self.common {
            parameter.put(&mut octets, parameter.transfers.len() as u8);
        }
        octets
    }
}

impl Common {
    /// Puts the parameter into an image, with this count of transfer parameters.
    pub(crate) fn put(&self, octets: &mut Vec<u8>, count: u8) {
        octets.push(self.header);
        octets.extend(self.value.to_le_bytes());
        octets.extend([self.more_data, count]);
        if self.header == 0xC5 {
            for transfer in &self.transfers {
                transfer.put(octets);
            }
        }
    }
}

impl Transfer {
    /// How many octets the contents come to, laid out.
    pub fn contents_len(&self) -> usize {
        plain::record::contents_len(self.header, &self.values)
    }

    fn put(&self, octets: &mut Vec<u8>) {
        octets.push(self.header);
        octets.extend(self.fields);
        octets.extend((self.values.len() as u16).to_le_bytes());
        octets.extend_from_slice(&self.values);
    }
}

impl From<plain::Record> for Record {
    fn from(record: plain::Record) -> Self {
        let transfer = |parameter: &plain::Transfer| Transfer {
            header: parameter.header,
            fields: [
                parameter.notification,
                parameter.verification,
                parameter.dialling,
                parameter.number_type,
                parameter.incomplete,
                parameter.plan,
                parameter.presentation,
                parameter.screening,
            ],
            values: record.values_of(parameter).to_vec(),
        };
        let common = |parameter: &plain::Common| Common {
            header: parameter.header,
            value: parameter.value,
            more_data: parameter.more_data,
            transfers: parameter.transfers.iter().map(transfer).collect(),
        };
        Record {
            common: record.common.iter().map(common).collect(),
        }
    }
}
