//! The record's image: its values as one row of octets.
//!
//! An image is the count of common parameters, then each of them as header,
//! value (4 octets, least first), more-data mark and count of transfer
//! parameters, and right after a C5 its transfer parameters, each as header, its
//! eight fields, count of values (2 octets, least first), values.

use crate::common::{COMMON_LIMIT, TRANSFER_DATA};
use crate::record::{Common, Record, Transfer};
use crate::refusal::Refusal;
use crate::transfer::{Held, TRANSFER_LIMIT};

/// Octets of a common parameter in an image, without its transfer parameters.
const COMMON_LEN: usize = 7;
/// Octets of a transfer parameter in an image, without its values.
const TRANSFER_LEN: usize = 11;

/// The image of `record`. Fields that a parameter does not have are 0 in it.
///
/// A count that its octets cannot hold, far over the record's limits, is held
/// as the most they can, and so many parameters or values follow: the image of
/// such a record is over the limits, too.
pub fn image(record: &Record) -> Vec<u8> {
    let common = up_to(&record.common, u8::MAX.into());
    let mut octets = Vec::with_capacity(image_len(common));
    octets.push(common.len() as u8);
    for parameter in common {
        put_common(record, parameter, &mut octets);
    }
    octets
}

/// The first `most` of `all`.
fn up_to<T>(all: &[T], most: usize) -> &[T] {
    &all[..all.len().min(most)]
}

/// The transfer parameters that a common parameter has.
fn transfers_of(parameter: &Common) -> &[Transfer] {
    match parameter.header {
        TRANSFER_DATA => up_to(&parameter.transfers, u8::MAX.into()),
        _ => &[],
    }
}

/// The length of an image with these common parameters.
fn image_len(common: &[Common]) -> usize {
    let transfers = common.iter().flat_map(transfers_of);
    1 + COMMON_LEN * common.len()
        + transfers
            .map(|t| TRANSFER_LEN + t.values.len())
            .sum::<usize>()
}

fn put_common(record: &Record, parameter: &Common, octets: &mut Vec<u8>) {
    let (value, more_data) = parameter.own();
    let transfers = transfers_of(parameter);
    octets.push(parameter.header);
    octets.extend_from_slice(&value.to_le_bytes());
    octets.extend([more_data, transfers.len() as u8]);
    for transfer in transfers {
        put_transfer(record, transfer, octets);
    }
}

fn put_transfer(record: &Record, parameter: &Transfer, octets: &mut Vec<u8>) {
    let values = up_to(record.values_of(parameter), u16::MAX.into());
    octets.push(parameter.header);
    octets.extend_from_slice(&parameter.fields(record.held(parameter)));
    octets.extend_from_slice(&(values.len() as u16).to_le_bytes());
    octets.extend_from_slice(values);
}

/// The record of an image. Fields that a parameter does not have are 0 in it,
/// whatever the image has for them.
///
/// Refused is, as 1 at 0, an image that is no whole record, that has octets
/// left over, or whose record is over its limits.
pub fn from_image(image: &[u8]) -> Result<Record, Refusal> {
    parse(image)
        .filter(Record::within_limits)
        .ok_or(Refusal::new(Refusal::LIMITS, 0))
}

/// The octets of an image that are not taken yet.
struct Rest<'i>(&'i [u8]);

impl<'i> Rest<'i> {
    fn octet(&mut self) -> Option<u8> {
        let (&first, rest) = self.0.split_first()?;
        self.0 = rest;
        Some(first)
    }

    fn array<const N: usize>(&mut self) -> Option<[u8; N]> {
        self.octets(N)?.try_into().ok()
    }

    fn octets(&mut self, len: usize) -> Option<&'i [u8]> {
        let first = self.0.get(..len)?;
        self.0 = &self.0[len..];
        Some(first)
    }
}

fn parse(image: &[u8]) -> Option<Record> {
    let mut rest = Rest(image);
    let count = usize::from(rest.octet()?);
    if count > COMMON_LIMIT {
        return None;
    }
    let mut record = Record {
        common: Vec::with_capacity(count),
        values: Vec::with_capacity(image.len()),
    };
    for _ in 0..count {
        parse_common(&mut rest, &mut record)?;
    }
    rest.0.is_empty().then_some(record)
}

fn parse_common(rest: &mut Rest<'_>, record: &mut Record) -> Option<()> {
    let header = rest.octet()?;
    let value = u32::from_le_bytes(rest.array()?);
    let [more_data, count] = rest.array()?;
    let count = match header {
        TRANSFER_DATA => usize::from(count),
        _ => 0,
    };
    if count > TRANSFER_LIMIT {
        return None;
    }
    let mut parameter = Common {
        header,
        value,
        more_data,
        transfers: Vec::with_capacity(count),
    };
    // Only what it has stays.
    (parameter.value, parameter.more_data) = parameter.own();
    record.common.push(parameter);
    for _ in 0..count {
        parse_transfer(rest, record)?;
    }
    Some(())
}

fn parse_transfer(rest: &mut Rest<'_>, record: &mut Record) -> Option<()> {
    let header = rest.octet()?;
    let fields = rest.array()?;
    let count = u16::from_le_bytes(rest.array()?);
    let values = rest.octets(count.into())?;
    let mut parameter = Transfer {
        header,
        ..Transfer::default()
    };
    parameter.set_fields(fields);
    // Only those that it has stay.
    parameter.set_fields(parameter.fields(Held::of(header, values)));
    record.push_transfer(parameter, values);
    Some(())
}

#[cfg(test)]
mod tests {
    use super::*;

    const OVER: Refusal = Refusal::new(1, 0);

    #[test]
    fn not_whole_or_left_over() {
        let image = [1, 0x01, 1, 0, 0, 0, 0, 0];
        assert!(from_image(&image).is_ok());
        for end in 0..image.len() {
            assert_eq!(from_image(&image[..end]), Err(OVER));
        }
        assert_eq!(from_image(&[1, 0x01, 1, 0, 0, 0, 0, 0, 0]), Err(OVER));
        assert_eq!(from_image(&[0]), Ok(Record::default()));
    }

    #[test]
    fn what_a_parameter_does_not_have_is_not_looked_at() {
        let bare = [
            3, 0x01, 1, 0, 0, 0, 0, 0, 0x04, 9, 0, 0, 0, 9, 0, 0xC5, 0, 0, 0, 0, 0, 1, 0x90, 1, 0,
            0, 0, 0, 0, 0, 0, 1, 0, 5,
        ];
        let noisy = [
            3, 0x01, 1, 0, 0, 0, 9, 9, 0x04, 9, 0, 0, 0, 9, 9, 0xC5, 9, 9, 9, 9, 9, 1, 0x90, 1, 9,
            9, 9, 9, 9, 9, 9, 1, 0, 5,
        ];
        let record = from_image(&noisy).unwrap();
        assert_eq!(image(&record), bare);
        assert_eq!(from_image(&bare), Ok(record));
    }

    #[test]
    fn over_the_limits() {
        let parameter = Common {
            header: 0x04,
            ..Common::default()
        };
        let mut record = Record {
            common: vec![parameter; 6],
            ..Record::default()
        };
        assert!(from_image(&image(&record)).is_ok());
        record.common.resize(300, record.common[0].clone());
        assert_eq!(image(&record)[0], 255);
        assert_eq!(from_image(&image(&record)), Err(OVER));
    }
}
