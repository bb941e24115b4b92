//! The record's image, the form in which the static library takes and gives
//! records. `include/tsurakemobu.h` tells it.

use crate::boundary::{Draft, Room};
use crate::record::{Common, Record, Stretch, Transfer, TRANSFER_DATA};
use crate::IMAGE_MAX;

/// The image of `record`, in `room`; none if it is longer than that of any
/// record within its limits, as it is where an image cannot count what the
/// record has.
pub(crate) fn image_of<'r>(record: &Record, room: &'r mut Room<IMAGE_MAX>) -> Option<&'r [u8]> {
    let mut image = Draft::new(room);
    image.put(&[u8::try_from(record.common.len()).ok()?])?;
    for parameter in &record.common {
        put_common(record, parameter, &mut image)?;
    }
    Some(image.octets())
}

fn put_common(record: &Record, parameter: &Common, image: &mut Draft<'_>) -> Option<()> {
    let transfers = match parameter.header {
        TRANSFER_DATA => &parameter.transfers[..],
        _ => &[],
    };
    let [a, b, c, d] = parameter.value.to_le_bytes();
    let count = u8::try_from(transfers.len()).ok()?;
    image.put(&[parameter.header, a, b, c, d, parameter.more_data, count])?;
    for parameter in transfers {
        put_transfer(parameter, record.values_of(parameter), image)?;
    }
    Some(())
}

fn put_transfer(parameter: &Transfer, values: &[u8], image: &mut Draft<'_>) -> Option<()> {
    let [a, b, c, d, e, f, g, h] = parameter.fields();
    let [low, high] = u16::try_from(values.len()).ok()?.to_le_bytes();
    image.put(&[parameter.header, a, b, c, d, e, f, g, h, low, high])?;
    match values {
        // The most frequent case, for which no copy is called.
        [value] => image.put(&[*value]),
        _ => image.put(values),
    }
}

/// The record of an image that the static library gave. Such an image is whole;
/// octets that were missing at its end would be read as 0.
pub(crate) fn record_of(image: &[u8]) -> Record {
    let mut rest = Rest {
        octets: image,
        len: image.len(),
    };
    let [count] = rest.array();
    let common = (0..count).map(|_| common_of(&mut rest)).collect();
    Record::of(common, image.to_vec())
}

fn common_of(rest: &mut Rest<'_>) -> Common {
    let [header, value @ .., more_data, count] = rest.array::<7>();
    let transfers = match header {
        TRANSFER_DATA => (0..count).map(|_| transfer_of(rest)).collect(),
        _ => Vec::new(),
    };
    Common {
        header,
        value: u32::from_le_bytes(value),
        more_data,
        transfers,
    }
}

fn transfer_of(rest: &mut Rest<'_>) -> Transfer {
    let [header, fields @ .., low, high] = rest.array::<11>();
    let mut parameter = Transfer::new(header);
    parameter.set_fields(fields);
    parameter.values = rest.stretch(u16::from_le_bytes([low, high]).into());
    parameter
}

/// The octets of an image that are not read yet.
struct Rest<'i> {
    octets: &'i [u8],
    /// How many octets the image has.
    len: usize,
}

impl<'i> Rest<'i> {
    /// Where the next `len` octets stand, or those that are left.
    fn stretch(&mut self, len: usize) -> Stretch {
        let start = self.len - self.octets.len();
        let len = len.min(self.octets.len());
        self.octets = &self.octets[len..];
        Stretch::new(start, start + len)
    }

    /// The next `N` octets, or 0s if they are not all there.
    fn array<const N: usize>(&mut self) -> [u8; N] {
        let (first, rest) = self.octets.split_first_chunk().unwrap_or((&[0; N], &[]));
        self.octets = rest;
        *first
    }
}

#[cfg(test)]
mod tests {
    use super::*;

    #[rustfmt::skip]
    const IMAGE: [u8; 41] = [
        4,
        0x01, 1, 0, 0, 0, 0, 0,
        0x83, 0x39, 0x30, 0, 0, 0, 0,
        0x04, 1, 0, 0, 0, 1, 0,
        0xC5, 0, 0, 0, 0, 0, 1,
        0xD7, 1, 2, 3, 4, 5, 6, 7, 8, 1, 0, 9,
    ];

    fn record() -> Record {
        let mut number = Transfer::new(0xD7);
        number.set_fields([1, 2, 3, 4, 5, 6, 7, 8]);
        let mut record = Record::default();
        record.push_common(0x01, 1);
        record.push_common(0x83, 12345);
        record.push_sequence(true);
        record.push_transfer(number, &[9]);
        record
    }

    #[test]
    fn there_and_back() {
        let empty = Record::default();
        assert_eq!(image_of(&record(), &mut Room::new()), Some(&IMAGE[..]));
        assert_eq!(image_of(&empty, &mut Room::new()), Some(&[0][..]));
        assert_eq!(record_of(&IMAGE), record());
        assert_eq!(record_of(&[0]), empty);
    }

    #[test]
    fn an_image_that_is_cut_is_read_with_zeros() {
        assert_eq!(record_of(&[]), Record::default());
        let cut = record_of(&IMAGE[..40]);
        assert_eq!(cut.values_of(&cut.common[3].transfers[0]), []);
        let cut = record_of(&IMAGE[..39]);
        assert_eq!(cut.common[3].transfers[0].header, 0);
        let cut = record_of(&IMAGE[..21]);
        assert_eq!((cut.common[2].header, cut.common[2].more_data), (0, 0));
    }

    /// Whether a record with so many common parameters, and with a C5 of so many
    /// transfer parameters with so many values each, has an image.
    fn has_image(common: usize, transfers: usize, values: usize) -> bool {
        let mut record = Record::default();
        for _ in 0..common {
            record.push_common(0x04, 0);
        }
        for _ in 0..transfers {
            record.push_transfer(Transfer::new(0xCC), &vec![0; values]);
        }
        image_of(&record, &mut Room::new()).is_some()
    }

    #[test]
    fn what_is_longer_than_any_image() {
        assert!(has_image(163, 0, 0));
        assert!(!has_image(164, 0, 0));
        assert!(has_image(0, 103, 0));
        assert!(!has_image(0, 104, 0));
        assert!(has_image(0, 1, IMAGE_MAX - 19));
        assert!(!has_image(0, 1, IMAGE_MAX - 18));
        assert!(!has_image(1, 1, IMAGE_MAX - 19));
    }

    #[test]
    fn what_an_image_cannot_count() {
        for count in [255, 256, 257, 1000] {
            assert!(!has_image(count, 0, 0));
            assert!(!has_image(0, count, 0));
        }
        for count in [65_535, 65_536, 65_537] {
            assert!(!has_image(0, 1, count));
        }
    }
}
