//! Common parameters: their headers, their contents, what they must hold.

use std::ops::Range;

/// Header of the user class.
pub const USER_CLASS: u8 = 0x01;
/// Header of the partner's call number.
pub const PARTNER_CALL: u8 = 0x82;
/// Header of the own call number.
pub const OWN_CALL: u8 = 0x83;
/// Header of the sequence: a number and a more-data mark in one octet.
pub const SEQUENCE: u8 = 0x04;
/// Header of the signal kind.
pub const SIGNAL_KIND: u8 = 0x06;
/// Header of the transfer data.
pub const TRANSFER_DATA: u8 = 0xC5;
/// The end mark.
pub const END_MARK: u8 = 0x00;

/// The most octets of a message.
pub const MESSAGE_LIMIT: usize = 272;
/// The most common parameters of a message, without the end mark.
pub const COMMON_LIMIT: usize = 6;
/// The highest call number: 24 bits.
pub const CALL_LIMIT: u32 = 0x00FF_FFFF;
/// The number of a sequence, the only one that it may have.
pub const SEQUENCE_NUMBER: u32 = 1;

/// Whether `header` is a listed common parameter's; the end mark is not meant.
pub const fn is_listed(header: u8) -> bool {
    matches!(
        header,
        USER_CLASS | PARTNER_CALL | OWN_CALL | SEQUENCE | SIGNAL_KIND | TRANSFER_DATA
    )
}

/// Whether `octet` is a listed signal kind.
pub const fn is_signal_kind(octet: u8) -> bool {
    matches!(
        octet,
        0x11 | 0x12 | 0x23..=0x26 | 0x31 | 0x61 | 0x62 | 0x71..=0x74
    )
}

/// Whether the parameter `header` may hold `value`: of 04 the number, of 01 and
/// 06 the octet.
pub(crate) fn allows(header: u8, value: u32) -> bool {
    match header {
        USER_CLASS => value == 0x01,
        SEQUENCE => value == SEQUENCE_NUMBER,
        SIGNAL_KIND => u8::try_from(value).is_ok_and(is_signal_kind),
        _ => true,
    }
}

/// The value and the more-data mark of a common parameter with these contents, 0
/// where it has none.
pub(crate) fn held_in(header: u8, contents: &[u8]) -> (u32, u8) {
    match (header, contents) {
        (TRANSFER_DATA, _) => (0, 0),
        (SEQUENCE, octets) => (u32::from(octets[0] & 0x7F), octets[0] >> 7),
        (_, &[low, middle, high]) => (u32::from_le_bytes([low, middle, high, 0]), 0),
        (_, octets) => (u32::from(octets[0]), 0),
    }
}

/// Where in `message` the contents of the common parameter at `offset` stand,
/// or none if the message ends inside it.
pub(crate) fn contents_at(message: &[u8], offset: usize) -> Option<Range<usize>> {
    let (start, len) = match message[offset] >> 6 {
        0b11 => (offset + 2, usize::from(*message.get(offset + 1)?)),
        pli => (offset + 1, usize::from(pli) + 1),
    };
    let end = start + len;
    (end <= message.len()).then_some(start..end)
}

/// The listed common parameters met so far. Their F1 bits tell them apart.
#[derive(Clone, Copy, Default)]
pub(crate) struct Seen(u8);

impl Seen {
    /// Enters a listed `header`; false if it stood there already.
    pub(crate) fn enter(&mut self, header: u8) -> bool {
        let bit = 1 << (header & 0x07);
        let new = self.0 & bit == 0;
        self.0 |= bit;
        new
    }

    /// Whether the parameters that must be there, 01 and 06, were met.
    pub(crate) fn complete(self) -> bool {
        const NEEDED: u8 = 1 << USER_CLASS | 1 << SIGNAL_KIND;
        self.0 & NEEDED == NEEDED
    }
}

#[cfg(test)]
mod tests {
    use super::*;

    #[test]
    fn thirteen_signal_kinds() {
        let kinds: Vec<u8> = (0..=255).filter(|&octet| is_signal_kind(octet)).collect();
        assert_eq!(
            kinds,
            [0x11, 0x12, 0x23, 0x24, 0x25, 0x26, 0x31, 0x61, 0x62, 0x71, 0x72, 0x73, 0x74]
        );
    }

    #[test]
    fn listed_headers_are_told_apart() {
        let mut seen = Seen::default();
        let listed: Vec<u8> = (0..=255).filter(|&header| is_listed(header)).collect();
        assert_eq!(listed, [0x01, 0x04, 0x06, 0x82, 0x83, 0xC5]);
        assert!(listed.iter().all(|&header| seen.enter(header)));
        assert!(listed.iter().all(|&header| !seen.enter(header)));
    }

    #[test]
    fn contents_by_the_common_pli() {
        assert_eq!(contents_at(&[0x01, 9], 0), Some(1..2));
        assert_eq!(contents_at(&[0x41, 9, 9], 0), Some(1..3));
        assert_eq!(contents_at(&[0x82, 9, 9, 9], 0), Some(1..4));
        assert_eq!(contents_at(&[0xC5, 2, 9, 9], 0), Some(2..4));
        assert_eq!(contents_at(&[0xC5, 3, 9, 9], 0), None);
        assert_eq!(contents_at(&[0xC5], 0), None);
    }
}
