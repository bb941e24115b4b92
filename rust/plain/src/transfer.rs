//! Transfer parameters: their names, their layouts, the check of one of them.

use crate::carriers;
use crate::charging;
use crate::digits::{octets_for, DIALLED};
use crate::fault::{formed, Fault};
use crate::number;
use crate::order;
use crate::refusal::Refusal;
use std::ops::Range;

/// The most octets of the transfer data.
pub const DATA_LIMIT: usize = 255;
/// The names in use.
pub const NAME_COUNT: usize = 52;
/// The most transfer parameters: each name once, and the carriers as often as
/// they may stand.
pub const TRANSFER_LIMIT: usize = NAME_COUNT - 1 + CARRIERS_LIMIT;
/// How often the carriers may stand, all other names once.
pub const CARRIERS_LIMIT: usize = 3;
/// The most digits under PLI 10.
pub const DIGIT_LIMIT: usize = 63;
/// Header of the information on carriers.
pub const CARRIERS: u8 = 0xCC;
/// Header of the charging information.
pub const CHARGING: u8 = 0xF7;
/// Header of the connection order.
pub const ORDER: u8 = 0xE0;
/// Header of the kind of network next to ours.
pub const NETWORK: u8 = 0x7E;
/// Header of the information on the area that a call comes from.
pub const ORIGINATING_REGION: u8 = 0xFD;
/// Header of the added classes of the calling user.
pub const ADDED_CLASSES: u8 = 0xD6;
/// The first octet of a DA whose rest is a number.
pub const GENERIC_IS_NUMBER: u8 = 0x06;

/// What the contents under a name must be.
#[derive(Clone, Copy, Debug, PartialEq, Eq)]
pub enum Layout {
    /// The name is unused.
    Unused,
    /// The name has no layout: any PLI, contents carried.
    Open,
    /// PLI 01: one octet.
    Octet {
        /// The bits that must be 0.
        zero: u8,
    },
    /// PLI 10: a count octet, then digits.
    Digits {
        /// The bits of the count octet that must be 0.
        zero: u8,
    },
    /// PLI 11: the calling user number, D7.
    UserNumber,
    /// PLI 11: the calling number, DC.
    CallingNumber,
    /// PLI 11: the generic number, DA.
    GenericNumber,
    /// PLI 11: four octets, F2.
    Four,
    /// PLI 11: two octets, DB and CF.
    Two {
        /// The bits of the second octet that must be 0.
        zero: u8,
    },
    /// PLI 11: the charging information, F7.
    Charging,
    /// PLI 11: the connection order, E0.
    Order,
    /// PLI 11: the carriers, CC.
    Carriers,
    /// PLI 11: contents carried unread.
    Carried,
}

/// Each header in use and its layout.
const IN_USE: [(u8, Layout); NAME_COUNT] = [
    (0x41, Layout::Octet { zero: 0xFE }),
    (0x42, Layout::Octet { zero: 0xF0 }),
    (0x43, Layout::Octet { zero: 0xFE }),
    (0x44, Layout::Octet { zero: 0xFE }),
    (0x45, Layout::Octet { zero: 0xFE }),
    (0x46, Layout::Octet { zero: 0xFC }),
    (0x52, Layout::Octet { zero: 0x30 }),
    (0x65, Layout::Octet { zero: 0xFE }),
    (0x66, Layout::Octet { zero: 0x00 }),
    (0x67, Layout::Octet { zero: 0xF8 }),
    (0x68, Layout::Octet { zero: 0x00 }),
    (0x6C, Layout::Octet { zero: 0x80 }),
    (0x6E, Layout::Octet { zero: 0x00 }),
    (0x6F, Layout::Octet { zero: 0xFC }),
    (0x73, Layout::Octet { zero: 0x00 }),
    (0x75, Layout::Octet { zero: 0x00 }),
    (0x79, Layout::Octet { zero: 0x00 }),
    (0x7A, Layout::Octet { zero: 0x00 }),
    (0x7C, Layout::Octet { zero: 0x00 }),
    (NETWORK, Layout::Octet { zero: 0x00 }),
    (0x90, Layout::Digits { zero: 0x40 }),
    (0x91, Layout::Digits { zero: 0x00 }),
    (0x95, Layout::Digits { zero: 0x40 }),
    (0x98, Layout::Digits { zero: 0x00 }),
    (0xA3, Layout::Digits { zero: 0xC0 }),
    (CARRIERS, Layout::Carriers),
    (0xCD, Layout::Carried),
    (0xCE, Layout::Carried),
    (0xCF, Layout::Two { zero: 0x08 }),
    (0xD3, Layout::Carried),
    (ADDED_CLASSES, Layout::Carried),
    (0xD7, Layout::UserNumber),
    (0xD9, Layout::Carried),
    (0xDA, Layout::GenericNumber),
    (0xDB, Layout::Two { zero: 0xFC }),
    (0xDC, Layout::CallingNumber),
    (ORDER, Layout::Order),
    (0xE9, Layout::Carried),
    (0xEA, Layout::Carried),
    (0xEB, Layout::Carried),
    (0xED, Layout::Carried),
    (0xF2, Layout::Four),
    (0xF4, Layout::Carried),
    (0xF6, Layout::Carried),
    (CHARGING, Layout::Charging),
    (0xF8, Layout::Carried),
    (ORIGINATING_REGION, Layout::Carried),
    (0x07, Layout::Open),
    (0x24, Layout::Open),
    (0x30, Layout::Open),
    (0x31, Layout::Open),
    (0x3B, Layout::Open),
];

/// The layout of each name.
static LAYOUTS: [Layout; 64] = {
    let mut layouts = [Layout::Unused; 64];
    let mut i = 0;
    while i < IN_USE.len() {
        layouts[name_of(IN_USE[i].0) as usize] = IN_USE[i].1;
        i += 1;
    }
    layouts
};

/// The name (P0, P1) of a header.
pub const fn name_of(header: u8) -> u8 {
    header & 0x3F
}

/// The PLI of a header.
pub const fn pli_of(header: u8) -> u8 {
    header >> 6
}

/// The layout of a header's name, whatever its PLI.
pub fn layout_of(header: u8) -> Layout {
    LAYOUTS[usize::from(name_of(header))]
}

impl Layout {
    /// The PLI that goes with this layout, or none where any goes, or where
    /// the name is unused.
    pub const fn pli(self) -> Option<u8> {
        match self {
            Layout::Unused | Layout::Open => None,
            Layout::Octet { .. } => Some(0b01),
            Layout::Digits { .. } => Some(0b10),
            _ => Some(0b11),
        }
    }
}

/// How a record holds a transfer parameter.
#[derive(Clone, Copy, Debug, PartialEq, Eq)]
pub(crate) enum Held {
    /// As its contents.
    Octets,
    /// PLI 10: as its marks and digits.
    Digits,
    /// D7 and DC: as the number's fields and digits.
    Number,
    /// DA with 06: as that octet, the number's fields and digits.
    Generic,
}

impl Held {
    /// How a parameter with this header and these values or contents is held,
    /// also where it will be refused; none but the first of them matters.
    pub(crate) fn of(header: u8, values: &[u8]) -> Held {
        match header {
            0xD7 | 0xDC => Held::Number,
            0xDA if values.first() == Some(&GENERIC_IS_NUMBER) => Held::Generic,
            _ if pli_of(header) == 0b10 && layout_of(header) != Layout::Open => Held::Digits,
            _ => Held::Octets,
        }
    }
}

/// The digits that a count octet counts, bits 5 to 0.
pub(crate) const fn digit_count(count_octet: u8) -> usize {
    (count_octet & 0x3F) as usize
}

/// Where the contents of the parameter stand that begins `octets`, or none if
/// the octets end inside it. There must be a header.
pub(crate) fn contents_of(octets: &[u8]) -> Option<Range<usize>> {
    let (start, len) = match pli_of(octets[0]) {
        0b00 => (1, 0),
        0b01 => (1, 1),
        0b10 => (1, 1 + octets_for(digit_count(*octets.get(1)?))),
        _ => (2, usize::from(*octets.get(1)?)),
    };
    let end = start + len;
    (end <= octets.len()).then_some(start..end)
}

/// Tries 8 and 9: the name is in use, and the PLI is the name's.
pub(crate) fn check_header(header: u8) -> Result<Layout, u8> {
    let layout = layout_of(header);
    if layout == Layout::Unused {
        return Err(Refusal::UNUSED_NAME);
    }
    match layout.pli() {
        Some(pli) if pli != pli_of(header) => Err(Refusal::WRONG_PLI),
        _ => Ok(layout),
    }
}

/// Tries 12, 13, 18 and 19 on contents whose length is as the PLI rule gives it.
pub(crate) fn check_contents(layout: Layout, contents: &[u8]) -> Result<(), Fault> {
    match layout {
        Layout::Unused | Layout::Open | Layout::Carried => Ok(()),
        Layout::Octet { zero } => formed(contents[0] & zero == 0),
        Layout::Digits { zero } => {
            let (count, digits) = (contents[0], &contents[1..]);
            formed(count & zero == 0)?;
            let odd = count & 1 == 1;
            DIALLED.check(digits, odd).map_err(|fault| fault.behind(1))
        }
        Layout::UserNumber => number::check(contents),
        Layout::CallingNumber => number::check_calling(contents),
        Layout::GenericNumber => match contents {
            [] => Err(Fault::Form),
            [GENERIC_IS_NUMBER, rest @ ..] => number::check(rest).map_err(|fault| fault.behind(1)),
            _ => Ok(()),
        },
        Layout::Four => formed(contents.len() == 4),
        Layout::Two { zero } => formed(matches!(contents, [_, second] if second & zero == 0)),
        Layout::Charging => charging::open(contents).map(|_| ()),
        Layout::Order => order::check(contents),
        Layout::Carriers => carriers::check(contents),
    }
}

/// How often a name may stand.
pub(crate) const fn limit_of(name: u8) -> usize {
    if name == name_of(CARRIERS) {
        CARRIERS_LIMIT
    } else {
        1
    }
}

/// The names met so far.
#[derive(Clone, Copy, Default)]
pub(crate) struct Names {
    /// A bit for each name that may not stand once more.
    full: u64,
    /// How often the carriers stood there.
    carriers: usize,
}

impl Names {
    /// Enters the name of `header`; 10 if it stood there as often as it may.
    pub(crate) fn enter(&mut self, header: u8) -> Result<(), u8> {
        let bit = 1 << name_of(header);
        if self.full & bit != 0 {
            return Err(Refusal::NAME_REPEATED);
        }
        if name_of(header) == name_of(CARRIERS) {
            self.carriers += 1;
            if self.carriers < CARRIERS_LIMIT {
                return Ok(());
            }
        }
        self.full |= bit;
        Ok(())
    }
}

#[cfg(test)]
mod tests {
    use super::*;

    #[test]
    fn names_in_use() {
        let count = |wanted: fn(Layout) -> bool| (0..64).filter(|&n| wanted(layout_of(n))).count();
        assert_eq!(count(|l| l == Layout::Unused), 12);
        assert_eq!(count(|l| l == Layout::Open), 5);
        assert_eq!(count(|l| l.pli() == Some(0b01)), 20);
        assert_eq!(count(|l| l.pli() == Some(0b10)), 5);
        assert_eq!(count(|l| l.pli() == Some(0b11)), 22);
    }

    #[test]
    fn headers_bear_the_pli_of_their_layout() {
        for (header, layout) in IN_USE {
            assert_eq!(layout_of(header), layout);
            assert_eq!(layout.pli().unwrap_or(0b00), pli_of(header));
        }
    }

    #[test]
    fn how_often_names_stand() {
        let mut names = Names::default();
        let mut often = [0; 64];
        for name in (0..4).flat_map(|_| 0..64) {
            match names.enter(name) {
                Ok(()) => often[usize::from(name)] += 1,
                Err(number) => assert_eq!(number, 10),
            }
        }
        let expected = std::array::from_fn(|name| if name == 0x0C { 3 } else { 1 });
        assert_eq!(often, expected);
        assert_eq!((0..64).map(limit_of).collect::<Vec<_>>(), expected);
        let used = (0..64).filter(|&name| layout_of(name) != Layout::Unused);
        assert_eq!(used.map(limit_of).sum::<usize>(), TRANSFER_LIMIT);
    }

    #[test]
    fn contents_by_the_transfer_pli() {
        assert_eq!(contents_of(&[0x30]), Some(1..1));
        assert_eq!(contents_of(&[0x41, 0]), Some(1..2));
        assert_eq!(contents_of(&[0x41]), None);
        assert_eq!(contents_of(&[0x90, 0x83, 1, 1]), Some(1..4));
        assert_eq!(contents_of(&[0x90, 0x03, 1]), None);
        assert_eq!(contents_of(&[0xCC, 2, 1, 1, 1]), Some(2..4));
        assert_eq!(contents_of(&[0xCC]), None);
    }
}
