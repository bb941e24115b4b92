//! The carriers, opened.

use crate::{CARRIER_DIGITS_MAX, CARRIER_ROW_LEN};

/// The level of the direction's row.
const DIRECTION_LEVEL: u8 = 0;
/// The level of a carrier entry.
const CARRIER_LEVEL: u8 = 1;
/// The level of a dependent entry.
const DEPENDENT_LEVEL: u8 = 2;

/// The octets of an entry before what it holds: its tag and its length octet.
const ENTRY_HEAD: usize = 2;

/// What the carriers, CC, hold.
#[derive(Clone, Debug, PartialEq, Eq, Hash)]
pub struct Carriers<'m> {
    /// Which way the carriers' route is told.
    pub direction: Direction,
    /// The offset of the direction in the message: where the contents of CC start.
    pub offset: usize,
    /// The carrier entries, in the order of the message; tags may repeat.
    pub entries: Vec<Carrier<'m>>,
}

/// A carrier entry.
#[derive(Clone, Debug, PartialEq, Eq, Hash)]
pub struct Carrier<'m> {
    /// The tag: what the carrier is to the call.
    pub tag: CarrierTag,
    /// The offset of the tag in the message.
    pub offset: usize,
    /// How many octets the entry holds, behind its length octet.
    pub len: usize,
    /// The dependent entries, in the order of the message; tags may repeat.
    pub dependents: Vec<Dependent<'m>>,
}

/// A dependent entry of a carrier entry.
#[derive(Clone, Debug, PartialEq, Eq, Hash)]
pub struct Dependent<'m> {
    /// The offset of the tag in the message.
    pub offset: usize,
    /// What the entry holds, which tells its tag.
    pub contents: DependentContents<'m>,
}

/// What a dependent entry holds. Octets that are carried unread stand in the message
/// itself.
#[derive(Clone, Debug, PartialEq, Eq, Hash)]
pub enum DependentContents<'m> {
    /// FC: the stage of the POI, carried.
    PoiStage(&'m [u8]),
    /// FD: the charging area of the POI, carried.
    PoiArea(&'m [u8]),
    /// FE: the digits of the carrier's code, 0 to 9, the first digit first.
    Code(Vec<u8>),
}

/// Which way the carriers' route is told: the direction octet of CC.
#[derive(Clone, Copy, Debug, PartialEq, Eq, PartialOrd, Ord, Hash)]
pub enum Direction {
    /// 0: it is not told.
    None = 0x00,
    /// 1: forward.
    Forward = 0x01,
    /// 2: backward.
    Backward = 0x02,
    /// 3: both ways.
    Both = 0x03,
}

/// The tag of a carrier entry.
#[derive(Clone, Copy, Debug, PartialEq, Eq, PartialOrd, Ord, Hash)]
pub enum CarrierTag {
    /// F8: the carrier of the SCP before a move.
    ScpBefore = 0xF8,
    /// F9: the carrier of the SCP after it.
    ScpAfter = 0xF9,
    /// FA: the carrier of the SCP.
    Scp = 0xFA,
    /// FB: the originating carrier.
    Originating = 0xFB,
    /// FC: the terminating carrier.
    Terminating = 0xFC,
    /// FD: the selected transit carrier.
    SelectedTransit = 0xFD,
    /// FE: a carrier on the route.
    Route = 0xFE,
}

/// The tag of a dependent entry.
#[derive(Clone, Copy, Debug, PartialEq, Eq, PartialOrd, Ord, Hash)]
pub enum DependentTag {
    /// FC: the stage of the POI.
    PoiStage = 0xFC,
    /// FD: the charging area of the POI.
    PoiArea = 0xFD,
    /// FE: the carrier's code.
    Code = 0xFE,
}

impl Direction {
    /// All directions, in the order of their octets.
    pub const ALL: [Self; 4] = [Self::None, Self::Forward, Self::Backward, Self::Both];

    /// The direction of this octet, if it is one.
    pub fn of(octet: u8) -> Option<Self> {
        let mut all = Self::ALL.into_iter();
        all.find(|direction| direction.octet() == octet)
    }

    /// The direction's octet.
    pub const fn octet(self) -> u8 {
        self as u8
    }
}

impl CarrierTag {
    /// All tags, in the order of their octets.
    pub const ALL: [Self; 7] = [
        Self::ScpBefore,
        Self::ScpAfter,
        Self::Scp,
        Self::Originating,
        Self::Terminating,
        Self::SelectedTransit,
        Self::Route,
    ];

    /// The tag of this octet, if it is one.
    pub fn of(octet: u8) -> Option<Self> {
        Self::ALL.into_iter().find(|tag| tag.octet() == octet)
    }

    /// The tag's octet.
    pub const fn octet(self) -> u8 {
        self as u8
    }
}

impl DependentTag {
    /// All tags, in the order of their octets.
    pub const ALL: [Self; 3] = [Self::PoiStage, Self::PoiArea, Self::Code];

    /// The tag of this octet, if it is one.
    pub fn of(octet: u8) -> Option<Self> {
        Self::ALL.into_iter().find(|tag| tag.octet() == octet)
    }

    /// The tag's octet.
    pub const fn octet(self) -> u8 {
        self as u8
    }
}

impl Carrier<'_> {
    /// The digits of the entry's first code, if it has one.
    pub fn code(&self) -> Option<&[u8]> {
        self.dependents.iter().find_map(|d| match &d.contents {
            DependentContents::Code(digits) => Some(&digits[..]),
            DependentContents::PoiStage(_) | DependentContents::PoiArea(_) => None,
        })
    }
}

impl Dependent<'_> {
    /// The tag.
    pub const fn tag(&self) -> DependentTag {
        match self.contents {
            DependentContents::PoiStage(_) => DependentTag::PoiStage,
            DependentContents::PoiArea(_) => DependentTag::PoiArea,
            DependentContents::Code(_) => DependentTag::Code,
        }
    }
}

/// A row of the table that the static library fills.
#[derive(Clone, Copy)]
struct Row {
    level: u8,
    tag: u8,
    offset: usize,
    len: usize,
    digits: usize,
}

impl Row {
    fn of(octets: &[u8]) -> Option<Self> {
        let &[level, tag, a, b, c, d, e, f] = octets else {
            return None;
        };
        let number = |low, high| usize::from(u16::from_le_bytes([low, high]));
        Some(Row {
            level,
            tag,
            offset: number(a, b),
            len: number(c, d),
            digits: number(e, f),
        })
    }
}

/// Writes the digits of a row, which is told by its index, into the front of octets,
/// and gives their count; none if it is refused.
type Digits<'f> = &'f dyn Fn(usize, &mut [u8]) -> Option<usize>;

impl<'m> Carriers<'m> {
    /// That of the rows that the static library gives: the direction's, then those of
    /// the entries, each dependent one behind its carrier entry. `digits` asks it for
    /// the digits of a row. None if a row has another level or tag than the static
    /// library gives, or what it tells is not there, so that nothing is guessed.
    pub(crate) fn of(
        message: &'m [u8],
        table: &[u8],
        digits: impl Fn(usize, &mut [u8]) -> Option<usize>,
    ) -> Option<Self> {
        let mut rows = table.chunks(CARRIER_ROW_LEN).map(Row::of).enumerate();
        let (_, first) = rows.next()?;
        let first = first.filter(|row| row.level == DIRECTION_LEVEL)?;
        let mut carriers = Carriers {
            direction: Direction::of(first.tag)?,
            offset: first.offset,
            entries: Vec::new(),
        };
        for (index, row) in rows {
            carriers.push(message, index, row?, &digits)?;
        }
        Some(carriers)
    }

    /// Adds the entry of a row.
    fn push(&mut self, message: &'m [u8], index: usize, row: Row, digits: Digits) -> Option<()> {
        match row.level {
            CARRIER_LEVEL => self.entries.push(Carrier {
                tag: CarrierTag::of(row.tag)?,
                offset: row.offset,
                len: row.len,
                dependents: Vec::new(),
            }),
            DEPENDENT_LEVEL => {
                let carrier = self.entries.last_mut()?;
                let dependent = Dependent::of(message, index, row, digits)?;
                carrier.dependents.push(dependent);
            }
            _ => return None,
        }
        Some(())
    }
}

impl<'m> Dependent<'m> {
    fn of(message: &'m [u8], index: usize, row: Row, digits: Digits) -> Option<Self> {
        let start = row.offset + ENTRY_HEAD;
        let carried = message.get(start..start + row.len)?;
        let contents = match DependentTag::of(row.tag)? {
            DependentTag::PoiStage => DependentContents::PoiStage(carried),
            DependentTag::PoiArea => DependentContents::PoiArea(carried),
            DependentTag::Code => DependentContents::Code(code(index, row.digits, digits)?),
        };
        Some(Dependent {
            offset: row.offset,
            contents,
        })
    }
}

/// The digits of a row, if there are as many as the row tells.
fn code(index: usize, count: usize, digits: Digits) -> Option<Vec<u8>> {
    let mut octets = [0; CARRIER_DIGITS_MAX];
    let given = digits(index, &mut octets).filter(|&given| given == count)?;
    octets.get(..given).map(<[u8]>::to_vec)
}

#[cfg(test)]
mod tests {
    use super::*;

    #[test]
    fn tags_and_directions_by_their_octets() {
        let directions: Vec<Direction> = (0..=255).filter_map(Direction::of).collect();
        assert_eq!(directions, Direction::ALL);
        let tags: Vec<CarrierTag> = (0..=255).filter_map(CarrierTag::of).collect();
        assert_eq!(tags, CarrierTag::ALL);
        let tags: Vec<DependentTag> = (0..=255).filter_map(DependentTag::of).collect();
        assert_eq!(tags, DependentTag::ALL);
    }

    /// Two carrier entries: one with a code, two carried octets and a code without
    /// digits, and one that is empty.
    const MESSAGE: [u8; 17] = [
        0xCC, 0x0F, 0x02, 0xFB, 0x0A, 0xFE, 0x02, 0x80, 0x07, 0xFC, 0x01, 0xAA, 0xFE, 0x01, 0x00,
        0xF8, 0x00,
    ];
    const TABLE: [[u8; 8]; 6] = [
        [0, 0x02, 2, 0, 0, 0, 0, 0],
        [1, 0xFB, 3, 0, 10, 0, 0, 0],
        [2, 0xFE, 5, 0, 2, 0, 1, 0],
        [2, 0xFC, 9, 0, 1, 0, 0, 0],
        [2, 0xFE, 12, 0, 1, 0, 0, 0],
        [1, 0xF8, 15, 0, 0, 0, 0, 0],
    ];

    /// What the static library gives of the codes of the message.
    fn digits(row: usize, out: &mut [u8]) -> Option<usize> {
        match row {
            2 => {
                out[0] = 7;
                Some(1)
            }
            4 => Some(0),
            _ => None,
        }
    }

    fn of(table: &[[u8; 8]]) -> Option<Carriers<'static>> {
        Carriers::of(&MESSAGE, &table.concat(), digits)
    }

    #[test]
    fn direction_and_entries_of_rows() {
        let carriers = of(&TABLE).expect("rows as they are given");
        assert_eq!(carriers.direction, Direction::Backward);
        assert_eq!(carriers.offset, 2);
        let [first, second] = &carriers.entries[..] else {
            panic!("two carrier entries: {carriers:?}");
        };
        assert_eq!(first.tag, CarrierTag::Originating);
        assert_eq!((first.offset, first.len), (3, 10));
        assert_eq!(second.tag, CarrierTag::ScpBefore);
        assert_eq!((second.offset, second.len), (15, 0));
        let dependent = |offset, contents| Dependent { offset, contents };
        let expected = [
            dependent(5, DependentContents::Code(vec![7])),
            dependent(9, DependentContents::PoiStage(&[0xAA])),
            dependent(12, DependentContents::Code(vec![])),
        ];
        assert_eq!(first.dependents, expected);
        let tags: Vec<u8> = first.dependents.iter().map(|d| d.tag().octet()).collect();
        assert_eq!(tags, [0xFE, 0xFC, 0xFE]);
        assert_eq!(first.code(), Some(&[7][..]));
        assert_eq!((second.code(), second.dependents.len()), (None, 0));
    }

    /// Nothing is made up of rows that the static library does not give.
    #[test]
    fn nothing_of_other_rows() {
        assert_eq!(of(&[]), None);
        assert_eq!(of(&TABLE[1..]), None);
        for (row, at, octet) in [
            (0, 0, 1),
            (0, 1, 4),
            (1, 0, 0),
            (1, 0, 2),
            (1, 0, 3),
            (1, 1, 0xF7),
            (2, 1, 0xFB),
            (2, 6, 2),
            (3, 0, 0),
            (3, 1, 0xFE),
            (3, 4, 9),
            (3, 3, 1),
        ] {
            let mut table = TABLE;
            table[row][at] = octet;
            assert_eq!(of(&table), None, "{row} {at} {octet}");
        }
        let cut = TABLE.concat();
        assert_eq!(Carriers::of(&MESSAGE, &cut[..47], digits), None);
        assert_eq!(Carriers::of(&MESSAGE, &cut, |_, _| None), None);
        assert_eq!(Carriers::of(&MESSAGE, &cut, |_, _| Some(495)), None);
    }
}
