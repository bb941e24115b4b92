//! The carriers, CC: which way their route is told, and entries on carriers, each
//! of which holds entries of its own.

use crate::digits::{check_decimal, NUMBER};
use crate::fault::{formed, Fault};
use crate::finding::find_transfer;
use crate::refusal::Refusal;
use crate::transfer::{name_of, CARRIERS};
use std::ops::RangeInclusive;

/// The most rows of one CC: the direction's, and one for each entry of two octets
/// in what a message has room for behind it.
pub const CARRIER_ROW_LIMIT: usize = 1 + (255 - 2 - 1) / 2;

/// The highest direction: two bits.
const DIRECTION_LIMIT: u8 = 3;
/// The tags of carrier entries.
const CARRIER_TAGS: RangeInclusive<u8> = 0xF8..=0xFE;
/// The tags of the dependent entries in them.
const DEPENDENT_TAGS: RangeInclusive<u8> = 0xFC..=0xFE;
/// The tag of a dependent entry that is a carrier's code.
const CODE: u8 = 0xFE;
/// First octet of a code: the count of digits is odd.
const ODD: u8 = 0x80;

/// The level of the direction's row.
const DIRECTION_LEVEL: u8 = 0;
/// The level of a carrier entry.
const CARRIER_LEVEL: u8 = 1;
/// The level of a dependent entry.
const DEPENDENT_LEVEL: u8 = 2;

/// A row of an opened CC.
#[derive(Clone, Copy, Debug, Default, PartialEq, Eq)]
pub struct CarrierRow {
    /// 0 for the direction, 1 for a carrier entry, 2 for a dependent entry.
    pub level: u8,
    /// The tag; of the direction its value.
    pub tag: u8,
    /// The offset of the tag in the message; of the direction that of its octet.
    pub offset: u16,
    /// How many octets the entry holds behind its length octet; 0 of the direction.
    pub len: u16,
    /// How many digits a code has; 0 of all else.
    pub digits: u16,
}

/// What stands in the contents of CC: the direction or an entry.
#[derive(Clone, Copy)]
struct Part<'c> {
    level: u8,
    /// The tag, or the direction.
    tag: u8,
    /// Its offset in the contents.
    offset: usize,
    /// What an entry holds.
    held: &'c [u8],
}

impl<'c> Part<'c> {
    fn is_code(self) -> bool {
        self.level == DEPENDENT_LEVEL && self.tag == CODE
    }

    /// The first octet of a code, and the octets of its digits; 12 if it has none,
    /// or if a zero bit is set, or if an odd count has no octet for its digits.
    fn code(self) -> Result<(bool, &'c [u8]), Fault> {
        let (&first, digits) = self.held.split_first().ok_or(Fault::Form)?;
        formed(first & !ODD == 0)?;
        let odd = first == ODD;
        formed(!(odd && digits.is_empty()))?;
        Ok((odd, digits))
    }

    /// 12 if it is a code of bad form.
    fn check_form(self) -> Result<(), Fault> {
        match self.is_code() {
            true => self.code().map(|_| ()),
            false => Ok(()),
        }
    }

    /// 13 if it is a code with a bad digit or filler.
    fn check_digits(self) -> Result<(), Fault> {
        if !self.is_code() {
            return Ok(());
        }
        let (odd, digits) = self.code()?;
        // They stand behind the tag, the length octet and the first octet.
        check_decimal(digits, odd).map_err(|fault| fault.behind(self.offset + 3))
    }

    /// How many digits it has, if it is a code.
    fn digit_count(self) -> Result<usize, Fault> {
        if !self.is_code() {
            return Ok(0);
        }
        let (odd, digits) = self.code()?;
        Ok(2 * digits.len() - usize::from(odd))
    }
}

/// Tells `each` of the entries in `octets`, whose first octet stands at `start` of
/// the contents: each a tag, a length octet and as many octets. 12 if the tag of
/// one is another, or if its octets are not all there.
fn walk_entries<'c>(
    level: u8,
    octets: &'c [u8],
    start: usize,
    tags: &RangeInclusive<u8>,
    mut each: impl FnMut(Part<'c>) -> Result<(), Fault>,
) -> Result<(), Fault> {
    let mut rest = octets;
    while let Some((&tag, behind)) = rest.split_first() {
        formed(tags.contains(&tag))?;
        let (&len, behind) = behind.split_first().ok_or(Fault::Form)?;
        let held = behind.get(..len.into()).ok_or(Fault::Form)?;
        let offset = start + octets.len() - rest.len();
        each(Part {
            level,
            tag,
            offset,
            held,
        })?;
        rest = &behind[held.len()..];
    }
    Ok(())
}

/// Tells `each` of the direction, then of each carrier entry, and behind it of each
/// of its dependent entries. 12 where they do not follow one another to the end.
fn walk<'c>(
    contents: &'c [u8],
    mut each: impl FnMut(Part<'c>) -> Result<(), Fault>,
) -> Result<(), Fault> {
    let (&direction, entries) = contents.split_first().ok_or(Fault::Form)?;
    formed(direction <= DIRECTION_LIMIT)?;
    each(Part {
        level: DIRECTION_LEVEL,
        tag: direction,
        offset: 0,
        held: &[],
    })?;
    walk_entries(CARRIER_LEVEL, entries, 1, &CARRIER_TAGS, |carrier| {
        each(carrier)?;
        let start = carrier.offset + 2;
        walk_entries(
            DEPENDENT_LEVEL,
            carrier.held,
            start,
            &DEPENDENT_TAGS,
            &mut each,
        )
    })
}

/// Tries 12 on all of the contents, then 13.
pub(crate) fn check(contents: &[u8]) -> Result<(), Fault> {
    walk(contents, Part::check_form)?;
    walk(contents, Part::check_digits)
}

/// The rows of a CC of `message`, `which` of them, counted from 0 in their order:
/// the direction's, then each carrier entry's, and right behind it those of its
/// dependent entries.
///
/// Refused are reading's 1 to 13, 18 and 19, then 16 at 0 if there are not so many.
pub fn carriers(message: &[u8], which: usize) -> Result<Vec<CarrierRow>, Refusal> {
    let contents = find_transfer(message, name_of(CARRIERS), which)?;
    let start = contents.start;
    let mut rows = Vec::new();
    // Reading has gone over them and found nothing wrong.
    walk(&message[contents], |part| {
        rows.push(CarrierRow {
            level: part.level,
            tag: part.tag,
            offset: (start + part.offset) as u16,
            len: part.held.len() as u16,
            digits: part.digit_count()? as u16,
        });
        Ok(())
    })
    .map_err(|fault| Refusal::placeless(fault.into()))?;
    Ok(rows)
}

/// Puts the rows of a CC of `message` into the front of `table` and gives their
/// count. Rows past the last stay, and all where it is refused.
///
/// Refused is what [`carriers`] refuses, then 15 at 0 if the table is too short.
pub fn carrier_spans(
    message: &[u8],
    which: usize,
    table: &mut [CarrierRow],
) -> Result<usize, Refusal> {
    let rows = carriers(message, which)?;
    table
        .get_mut(..rows.len())
        .ok_or(Refusal::placeless(Refusal::ROOM_SHORT))?
        .copy_from_slice(&rows);
    Ok(rows.len())
}

/// The digits, 0 to 9, of the code in a row of a CC of `message`; CCs and rows are
/// counted from 0, these as [`carriers`] gives them.
///
/// Refused is what [`carriers`] refuses, and as 16 at 0 a row that there is not, or
/// that is no code's.
pub fn carrier_digits(message: &[u8], which: usize, row: usize) -> Result<Vec<u8>, Refusal> {
    let rows = carriers(message, which)?;
    let is_code = |row: &&CarrierRow| (row.level, row.tag) == (DEPENDENT_LEVEL, CODE);
    let row = rows.get(row).filter(is_code);
    let row = row.ok_or(Refusal::placeless(Refusal::ABSENT))?;
    // Behind the tag, the length octet and the first octet.
    let tag = usize::from(row.offset);
    let octets = &message[tag + 3..tag + 2 + usize::from(row.len)];
    let mut digits = Vec::new();
    NUMBER.decode(octets, row.digits.into(), &mut digits);
    Ok(digits)
}

#[cfg(test)]
mod tests {
    use super::*;

    const FORM: Result<(), Fault> = Err(Fault::Form);

    /// A bad digit in the octet at this offset of the contents.
    const fn bad(at: usize) -> Result<(), Fault> {
        Err(Fault::Digit { at })
    }

    /// An entry with what it holds.
    fn entry(tag: u8, held: &[u8]) -> Vec<u8> {
        [&[tag, held.len() as u8], held].concat()
    }

    /// Contents of one code.
    fn code(held: &[u8]) -> Vec<u8> {
        [vec![0x01], entry(0xFA, &entry(0xFE, held))].concat()
    }

    /// The octets to which the answer is this one, among all in one place.
    fn answered(contents: &[u8], at: usize, answer: Result<(), Fault>) -> Vec<u8> {
        let with = |octet: &u8| {
            let mut contents = contents.to_vec();
            contents[at] = *octet;
            check(&contents) == answer
        };
        (0..=255).filter(with).collect()
    }

    #[test]
    fn direction_alone() {
        assert_eq!(check(&[]), FORM);
        assert_eq!(answered(&[0], 0, Ok(())), [0, 1, 2, 3]);
        assert_eq!(answered(&[0], 0, FORM).len(), 252);
    }

    #[test]
    fn tags() {
        let carrier = [0x00, 0xF8, 0x00];
        let tags: Vec<u8> = (0xF8..=0xFE).collect();
        assert_eq!(answered(&carrier, 1, Ok(())), tags);
        assert_eq!(answered(&carrier, 1, FORM).len(), 249);
        let dependent = [0x00, 0xF8, 0x03, 0xFC, 0x01, 0x00];
        assert_eq!(answered(&dependent, 3, Ok(())), [0xFC, 0xFD, 0xFE]);
        assert_eq!(answered(&dependent, 3, FORM).len(), 253);
    }

    /// Each length octet is right with one value alone. Cut behind its first carrier
    /// entry, what is left is sound.
    #[test]
    fn lengths_close() {
        let contents = [0x00, 0xFB, 0x04, 0xFC, 0x02, 0x05, 0x06, 0xFE, 0x00];
        assert_eq!(check(&contents), Ok(()));
        assert_eq!(answered(&contents, 2, Ok(())), [0x04]);
        assert_eq!(answered(&contents, 4, Ok(())), [0x02]);
        assert_eq!(answered(&contents, 8, Ok(())), [0x00]);
        for len in 2..contents.len() {
            let expected = if len == 7 { Ok(()) } else { FORM };
            assert_eq!(check(&contents[..len]), expected, "{len}");
        }
        assert_eq!(check(&[&contents[..], &[0xFE]].concat()), FORM);
    }

    #[test]
    fn empty_and_repeated_entries() {
        let empty = [entry(0xFC, &[]), entry(0xFD, &[])].concat();
        let carriers = [entry(0xF8, &[]), entry(0xF8, &empty), entry(0xF8, &[])];
        let contents = [vec![0x03], carriers.concat()].concat();
        assert_eq!(check(&contents), Ok(()));
        assert_eq!(check(&code(&[])), FORM);
        let again = [entry(0xFE, &[0x00]), entry(0xFE, &[0x00])].concat();
        assert_eq!(check(&[vec![0x00], entry(0xFE, &again)].concat()), Ok(()));
    }

    #[test]
    fn codes() {
        assert_eq!(answered(&code(&[0x00]), 5, Ok(())), [0x00]);
        assert_eq!(answered(&code(&[0x00]), 5, FORM).len(), 255);
        assert_eq!(answered(&code(&[0x00, 0x00]), 5, Ok(())), [0x00, 0x80]);
        assert_eq!(answered(&code(&[0x00, 0x00]), 5, FORM).len(), 254);
        let is_pair = |octet: &u8| octet & 0x0F <= 9 && octet >> 4 <= 9;
        let pairs: Vec<u8> = (0..=255).filter(is_pair).collect();
        assert_eq!(answered(&code(&[0x00, 0x00, 0x00]), 6, Ok(())), pairs);
        assert_eq!(answered(&code(&[0x80, 0x00, 0x00]), 6, Ok(())), pairs);
        let ones: Vec<u8> = (0..=9).collect();
        assert_eq!(answered(&code(&[0x80, 0x00, 0x00]), 7, Ok(())), ones);
        assert_eq!(answered(&code(&[0x80, 0x00, 0x00]), 7, bad(7)).len(), 246);
    }

    /// A carrier entry with the tag of a code is none, and what FC and FD hold is
    /// not looked at.
    #[test]
    fn carried() {
        for tag in [0xFC, 0xFD] {
            let contents = [vec![0x00], entry(0xFE, &entry(tag, &[0x7F, 0xAA]))].concat();
            assert_eq!(check(&contents), Ok(()));
        }
    }

    /// 12 anywhere comes before any digit; of digits the first bad one counts.
    #[test]
    fn the_first_fault_counts() {
        let spare = entry(0xFA, &entry(0xFE, &[0x00, 0xAA]));
        let filled = entry(0xFA, &entry(0xFE, &[0x80, 0x10]));
        let cut = vec![0xFA, 0x01];
        let marked = entry(0xFA, &entry(0xFE, &[0x01, 0x00]));
        let with = |entries: &[&Vec<u8>]| {
            let behind: Vec<u8> = entries.iter().copied().flatten().copied().collect();
            check(&[&[0x02], &behind[..]].concat())
        };
        assert_eq!(with(&[&spare]), bad(6));
        assert_eq!(with(&[&filled]), bad(6));
        assert_eq!(with(&[&spare, &filled]), bad(6));
        assert_eq!(with(&[&filled, &spare]), bad(6));
        assert_eq!(with(&[&spare, &cut]), FORM);
        assert_eq!(with(&[&spare, &marked]), FORM);
        assert_eq!(with(&[&marked, &spare]), FORM);
        let sound = entry(0xFA, &entry(0xFE, &[0x80, 0x01]));
        assert_eq!(with(&[&sound, &filled]), bad(12));
        let two = entry(
            0xFA,
            &[entry(0xFE, &[0x00]), entry(0xFE, &[0x00, 0x0A])].concat(),
        );
        assert_eq!(with(&[&sound, &two]), bad(15));
    }

    #[test]
    fn the_most_rows() {
        let mut rows = 0;
        let contents = [vec![0x00], [0xFE, 0x00].repeat(126)].concat();
        let counted = walk(&contents, |_| {
            rows += 1;
            Ok(())
        });
        assert_eq!((counted, contents.len()), (Ok(()), 253));
        assert_eq!(rows, CARRIER_ROW_LIMIT);
    }
}
