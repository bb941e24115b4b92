//! Writing: a record laid out as a message.

use crate::common::{self, Seen, CALL_LIMIT, END_MARK, OWN_CALL, PARTNER_CALL, TRANSFER_DATA};
use crate::digits::{all_digits, octets_for, DIALLED};
use crate::fault::formed;
use crate::number;
use crate::record::{Common, Record, Transfer};
use crate::refusal::Refusal;
use crate::transfer::{self, pli_of, Held, Names, DATA_LIMIT, DIGIT_LIMIT, TRANSFER_LIMIT};

/// Octets enough for what a record within its limits can come to before it is
/// refused: 14 of the other common parameters, 2 of C5, 255 of contents, a
/// header and a length octet for each transfer parameter, the end mark.
const DRAFT_LEN: usize = 14 + 2 + DATA_LIMIT + 2 * TRANSFER_LIMIT + 1;

/// The message as far as it is laid out.
struct Draft {
    octets: [u8; DRAFT_LEN],
    len: usize,
}

impl Draft {
    fn put(&mut self, octets: &[u8]) {
        self.reserve(octets.len()).copy_from_slice(octets);
    }

    /// The next `len` octets, to be filled by the caller.
    fn reserve(&mut self, len: usize) -> &mut [u8] {
        let start = self.len;
        self.len += len;
        &mut self.octets[start..self.len]
    }
}

/// Writes `record` into the front of `room` and gives the message's length.
/// Octets past the written ones stay, and all where it is refused.
///
/// Refused are, in the reader's order and at the places where the headers would
/// stand, 1, 2, 3, 5, 8 to 13, 18 and 19; after the last transfer parameter 14;
/// at the end 6, then 15.
pub fn write(record: &Record, room: &mut [u8]) -> Result<usize, Refusal> {
    write_checked(record, room, |_| Ok(()))
}

/// The same with one more check, between 6 and 15, which is told where the end
/// mark stands.
pub(crate) fn write_checked(
    record: &Record,
    room: &mut [u8],
    check: impl FnOnce(usize) -> Result<(), Refusal>,
) -> Result<usize, Refusal> {
    if !record.within_limits() {
        return Err(Refusal::new(Refusal::LIMITS, 0));
    }
    let mut draft = Draft {
        octets: [0; DRAFT_LEN],
        len: 0,
    };
    let mut seen = Seen::default();
    for parameter in &record.common {
        lay_common(record, parameter, &mut seen, &mut draft)?;
    }
    if !seen.complete() {
        return Err(Refusal::new(Refusal::MISSING, draft.len));
    }
    check(draft.len)?;
    draft.put(&[END_MARK]);
    room.get_mut(..draft.len)
        .ok_or(Refusal::placeless(Refusal::ROOM_SHORT))?
        .copy_from_slice(&draft.octets[..draft.len]);
    Ok(draft.len)
}

/// Lays one common parameter.
fn lay_common(
    record: &Record,
    parameter: &Common,
    seen: &mut Seen,
    draft: &mut Draft,
) -> Result<(), Refusal> {
    let Common { header, value, .. } = *parameter;
    let place = draft.len;
    let refusal = |number| Refusal::new(number, place);
    if !common::is_listed(header) {
        return Err(refusal(Refusal::UNLISTED));
    }
    if !seen.enter(header) {
        return Err(refusal(Refusal::COMMON_REPEATED));
    }
    match header {
        TRANSFER_DATA => lay_transfer_data(record, &parameter.transfers, draft),
        PARTNER_CALL | OWN_CALL => {
            if value > CALL_LIMIT {
                return Err(refusal(Refusal::BAD_FORM));
            }
            let [low, middle, high, _] = value.to_le_bytes();
            draft.put(&[header, low, middle, high]);
            Ok(())
        }
        _ => {
            let octet = held_octet(parameter).map_err(refusal)?;
            draft.put(&[header, octet]);
            Ok(())
        }
    }
}

/// The octet of 01, 04 or 06. Refused are 5, then 12 if the mark of 04 is too
/// large for its bit.
fn held_octet(parameter: &Common) -> Result<u8, u8> {
    if !common::allows(parameter.header, parameter.value) {
        return Err(Refusal::NOT_ALLOWED);
    }
    let (value, more_data) = parameter.own();
    formed(more_data <= 1)?;
    // An allowed value is below 128.
    Ok(more_data << 7 | value as u8)
}

/// Lays C5 with its length and its parameters.
fn lay_transfer_data(
    record: &Record,
    transfers: &[Transfer],
    draft: &mut Draft,
) -> Result<(), Refusal> {
    let place = draft.len;
    draft.put(&[TRANSFER_DATA, 0]);
    let start = draft.len;
    let mut names = Names::default();
    for parameter in transfers {
        let place = draft.len;
        let values = record.values_of(parameter);
        lay_transfer(parameter, values, &mut names, draft)
            .map_err(|number| Refusal::new(number, place))?;
    }
    let len = draft.len - start;
    if len > DATA_LIMIT {
        return Err(Refusal::new(Refusal::DATA_OVER, place));
    }
    draft.octets[place + 1] = len as u8;
    Ok(())
}

/// Tries 8 to 13, 18 and 19 on one transfer parameter and lays it.
fn lay_transfer(
    parameter: &Transfer,
    values: &[u8],
    names: &mut Names,
    draft: &mut Draft,
) -> Result<(), u8> {
    let layout = transfer::check_header(parameter.header)?;
    names.enter(parameter.header)?;
    match Held::of(parameter.header, values) {
        Held::Octets => {
            check_len(parameter.header, values)?;
            transfer::check_contents(layout, values)?;
            lay_octets(parameter.header, values, draft);
            Ok(())
        }
        Held::Digits => lay_digits(parameter, values, draft),
        Held::Number => lay_number(parameter, &[], values, draft),
        Held::Generic => {
            let (first, digits) = values.split_at(1);
            lay_number(parameter, first, digits, draft)
        }
    }
}

/// 11 unless the PLI rule gives contents of this length.
fn check_len(header: u8, contents: &[u8]) -> Result<(), u8> {
    let fits = match (pli_of(header), contents) {
        (0b00, contents) => contents.is_empty(),
        (0b01, contents) => contents.len() == 1,
        (0b10, []) => false,
        (0b10, [count, rest @ ..]) => rest.len() == octets_for(transfer::digit_count(*count)),
        _ => true,
    };
    fits.then_some(()).ok_or(Refusal::CONTENTS_CUT)
}

/// Lays a header, under PLI 11 the length octet, and the contents.
fn lay_octets(header: u8, contents: &[u8], draft: &mut Draft) {
    if pli_of(header) == 0b11 {
        draft.put(&[header, contents.len() as u8]);
    } else {
        draft.put(&[header]);
    }
    draft.put(contents);
}

/// Tries 11 to 13 on a parameter held as marks and digits, and lays it.
fn lay_digits(parameter: &Transfer, digits: &[u8], draft: &mut Draft) -> Result<(), u8> {
    if digits.len() > DIGIT_LIMIT {
        return Err(Refusal::CONTENTS_CUT);
    }
    let upper = upper_bits(parameter).ok_or(Refusal::BAD_FORM)?;
    if !all_digits(digits) {
        return Err(Refusal::SPARE_DIGIT);
    }
    draft.put(&[parameter.header, upper << 6 | digits.len() as u8]);
    DIALLED.encode(digits, draft.reserve(octets_for(digits.len())));
    Ok(())
}

/// The upper bits of the count octet, 7 and 6, or none where a mark is too
/// large for its bits.
fn upper_bits(parameter: &Transfer) -> Option<u8> {
    let mark = |mark: u8| (mark <= 1).then_some(mark);
    match parameter.header {
        0x90 | 0x95 => Some(mark(parameter.notification)? << 1),
        0x91 => Some(mark(parameter.notification)? << 1 | mark(parameter.verification)?),
        0x98 => (parameter.dialling <= 3).then_some(parameter.dialling),
        _ => Some(0),
    }
}

/// Tries 12 and 13 on a parameter held as a number, and lays it: `before`,
/// then the number.
fn lay_number(
    parameter: &Transfer,
    before: &[u8],
    digits: &[u8],
    draft: &mut Draft,
) -> Result<(), u8> {
    formed(number::fits(parameter))?;
    formed(parameter.header != 0xDC || number::calling_formed(parameter, digits))?;
    if !all_digits(digits) {
        return Err(Refusal::SPARE_DIGIT);
    }
    let len = 2 + octets_for(digits.len());
    draft.put(&[parameter.header, (before.len() + len) as u8]);
    draft.put(before);
    number::lay(parameter, digits, draft.reserve(len));
    Ok(())
}
