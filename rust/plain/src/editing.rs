//! Editing: a transfer parameter replaced, appended or removed in place.

use crate::common::TRANSFER_DATA;
use crate::reading::{walk, Parameter, Visitor};
use crate::refusal::Refusal;
use crate::transfer::{self, limit_of, name_of, Layout, DATA_LIMIT};
use std::ops::Range;

/// Where the transfer data stands, and one of its parameters of a name.
struct Site {
    name: Option<u8>,
    /// Which of them, counted from 0.
    which: usize,
    /// How many of them there are.
    count: usize,
    data: Option<Range<usize>>,
    parameter: Option<Range<usize>>,
}

impl Visitor for Site {
    fn common(&mut self, parameter: Parameter<'_>) {
        if parameter.header == TRANSFER_DATA {
            self.data = Some(parameter.contents_range());
        }
    }

    fn transfer(&mut self, parameter: Parameter<'_>) {
        if Some(name_of(parameter.header)) == self.name {
            if self.count == self.which {
                self.parameter = Some(parameter.range());
            }
            self.count += 1;
        }
    }
}

/// Reads the message in the first `n` octets; gives where its transfer data
/// stands, and what was found of the parameters `name` in it. Refused are 15, 1 to
/// 13, 18 and 19, then 16.
fn survey(
    buffer: &[u8],
    n: usize,
    name: Option<u8>,
    which: usize,
) -> Result<(Range<usize>, Site), Refusal> {
    let message = buffer
        .get(..n)
        .ok_or(Refusal::placeless(Refusal::ROOM_SHORT))?;
    let mut site = Site {
        name,
        which,
        count: 0,
        data: None,
        parameter: None,
    };
    walk(message, &mut site)?;
    let data = site.data.take();
    let data = data.ok_or(Refusal::placeless(Refusal::ABSENT))?;
    Ok((data, site))
}

/// 11 if the new parameter is empty, then 8 and 9.
fn check_new_header(new: &[u8]) -> Result<Layout, Refusal> {
    let header = new.first().ok_or(Refusal::CONTENTS_CUT);
    header
        .and_then(|&header| transfer::check_header(header))
        .map_err(Refusal::placeless)
}

/// 11 if the new octets are too few or left over, then what is wrong with the new
/// contents (12, 13, 18 or 19).
fn check_new_contents(layout: Layout, new: &[u8]) -> Result<(), Refusal> {
    let check = match transfer::contents_of(new) {
        Some(contents) if contents.end == new.len() => {
            transfer::check_contents(layout, &new[contents]).map_err(u8::from)
        }
        _ => Err(Refusal::CONTENTS_CUT),
    };
    check.map_err(Refusal::placeless)
}

/// Puts `new` where `old` stands inside the transfer data `data` of the message
/// in the first `n` octets; gives the message's new length. Refused are 14,
/// then 15.
fn splice(
    buffer: &mut [u8],
    n: usize,
    data: Range<usize>,
    old: Range<usize>,
    new: &[u8],
) -> Result<usize, Refusal> {
    let data_len = data.len() - old.len() + new.len();
    if data_len > DATA_LIMIT {
        return Err(Refusal::placeless(Refusal::DATA_OVER));
    }
    let new_n = n - old.len() + new.len();
    if new_n > buffer.len() {
        return Err(Refusal::placeless(Refusal::ROOM_SHORT));
    }
    let new_end = old.start + new.len();
    buffer.copy_within(old.end..n, new_end);
    buffer[old.start..new_end].copy_from_slice(new);
    buffer[data.start - 1] = data_len as u8;
    if new_n < n {
        buffer[new_n..n].fill(0);
    }
    Ok(new_n)
}

/// Replaces a transfer parameter of `new`'s own name, `which` of them, counted from
/// 0 in their order, by `new`, in the message in the first `n` octets of `buffer`;
/// gives the message's new length.
///
/// If the message shrinks, the octets from its new end to the old become 0.
/// The rest of the buffer stays, and all of it where it is refused.
///
/// Refused are 15 if `n` is beyond the buffer; reading's 1 to 13, 18 and 19
/// with their places; then all at 0: 16 without transfer data; 11 if `new` is
/// empty; 8; 9; 16 if there are not so many of the name; 11 if octets of `new` are
/// too few or left over; what is wrong with the new contents (12, 13, 18 or 19); 14;
/// 15.
pub fn replace(buffer: &mut [u8], n: usize, new: &[u8], which: usize) -> Result<usize, Refusal> {
    let name = new.first().map(|&header| name_of(header));
    let (data, found) = survey(buffer, n, name, which)?;
    let layout = check_new_header(new)?;
    let old = found.parameter;
    let old = old.ok_or(Refusal::placeless(Refusal::ABSENT))?;
    check_new_contents(layout, new)?;
    splice(buffer, n, data, old, new)
}

/// Appends the transfer parameter `new` as the last of the transfer data, in
/// the message in the first `n` octets of `buffer`; gives the message's new
/// length.
///
/// Octets past the message's new end stay, and all where it is refused.
///
/// Refused is what [`replace`] refuses, but 10 if the name is present, or CC three
/// times, where that has 16 if there are not so many of it.
pub fn append(buffer: &mut [u8], n: usize, new: &[u8]) -> Result<usize, Refusal> {
    let name = new.first().map(|&header| name_of(header));
    let (data, present) = survey(buffer, n, name, 0)?;
    let layout = check_new_header(new)?;
    if present.count >= limit_of(name_of(new[0])) {
        return Err(Refusal::placeless(Refusal::NAME_REPEATED));
    }
    check_new_contents(layout, new)?;
    let end = data.end;
    splice(buffer, n, data, end..end, new)
}

/// Removes the transfer parameter `name`, `which` of them, counted from 0 in their
/// order, in the message in the first `n` octets of `buffer`; gives the message's
/// new length.
///
/// The octets from the message's new end to the old become 0. The rest of the
/// buffer stays, and all of it where it is refused.
///
/// Refused are 15 if `n` is beyond the buffer; reading's 1 to 13, 18 and 19
/// with their places; then 16 at 0 without transfer data, if there are not so many
/// of the name, or if it is unused or over 63.
pub fn remove(buffer: &mut [u8], n: usize, name: u8, which: usize) -> Result<usize, Refusal> {
    let (data, found) = survey(buffer, n, Some(name), which)?;
    let old = found.parameter;
    let old = old.ok_or(Refusal::placeless(Refusal::ABSENT))?;
    splice(buffer, n, data, old, &[])
}
