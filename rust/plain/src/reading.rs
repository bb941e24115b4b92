//! Reading: one walk over a message, left to right, that checks everything.

use crate::common::{self, Seen, END_MARK, MESSAGE_LIMIT, TRANSFER_DATA};
use crate::digits::DIALLED;
use crate::fault::Fault;
use crate::number;
use crate::record::{Common, Record, Transfer};
use crate::refusal::Refusal;
use crate::transfer::{self, digit_count, Held, Names, TRANSFER_LIMIT};
use std::ops::Range;

/// A parameter that the walk has checked, inside the walked message.
#[derive(Clone, Copy)]
pub(crate) struct Parameter<'m> {
    /// The offset of the header.
    pub(crate) offset: usize,
    /// The header.
    pub(crate) header: u8,
    /// The offset of the contents.
    pub(crate) start: usize,
    /// The contents.
    pub(crate) contents: &'m [u8],
}

impl Parameter<'_> {
    /// Where the contents stand.
    pub(crate) fn contents_range(&self) -> Range<usize> {
        self.start..self.start + self.contents.len()
    }

    /// Where the whole parameter stands.
    pub(crate) fn range(&self) -> Range<usize> {
        self.offset..self.start + self.contents.len()
    }
}

/// What is told of a message while it is walked. The message may still turn
/// out to be refused.
pub(crate) trait Visitor {
    /// A common parameter; C5 before its transfer parameters are checked.
    fn common(&mut self, parameter: Parameter<'_>);
    /// A transfer parameter.
    fn transfer(&mut self, parameter: Parameter<'_>);
    /// The end mark.
    fn end(&mut self, _offset: usize) {}
}

/// Walks the message in the reader's order and tells `visitor` what stands in it.
pub(crate) fn walk<V: Visitor>(message: &[u8], visitor: &mut V) -> Result<(), Refusal> {
    if message.is_empty() || message.len() > MESSAGE_LIMIT {
        return Err(Refusal::new(Refusal::LIMITS, 0));
    }
    let mut seen = Seen::default();
    let mut offset = 0;
    loop {
        match message.get(offset) {
            None => return Err(Refusal::new(Refusal::MESSAGE_CUT, offset)),
            Some(&END_MARK) => break,
            Some(&header) => offset = walk_common(message, offset, header, &mut seen, visitor)?,
        }
    }
    if !seen.complete() {
        return Err(Refusal::new(Refusal::MISSING, offset));
    }
    if offset + 1 < message.len() {
        return Err(Refusal::new(Refusal::AFTER_END, offset + 1));
    }
    visitor.end(offset);
    Ok(())
}

/// Walks the common parameter at `offset`; gives the offset behind it.
fn walk_common<V: Visitor>(
    message: &[u8],
    offset: usize,
    header: u8,
    seen: &mut Seen,
    visitor: &mut V,
) -> Result<usize, Refusal> {
    let refusal = |number| Refusal::new(number, offset);
    if !common::is_listed(header) {
        return Err(refusal(Refusal::UNLISTED));
    }
    if !seen.enter(header) {
        return Err(refusal(Refusal::COMMON_REPEATED));
    }
    let range = common::contents_at(message, offset).ok_or(refusal(Refusal::MESSAGE_CUT))?;
    let parameter = Parameter {
        offset,
        header,
        start: range.start,
        contents: &message[range.clone()],
    };
    if header == TRANSFER_DATA {
        visitor.common(parameter);
        walk_transfer_data(parameter, visitor)?;
    } else {
        let (value, _) = common::held_in(header, parameter.contents);
        if !common::allows(header, value) {
            return Err(refusal(Refusal::NOT_ALLOWED));
        }
        visitor.common(parameter);
    }
    Ok(range.end)
}

/// Walks the transfer parameters inside `data`.
fn walk_transfer_data<V: Visitor>(data: Parameter<'_>, visitor: &mut V) -> Result<(), Refusal> {
    let mut names = Names::default();
    let mut rest = data.contents;
    let mut offset = data.start;
    while let Some(&header) = rest.first() {
        let contents = check_transfer(rest, &mut names).map_err(|fault| fault.placed(offset))?;
        let end = contents.end;
        visitor.transfer(Parameter {
            offset,
            header,
            start: offset + contents.start,
            contents: &rest[contents],
        });
        rest = &rest[end..];
        offset += end;
    }
    Ok(())
}

/// Tries 8 to 13, 18 and 19 on the transfer parameter that begins `octets`;
/// gives where its contents stand.
fn check_transfer(octets: &[u8], names: &mut Names) -> Result<Range<usize>, Fault> {
    let header = octets[0];
    let layout = transfer::check_header(header).map_err(Fault::Header)?;
    names.enter(header).map_err(Fault::Header)?;
    let contents = transfer::contents_of(octets).ok_or(Fault::Header(Refusal::CONTENTS_CUT))?;
    transfer::check_contents(layout, &octets[contents.clone()])
        .map_err(|fault| fault.behind(contents.start))?;
    Ok(contents)
}

/// A visitor that wants to know nothing.
struct Nothing;

impl Visitor for Nothing {
    fn common(&mut self, _: Parameter<'_>) {}
    fn transfer(&mut self, _: Parameter<'_>) {}
}

/// Whether reading accepts the message, or its refusal: 1 to 13, 18 or 19.
pub fn verdict(message: &[u8]) -> Result<(), Refusal> {
    walk(message, &mut Nothing)
}

impl Visitor for Record {
    fn common(&mut self, parameter: Parameter<'_>) {
        self.common.push(hold_common(parameter));
    }

    fn transfer(&mut self, parameter: Parameter<'_>) {
        let start = self.values.len();
        let held = hold_transfer(parameter, &mut self.values);
        self.enter(held, start);
    }
}

/// The record of a message, or reading's refusal: 1 to 13, 18 or 19.
///
/// Fields that a parameter does not have are 0 in it.
pub fn read(message: &[u8]) -> Result<Record, Refusal> {
    let mut record = Record {
        common: Vec::with_capacity(common::COMMON_LIMIT),
        values: Vec::with_capacity(2 * message.len()),
    };
    walk(message, &mut record)?;
    Ok(record)
}

/// A common parameter as the record holds it; C5 without its parameters yet.
fn hold_common(parameter: Parameter<'_>) -> Common {
    let (value, more_data) = common::held_in(parameter.header, parameter.contents);
    let expected = match parameter.header {
        TRANSFER_DATA => TRANSFER_LIMIT.min(parameter.contents.len() / 2),
        _ => 0,
    };
    Common {
        header: parameter.header,
        value,
        more_data,
        transfers: Vec::with_capacity(expected),
    }
}

/// A transfer parameter as the record holds it; its values are appended to
/// `values`.
fn hold_transfer(parameter: Parameter<'_>, values: &mut Vec<u8>) -> Transfer {
    let contents = parameter.contents;
    let mut held = Transfer {
        header: parameter.header,
        ..Transfer::default()
    };
    match Held::of(parameter.header, contents) {
        Held::Octets => values.extend_from_slice(contents),
        Held::Digits => hold_digits(contents, &mut held, values),
        Held::Number => number::take(contents, &mut held, values),
        Held::Generic => {
            values.push(contents[0]);
            number::take(&contents[1..], &mut held, values);
        }
    }
    held
}

/// Takes the marks of checked contents under PLI 10, and appends the digits to
/// `values`.
fn hold_digits(contents: &[u8], held: &mut Transfer, values: &mut Vec<u8>) {
    let upper = contents[0] >> 6;
    match held.header {
        0x90 | 0x95 => held.notification = upper >> 1,
        0x91 => {
            held.notification = upper >> 1;
            held.verification = upper & 1;
        }
        0x98 => held.dialling = upper,
        _ => {}
    }
    DIALLED.decode(&contents[1..], digit_count(contents[0]), values);
}
