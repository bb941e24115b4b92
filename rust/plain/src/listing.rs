//! Listing: one row for each parameter of a message.

use crate::common::END_MARK;
use crate::reading::{walk, Parameter, Visitor};
use crate::refusal::Refusal;

/// The most rows of a message: 7 common ones, the end mark among them, and 54
/// transfer parameters.
pub const ROW_LIMIT: usize = 61;

/// One parameter's span.
#[derive(Clone, Copy, Debug, Default, PartialEq, Eq)]
pub struct Row {
    /// The offset of the header.
    pub offset: u16,
    /// The header.
    pub header: u8,
    /// The octets of the contents.
    pub len: u16,
}

/// The rows met so far.
struct Rows {
    rows: [Row; ROW_LIMIT],
    count: usize,
}

impl Rows {
    fn new() -> Self {
        Rows {
            rows: [Row::default(); ROW_LIMIT],
            count: 0,
        }
    }

    // A message has at most 272 octets, so an offset or a length fits u16.
    fn push(&mut self, offset: usize, header: u8, len: usize) {
        self.rows[self.count] = Row {
            offset: offset as u16,
            header,
            len: len as u16,
        };
        self.count += 1;
    }

    fn as_slice(&self) -> &[Row] {
        &self.rows[..self.count]
    }
}

impl Visitor for Rows {
    fn common(&mut self, parameter: Parameter<'_>) {
        self.push(parameter.offset, parameter.header, parameter.contents.len());
    }

    fn transfer(&mut self, parameter: Parameter<'_>) {
        self.push(parameter.offset, parameter.header, parameter.contents.len());
    }

    fn end(&mut self, offset: usize) {
        self.push(offset, END_MARK, 0);
    }
}

/// The rows of all parameters in order of offset, the end mark included, or
/// reading's refusal: 1 to 13, 18 or 19.
pub fn rows(message: &[u8]) -> Result<Vec<Row>, Refusal> {
    let mut rows = Rows::new();
    walk(message, &mut rows)?;
    Ok(rows.as_slice().to_vec())
}

/// Puts the rows of all parameters into the front of `table` and gives their
/// count. Rows past the last stay, and all where it is refused.
///
/// Refused are reading's 1 to 13, 18 and 19, then 15 at 0 if the table is too
/// short.
pub fn spans(message: &[u8], table: &mut [Row]) -> Result<usize, Refusal> {
    let mut rows = Rows::new();
    walk(message, &mut rows)?;
    let room = table
        .get_mut(..rows.count)
        .ok_or(Refusal::placeless(Refusal::ROOM_SHORT))?;
    room.copy_from_slice(rows.as_slice());
    Ok(rows.count)
}
