//! Finding: where a parameter's contents stand in the caller's message.

use crate::reading::{walk, Parameter, Visitor};
use crate::refusal::Refusal;
use crate::transfer::name_of;
use std::ops::Range;

/// Remembers where the contents of one common parameter stand.
struct CommonSought {
    header: u8,
    found: Option<Range<usize>>,
}

impl Visitor for CommonSought {
    fn common(&mut self, parameter: Parameter<'_>) {
        if parameter.header == self.header {
            self.found = Some(parameter.contents_range());
        }
    }

    fn transfer(&mut self, _: Parameter<'_>) {}
}

/// Remembers where the contents of one transfer parameter stand.
struct TransferSought {
    name: u8,
    /// So many of the name are still passed over.
    before: usize,
    found: Option<Range<usize>>,
}

impl Visitor for TransferSought {
    fn common(&mut self, _: Parameter<'_>) {}

    fn transfer(&mut self, parameter: Parameter<'_>) {
        if name_of(parameter.header) != self.name || self.found.is_some() {
            return;
        }
        match self.before {
            0 => self.found = Some(parameter.contents_range()),
            _ => self.before -= 1,
        }
    }
}

/// Where in `message` the contents of the common parameter `header` stand;
/// those of C5 are the whole transfer data.
///
/// Refused are reading's 1 to 13, 18 and 19, then 16 at 0 if the header is 00,
/// absent or unknown.
pub fn find_common(message: &[u8], header: u8) -> Result<Range<usize>, Refusal> {
    let mut sought = CommonSought {
        header,
        found: None,
    };
    walk(message, &mut sought)?;
    sought.found.ok_or(Refusal::placeless(Refusal::ABSENT))
}

/// Where in `message` the contents of the transfer parameter `name` stand: of
/// `which` of them, counted from 0 in their order.
///
/// Refused are reading's 1 to 13, 18 and 19, then 16 at 0 if there are not so many,
/// if the name is unused or over 63, or if there is no transfer data.
pub fn find_transfer(message: &[u8], name: u8, which: usize) -> Result<Range<usize>, Refusal> {
    let mut sought = TransferSought {
        name,
        before: which,
        found: None,
    };
    walk(message, &mut sought)?;
    sought.found.ok_or(Refusal::placeless(Refusal::ABSENT))
}
