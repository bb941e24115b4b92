//! The proved codec held against the plain one, over many inputs.
//!
//! The inputs are those of [`trial`], by seed. Each is put to both codecs, and
//! what they answer and what the lent memory holds after the call must be the
//! same, octet by octet.

#![forbid(unsafe_code)]
#![warn(missing_docs)]

use codec::boundary;
use std::fmt;
use trial::{answer, input_at, Coverage, Input, Outcome};

/// Octets that stand before and behind lent memory, and must stay.
const GUARD: [u8; 16] = *b"nothing lent !!!";

/// Puts the input to the proved codec.
///
/// # Panics
///
/// If octets beside the lent memory were written.
pub fn proved(input: &Input) -> Outcome {
    let len = input.lent().len();
    let mut memory = [&GUARD, input.lent(), &GUARD].concat();
    let lent = &mut memory[GUARD.len()..][..len];
    let packed = match input {
        Input::Read { message, .. } => boundary::read(message, lent),
        Input::Write { image, .. } => boundary::write(image, lent),
        Input::Rows { message, .. } => boundary::rows(message, lent),
        Input::FindCommon { message, header } => boundary::find_common(message, *header),
        Input::FindTransfer {
            message,
            name,
            which,
        } => boundary::find_transfer(message, *name, *which),
        Input::Class { header, octet } => boundary::class(*header, *octet),
        Input::Replace { n, new, which, .. } => boundary::replace(lent, (*n).into(), new, *which),
        Input::Append { n, new, .. } => boundary::append(lent, (*n).into(), new),
        Input::Remove { n, name, which, .. } => boundary::remove(lent, (*n).into(), *name, *which),
        Input::Charging { message, .. } => boundary::charging(message, lent),
        Input::Order { message, .. } => boundary::order(message, lent),
        Input::ProfileRead { message, .. } => boundary::profile_read(message, lent),
        Input::ProfileWrite { image, .. } => boundary::profile_write(image, lent),
        Input::AddedClasses { message, .. } => boundary::added_classes(message, lent),
        Input::Carriers { message, which, .. } => boundary::carriers(message, *which, lent),
        Input::CarrierDigits {
            message,
            which,
            row,
            ..
        } => boundary::carrier_digits(message, *which, *row, lent),
    };
    let around = memory.starts_with(&GUARD) && memory.ends_with(&GUARD);
    assert!(around, "written beside the lent memory: {input:02X?}");
    let memory = memory[GUARD.len()..][..len].to_vec();
    Outcome { packed, memory }
}

/// An input to which the two codecs answer differently.
#[derive(Clone, Debug, PartialEq, Eq)]
pub struct Difference {
    /// The seed.
    pub seed: u64,
    /// The index under the seed.
    pub index: u64,
}

impl fmt::Display for Difference {
    fn fmt(&self, f: &mut fmt::Formatter<'_>) -> fmt::Result {
        let Difference { seed, index } = self;
        writeln!(
            f,
            "the codecs differ at seed {seed}, index {index}; to see it:"
        )?;
        write!(
            f,
            "cargo run --release --offline -p compare -- show {seed} {index}"
        )
    }
}

/// Puts the first `count` inputs under `seed` to both codecs, and tells `after`
/// how many are done after each. Gives which answers occurred, or the first
/// difference.
///
/// # Errors
///
/// The first input to which the codecs answer differently.
pub fn compare(seed: u64, count: u64, mut after: impl FnMut(u64)) -> Result<Coverage, Difference> {
    let mut coverage = Coverage::default();
    for index in 0..count {
        let input = input_at(seed, index);
        let outcome = answer(&input);
        if proved(&input) != outcome {
            return Err(Difference { seed, index });
        }
        coverage.note(&input, &outcome);
        after(index + 1);
    }
    Ok(coverage)
}
