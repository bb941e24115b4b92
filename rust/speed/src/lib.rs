//! What a call costs: the proved codec beside the plain one.
//!
//! An [`Operation`] is put to both codecs, its two [`Sides`], on messages of a
//! [`Class`]. The same seed gives the same inputs on every machine, and a
//! checksum over all answers and all octets that the calls leave must be the
//! same on both sides. `bin/speed` builds the program for x86-64, runs it, and
//! counts the instructions of its calls.

#![forbid(unsafe_code)]
#![warn(missing_docs)]

pub mod class;
pub mod clock;
pub mod inputs;
pub mod operation;
pub mod side;

pub use class::Class;
pub use operation::Operation;
pub use side::Sides;
