//! Many inputs for a codec of service control messages, by seed, and what the
//! plain codec answers to them.
//!
//! An [`Input`] is one call of any kind with all its arguments; [`generate`]
//! makes one, [`answer`] puts it to the plain codec and gives the [`Outcome`].
//! The same seed and index give the same input on every machine.
//!
//! ```
//! use trial::{answer, Input};
//!
//! let message = vec![0x01, 0x01, 0x06, 0x11, 0xC5, 0x01, 0x08, 0x00];
//! let outcome = answer(&Input::FindCommon { message, header: 0x01 });
//! assert_eq!((outcome.number(), outcome.place()), (8, 6));
//! assert_eq!(trial::input_at(1, 42), trial::input_at(1, 42));
//! ```

#![forbid(unsafe_code)]
#![warn(missing_docs)]

mod carriers;
pub mod cases;
mod charging;
pub mod coverage;
pub mod generation;
pub mod input;
pub mod messages;
pub mod order;
pub mod outcome;
pub mod parameters;
mod profile;
pub mod record;
pub mod records;
pub mod rng;

pub use coverage::Coverage;
pub use generation::{generate, input_at};
pub use input::{Input, Kind};
pub use outcome::{answer, Outcome};
pub use rng::Rng;
