//! A plain codec for NTT's No. 7 service control messages.
//!
//! A message is a sequence of common parameters closed by an end mark; one of
//! them, the transfer data, holds transfer parameters of its own. This crate
//! reads a message to a [`Record`], writes a record, finds a parameter's
//! contents, lists the spans of all parameters, classes code values, opens the
//! charging information, the connection order and the carriers, edits a message in
//! place, and reads and writes by the mobile call profile, which asks for more.
//!
//! Every question is answered with what was asked for, or with a [`Refusal`]:
//! a number that says why, and a place that says where. No call changes lent
//! memory when it refuses.
//!
//! ```
//! let message = [0x01, 0x01, 0x06, 0x11, 0xC5, 0x03, 0x98, 0x02, 0x21, 0x00];
//! let record = plain::read(&message).unwrap();
//! let dialled = &record.common[2].transfers[0];
//! assert_eq!(record.values_of(dialled), [1, 2]);
//!
//! let mut room = [0; 16];
//! assert_eq!(plain::write(&record, &mut room), Ok(10));
//! assert_eq!(room[..10], message);
//! ```

#![forbid(unsafe_code)]
#![warn(missing_docs)]

pub mod carriers;
pub mod charging;
pub mod classes;
pub mod common;
mod digits;
pub mod editing;
mod fault;
pub mod finding;
pub mod image;
pub mod listing;
mod number;
pub mod order;
pub mod profile;
pub mod reading;
pub mod record;
pub mod refusal;
pub mod transfer;
pub mod writing;

pub use carriers::{carrier_digits, carrier_spans, carriers, CarrierRow};
pub use charging::{charging, Charging};
pub use classes::{class_of, Class};
pub use editing::{append, remove, replace};
pub use finding::{find_common, find_transfer};
pub use image::{from_image, image};
pub use listing::{rows, spans, Row};
pub use order::{order, order_spans};
pub use profile::{added_classes, profile_read, profile_write};
pub use profile::{AddedClass, AddedName, Network, Profile};
pub use reading::{read, verdict};
pub use record::{Common, Record, Transfer};
pub use refusal::Refusal;
pub use writing::write;
