//! The proved codec for NTT's No. 7 service control messages, in Rust's types.
//!
//! A message is a sequence of common parameters and an end mark; one of the
//! parameters, the transfer data, holds transfer parameters of its own. Every
//! function here asks the codec that is written in Rattle and proved, through
//! its static library, and only turns arguments and answers into Rust's types:
//! what is accepted, refused and written is decided there.
//!
//! No function panics, whatever it is handed. An answer is what was asked for,
//! or a [`Refusal`] with a number and a place; lent memory is as it was before
//! where a call is refused.
//!
//! ```
//! let message = [0x01, 0x01, 0x06, 0x11, 0xC5, 0x03, 0x98, 0x02, 0x21, 0x00];
//! let record = codec::read(&message)?;
//! let dialled = record.transfer(0x18).map(|found| record.values_of(found));
//! assert_eq!(dialled, Some(&[1, 2][..]));
//! assert_eq!(codec::write_to_vec(&record)?, message);
//!
//! let refusal = codec::read(&message[..9]).unwrap_err();
//! assert_eq!((refusal.number, refusal.place), (codec::Refusal::CUT_SHORT, 9));
//! # Ok::<(), codec::Refusal>(())
//! ```

#![deny(unsafe_code)]
#![warn(missing_docs)]

mod answer;
#[allow(unsafe_code)]
pub mod boundary;
mod carriers;
mod charging;
mod image;
mod order;
mod profile;
pub mod record;
mod refusal;

pub use carriers::{
    Carrier, CarrierTag, Carriers, Dependent, DependentContents, DependentTag, Direction,
};
pub use charging::Charging;
pub use order::{Order, OrderHeader, OrderParameter};
pub use profile::{AddedClass, AddedClassName, Network, Profile};
pub use record::{Common, Record, Stretch, Transfer};
pub use refusal::Refusal;

use answer::{unpack, Accepted};
use boundary::Room;

// The example in the README is compiled with the tests.
#[cfg(doctest)]
#[doc = include_str!("../../README.md")]
struct Readme;

/// The most octets of a message.
pub const MESSAGE_MAX: usize = 272;
/// The most rows of a message, the end mark's among them.
pub const ROWS_MAX: usize = 61;
/// The most octets of the image of a record within its limits, and so of one
/// that is read: the count, 6 common and 54 transfer parameters, and two values
/// for each of the 255 octets that their contents can have together.
pub const IMAGE_MAX: usize = 1 + 6 * 7 + 54 * 11 + 2 * 255;
/// Octets of the charging information as the static library gives it: the kind,
/// and eleven numbers of two octets.
pub const CHARGING_LEN: usize = 1 + 11 * 2;
/// The most rows of an opened connection order: its form, and as many parameters
/// as can stand under one form.
pub const ORDER_ROWS_MAX: usize = 5;
/// The most octets of the added classes of D6 in the mobile call profile: a name
/// and a value for each of six names.
pub const ADDED_MAX: usize = 6 * 2;
/// How often the carriers, CC, may stand in a message.
pub const CARRIERS_MAX: usize = 3;
/// The most rows of one opened CC: its direction's, and one for each entry of two
/// octets that a message has room for.
pub const CARRIER_ROWS_MAX: usize = 127;
/// Octets of such a row.
pub const CARRIER_ROW_LEN: usize = 8;
/// The most digits of a carrier's code: two to an octet, where it is all that a
/// message has room for.
pub const CARRIER_DIGITS_MAX: usize = 2 * 247;
/// Octets of a row in the table that the static library fills.
const ROW_LEN: usize = 5;
/// The most octets of that table.
const TABLE_MAX: usize = ROWS_MAX * ROW_LEN;

/// Where a parameter stands in a message.
#[derive(Clone, Copy, Debug, PartialEq, Eq, Hash)]
pub struct Row {
    /// The offset of the header.
    pub offset: usize,
    /// The header.
    pub header: u8,
    /// How many octets the contents have.
    pub len: usize,
}

/// What a code value is.
#[derive(Clone, Copy, Debug, PartialEq, Eq, Hash)]
pub enum Class {
    /// Named.
    Named,
    /// Held back.
    HeldBack,
    /// Spare: all else.
    Spare,
}

/// The record of a message.
///
/// ```
/// use codec::Refusal;
///
/// // Dialled digits 1, 2, 1, and then the code D, which is none.
/// let message = [0x01, 0x01, 0x06, 0x11, 0xC5, 0x04, 0x98, 0x04, 0x21, 0xD1, 0x00];
/// let refusal = codec::read(&message).unwrap_err();
/// assert_eq!(refusal, Refusal::new(Refusal::BAD_DIGIT, 9));
/// assert_eq!(message[refusal.place], 0xD1);
/// ```
///
/// # Errors
///
/// Numbers 1 to 13, 18 and 19, tried from left to right; 13 at the octet with
/// the bad digit, the others of a transfer parameter at its header.
pub fn read(message: &[u8]) -> Result<Record, Refusal> {
    let mut memory = Room::new();
    let image = boundary::read_into(message, &mut memory)?;
    Ok(image::record_of(image))
}

/// Writes the message of `record` into the front of `room`; gives its length.
/// The octets behind it stay.
///
/// # Errors
///
/// Number 1, then 2, 3, 5, 8 to 14, 18 and 19 in the reader's order, at the
/// places where the headers would stand, 6 at the end, and 15 if the room is too
/// short.
pub fn write(record: &Record, room: &mut [u8]) -> Result<usize, Refusal> {
    let mut memory = Room::new();
    let image = image_within(record, &mut memory)?;
    Ok(unpack(boundary::write(image, room))?.value)
}

/// The message of `record`.
///
/// # Errors
///
/// As [`write()`], but never 15.
pub fn write_to_vec(record: &Record) -> Result<Vec<u8>, Refusal> {
    let (mut memory, mut room) = (Room::new(), Room::new());
    let image = image_within(record, &mut memory)?;
    Ok(boundary::write_into(image, &mut room)?.to_vec())
}

/// The image of `record`, in `memory`. One that is too long for that is over the
/// limits, and is refused as the static library does it.
fn image_within<'m>(record: &Record, memory: &'m mut Room<IMAGE_MAX>) -> Result<&'m [u8], Refusal> {
    image::image_of(record, memory).ok_or(Refusal::new(Refusal::OVER_LIMITS, 0))
}

/// A row for each parameter of `message` in the order of their offsets, the
/// end mark's last.
///
/// # Errors
///
/// Those of [`read`].
pub fn rows(message: &[u8]) -> Result<Vec<Row>, Refusal> {
    let mut memory = Room::new();
    let table = boundary::rows_into(message, &mut memory)?;
    Ok(table.chunks_exact(ROW_LEN).map(row_of).collect())
}

fn row_of(octets: &[u8]) -> Row {
    let number = |low: usize| usize::from(u16::from_le_bytes([octets[low], octets[low + 1]]));
    Row {
        offset: number(0),
        header: octets[2],
        len: number(3),
    }
}

/// The contents of the common parameter `header`, in `message` itself; those of
/// C5 are the whole transfer data.
///
/// # Errors
///
/// Those of [`read`], then 16 at 0 if there is no such parameter, and for 00.
pub fn find_common(message: &[u8], header: u8) -> Result<&[u8], Refusal> {
    found_in(message, boundary::find_common(message, header))
}

/// The contents of the transfer parameter `name`, in `message` itself. The name
/// is the lower six bits of the header. `which` of that name it is counts from 0, in
/// the order of the message, here and elsewhere; it is 0 for all but the carriers,
/// CC, since the others stand once at most.
///
/// # Errors
///
/// Those of [`read`], then 16 at 0 if there are not so many such parameters.
pub fn find_transfer(message: &[u8], name: u8, which: usize) -> Result<&[u8], Refusal> {
    found_in(message, boundary::find_transfer(message, name, which))
}

fn found_in(message: &[u8], answer: u64) -> Result<&[u8], Refusal> {
    let Accepted { place, value } = unpack(answer)?;
    Ok(message.get(place..place + value).unwrap_or_default())
}

/// The class of `octet` under the transfer header `header`.
///
/// # Errors
///
/// 17 at 0 if the header has no classes, 12 at 0 if a bit of the octet is set
/// that must be 0.
pub fn class_of(header: u8, octet: u8) -> Result<Class, Refusal> {
    Ok(match unpack(boundary::class(header, octet))?.value {
        0 => Class::Named,
        1 => Class::HeldBack,
        _ => Class::Spare,
    })
}

/// The charging information of `message`, opened.
///
/// ```
/// let message = [
///     0x01, 0x01, 0x06, 0x11, 0xC5, 0x06, 0xF7, 0x04, 0x00, 0x05, 0x12, 0x31, 0x00,
/// ];
/// let charging = codec::charging(&message)?;
/// assert_eq!((charging.kind, charging.mbi, charging.check_digit), (5, 12, 1));
/// # Ok::<(), codec::Refusal>(())
/// ```
///
/// # Errors
///
/// Those of [`read`], then 16 at 0 if there is none.
pub fn charging(message: &[u8]) -> Result<Charging, Refusal> {
    let mut octets = [0; CHARGING_LEN];
    unpack(boundary::charging(message, &mut octets))?;
    Ok(Charging::of(&octets))
}

/// The connection order of `message`, opened.
///
/// ```
/// use codec::OrderHeader;
///
/// let message = [
///     0x01, 0x01, 0x06, 0x11, 0xC5, 0x07, 0xE0, 0x05, 0x21, 0x91, 0x03, 0x21, 0x0A, 0x00,
/// ];
/// let order = codec::order(&message)?;
/// assert_eq!((order.form, order.offset), (0x21, 8));
/// let digits = order.parameter(OrderHeader::SentDigits).unwrap();
/// assert_eq!((digits.offset, digits.octets), (9, &[0x03, 0x21, 0x0A][..]));
/// # Ok::<(), codec::Refusal>(())
/// ```
///
/// # Errors
///
/// Those of [`read`], then 16 at 0 if there is none.
pub fn order(message: &[u8]) -> Result<Order<'_>, Refusal> {
    let mut table = [0; ORDER_ROWS_MAX * ROW_LEN];
    let count = unpack(boundary::order(message, &mut table))?.value;
    let rows = table.chunks_exact(ROW_LEN).take(count).map(row_of);
    Ok(Order::of(message, rows))
}

/// The record of a message in the mobile call profile, with the network that the
/// call comes from and the added classes of D6.
///
/// The profile asks for the signal kind 11, for 7E with 2 (PHS) or 3 (mobile), for
/// FD, and where 7E is 3 for D6. A D6, wherever it stands, is pairs of a name, each
/// at most once, and a value.
///
/// ```
/// use codec::{AddedClassName, Network, Refusal};
///
/// let message = [
///     0x01, 0x01, 0x06, 0x11, 0xC5, 0x0A, 0x7E, 0x03, 0xFD, 0x00, 0xD6, 0x04, 0xFD, 0x01, 0xFE,
///     0x02, 0x00,
/// ];
/// let profile = codec::profile_read(&message)?;
/// assert_eq!(profile.network, Network::Mobile);
/// assert_eq!(profile.added_class(AddedClassName::Mobile1), Some(0x01));
/// assert_eq!(profile.added_class(AddedClassName::Fixed1), Some(0x02));
/// assert_eq!(codec::profile_write_to_vec(&profile.record)?, message);
///
/// let mut other = message;
/// other[3] = 0x12;
/// let refusal = codec::profile_read(&other).unwrap_err();
/// assert_eq!(refusal, Refusal::new(Refusal::PROFILE, 16));
/// assert_eq!(codec::read(&other)?.common[1].value, 0x12);
/// # Ok::<(), codec::Refusal>(())
/// ```
///
/// # Errors
///
/// Those of [`read`], then 20 at the end mark if a rule of the profile is not kept.
pub fn profile_read(message: &[u8]) -> Result<Profile, Refusal> {
    let mut memory = Room::new();
    let image = boundary::profile_read_into(message, &mut memory)?;
    Profile::of(image::record_of(image)).ok_or(not_in_profile(message))
}

/// 20 at the end mark, the message's last octet. The static library refuses with
/// it; here it stands for what it never accepts, so that nothing is made up.
const fn not_in_profile(message: &[u8]) -> Refusal {
    Refusal::new(Refusal::PROFILE, message.len().saturating_sub(1))
}

/// Writes the message of `record`, which is in the mobile call profile, into the
/// front of `room`; gives its length. The octets behind it stay.
///
/// # Errors
///
/// Those of [`write()`], and before 15 comes 20, where the end mark would stand, if
/// a rule of the profile is not kept.
pub fn profile_write(record: &Record, room: &mut [u8]) -> Result<usize, Refusal> {
    let mut memory = Room::new();
    let image = image_within(record, &mut memory)?;
    Ok(unpack(boundary::profile_write(image, room))?.value)
}

/// The message of `record`, which is in the mobile call profile.
///
/// # Errors
///
/// As [`profile_write`], but never 15.
pub fn profile_write_to_vec(record: &Record) -> Result<Vec<u8>, Refusal> {
    let (mut memory, mut room) = (Room::new(), Room::new());
    let image = image_within(record, &mut memory)?;
    Ok(boundary::profile_write_into(image, &mut room)?.to_vec())
}

/// The added classes of D6, in their order, of a message in the mobile call
/// profile.
///
/// ```
/// use codec::AddedClassName;
///
/// let message = [
///     0x01, 0x01, 0x06, 0x11, 0xC5, 0x08, 0x7E, 0x02, 0xFD, 0x00, 0xD6, 0x02, 0x01, 0xFE, 0x00,
/// ];
/// let classes = codec::added_classes(&message)?;
/// assert_eq!(classes.len(), 1);
/// assert_eq!((classes[0].name, classes[0].value), (AddedClassName::LongDistance1, 0xFE));
/// # Ok::<(), codec::Refusal>(())
/// ```
///
/// # Errors
///
/// Those of [`profile_read`], then 16 at 0 if there is no D6.
pub fn added_classes(message: &[u8]) -> Result<Vec<AddedClass>, Refusal> {
    let mut octets = [0; ADDED_MAX];
    let len = unpack(boundary::added_classes(message, &mut octets))?.value;
    AddedClass::all_of(octets.get(..len).unwrap_or_default()).ok_or(not_in_profile(message))
}

/// The carriers of `message`, CC, opened: `which` of them, counted from 0.
///
/// ```
/// use codec::{CarrierTag, DependentContents, Direction};
///
/// let message = [
///     0x01, 0x01, 0x06, 0x11, 0xC5, 0x0A, 0xCC, 0x08, 0x01, 0xFA, 0x05, 0xFE, 0x03, 0x80, 0x21,
///     0x03, 0x00,
/// ];
/// let carriers = codec::carriers(&message, 0)?;
/// assert_eq!(carriers.direction, Direction::Forward);
/// let carrier = &carriers.entries[0];
/// assert_eq!((carrier.tag, carrier.offset), (CarrierTag::Scp, 9));
/// assert_eq!(carrier.dependents[0].contents, DependentContents::Code(vec![1, 2, 3]));
/// assert_eq!(carrier.code(), Some(&[1, 2, 3][..]));
/// # Ok::<(), codec::Refusal>(())
/// ```
///
/// # Errors
///
/// Those of [`read`], then 16 at 0 if there are not so many.
pub fn carriers(message: &[u8], which: usize) -> Result<Carriers<'_>, Refusal> {
    let mut table = [0; CARRIER_ROWS_MAX * CARRIER_ROW_LEN];
    let count = unpack(boundary::carriers(message, which, &mut table))?.value;
    let rows = table.get(..count * CARRIER_ROW_LEN).unwrap_or_default();
    let opened = Carriers::of(message, rows, |row, digits| {
        Some(
            unpack(boundary::carrier_digits(message, which, row, digits))
                .ok()?
                .value,
        )
    });
    // Of rows that the static library never gives nothing is made up: there is no
    // such CC.
    opened.ok_or(Refusal::new(Refusal::ABSENT, 0))
}

/// Puts the transfer parameter `new` (its octets, header first) in the place of
/// the one with its name, `which` of them counted from 0, in the message in the first
/// `n` octets of `buffer`; gives the message's new length.
///
/// Where the message shrinks, the octets from its new end to the old become 0.
///
/// # Errors
///
/// 15 at 0 if `n` is beyond the buffer, those of [`read`], then all at 0: 16
/// without transfer data, 11 without octets, 8, 9, 16 if there are not so many of the
/// name, 11 if octets are too few or too many, what is wrong with the new contents
/// (12, 13, 18 or 19), 14, and 15 if the buffer is too short.
pub fn replace(buffer: &mut [u8], n: usize, new: &[u8], which: usize) -> Result<usize, Refusal> {
    Ok(unpack(boundary::replace(buffer, n, new, which))?.value)
}

/// Puts the transfer parameter `new` behind the last of the transfer data, in
/// the message in the first `n` octets of `buffer`; gives the message's new
/// length.
///
/// # Errors
///
/// As [`replace`], but 10 if the name stands as often as it may, where that has 16
/// if there are not so many of it.
pub fn append(buffer: &mut [u8], n: usize, new: &[u8]) -> Result<usize, Refusal> {
    Ok(unpack(boundary::append(buffer, n, new))?.value)
}

/// Takes the transfer parameter `name`, `which` of them counted from 0, out of the
/// message in the first `n` octets of `buffer`; gives the message's new length. The
/// octets from its new end to the old become 0.
///
/// # Errors
///
/// 15 at 0 if `n` is beyond the buffer, those of [`read`], then 16 at 0 if there
/// are not so many such parameters.
pub fn remove(buffer: &mut [u8], n: usize, name: u8, which: usize) -> Result<usize, Refusal> {
    Ok(unpack(boundary::remove(buffer, n, name, which))?.value)
}
