//! The functions of the static library themselves: octets in, octets out, and
//! one number for an answer, `number * 2^32 + place * 2^16 + value`.
//!
//! `include/tsurakemobu.h` tells them in full, with the form of an image and of
//! a table of rows. This is the only module with `unsafe`; the functions of the
//! crate's root are easier to use.

use crate::answer::unpack;
use crate::refusal::Refusal;
use crate::{IMAGE_MAX, MESSAGE_MAX, ROW_LEN, TABLE_MAX};
use std::mem::MaybeUninit;

// Where the static library cannot be linked, this crate defines its functions.
#[cfg(not(target_arch = "x86_64"))]
use far as _;

extern "C" {
    fn tk_read(message: *const u8, len: usize, image: *mut u8, image_len: usize) -> u64;
    fn tk_write(image: *const u8, len: usize, room: *mut u8, room_len: usize) -> u64;
    fn tk_rows(message: *const u8, len: usize, table: *mut u8, table_len: usize) -> u64;
    fn tk_find_common(message: *const u8, len: usize, header: u8) -> u64;
    fn tk_find_transfer(message: *const u8, len: usize, name: u8, which: usize) -> u64;
    fn tk_class(header: u8, octet: u8) -> u64;
    fn tk_replace(
        buffer: *mut u8,
        len: usize,
        n: usize,
        new: *const u8,
        new_len: usize,
        which: usize,
    ) -> u64;
    fn tk_append(buffer: *mut u8, len: usize, n: usize, new: *const u8, new_len: usize) -> u64;
    fn tk_remove(buffer: *mut u8, len: usize, n: usize, name: u8, which: usize) -> u64;
    fn tk_charging(message: *const u8, len: usize, out: *mut u8, out_len: usize) -> u64;
    fn tk_order(message: *const u8, len: usize, table: *mut u8, table_len: usize) -> u64;
    fn tk_profile_read(message: *const u8, len: usize, image: *mut u8, image_len: usize) -> u64;
    fn tk_profile_write(image: *const u8, len: usize, room: *mut u8, room_len: usize) -> u64;
    fn tk_added_classes(message: *const u8, len: usize, out: *mut u8, out_len: usize) -> u64;
    fn tk_carriers(
        message: *const u8,
        len: usize,
        which: usize,
        table: *mut u8,
        table_len: usize,
    ) -> u64;
    fn tk_carrier_digits(
        message: *const u8,
        len: usize,
        which: usize,
        row: usize,
        out: *mut u8,
        out_len: usize,
    ) -> u64;
}

/// A function of the static library that reads one stretch of octets and writes
/// into the front of another, each told by its pointer and its length.
type Filling = unsafe extern "C" fn(*const u8, usize, *mut u8, usize) -> u64;

/// Calls such a function of the static library.
fn fill(function: Filling, octets: &[u8], lent: &mut [u8]) -> u64 {
    let (front, len) = (lent.as_mut_ptr(), lent.len());
    // SAFETY: each pointer and length is a slice's, and `lent` overlaps nothing.
    unsafe { function(octets.as_ptr(), octets.len(), front, len) }
}

/// The record's image of `message`, into the front of `image`; value: its length.
pub fn read(message: &[u8], image: &mut [u8]) -> u64 {
    fill(tk_read, message, image)
}

/// The message of a record's `image`, into the front of `room`; value: its length.
pub fn write(image: &[u8], room: &mut [u8]) -> u64 {
    fill(tk_write, image, room)
}

/// The rows of `message`, 5 octets each, into the front of `table`; value: their count.
pub fn rows(message: &[u8], table: &mut [u8]) -> u64 {
    fill(tk_rows, message, table)
}

/// Where the contents of a common parameter stand; place and value: offset and length.
pub fn find_common(message: &[u8], header: u8) -> u64 {
    // SAFETY: pointer and length are a slice's.
    unsafe { tk_find_common(message.as_ptr(), message.len(), header) }
}

/// Where the contents of a transfer parameter stand, `which` of its name; place and
/// value: offset and length.
pub fn find_transfer(message: &[u8], name: u8, which: usize) -> u64 {
    // SAFETY: pointer and length are a slice's.
    unsafe { tk_find_transfer(message.as_ptr(), message.len(), name, which) }
}

/// The class of an octet under a header; value: 0 named, 1 held back, 2 spare.
pub fn class(header: u8, octet: u8) -> u64 {
    // SAFETY: there are numbers alone.
    unsafe { tk_class(header, octet) }
}

/// Replaces a transfer parameter, `which` of its name, of the message in the first
/// `n` octets of `buffer`; value: the message's new length.
pub fn replace(buffer: &mut [u8], n: usize, new: &[u8], which: usize) -> u64 {
    let (octets, len) = (buffer.as_mut_ptr(), buffer.len());
    // SAFETY: each pointer and length is a slice's, and `buffer` overlaps nothing.
    unsafe { tk_replace(octets, len, n, new.as_ptr(), new.len(), which) }
}

/// Appends a transfer parameter to the message in the first `n` octets of
/// `buffer`; value: the message's new length.
pub fn append(buffer: &mut [u8], n: usize, new: &[u8]) -> u64 {
    let (octets, len) = (buffer.as_mut_ptr(), buffer.len());
    // SAFETY: each pointer and length is a slice's, and `buffer` overlaps nothing.
    unsafe { tk_append(octets, len, n, new.as_ptr(), new.len()) }
}

/// Removes a transfer parameter, `which` of its name, from the message in the first
/// `n` octets of `buffer`; value: the message's new length.
pub fn remove(buffer: &mut [u8], n: usize, name: u8, which: usize) -> u64 {
    // SAFETY: pointer and length are a slice's, and `buffer` overlaps nothing.
    unsafe { tk_remove(buffer.as_mut_ptr(), buffer.len(), n, name, which) }
}

/// The charging information of `message`, opened, into the front of `out`; value:
/// how many octets it takes.
pub fn charging(message: &[u8], out: &mut [u8]) -> u64 {
    fill(tk_charging, message, out)
}

/// The rows of the connection order of `message`, 5 octets each, into the front
/// of `table`; value: their count.
pub fn order(message: &[u8], table: &mut [u8]) -> u64 {
    fill(tk_order, message, table)
}

/// The record's image of `message`, which is in the mobile call profile, into the
/// front of `image`; value: its length.
pub fn profile_read(message: &[u8], image: &mut [u8]) -> u64 {
    fill(tk_profile_read, message, image)
}

/// The message of a record's `image`, which is in the mobile call profile, into
/// the front of `room`; value: its length.
pub fn profile_write(image: &[u8], room: &mut [u8]) -> u64 {
    fill(tk_profile_write, image, room)
}

/// The added classes of `message`, which is in the mobile call profile, 2 octets
/// each, into the front of `out`; value: how many octets they take.
pub fn added_classes(message: &[u8], out: &mut [u8]) -> u64 {
    fill(tk_added_classes, message, out)
}

/// The rows of the carriers of `message`, `which` of them, 8 octets each, into the
/// front of `table`; value: their count.
pub fn carriers(message: &[u8], which: usize, table: &mut [u8]) -> u64 {
    let (front, len) = (table.as_mut_ptr(), table.len());
    // SAFETY: each pointer and length is a slice's, and `table` overlaps nothing.
    unsafe { tk_carriers(message.as_ptr(), message.len(), which, front, len) }
}

/// The digits of the code in a row of the carriers of `message`, `which` of them, one
/// to an octet, into the front of `out`; value: their count.
pub fn carrier_digits(message: &[u8], which: usize, row: usize, out: &mut [u8]) -> u64 {
    let (front, len) = (out.as_mut_ptr(), out.len());
    // SAFETY: each pointer and length is a slice's, and `out` overlaps nothing.
    unsafe { tk_carrier_digits(message.as_ptr(), message.len(), which, row, front, len) }
}

/// Memory for octets. It is not cleared first: an octet of it is set or not.
pub(crate) struct Room<const N: usize>([MaybeUninit<u8>; N]);

impl<const N: usize> Room<N> {
    /// Memory of which no octet is set.
    pub(crate) fn new() -> Self {
        Room([MaybeUninit::uninit(); N])
    }

    /// What `function` writes at the front of the memory, of `octets`.
    ///
    /// # Safety
    ///
    /// Where `function` accepts, it must have set `unit` octets for each of its
    /// value, from the first on.
    unsafe fn filled(
        &mut self,
        unit: usize,
        function: Filling,
        octets: &[u8],
    ) -> Result<&[u8], Refusal> {
        if cfg!(not(target_arch = "x86_64")) {
            // `far` reads what is lent to it.
            self.0.fill(MaybeUninit::new(0));
        }
        let lent = self.0.as_mut_ptr().cast();
        // SAFETY: each pointer and length is a stretch's, and the memory overlaps
        // nothing.
        let value = unpack(function(octets.as_ptr(), octets.len(), lent, N))?.value;
        let front = self.0.get(..unit * value).unwrap_or_default();
        // SAFETY: `function` has set them.
        Ok(all_set(front))
    }
}

/// The record's image of `message`, in `room`.
///
/// # Errors
///
/// Those of [`read`](crate::read).
pub(crate) fn read_into<'r>(
    message: &[u8],
    room: &'r mut Room<IMAGE_MAX>,
) -> Result<&'r [u8], Refusal> {
    // SAFETY: where the call is accepted, its value counts the octets of the image,
    // which then stands at the front. This is proved: `TkReadPromise`.
    unsafe { room.filled(1, tk_read, message) }
}

/// The message of a record's `image`, in `room`.
///
/// # Errors
///
/// Those of [`write_to_vec`](crate::write_to_vec).
pub(crate) fn write_into<'r>(
    image: &[u8],
    room: &'r mut Room<MESSAGE_MAX>,
) -> Result<&'r [u8], Refusal> {
    // SAFETY: as in `read_into`, of the message's octets: `TkWritePromise`.
    unsafe { room.filled(1, tk_write, image) }
}

/// The record's image of `message`, read by the mobile call profile, in `room`.
///
/// # Errors
///
/// Those of [`profile_read`](crate::profile_read).
pub(crate) fn profile_read_into<'r>(
    message: &[u8],
    room: &'r mut Room<IMAGE_MAX>,
) -> Result<&'r [u8], Refusal> {
    // SAFETY: as in `read_into`: `TkProfileReadPromise`.
    unsafe { room.filled(1, tk_profile_read, message) }
}

/// The message of a record's `image`, written by the mobile call profile, in
/// `room`.
///
/// # Errors
///
/// Those of [`profile_write_to_vec`](crate::profile_write_to_vec).
pub(crate) fn profile_write_into<'r>(
    image: &[u8],
    room: &'r mut Room<MESSAGE_MAX>,
) -> Result<&'r [u8], Refusal> {
    // SAFETY: as in `read_into`, of the message's octets: `TkProfileWritePromise`.
    unsafe { room.filled(1, tk_profile_write, image) }
}

/// The table of the rows of `message`, in `room`.
///
/// # Errors
///
/// Those of [`read`](crate::read).
pub(crate) fn rows_into<'r>(
    message: &[u8],
    room: &'r mut Room<TABLE_MAX>,
) -> Result<&'r [u8], Refusal> {
    // SAFETY: as in `read_into`, of the rows, which the value counts: `TkRowsPromise`.
    unsafe { room.filled(ROW_LEN, tk_rows, message) }
}

/// Octets that are set, as such.
///
/// # Safety
///
/// All of them must be set.
unsafe fn all_set(octets: &[MaybeUninit<u8>]) -> &[u8] {
    &*(octets as *const [MaybeUninit<u8>] as *const [u8])
}

/// Octets put one after the other into the front of a room.
pub(crate) struct Draft<'r> {
    room: &'r mut Room<IMAGE_MAX>,
    /// So many octets of the room are set, from its first on.
    len: usize,
}

impl<'r> Draft<'r> {
    /// A draft without octets, in `room`.
    pub(crate) fn new(room: &'r mut Room<IMAGE_MAX>) -> Self {
        Draft { room, len: 0 }
    }

    /// Puts `octets` behind those that are there; none if they do not fit.
    pub(crate) fn put(&mut self, octets: &[u8]) -> Option<()> {
        let rest = self.room.0.get_mut(self.len..)?;
        let next = rest.get_mut(..octets.len())?;
        for (next, &octet) in next.iter_mut().zip(octets) {
            next.write(octet);
        }
        self.len += octets.len();
        Some(())
    }

    /// The octets that were put.
    pub(crate) fn octets(self) -> &'r [u8] {
        let front = self.room.0.get(..self.len).unwrap_or_default();
        // SAFETY: `put` alone counts octets, and sets all that it counts.
        unsafe { all_set(front) }
    }
}
