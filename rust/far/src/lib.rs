//! The codec's sixteen functions on machines that cannot link its static library.
//!
//! The static library is for x86-64. Elsewhere this crate defines the functions
//! of `include/tsurakemobu.h` and hands each call to the program `serve`, which
//! is linked with the static library and runs in the emulator `qemu-x86_64`. It
//! serves to test and to try the codec on such a machine.
//! On x86-64 the crate is empty.
//!
//! Where `serve` cannot be run, or a call wrote beside what was lent to it, the
//! process is aborted: the functions have no answer that says so.

#![cfg(not(target_arch = "x86_64"))]
#![warn(missing_docs)]

mod server;

use server::{call, Function};
use std::slice;

// SAFETY of all sixteen functions: as the header asks, each pointer and its
// length are memory that may be read, and written where it is `*mut`, during
// the call.

/// Functions that read one stretch of octets and are lent another.
macro_rules! lent_octets {
    ($($(#[$doc:meta])* $name:ident: $function:ident;)*) => {$(
        $(#[$doc])*
        ///
        /// # Safety
        ///
        /// Each pointer and its length are a slice's, and the two do not overlap.
        #[no_mangle]
        pub unsafe extern "C" fn $name(
            fixed: *const u8,
            fixed_len: usize,
            lent: *mut u8,
            lent_len: usize,
        ) -> u64 {
            let fixed = slice::from_raw_parts(fixed, fixed_len);
            let lent = slice::from_raw_parts_mut(lent, lent_len);
            call(Function::$function, [0; 3], fixed, lent)
        }
    )*};
}

lent_octets! {
    /// The record of a message, as an image.
    tk_read: Read;
    /// The message of a record's image.
    tk_write: Write;
    /// The rows of a message.
    tk_rows: Rows;
    /// The charging information of a message, opened.
    tk_charging: Charging;
    /// The rows of a message's connection order.
    tk_order: Order;
    /// The record of a message in the mobile call profile, as an image.
    tk_profile_read: ProfileRead;
    /// The message of a record's image in the mobile call profile.
    tk_profile_write: ProfileWrite;
    /// The added classes of a message in the mobile call profile.
    tk_added_classes: AddedClasses;
}

/// The contents of a common parameter.
///
/// # Safety
///
/// The pointer and its length are a slice's.
#[no_mangle]
pub unsafe extern "C" fn tk_find_common(message: *const u8, message_len: usize, header: u8) -> u64 {
    let message = slice::from_raw_parts(message, message_len);
    let numbers = [header.into(), 0, 0];
    call(Function::FindCommon, numbers, message, &mut [])
}

/// The contents of a transfer parameter.
///
/// # Safety
///
/// The pointer and its length are a slice's.
#[no_mangle]
pub unsafe extern "C" fn tk_find_transfer(
    message: *const u8,
    message_len: usize,
    name: u8,
    which: usize,
) -> u64 {
    let message = slice::from_raw_parts(message, message_len);
    let numbers = [name.into(), which as u64, 0];
    call(Function::FindTransfer, numbers, message, &mut [])
}

/// The rows of one of the carriers of a message.
///
/// # Safety
///
/// Each pointer and its length are a slice's, and the two do not overlap.
#[no_mangle]
pub unsafe extern "C" fn tk_carriers(
    message: *const u8,
    message_len: usize,
    which: usize,
    table: *mut u8,
    table_len: usize,
) -> u64 {
    let message = slice::from_raw_parts(message, message_len);
    let table = slice::from_raw_parts_mut(table, table_len);
    call(Function::Carriers, [which as u64, 0, 0], message, table)
}

/// The digits of a code in one of the carriers of a message.
///
/// # Safety
///
/// Each pointer and its length are a slice's, and the two do not overlap.
#[no_mangle]
pub unsafe extern "C" fn tk_carrier_digits(
    message: *const u8,
    message_len: usize,
    which: usize,
    row: usize,
    out: *mut u8,
    out_len: usize,
) -> u64 {
    let message = slice::from_raw_parts(message, message_len);
    let out = slice::from_raw_parts_mut(out, out_len);
    let numbers = [which as u64, row as u64, 0];
    call(Function::CarrierDigits, numbers, message, out)
}

/// The class of a code value.
#[no_mangle]
pub extern "C" fn tk_class(header: u8, octet: u8) -> u64 {
    let numbers = [header.into(), octet.into(), 0];
    call(Function::Class, numbers, &[], &mut [])
}

/// Replaces a transfer parameter.
///
/// # Safety
///
/// Each pointer and its length are a slice's, and the two do not overlap.
#[no_mangle]
pub unsafe extern "C" fn tk_replace(
    buffer: *mut u8,
    buffer_len: usize,
    n: usize,
    new: *const u8,
    new_len: usize,
    which: usize,
) -> u64 {
    let buffer = slice::from_raw_parts_mut(buffer, buffer_len);
    let new = slice::from_raw_parts(new, new_len);
    let numbers = [n as u64, which as u64, 0];
    call(Function::Replace, numbers, new, buffer)
}

/// Appends a transfer parameter.
///
/// # Safety
///
/// Each pointer and its length are a slice's, and the two do not overlap.
#[no_mangle]
pub unsafe extern "C" fn tk_append(
    buffer: *mut u8,
    buffer_len: usize,
    n: usize,
    new: *const u8,
    new_len: usize,
) -> u64 {
    let buffer = slice::from_raw_parts_mut(buffer, buffer_len);
    let new = slice::from_raw_parts(new, new_len);
    call(Function::Append, [n as u64, 0, 0], new, buffer)
}

/// Removes a transfer parameter.
///
/// # Safety
///
/// The pointer and its length are a slice's.
#[no_mangle]
pub unsafe extern "C" fn tk_remove(
    buffer: *mut u8,
    buffer_len: usize,
    n: usize,
    name: u8,
    which: usize,
) -> u64 {
    let buffer = slice::from_raw_parts_mut(buffer, buffer_len);
    let numbers = [n as u64, name.into(), which as u64];
    call(Function::Remove, numbers, &[], buffer)
}
