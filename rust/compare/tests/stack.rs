//! No call takes more stack than `bin/stack` tells of its function, and the
//! deepest of many takes about as much. The script follows the archive's code and
//! runs nothing; here each call is made on a stack of its own, which shows
//! afterwards how deep it has been written.

#![cfg(target_arch = "x86_64")]

use std::arch::asm;
use std::collections::BTreeMap;
use std::process::Command;
use trial::{input_at, Input};

const SEED: u64 = 7;
const COUNT: u64 = 200_000;

/// So many words has the stack on which calls are made. They are of 16 octets,
/// since a stack must be aligned so when a function is called.
const WORDS: usize = 512;

/// The script may tell so many octets more than any call takes: where it cannot
/// follow how a function uses the red zone, it counts the whole of it.
const RED_ZONE: usize = 128;

// Only their addresses are taken: `call` hands the arguments over.
extern "C" {
    fn tk_read();
    fn tk_write();
    fn tk_rows();
    fn tk_find_common();
    fn tk_find_transfer();
    fn tk_class();
    fn tk_replace();
    fn tk_append();
    fn tk_remove();
    fn tk_charging();
    fn tk_order();
    fn tk_profile_read();
    fn tk_profile_write();
    fn tk_added_classes();
    fn tk_carriers();
    fn tk_carrier_digits();
}

/// A function's name, its address and its arguments.
type Call = (&'static str, unsafe extern "C" fn(), Vec<usize>);

macro_rules! call {
    ($function:ident, $arguments:expr) => {
        (stringify!($function), $function, $arguments)
    };
}

/// A stretch as arguments: where it is, and its length.
fn stretch(octets: &[u8]) -> [usize; 2] {
    [octets.as_ptr() as usize, octets.len()]
}

/// The call of `input`, which is lent `memory`.
fn call_of(input: &Input, memory: &mut [u8]) -> Call {
    let lent = [memory.as_mut_ptr() as usize, memory.len()];
    let filling = |octets: &[u8]| [stretch(octets), lent].concat();
    let asking = |octets: &[u8], what: &[usize]| [&stretch(octets), what].concat();
    let opening = |octets: &[u8], numbers: &[usize]| [&stretch(octets), numbers, &lent].concat();
    match input {
        Input::Read { message, .. } => call!(tk_read, filling(message)),
        Input::Write { image, .. } => call!(tk_write, filling(image)),
        Input::Rows { message, .. } => call!(tk_rows, filling(message)),
        Input::FindCommon { message, header } => {
            call!(tk_find_common, asking(message, &[(*header).into()]))
        }
        Input::FindTransfer {
            message,
            name,
            which,
        } => call!(tk_find_transfer, asking(message, &[(*name).into(), *which])),
        Input::Class { header, octet } => {
            call!(tk_class, vec![usize::from(*header), usize::from(*octet)])
        }
        Input::Replace { .. } | Input::Append { .. } | Input::Remove { .. } => edit_of(input, lent),
        Input::Charging { message, .. } => call!(tk_charging, filling(message)),
        Input::Order { message, .. } => call!(tk_order, filling(message)),
        Input::ProfileRead { message, .. } => call!(tk_profile_read, filling(message)),
        Input::ProfileWrite { image, .. } => call!(tk_profile_write, filling(image)),
        Input::AddedClasses { message, .. } => call!(tk_added_classes, filling(message)),
        Input::Carriers { message, which, .. } => call!(tk_carriers, opening(message, &[*which])),
        Input::CarrierDigits {
            message,
            which,
            row,
            ..
        } => call!(tk_carrier_digits, opening(message, &[*which, *row])),
    }
}

/// The call of an edit, which is lent this stretch.
fn edit_of(input: &Input, lent: [usize; 2]) -> Call {
    let bringing = |n: u16, new: &[u8], which: &[usize]| {
        let (n, new) = ([n.into()], stretch(new));
        [&lent[..], &n, &new, which].concat()
    };
    match input {
        Input::Replace { n, new, which, .. } => call!(tk_replace, bringing(*n, new, &[*which])),
        Input::Append { n, new, .. } => call!(tk_append, bringing(*n, new, &[])),
        Input::Remove { n, name, which, .. } => {
            let numbers = [usize::from(*n), usize::from(*name), *which];
            call!(tk_remove, [&lent[..], &numbers].concat())
        }
        _ => panic!("no edit: {input:02X?}"),
    }
}

/// Calls a function on the stack that ends at `top`.
///
/// # Safety
///
/// The arguments must be those of the function, and the stack must suffice.
unsafe fn call(function: unsafe extern "C" fn(), arguments: &[usize], top: *mut u8) -> u64 {
    let argument = |i: usize| arguments.get(i).copied().unwrap_or_default();
    let answer;
    // What a function is called with in r12 to r15 it leaves there.
    asm!(
        "mov r12, rsp",
        "mov rsp, r13",
        "call r14",
        "mov rsp, r12",
        out("r12") _,
        in("r13") top,
        in("r14") function,
        in("rdi") argument(0),
        in("rsi") argument(1),
        in("rdx") argument(2),
        in("rcx") argument(3),
        in("r8") argument(4),
        in("r9") argument(5),
        lateout("rax") answer,
        clobber_abi("C"),
    );
    answer
}

/// The function that `input` calls, and how many octets of stack the call took:
/// the stack is filled with `paint` before it, and what is another octet then was
/// written.
fn taken(input: &Input, paint: u8) -> (&'static str, usize) {
    let word = u128::from_ne_bytes([paint; 16]);
    let mut stack = [word; WORDS];
    let mut memory = input.lent().to_vec();
    let (name, function, arguments) = call_of(input, &mut memory);
    let top = stack.as_mut_ptr_range().end;
    // SAFETY: the arguments are slices and numbers, as the function takes them. The
    // stack has four times what `bin/stack` lets any function take.
    let answer = unsafe { call(function, &arguments, top.cast()) };
    assert_eq!(answer, compare::proved(input).packed, "{input:02X?}");
    let octets = stack.iter().flat_map(|word| word.to_ne_bytes());
    let untouched = octets.take_while(|&octet| octet == paint).count();
    (name, 16 * WORDS - untouched)
}

/// What `bin/stack` tells: each exported function with its octets.
fn told() -> BTreeMap<String, usize> {
    let home = concat!(env!("CARGO_MANIFEST_DIR"), "/../..");
    let ran = Command::new(format!("{home}/bin/stack"))
        .arg(format!("{home}/crates/boundary/out/libboundary.a"))
        .output()
        .expect("bin/stack");
    let complaint = String::from_utf8_lossy(&ran.stderr);
    assert!(ran.status.success(), "{complaint}");
    let table = String::from_utf8_lossy(&ran.stdout);
    let rows = table.lines().filter(|row| row.starts_with("tk_"));
    rows.map(|row| {
        let mut words = row.split_whitespace();
        let name = words.next().unwrap_or_default().to_owned();
        let octets = words.next().and_then(|word| word.parse().ok());
        (name, octets.expect("a number of octets"))
    })
    .collect()
}

#[test]
fn calls_take_what_is_told() {
    let told = told();
    let mut seen: BTreeMap<String, usize> = BTreeMap::new();
    for index in 0..COUNT {
        let (name, octets) = taken(&input_at(SEED, index), index as u8);
        let most = seen.entry(name.to_owned()).or_default();
        *most = octets.max(*most);
    }
    println!("the most stack that a call took: {seen:#?}");
    assert!(seen.keys().eq(told.keys()), "told: {told:?}");
    for (name, most) in &seen {
        let told = told[name];
        let right = told.saturating_sub(RED_ZONE)..=told;
        assert!(right.contains(most), "{name}: {most}, told {told}");
    }
}
