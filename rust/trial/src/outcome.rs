//! What the plain codec answers to an input, in one form for all kinds.

use crate::input::Input;
use plain::{AddedClass, CarrierRow, Charging, Class, Record, Refusal, Row};
use std::ops::Range;

/// Octets of a row in a lent table: offset (2, least first), header, contents
/// length (2, least first).
pub const ROW_LEN: usize = 5;

/// Octets of the opened charging information: the kind, then eleven numbers (2
/// each, least first).
pub const CHARGING_LEN: usize = 23;

/// Octets of a row of opened carriers: level, tag, then offset, length and count of
/// digits (2 each, least first).
pub const CARRIER_ROW_LEN: usize = 8;

/// What came of a call.
#[derive(Clone, Debug, PartialEq, Eq)]
pub struct Outcome {
    /// The answer, packed: number * 2^32 + place * 2^16 + value. The number is
    /// 0 where the call was accepted.
    pub packed: u64,
    /// The lent memory after the call; empty for a call that lends none.
    pub memory: Vec<u8>,
}

impl Outcome {
    /// The refusal number, 0 where the call was accepted.
    pub fn number(&self) -> u8 {
        (self.packed >> 32) as u8
    }

    /// The place of a refusal, or the offset of what was found.
    pub fn place(&self) -> usize {
        (self.packed >> 16 & 0xFFFF) as usize
    }

    /// The value of an accepted call: a length, a count or a class.
    pub fn value(&self) -> usize {
        (self.packed & 0xFFFF) as usize
    }

    fn new(packed: u64, memory: Vec<u8>) -> Self {
        Outcome { packed, memory }
    }
}

/// Packs an answer with a value only.
#[inline]
pub fn packed(answer: Result<usize, Refusal>) -> u64 {
    packed_range(answer.map(|value| 0..value))
}

/// Packs an answer with a place and a length.
#[inline]
pub fn packed_range(answer: Result<Range<usize>, Refusal>) -> u64 {
    match answer {
        Ok(range) => (range.start as u64) << 16 | range.len() as u64,
        Err(refusal) => u64::from(refusal.number) << 32 | (refusal.place as u64) << 16,
    }
}

/// Puts the input to the plain codec.
pub fn answer(input: &Input) -> Outcome {
    let memory = input.lent().to_vec();
    match input {
        Input::Read { message, .. } => read(plain::read(message), memory),
        Input::Write { image, .. } => write(image, memory, plain::write),
        Input::Rows { message, .. } => listed(memory, |table| plain::spans(message, table)),
        Input::FindCommon { message, header } => found(plain::find_common(message, *header)),
        Input::FindTransfer {
            message,
            name,
            which,
        } => found(plain::find_transfer(message, *name, *which)),
        Input::Class { header, octet } => Outcome::new(class(*header, *octet), memory),
        Input::Replace { .. } | Input::Append { .. } | Input::Remove { .. } => {
            changed(memory, |buffer| edited(input, buffer))
        }
        Input::Charging { message, .. } => charging(message, memory),
        Input::Order { message, .. } => listed(memory, |table| plain::order_spans(message, table)),
        Input::ProfileRead { message, .. } => {
            let read = plain::profile_read(message);
            self::read(read.map(|profile| profile.record), memory)
        }
        Input::ProfileWrite { image, .. } => write(image, memory, plain::profile_write),
        Input::AddedClasses { message, .. } => added_classes(message, memory),
        Input::Carriers { message, which, .. } => carriers(message, *which, memory),
        Input::CarrierDigits {
            message,
            which,
            row,
            ..
        } => {
            let digits = plain::carrier_digits(message, *which, *row);
            changed(memory, |out| put(&digits?, out))
        }
    }
}

fn found(found: Result<Range<usize>, Refusal>) -> Outcome {
    Outcome::new(packed_range(found), Vec::new())
}

fn read(read: Result<Record, Refusal>, mut memory: Vec<u8>) -> Outcome {
    let answer = read.and_then(|record| put(&plain::image(&record), &mut memory));
    Outcome::new(packed(answer), memory)
}

/// Puts octets into the front of lent memory; gives how many they are. Refused is
/// 15 at 0 if the memory is too short.
fn put(octets: &[u8], memory: &mut [u8]) -> Result<usize, Refusal> {
    memory
        .get_mut(..octets.len())
        .ok_or(Refusal::new(Refusal::ROOM_SHORT, 0))?
        .copy_from_slice(octets);
    Ok(octets.len())
}

fn write(
    image: &[u8],
    mut memory: Vec<u8>,
    write: fn(&Record, &mut [u8]) -> Result<usize, Refusal>,
) -> Outcome {
    let answer = plain::from_image(image).and_then(|record| write(&record, &mut memory));
    Outcome::new(packed(answer), memory)
}

fn listed(mut memory: Vec<u8>, list: impl Fn(&mut [Row]) -> Result<usize, Refusal>) -> Outcome {
    let mut table: Vec<Row> = memory.chunks_exact(ROW_LEN).map(row_of).collect();
    let answer = list(&mut table);
    for (octets, row) in memory.chunks_exact_mut(ROW_LEN).zip(&table) {
        octets.copy_from_slice(&octets_of(row));
    }
    Outcome::new(packed(answer), memory)
}

fn row_of(octets: &[u8]) -> Row {
    Row {
        offset: u16::from_le_bytes([octets[0], octets[1]]),
        header: octets[2],
        len: u16::from_le_bytes([octets[3], octets[4]]),
    }
}

/// A row as it stands in a lent table.
pub fn octets_of(row: &Row) -> [u8; ROW_LEN] {
    let [offset_low, offset_high] = row.offset.to_le_bytes();
    let [len_low, len_high] = row.len.to_le_bytes();
    [offset_low, offset_high, row.header, len_low, len_high]
}

fn class(header: u8, octet: u8) -> u64 {
    packed(plain::class_of(header, octet).map(|class| match class {
        Class::Named => 0,
        Class::HeldBack => 1,
        Class::Spare => 2,
    }))
}

fn charging(message: &[u8], mut memory: Vec<u8>) -> Outcome {
    let opened = plain::charging(message);
    let answer = opened.and_then(|charging| put(&charging_octets(&charging), &mut memory));
    Outcome::new(packed(answer), memory)
}

/// The charging information as it stands in lent octets.
pub fn charging_octets(charging: &Charging) -> [u8; CHARGING_LEN] {
    let numbers = [
        charging.unit_fee,
        charging.initial_units,
        charging.day,
        charging.night,
        charging.late_night_1,
        charging.late_night_2,
        charging.mbi,
        charging.information_interval,
        charging.information_units,
        charging.free_time,
        charging.check_digit,
    ];
    let mut octets = [charging.kind; CHARGING_LEN];
    for (two, number) in octets[1..].chunks_exact_mut(2).zip(numbers) {
        two.copy_from_slice(&number.to_le_bytes());
    }
    octets
}

fn added_classes(message: &[u8], mut memory: Vec<u8>) -> Outcome {
    let opened = plain::added_classes(message);
    let answer = opened.and_then(|classes| put(&added_octets(&classes), &mut memory));
    Outcome::new(packed(answer), memory)
}

/// Added classes as they stand in lent octets: the name and the value of each.
fn added_octets(classes: &[AddedClass]) -> Vec<u8> {
    let pair = |class: &AddedClass| [class.name.octet(), class.value];
    classes.iter().flat_map(pair).collect()
}

fn carriers(message: &[u8], which: usize, mut memory: Vec<u8>) -> Outcome {
    let rows = memory.chunks_exact(CARRIER_ROW_LEN).map(carrier_row_of);
    let mut table: Vec<CarrierRow> = rows.collect();
    let answer = plain::carrier_spans(message, which, &mut table);
    for (octets, row) in memory.chunks_exact_mut(CARRIER_ROW_LEN).zip(&table) {
        octets.copy_from_slice(&carrier_octets(row));
    }
    Outcome::new(packed(answer), memory)
}

fn carrier_row_of(octets: &[u8]) -> CarrierRow {
    let number = |low: usize| u16::from_le_bytes([octets[low], octets[low + 1]]);
    CarrierRow {
        level: octets[0],
        tag: octets[1],
        offset: number(2),
        len: number(4),
        digits: number(6),
    }
}

/// A row of opened carriers as it stands in a lent table.
pub fn carrier_octets(row: &CarrierRow) -> [u8; CARRIER_ROW_LEN] {
    let [a, b] = row.offset.to_le_bytes();
    let [c, d] = row.len.to_le_bytes();
    let [e, f] = row.digits.to_le_bytes();
    [row.level, row.tag, a, b, c, d, e, f]
}

/// What an edit makes of the buffer; 0 for a call that is none.
fn edited(input: &Input, buffer: &mut [u8]) -> Result<usize, Refusal> {
    match input {
        Input::Replace { n, new, which, .. } => plain::replace(buffer, (*n).into(), new, *which),
        Input::Append { n, new, .. } => plain::append(buffer, (*n).into(), new),
        Input::Remove { n, name, which, .. } => plain::remove(buffer, (*n).into(), *name, *which),
        _ => Ok(0),
    }
}

fn changed(
    mut memory: Vec<u8>,
    change: impl FnOnce(&mut [u8]) -> Result<usize, Refusal>,
) -> Outcome {
    let answer = change(&mut memory);
    Outcome::new(packed(answer), memory)
}
