//! One input after another.

use crate::input::{Input, Kind, KINDS};
use crate::messages::{charged_message, enquiry, message, ordered_message};
use crate::messages::{message_with_bad_digits, message_with_carriers, sound_draft};
use crate::messages::{sound_message, sound_message_with_carriers, Size};
use crate::outcome::{CARRIER_ROW_LEN, CHARGING_LEN, ROW_LEN};
use crate::parameters::{carriers_somehow, charging_somehow, order_somehow, sound_carriers};
use crate::parameters::{shuffled_names, sound, spoilt_somehow};
use crate::parameters::{CARRIERS_NAME, CHARGING_NAME, ORDER_NAME};
use crate::records;
use crate::rng::Rng;
use plain::transfer::{name_of, ADDED_CLASSES};
use plain::CarrierRow;

/// The input at `index` under `seed`.
pub fn input_at(seed: u64, index: u64) -> Input {
    generate(&mut Rng::nth(seed, index))
}

/// An input of any kind.
pub fn generate(rng: &mut Rng) -> Input {
    // Read, write, rows, the two finds, class, replace, append, remove, charging,
    // order; by the profile read, write and added classes; carriers, their digits.
    let kind = KINDS[rng.weighted(&[22, 26, 8, 6, 10, 4, 15, 13, 8, 10, 12, 9, 13, 9, 12, 12])];
    match kind {
        Kind::Read => read(rng),
        Kind::Write => write(rng),
        Kind::Rows => rows(rng),
        Kind::FindCommon => find_common(rng),
        Kind::FindTransfer => find_transfer(rng),
        Kind::Class => class(rng),
        Kind::Replace | Kind::Append => edit(rng, kind),
        Kind::Remove => remove(rng),
        Kind::Charging => charging(rng),
        Kind::Order => order(rng),
        Kind::ProfileRead => profile_read(rng),
        Kind::ProfileWrite => profile_write(rng),
        Kind::AddedClasses => added_classes(rng),
        Kind::Carriers => carriers(rng),
        Kind::CarrierDigits => carrier_digits(rng),
    }
}

/// Memory to lend where `needed` octets would do: more, just so many, or too few.
fn lent(rng: &mut Rng, needed: usize) -> Vec<u8> {
    let len = match rng.weighted(&[4, 4, 1, 1]) {
        0 => needed + rng.between(1, 40),
        1 => needed,
        2 => needed.saturating_sub(1),
        _ => rng.between(0, needed),
    };
    rng.octets(len)
}

fn read(rng: &mut Rng) -> Input {
    let message = message(rng);
    let image = lent_image(rng, &message);
    Input::Read { message, image }
}

/// Memory to lend for the image of the message's record.
fn lent_image(rng: &mut Rng, message: &[u8]) -> Vec<u8> {
    let needed = plain::read(message).map_or(0, |record| plain::image(&record).len());
    lent(rng, needed)
}

fn write(rng: &mut Rng) -> Input {
    let image = records::image(rng);
    let room = lent_room(rng, &image);
    Input::Write { image, room }
}

/// Memory to lend for the message of the image's record.
fn lent_room(rng: &mut Rng, image: &[u8]) -> Vec<u8> {
    let written = plain::from_image(image).and_then(|record| plain::write(&record, &mut [0; 272]));
    lent(rng, written.unwrap_or(0))
}

fn rows(rng: &mut Rng) -> Input {
    let message = message(rng);
    let needed = plain::rows(&message).map_or(0, |rows| ROW_LEN * rows.len());
    let table = lent(rng, needed);
    Input::Rows { message, table }
}

fn find_common(rng: &mut Rng) -> Input {
    let message = message(rng);
    let header = match rng.below(8) {
        0 => rng.octet(),
        1 => 0x00,
        _ => rng.pick(&[0x01, 0x06, 0x82, 0x83, 0x04, 0xC5, 0xC5]),
    };
    Input::FindCommon { message, header }
}

/// The names that stand in a message, none if reading refuses it.
fn names_in(message: &[u8]) -> Vec<u8> {
    let data = plain::find_common(message, 0xC5).unwrap_or(0..0);
    let rows = plain::rows(message).unwrap_or_default();
    rows.iter()
        .filter(|row| data.contains(&row.offset.into()))
        .map(|row| row.header & 0x3F)
        .collect()
}

/// A name, as a rule one that stands in the message.
fn name_for(rng: &mut Rng, message: &[u8]) -> u8 {
    let names = names_in(message);
    match rng.below(8) {
        0 => rng.octet(),
        1 => rng.octet() & 0x3F,
        2 => CARRIERS_NAME,
        3 if names.contains(&CARRIERS_NAME) => CARRIERS_NAME,
        _ if names.is_empty() => rng.octet() & 0x3F,
        4 => rng.pick(&names) | rng.pick(&[0x40, 0x80, 0xC0]),
        _ => rng.pick(&names),
    }
}

/// Numbers that count more than there is, some of them 0 where octets are lost.
const TOO_FAR: [usize; 6] = [3, 256, 65_536, 1 << 32, usize::MAX, usize::MAX];

/// Which of so many, counted from 0: as a rule one that is there.
fn which_of(rng: &mut Rng, count: usize) -> usize {
    match rng.below(8) {
        0 => rng.pick(&TOO_FAR),
        1 => count,
        _ => rng.below(count.max(1)),
    }
}

/// Which of the parameters of this name: as a rule one that stands in the message.
fn which_for(rng: &mut Rng, message: &[u8], name: u8) -> usize {
    let names = names_in(message);
    let count = names.iter().filter(|&&known| known == name).count();
    which_of(rng, count)
}

fn find_transfer(rng: &mut Rng) -> Input {
    let message = match rng.below(4) {
        0 => sound_message_with_carriers(rng),
        _ => message(rng),
    };
    let name = name_for(rng, &message);
    let which = which_for(rng, &message, name);
    Input::FindTransfer {
        message,
        name,
        which,
    }
}

fn class(rng: &mut Rng) -> Input {
    const LISTED: [u8; 14] = [
        0x42, 0x46, 0x52, 0x67, 0x68, 0x6E, 0x6F, 0x75, 0x79, 0x7A, 0x7C, 0x7E, 0xD7, 0xDC,
    ];
    let header = match rng.below(5) {
        0 => rng.octet(),
        _ => rng.pick(&LISTED),
    };
    let octet = match rng.below(2) {
        0 => rng.octet(),
        _ => rng.octet() & 0x0F,
    };
    Input::Class { header, octet }
}

/// A message to edit: as a rule one that reading accepts.
fn edited_message(rng: &mut Rng) -> Vec<u8> {
    match rng.weighted(&[24, 4, 4, 3, 16, 10]) {
        0 => sound_message(rng),
        1 => sound_draft(rng, Size::Near).octets(),
        2 => sound_draft(rng, Size::Full).octets(),
        3 => message_with_bad_digits(rng),
        4 => message(rng),
        _ => sound_message_with_carriers(rng),
    }
}

/// The message's length, as a rule the right one.
fn length_for(rng: &mut Rng, message: &[u8], buffer: &[u8]) -> u16 {
    let n = match rng.weighted(&[20, 1, 1, 1, 1]) {
        0 => message.len(),
        1 => rng.between(0, message.len()),
        2 => rng.between(message.len(), buffer.len()),
        3 => buffer.len() + rng.between(1, 3),
        _ => rng.pick(&[0, buffer.len(), message.len() + 1, 273, 0xFFFF]),
    };
    n as u16
}

/// A buffer with the message in front, and as many octets past it.
fn buffer_of(rng: &mut Rng, message: &[u8], past: usize) -> Vec<u8> {
    [message, &rng.octets(past)].concat()
}

/// A replacement, or an appending, which has no `which`.
fn edit(rng: &mut Rng, kind: Kind) -> Input {
    let message = edited_message(rng);
    let new = new_parameter(rng, kind, &message);
    let name = new.first().map_or(0, |&header| name_of(header));
    let which = which_for(rng, &message, name);
    let growth = growth(kind, &message, &new, which);
    let past = match rng.below(6) {
        0 => 0,
        1 | 2 => growth,
        3 => growth.saturating_sub(1),
        _ => rng.between(0, 60),
    };
    let buffer = buffer_of(rng, &message, past);
    let n = length_for(rng, &message, &buffer);
    match kind {
        Kind::Replace => Input::Replace {
            buffer,
            n,
            new,
            which,
        },
        _ => Input::Append { buffer, n, new },
    }
}

/// By how many octets the edit makes the message longer; 0 where it does not.
fn growth(kind: Kind, message: &[u8], new: &[u8], which: usize) -> usize {
    let mut buffer = [message, new].concat();
    let n = message.len();
    let edited = match kind {
        Kind::Replace => plain::replace(&mut buffer, n, new, which),
        _ => plain::append(&mut buffer, n, new),
    };
    edited.unwrap_or(n).saturating_sub(n)
}

/// A new parameter for the message: as a rule sound, and of a name that stands
/// there if it is to be replaced, or does not if it is to be appended.
fn new_parameter(rng: &mut Rng, kind: Kind, message: &[u8]) -> Vec<u8> {
    let names = names_in(message);
    let wanted = |name: &u8| names.contains(name) == (kind == Kind::Replace);
    match rng.weighted(&[14, 5, 3, 1, 1, 3, 12, 9]) {
        5 if wanted(&CHARGING_NAME) => charging_somehow(rng),
        6 if wanted(&ORDER_NAME) => order_somehow(rng),
        7 if kind == Kind::Append || wanted(&CARRIERS_NAME) => match rng.one_in(2) {
            true => sound_carriers(rng),
            false => carriers_somehow(rng),
        },
        0 | 5..=7 => {
            let all = shuffled_names(rng);
            let name = all.iter().copied().find(wanted).unwrap_or(all[0]);
            let room = rng.pick(&[6, 12, 12, 257]);
            sound(rng, name, room)
        }
        1 => spoilt_of(rng, |new| wanted(&(new[0] & 0x3F))),
        2 => {
            let name = rng.octet() & 0x3F;
            sound(rng, name, 24)
        }
        3 => vec![],
        _ => {
            let len = rng.below(6);
            rng.octets(len)
        }
    }
}

/// A spoilt parameter, with luck a fitting one.
fn spoilt_of(rng: &mut Rng, fitting: impl Fn(&[u8]) -> bool) -> Vec<u8> {
    let mut new = spoilt_somehow(rng);
    for _ in 0..8 {
        if fitting(&new) {
            break;
        }
        new = spoilt_somehow(rng);
    }
    new
}

fn remove(rng: &mut Rng) -> Input {
    let message = edited_message(rng);
    let name = name_for(rng, &message);
    let which = which_for(rng, &message, name);
    let past = match rng.below(3) {
        0 => 0,
        _ => rng.between(0, 60),
    };
    let buffer = buffer_of(rng, &message, past);
    let n = length_for(rng, &message, &buffer);
    Input::Remove {
        buffer,
        n,
        name,
        which,
    }
}

fn charging(rng: &mut Rng) -> Input {
    let message = match rng.below(4) {
        0 => message(rng),
        _ => charged_message(rng),
    };
    let out = lent(rng, CHARGING_LEN);
    Input::Charging { message, out }
}

fn order(rng: &mut Rng) -> Input {
    let message = match rng.below(4) {
        0 => message(rng),
        _ => ordered_message(rng),
    };
    let needed = plain::order(&message).map_or(0, |rows| ROW_LEN * rows.len());
    let table = lent(rng, needed);
    Input::Order { message, table }
}

/// A message for the calls of the mobile call profile.
fn message_for_profile(rng: &mut Rng) -> Vec<u8> {
    match rng.below(4) {
        0 => message(rng),
        _ => enquiry(rng),
    }
}

/// The memory is lent for the image also where the profile refuses the message.
fn profile_read(rng: &mut Rng) -> Input {
    let message = message_for_profile(rng);
    let image = lent_image(rng, &message);
    Input::ProfileRead { message, image }
}

fn profile_write(rng: &mut Rng) -> Input {
    let image = match rng.below(3) {
        0 => records::image(rng),
        _ => records::enquiry_image(rng),
    };
    let room = lent_room(rng, &image);
    Input::ProfileWrite { image, room }
}

fn added_classes(rng: &mut Rng) -> Input {
    let message = message_for_profile(rng);
    let found = plain::find_transfer(&message, name_of(ADDED_CLASSES), 0);
    let out = lent(rng, found.map_or(0, |contents| contents.len()));
    Input::AddedClasses { message, out }
}

/// A message whose carriers are to be opened, and which of them.
fn carriers_to_open(rng: &mut Rng) -> (Vec<u8>, usize) {
    let message = match rng.below(8) {
        0 => message(rng),
        1..=3 => message_with_carriers(rng),
        _ => sound_message_with_carriers(rng),
    };
    let which = which_for(rng, &message, CARRIERS_NAME);
    (message, which)
}

fn carriers(rng: &mut Rng) -> Input {
    let (message, which) = carriers_to_open(rng);
    let rows = plain::carriers(&message, which).unwrap_or_default();
    let table = lent(rng, CARRIER_ROW_LEN * rows.len());
    Input::Carriers {
        message,
        which,
        table,
    }
}

fn carrier_digits(rng: &mut Rng) -> Input {
    let (message, which) = carriers_to_open(rng);
    let rows = plain::carriers(&message, which).unwrap_or_default();
    let row = row_for(rng, &rows);
    let needed = rows.get(row).map_or(0, |row| row.digits.into());
    let out = lent(rng, needed);
    Input::CarrierDigits {
        message,
        which,
        row,
        out,
    }
}

/// Which of the rows, counted from 0: as a rule one of a code.
fn row_for(rng: &mut Rng, rows: &[CarrierRow]) -> usize {
    let is_code = |row: &CarrierRow| (row.level, row.tag) == (2, 0xFE);
    let codes: Vec<usize> = (0..rows.len()).filter(|&at| is_code(&rows[at])).collect();
    match rng.below(4) {
        0 => which_of(rng, rows.len()),
        _ if codes.is_empty() => which_of(rng, rows.len()),
        _ => rng.pick(&codes),
    }
}
