//! Records and their images: sound, with fields out of range, over the limits.

use crate::messages::sound_message_with_carriers;
use crate::messages::{self, enquiry_draft, sound_draft, with_alone, Size};
use crate::parameters::{shuffled_names, sound, sound_carriers, spoilt_carriers};
use crate::parameters::{spoilt_charging, spoilt_order, spoilt_somehow, CARRIERS_NAME};
use crate::record::{fields_in, fields_of, Common, Record, Transfer, WITH_FIELDS};
use crate::record::{INCOMPLETE, NUMBER_TYPE, PLAN, PRESENTATION, SCREENING};
use crate::rng::Rng;

/// An image of any kind: of a sound record, of a damaged one, or of none.
pub fn image(rng: &mut Rng) -> Vec<u8> {
    let mut image = match rng.weighted(&[5, 2, 10, 3]) {
        0 => sound_record(rng).image(),
        1 => {
            let record = sound_record(rng);
            noisy_image(rng, &record)
        }
        2 => {
            let mut record = sound_record(rng);
            damage(rng, &mut record);
            if rng.one_in(4) {
                damage(rng, &mut record);
            }
            record.image()
        }
        _ => heavy_record(rng).image(),
    };
    if rng.one_in(16) {
        messages::scratch(rng, &mut image);
    }
    image
}

/// An image of a call enquiry, in the mobile call profile or not; as a rule sound
/// in all that the profile does not ask about.
pub fn enquiry_image(rng: &mut Rng) -> Vec<u8> {
    let message = enquiry_draft(rng).octets();
    let mut record = Record::read(&message).unwrap_or_default();
    match rng.below(6) {
        0 => noisy_image(rng, &record),
        1 => {
            damage(rng, &mut record);
            record.image()
        }
        _ => record.image(),
    }
}

/// A record that writing accepts, if the room is long enough.
fn sound_record(rng: &mut Rng) -> Record {
    let message = match rng.below(10) {
        0 => sound_message_with_carriers(rng),
        _ => messages::sound_message(rng),
    };
    Record::read(&message).unwrap_or_default()
}

/// How a record holds the transfer parameter in these octets, if it is sound.
pub fn held(parameter: &[u8]) -> Option<Transfer> {
    let mut record = Record::read(&with_alone(parameter)).ok()?;
    record.common.pop()?.transfers.pop()
}

/// A record whose transfer data comes near the limits, from below or above.
fn heavy_record(rng: &mut Rng) -> Record {
    let mut transfers = heavy_transfers(rng);
    if rng.one_in(4) {
        let at = rng.below(transfers.len());
        transfers[at].header ^= rng.pick(&[0x01, 0x40, 0x80, 0xC0, 0xC1]);
    }
    let mut record = Record::read(&sound_draft(rng, Size::Crowd).octets()).unwrap_or_default();
    if let Some(data) = data_of(&mut record) {
        data.transfers = transfers;
    }
    if rng.one_in(8) {
        split_data(rng, &mut record);
    }
    if rng.one_in(4) {
        damage_common(rng, &mut record);
    }
    record
}

/// Sound transfer parameters whose contents come to 225 to 257 octets.
fn heavy_transfers(rng: &mut Rng) -> Vec<Transfer> {
    let mut left = rng.between(225, 257);
    let mut transfers = Vec::new();
    for name in shuffled_names(rng) {
        let room = rng.between(6, 120);
        let Some(transfer) = held(&sound(rng, name, room)) else {
            continue;
        };
        if transfer.contents_len() <= left {
            left -= transfer.contents_len();
            transfers.push(transfer);
        }
        if rng.one_in(30) {
            break;
        }
    }
    let used = |name: u8| transfers.iter().any(|t| t.header & 0x3F == name);
    let carried = [0x0E, 0x0D, 0x13, 0x29, 0x38];
    if let Some(name) = carried.into_iter().find(|&name| !used(name)) {
        transfers.push(Transfer {
            header: 0xC0 | name,
            values: rng.octets(left),
            ..Transfer::default()
        });
    }
    transfers
}

/// Takes a C5 apart into two.
fn split_data(rng: &mut Rng, record: &mut Record) {
    let Some(data) = data_of(record) else {
        return;
    };
    let at = rng.between(0, data.transfers.len());
    let transfers = data.transfers.split_off(at);
    let to = rng.between(0, record.common.len());
    let second = Common {
        header: 0xC5,
        transfers,
        ..Common::default()
    };
    record.common.insert(to, second);
}

fn data_of(record: &mut Record) -> Option<&mut Common> {
    record.common.iter_mut().find(|c| c.header == 0xC5)
}

/// Damages a record somewhere.
fn damage(rng: &mut Rng, record: &mut Record) {
    if rng.below(3) > 0 {
        if let Some(data) = data_of(record) {
            return damage_transfers(rng, &mut data.transfers);
        }
    }
    damage_common(rng, record);
}

fn damage_common(rng: &mut Rng, record: &mut Record) {
    if record.common.is_empty() {
        return;
    }
    let at = rng.below(record.common.len());
    match rng.below(13) {
        0 => record.common[at].header = rng.octet(),
        1 => record.common[at].header = rng.pick(&[0x00, 0x01, 0x06, 0x82, 0x83, 0x04, 0xC5]),
        2..=4 => {
            let parameter = &mut record.common[at];
            parameter.value = match rng.below(6) {
                0 => rng.number() as u32,
                1 => rng.pick(&[0, 0xFF, 0x100, 0x00FF_FFFF, 0x0100_0000, u32::MAX]),
                2 => parameter.value | 1 << rng.between(8, 31),
                3 => parameter.value ^ 1 << rng.below(8),
                _ => rng.octet().into(),
            };
        }
        5 | 6 => {
            let again = record.common[at].clone();
            let to = rng.between(0, record.common.len());
            record.common.insert(to, again);
        }
        7 => {
            record.common.remove(at);
        }
        8 => record.common.retain(|c| !matches!(c.header, 0x01 | 0x06)),
        9 => split_data(rng, record),
        10 | 11 => damage_sequence(rng, record),
        _ => {
            let more = record.common.clone();
            record.common.extend(more);
        }
    }
}

/// Numbers that a 04 may not have: next to 1, at the limits of its bits, of an
/// octet and of what a record can hold, and 1 with one more bit set.
const OTHER_NUMBERS: [u32; 12] = [
    0,
    2,
    127,
    128,
    129,
    255,
    256,
    257,
    0x8001,
    0x1_0001,
    0x100_0001,
    u32::MAX,
];

/// Gives a 04, one that is there or one more, another number than 1, a mark that
/// is too large, or both.
fn damage_sequence(rng: &mut Rng, record: &mut Record) {
    let number = rng.pick(&OTHER_NUMBERS);
    let mark = rng.pick(&[2, 3, 127, 128, 129, 255]);
    let (value, more_data) = match rng.below(4) {
        0 | 1 => (number, rng.below(2) as u8),
        2 => (1, mark),
        _ => (number, mark),
    };
    let sequence = Common {
        header: 0x04,
        value,
        more_data,
        transfers: Vec::new(),
    };
    match record.common.iter_mut().find(|c| c.header == 0x04) {
        Some(found) if rng.below(4) > 0 => *found = sequence,
        _ => {
            let to = rng.between(0, record.common.len());
            record.common.insert(to, sequence);
        }
    }
}

fn damage_transfers(rng: &mut Rng, transfers: &mut Vec<Transfer>) {
    let parameter = match rng.below(18) {
        0 | 1 if !transfers.is_empty() => {
            let mut again = transfers[rng.below(transfers.len())].clone();
            if rng.one_in(3) {
                damage_transfer(rng, &mut again);
            }
            again
        }
        2 => as_octets(&spoilt_somehow(rng)),
        3 => stranger(rng),
        4 => not_withheld(rng),
        5 => twofold(rng),
        6 if rng.one_in(3) => crowd(rng, transfers),
        7 | 8 => alone_of_its_name(transfers, at_limit(rng)),
        9 => alone_of_its_name(transfers, as_octets(&spoilt_charging(rng))),
        10 | 11 => alone_of_its_name(transfers, as_octets(&spoilt_order(rng))),
        12 | 13 => alone_of_its_name(transfers, as_octets(&spoilt_carriers(rng))),
        14 => more_carriers(rng, transfers),
        _ if !transfers.is_empty() => {
            let at = rng.below(transfers.len());
            damage_transfer(rng, &mut transfers[at]);
            if rng.one_in(4) {
                damage_transfer(rng, &mut transfers[at]);
            }
            return;
        }
        _ => stranger(rng),
    };
    let to = rng.between(0, transfers.len());
    transfers.insert(to, parameter);
}

/// The parameter, those of its name taken out of `transfers`.
fn alone_of_its_name(transfers: &mut Vec<Transfer>, parameter: Transfer) -> Transfer {
    transfers.retain(|t| (t.header ^ parameter.header) & 0x3F != 0);
    parameter
}

/// Brings the CC among the transfer parameters to two or three, and gives one more,
/// sound or spoilt.
fn more_carriers(rng: &mut Rng, transfers: &mut Vec<Transfer>) -> Transfer {
    let is_carriers = |t: &&Transfer| t.header & 0x3F == CARRIERS_NAME;
    let count = transfers.iter().filter(is_carriers).count();
    for _ in count..rng.pick(&[2, 3, 3]) {
        let to = rng.between(0, transfers.len());
        transfers.insert(to, as_octets(&sound_carriers(rng)));
    }
    as_octets(&match rng.below(3) {
        0 => spoilt_carriers(rng),
        _ => sound_carriers(rng),
    })
}

/// Brings the transfer parameters to 52 to 55, and gives one more.
fn crowd(rng: &mut Rng, transfers: &mut Vec<Transfer>) -> Transfer {
    let bare = Transfer {
        header: rng.octet(),
        ..Transfer::default()
    };
    transfers.resize(rng.between(52, 55), bare.clone());
    bare
}

/// A parameter that is sound but for one field, which is as large as it can be,
/// or larger.
fn at_limit(rng: &mut Rng) -> Transfer {
    let header = rng.pick(&WITH_FIELDS);
    let len = rng.below(6);
    let mut parameter = Transfer {
        header,
        values: digits(rng, header, len),
        ..Transfer::default()
    };
    let fields = fields_of(header);
    for &(index, most) in fields {
        parameter.fields[index] = rng.between(0, most.into()) as u8;
    }
    if parameter.fields[PRESENTATION] == 2 {
        parameter.fields[PRESENTATION] = 1;
    }
    let (index, most) = rng.pick(fields);
    parameter.fields[index] = rng.pick(&[most, most + 1, most + 1, 2 * most + 1, 255]);
    parameter
}

/// So many digits as a record holds them under this header: DA has 06 before
/// them.
fn digits(rng: &mut Rng, header: u8, len: usize) -> Vec<u8> {
    let first = (header == 0xDA).then_some(0x06);
    let digits = (0..len).map(|_| rng.below(12) as u8);
    first.into_iter().chain(digits).collect()
}

/// DC with presentation 2 and, as a rule, something that must not stand beside it.
fn not_withheld(rng: &mut Rng) -> Transfer {
    let mut parameter = Transfer {
        header: rng.pick(&[0xDC, 0xDC, 0xDC, 0xD7]),
        ..Transfer::default()
    };
    parameter.fields[PRESENTATION] = 2;
    parameter.fields[SCREENING] = rng.octet() & 0x03;
    match rng.below(6) {
        0 => parameter.fields[NUMBER_TYPE] = rng.octet() & 0x7F,
        1 => parameter.fields[INCOMPLETE] = 1,
        2 => parameter.fields[PLAN] = rng.octet() & 0x07,
        3 => parameter.values.push(rng.octet() & 0x0F),
        4 => *any_field(rng, &mut parameter) = 0,
        _ => {}
    }
    parameter
}

/// Digits with more than one thing wrong about them.
fn twofold(rng: &mut Rng) -> Transfer {
    let header = rng.pick(&[0x90, 0x91, 0x95, 0x98, 0xA3, 0xD7, 0xDC, 0xDA]);
    let len = rng.pick(&[1, 2, 62, 63, 64, 65]);
    let mut values = digits(rng, header, len);
    if rng.one_in(2) {
        let at = values.len() - 1 - rng.below(len);
        values[at] = 12;
    }
    let mut parameter = Transfer {
        header,
        values,
        ..Transfer::default()
    };
    for _ in 0..rng.below(4) {
        *any_field(rng, &mut parameter) = 2;
    }
    parameter
}

/// A parameter whose octets after the header, or after the length octet, are
/// its values whatever they mean.
fn as_octets(parameter: &[u8]) -> Transfer {
    let header = parameter[0];
    let skip = if header >> 6 == 3 { 2 } else { 1 };
    Transfer {
        header,
        values: parameter.get(skip..).unwrap_or(&[]).to_vec(),
        ..Transfer::default()
    }
}

/// A parameter of a name in use, as a rule held soundly but for one damage.
fn stranger(rng: &mut Rng) -> Transfer {
    let name = shuffled_names(rng)[0];
    let mut parameter = held(&sound(rng, name, 12)).unwrap_or_default();
    damage_transfer(rng, &mut parameter);
    parameter
}

/// Damages a transfer parameter: its header, its fields or its values.
fn damage_transfer(rng: &mut Rng, parameter: &mut Transfer) {
    match rng.below(12) {
        0 => parameter.header = rng.octet(),
        1 => parameter.header ^= rng.pick(&[0x40, 0x80, 0xC0]),
        2..=4 => {
            let value = match rng.below(3) {
                0 => rng.octet(),
                1 => rng.pick(&[0, 1, 2, 3, 4, 7, 8, 127, 128, 255]),
                _ => rng.octet() & 0x03,
            };
            *any_field(rng, parameter) = value;
        }
        5 => {
            for value in rng.octets(8) {
                *any_field(rng, parameter) = value;
            }
        }
        6 => parameter.fields[PRESENTATION] = 2,
        _ => damage_values(rng, &mut parameter.values),
    }
}

fn damage_values(rng: &mut Rng, values: &mut Vec<u8>) {
    match rng.below(5) {
        0 => {
            let digit = rng.pick(&[10, 11, 12, 13, 15, 16, 255]);
            let at = rng.between(0, values.len());
            values.insert(at, digit);
        }
        1 => {
            if !values.is_empty() {
                let at = rng.below(values.len());
                values[at] = rng.octet();
            }
        }
        2 => {
            values.pop();
        }
        3 => values.push(rng.octet() & 0x0F),
        _ => {
            let len = rng.pick(&[0, 1, 2, 3, 5, 62, 63, 64, 65, 127, 128, 253, 254, 255, 256]);
            let len = len * rng.between(1, 2) + rng.below(2);
            let value = rng.octet() & 0x0F;
            values.resize(len, value);
        }
    }
}

/// One of the eight fields.
fn any_field<'t>(rng: &mut Rng, parameter: &'t mut Transfer) -> &'t mut u8 {
    &mut parameter.fields[rng.below(8)]
}

/// The image with any octets where nothing is looked at.
fn noisy_image(rng: &mut Rng, record: &Record) -> Vec<u8> {
    let mut octets = vec![record.common.len() as u8];
    for parameter in &record.common {
        let mut parameter = parameter.clone();
        if parameter.header != 0x04 {
            parameter.more_data = rng.octet();
        }
        let count = if parameter.header == 0xC5 {
            parameter.value = rng.number() as u32;
            for transfer in &mut parameter.transfers {
                add_noise(rng, transfer);
            }
            parameter.transfers.len() as u8
        } else {
            rng.octet()
        };
        parameter.put(&mut octets, count);
    }
    octets
}

/// Fills the fields that a parameter does not have.
fn add_noise(rng: &mut Rng, parameter: &mut Transfer) {
    let own = fields_in(parameter);
    for index in (0..8).filter(|index| own.iter().all(|(i, _)| i != index)) {
        parameter.fields[index] = rng.octet();
    }
}
