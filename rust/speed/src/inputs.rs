//! What the operations are handed, made of the messages of a class.

use crate::class::size_at;
use plain::common::{MESSAGE_LIMIT, TRANSFER_DATA};
use plain::transfer::name_of;
use trial::messages::sound_draft;
use trial::parameters::{shortest, sound};
use trial::Rng;

/// A name that is sought or replaced where a message has no transfer parameter.
const ABSENT: u8 = 0x10;

/// The name of each transfer parameter of a message, and octets for it.
fn transfers(message: &[u8]) -> Vec<(u8, usize)> {
    let Ok(data) = plain::find_common(message, TRANSFER_DATA) else {
        return Vec::new();
    };
    let rows = plain::rows(message).unwrap_or_default();
    rows.iter()
        .filter(|row| data.contains(&row.offset.into()))
        .map(|row| (name_of(row.header), usize::from(row.len) + 2))
        .collect()
}

/// Each message with the name to be found in it, its last.
pub fn finds(messages: Vec<Vec<u8>>) -> Vec<(Vec<u8>, u8)> {
    let last = |message: &[u8]| transfers(message).last().map_or(ABSENT, |(name, _)| *name);
    let names: Vec<u8> = messages.iter().map(|message| last(message)).collect();
    messages.into_iter().zip(names).collect()
}

/// Each message with a transfer parameter for the place of one that it has, of
/// the same name and about as long at most. A message that has none gets any.
pub fn replacements(rng: &mut Rng, messages: Vec<Vec<u8>>) -> Vec<(Vec<u8>, Vec<u8>)> {
    let mut new = |message: &[u8]| match &transfers(message)[..] {
        [] => vec![0x80 | ABSENT, 0x02, 0x21],
        present => {
            let (name, room) = rng.pick(present);
            sound(rng, name, room.max(shortest(name)))
        }
    };
    let new: Vec<_> = messages.iter().map(|message| new(message)).collect();
    messages.into_iter().zip(new).collect()
}

/// Whether it is a sound message without a transfer parameter to replace.
pub fn is_bare(message: &[u8]) -> bool {
    plain::verdict(message).is_ok() && transfers(message).is_empty()
}

/// The image of each message's record; of one that is refused, an image that
/// writing refuses, for one octet that is another.
pub fn images(rng: &mut Rng, messages: &[Vec<u8>]) -> Vec<Vec<u8>> {
    let image = |(index, message): (usize, &Vec<u8>)| match plain::read(message) {
        Ok(record) => plain::image(&record),
        Err(_) => spoilt_image(rng, index),
    };
    messages.iter().enumerate().map(image).collect()
}

fn spoilt_image(rng: &mut Rng, index: usize) -> Vec<u8> {
    loop {
        let mut image = plain::image(&plain_record(&sound_at(rng, index)));
        let at = rng.below(image.len());
        image[at] = rng.octet();
        if plain::from_image(&image).map_or(true, |record| !is_written(&record)) {
            return image;
        }
    }
}

/// The record of each message in both codecs' types; of one that is refused, a
/// record that writing refuses, for the header of a common parameter that is
/// another: a fault that both types can hold.
pub fn records(rng: &mut Rng, messages: &[Vec<u8>]) -> (Vec<codec::Record>, Vec<plain::Record>) {
    let pair = |(index, message): (usize, &Vec<u8>)| match plain::read(message) {
        Ok(record) => (proved_record(message), record),
        Err(_) => spoilt_records(rng, index),
    };
    messages.iter().enumerate().map(pair).unzip()
}

fn spoilt_records(rng: &mut Rng, index: usize) -> (codec::Record, plain::Record) {
    loop {
        let message = sound_at(rng, index);
        let mut plain = plain_record(&message);
        let (at, header) = (rng.below(plain.common.len()), rng.octet());
        plain.common[at].header = header;
        if !is_written(&plain) {
            let mut proved = proved_record(&message);
            proved.common[at].header = header;
            return (proved, plain);
        }
    }
}

/// A sound message of the size that the one at `index` has.
fn sound_at(rng: &mut Rng, index: usize) -> Vec<u8> {
    sound_draft(rng, size_at(index)).octets()
}

fn plain_record(message: &[u8]) -> plain::Record {
    plain::read(message).expect("a sound message")
}

fn proved_record(message: &[u8]) -> codec::Record {
    codec::read(message).expect("a sound message")
}

fn is_written(record: &plain::Record) -> bool {
    plain::write(record, &mut [0; MESSAGE_LIMIT]).is_ok()
}
