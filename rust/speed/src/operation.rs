//! The operations, each on both sides.

use crate::class::Class;
use crate::inputs::{finds, images, is_bare, records, replacements};
use crate::side::{side, Left, Sides};
use codec::{boundary, IMAGE_MAX, MESSAGE_MAX};
use plain::listing::ROW_LIMIT;
use plain::{Refusal, Row};
use trial::outcome::{packed, packed_range, ROW_LEN};
use trial::Rng;

/// An operation of the proved codec: a function of the static library, or one
/// of the crate `codec`. The plain codec does the same with its own types.
#[derive(Clone, Copy, Debug, PartialEq, Eq)]
pub enum Operation {
    /// A message's record as an image in lent octets.
    TkRead,
    /// A message's record in Rust's types.
    Read,
    /// The message of an image.
    TkWrite,
    /// The message of a record in Rust's types.
    Write,
    /// A transfer parameter put in the place of another, in lent octets. Sound
    /// messages without any are among those of the mix alone.
    TkReplace,
    /// Where a transfer parameter stands.
    TkFindTransfer,
    /// The rows of a message, into a lent table.
    TkRows,
}

/// All operations.
pub const OPERATIONS: [(&str, Operation); 7] = [
    ("tk_read", Operation::TkRead),
    ("codec::read", Operation::Read),
    ("tk_write", Operation::TkWrite),
    ("codec::write", Operation::Write),
    ("tk_replace", Operation::TkReplace),
    ("tk_find_transfer", Operation::TkFindTransfer),
    ("tk_rows", Operation::TkRows),
];

/// Those whose growth with the message's length is measured.
pub const GROWING: [&str; 2] = ["tk_read", "tk_rows"];

/// The seed of all inputs.
const SEED: u64 = 77;

impl Operation {
    /// The operation of this name.
    pub fn named(name: &str) -> Option<Self> {
        let mut all = OPERATIONS.iter();
        all.find(|(known, _)| *known == name).map(|(_, o)| *o)
    }

    /// Both sides, on inputs made of `count` messages of a class.
    pub fn sides(self, class: Class, count: usize) -> Sides {
        let mut rng = Rng::new(SEED);
        let mut messages = class.messages(&mut rng, count);
        match self {
            Operation::TkRead => tk_read(messages),
            Operation::Read => read(messages),
            Operation::TkWrite => tk_write(images(&mut rng, &messages)),
            Operation::Write => write(records(&mut rng, &messages)),
            Operation::TkReplace => {
                messages.retain(|message| class == Class::Mix || !is_bare(message));
                tk_replace(replacements(&mut rng, messages))
            }
            Operation::TkFindTransfer => tk_find_transfer(finds(messages)),
            Operation::TkRows => tk_rows(messages),
        }
    }
}

fn tk_read(messages: Vec<Vec<u8>>) -> Sides {
    let image = vec![0; IMAGE_MAX];
    Sides {
        proved: side(messages.clone(), image.clone(), |message, image| {
            boundary::read(message, image)
        }),
        plain: side(messages, image, |message, image| {
            packed(plain::read(message).map(|record| {
                let octets = plain::image(&record);
                image[..octets.len()].copy_from_slice(&octets);
                octets.len()
            }))
        }),
    }
}

fn read(messages: Vec<Vec<u8>>) -> Sides {
    Sides {
        proved: side(messages.clone(), None, |message, kept| {
            let record = codec::read(message).map_err(plain_refusal);
            keep(record, kept, |record| record.common.len())
        }),
        plain: side(messages, None, |message, kept| {
            keep(plain::read(message), kept, |record| record.common.len())
        }),
    }
}

fn tk_write(images: Vec<Vec<u8>>) -> Sides {
    let room = vec![0; MESSAGE_MAX];
    Sides {
        proved: side(images.clone(), room.clone(), |image, room| {
            boundary::write(image, room)
        }),
        plain: side(images, room, |image, room| {
            packed(plain::from_image(image).and_then(|record| plain::write(&record, room)))
        }),
    }
}

fn write((proved, plain): (Vec<codec::Record>, Vec<plain::Record>)) -> Sides {
    let room = vec![0; MESSAGE_MAX];
    Sides {
        proved: side(proved, room.clone(), |record, room| {
            packed(codec::write(record, room).map_err(plain_refusal))
        }),
        plain: side(plain, room, |record, room| {
            packed(plain::write(record, room))
        }),
    }
}

/// On both sides the message is copied into the buffer before each call.
fn tk_replace(replacements: Vec<(Vec<u8>, Vec<u8>)>) -> Sides {
    let buffer = vec![0; MESSAGE_MAX];
    Sides {
        proved: side(
            replacements.clone(),
            buffer.clone(),
            |(message, new), buffer| {
                buffer[..message.len()].copy_from_slice(message);
                boundary::replace(buffer, message.len(), new, 0)
            },
        ),
        plain: side(replacements, buffer, |(message, new), buffer| {
            buffer[..message.len()].copy_from_slice(message);
            packed(plain::replace(buffer, message.len(), new, 0))
        }),
    }
}

fn tk_find_transfer(finds: Vec<(Vec<u8>, u8)>) -> Sides {
    Sides {
        proved: side(finds.clone(), (), |(message, name), ()| {
            boundary::find_transfer(message, *name, 0)
        }),
        plain: side(finds, (), |(message, name), ()| {
            packed_range(plain::find_transfer(message, *name, 0))
        }),
    }
}

fn tk_rows(messages: Vec<Vec<u8>>) -> Sides {
    Sides {
        proved: side(
            messages.clone(),
            vec![0; ROW_LIMIT * ROW_LEN],
            |message, table| boundary::rows(message, table),
        ),
        plain: side(
            messages,
            vec![Row::default(); ROW_LIMIT],
            |message, table| packed(plain::spans(message, table)),
        ),
    }
}

fn plain_refusal(refusal: codec::Refusal) -> Refusal {
    Refusal::new(refusal.number, refusal.place)
}

/// Keeps the record that was read, until the next call, and answers with a
/// count of it.
fn keep<R>(read: Result<R, Refusal>, kept: &mut Option<R>, count: impl Fn(&R) -> usize) -> u64 {
    let answer = packed(read.as_ref().map(count).map_err(|refusal| *refusal));
    *kept = read.ok();
    answer
}

/// A record that was read is left as the message that writing makes of it.
impl Left for Option<codec::Record> {
    fn octets(&self) -> Vec<u8> {
        let message = self.as_ref().map(codec::write_to_vec);
        message.map_or_else(Vec::new, |message| message.expect("it was read"))
    }
}

impl Left for Option<plain::Record> {
    fn octets(&self) -> Vec<u8> {
        let Some(record) = self else {
            return Vec::new();
        };
        let mut room = vec![0; MESSAGE_MAX];
        let len = plain::write(record, &mut room).expect("it was read");
        room.truncate(len);
        room
    }
}
