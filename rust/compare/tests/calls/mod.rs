//! What the tests of single parameters share: calls, and both codecs' answers.

#![allow(dead_code)]

use compare::proved;
use trial::{answer, Input, Outcome};

/// Lent memory, long enough for all that is put into it.
pub fn lent() -> Vec<u8> {
    vec![0xEE; 310]
}

/// The calls that read the message into a record and into rows.
pub fn readings(message: &[u8]) -> [Input; 2] {
    [
        Input::Read {
            message: message.to_vec(),
            image: lent(),
        },
        Input::Rows {
            message: message.to_vec(),
            table: lent(),
        },
    ]
}

/// A buffer that begins with the message, and the message's length.
pub fn buffer(message: &[u8]) -> (Vec<u8>, u16) {
    ([message, &[0xEE; 260]].concat(), message.len() as u16)
}

/// The calls that find 04 and 41.
fn finds(message: &[u8]) -> [Input; 2] {
    let message = message.to_vec();
    [
        Input::FindCommon {
            message: message.clone(),
            header: 0x04,
        },
        Input::FindTransfer {
            message,
            name: 0x01,
            which: 0,
        },
    ]
}

/// The calls that open F7 and E0.
fn openings(message: &[u8]) -> [Input; 2] {
    let message = message.to_vec();
    [
        Input::Charging {
            message: message.clone(),
            out: lent(),
        },
        Input::Order {
            message,
            table: lent(),
        },
    ]
}

/// The calls that open the first CC, and what its third row is: the first dependent
/// entry, if the first carrier entry has one.
fn carriers(message: &[u8]) -> [Input; 2] {
    let message = message.to_vec();
    [
        Input::Carriers {
            message: message.clone(),
            which: 0,
            table: vec![0xEE; 1100],
        },
        Input::CarrierDigits {
            message,
            which: 0,
            row: 2,
            out: vec![0xEE; 500],
        },
    ]
}

/// The calls that read the message by the mobile call profile.
pub fn enquiries(message: &[u8]) -> [Input; 2] {
    let message = message.to_vec();
    [
        Input::ProfileRead {
            message: message.clone(),
            image: lent(),
        },
        Input::AddedClasses {
            message,
            out: lent(),
        },
    ]
}

/// The edits of a message that has 41, and not 43.
fn edits(message: &[u8]) -> [Input; 3] {
    let (buffer, n) = buffer(message);
    [
        Input::Replace {
            buffer: buffer.clone(),
            n,
            new: vec![0x41, 0x01],
            which: 0,
        },
        Input::Append {
            buffer: buffer.clone(),
            n,
            new: vec![0x43, 0x01],
        },
        Input::Remove {
            buffer,
            n,
            name: 0x01,
            which: 0,
        },
    ]
}

/// Every call that reads the message; what they ask for is 04, 41, F7, E0, CC, and by
/// the mobile call profile D6.
pub fn all_readers(message: &[u8]) -> Vec<Input> {
    let mut calls = readings(message).to_vec();
    calls.extend(finds(message));
    calls.extend(openings(message));
    calls.extend(carriers(message));
    calls.extend(enquiries(message));
    calls.extend(edits(message));
    calls
}

/// What comes of the call with both codecs.
pub fn outcome(input: &Input) -> Outcome {
    let outcome = answer(input);
    assert_eq!(proved(input), outcome, "{input:02X?}");
    outcome
}

/// The number of both codecs' answer.
pub fn same(input: &Input) -> u8 {
    outcome(input).number()
}

/// The number of both codecs' answer to every one of the calls.
pub fn same_in_all(calls: &[Input]) -> u8 {
    let numbers: Vec<u8> = calls.iter().map(same).collect();
    assert!(numbers.iter().all(|number| *number == numbers[0]));
    numbers[0]
}
