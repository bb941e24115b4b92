//! What the tests of the parameters that are opened share: the calls that write
//! one.

use crate::calls::{buffer, lent};
use trial::messages::with_alone;
use trial::record::{Common, Record, Transfer};
use trial::Input;

/// A message with an empty C5.
pub const EMPTY: [u8; 7] = [0x01, 0x01, 0x06, 0x11, 0xC5, 0x00, 0x00];

/// The parameter with this header and these contents.
pub fn parameter(header: u8, contents: &[u8]) -> Vec<u8> {
    [&[header, contents.len() as u8], contents].concat()
}

/// The image of a record that holds a parameter with these values, which are its
/// contents or digits.
pub fn image(header: u8, values: &[u8]) -> Vec<u8> {
    let common = |header, value, transfers| Common {
        header,
        value,
        transfers,
        ..Common::default()
    };
    let opened = Transfer {
        header,
        values: values.to_vec(),
        ..Transfer::default()
    };
    let common = vec![
        common(0x01, 1, vec![]),
        common(0x06, 0x11, vec![]),
        common(0xC5, 0, vec![opened]),
    ];
    Record { common }.image()
}

/// The calls that write the parameter; one replaces the contents `old`.
pub fn writings(header: u8, contents: &[u8], old: &[u8]) -> [Input; 3] {
    let new = parameter(header, contents);
    let (without, n) = buffer(&EMPTY);
    let (with, with_n) = buffer(&with_alone(&parameter(header, old)));
    [
        Input::Write {
            image: image(header, contents),
            room: lent(),
        },
        Input::Append {
            buffer: without,
            n,
            new: new.clone(),
        },
        Input::Replace {
            buffer: with,
            n: with_n,
            new,
            which: 0,
        },
    ]
}
