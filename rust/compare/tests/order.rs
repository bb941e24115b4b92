//! The connection order with every form and header, of every length, and with
//! every octet in every place, put to both codecs in every call that reads or
//! writes it.

mod calls;
mod opened;

use calls::{lent, readings, same, same_in_all};
use opened::{parameter, EMPTY};
use plain::order::ORDER_ROW_LIMIT;
use plain::transfer::ORDER;
use trial::messages::with_alone;
use trial::order::{FORMS, HEADERS};
use trial::outcome::ROW_LEN;
use trial::Input;

/// The call that opens these contents.
fn opening(contents: &[u8]) -> Input {
    Input::Order {
        message: with_alone(&parameter(ORDER, contents)),
        table: lent(),
    }
}

/// The calls that write them.
fn writings(contents: &[u8]) -> [Input; 3] {
    opened::writings(ORDER, contents, &[0x28])
}

/// Whether the codecs agree on the contents in every call; gives the number, which
/// is the same in all of them.
fn agreed(contents: &[u8]) -> u8 {
    let mut calls = vec![opening(contents)];
    calls.extend(readings(&with_alone(&parameter(ORDER, contents))));
    calls.extend(writings(contents));
    same_in_all(&calls)
}

/// The shortest sound octets behind a header; any behind one that there is not.
fn shortest(header: u8) -> &'static [u8] {
    match header {
        0x42 => &[0x01, 0x00],
        0x43 => &[0x80],
        0x92 | 0xCC => &[0x02, 0x00, 0x00],
        0xC9 | 0xCA | 0xCD => &[0x03, 0x00, 0x00, 0x03],
        0xD2 => b"000",
        _ => &[0x00],
    }
}

/// Sound parameters, with all that each can have.
const LONGER: [&[u8]; 16] = [
    b"\x41\x05",
    b"\x42\x01\x02",
    b"\x43\x81",
    b"\x91\x04\x21\xCA",
    b"\x91\x03\x21\x0A",
    b"\x92\x04\x01\x10\x21\x43",
    b"\x92\x04\x81\x10\x21\x03",
    b"\xC9\x05\x11\x001;2",
    b"\xC9\x03\x11\x03\x03",
    b"\xCA\x05\x11\x021;2",
    b"\xCB\x02ab",
    b"\xCC\x04\x01\x02ab",
    b"\xCD\x05\x11\x011;2",
    b"\xCE\x02ab",
    b"\xCF\x02ab",
    b"\xD2180",
];

/// A form under which the header may stand.
fn form_for(header: u8) -> u8 {
    let found = FORMS.iter().find(|(_, under)| under.contains(&header));
    found.expect("a listed header").0
}

/// An order of this parameter alone.
fn alone(parameter: &[u8]) -> Vec<u8> {
    [&[form_for(parameter[0])], parameter].concat()
}

/// Under a form that there is not, the contents are put to `tk_order` alone.
#[test]
fn every_form_with_every_header() {
    assert_eq!(agreed(&[]), 12);
    for form in 0..=255 {
        let under = FORMS.iter().find(|(known, _)| *known == form);
        assert_eq!(agreed(&[form]), if under.is_some() { 0 } else { 19 });
        for header in 0..=255 {
            let contents = [&[form, header], shortest(header)].concat();
            let (number, expected) = match under {
                None => (same(&opening(&contents)), 19),
                Some((_, headers)) if headers.contains(&header) => (agreed(&contents), 0),
                Some(_) => (agreed(&contents), 19),
            };
            assert_eq!(number, expected, "{form:02X} {header:02X}");
        }
    }
}

/// Two parameters with every two headers, under every form.
#[test]
fn every_form_with_every_two_headers() {
    for (form, headers) in FORMS {
        for first in HEADERS {
            for second in HEADERS {
                let contents = [&[form, first], shortest(first), &[second], shortest(second)];
                let stand = headers.contains(&first) && headers.contains(&second);
                let expected = if stand && first != second { 0 } else { 19 };
                assert_eq!(agreed(&contents.concat()), expected);
            }
        }
    }
}

/// All headers of a form, in every rotation, and with one more behind them.
#[test]
fn all_headers_of_a_form() {
    for (form, headers) in FORMS {
        let mut headers = headers.to_vec();
        for _ in 0..headers.len() {
            headers.rotate_left(1);
            let mut contents = vec![form];
            for &header in &headers {
                contents.push(header);
                contents.extend(shortest(header));
            }
            assert_eq!(agreed(&contents), 0);
            for header in 0..=255 {
                let more = [&contents[..], &[header], shortest(header)].concat();
                assert_eq!(agreed(&more), 19);
            }
        }
    }
}

#[test]
fn with_every_octet_in_every_place() {
    for parameter in LONGER {
        let contents = alone(parameter);
        assert_eq!(agreed(&contents), 0);
        for at in 0..contents.len() {
            for octet in 0..=255 {
                let mut contents = contents.clone();
                contents[at] = octet;
                agreed(&contents);
            }
        }
    }
}

#[test]
fn cut_everywhere_and_with_every_octet_more() {
    for parameter in LONGER {
        let contents = alone(parameter);
        for len in 2..contents.len() {
            assert_eq!(agreed(&contents[..len]), 12);
        }
        for octet in 0..=255 {
            agreed(&[&contents[..], &[octet]].concat());
        }
    }
}

/// The first octet behind each header tells every length, and there are just so
/// many octets behind it, one fewer or one more. They are '3', which does for
/// digits, characters and what is carried; under 92 the second is 30.
#[test]
fn of_every_length() {
    for header in HEADERS {
        for told in 0..=u8::MAX {
            let right = match header {
                0x91 => usize::from(told).div_ceil(2),
                _ => usize::from(told),
            };
            for len in right.saturating_sub(1)..=right + 1 {
                let mut behind = vec![b'3'; len];
                if let (0x92, Some(second)) = (header, behind.get_mut(1)) {
                    *second = 0x30;
                }
                if let (0xC9 | 0xCA | 0xCC | 0xCD, Some(repeat)) = (header, behind.get_mut(1)) {
                    *repeat = 3;
                }
                let contents = [&alone(&[header, told])[..], &behind].concat();
                if contents.len() <= 253 {
                    agreed(&contents);
                }
            }
        }
    }
}

/// Edits and records can have contents that no message has room for.
#[test]
fn longer_than_any_message() {
    for len in 245..=255 {
        let carried = [&[0x38, 0xCB, len as u8 - 3], &vec![0xCB; len - 3][..]].concat();
        let expected = if len <= 253 { 0 } else { 14 };
        for contents in [carried, [vec![0x43], vec![0x00; len - 1]].concat()] {
            let expected = if contents[0] == 0x43 { 19 } else { expected };
            let numbers = writings(&contents).map(|input| same(&input));
            assert_eq!(numbers, [expected; 3], "{len}");
        }
    }
}

#[test]
fn into_tables_of_every_length() {
    let contents = b"\x31\x41\x05\xC9\x03\x11\x02\x03\xCD\x03\x12\x00\x03\xD2180";
    let message = with_alone(&parameter(ORDER, contents));
    for len in 0..=ROW_LEN * (ORDER_ROW_LIMIT + 2) {
        let table = vec![0xEE; len];
        let message = message.clone();
        let number = same(&Input::Order { message, table });
        assert_eq!(number == 0, len >= ROW_LEN * ORDER_ROW_LIMIT);
    }
}

/// 15 is the last of the refusals: without an order it is 16, also where there is
/// no room for any row.
#[test]
fn without_an_order() {
    for message in [&EMPTY[..], &[0x01, 0x01, 0x06, 0x11, 0x00]] {
        for len in [0, 4, 5, 300] {
            let (message, table) = (message.to_vec(), vec![0xEE; len]);
            assert_eq!(same(&Input::Order { message, table }), 16);
        }
    }
}
