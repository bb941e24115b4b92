//! Every line of the repository's vector files, put to both codecs. The tests
//! of `plain` hold the plain one to what the lines expect.

#[path = "../../plain/tests/support/mod.rs"]
mod support;

use compare::proved;
use support::{octets, vectors};
use trial::{answer, Input};

fn same(input: Input) {
    assert_eq!(proved(&input), answer(&input), "{input:02X?}");
}

#[test]
fn messages() {
    for line in vectors("messages.txt") {
        let message = octets(&line[0]);
        let lent = vec![0xEE; 1200];
        same(Input::Read {
            message: message.clone(),
            image: lent.clone(),
        });
        same(Input::Rows {
            message: message.clone(),
            table: lent.clone(),
        });
        same(Input::Charging {
            message: message.clone(),
            out: lent.clone(),
        });
        same(Input::Order {
            message: message.clone(),
            table: lent.clone(),
        });
        same(Input::ProfileRead {
            message: message.clone(),
            image: lent.clone(),
        });
        for which in 0..=3 {
            opened(&message, which);
        }
        same(Input::AddedClasses { message, out: lent });
    }
}

/// The carriers of a message are opened, and each of their rows as a code; so is one
/// that there is not.
fn opened(message: &[u8], which: usize) {
    let rows = plain::carriers(message, which).unwrap_or_default();
    same(Input::Carriers {
        message: message.to_vec(),
        which,
        table: vec![0xEE; 1200],
    });
    for row in 0..=rows.len() {
        same(Input::CarrierDigits {
            message: message.to_vec(),
            which,
            row,
            out: vec![0xEE; 600],
        });
    }
}

#[test]
fn carriers() {
    for line in vectors("carriers.txt") {
        let call: Vec<&str> = line[0].split_whitespace().collect();
        let number = |at: usize| call[at].parse().expect("a number");
        let message = octets(call[1]);
        same(match call[0] {
            "rows" => Input::Carriers {
                message,
                which: number(2),
                table: vec![0xEE; 1200],
            },
            _ => Input::CarrierDigits {
                message,
                which: number(2),
                row: number(3),
                out: vec![0xEE; 600],
            },
        });
    }
}

#[test]
fn records() {
    for line in vectors("records.txt") {
        let image = octets(&line[0]);
        let room = vec![0xEE; 300];
        same(Input::Write {
            image: image.clone(),
            room: room.clone(),
        });
        same(Input::ProfileWrite { image, room });
    }
}

#[test]
fn edits() {
    for line in vectors("edits.txt") {
        let edit: Vec<&str> = line[0].split_whitespace().collect();
        let buffer = octets(&line[1]);
        let n = line[2].parse().expect("a length");
        let which = |word: &str| word.parse().expect("which one");
        same(match edit[..] {
            ["replace", new, nth] => Input::Replace {
                buffer,
                n,
                new: octets(new),
                which: which(nth),
            },
            ["append", new] => Input::Append {
                buffer,
                n,
                new: octets(new),
            },
            ["remove", name, nth] => Input::Remove {
                buffer,
                n,
                name: name.parse().expect("a name"),
                which: which(nth),
            },
            _ => panic!("no edit: {line:?}"),
        });
    }
}

#[test]
fn profile() {
    for line in vectors("profile.txt") {
        let (call, argument) = line[0].split_once(' ').expect("a call and its argument");
        let (octets, lent) = (octets(argument), vec![0xEE; 1200]);
        same(match call {
            "read" => Input::ProfileRead {
                message: octets,
                image: lent,
            },
            "added" => Input::AddedClasses {
                message: octets,
                out: lent,
            },
            _ => Input::ProfileWrite {
                image: octets,
                room: lent,
            },
        });
    }
}
