//! Both sides of every operation give the same answers and leave the same
//! octets, on messages of every class.

use speed::class::{CLASSES, LENGTHS, SERIES};
use speed::operation::{GROWING, OPERATIONS};
use speed::Operation;

const MESSAGES: usize = 40;

#[test]
fn in_every_class() {
    for (name, operation) in OPERATIONS {
        for (class, messages) in CLASSES {
            let mut sides = operation.sides(messages, MESSAGES);
            assert!(sides.agreed().is_some(), "{name}, {class}");
        }
    }
}

#[test]
fn at_every_length() {
    for operation in GROWING {
        for (series, messages) in SERIES {
            for len in LENGTHS {
                let operation = Operation::named(operation).unwrap();
                let mut sides = operation.sides(messages(len), 2);
                assert!(sides.agreed().is_some(), "{operation:?}, {series} {len}");
            }
        }
    }
}
