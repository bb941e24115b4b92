//! Every line of the repository's vector files.

mod support;

use plain::{AddedClass, CarrierRow, Network, Record, Refusal};
use support::{expected, octets, vectors, Expected};

#[test]
fn messages() {
    for line in vectors("messages.txt") {
        let message = octets(&line[0]);
        let verdict = plain::verdict(&message);
        assert_eq!(plain::read(&message).map(|_| ()), verdict);
        match expected(&line[1]) {
            Expected::Accepted(words) => {
                assert_eq!(verdict, Ok(()), "{line:?}");
                assert_eq!(words, [message.len().to_string()]);
            }
            Expected::Refused(refusal) => assert_eq!(verdict, Err(refusal), "{line:?}"),
        }
    }
}

/// A function that writes a record.
type Write = fn(&Record, &mut [u8]) -> Result<usize, Refusal>;

/// Asserts that writing the record of an image comes to what the line expects.
fn is_written(write: Write, image: &[u8], line: &[String]) {
    let mut room = [0xEE; 300];
    let written = plain::from_image(image).and_then(|record| write(&record, &mut room));
    match expected(&line[1]) {
        Expected::Accepted(words) => {
            let message = octets(&words[0]);
            assert_eq!(written, Ok(message.len()), "{line:?}");
            assert!(room.starts_with(&message), "{line:?}");
            assert!(room[message.len()..].iter().all(|&octet| octet == 0xEE));
        }
        Expected::Refused(refusal) => {
            assert_eq!(written, Err(refusal), "{line:?}");
            assert_eq!(room, [0xEE; 300]);
        }
    }
}

#[test]
fn records() {
    for line in vectors("records.txt") {
        is_written(plain::write, &octets(&line[0]), &line);
    }
}

fn number(word: &str) -> usize {
    word.parse().expect("a number")
}

#[test]
fn edits() {
    for line in vectors("edits.txt") {
        let edit: Vec<&str> = line[0].split_whitespace().collect();
        let before = octets(&line[1]);
        let mut buffer = before.clone();
        let n = line[2].parse().expect("a length");
        let edited = match edit[..] {
            ["replace", new, which] => plain::replace(&mut buffer, n, &octets(new), number(which)),
            ["append", new] => plain::append(&mut buffer, n, &octets(new)),
            ["remove", name, which] => {
                plain::remove(&mut buffer, n, number(name) as u8, number(which))
            }
            _ => panic!("no edit: {line:?}"),
        };
        match expected(&line[3]) {
            Expected::Accepted(words) => {
                assert_eq!(edited, Ok(words[0].parse().expect("a length")), "{line:?}");
                assert_eq!(buffer, octets(&words[1]), "{line:?}");
            }
            Expected::Refused(refusal) => {
                assert_eq!(edited, Err(refusal), "{line:?}");
                assert_eq!(buffer, before, "{line:?}");
            }
        }
    }
}

#[test]
fn profile() {
    for line in vectors("profile.txt") {
        let (call, argument) = line[0].split_once(' ').expect("a call and its argument");
        let octets = octets(argument);
        match call {
            "read" => is_read_by_profile(&octets, &line),
            "added" => has_added_classes(&octets, &line),
            "write" => is_written(plain::profile_write, &octets, &line),
            other => panic!("no call: {other}"),
        }
    }
}

/// The octets of added classes.
fn pairs(classes: Vec<AddedClass>) -> Vec<u8> {
    let pair = |class: AddedClass| [class.name.octet(), class.value];
    classes.into_iter().flat_map(pair).collect()
}

fn is_read_by_profile(message: &[u8], line: &[String]) {
    let read = plain::profile_read(message);
    match expected(&line[1]) {
        Expected::Accepted(words) => {
            let profile = read.unwrap_or_else(|refusal| panic!("{refusal:?}: {line:?}"));
            assert_eq!(Ok(profile.record), plain::read(message));
            let network = match profile.network {
                Network::Phs => "2",
                Network::Mobile => "3",
            };
            assert_eq!(network, words[0], "{line:?}");
            let added = words.get(1).map(|word| octets(word));
            assert_eq!(profile.added.map(pairs), added, "{line:?}");
        }
        Expected::Refused(refusal) => assert_eq!(read, Err(refusal), "{line:?}"),
    }
}

fn has_added_classes(message: &[u8], line: &[String]) {
    let expected = match expected(&line[1]) {
        Expected::Accepted(words) => Ok(octets(&words[0])),
        Expected::Refused(refusal) => Err(refusal),
    };
    let opened = plain::added_classes(message);
    assert_eq!(opened.map(pairs), expected, "{line:?}");
}

#[test]
fn carriers() {
    for line in vectors("carriers.txt") {
        let call: Vec<&str> = line[0].split_whitespace().collect();
        let message = octets(call[1]);
        let opened = match call[..] {
            ["rows", _, which] => plain::carriers(&message, number(which)).map(rows_in_words),
            ["digits", _, which, row] => {
                let digits = plain::carrier_digits(&message, number(which), number(row));
                digits.map(digits_in_words)
            }
            _ => panic!("no call: {line:?}"),
        };
        let expected = match expected(&line[1]) {
            Expected::Accepted(words) => Ok(words.join(" ")),
            Expected::Refused(refusal) => Err(refusal),
        };
        assert_eq!(opened, expected, "{line:?}");
    }
}

fn rows_in_words(rows: Vec<CarrierRow>) -> String {
    let words = |row: &CarrierRow| {
        let CarrierRow {
            level,
            tag,
            offset,
            len,
            digits,
        } = row;
        format!("{level} {tag:02X} {offset} {len} {digits}")
    };
    let rows: Vec<String> = rows.iter().map(words).collect();
    rows.join(", ")
}

fn digits_in_words(digits: Vec<u8>) -> String {
    if digits.is_empty() {
        return "-".to_owned();
    }
    digits.iter().map(u8::to_string).collect()
}
