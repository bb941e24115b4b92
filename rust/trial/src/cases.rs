//! The cases that the program of `crates/cases` reads, made of their text,
//! `tests/cases/cases.txt`, which tells its own form.

use crate::record::{Common, Record, Transfer};

const TEXT: &str = include_str!("../../../tests/cases/cases.txt");
const EDITS: &str = include_str!("../../../tests/vectors/edits.txt");
const RECORDS: &str = include_str!("../../../tests/vectors/records.txt");

/// What the octets of a case begin with: an edit's or a write's place among
/// these, then four numbers.
const KINDS: [&str; 7] = [
    "replace",
    "append",
    "remove",
    "write",
    "commons",
    "transfers",
    "values",
];

/// The fields of a transfer parameter, by their order in an image.
const FIELDS: [&str; 8] = [
    "notification",
    "verification",
    "dialling",
    "type",
    "incomplete",
    "plan",
    "presentation",
    "screening",
];

/// The most common and the most transfer parameters that the program's struct has
/// room for.
const MOST_COMMONS: u8 = 6;
const MOST_TRANSFERS: u8 = 54;

/// All cases, one behind the other.
///
/// # Errors
///
/// The first line that has none of the forms.
pub fn octets() -> Result<Vec<u8>, String> {
    let mut octets = Vec::new();
    for line in lines(TEXT) {
        let of_line = match line {
            "edits of tests/vectors" => lines(EDITS).map(edit_vector).collect(),
            "records of tests/vectors" => lines(RECORDS).map(record_vector).collect(),
            _ => case(line).map(|case| vec![case]),
        };
        let cases: Vec<Vec<u8>> = of_line.ok_or_else(|| line.to_string())?;
        octets.extend(cases.concat());
    }
    Ok(octets)
}

/// The lines that are neither empty nor a remark.
fn lines(text: &str) -> impl Iterator<Item = &str> {
    let told = |line: &&str| !line.is_empty() && !line.starts_with('#');
    text.lines().map(str::trim).filter(told)
}

fn case(line: &str) -> Option<Vec<u8>> {
    let (call, given) = line.split_once('|')?;
    let (kind, number) = call.trim().split_once(' ')?;
    if kind == "write" {
        let (room, change) = number.split_once(", ").unwrap_or((number, "write 0"));
        let (what, to) = change.split_once(' ')?;
        let numbers = [to.parse().ok()?, room.parse().ok()?];
        return octets_of(what, numbers, 0, &[], &image(given)?);
    }
    let (n, which) = number.split_once(", which ").unwrap_or((number, "0"));
    let (buffer, new) = given.split_once('|')?;
    edit(
        kind,
        n.parse().ok()?,
        which.parse().ok()?,
        &hex(buffer)?,
        &hex(new)?,
    )
}

/// `edit NEW which | buffer | n | answer`: the name that is removed is decimal, and
/// an appending has no `which`.
fn edit_vector(line: &str) -> Option<Vec<u8>> {
    let parts: Vec<&str> = line.split(" | ").collect();
    let [call, buffer, n, _] = parts[..] else {
        return None;
    };
    let words: Vec<&str> = call.split(' ').collect();
    let (kind, new, which) = match words[..] {
        [kind, new, which] => (kind, new, which.parse().ok()?),
        [kind, new] => (kind, new, 0),
        _ => return None,
    };
    let new = match (kind, new) {
        (_, "-") => Vec::new(),
        ("remove", name) => vec![name.parse().ok()?],
        _ => hex(new)?,
    };
    edit(kind, n.parse().ok()?, which, &hex(buffer)?, &new)
}

/// `image | answer`; nothing where the struct has no room for the record.
fn record_vector(line: &str) -> Option<Vec<u8>> {
    let (image, answer) = line.split_once(" | ")?;
    let image = hex(image)?;
    if *image.first()? > MOST_COMMONS || transfers_in(&image) > Some(MOST_TRANSFERS) {
        return Some(Vec::new());
    }
    let room = match answer.strip_prefix("accepted ") {
        Some(message) => hex(message)?.len() as u16 + 2,
        None => 8,
    };
    octets_of("write", [0, room], 0, &[], &image)
}

fn edit(kind: &str, n: u16, which: u16, buffer: &[u8], new: &[u8]) -> Option<Vec<u8>> {
    octets_of(kind, [n, buffer.len() as u16], which, buffer, new)
}

fn octets_of(
    kind: &str,
    numbers: [u16; 2],
    which: u16,
    buffer: &[u8],
    last: &[u8],
) -> Option<Vec<u8>> {
    let mut octets = vec![KINDS.iter().position(|name| *name == kind)? as u8];
    for number in [numbers[0], numbers[1], last.len() as u16, which] {
        octets.extend(number.to_le_bytes());
    }
    octets.extend_from_slice(buffer);
    octets.extend_from_slice(last);
    Some(octets)
}

/// How many transfer parameters an image has.
fn transfers_in(image: &[u8]) -> Option<u8> {
    let (&commons, mut rest) = image.split_first()?;
    let mut count = 0;
    for _ in 0..commons {
        let (&[header, .., transfers], behind) = rest.split_first_chunk::<7>()?;
        rest = behind;
        for _ in 0..if header == 0xC5 { transfers } else { 0 } {
            let (&[.., low, high], behind) = rest.split_first_chunk::<11>()?;
            rest = behind.get(u16::from_le_bytes([low, high]).into()..)?;
            count += 1;
        }
    }
    Some(count)
}

/// Octets in hexadecimal, `07*200` for as many of one, M and K of the bench table.
fn hex(text: &str) -> Option<Vec<u8>> {
    let mut octets = Vec::new();
    for word in text.split_whitespace() {
        let (word, count) = match word.split_once('*') {
            Some((word, count)) => (word, count.parse().ok()?),
            None => (word, 1),
        };
        let digits = match word {
            "M" => "01018339300004010611C50A9004213A52819803210A00",
            "K" => "01010611",
            _ => word,
        };
        let octet = |at| u8::from_str_radix(digits.get(at..at + 2)?, 16).ok();
        let run: Option<Vec<u8>> = (0..digits.len()).step_by(2).map(octet).collect();
        octets.extend(run?.repeat(count));
    }
    Some(octets)
}

/// The image of a record.
fn image(text: &str) -> Option<Vec<u8>> {
    let mut record = Record::default();
    for word in text.split_whitespace() {
        if let Some((head, values)) = word.split_once(':') {
            let data = record.common.last_mut()?;
            data.transfers.push(transfer(head, values)?);
            continue;
        }
        record.common.push(common(word)?);
    }
    Some(record.image())
}

/// `HEADER`, `HEADER=VALUE` or `HEADER(more-data=MARK)=VALUE`.
fn common(word: &str) -> Option<Common> {
    let (head, value) = match word.split_once(")=") {
        Some(marked) => marked,
        None => word.split_once('=').unwrap_or((word, "0")),
    };
    let (header, more_data) = head.split_once("(more-data=").unwrap_or((head, "0"));
    Some(Common {
        header: u8::from_str_radix(header, 16).ok()?,
        value: u32::from_str_radix(value, 16).ok()?,
        more_data: u8::from_str_radix(more_data, 16).ok()?,
        transfers: Vec::new(),
    })
}

fn transfer(head: &str, values: &str) -> Option<Transfer> {
    let (header, told) = match head.strip_suffix(')') {
        Some(head) => head.split_once('(')?,
        None => (head, ""),
    };
    let mut fields = [0; 8];
    for field in told.split_terminator(',') {
        let (name, value) = field.split_once('=')?;
        let index = FIELDS.iter().position(|known| *known == name)?;
        fields[index] = u8::from_str_radix(value, 16).ok()?;
    }
    Some(Transfer {
        header: u8::from_str_radix(header, 16).ok()?,
        fields,
        values: hex(values)?,
    })
}
