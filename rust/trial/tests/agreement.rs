//! What the plain codec's answers must have to do with one another, over many
//! inputs.

mod profile;

use plain::transfer::{name_of, ADDED_CLASSES, CARRIERS, CHARGING, ORDER};
use plain::{CarrierRow, Refusal, Row};
use profile::{call_in, message_of};
use std::array;
use std::ops::Range;
use trial::outcome::{CARRIER_ROW_LEN, CHARGING_LEN, ROW_LEN};
use trial::record::{Record, Transfer};
use trial::records::held;
use trial::{answer, input_at, Input, Outcome};

const SEED: u64 = 4242;
const COUNT: u64 = 200_000;

#[test]
fn answers_agree() {
    for index in 0..COUNT {
        let input = input_at(SEED, index);
        let outcome = answer(&input);
        if outcome.number() > 0 {
            assert_eq!(outcome.memory, input.lent(), "{input:02X?}");
        }
        agrees(&input, &outcome);
    }
}

fn agrees(input: &Input, outcome: &Outcome) {
    match input {
        Input::Read { message, .. } => read_agrees(message, input, outcome),
        Input::Write { image, .. } => write_agrees(image, input, outcome),
        Input::Rows { message, .. } => rows_agree(message, input, outcome),
        Input::FindCommon { message, header } => {
            find_agrees(message, outcome, 0, |row, inside| {
                !inside && row.header == *header && *header != 0x00
            });
        }
        Input::FindTransfer {
            message,
            name,
            which,
        } => {
            find_agrees(message, outcome, *which, |row, inside| {
                inside && row.header & 0x3F == *name
            });
        }
        // The tests of `plain` count the classes of every header.
        Input::Class { .. } => {}
        Input::Replace { n, .. } | Input::Append { n, .. } | Input::Remove { n, .. } => {
            edit_agrees(input, *n, outcome);
        }
        Input::Charging { message, .. } => charging_agrees(message, input, outcome),
        Input::Order { message, .. } => order_agrees(message, input, outcome),
        Input::ProfileRead { .. } | Input::ProfileWrite { .. } | Input::AddedClasses { .. } => {
            profile_agrees(input, outcome)
        }
        Input::Carriers { message, which, .. } => {
            carriers_agree(message, *which, input, outcome);
        }
        Input::CarrierDigits { .. } => digits_agree(input, outcome),
    }
}

/// By the profile a call is refused with 20 at the end mark just where nothing else
/// is wrong with its message but the room, and a rule is not kept.
fn profile_agrees(input: &Input, outcome: &Outcome) {
    match message_of(input) {
        Some(message) if !call_in(&message).broken().is_empty() => {
            let refusal = Refusal::new(Refusal::PROFILE, message.len() - 1);
            assert_eq!(outcome.packed, refused(refusal), "{input:02X?}");
        }
        _ => assert_eq!(*outcome, without_profile(input), "{input:02X?}"),
    }
}

/// What comes of a call by the profile if no rule of it is broken.
fn without_profile(input: &Input) -> Outcome {
    match input.clone() {
        Input::ProfileRead { message, image } => answer(&Input::Read { message, image }),
        Input::ProfileWrite { image, room } => answer(&Input::Write { image, room }),
        Input::AddedClasses { message, out } => contents_put(&message, ADDED_CLASSES, out),
        other => answer(&other),
    }
}

/// What comes of finding the contents of a parameter and putting them into lent
/// memory as they are.
fn contents_put(message: &[u8], header: u8, mut memory: Vec<u8>) -> Outcome {
    let packed = match plain::find_transfer(message, name_of(header), 0) {
        Err(refusal) => refused(refusal),
        Ok(found) if found.len() > memory.len() => refused(Refusal::new(Refusal::ROOM_SHORT, 0)),
        Ok(found) => {
            let contents = &message[found];
            memory[..contents.len()].copy_from_slice(contents);
            contents.len() as u64
        }
    };
    Outcome { packed, memory }
}

/// The packed form of a refusal.
fn refused(refusal: Refusal) -> u64 {
    u64::from(refusal.number) << 32 | (refusal.place as u64) << 16
}

/// Finding gives reading's refusal, or the contents of one of the rows that are
/// sought (a row, and whether it stands inside C5), or 16 without such a row.
fn find_agrees(
    message: &[u8],
    outcome: &Outcome,
    which: usize,
    sought: impl Fn(&Row, bool) -> bool,
) {
    let expected = match plain::rows(message) {
        Err(refusal) => refused(refusal),
        Ok(rows) => {
            let data = data_of(&rows);
            let inside = |row: &Row| data.contains(&row.offset.into());
            let mut all = rows.iter().filter(|row| sought(row, inside(row)));
            match all.nth(which) {
                None => refused(Refusal::new(Refusal::ABSENT, 0)),
                Some(row) => (contents_of(row).start as u64) << 16 | u64::from(row.len),
            }
        }
    };
    assert_eq!(outcome.packed, expected, "{message:02X?}");
}

/// Where a row's contents stand.
fn contents_of(row: &Row) -> Range<usize> {
    let start = usize::from(row.offset) + 1 + usize::from(row.header >> 6 == 3);
    start..start + usize::from(row.len)
}

/// Where the transfer data stands; empty without any.
fn data_of(rows: &[Row]) -> Range<usize> {
    let data = rows.iter().find(|row| row.header == 0xC5);
    data.map_or(0..0, contents_of)
}

/// The answer is 15 just where the message is accepted and `needed` octets are
/// more than were lent; otherwise it is the verdict.
fn agrees_with_verdict(message: &[u8], input: &Input, outcome: &Outcome, needed: usize) {
    let expected = match plain::verdict(message) {
        Err(refusal) => Some(refusal),
        Ok(()) if needed > input.lent().len() => Some(Refusal::new(Refusal::ROOM_SHORT, 0)),
        Ok(()) => None,
    };
    match expected {
        Some(refusal) => assert_eq!(outcome.packed, refused(refusal), "{message:02X?}"),
        None => assert_eq!(outcome.number(), 0, "{message:02X?}"),
    }
}

fn read_agrees(message: &[u8], input: &Input, outcome: &Outcome) {
    let needed = plain::read(message).map_or(0, |record| plain::image(&record).len());
    agrees_with_verdict(message, input, outcome, needed);
    let Ok(record) = plain::read(message) else {
        return;
    };
    assert_eq!(
        plain::from_image(&plain::image(&record)).as_ref(),
        Ok(&record)
    );
    let mut room = vec![0; message.len()];
    assert_eq!(plain::write(&record, &mut room), Ok(message.len()));
    assert_eq!(room, message);
}

fn write_agrees(image: &[u8], input: &Input, outcome: &Outcome) {
    if outcome.number() == 0 {
        let len = outcome.value();
        assert_eq!(
            plain::read(&outcome.memory[..len]),
            plain::from_image(image)
        );
        assert_eq!(outcome.memory[len..], input.lent()[len..]);
    }
}

fn rows_agree(message: &[u8], input: &Input, outcome: &Outcome) {
    let rows = plain::rows(message).unwrap_or_default();
    let needed = ROW_LEN * rows.len();
    agrees_with_verdict(message, input, outcome, needed);
    if outcome.number() > 0 {
        return;
    }
    assert_eq!(rows.len(), outcome.value());
    assert_eq!(outcome.memory[needed..], input.lent()[needed..]);
    for (row, octets) in rows.iter().zip(outcome.memory.chunks(ROW_LEN)) {
        assert_eq!(row.offset.to_le_bytes(), octets[..2]);
        assert_eq!(row.header, octets[2]);
        assert_eq!(row.len.to_le_bytes(), octets[3..]);
        assert_eq!(row.header, message[usize::from(row.offset)]);
    }
    let data = data_of(&rows);
    let (mut inside, mut outside) = (0, 0);
    for row in rows {
        let len = contents_of(&row).end - usize::from(row.offset);
        match data.contains(&row.offset.into()) {
            true => inside += len,
            false => outside += len,
        }
    }
    assert_eq!((inside, outside), (data.len(), message.len()));
}

/// Where in the transfer parameters one of a name stands.
fn position(transfers: &[Transfer], name: u8, which: usize) -> usize {
    let mut all = (0..transfers.len()).filter(|&at| transfers[at].header & 0x3F == name);
    all.nth(which).expect("the name of an accepted edit")
}

/// Edits the transfer parameters.
fn edit(input: &Input, transfers: &mut Vec<Transfer>) {
    let sound = |new| held(new).expect("a sound parameter");
    match input {
        Input::Replace { new, which, .. } => {
            let at = position(transfers, name_of(new[0]), *which);
            transfers[at] = sound(new);
        }
        Input::Append { new, .. } => transfers.push(sound(new)),
        Input::Remove { name, which, .. } => {
            transfers.remove(position(transfers, *name, *which));
        }
        _ => panic!("no edit: {input:02X?}"),
    }
}

/// An accepted edit leaves the message whose record is edited so, zeros up to
/// the old end, and the rest of the buffer.
fn edit_agrees(input: &Input, n: u16, outcome: &Outcome) {
    if outcome.number() > 0 {
        return;
    }
    let (n, new_n) = (usize::from(n), outcome.value());
    let mut expected = Record::read(&input.lent()[..n]).expect("an accepted message");
    let data = expected.common.iter_mut().find(|c| c.header == 0xC5);
    edit(input, &mut data.expect("transfer data").transfers);
    assert_eq!(Record::read(&outcome.memory[..new_n]), Ok(expected));
    let end = n.max(new_n);
    assert!(outcome.memory[new_n..end].iter().all(|&octet| octet == 0));
    assert_eq!(outcome.memory[end..], input.lent()[end..]);
}

/// Opening the charging information is refused as finding it is, and with 15 just
/// where too few octets are lent; the numbers, laid out, are the contents again.
fn charging_agrees(message: &[u8], input: &Input, outcome: &Outcome) {
    let expected = match plain::find_transfer(message, name_of(CHARGING), 0) {
        Err(refusal) => Err(refusal),
        Ok(_) if input.lent().len() < CHARGING_LEN => Err(Refusal::new(Refusal::ROOM_SHORT, 0)),
        Ok(contents) => Ok(&message[contents]),
    };
    match expected {
        Err(refusal) => assert_eq!(outcome.packed, refused(refusal), "{message:02X?}"),
        Ok(contents) => {
            assert_eq!(outcome.packed, CHARGING_LEN as u64, "{message:02X?}");
            let (told, behind) = outcome.memory.split_at(CHARGING_LEN);
            assert_eq!(behind, &input.lent()[CHARGING_LEN..]);
            assert_eq!(laid_out(told), contents[1..]);
        }
    }
}

/// The contents from the kind on that these octets tell.
fn laid_out(told: &[u8]) -> Vec<u8> {
    let number = |index: usize| u16::from_le_bytes([told[1 + 2 * index], told[2 + 2 * index]]);
    let [fee, initial, day, night, late_1, late_2, mbi, interval, units, free, check] =
        array::from_fn(number);
    let code = |digit: u16| if digit == 0 { 10 } else { digit as u8 };
    let halves = vec![code(mbi / 10) << 4 | code(mbi % 10)];
    let fee = vec![fee as u8];
    let rates = format!("{initial:02}{day:03}{night:03}{late_1:03}{late_2:03}");
    let (first, characters) = match told[0] {
        1 => (vec![], format!("{rates}{check}")),
        2 => (vec![], String::new()),
        3 => (halves, format!("{interval:03}{free:03}{check}")),
        4 => (halves, format!("{units:04}{free:03}{check}")),
        5 => (halves, check.to_string()),
        8 => (fee, rates),
        9 => (fee, format!("{rates}{interval:03}{free:03}")),
        _ => (fee, format!("{rates}{units:04}{free:03}")),
    };
    [vec![told[0]], first, characters.into_bytes()].concat()
}

/// Opening the connection order is refused as finding it is, and with 15 just
/// where the table has room for fewer rows; the rows follow one another through
/// the contents, from the form to the end.
fn order_agrees(message: &[u8], input: &Input, outcome: &Outcome) {
    let contents = match plain::find_transfer(message, name_of(ORDER), 0) {
        Err(refusal) => return assert_eq!(outcome.packed, refused(refusal), "{message:02X?}"),
        Ok(contents) => contents,
    };
    let rows = plain::order(message).expect("an order that was found");
    let needed = ROW_LEN * rows.len();
    if needed > input.lent().len() {
        let short = refused(Refusal::new(Refusal::ROOM_SHORT, 0));
        return assert_eq!(outcome.packed, short, "{message:02X?}");
    }
    assert_eq!(outcome.packed, rows.len() as u64, "{message:02X?}");
    assert_eq!(outcome.memory[needed..], input.lent()[needed..]);
    let mut offset = contents.start;
    for octets in outcome.memory[..needed].chunks(ROW_LEN) {
        let number = |low: usize| usize::from(u16::from_le_bytes([octets[low], octets[low + 1]]));
        assert_eq!((number(0), octets[2]), (offset, message[offset]));
        offset += 1 + number(3);
    }
    assert_eq!(offset, contents.end, "{message:02X?}");
    assert_eq!(rows[0].len, 0);
}

/// Opening carriers is refused as finding them is, and with 15 just where the table
/// has room for fewer rows; the rows, laid out, are the contents again.
fn carriers_agree(message: &[u8], which: usize, input: &Input, outcome: &Outcome) {
    let contents = match plain::find_transfer(message, name_of(CARRIERS), which) {
        Err(refusal) => return assert_eq!(outcome.packed, refused(refusal), "{message:02X?}"),
        Ok(contents) => contents,
    };
    let rows = plain::carriers(message, which).expect("carriers that were found");
    let needed = CARRIER_ROW_LEN * rows.len();
    if needed > input.lent().len() {
        let short = refused(Refusal::new(Refusal::ROOM_SHORT, 0));
        return assert_eq!(outcome.packed, short, "{message:02X?}");
    }
    assert_eq!(outcome.packed, rows.len() as u64, "{message:02X?}");
    assert_eq!(outcome.memory[needed..], input.lent()[needed..]);
    for (row, octets) in rows.iter().zip(outcome.memory.chunks(CARRIER_ROW_LEN)) {
        assert_eq!(octets[..2], [row.level, row.tag]);
        let numbers = [row.offset, row.len, row.digits].map(u16::to_le_bytes);
        assert_eq!(octets[2..], numbers.concat());
    }
    rows_follow(message, contents, &rows);
}

/// The rows follow one another through the contents, from the direction to the end,
/// and those of each carrier entry through what it holds.
fn rows_follow(message: &[u8], contents: Range<usize>, rows: &[CarrierRow]) {
    let (direction, entries) = rows.split_first().expect("the row of the direction");
    let told = (direction.level, direction.len, direction.digits);
    assert_eq!(
        (told, usize::from(direction.offset)),
        ((0, 0, 0), contents.start)
    );
    let (mut outer, mut inner) = (contents.start + 1, contents.start + 1);
    for row in entries {
        let at = usize::from(row.offset);
        assert_eq!(
            [row.tag, row.len as u8],
            message[at..at + 2],
            "{message:02X?}"
        );
        let end = at + 2 + usize::from(row.len);
        match row.level {
            1 => {
                assert_eq!((inner, at), (outer, outer), "{message:02X?}");
                (outer, inner) = (end, at + 2);
            }
            level => {
                assert_eq!((level, at), (2, inner), "{message:02X?}");
                inner = end;
            }
        }
        let is_code = (row.level, row.tag) == (2, 0xFE);
        let odd = u16::from(message[at + 2] >> 7);
        let digits = if is_code { 2 * (row.len - 1) - odd } else { 0 };
        assert_eq!(row.digits, digits);
    }
    assert_eq!(
        (inner, outer),
        (contents.end, contents.end),
        "{message:02X?}"
    );
}

/// Opening a code is refused as opening its carriers is, with 16 for any other row,
/// and with 15 just where too few octets are lent; the digits, laid out, are the
/// octets again.
fn digits_agree(input: &Input, outcome: &Outcome) {
    let Input::CarrierDigits {
        message,
        which,
        row,
        ..
    } = input
    else {
        return;
    };
    let rows = match plain::carriers(message, *which) {
        Err(refusal) => return assert_eq!(outcome.packed, refused(refusal), "{message:02X?}"),
        Ok(rows) => rows,
    };
    let is_code = |row: &&CarrierRow| (row.level, row.tag) == (2, 0xFE);
    let Some(code) = rows.get(*row).filter(is_code) else {
        let absent = refused(Refusal::new(Refusal::ABSENT, 0));
        return assert_eq!(outcome.packed, absent, "{input:02X?}");
    };
    let count = usize::from(code.digits);
    if count > input.lent().len() {
        let short = refused(Refusal::new(Refusal::ROOM_SHORT, 0));
        return assert_eq!(outcome.packed, short, "{input:02X?}");
    }
    assert_eq!(outcome.packed, count as u64, "{input:02X?}");
    let (digits, behind) = outcome.memory.split_at(count);
    assert_eq!(behind, &input.lent()[count..]);
    let pair = |pair: &[u8]| pair[0] + 16 * pair.get(1).unwrap_or(&0);
    let octets: Vec<u8> = digits.chunks(2).map(pair).collect();
    let start = usize::from(code.offset) + 3;
    assert_eq!(octets, message[start..start + octets.len()]);
    assert_eq!(octets.len() + 1, usize::from(code.len));
}
