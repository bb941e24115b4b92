//! The proved codec in Rust's types answers as the plain one does.

use codec::{boundary, Charging, Class, Common, Record, Refusal, Row, Transfer};
use codec::{AddedClass, AddedClassName, Network, Order, OrderHeader, OrderParameter, Profile};
use codec::{Carrier, CarrierTag, Carriers, Dependent, DependentContents, Direction};
use codec::{IMAGE_MAX, MESSAGE_MAX};
use trial::{input_at, Input};

const SEED: u64 = 23;
const COUNT: u64 = 50_000;

fn refusal(refusal: plain::Refusal) -> Refusal {
    Refusal::new(refusal.number, refusal.place)
}

fn row(row: plain::Row) -> Row {
    Row {
        offset: row.offset.into(),
        header: row.header,
        len: row.len.into(),
    }
}

fn class(class: plain::Class) -> Class {
    match class {
        plain::Class::Named => Class::Named,
        plain::Class::HeldBack => Class::HeldBack,
        plain::Class::Spare => Class::Spare,
    }
}

fn charging(charging: plain::Charging) -> Charging {
    Charging {
        kind: charging.kind,
        unit_fee: charging.unit_fee,
        initial_units: charging.initial_units,
        day: charging.day,
        night: charging.night,
        late_night_1: charging.late_night_1,
        late_night_2: charging.late_night_2,
        mbi: charging.mbi,
        information_interval: charging.information_interval,
        information_units: charging.information_units,
        free_time: charging.free_time,
        check_digit: charging.check_digit,
    }
}

/// The order that these rows of a message list.
fn order<'m>(message: &'m [u8], rows: &[plain::Row]) -> Order<'m> {
    let parameter = |row: &plain::Row| {
        let start = usize::from(row.offset) + 1;
        OrderParameter {
            header: OrderHeader::of(row.header).expect("a listed header"),
            offset: row.offset.into(),
            octets: &message[start..start + usize::from(row.len)],
        }
    };
    Order {
        form: rows[0].header,
        offset: rows[0].offset.into(),
        parameters: rows[1..].iter().map(parameter).collect(),
    }
}

/// The carriers of these rows of a message, with their digits.
fn carriers<'m>(message: &'m [u8], which: usize, rows: &[plain::CarrierRow]) -> Carriers<'m> {
    let mut carriers = Carriers {
        direction: Direction::of(rows[0].tag).expect("a direction"),
        offset: rows[0].offset.into(),
        entries: Vec::new(),
    };
    for (index, row) in rows.iter().enumerate().skip(1) {
        let offset = usize::from(row.offset);
        if row.level == 1 {
            let tag = CarrierTag::of(row.tag).expect("a carrier's tag");
            let dependents = Vec::new();
            carriers.entries.push(Carrier {
                tag,
                offset,
                len: row.len.into(),
                dependents,
            });
            continue;
        }
        let carried = &message[offset + 2..offset + 2 + usize::from(row.len)];
        let digits = || plain::carrier_digits(message, which, index).expect("a code");
        let contents = match row.tag {
            0xFC => DependentContents::PoiStage(carried),
            0xFD => DependentContents::PoiArea(carried),
            _ => DependentContents::Code(digits()),
        };
        let carrier = carriers.entries.last_mut().expect("a carrier entry");
        carrier.dependents.push(Dependent { offset, contents });
    }
    carriers
}

fn network(network: plain::Network) -> Network {
    match network {
        plain::Network::Phs => Network::Phs,
        plain::Network::Mobile => Network::Mobile,
    }
}

fn added_classes(classes: Vec<plain::AddedClass>) -> Vec<AddedClass> {
    let name = |name| match name {
        plain::AddedName::LongDistance1 => AddedClassName::LongDistance1,
        plain::AddedName::LongDistance2 => AddedClassName::LongDistance2,
        plain::AddedName::Mobile3 => AddedClassName::Mobile3,
        plain::AddedName::Mobile2 => AddedClassName::Mobile2,
        plain::AddedName::Mobile1 => AddedClassName::Mobile1,
        plain::AddedName::Fixed1 => AddedClassName::Fixed1,
    };
    let class = |class: plain::AddedClass| AddedClass {
        name: name(class.name),
        value: class.value,
    };
    classes.into_iter().map(class).collect()
}

fn profile(profile: plain::Profile) -> Profile {
    Profile {
        record: held_by(&plain::image(&profile.record)).expect("a whole image"),
        network: network(profile.network),
        added: profile.added.map(added_classes),
    }
}

#[test]
fn over_many_inputs() {
    for index in 0..COUNT {
        let input = input_at(SEED, index);
        assert!(agree(&input), "the codecs differ: {input:02X?}");
    }
}

/// Whether the two answers are the same.
fn agree(input: &Input) -> bool {
    match input {
        Input::Read { message, .. } => reading_agrees(message),
        Input::Write { image, room } => writing_agrees(image, room, codec::write, plain::write),
        Input::Rows { message, .. } => rows_agree(message),
        Input::FindCommon { message, header } => {
            let found = plain::find_common(message, *header).map(|range| &message[range]);
            same_part(codec::find_common(message, *header), found)
        }
        Input::FindTransfer {
            message,
            name,
            which,
        } => {
            let found = plain::find_transfer(message, *name, *which).map(|range| &message[range]);
            same_part(codec::find_transfer(message, *name, *which), found)
        }
        Input::Class { header, octet } => class_agrees(*header, *octet),
        Input::Replace { n, new, which, .. } => same_lent(
            input.lent(),
            |buffer| codec::replace(buffer, (*n).into(), new, *which),
            |buffer| plain::replace(buffer, (*n).into(), new, *which),
        ),
        Input::Append { n, new, .. } => same_lent(
            input.lent(),
            |buffer| codec::append(buffer, (*n).into(), new),
            |buffer| plain::append(buffer, (*n).into(), new),
        ),
        Input::Remove { n, name, which, .. } => same_lent(
            input.lent(),
            |buffer| codec::remove(buffer, (*n).into(), *name, *which),
            |buffer| plain::remove(buffer, (*n).into(), *name, *which),
        ),
        _ => opened_agrees(input),
    }
}

/// The same of a call that opens a parameter, or reads or writes by the profile.
fn opened_agrees(input: &Input) -> bool {
    match input {
        Input::Charging { message, .. } => charging_agrees(message),
        Input::Order { message, .. } => order_agrees(message),
        Input::ProfileRead { message, .. } => profile_agrees(message),
        Input::ProfileWrite { image, room } => {
            writing_agrees(image, room, codec::profile_write, plain::profile_write)
        }
        Input::AddedClasses { message, .. } => {
            let opened = plain::added_classes(message).map(added_classes);
            codec::added_classes(message) == opened.map_err(refusal)
        }
        Input::Carriers { message, which, .. } | Input::CarrierDigits { message, which, .. } => {
            carriers_agree(message, *which)
        }
        _ => panic!("no such call: {input:02X?}"),
    }
}

fn rows_agree(message: &[u8]) -> bool {
    let rows = plain::rows(message).map(|rows| rows.into_iter().map(row).collect());
    codec::rows(message) == rows.map_err(refusal)
}

fn class_agrees(header: u8, octet: u8) -> bool {
    let classed = plain::class_of(header, octet).map(class);
    codec::class_of(header, octet) == classed.map_err(refusal)
}

fn charging_agrees(message: &[u8]) -> bool {
    let opened = plain::charging(message).map(charging);
    codec::charging(message) == opened.map_err(refusal)
}

fn order_agrees(message: &[u8]) -> bool {
    let opened = plain::order(message).map(|rows| order(message, &rows));
    codec::order(message) == opened.map_err(refusal)
}

fn carriers_agree(message: &[u8], which: usize) -> bool {
    let opened = plain::carriers(message, which).map(|rows| carriers(message, which, &rows));
    codec::carriers(message, which) == opened.map_err(refusal)
}

/// The same record, network and added classes, or the same refusal; and the record,
/// written by the profile, is the message.
fn profile_agrees(message: &[u8]) -> bool {
    let read = codec::profile_read(message);
    let returns = match &read {
        Ok(profile) => codec::profile_write_to_vec(&profile.record).as_deref() == Ok(message),
        Err(_) => true,
    };
    returns && read == plain::profile_read(message).map(profile).map_err(refusal)
}

/// The same record or refusal; and the record, written, is the message.
fn reading_agrees(message: &[u8]) -> bool {
    let read = codec::read(message);
    let returns = match &read {
        Ok(record) => codec::write_to_vec(record).as_deref() == Ok(message),
        Err(_) => true,
    };
    let theirs = plain::read(message).map(|read| held_by(&plain::image(&read)));
    returns && read.map(Some) == theirs.map_err(refusal)
}

/// The same message or refusal of the record that an image holds, also where
/// that is over its limits.
fn writing_agrees(
    image: &[u8],
    room: &[u8],
    ours: fn(&Record, &mut [u8]) -> Result<usize, Refusal>,
    theirs: fn(&plain::Record, &mut [u8]) -> Result<usize, plain::Refusal>,
) -> bool {
    let Some(record) = held_by(image) else {
        return true;
    };
    same_lent(
        room,
        |room| ours(&record, room),
        |room| theirs(&plain::from_image(image)?, room),
    )
}

/// The record of an image with all that it has, also what a parameter does not;
/// none if it is not whole.
fn held_by(image: &[u8]) -> Option<Record> {
    let mut record = Record::default();
    let (&count, mut rest) = image.split_first()?;
    for _ in 0..count {
        let (&[header, a, b, c, d, more_data, transfers], after) = rest.split_first_chunk()?;
        rest = after;
        record.common.push(Common {
            more_data,
            ..Common::new(header, u32::from_le_bytes([a, b, c, d]))
        });
        if header == 0xC5 {
            for _ in 0..transfers {
                rest = push_transfer(&mut record, rest)?;
            }
        }
    }
    rest.is_empty().then_some(record)
}

/// Adds the transfer parameter that begins these octets of an image; gives those
/// behind it.
fn push_transfer<'i>(record: &mut Record, octets: &'i [u8]) -> Option<&'i [u8]> {
    let (head, rest) = octets.split_first_chunk::<11>()?;
    let parameter = Transfer {
        notification: head[1],
        verification: head[2],
        dialling: head[3],
        number_type: head[4],
        incomplete: head[5],
        plan: head[6],
        presentation: head[7],
        screening: head[8],
        ..Transfer::new(head[0])
    };
    let count = usize::from(u16::from_le_bytes([head[9], head[10]]));
    record.push_transfer(parameter, rest.get(..count)?);
    Some(&rest[count..])
}

/// The very same octets of the message, or the same refusal.
fn same_part(ours: Result<&[u8], Refusal>, theirs: Result<&[u8], plain::Refusal>) -> bool {
    let place = |part: &[u8]| part.as_ptr_range();
    ours.map(place) == theirs.map(place).map_err(refusal)
}

/// The same answer, and the same octets in lent memory afterwards.
fn same_lent(
    memory: &[u8],
    ours: impl FnOnce(&mut [u8]) -> Result<usize, Refusal>,
    theirs: impl FnOnce(&mut [u8]) -> Result<usize, plain::Refusal>,
) -> bool {
    let (mut by_ours, mut by_theirs) = (memory.to_vec(), memory.to_vec());
    ours(&mut by_ours) == theirs(&mut by_theirs).map_err(refusal) && by_ours == by_theirs
}

const OVER: Refusal = Refusal::new(Refusal::OVER_LIMITS, 0);

/// A record with user class and signal kind.
fn sound() -> Record {
    let mut record = Record::default();
    record.push_common(0x01, 1);
    record.push_common(0x06, 0x11);
    record
}

#[test]
fn records_over_their_limits() {
    let carried = |count| {
        let mut record = sound();
        record.push_transfer(Transfer::new(0xCE), &vec![0; count]);
        codec::write_to_vec(&record)
    };
    assert!(carried(253).is_ok());
    for count in [256, 65_535, 65_536, 65_537] {
        assert_eq!(carried(count), Err(OVER));
    }
    for count in [55, 255, 256, 257, 1000] {
        let mut record = sound();
        for _ in 0..count {
            record.push_transfer(Transfer::new(0x30), &[]);
        }
        assert_eq!(codec::write_to_vec(&record), Err(OVER));
    }
    for count in [7, 255, 256, 257, 100_000] {
        let mut record = Record::default();
        record.common = vec![Common::new(0x04, 0); count];
        assert_eq!(codec::write_to_vec(&record), Err(OVER));
    }
}

/// An image with so many C5, of which the first has so many transfer parameters
/// with this header, and the first of those so many values.
fn image(commons: u8, transfers: u8, header: u8, values: u16) -> Vec<u8> {
    let [low, high] = values.to_le_bytes();
    let mut image = vec![commons, 0xC5, 0, 0, 0, 0, 0, transfers];
    image.extend([header, 0, 0, 0, 0, 0, 0, 0, 0, low, high]);
    image.extend(vec![0; values.into()]);
    for _ in 1..transfers {
        image.extend([header, 0, 0, 0, 0, 0, 0, 0, 0, 0, 0]);
    }
    for _ in 1..commons {
        image.extend([0xC5, 0, 0, 0, 0, 0, 0]);
    }
    image
}

/// Of a record whose image is too long to be laid out, the wrapper says what the
/// static library says of the image.
#[test]
fn images_of_any_length() {
    let headers = [0x30, 0xB0, 0x41, 0x90, 0xCC, 0xCE, 0xD7, 0xDA, 0x08];
    let values = [
        0, 1, 2, 63, 255, 256, 506, 510, 511, 512, 1128, 1129, 65_535,
    ];
    for (commons, transfers) in [(1, 1), (1, 54), (1, 55), (6, 1), (6, 54), (6, 55), (7, 1)] {
        for (header, values) in headers.into_iter().flat_map(|h| values.map(|v| (h, v))) {
            let image = image(commons, transfers, header, values);
            let packed = boundary::write(&image, &mut [0; MESSAGE_MAX]);
            let (number, place) = ((packed >> 32) as u8, (packed >> 16) as usize & 0xFFFF);
            let record = held_by(&image).expect("a whole image");
            let refused = codec::write(&record, &mut [0; MESSAGE_MAX]);
            assert_eq!(refused, Err(Refusal::new(number, place)), "{record:02X?}");
            assert!(image.len() <= IMAGE_MAX || number == Refusal::OVER_LIMITS);
        }
    }
}

#[test]
fn what_a_parameter_does_not_have_is_not_looked_at() {
    let mut record = sound();
    let area = Transfer {
        plan: 9,
        ..Transfer::new(0x90)
    };
    record.push_transfer(area, &[1, 2]);
    let values = record.hold(&[9; 300]);
    let stray = Transfer {
        values,
        ..Transfer::new(0x00)
    };
    record.common[0].transfers = vec![stray; 300];
    record.common[2].value = 9;
    for parameter in &mut record.common {
        parameter.more_data = 9;
    }
    let message = [0x01, 0x01, 0x06, 0x11, 0xC5, 0x03, 0x90, 0x02, 0x21, 0x00];
    let written = codec::write_to_vec(&record);
    assert_eq!(written.as_deref(), Ok(&message[..]));
}

/// A message with this octet for its sequence.
fn with_sequence(octet: u8) -> [u8; 7] {
    [0x01, 0x01, 0x06, 0x11, 0x04, octet, 0x00]
}

#[test]
fn a_sequence_is_its_number_and_its_mark() {
    let records = [(0x01, false), (0x81, true)].map(|(octet, more_data)| {
        let mut record = sound();
        record.push_sequence(more_data);
        let message = with_sequence(octet);
        assert_eq!(codec::read(&message).as_ref(), Ok(&record));
        assert_eq!(codec::write_to_vec(&record).as_deref(), Ok(&message[..]));
        record
    });
    assert_ne!(records[0], records[1]);
    let refused = Err(Refusal::new(Refusal::NOT_ALLOWED, 4));
    assert_eq!(codec::read(&with_sequence(0x02)), refused);
}

#[test]
fn a_sequence_out_of_range() {
    let written = |value, more_data| {
        let mut record = sound();
        record.common.push(Common {
            more_data,
            ..Common::new(0x04, value)
        });
        codec::write_to_vec(&record).map_err(|refusal| (refusal.number, refusal.place))
    };
    for number in [0, 2, 127, 128, 129, 255, 256, 257, u32::MAX] {
        for mark in [0, 1, 2, 255] {
            assert_eq!(written(number, mark), Err((Refusal::NOT_ALLOWED, 4)));
        }
    }
    for mark in [2, 3, 128, 255] {
        assert_eq!(written(1, mark), Err((Refusal::BAD_FORM, 4)));
    }
}

#[test]
fn refusals_in_words() {
    let refusal = codec::read(&[]).unwrap_err();
    assert_eq!(
        refusal.to_string(),
        "refused, 1 at 0: empty, too long, or over the limits of a record"
    );
    let known = |number| Refusal::new(number, 0).meaning() != "unknown number";
    assert_eq!((0..=255).filter(|&number| known(number)).count(), 20);
}
