//! Over many inputs every answer occurs that a call can have, and no other;
//! every name meets every refusal that its layout can give; every field is met
//! at its limit and one above, and so are the number and the mark of the
//! sequence, every rate kind of the charging information, every form and header of
//! the connection order and every tag, length and code of the carriers; each of
//! several carriers is asked for, and one more than there are; whatever holds digits
//! or characters holds bad ones in every way; every rule of the mobile call profile is
//! kept, and alone is not kept; and every condition of a list occurs.

mod carriers;
mod charging;
mod conditions;
mod contents;
mod digits;
mod enquiries;
mod halves;
mod order;
mod profile;
mod sequence;
mod which;

use conditions::CONDITIONS;
use contents::{contents_in, parameter_at};
use plain::transfer::{CARRIERS, CHARGING, ORDER};
use std::collections::{BTreeMap, BTreeSet};
use trial::record::{fields_in, fields_of, Common, Record, Transfer, WITH_FIELDS};
use trial::{answer, input_at, Coverage, Input, Kind, Outcome};

const SEED: u64 = 17;
const COUNT: u64 = 240_000;

/// The inputs under the seed, with the answers to them.
fn calls() -> impl Iterator<Item = (Input, Outcome)> {
    (0..COUNT).map(|index| {
        let input = input_at(SEED, index);
        let outcome = answer(&input);
        (input, outcome)
    })
}

/// Names by refusal number.
type Names = BTreeMap<u8, BTreeSet<u8>>;
/// Rate kinds by refusal number, 0 for those that were accepted.
type Kinds = BTreeMap<u8, BTreeSet<u8>>;

/// How many names reading refuses with each number. 12 names are unused, 47 of
/// the others have a PLI of their own. Eleven names under PLI 01 and three under
/// PLI 10 have zero bits, and nine under PLI 11 a form; eleven hold digits, one of
/// them a check digit, and one is the connection order.
const READ: [(u8, usize); 8] = [
    (8, 12),
    (9, 47),
    (10, 52),
    (11, 52),
    (12, 23),
    (13, 11),
    (18, 1),
    (19, 1),
];

/// The same of writing. There no contents under PLI 11 are of a wrong length,
/// save those that are 12; 90, 91, 95 and 98 have marks, A3 has none.
const WRITTEN: [(u8, usize); 8] = [
    (8, 12),
    (9, 47),
    (10, 52),
    (11, 30),
    (12, 24),
    (13, 11),
    (18, 1),
    (19, 1),
];

#[test]
fn every_possible_answer_occurs() {
    let mut coverage = Coverage::default();
    let mut read = Names::new();
    let mut written = Names::new();
    for (input, outcome) in calls() {
        coverage.note(&input, &outcome);
        note_read(&input, &outcome, &mut read);
        note_written(&input, &outcome, &mut written);
    }
    println!("{coverage}");
    assert_eq!(coverage.lacking(), [""; 0]);
    assert_eq!(coverage.surplus(), [""; 0]);
    assert_eq!(counts(&read), READ);
    assert_eq!(counts(&written), WRITTEN);
}

#[test]
fn every_condition_occurs() {
    let mut missing = CONDITIONS.to_vec();
    for (input, outcome) in calls() {
        missing.retain(|(_, occurs)| !occurs(&input, &outcome));
        if missing.is_empty() {
            return;
        }
    }
    let missing: Vec<&str> = missing.into_iter().map(|(name, _)| name).collect();
    panic!("did not occur: {missing:?}");
}

#[test]
fn every_number_and_mark_of_a_sequence_occurs() {
    let [mut read, mut written, mut edited] = [(); 3].map(|()| sequence::Sights::new());
    for (input, outcome) in calls() {
        let seen = match input.kind() {
            Kind::Write => &mut written,
            Kind::Replace | Kind::Append | Kind::Remove => &mut edited,
            _ => &mut read,
        };
        seen.extend(sequence::sights(&input, &outcome));
    }
    for (call, all, seen) in [
        ("read", sequence::all_read(), read),
        ("written", sequence::all_written(), written),
        ("edited", sequence::all_read(), edited),
    ] {
        let missing: Vec<_> = all.difference(&seen).copied().collect();
        assert_eq!(missing, [], "{call}");
    }
}

#[test]
fn every_rate_kind_occurs_at_its_limits() {
    let (mut read, mut written, mut edited) = (Kinds::new(), Kinds::new(), Kinds::new());
    let mut seen = charging::Sights::new();
    for (input, outcome) in calls() {
        let Some(contents) = contents_in(CHARGING, &input, &outcome) else {
            continue;
        };
        let kinds = match input.kind() {
            Kind::Write => &mut written,
            Kind::Replace | Kind::Append => &mut edited,
            _ => {
                seen.extend(charging::sights(&contents, outcome.number()));
                &mut read
            }
        };
        let kinds = kinds.entry(outcome.number()).or_default();
        kinds.extend(charging::kind_of(&contents));
    }
    let missing: Vec<_> = charging::all().difference(&seen).copied().collect();
    assert_eq!(missing, []);
    // All kinds but one have digits, and four a check digit.
    for kinds in [read, written, edited] {
        assert_eq!(counts(&kinds), [(0, 8), (12, 8), (13, 7), (18, 4)]);
    }
}

#[test]
fn every_form_and_header_occurs_at_its_limits() {
    let [mut read, mut written, mut edited] = [(); 3].map(|()| order::Sights::new());
    for (input, outcome) in calls() {
        let Some(contents) = contents_in(ORDER, &input, &outcome) else {
            continue;
        };
        let seen = match input.kind() {
            Kind::Write => &mut written,
            Kind::Replace | Kind::Append => &mut edited,
            _ => &mut read,
        };
        seen.extend(order::sights(&contents));
    }
    for (call, seen) in [("read", read), ("written", written), ("edited", edited)] {
        let missing: Vec<_> = order::all().difference(&seen).copied().collect();
        assert_eq!(missing, [], "{call}");
    }
}

#[test]
fn every_tag_and_length_of_carriers_occurs() {
    let [mut read, mut written, mut edited] = [(); 3].map(|()| carriers::Sights::new());
    for (input, outcome) in calls() {
        let Some(contents) = contents_in(CARRIERS, &input, &outcome) else {
            continue;
        };
        let seen = match input.kind() {
            Kind::Write => &mut written,
            Kind::Replace | Kind::Append => &mut edited,
            _ => &mut read,
        };
        seen.extend(carriers::sights(&contents));
    }
    for (call, seen) in [("read", read), ("written", written), ("edited", edited)] {
        let missing: Vec<_> = carriers::all().difference(&seen).copied().collect();
        assert_eq!(missing, [], "{call}");
    }
}

#[test]
fn every_one_of_several_is_asked_for() {
    let seen = calls().filter_map(|(input, outcome)| which::sight(&input, &outcome));
    let seen: which::Sights = seen.collect();
    let missing: Vec<_> = which::all().difference(&seen).copied().collect();
    assert_eq!(missing, []);
}

#[test]
fn every_bad_half_and_character_occurs() {
    let [mut read, mut edited] = [(); 2].map(|()| digits::Sights::new());
    for (input, outcome) in calls() {
        let seen = match input.kind() {
            Kind::Replace | Kind::Append | Kind::Remove => &mut edited,
            _ => &mut read,
        };
        seen.extend(digits::sights(&input, &outcome));
    }
    for (call, seen) in [("read", read), ("edited", edited)] {
        let missing: Vec<_> = digits::all().difference(&seen).copied().collect();
        assert_eq!(missing, [], "{call}");
    }
}

#[test]
fn every_rule_of_the_profile_occurs() {
    let [mut read, mut written, mut opened] = [(); 3].map(|()| enquiries::Sights::new());
    for (input, _) in calls() {
        let Some(message) = profile::message_of(&input) else {
            continue;
        };
        let seen = match input.kind() {
            Kind::ProfileWrite => &mut written,
            Kind::AddedClasses => &mut opened,
            _ => &mut read,
        };
        seen.extend(enquiries::sights(&profile::call_in(&message)));
    }
    for (call, seen) in [("read", read), ("written", written), ("opened", opened)] {
        let missing: Vec<_> = enquiries::all().difference(&seen).copied().collect();
        assert_eq!(missing, [], "{call}");
    }
}

/// Headers and indices of fields.
type Fields = BTreeSet<(u8, usize)>;

#[test]
fn every_field_occurs_at_its_limit_and_above() {
    let (mut at, mut above) = (Fields::new(), Fields::new());
    for (input, outcome) in calls() {
        note_fields(&input, &outcome, &mut at, &mut above);
    }
    let pairs = |header| fields_of(header).iter().map(move |&(i, _)| (header, i));
    let all: Fields = WITH_FIELDS.into_iter().flat_map(pairs).collect();
    assert_eq!(all.len(), 20);
    assert_eq!((&at, &above), (&all, &all));
}

/// Notes the fields that are at their limits in a record that is written, and
/// the one that is one above where nothing else is wrong.
fn note_fields(input: &Input, outcome: &Outcome, at: &mut Fields, above: &mut Fields) {
    let Input::Write { image, .. } = input else {
        return;
    };
    let Ok(record) = plain::from_image(image).map(Record::from) else {
        return;
    };
    if outcome.number() == 0 {
        at.extend(record.common.iter().flat_map(fields_at_limit));
    } else if outcome.number() == 12 {
        above.extend(sole_fault(record, outcome.place()));
    }
}

fn fields_at_limit(common: &Common) -> Vec<(u8, usize)> {
    let mut at = Vec::new();
    for transfer in &common.transfers {
        for &(index, most) in fields_in(transfer) {
            if transfer.fields[index] == most {
                at.push((transfer.header, index));
            }
        }
    }
    at
}

/// The field of the transfer parameter at `place` that is one above its limit,
/// if the record can be written once it is at the limit.
fn sole_fault(mut record: Record, place: usize) -> Option<(u8, usize)> {
    let transfer = transfer_at(&mut record, place)?;
    let header = transfer.header;
    let mut fields = fields_in(transfer).iter();
    let &(index, most) = fields.find(|&&(i, most)| transfer.fields[i] == most + 1)?;
    transfer.fields[index] = most;
    let mended = plain::from_image(&record.image()).ok()?;
    plain::write(&mended, &mut [0; 272]).ok()?;
    Some((header, index))
}

fn counts(names: &Names) -> Vec<(u8, usize)> {
    names.iter().map(|(&n, names)| (n, names.len())).collect()
}

/// Whether a transfer parameter was refused.
fn is_of_transfer(outcome: &Outcome) -> bool {
    matches!(outcome.number(), 8..=13 | 18 | 19)
}

/// Notes the name at which reading refused a transfer parameter.
fn note_read(input: &Input, outcome: &Outcome, names: &mut Names) {
    let Some(message) = input.message() else {
        return;
    };
    if is_of_transfer(outcome) {
        let name = parameter_at(message, outcome.place())[0] & 0x3F;
        names.entry(outcome.number()).or_default().insert(name);
    }
}

/// Notes the name at which writing refused a transfer parameter.
fn note_written(input: &Input, outcome: &Outcome, names: &mut Names) {
    let Input::Write { image, .. } = input else {
        return;
    };
    if !is_of_transfer(outcome) {
        return;
    }
    let record = plain::from_image(image).expect("a record within its limits");
    let mut record = Record::from(record);
    if let Some(parameter) = transfer_at(&mut record, outcome.place()) {
        let name = parameter.header & 0x3F;
        names.entry(outcome.number()).or_default().insert(name);
    }
}

/// The transfer parameter whose header would stand at `place`, if all before
/// it is sound.
fn transfer_at(record: &mut Record, place: usize) -> Option<&mut Transfer> {
    let mut offset = 0;
    for parameter in &mut record.common {
        if parameter.header != 0xC5 {
            offset += usize::from(parameter.header >> 6) + 2;
            continue;
        }
        if offset == place {
            return None;
        }
        offset += 2;
        for transfer in &mut parameter.transfers {
            if offset == place {
                return Some(transfer);
            }
            offset += 1 + usize::from(transfer.header >> 6 == 3) + transfer.contents_len();
        }
    }
    None
}
