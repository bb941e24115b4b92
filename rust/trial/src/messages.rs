//! Messages: sound ones, short to full, and damaged ones.

use crate::parameters::{self, shortest, shuffled_names, sound, CARRIERS_NAME};
use crate::profile::{self, Call, ASKED_FOR};
use crate::rng::Rng;
use plain::common::{is_signal_kind, MESSAGE_LIMIT};
use plain::transfer::{layout_of, name_of, Layout, CARRIERS_LIMIT, DATA_LIMIT};

/// A message taken apart.
#[derive(Clone, Debug, PartialEq, Eq)]
pub struct Draft {
    /// The parts before the end mark.
    pub parts: Vec<Part>,
    /// The end mark, and what may stand after it.
    pub end: Vec<u8>,
}

/// A part of a message.
#[derive(Clone, Debug, PartialEq, Eq)]
pub enum Part {
    /// A common parameter in octets.
    Common(Vec<u8>),
    /// Transfer data.
    Data {
        /// Its parameters in octets.
        parameters: Vec<Vec<u8>>,
        /// What the length octet tells too much; too little if negative.
        excess: i8,
    },
}

/// How large the transfer data is to be.
#[derive(Clone, Copy, Debug, PartialEq, Eq)]
pub enum Size {
    /// A few parameters.
    Short,
    /// Many parameters, up to all 52 names, CC three times.
    Crowd,
    /// A few octets short of 255.
    Near,
    /// 255 octets, and all common parameters: 272 octets.
    Full,
}

impl Draft {
    /// The message's octets.
    pub fn octets(&self) -> Vec<u8> {
        let mut octets = Vec::with_capacity(MESSAGE_LIMIT);
        for part in &self.parts {
            match part {
                Part::Common(parameter) => octets.extend_from_slice(parameter),
                Part::Data { parameters, excess } => {
                    let told = data_len(parameters).min(DATA_LIMIT) as u8;
                    octets.extend([0xC5, told.wrapping_add_signed(*excess)]);
                    octets.extend(parameters.iter().flatten());
                }
            }
        }
        octets.extend_from_slice(&self.end);
        octets
    }

    /// The parameters of the transfer data, if there is any.
    fn data(&mut self) -> Option<(&mut Vec<Vec<u8>>, &mut i8)> {
        self.parts.iter_mut().find_map(|part| match part {
            Part::Data { parameters, excess } => Some((parameters, excess)),
            Part::Common(_) => None,
        })
    }

    /// The octets of the common parameter `header`, if there is one.
    fn common(&mut self, header: u8) -> Option<&mut Vec<u8>> {
        self.parts.iter_mut().find_map(|part| match part {
            Part::Common(octets) if octets.first() == Some(&header) => Some(octets),
            _ => None,
        })
    }

    /// Puts a part anywhere before the end mark.
    fn insert(&mut self, rng: &mut Rng, part: Part) {
        let at = rng.between(0, self.parts.len());
        self.parts.insert(at, part);
    }
}

/// A size, short as a rule.
pub fn size(rng: &mut Rng) -> Size {
    [Size::Short, Size::Crowd, Size::Near, Size::Full][rng.weighted(&[24, 4, 3, 3])]
}

/// A message that reading accepts, taken apart.
pub fn sound_draft(rng: &mut Rng, size: Size) -> Draft {
    let mut parts = Vec::with_capacity(6);
    for header in [0x01, 0x06, 0x82, 0x83, 0x04] {
        if size == Size::Full || matches!(header, 0x01 | 0x06) || rng.one_in(2) {
            parts.push(Part::Common(common(rng, header)));
        }
    }
    if size != Size::Short || rng.below(8) > 0 {
        parts.push(Part::Data {
            parameters: data(rng, size),
            excess: 0,
        });
    }
    rng.shuffle(&mut parts);
    Draft {
        parts,
        end: vec![0x00],
    }
}

/// A sound common parameter; of an unlisted header, one as its PLI gives.
fn common(rng: &mut Rng, header: u8) -> Vec<u8> {
    let contents = match header {
        0x01 => vec![0x01],
        0x04 => vec![sequence(rng)],
        0x06 => vec![signal_kind(rng)],
        _ if header >> 6 == 3 => {
            let len = rng.below(4);
            let mut contents = rng.octets(len);
            contents.insert(0, len as u8);
            contents
        }
        _ => rng.octets(usize::from(header >> 6) + 1),
    };
    [&[header], &contents[..]].concat()
}

/// The octet of a sound sequence: the number 1, and any mark.
pub fn sequence(rng: &mut Rng) -> u8 {
    rng.pick(&[0x01, 0x81])
}

/// Octets of a sequence with another number: those next to 1 and the last, with
/// both marks, and 1 where the bits are taken in another order.
const OTHER_SEQUENCES: [u8; 12] = [
    0x00, 0x02, 0x03, 0x40, 0x41, 0x7F, 0x80, 0x82, 0x83, 0xC0, 0xC1, 0xFF,
];

/// Gives a common parameter of one octet another one, as a rule not allowed.
fn spoil(rng: &mut Rng, parameter: &mut [u8]) {
    if let [header, octet] = parameter {
        *octet = match header {
            0x04 => rng.pick(&OTHER_SEQUENCES),
            _ => rng.octet(),
        };
    }
}

fn signal_kind(rng: &mut Rng) -> u8 {
    let kinds: Vec<u8> = (0..=255).filter(|&octet| is_signal_kind(octet)).collect();
    rng.pick(&kinds)
}

/// The names in use in any order, that of the carriers up to three times.
fn names_to_stand(rng: &mut Rng) -> Vec<u8> {
    let mut names = shuffled_names(rng);
    for _ in 0..rng.pick(&[0, 0, 1, CARRIERS_LIMIT - 1]) {
        let at = rng.between(0, names.len());
        names.insert(at, CARRIERS_NAME);
    }
    names
}

/// Sound transfer parameters, none of them more often than it may stand, in at most
/// 255 octets.
fn data(rng: &mut Rng, size: Size) -> Vec<Vec<u8>> {
    let mut names = names_to_stand(rng);
    let mut filler = None;
    let mut left = DATA_LIMIT;
    match size {
        Size::Short => names.truncate(rng.below(6)),
        Size::Crowd if rng.one_in(2) => names.truncate(rng.between(20, 52)),
        Size::Crowd => {}
        Size::Near => {
            filler = Some(fillers(&mut names));
            left -= rng.between(1, 6);
        }
        Size::Full => filler = Some(fillers(&mut names)),
    }
    let mut parameters = Vec::new();
    for name in names {
        let room = match size {
            Size::Crowd => shortest(name) + rng.pick(&[0, 0, 1, 3]),
            _ => left.min(90),
        };
        if shortest(name) <= room && room <= left {
            let parameter = sound(rng, name, room);
            left -= parameter.len();
            parameters.push(parameter);
        }
    }
    if let Some(names) = filler {
        fill_up(rng, &mut parameters, names, left);
    }
    parameters
}

/// Takes all that is left, by one of the two names.
fn fill_up(rng: &mut Rng, parameters: &mut Vec<Vec<u8>>, names: [u8; 2], left: usize) {
    let [alone, any_length] = names;
    match left {
        0 => {}
        1 => parameters.push(vec![alone]),
        _ => {
            let contents = rng.octets(left - 2);
            let head = [0xC0 | any_length, contents.len() as u8];
            parameters.push([&head, &contents[..]].concat());
        }
    }
    rng.shuffle(parameters);
}

/// Takes two names out that can fill what is left: one that can stand alone,
/// and one whose contents can be of any length.
fn fillers(names: &mut Vec<u8>) -> [u8; 2] {
    [Layout::Open, Layout::Carried].map(|layout| {
        let at = names.iter().position(|&name| layout_of(name) == layout);
        names.remove(at.expect("a name of this layout"))
    })
}

/// A message whose transfer data is `parameter`, of at most 255 octets, alone.
pub fn with_alone(parameter: &[u8]) -> Vec<u8> {
    let head = [0x01, 0x01, 0x06, 0x11, 0xC5, parameter.len() as u8];
    [&head, parameter, &[0x00]].concat()
}

/// A message that reading accepts.
pub fn sound_message(rng: &mut Rng) -> Vec<u8> {
    let size = size(rng);
    sound_draft(rng, size).octets()
}

/// A message that is sound but, as the case may be, for its charging
/// information; it has some if it has transfer data.
pub fn charged_message(rng: &mut Rng) -> Vec<u8> {
    message_with(rng, parameters::charging_somehow)
}

/// The same with a connection order.
pub fn ordered_message(rng: &mut Rng) -> Vec<u8> {
    message_with(rng, parameters::order_somehow)
}

/// A message with one to four CC, as a rule one of them spoilt; all else is sound.
/// It has none if it has no transfer data.
pub fn message_with_carriers(rng: &mut Rng) -> Vec<u8> {
    let size = size(rng);
    let mut draft = sound_draft(rng, size);
    if let Some((parameters, _)) = draft.data() {
        let count = rng.pick(&[1, 1, 2, 2, 3, 3, 3, CARRIERS_LIMIT + 1]);
        let mut carriers = sound_carriers(rng, count);
        if rng.one_in(2) {
            carriers[rng.below(count)] = parameters::spoilt_carriers(rng);
        }
        put_carriers(rng, parameters, carriers);
    }
    draft.octets()
}

/// A message with up to three CC that reading accepts.
pub fn sound_message_with_carriers(rng: &mut Rng) -> Vec<u8> {
    let size = size(rng);
    let mut draft = sound_draft(rng, size);
    if let Some((parameters, _)) = draft.data() {
        let count = rng.pick(&[0, 1, 2, 3, CARRIERS_LIMIT]);
        let carriers = sound_carriers(rng, count);
        put_carriers(rng, parameters, carriers);
    }
    draft.octets()
}

/// So many sound CC.
fn sound_carriers(rng: &mut Rng, count: usize) -> Vec<Vec<u8>> {
    (0..count)
        .map(|_| parameters::sound_carriers(rng))
        .collect()
}

/// Puts these CC among the others, in the place of those that are there.
fn put_carriers(rng: &mut Rng, parameters: &mut Vec<Vec<u8>>, carriers: Vec<Vec<u8>>) {
    parameters.retain(|parameter| name_of(parameter[0]) != CARRIERS_NAME);
    for own in carriers {
        put(rng, parameters, own);
    }
}

/// A message that is sound but for bad digits or characters in a parameter of its
/// transfer data, if it has some.
pub fn message_with_bad_digits(rng: &mut Rng) -> Vec<u8> {
    message_with(rng, parameters::spoilt_digits)
}

/// A call enquiry, in the mobile call profile or not, in which all that the
/// profile does not ask about is sound, but for one in eight.
pub fn enquiry(rng: &mut Rng) -> Vec<u8> {
    let mut draft = enquiry_draft(rng);
    if rng.one_in(8) {
        damage(rng, &mut draft);
    }
    draft.octets()
}

/// One that reading accepts, taken apart.
pub(crate) fn enquiry_draft(rng: &mut Rng) -> Draft {
    let size = size(rng);
    let mut draft = sound_draft(rng, size);
    let call = profile::call(rng);
    put_call(rng, &mut draft, call);
    draft
}

/// Gives a sound message what a call has, in the place of its own.
fn put_call(rng: &mut Rng, draft: &mut Draft, mut call: Call) {
    if let Some(kind) = draft.common(0x06) {
        kind[1] = call.signal;
    }
    if draft.data().is_none() {
        let (parameters, excess) = (Vec::new(), 0);
        draft.insert(rng, Part::Data { parameters, excess });
    }
    let Some((parameters, _)) = draft.data() else {
        return;
    };
    parameters.retain(|parameter| !ASKED_FOR.contains(&name_of(parameter[0])));
    while data_len(parameters) + data_len(&call.parameters()) > DATA_LIMIT {
        parameters.pop();
    }
    if rng.one_in(8) {
        let len = data_len(parameters) + data_len(&call.parameters());
        call.lengthen(rng, DATA_LIMIT - len);
    }
    for own in call.parameters() {
        put(rng, parameters, own);
    }
}

/// How many octets of transfer data these parameters take.
fn data_len(parameters: &[Vec<u8>]) -> usize {
    parameters.iter().map(Vec::len).sum()
}

/// A message with one parameter made so, if it has transfer data; all else is
/// sound.
fn message_with(rng: &mut Rng, made: fn(&mut Rng) -> Vec<u8>) -> Vec<u8> {
    let size = size(rng);
    let mut draft = sound_draft(rng, size);
    if let Some((parameters, _)) = draft.data() {
        let own = made(rng);
        parameters.retain(|parameter| name_of(parameter[0]) != name_of(own[0]));
        put(rng, parameters, own);
    }
    draft.octets()
}

/// A message of any kind: sound, damaged, or none at all.
pub fn message(rng: &mut Rng) -> Vec<u8> {
    match rng.weighted(&[20, 18, 6, 2, 3]) {
        0 => sound_message(rng),
        1 => {
            let size = size(rng);
            let mut draft = sound_draft(rng, size);
            damage(rng, &mut draft);
            if rng.one_in(5) {
                damage(rng, &mut draft);
            }
            draft.octets()
        }
        2 => {
            let mut octets = sound_message(rng);
            scratch(rng, &mut octets);
            if rng.one_in(4) {
                scratch(rng, &mut octets);
            }
            octets
        }
        3 => noise(rng),
        _ => message_with_carriers(rng),
    }
}

/// Damages a message somewhere, keeping most of its build.
pub fn damage(rng: &mut Rng, draft: &mut Draft) {
    match rng.weighted(&[6, 2]) {
        0 if draft.data().is_some() => damage_data(rng, draft),
        _ => damage_common(rng, draft),
    }
}

/// Damages the common part.
fn damage_common(rng: &mut Rng, draft: &mut Draft) {
    match rng.below(13) {
        0..=3 => add_common(rng, draft),
        4 | 5 => {
            let header = rng.pick(&[0x01, 0x06]);
            draft.parts.retain(
                |part| !matches!(part, Part::Common(octets) if octets.first() == Some(&header)),
            );
        }
        6 | 7 => {
            let header = rng.pick(&[0x01, 0x06, 0x04, 0x04]);
            if let Some(parameter) = draft.common(header) {
                spoil(rng, parameter);
            }
        }
        8 => {
            let header = rng.pick(&[0x01, 0x06, 0x82, 0x83, 0x04]);
            if let Some(octets) = draft.common(header) {
                octets.pop();
            }
        }
        9 => draft.insert(rng, Part::Common(vec![0x00])),
        10 => draft.end.clear(),
        11 => {
            let len = rng.between(1, 3);
            let mut more = rng.octets(len);
            if rng.one_in(3) {
                more.fill(0);
            }
            draft.end.extend(more);
        }
        _ => {
            let keep = rng.between(0, draft.parts.len());
            draft.parts.truncate(keep);
            draft.end.clear();
        }
    }
}

/// Adds a common parameter: one that is there, one of a listed header, or any.
fn add_common(rng: &mut Rng, draft: &mut Draft) {
    let mut added = match rng.below(4) {
        0 | 1 if !draft.parts.is_empty() => draft.parts[rng.below(draft.parts.len())].clone(),
        2 => {
            let header = rng.pick(&[0x01, 0x06, 0x82, 0x83, 0x04, 0xC5]);
            Part::Common(common(rng, header))
        }
        _ => {
            let header = rng.octet();
            Part::Common(common(rng, header))
        }
    };
    if let (Part::Common(parameter), true) = (&mut added, rng.one_in(2)) {
        spoil(rng, parameter);
    }
    draft.insert(rng, added);
}

/// Damages the transfer data.
fn damage_data(rng: &mut Rng, draft: &mut Draft) {
    let Some((parameters, excess)) = draft.data() else {
        return;
    };
    match rng.below(12) {
        0..=4 => {
            let spoilt = parameters::spoilt_somehow(rng);
            put(rng, parameters, spoilt);
        }
        5..=7 => {
            if let Some(again) = same_name_again(rng, parameters) {
                put(rng, parameters, again);
            }
        }
        8 => *excess = rng.pick(&[-2, -1, -1, 1, 1, 2]),
        9 => {
            if let Some(last) = parameters.last_mut() {
                last.pop();
            }
        }
        10 => {
            for parameter in parameters.iter_mut().filter(|p| p.first() >= Some(&0x80)) {
                if rng.one_in(3) && parameter.len() > 1 {
                    parameter[1] = parameter[1].wrapping_add(rng.pick(&[1, 0xFF]));
                }
            }
        }
        _ => {
            if !parameters.is_empty() {
                let at = rng.below(parameters.len());
                parameters[at] = parameters::spoilt_somehow(rng);
            }
        }
    }
}

/// Puts one more parameter among the others; where they fill the transfer
/// data, in the place of the last.
fn put(rng: &mut Rng, parameters: &mut Vec<Vec<u8>>, parameter: Vec<u8>) {
    let mut len = data_len(parameters) + parameter.len();
    while len > DATA_LIMIT {
        match parameters.pop() {
            Some(last) => len -= last.len(),
            None => break,
        }
    }
    let last = parameters.len();
    let at = if rng.one_in(3) {
        last
    } else {
        rng.between(0, last)
    };
    parameters.insert(at, parameter);
}

/// A parameter of a name that already stands among `parameters`.
fn same_name_again(rng: &mut Rng, parameters: &[Vec<u8>]) -> Option<Vec<u8>> {
    if parameters.is_empty() {
        return None;
    }
    let again = &parameters[rng.below(parameters.len())];
    let name = again.first()? & 0x3F;
    Some(match rng.below(5) {
        0 | 1 => again.clone(),
        2 | 3 => sound(rng, name, 20),
        _ => {
            let mut again = again.clone();
            let last = again.len() - 1;
            match rng.below(3) {
                0 => again[0] ^= rng.pick(&[0x40, 0x80, 0xC0]),
                1 => again[last] ^= rng.octet(),
                _ => again.truncate(last.max(1)),
            }
            again
        }
    })
}

/// Damages octets without regard to the build.
pub fn scratch(rng: &mut Rng, octets: &mut Vec<u8>) {
    if octets.is_empty() {
        return;
    }
    let at = rng.below(octets.len());
    match rng.below(8) {
        0 | 1 => octets[at] = rng.octet(),
        2 => octets[at] ^= 1 << rng.below(8),
        3 => octets[at] = octets[at].wrapping_add(rng.pick(&[1, 0xFF])),
        4 => octets.truncate(at),
        5 => {
            octets.remove(at);
        }
        6 => octets.insert(at, rng.octet()),
        _ => {
            let len = rng.between(1, 4);
            octets.extend(rng.octets(len));
        }
    }
}

/// Octets that are no message, or just too many.
fn noise(rng: &mut Rng) -> Vec<u8> {
    const LIKELY: [u8; 14] = [
        0x00, 0x01, 0x01, 0x01, 0x06, 0x11, 0x04, 0x82, 0xC5, 0x02, 0x41, 0x90, 0xD7, 0x30,
    ];
    match rng.below(5) {
        0 => vec![],
        1 => {
            let mut octets = sound_draft(rng, Size::Full).octets();
            let more = rng.between(1, 40);
            octets.extend(rng.octets(more));
            octets
        }
        2 => {
            let len = rng.between(1, 300);
            rng.octets(len)
        }
        3 => {
            let len = rng.between(1, 12);
            (0..len).map(|_| rng.pick(&LIKELY)).collect()
        }
        _ => {
            let len = rng.between(1, 12);
            let mut octets: Vec<u8> = (0..len).map(|_| rng.pick(&LIKELY)).collect();
            octets.splice(0..0, [0x01, 0x01, 0x06, 0x31]);
            octets.push(0x00);
            octets
        }
    }
}

#[cfg(test)]
mod tests {
    use super::*;

    #[test]
    fn sound_ones_are_accepted() {
        let mut rng = Rng::new(3);
        let mut most_rows = 0;
        for _ in 0..2_000 {
            for size in [Size::Short, Size::Crowd, Size::Near, Size::Full] {
                let octets = sound_draft(&mut rng, size).octets();
                assert_eq!(plain::verdict(&octets), Ok(()), "{octets:02X?}");
                assert!(size != Size::Full || octets.len() == MESSAGE_LIMIT);
                most_rows = most_rows.max(plain::rows(&octets).map_or(0, |rows| rows.len()));
            }
        }
        assert_eq!(most_rows, plain::listing::ROW_LIMIT);
    }

    #[test]
    fn enquiries_are_accepted_and_half_of_them_are_in_the_profile() {
        let mut rng = Rng::new(4);
        let is_in = |message: &[u8]| match plain::profile_read(message) {
            Ok(_) => true,
            Err(refusal) => {
                assert_eq!(refusal.number, 20, "{message:02X?}");
                false
            }
        };
        let enquiries = (0..8_000).map(|_| enquiry_draft(&mut rng).octets());
        let within = enquiries.filter(|message| is_in(message)).count();
        assert!((3_600..4_400).contains(&within), "{within}");
    }
}
