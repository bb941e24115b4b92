//! What the mobile call profile asks of a call: as it asks for it, and otherwise.

use crate::rng::Rng;
use plain::common::is_signal_kind;
use plain::transfer::{name_of, ADDED_CLASSES, NETWORK, ORIGINATING_REGION};

/// The names of the parameters that the profile asks for.
pub(crate) const ASKED_FOR: [u8; 3] = [
    name_of(NETWORK),
    name_of(ORIGINATING_REGION),
    name_of(ADDED_CLASSES),
];

/// The names of the added classes.
const NAMES: [u8; 6] = [0x01, 0x02, 0xFB, 0xFC, 0xFD, 0xFE];
/// Octets beside them, and some that are values of added classes as a rule.
const NO_NAMES: [u8; 9] = [0x00, 0x03, 0x05, 0x08, 0x80, 0x81, 0xFA, 0xFA, 0xFF];

/// The signal kind of a call enquiry.
const CALL_ENQUIRY: u8 = 0x11;
const PHS: u8 = 2;
const MOBILE: u8 = 3;

/// What a message has of all that the profile asks for.
#[derive(Clone, Debug, PartialEq, Eq)]
pub(crate) struct Call {
    /// The signal kind.
    pub(crate) signal: u8,
    /// The octet of 7E, if it is there.
    network: Option<u8>,
    /// The contents of FD, if it is there.
    region: Option<Vec<u8>>,
    /// The pairs of D6, if it is there, and an octet that is left over, if one is.
    added: Option<(Vec<[u8; 2]>, Option<u8>)>,
}

/// A call, half of them in the profile; of the others most break one of its rules.
pub(crate) fn call(rng: &mut Rng) -> Call {
    let mut call = sound(rng);
    for _ in 0..rng.pick(&[0, 0, 0, 0, 0, 1, 1, 1, 1, 2]) {
        spoil(rng, &mut call);
    }
    call
}

/// A call in the profile.
fn sound(rng: &mut Rng) -> Call {
    let network = rng.pick(&[PHS, MOBILE]);
    let is_bare = network == PHS && rng.one_in(3);
    let len = rng.pick(&[0, 0, 1, 3, 4, 6]);
    Call {
        signal: CALL_ENQUIRY,
        network: Some(network),
        region: Some(rng.octets(len)),
        added: (!is_bare).then(|| (pairs(rng), None)),
    }
}

/// Pairs of different names and any values, as a rule some that are names.
fn pairs(rng: &mut Rng) -> Vec<[u8; 2]> {
    let mut names = NAMES.to_vec();
    rng.shuffle(&mut names);
    names.truncate(rng.towards(0, NAMES.len()));
    names.into_iter().map(|name| [name, value(rng)]).collect()
}

fn value(rng: &mut Rng) -> u8 {
    match rng.below(3) {
        0 => rng.pick(&NAMES),
        1 => rng.below(10) as u8,
        _ => rng.octet(),
    }
}

/// Breaks a rule of the profile.
fn spoil(rng: &mut Rng, call: &mut Call) {
    match rng.below(8) {
        0 => call.signal = other_signal(rng),
        1 => call.network = None,
        2 => call.network = Some(other_network(rng)),
        3 => call.region = None,
        4 => (call.network, call.added) = (Some(MOBILE), None),
        _ => {
            let (mut pairs, _) = call.added.take().unwrap_or_default();
            let left_over = spoil_pairs(rng, &mut pairs);
            call.added = Some((pairs, left_over));
        }
    }
}

/// A signal kind that is not a call enquiry's.
fn other_signal(rng: &mut Rng) -> u8 {
    let is_other = |&octet: &u8| is_signal_kind(octet) && octet != CALL_ENQUIRY;
    let others: Vec<u8> = (0..=255).filter(is_other).collect();
    rng.pick(&others)
}

/// An octet of another network than the two.
fn other_network(rng: &mut Rng) -> u8 {
    const OTHERS: [u8; 10] = [0, 1, 4, 5, 6, 7, 0x12, 0x82, 0x83, 0xFF];
    match rng.octet() {
        octet if rng.one_in(3) && !matches!(octet, PHS | MOBILE) => octet,
        _ => rng.pick(&OTHERS),
    }
}

/// Puts a name that is not listed among the pairs, or one that stands there, or
/// gives an octet to be left over behind them.
fn spoil_pairs(rng: &mut Rng, pairs: &mut Vec<[u8; 2]>) -> Option<u8> {
    let kind = rng.below(3);
    if kind == 0 {
        return Some(value(rng));
    }
    let mut pair = match kind {
        1 => [rng.pick(&NO_NAMES), 0],
        _ => {
            if pairs.is_empty() {
                pairs.push([rng.pick(&NAMES), value(rng)]);
            }
            rng.pick(pairs)
        }
    };
    // A name that stands there has its value, too, now and then.
    if kind == 1 || rng.below(4) > 0 {
        pair[1] = value(rng);
    }
    let at = rng.between(0, pairs.len());
    pairs.insert(at, pair);
    None
}

impl Call {
    /// The parameters in octets.
    pub(crate) fn parameters(&self) -> Vec<Vec<u8>> {
        let counted = |header, contents: &[u8]| {
            let head = [header, contents.len() as u8];
            [&head, contents].concat()
        };
        let network = self.network.map(|octet| vec![NETWORK, octet]);
        let region = self.region.as_deref();
        let added = self.added.as_ref().map(|(pairs, left_over)| {
            let octets: Vec<u8> = pairs.iter().flatten().chain(left_over).copied().collect();
            counted(ADDED_CLASSES, &octets)
        });
        let region = region.map(|contents| counted(ORIGINATING_REGION, contents));
        [network, region, added].into_iter().flatten().collect()
    }

    /// Makes the contents of FD, if it is there, so many octets longer.
    pub(crate) fn lengthen(&mut self, rng: &mut Rng, more: usize) {
        if let Some(region) = &mut self.region {
            region.extend(rng.octets(more));
        }
    }
}
