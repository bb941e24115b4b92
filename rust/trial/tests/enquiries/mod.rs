//! What occurs of the mobile call profile: each of its rules, kept and alone not
//! kept.

use crate::profile::{Call, Rule, NAMES};
use plain::common::is_signal_kind;
use std::collections::BTreeSet;

/// Something about a call; what is wrong, if it is, is this alone.
#[derive(Clone, Copy, Debug, PartialEq, Eq, PartialOrd, Ord)]
pub enum Sight {
    /// It is in the profile, with this network and so many added classes, if it
    /// has D6.
    Within(u8, Option<usize>),
    /// It is in the profile, and FD is empty, or not.
    Region { is_empty: bool },
    /// It is in the profile, and a value of an added class is this one, a name.
    Value(u8),
    /// It has this signal kind, and not 11.
    Signal(u8),
    /// It has this network, or none.
    Network(Option<u8>),
    /// There is no FD.
    NoRegion,
    /// There is no D6, and the network is mobile.
    NoAdded,
    /// D6 has an odd count of octets, under this network.
    Odd(u8),
    /// A name is this one, which is not listed.
    NoName(u8),
    /// A name is not listed, and its value is a name.
    Mirrored,
    /// This name stands twice, with two values, or with one.
    Again(u8, bool),
    /// More than one rule is not kept.
    More,
}

pub type Sights = BTreeSet<Sight>;

/// All that is to be seen.
pub fn all() -> Sights {
    let mut all = Sights::from([
        Sight::Within(2, None),
        Sight::NoRegion,
        Sight::NoAdded,
        Sight::Mirrored,
        Sight::More,
    ]);
    for network in [2, 3] {
        all.extend((0..=NAMES.len()).map(|count| Sight::Within(network, Some(count))));
        all.insert(Sight::Odd(network));
    }
    let kinds = (0..=255).filter(|&octet| is_signal_kind(octet) && octet != 0x11);
    all.extend(kinds.map(Sight::Signal));
    all.extend([0, 1, 4, 7, 0x82, 0x83, 0xFF].map(|octet| Sight::Network(Some(octet))));
    all.insert(Sight::Network(None));
    all.extend([0x00, 0x03, 0x80, 0x81, 0xFA, 0xFF].map(Sight::NoName));
    all.extend([true, false].map(|is_empty| Sight::Region { is_empty }));
    all.extend(NAMES.map(Sight::Value));
    all.extend(
        [true, false]
            .map(|same| NAMES.map(|name| Sight::Again(name, same)))
            .concat(),
    );
    all
}

/// What is seen in a call.
pub fn sights(call: &Call) -> Vec<Sight> {
    let added = call.added.as_deref().unwrap_or_default();
    match (&call.broken()[..], call.network) {
        ([], Some(network)) => within(call, network),
        ([Rule::Signal], _) => vec![Sight::Signal(call.signal)],
        ([Rule::Network], network) => vec![Sight::Network(network)],
        ([Rule::Region], _) => vec![Sight::NoRegion],
        ([Rule::Added], _) => vec![Sight::NoAdded],
        ([Rule::Pairs], Some(network)) => vec![Sight::Odd(network)],
        ([Rule::Listed], _) => unlisted(added),
        ([Rule::Once], _) => again(added),
        _ => vec![Sight::More],
    }
}

fn within(call: &Call, network: u8) -> Vec<Sight> {
    let added = call.added.as_deref();
    let is_empty = call.region.as_deref() == Some(&[]);
    let mut seen = vec![
        Sight::Within(network, added.map(|octets| octets.len() / 2)),
        Sight::Region { is_empty },
    ];
    let values = added.unwrap_or_default().iter().skip(1).step_by(2);
    seen.extend(
        values
            .filter(|value| NAMES.contains(value))
            .map(|&value| Sight::Value(value)),
    );
    seen
}

fn unlisted(added: &[u8]) -> Vec<Sight> {
    let pairs = added.chunks(2).filter(|pair| !NAMES.contains(&pair[0]));
    let seen = |pair: &[u8]| match NAMES.contains(&pair[1]) {
        true => vec![Sight::NoName(pair[0]), Sight::Mirrored],
        false => vec![Sight::NoName(pair[0])],
    };
    pairs.flat_map(seen).collect()
}

fn again(added: &[u8]) -> Vec<Sight> {
    let pairs: Vec<&[u8]> = added.chunks(2).collect();
    let mut seen = Vec::new();
    for (at, pair) in pairs.iter().enumerate() {
        let before = pairs[..at].iter().filter(|before| before[0] == pair[0]);
        seen.extend(before.map(|before| Sight::Again(pair[0], before == pair)));
    }
    seen
}
