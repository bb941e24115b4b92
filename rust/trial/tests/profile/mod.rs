//! The rules of the mobile call profile, said apart from both codecs
//! ([`Call::broken`]); a call is taken out of a message by plain's finding.

#![allow(dead_code)]

use plain::common::SIGNAL_KIND;
use plain::transfer::{name_of, ADDED_CLASSES, NETWORK, ORIGINATING_REGION};
use trial::Input;

/// The names of the added classes.
pub const NAMES: [u8; 6] = [0x01, 0x02, 0xFB, 0xFC, 0xFD, 0xFE];

/// What a message that reading accepts has of all that the profile asks for.
#[derive(Clone, Debug, PartialEq, Eq)]
pub struct Call {
    /// The signal kind, 06.
    pub signal: u8,
    /// The octet of 7E, if it is there.
    pub network: Option<u8>,
    /// The contents of FD, if it is there.
    pub region: Option<Vec<u8>>,
    /// The contents of D6, if it is there.
    pub added: Option<Vec<u8>>,
}

/// A rule of the profile.
#[derive(Clone, Copy, Debug, PartialEq, Eq, PartialOrd, Ord)]
pub enum Rule {
    /// The signal kind is 11.
    Signal,
    /// 7E is there, with 2 or 3.
    Network,
    /// FD is there.
    Region,
    /// D6 is there if 7E is 3.
    Added,
    /// The octets of D6 are pairs.
    Pairs,
    /// The first of each pair is one of the names.
    Listed,
    /// No two of these are the same.
    Once,
}

impl Call {
    /// The rules that it breaks.
    pub fn broken(&self) -> Vec<Rule> {
        let added = self.added.as_deref().unwrap_or_default();
        let names: Vec<u8> = added.iter().step_by(2).copied().collect();
        let is_again = |at: usize| names[..at].contains(&names[at]);
        let rules = [
            (Rule::Signal, self.signal == 0x11),
            (Rule::Network, [Some(2), Some(3)].contains(&self.network)),
            (Rule::Region, self.region.is_some()),
            (Rule::Added, self.network != Some(3) || self.added.is_some()),
            (Rule::Pairs, added.len() % 2 == 0),
            (Rule::Listed, names.iter().all(|name| NAMES.contains(name))),
            (Rule::Once, !(0..names.len()).any(is_again)),
        ];
        let broken = rules.into_iter().filter(|(_, is_kept)| !is_kept);
        broken.map(|(rule, _)| rule).collect()
    }
}

/// That of a message that reading accepts.
pub fn call_in(message: &[u8]) -> Call {
    let found = |header| {
        let contents = plain::find_transfer(message, name_of(header), 0).ok()?;
        Some(message[contents].to_vec())
    };
    let kind = plain::find_common(message, SIGNAL_KIND).expect("a sound message");
    Call {
        signal: message[kind.start],
        network: found(NETWORK).map(|contents| contents[0]),
        region: found(ORIGINATING_REGION),
        added: found(ADDED_CLASSES),
    }
}

/// The message of a call by the profile, if nothing else is wrong with it: what is
/// read, or what would be written.
pub fn message_of(input: &Input) -> Option<Vec<u8>> {
    match input {
        Input::ProfileRead { message, .. } | Input::AddedClasses { message, .. } => {
            plain::verdict(message).ok()?;
            Some(message.clone())
        }
        Input::ProfileWrite { image, .. } => {
            let mut room = [0; 272];
            let record = plain::from_image(image).ok()?;
            let len = plain::write(&record, &mut room).ok()?;
            Some(room[..len].to_vec())
        }
        _ => None,
    }
}
