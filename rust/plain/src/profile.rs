//! The mobile call profile: what a call enquiry from a PHS or mobile network has
//! beyond what every message has, and its added user classes, opened.

use crate::common::{SIGNAL_KIND, TRANSFER_DATA};
use crate::reading::read;
use crate::record::Record;
use crate::refusal::Refusal;
use crate::transfer::{ADDED_CLASSES, NETWORK, ORIGINATING_REGION};
use crate::writing::write_checked;

/// The signal kind of a call enquiry.
const CALL_ENQUIRY: u32 = 0x11;

/// A message in the profile: its record, and what the profile tells beside it.
#[derive(Clone, Debug, PartialEq, Eq)]
pub struct Profile {
    /// The record, as reading gives it.
    pub record: Record,
    /// The network from which the call comes.
    pub network: Network,
    /// The added classes in the order of D6; none without a D6.
    pub added: Option<Vec<AddedClass>>,
}

/// The network from which a call comes, told by the octet of 7E.
#[derive(Clone, Copy, Debug, PartialEq, Eq)]
pub enum Network {
    /// 2: a PHS network.
    Phs,
    /// 3: a mobile network.
    Mobile,
}

/// An added class: a pair of octets in D6.
#[derive(Clone, Copy, Debug, PartialEq, Eq)]
pub struct AddedClass {
    /// What the value is about, the first octet.
    pub name: AddedName,
    /// The value, the second octet, whatever it is.
    pub value: u8,
}

/// The name of an added class.
#[derive(Clone, Copy, Debug, PartialEq, Eq)]
pub enum AddedName {
    /// 01: NTT long-distance added class 1, authentication.
    LongDistance1,
    /// 02: NTT long-distance added class 2, service.
    LongDistance2,
    /// FB: mobile added class 3, charging method.
    Mobile3,
    /// FC: mobile added class 2, communication system.
    Mobile2,
    /// FD: mobile added class 1, service.
    Mobile1,
    /// FE: fixed added class 1.
    Fixed1,
}

impl Network {
    fn of(octet: u8) -> Option<Self> {
        match octet {
            2 => Some(Network::Phs),
            3 => Some(Network::Mobile),
            _ => None,
        }
    }
}

impl AddedName {
    /// All names.
    pub const ALL: [AddedName; 6] = [
        AddedName::LongDistance1,
        AddedName::LongDistance2,
        AddedName::Mobile3,
        AddedName::Mobile2,
        AddedName::Mobile1,
        AddedName::Fixed1,
    ];

    /// The octet of the name.
    pub const fn octet(self) -> u8 {
        match self {
            AddedName::LongDistance1 => 0x01,
            AddedName::LongDistance2 => 0x02,
            AddedName::Mobile3 => 0xFB,
            AddedName::Mobile2 => 0xFC,
            AddedName::Mobile1 => 0xFD,
            AddedName::Fixed1 => 0xFE,
        }
    }

    fn of(octet: u8) -> Option<Self> {
        let mut all = AddedName::ALL.into_iter();
        all.find(|name| name.octet() == octet)
    }
}

/// The pairs of D6; none if its octets are no pairs, or if a name is not listed or
/// stands twice.
fn open(octets: &[u8]) -> Option<Vec<AddedClass>> {
    let mut classes: Vec<AddedClass> = Vec::with_capacity(octets.len() / 2);
    for pair in octets.chunks(2) {
        let &[name, value] = pair else {
            return None;
        };
        let name = AddedName::of(name)?;
        if classes.iter().any(|class| class.name == name) {
            return None;
        }
        classes.push(AddedClass { name, value });
    }
    Some(classes)
}

/// The contents of a transfer parameter that a record holds as they are.
fn contents(record: &Record, header: u8) -> Option<&[u8]> {
    let mut common = record.common.iter();
    let data = common.find(|parameter| parameter.header == TRANSFER_DATA)?;
    let found = data.transfers.iter().find(|t| t.header == header)?;
    Some(record.values_of(found))
}

/// The network and the added classes of a record with which nothing else is wrong;
/// none if it breaks a rule of the profile.
fn told_by(record: &Record) -> Option<(Network, Option<Vec<AddedClass>>)> {
    let mut common = record.common.iter();
    common.find(|c| (c.header, c.value) == (SIGNAL_KIND, CALL_ENQUIRY))?;
    let network = Network::of(*contents(record, NETWORK)?.first()?)?;
    contents(record, ORIGINATING_REGION)?;
    let added = match contents(record, ADDED_CLASSES) {
        Some(octets) => Some(open(octets)?),
        None if network == Network::Mobile => return None,
        None => None,
    };
    Some((network, added))
}

/// 20, where the end mark stands at `end`.
const fn not_kept(end: usize) -> Refusal {
    Refusal::new(Refusal::PROFILE, end)
}

/// The record of a message in the profile, its network and its added classes.
///
/// Refused are reading's 1 to 13, 18 and 19, then 20 at the end mark if a rule of
/// the profile is not kept: the signal kind is 11, 7E is 2 or 3, FD is there, and
/// D6 if 7E is 3; a D6 is pairs of a listed name, each at most once, and a value.
pub fn profile_read(message: &[u8]) -> Result<Profile, Refusal> {
    let record = read(message)?;
    // A message that was read has its end mark last.
    let refusal = not_kept(message.len() - 1);
    let (network, added) = told_by(&record).ok_or(refusal)?;
    Ok(Profile {
        record,
        network,
        added,
    })
}

/// Writes `record` into the front of `room` if it is in the profile, and gives the
/// message's length. Octets past the written ones stay, and all where it is
/// refused.
///
/// Refused is what [`write`](crate::write) refuses, and before 15 as
/// [`profile_read`] does it 20, at the place where the end mark would stand.
pub fn profile_write(record: &Record, room: &mut [u8]) -> Result<usize, Refusal> {
    write_checked(record, room, |end| match told_by(record) {
        Some(_) => Ok(()),
        None => Err(not_kept(end)),
    })
}

/// The added classes of a message in the profile, in the order of D6.
///
/// Refused is what [`profile_read`] refuses, then 16 at 0 if there is no D6.
pub fn added_classes(message: &[u8]) -> Result<Vec<AddedClass>, Refusal> {
    let added = profile_read(message)?.added;
    added.ok_or(Refusal::placeless(Refusal::ABSENT))
}

#[cfg(test)]
mod tests {
    use super::*;

    /// The names of a D6 with these octets, if they can be opened.
    fn names_in(octets: &[u8]) -> Option<Vec<AddedName>> {
        let classes = open(octets)?;
        assert_eq!(classes.len() * 2, octets.len());
        Some(classes.into_iter().map(|class| class.name).collect())
    }

    #[test]
    fn names_and_values() {
        for value in 0..=255 {
            for name in AddedName::ALL {
                assert_eq!(
                    open(&[name.octet(), value]),
                    Some(vec![AddedClass { name, value }])
                );
            }
        }
    }

    #[test]
    fn no_other_name() {
        let listed: Vec<u8> = (0..=255).filter(|&o| AddedName::of(o).is_some()).collect();
        assert_eq!(listed, [0x01, 0x02, 0xFB, 0xFC, 0xFD, 0xFE]);
        for octet in (0..=255).filter(|octet| !listed.contains(octet)) {
            for value in [0x00, 0x01, 0xFE, octet] {
                assert_eq!(open(&[octet, value]), None);
            }
        }
    }

    #[test]
    fn every_two_names() {
        for one in AddedName::ALL {
            for other in AddedName::ALL {
                let (first, second) = (one.octet(), other.octet());
                let expected = (one != other).then_some(vec![one, other]);
                assert_eq!(names_in(&[first, second, second, first]), expected);
            }
        }
    }

    #[test]
    fn pairs_alone() {
        let octets = AddedName::ALL.map(|name| [name.octet(), 0x01]).concat();
        for len in 0..=octets.len() {
            let opened = names_in(&octets[..len]).map(|names| names.len());
            assert_eq!(opened, (len % 2 == 0).then_some(len / 2));
        }
        for again in [[0x01, 0x02], [0xFE, 0x02]] {
            assert_eq!(open(&[&octets[..], &again].concat()), None);
        }
    }
}
