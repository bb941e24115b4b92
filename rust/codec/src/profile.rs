//! The mobile call profile: the network that a call comes from, and the added
//! classes of D6.

use crate::record::Record;

/// The names, the lower six bits of their headers, of 7E and D6.
const NETWORK: u8 = 0x3E;
const ADDED: u8 = 0x16;

/// A call enquiry from a PHS or mobile network.
#[derive(Clone, Debug, PartialEq, Eq, Hash)]
pub struct Profile {
    /// The record, as [`read`](crate::read) gives it.
    pub record: Record,
    /// The network that the call comes from.
    pub network: Network,
    /// The added classes, in the order of D6; each name at most once. There are
    /// none where D6 is empty. A call from a PHS network may have no D6 at all,
    /// and then it is `None`.
    pub added: Option<Vec<AddedClass>>,
}

/// The network that a call comes from, the octet of 7E.
#[derive(Clone, Copy, Debug, PartialEq, Eq, PartialOrd, Ord, Hash)]
pub enum Network {
    /// 2: a PHS network.
    Phs = 0x02,
    /// 3: a mobile network.
    Mobile = 0x03,
}

/// An added class of the calling user: a pair of octets in D6.
#[derive(Clone, Copy, Debug, PartialEq, Eq, Hash)]
pub struct AddedClass {
    /// The name, the first octet of the pair.
    pub name: AddedClassName,
    /// The value, the second octet: any.
    pub value: u8,
}

/// The name of an added class.
#[derive(Clone, Copy, Debug, PartialEq, Eq, PartialOrd, Ord, Hash)]
pub enum AddedClassName {
    /// 01: NTT long-distance added class 1, on authentication.
    LongDistance1 = 0x01,
    /// 02: NTT long-distance added class 2, on the service.
    LongDistance2 = 0x02,
    /// FB: mobile added class 3, on the charging method.
    Mobile3 = 0xFB,
    /// FC: mobile added class 2, on the communication system.
    Mobile2 = 0xFC,
    /// FD: mobile added class 1, on the service.
    Mobile1 = 0xFD,
    /// FE: fixed added class 1.
    Fixed1 = 0xFE,
}

impl Network {
    /// Both networks, in the order of their octets.
    pub const ALL: [Self; 2] = [Self::Phs, Self::Mobile];

    /// The network of this octet, if it is one.
    pub fn of(octet: u8) -> Option<Self> {
        Self::ALL
            .into_iter()
            .find(|network| network.octet() == octet)
    }

    /// The network's octet.
    pub const fn octet(self) -> u8 {
        self as u8
    }
}

impl AddedClassName {
    /// All names, in the order of their octets.
    pub const ALL: [Self; 6] = [
        Self::LongDistance1,
        Self::LongDistance2,
        Self::Mobile3,
        Self::Mobile2,
        Self::Mobile1,
        Self::Fixed1,
    ];

    /// The name of this octet, if it is one.
    pub fn of(octet: u8) -> Option<Self> {
        Self::ALL.into_iter().find(|name| name.octet() == octet)
    }

    /// The name's octet.
    pub const fn octet(self) -> u8 {
        self as u8
    }
}

impl AddedClass {
    /// The added classes of these octets, if they are pairs whose first octet is
    /// one of [`AddedClassName::ALL`]. Those that the static library has accepted
    /// are; of others none is guessed.
    pub(crate) fn all_of(octets: &[u8]) -> Option<Vec<Self>> {
        let class = |pair: &[u8]| {
            let &[name, value] = pair else {
                return None;
            };
            let name = AddedClassName::of(name)?;
            Some(AddedClass { name, value })
        };
        octets.chunks(2).map(class).collect()
    }
}

impl Profile {
    /// The value of the added class with this name, if there is one.
    pub fn added_class(&self, name: AddedClassName) -> Option<u8> {
        let mut all = self.added.iter().flatten();
        all.find(|class| class.name == name)
            .map(|class| class.value)
    }

    /// That of a record, if 7E is one of the two networks and D6, where it is
    /// there, is added classes. In one that the static library has read by the
    /// profile they are; of others nothing is guessed.
    pub(crate) fn of(record: Record) -> Option<Self> {
        let contents = |name| record.transfer(name).map(|found| record.values_of(found));
        let &[octet] = contents(NETWORK)? else {
            return None;
        };
        let network = Network::of(octet)?;
        let added = match contents(ADDED) {
            Some(octets) => Some(AddedClass::all_of(octets)?),
            None => None,
        };
        Some(Profile {
            network,
            added,
            record,
        })
    }
}

#[cfg(test)]
mod tests {
    use super::*;
    use crate::record::Transfer;

    #[test]
    fn names_by_their_octets() {
        let known: Vec<AddedClassName> = (0..=255).filter_map(AddedClassName::of).collect();
        assert_eq!(known, AddedClassName::ALL);
    }

    #[test]
    fn networks_by_their_octets() {
        let known: Vec<Network> = (0..=255).filter_map(Network::of).collect();
        assert_eq!(known, Network::ALL);
    }

    /// The profile of a record with this 7E and, if there is one, this D6.
    fn profile_of(network: u8, added: Option<&[u8]>) -> Option<Profile> {
        let mut record = Record::default();
        record.push_transfer(Transfer::new(0x7E), &[network]);
        if let Some(added) = added {
            record.push_transfer(Transfer::new(0xD6), added);
        }
        Profile::of(record)
    }

    fn profile(network: u8, added: Option<&[u8]>) -> Profile {
        profile_of(network, added).expect("a record in the profile")
    }

    /// Neither a network nor a name is made up for an octet that is none.
    #[test]
    fn nothing_of_other_octets() {
        assert_eq!(Profile::of(Record::default()), None);
        for network in [0, 1, 4, 255] {
            assert_eq!(profile_of(network, Some(&[])), None);
        }
        for added in [&[0xFE][..], &[0x05, 0x01], &[0xFE, 0x01, 0x05, 0xFE]] {
            assert_eq!(profile_of(3, Some(added)), None);
        }
    }

    #[test]
    fn network_and_classes_of_a_record() {
        assert_eq!(profile(2, None).network, Network::Phs);
        assert_eq!(profile(2, None).added, None);
        assert_eq!(profile(2, Some(&[])).added, Some(vec![]));
        let mobile = profile(3, Some(&[0xFE, 0x01, 0x01, 0xFE]));
        assert_eq!(mobile.network, Network::Mobile);
        let class = |name, value| AddedClass { name, value };
        let classes = [
            class(AddedClassName::Fixed1, 0x01),
            class(AddedClassName::LongDistance1, 0xFE),
        ];
        assert_eq!(mobile.added.as_deref(), Some(&classes[..]));
    }

    #[test]
    fn a_class_by_its_name() {
        let mobile = profile(3, Some(&[0xFE, 0x01, 0x01, 0xFE]));
        assert_eq!(mobile.added_class(AddedClassName::Fixed1), Some(0x01));
        assert_eq!(
            mobile.added_class(AddedClassName::LongDistance1),
            Some(0xFE)
        );
        assert_eq!(mobile.added_class(AddedClassName::Mobile1), None);
        assert_eq!(profile(2, None).added_class(AddedClassName::Fixed1), None);
    }
}
