//! What occurs of the calls that ask for one of several parameters of a name, and of
//! appending one more.

use plain::transfer::{name_of, CARRIERS};
use std::collections::BTreeSet;
use trial::{Input, Kind, Outcome};

/// Which one a call asks for.
#[derive(Clone, Copy, Debug, PartialEq, Eq, PartialOrd, Ord)]
pub enum Which {
    /// This one, counted from 0.
    Nth(usize),
    /// One of which the low octets, two or four of them, are 0.
    Low,
    /// The last that there is a number for.
    Last,
}

/// The number of the kind, whether the name is that of the carriers, how many of the
/// name stand in the message, which one is asked for, and the number of the answer.
pub type Sight = (u8, bool, usize, Which, u8);
pub type Sights = BTreeSet<Sight>;

/// The kinds that ask for one of a name.
const ASKING: [Kind; 5] = [
    Kind::FindTransfer,
    Kind::Replace,
    Kind::Remove,
    Kind::Carriers,
    Kind::CarrierDigits,
];

/// All that is to be seen.
pub fn all() -> Sights {
    let mut all = Sights::new();
    for kind in ASKING {
        for count in 0..=3 {
            let which = |nth| if nth < count { 0 } else { 16 };
            let one = |nth| (kind as u8, true, count, Which::Nth(nth), which(nth));
            all.extend((0..=count).map(one));
        }
        for count in 1..=3 {
            let far = |which| (kind as u8, true, count, which, 16);
            all.extend([Which::Low, Which::Last].map(far));
        }
    }
    for kind in [Kind::FindTransfer, Kind::Replace, Kind::Remove] {
        let other = |which, number| (kind as u8, false, 1, which, number);
        all.extend([
            other(Which::Nth(0), 0),
            other(Which::Nth(1), 16),
            other(Which::Low, 16),
            other(Which::Last, 16),
        ]);
    }
    for count in 0..=3 {
        let number = if count < 3 { 0 } else { 10 };
        all.insert((Kind::Append as u8, true, count, Which::Nth(0), number));
    }
    for (count, number) in [(0, 0), (1, 10)] {
        all.insert((Kind::Append as u8, false, count, Which::Nth(0), number));
    }
    all
}

/// What is seen in a call whose message reading accepts.
pub fn sight(input: &Input, outcome: &Outcome) -> Option<Sight> {
    let (name, which) = match input {
        Input::FindTransfer { name, which, .. } => (*name, *which),
        Input::Replace { new, which, .. } => (name_of(*new.first()?), *which),
        Input::Append { new, .. } => (name_of(*new.first()?), 0),
        Input::Remove { name, which, .. } => (*name, *which),
        Input::Carriers { which, .. } | Input::CarrierDigits { which, .. } => {
            (name_of(CARRIERS), *which)
        }
        _ => return None,
    };
    let message = input.message().or(input.edited())?;
    plain::find_common(message, 0xC5).ok()?;
    let is_there = |which: &usize| plain::find_transfer(message, name, *which).is_ok();
    let count = (0..).take_while(is_there).count();
    let is_carriers = name == name_of(CARRIERS);
    let sought = told(which)?;
    Some((
        input.kind() as u8,
        is_carriers,
        count,
        sought,
        outcome.number(),
    ))
}

fn told(which: usize) -> Option<Which> {
    match which {
        0..=3 => Some(Which::Nth(which)),
        usize::MAX => Some(Which::Last),
        _ if which % 65_536 == 0 => Some(Which::Low),
        _ => None,
    }
}
