//! Which answers occurred for each kind of call.

use crate::input::{Input, Kind, KINDS};
use crate::outcome::Outcome;
use std::fmt;

/// The refusal numbers, and 0 for accepted.
const NUMBERS: usize = 21;

/// Calls that are counted together: those of a kind, the edits of messages that
/// reading accepts apart from the other edits.
#[derive(Clone, Copy, Debug, PartialEq, Eq)]
pub struct Case {
    kind: Kind,
    edits_sound: bool,
}

/// The cases: every kind, then the edits of sound messages.
const CASES: usize = KINDS.len() + EDITS.len();
const EDITS: [Kind; 3] = [Kind::Replace, Kind::Append, Kind::Remove];

impl Case {
    /// The case of a call.
    pub fn of(input: &Input) -> Self {
        let is_sound = |message| plain::verdict(message).is_ok();
        let edits_sound = input.edited().is_some_and(is_sound);
        let kind = input.kind();
        Case { kind, edits_sound }
    }

    /// All cases, each at its own index.
    pub fn all() -> impl Iterator<Item = Case> {
        let case = |edits_sound| move |kind| Case { kind, edits_sound };
        let kinds = KINDS.into_iter().map(case(false));
        kinds.chain(EDITS.into_iter().map(case(true)))
    }

    fn index(self) -> usize {
        let at = Case::all().position(|case| case == self);
        at.expect("a case among all")
    }

    /// All numbers that such a call can be answered with, 0 for accepted.
    ///
    /// Reading gives 1 to 13, 18 and 19. Finding adds 16; rows, and reading into a
    /// lent image, add 15; opening the charging information, the connection order,
    /// the carriers or the digits of a code adds both. Writing knows no cut message
    /// and no octets after the end mark: it has neither 4 nor 7, but 14 and 15. By
    /// the mobile call profile reading and writing add 20, and so does opening the
    /// added classes, beside 15 and 16. An edit gives 15 for a length beyond the
    /// buffer and reading's numbers; then, where the message is sound, its own.
    pub fn possible(self) -> Vec<u8> {
        let reading = (0..=13).chain([18, 19]);
        let writing = [0, 1, 2, 3, 5, 6, 18, 19].into_iter().chain(8..=15);
        match (self.kind, self.edits_sound) {
            (Kind::Read | Kind::Rows, _) => reading.chain([15]).collect(),
            (Kind::Write, _) => writing.collect(),
            (Kind::FindCommon | Kind::FindTransfer, _) => reading.chain([16]).collect(),
            (Kind::Class, _) => vec![0, 12, 17],
            (Kind::Charging | Kind::Order | Kind::Carriers | Kind::CarrierDigits, _) => {
                reading.chain([15, 16]).collect()
            }
            (Kind::ProfileRead, _) => reading.chain([15, 20]).collect(),
            (Kind::ProfileWrite, _) => writing.chain([20]).collect(),
            (Kind::AddedClasses, _) => reading.chain([15, 16, 20]).collect(),
            (_, false) => (1..=13).chain([15, 18, 19]).collect(),
            (Kind::Replace, true) => [0, 8, 9, 18, 19].into_iter().chain(11..=16).collect(),
            (Kind::Append, true) => [0, 18, 19].into_iter().chain(8..=16).collect(),
            (Kind::Remove, true) => vec![0, 16],
        }
    }
}

impl fmt::Display for Case {
    fn fmt(&self, f: &mut fmt::Formatter<'_>) -> fmt::Result {
        let of = match self.edits_sound {
            true => ", sound",
            false => "",
        };
        f.pad(&format!("{:?}{of}", self.kind))
    }
}

/// How often each number was the answer in each case.
#[derive(Clone, Debug, Default, PartialEq, Eq)]
pub struct Coverage {
    counts: [[u64; NUMBERS]; CASES],
}

impl Coverage {
    /// Counts one outcome.
    pub fn note(&mut self, input: &Input, outcome: &Outcome) {
        self.counts[Case::of(input).index()][usize::from(outcome.number())] += 1;
    }

    /// How often `number` was the answer in a case; 0 is accepted.
    pub fn count(&self, case: Case, number: u8) -> u64 {
        self.counts[case.index()][usize::from(number)]
    }

    /// The numbers that can be the answer in a case and did not occur.
    pub fn lacking(&self) -> Vec<String> {
        self.named(|possible, count| possible && count == 0)
    }

    /// The numbers that cannot be the answer in a case and did occur.
    pub fn surplus(&self) -> Vec<String> {
        self.named(|possible, count| !possible && count > 0)
    }

    /// The cases and numbers, in words, of which this is true: whether the
    /// number can be the answer, and how often it was.
    fn named(&self, wanted: impl Fn(bool, u64) -> bool) -> Vec<String> {
        let mut named = Vec::new();
        for case in Case::all() {
            let possible = case.possible();
            for number in 0..NUMBERS as u8 {
                if wanted(possible.contains(&number), self.count(case, number)) {
                    named.push(format!("{case}: {number}"));
                }
            }
        }
        named
    }
}

impl fmt::Display for Coverage {
    fn fmt(&self, f: &mut fmt::Formatter<'_>) -> fmt::Result {
        write!(f, "{:<14}", "number")?;
        for number in 0..NUMBERS {
            write!(f, "{number:>8}")?;
        }
        for case in Case::all() {
            write!(f, "\n{case:<14}")?;
            for number in 0..NUMBERS as u8 {
                match self.count(case, number) {
                    0 if !case.possible().contains(&number) => write!(f, "{:>8}", "-")?,
                    count => write!(f, "{count:>8}")?,
                }
            }
        }
        Ok(())
    }
}
