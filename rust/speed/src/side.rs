//! One side of an operation, and both: calls over inputs, and their checksum.

use plain::Row;
use std::hint::black_box;
use trial::outcome::octets_of;

/// An operation of one codec, with its inputs and what is lent to it.
pub trait Side {
    /// How many inputs there are.
    fn inputs(&self) -> usize;

    /// Calls it on each input in turn, so many times over.
    fn run(&mut self, passes: usize);

    /// A checksum over the answers on all inputs and all that they leave.
    fn checksum(&mut self) -> u64;
}

/// What a call leaves beside its answer, as octets.
pub trait Left {
    /// The octets.
    fn octets(&self) -> Vec<u8>;
}

/// Nothing is lent.
impl Left for () {
    fn octets(&self) -> Vec<u8> {
        Vec::new()
    }
}

impl Left for Vec<u8> {
    fn octets(&self) -> Vec<u8> {
        self.clone()
    }
}

impl Left for Vec<Row> {
    fn octets(&self) -> Vec<u8> {
        self.iter().flat_map(octets_of).collect()
    }
}

/// Calls of `call`, which gives the packed answer.
struct Calls<I, L, F> {
    inputs: Vec<I>,
    lent: L,
    call: F,
}

/// The side that calls `call` on each of `inputs` and lends it `lent`.
pub fn side<I, L, F>(inputs: Vec<I>, lent: L, call: F) -> Box<dyn Side>
where
    I: 'static,
    L: Left + 'static,
    F: FnMut(&I, &mut L) -> u64 + 'static,
{
    Box::new(Calls { inputs, lent, call })
}

impl<I, L: Left, F: FnMut(&I, &mut L) -> u64> Side for Calls<I, L, F> {
    fn inputs(&self) -> usize {
        self.inputs.len()
    }

    fn run(&mut self, passes: usize) {
        for _ in 0..passes {
            for input in &self.inputs {
                black_box((self.call)(black_box(input), &mut self.lent));
                black_box(&mut self.lent);
            }
        }
    }

    fn checksum(&mut self) -> u64 {
        let mut sum = Checksum::default();
        for input in &self.inputs {
            let answer = (self.call)(input, &mut self.lent);
            sum.add(&answer.to_le_bytes());
            sum.add(&self.lent.octets());
        }
        sum.0
    }
}

/// FNV-1a.
struct Checksum(u64);

impl Default for Checksum {
    fn default() -> Self {
        Checksum(0xCBF2_9CE4_8422_2325)
    }
}

impl Checksum {
    fn add(&mut self, octets: &[u8]) {
        for &octet in octets {
            self.0 = (self.0 ^ u64::from(octet)).wrapping_mul(0x0100_0000_01B3);
        }
    }
}

/// An operation of both codecs, on the same inputs.
pub struct Sides {
    /// The proved codec.
    pub proved: Box<dyn Side>,
    /// The plain one.
    pub plain: Box<dyn Side>,
}

impl Sides {
    /// The checksum, if both sides have the same; to be asked before they run.
    pub fn agreed(&mut self) -> Option<u64> {
        let sum = self.proved.checksum();
        (sum == self.plain.checksum()).then_some(sum)
    }
}

#[cfg(test)]
mod tests {
    use super::*;

    fn filling(octet: u8, answer: u64) -> Box<dyn Side> {
        side(vec![3, 2], vec![0u8; 4], move |at: &usize, lent| {
            lent[*at] = octet;
            answer
        })
    }

    fn agree(proved: Box<dyn Side>, plain: Box<dyn Side>) -> bool {
        Sides { proved, plain }.agreed().is_some()
    }

    #[test]
    fn every_answer_and_every_octet_counts() {
        assert!(agree(filling(1, 5), filling(1, 5)));
        assert!(!agree(filling(1, 5), filling(2, 5)));
        assert!(!agree(filling(1, 5), filling(1, 1 << 40)));
    }

    #[test]
    fn a_pass_calls_on_each_input() {
        let mut last = 0;
        let mut calls = Calls {
            inputs: vec![7, 8, 9],
            lent: vec![0u8],
            call: |&input: &u8, lent: &mut Vec<u8>| {
                lent[0] += 1;
                last = input;
                0
            },
        };
        calls.run(2);
        assert_eq!((calls.inputs(), calls.lent[0]), (3, 6));
        assert_eq!(last, 9);
    }
}
