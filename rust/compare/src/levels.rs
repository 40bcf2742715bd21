//! The levels that a call without recursion is lent.

use crate::random::Random;
use lemboraw::raw::{self, LEVELS};

/// Four runs, each of a length of its own.
#[derive(Clone, Debug)]
pub struct Levels {
    opens: Vec<u64>,
    counts: Vec<u32>,
    wholes: Vec<f64>,
    rests: Vec<f64>,
}

impl Levels {
    /// As many as a call asks for.
    pub fn new() -> Self {
        Levels { opens: vec![0; LEVELS], counts: vec![0; LEVELS], wholes: vec![0.0; LEVELS], rests: vec![0.0; LEVELS] }
    }

    /// Runs that are just long enough or longer, with any bits in them.
    pub fn enough(random: &mut Random) -> Self {
        let lens = [(); 4].map(|()| LEVELS + random.below(3));
        Levels::rubbish(lens, random)
    }

    /// One of them too short, or all.
    pub fn too_few(random: &mut Random) -> Self {
        let few = random.pick(&[0, 1, LEVELS - 1, LEVELS - 1]);
        let mut lens = [(); 4].map(|()| LEVELS + random.below(3));
        match random.below(5) {
            4 => lens = [few; 4],
            run => lens[run] = few,
        }
        Levels::rubbish(lens, random)
    }

    fn rubbish([opens, counts, wholes, rests]: [usize; 4], random: &mut Random) -> Self {
        let mut any = || random.next();
        Levels {
            opens: (0..opens).map(|_| any()).collect(),
            counts: (0..counts).map(|_| any() as u32).collect(),
            wholes: (0..wholes).map(|_| f64::from_bits(any())).collect(),
            rests: (0..rests).map(|_| f64::from_bits(any())).collect(),
        }
    }

    pub fn lend(&mut self) -> raw::Levels<'_> {
        raw::Levels {
            opens: &mut self.opens,
            counts: &mut self.counts,
            wholes: &mut self.wholes,
            rests: &mut self.rests,
        }
    }

    /// Makes the entries zero that a call asks for, as it does behind a walk.
    pub fn clear(&mut self) {
        self.opens[..LEVELS].fill(0);
        self.counts[..LEVELS].fill(0);
        self.wholes[..LEVELS].fill(0.0);
        self.rests[..LEVELS].fill(0.0);
    }

    /// Equal bit by bit.
    pub fn same(&self, other: &Levels) -> bool {
        let bits = |a: &[f64], b: &[f64]| a.iter().map(|x| x.to_bits()).eq(b.iter().map(|x| x.to_bits()));
        self.opens == other.opens
            && self.counts == other.counts
            && bits(&self.wholes, &other.wholes)
            && bits(&self.rests, &other.rests)
    }
}
