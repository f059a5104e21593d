//! Scratches: lengths that are enough, lengths that aren't, and what was seen of both.

use crate::plans::{needed, Handed};
use crate::random::Random;
use crate::rounds::accepted;
use crate::TOO_SHORT;
use independent::every_point_is_reached;

/// A length that is enough where so many bytes are needed: just enough, a little more, or any up to more than
/// a byte for each position.
pub fn long_enough(needed: usize, random: &mut Random) -> usize {
    match random.below(4) {
        0 | 1 => needed,
        2 => needed + random.choose(&[1, 9]),
        _ => needed + random.below(8 * needed),
    }
}

/// Lengths of a table and a scratch of which one is too short at least, most times by one, where so many are
/// needed. Where 8 doesn't divide M, a scratch that is too short by one has M/8 bytes, rounded down.
pub fn too_short([entries, scratch]: [usize; 2], random: &mut Random) -> [usize; 2] {
    let less = |needed: usize, random: &mut Random| match random.below(3) {
        0 => random.below(needed),
        _ => needed - 1,
    };
    match random.below(3) {
        0 => [less(entries, random), long_enough(scratch, random)],
        1 => [entries + random.below(9), less(scratch, random)],
        _ => [less(entries, random), less(scratch, random)],
    }
}

/// What was seen of the calls in which the scratch alone decides whether 14 is given: the records pass the
/// rules before that, and the table is long enough. M is that of the chapter that has most.
#[derive(Default)]
pub struct Seen {
    /// Those refused with 14, by M modulo 8.
    short: [usize; 8],
    /// Of these, those with M/8 bytes, rounded down.
    rounded_down: usize,
    /// All others, by M modulo 8.
    enough: [usize; 8],
    /// Of these, those without a byte to spare, and those with fewer bytes than positions.
    just_enough: usize,
    below_positions: usize,
}

impl Seen {
    pub fn note(&mut self, handed: &Handed, refusal: u32) {
        let Some((_, joined)) = accepted(&handed.cell, &handed.recipes) else {
            return;
        };
        let [entries, least] = needed(&joined);
        if handed.entries < entries || !joined.chapters.iter().all(every_point_is_reached) {
            return;
        }
        let (scratch, positions) = (handed.scratch, joined.greatest_positions() as usize);
        if refusal == u32::from(TOO_SHORT) {
            self.short[positions % 8] += 1;
            self.rounded_down += usize::from(scratch == positions / 8);
        } else {
            self.enough[positions % 8] += 1;
            self.just_enough += usize::from(scratch == least);
            self.below_positions += usize::from(scratch < positions);
        }
    }

    /// Wants each at least so many times; and with each remainder of M at least so many calls refused, and
    /// so many others.
    pub fn judge(&self, least: usize, least_by_remainder: usize) {
        println!(
            "14 for the scratch alone by M modulo 8 {:?}, {} of them with M/8 rounded down",
            self.short, self.rounded_down
        );
        println!(
            "enough by M modulo 8 {:?}, {} of them just enough, {} fewer bytes than positions",
            self.enough, self.just_enough, self.below_positions
        );
        let [short, enough] = [&self.short, &self.enough].map(|seen| seen.iter().sum());
        let Seen {
            rounded_down,
            just_enough,
            below_positions,
            ..
        } = *self;
        let all = [short, rounded_down, enough, just_enough, below_positions];
        assert!(all.iter().all(|&times| times >= least));
        let mut by_remainder = self.short.iter().chain(&self.enough);
        assert!(by_remainder.all(|&times| times >= least_by_remainder));
    }
}
