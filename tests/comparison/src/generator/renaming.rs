//! Public names exchanged, so that numbers of one byte and of two stand side by side, and names that differ in their second byte alone.

use crate::names::COUNTED;
use crate::random::Random;

/// Pairs of names that are exchanged, one after the other. No two names become one, so that the same is judged of renamed models.
pub struct Renaming(Vec<(u16, u16)>);

impl Renaming {
    /// The few names that are used most become names at the ends of their ranges, or names that agree in their low seven bits.
    pub fn new(random: &mut Random) -> Renaming {
        let mut others = if random.chance(40) { COUNTED.to_vec() } else { same_low_bits(random) };
        let mut renaming = Renaming(Vec::new());
        for name in 0..3 {
            let other = others.swap_remove(random.below(others.len()));
            renaming.0.push((renaming.name(name), other));
        }
        renaming
    }

    pub fn name(&self, name: u16) -> u16 {
        self.0.iter().fold(name, |name, &(one, other)| match name {
            name if name == one => other,
            name if name == other => one,
            name => name,
        })
    }
}

/// Names with the same low seven bits: one of one byte, and of two the first, the last, and some between.
fn same_low_bits(random: &mut Random) -> Vec<u16> {
    let low = *random.pick(&[0, 1, 127]);
    [0, 1, 2, 3, 126, 127].map(|high| low + 128 * high).to_vec()
}
