//! Choices that the system, the faulty nodes and the network make alike.

use crate::trace::bit;
use mbrb::random::Random;

/// A node of a set that has one.
pub fn pick(nodes: u64, random: &mut Random) -> u8 {
    let skipped = random.below(nodes.count_ones() as usize);
    let rest = (0..skipped).fold(nodes, |rest, _| rest & (rest - 1));
    rest.trailing_zeros() as u8
}

/// So many nodes of a set that has as many.
pub fn pick_some(nodes: u64, count: u32, random: &mut Random) -> u64 {
    (0..count).fold(0, |picked, _| picked | bit(pick(nodes & !picked, random)))
}

pub fn some<'a, T>(items: &'a [T], random: &mut Random) -> Option<&'a T> {
    (!items.is_empty()).then(|| &items[random.below(items.len())])
}

/// The usual number, and now and then any below 40: for lengths.
pub fn mostly(usual: usize, random: &mut Random) -> usize {
    match random.once_in(40) {
        true => random.below(40),
        false => usual,
    }
}

/// The most, and now and then any number up to it.
pub fn mostly_the_most(most: usize, random: &mut Random) -> usize {
    match random.once_in(3) {
        true => random.below(most + 1),
        false => most,
    }
}
