//! Defects of a call that the refusals from the input are about, and of the buffers' lengths; and why a table is not good.

use crate::comparison::{Case, Kind};
use crate::node::Node;
use crate::quorums::{bad_quorum, Choice, CHOICES};
use crate::records::{choose, up_to};
use mbrb::reference::{least_quorum, SENDER_LENGTH};
use mbrb::{random::Random, Config};

/// Does one thing to a call that some refusal is about.
pub fn damage(random: &mut Random, case: &mut Case, node: &Node) {
    let length = node.config.records_length();
    // Opening has a table and records alone.
    let kinds = match case.kind {
        Kind::Open => 2,
        Kind::Broadcast => 4,
        Kind::Receive | Kind::Preview => 12,
    };
    match random.below(kinds) {
        0 => {
            case.config = bad_config(random, node.config);
            let right = case.config.records_length();
            if random.once_in(2) && right <= node.records.room() {
                case.records_length = right;
            }
        }
        1 => {
            // Half of it is what records without notes would have.
            let (less, more) = (length - SENDER_LENGTH, length + SENDER_LENGTH);
            let lengths = [0, length / 2, less, length - 1, length + 1, more];
            case.records_length = lengths[random.below(6)];
        }
        2 => case.out_length = [0, 31, 33, 64][random.below(4)],
        3 => {
            let length = match case.kind {
                Kind::Receive | Kind::Preview => [0, 16, 31, 33, 64][random.below(5)],
                _ => random.below(41),
            };
            case.input.resize(length, 0);
        }
        _ => damage_bundle(random, &node.config, &mut case.input),
    }
}

fn damage_bundle(random: &mut Random, config: &Config, bundle: &mut [u8]) {
    if bundle.len() < 16 {
        return;
    }
    let n = usize::from(config.n);
    match random.below(8) {
        0 => bundle[6 + random.below(2)] = 1 + random.below(255) as u8,
        1 => bundle[random.below(4)] ^= 1 << random.below(8),
        2 => bundle[..4].reverse(),
        3 => bundle[4] = (n + up_to(random, 255 - n)) as u8,
        4 => bundle[5] = 16 + up_to(random, 239) as u8,
        5 => toggle(bundle, choose(random, !config.mask(), 1)),
        6 => toggle(bundle, 1_u64.checked_shl(bundle[4].into()).unwrap_or(0)),
        _ => bundle[random.below(bundle.len())] ^= 1 << random.below(8),
    }
}

fn toggle(bundle: &mut [u8], signers: u64) {
    for (byte, change) in bundle[8..16].iter_mut().zip(signers.to_be_bytes()) {
        *byte ^= change;
    }
}

/// A good config made bad, half the time by its quorum alone; else by another of its conditions or by sums that do not fit a byte.
pub fn bad_config(random: &mut Random, mut config: Config) -> Config {
    let Config { n, t, d, .. } = config;
    if random.once_in(2) {
        config.q = bad_quorum(random, &config);
        return config;
    }
    match random.below(7) {
        0 => config.n = 0,
        1 => config.n = 65 + up_to(random, 190) as u8,
        2 => config.own = n + up_to(random, usize::from(255 - n)) as u8,
        3 => config.d = (n - 3 * t).div_ceil(2),
        4 => config.t = (n - 2 * d).div_ceil(3),
        5 => config.t = 64 + random.below(192) as u8,
        _ => config.d = 64 + random.below(192) as u8,
    }
    // So that more nodes than 64 may be all that is wrong.
    if random.once_in(2) {
        config.q = least_quorum(config.n, config.t);
    }
    config
}

/// Why a table is not good, the first of the reasons that apply.
#[derive(Clone, Copy, Debug, PartialEq, Eq, PartialOrd, Ord)]
pub enum Cause {
    NoNode,
    TooManyNodes,
    Own,
    Faults,
    Losses,
    /// Faults and losses are too many, and a byte is too small to tell.
    SumWraps,
    Quorum(Choice),
}

impl Cause {
    pub fn of(config: &Config) -> Option<Cause> {
        let [n, t, d] = [config.n, config.t, config.d].map(u32::from);
        let needed = 3 * t + 2 * d;
        Some(match config.n {
            0 => Cause::NoNode,
            65.. => Cause::TooManyNodes,
            _ if config.own >= config.n => Cause::Own,
            _ if n <= needed && n > needed % 256 => Cause::SumWraps,
            _ if n <= 3 * t => Cause::Faults,
            _ if n <= needed => Cause::Losses,
            _ => Cause::Quorum(Choice::of(config).filter(|choice| !choice.is_allowed())?),
        })
    }
}

/// Each of the reasons.
pub fn causes() -> impl Iterator<Item = Cause> {
    let quorums = CHOICES.into_iter().filter(|choice| !choice.is_allowed());
    [
        Cause::NoNode,
        Cause::TooManyNodes,
        Cause::Own,
        Cause::Faults,
        Cause::Losses,
        Cause::SumWraps,
    ]
    .into_iter()
    .chain(quorums.map(Cause::Quorum))
}
