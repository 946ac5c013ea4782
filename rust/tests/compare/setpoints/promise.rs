//! What the outcome is for: senders with swapped sensors do not drag it past what all others ask for, as long as they are at most t.

use super::buffers::Buffer;
use super::SEED;
use crate::records::{choose, good_config_often_of_64};
use mbrb::{host, random::Random, setting, Config};
use std::fmt;
use std::ops::RangeInclusive;

/// What faulty senders ask for.
#[derive(Clone, Copy, Debug, PartialEq, Eq)]
enum Lie {
    FarAbove,
    FarBelow,
    Highest,
    Lowest,
    /// all of them the same
    OneValue,
    /// each of them far above or far below
    BothSides,
    Extremes,
    Any,
}

const LIES: [Lie; 8] = [
    Lie::FarAbove,
    Lie::FarBelow,
    Lie::Highest,
    Lie::Lowest,
    Lie::OneValue,
    Lie::BothSides,
    Lie::Extremes,
    Lie::Any,
];

impl Lie {
    /// `usual` is about what correct senders ask for.
    fn value(self, random: &mut Random, usual: i16, one_value: i16) -> i16 {
        let far = 2_000 + random.below(8_000) as i16;
        let above = random.once_in(2);
        match self {
            Lie::FarAbove => usual + far,
            Lie::FarBelow => usual - far,
            Lie::Highest => i16::MAX,
            Lie::Lowest => i16::MIN,
            Lie::OneValue => one_value,
            Lie::BothSides if above => usual + far,
            Lie::BothSides => usual - far,
            Lie::Extremes if above => i16::MAX,
            Lie::Extremes => i16::MIN,
            Lie::Any => random.word() as i16,
        }
    }
}

/// Records in which enough senders have a setpoint that counts, some of them faulty ones.
struct Pool {
    buffer: Buffer,
    lie: Lie,
    faulty: u32,
    /// from the lowest to the highest that counts of a correct sender
    asked_for: RangeInclusive<i16>,
}

impl Pool {
    /// With so many faulty senders, of which each counts.
    fn new(random: &mut Random, config: Config, faulty: u32) -> Pool {
        let mut buffer = Buffer::empty(random, config);
        let needed = (2 * u32::from(config.t) + 1).max(faulty + 1);
        let spare = u32::from(config.n) - needed;
        let more = [0, 0, 1, random.below(spare as usize + 1) as u32][random.below(4)];
        let pooled = choose(random, config.mask(), needed + more.min(spare));
        let faulty_senders = choose(random, pooled, faulty);
        let lie = LIES[random.below(LIES.len())];
        let usual = random.below(9_000) as i16 - 3_000;
        let one_value = random.word() as i16;
        let spread = [0, 10, 500][random.below(3)];
        let mut asked_for = Vec::new();
        buffer.fill(random, pooled, |random, sender| {
            if faulty_senders >> sender & 1 == 1 {
                return lie.value(random, usual, one_value);
            }
            let value = usual + random.below(2 * spread + 1) as i16 - spread as i16;
            asked_for.push(value);
            value
        });
        asked_for.sort_unstable();
        Pool {
            buffer,
            lie,
            faulty,
            asked_for: asked_for[0]..=asked_for[asked_for.len() - 1],
        }
    }

    fn outcome(&self) -> i16 {
        let config = &self.buffer.config;
        let code = host::setpoint(config, self.buffer.lent.records());
        assert_eq!(code >> 16, 1, "{code}, {config:?}");
        code as i16
    }

    /// Whether t + 1 faulty senders drag the outcome, where all lies are on one side: above, they need to be more than half, and below
    /// half is enough, as the lower middle is taken.
    fn drags(&self) -> Option<bool> {
        let spare = self.buffer.pooled().len() - 2 * usize::from(self.buffer.config.t) - 1;
        match self.lie {
            Lie::FarAbove | Lie::Highest => Some(spare == 0),
            Lie::FarBelow | Lie::Lowest => Some(spare <= 1),
            _ => None,
        }
    }

    fn mean(&self) -> i16 {
        let values = self.buffer.pooled();
        let sum: i64 = values.iter().map(|&value| i64::from(value)).sum();
        (sum / values.len() as i64) as i16
    }
}

/// How many pools there were, and in how many the outcome was not between what correct senders ask for.
#[derive(Clone, Copy, Default)]
struct Share {
    pools: u64,
    dragged: u64,
}

impl Share {
    fn count(&mut self, dragged: bool) {
        self.pools += 1;
        self.dragged += u64::from(dragged);
    }

    fn percent(&self) -> u64 {
        100 * self.dragged / self.pools.max(1)
    }
}

impl fmt::Display for Share {
    fn fmt(&self, f: &mut fmt::Formatter) -> fmt::Result {
        let Share { pools, dragged } = self;
        write!(f, "{dragged} of {pools}, {} percent", self.percent())
    }
}

const POOLS: usize = 20_000;

/// Pools with so many faulty senders, and a correct one at least. Few are of tables that bear none, since those promise little.
fn pools(faulty: fn(&mut Random, &Config) -> u32) -> impl Iterator<Item = Pool> {
    let mut random = Random::new(setting("MBRB_SEED", SEED));
    std::iter::repeat_with(move || {
        let config = good_config_often_of_64(&mut random);
        let faulty = faulty(&mut random, &config);
        let possible = faulty < u32::from(config.n);
        let kept = possible && (config.t > 0 || random.once_in(10));
        kept.then(|| Pool::new(&mut random, config, faulty))
    })
    .flatten()
    .take(POOLS)
}

#[test]
fn as_many_faulty_senders_as_are_borne_do_not_drag_the_outcome() {
    let (mut by_mean, mut with_faulty) = (Share::default(), 0);
    let at_most_borne = |random: &mut Random, config: &Config| match random.below(4) {
        0 => random.below(usize::from(config.t) + 1) as u32,
        _ => config.t.into(),
    };
    for pool in pools(at_most_borne) {
        let (outcome, asked_for) = (pool.outcome(), pool.asked_for.clone());
        let (config, lie) = (pool.buffer.config, pool.lie);
        assert!(
            asked_for.contains(&outcome),
            "{outcome} is not in {asked_for:?}: {config:?}, {lie:?}"
        );
        with_faulty += usize::from(pool.faulty > 0);
        by_mean.count(!asked_for.contains(&pool.mean()));
    }
    println!("at most t faulty senders: dragged 0 of {POOLS}, {with_faulty} of them with any");
    println!("  dragged if it were the mean: {by_mean}");
    assert!(with_faulty >= POOLS / 2 && by_mean.percent() >= 50);
}

#[test]
fn one_faulty_sender_more_is_seen_to_drag_the_outcome() {
    let (mut all, mut by_lie) = (Share::default(), [Share::default(); LIES.len()]);
    for pool in pools(|_, config| u32::from(config.t) + 1) {
        let dragged = !pool.asked_for.contains(&pool.outcome());
        if let Some(drags) = pool.drags() {
            assert_eq!(dragged, drags, "{:?}, {:?}", pool.buffer.config, pool.lie);
        }
        all.count(dragged);
        by_lie[pool.lie as usize].count(dragged);
    }
    println!("t + 1 faulty senders: dragged {all}");
    for (lie, share) in LIES.iter().zip(by_lie) {
        println!("  {lie:?}: {share}");
        assert!(share.dragged >= 20, "{lie:?}: {share}");
    }
    assert!(all.percent() >= 30);
}
