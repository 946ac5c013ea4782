//! The radio between correct nodes: which bundle that was sent is handed to whom, and which nodes miss it.

use crate::chance::{mostly, pick, pick_some};
use crate::run::Run;
use crate::trace::{bit, nodes_of, Bundle, System};
use mbrb::random::Random;

/// Which correct nodes miss a sending.
enum Loss {
    AtRandom,
    /// always the same
    TheSame(u64),
    /// those to whom it is news
    WhoNeedIt,
    /// Any number, and any bundle may come again.
    AnyNumber,
}

/// Which bundle is handed on next.
enum Order {
    AtRandom,
    OldestFirst,
    NewestFirst,
}

pub struct Network {
    loss: Loss,
    order: Order,
    /// how many correct nodes each sending misses, unless any number may be lost
    missed: u32,
    /// the bundles sent before this place of `Run::sent` have been looked at
    seen: usize,
    /// the bundles that have not reached all but the missed
    pending: Vec<Bundle>,
}

impl Network {
    /// Once nothing is left to carry, each sending has missed `missed` correct nodes, if nobody else brought it there.
    pub fn draining(system: &System, missed: u32, random: &mut Random) -> Network {
        let loss = match random.below(3) {
            0 => Loss::AtRandom,
            1 => Loss::TheSame(pick_some(system.correct(), missed, random)),
            _ => Loss::WhoNeedIt,
        };
        Network::new(loss, missed, random)
    }

    pub fn losing_any(random: &mut Random) -> Network {
        Network::new(Loss::AnyNumber, 0, random)
    }

    fn new(loss: Loss, missed: u32, random: &mut Random) -> Network {
        let order = match random.below(3) {
            0 => Order::AtRandom,
            1 => Order::OldestFirst,
            _ => Order::NewestFirst,
        };
        Network {
            loss,
            order,
            missed,
            seen: 0,
            pending: Vec::new(),
        }
    }

    /// No bundle has to be carried, so the list may end anywhere.
    pub fn ends_anywhere(&self) -> bool {
        matches!(self.loss, Loss::AnyNumber)
    }

    /// Hands a bundle that was sent to a node. False if none is left to carry.
    pub fn carry(&mut self, run: &mut Run, random: &mut Random) -> bool {
        self.pending.extend(&run.sent[self.seen..]);
        self.seen = run.sent.len();
        let Some(bundle) = self.due(run, random) else {
            return false;
        };
        let node = self.receiver(run, &bundle, random);
        run.receive(node, &bundle, mostly(32, random));
        if random.once_in(16) {
            repeat(run, &bundle, random);
        }
        true
    }

    /// The next bundle that has not reached enough nodes; those that have are dropped on the way.
    fn due(&mut self, run: &Run, random: &mut Random) -> Option<Bundle> {
        loop {
            let at = self.next(random);
            let bundle = *self.pending.get(at)?;
            if self.ends_anywhere() || run.unreached(&bundle).count_ones() > self.missed {
                return Some(bundle);
            }
            self.pending.remove(at);
        }
    }

    fn next(&self, random: &mut Random) -> usize {
        match self.order {
            Order::OldestFirst => 0,
            Order::NewestFirst => self.pending.len().saturating_sub(1),
            // At least 1, so that an empty list has a place that it does not reach.
            Order::AtRandom => random.below(self.pending.len().max(1)),
        }
    }

    fn receiver(&self, run: &Run, bundle: &Bundle, random: &mut Random) -> u8 {
        let unreached = run.unreached(bundle);
        let nodes = match self.loss {
            Loss::AtRandom => unreached,
            Loss::TheSame(missing) => unreached & !missing,
            Loss::WhoNeedIt => least_news(run, bundle, unreached),
            Loss::AnyNumber => run.system.correct(),
        };
        pick(nodes, random)
    }
}

/// The nodes of a set to whom the bundle is the least news.
fn least_news(run: &Run, bundle: &Bundle, nodes: u64) -> u64 {
    let least = nodes_of(nodes).map(|node| run.news(node, bundle)).min();
    nodes_of(nodes)
        .filter(|&node| Some(run.news(node, bundle)) == least)
        .fold(0, |set, node| set | bit(node))
}

/// The bundle comes again to a node that it has reached.
fn repeat(run: &mut Run, bundle: &Bundle, random: &mut Random) {
    let reached = run.system.correct() & !run.unreached(bundle);
    if reached != 0 {
        run.receive(pick(reached, random), bundle, 32);
    }
}
