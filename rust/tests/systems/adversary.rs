//! The faulty nodes together: they know every bundle that correct nodes have sent, hold all faulty keys, and hand any bundle to any
//! correct node at any time. What they cannot do is set a correct node's bit where that node has not signed.

use crate::chance::{mostly, pick, pick_some, some};
use crate::run::Run;
use crate::trace::{bit, Fields, Payload, Slot, System};
use mbrb::random::Random;

#[derive(Clone, Copy)]
enum Strategy {
    /// Each half of the correct nodes is shown another payload, and then the signatures of that half with all faulty ones.
    Split,
    /// Few nodes are shown a payload that the others are not, and then a quorum for that of the others.
    Replace,
    /// Any slot, any payload, any signatures that exist.
    Mixture,
    Silent,
    /// They sign one payload in a slot and pass on what was sent.
    Honest,
}

pub struct Adversary {
    strategy: Strategy,
    /// slots of faulty senders
    slots: Vec<Slot>,
    payloads: [Payload; 3],
    /// the correct nodes that are shown the second payload
    shown_second: u64,
    /// They set any correct node's bit, which they cannot do.
    pub forging: bool,
}

impl Adversary {
    pub fn new(
        system: &System,
        quorum: u32,
        payloads: [Payload; 3],
        random: &mut Random,
    ) -> Adversary {
        let (strategy, shown_second) = strategy(system, quorum, random);
        let count = match system.faulty {
            0 => 0,
            _ => 1 + random.below(2),
        };
        let mut slot = |_| Slot {
            day: system.day,
            sender: pick(system.faulty, random),
            seq: random.below(16) as u8,
        };
        Adversary {
            strategy,
            slots: (0..count).map(&mut slot).collect(),
            payloads,
            shown_second,
            forging: false,
        }
    }

    /// Hands one bundle to one correct node, or does nothing.
    pub fn act(&self, run: &mut Run, random: &mut Random) {
        let node = pick(run.system.correct(), random);
        let bundle = match self.strategy {
            Strategy::Silent => None,
            _ if random.once_in(12) => self.garbage(run, random),
            Strategy::Split => self.equivocation(run, node, 6, random),
            Strategy::Replace => self.equivocation(run, node, 2, random),
            Strategy::Mixture => self.mixture(run, random),
            Strategy::Honest => self.honest(run, random),
        };
        if let Some(bundle) = bundle.filter(|bundle| self.forging || run.permits(bundle)) {
            run.receive(node, &bundle, mostly(32, random));
        }
    }

    /// The node's side's payload, or once in `cross` times the other's, with signatures that exist.
    fn equivocation(
        &self,
        run: &Run,
        node: u8,
        cross: usize,
        random: &mut Random,
    ) -> Option<Vec<u8>> {
        let slot = *self.some_slot(random)?;
        let second = (self.shown_second & bit(node) != 0) != random.once_in(cross);
        let payload = self.payloads[usize::from(second)];
        Some(self.signed(run, slot, payload, random).bundle().to_vec())
    }

    fn mixture(&self, run: &Run, random: &mut Random) -> Option<Vec<u8>> {
        let sent = some(&run.sent, random).map(Fields::of);
        let slot = match (self.some_slot(random), sent) {
            (Some(slot), _) if random.once_in(2) => *slot,
            (_, Some(sent)) => sent.slot,
            _ => any_slot(&run.system, random),
        };
        let payload = match sent {
            Some(sent) if random.once_in(2) => sent.payload,
            _ => self.payloads[random.below(3)],
        };
        Some(self.signed(run, slot, payload, random).bundle().to_vec())
    }

    fn honest(&self, run: &Run, random: &mut Random) -> Option<Vec<u8>> {
        let sent = some(&run.sent, random).map(Fields::of);
        let mut fields = match (self.some_slot(random), sent) {
            (_, Some(sent)) if !random.once_in(4) => sent,
            (Some(&slot), _) => Fields {
                slot,
                signers: 0,
                payload: self.payloads[0],
            },
            _ => return None,
        };
        fields.signers |= run.system.faulty;
        Some(fields.bundle().to_vec())
    }

    /// A bundle that was sent or made up, with damage.
    fn garbage(&self, run: &Run, random: &mut Random) -> Option<Vec<u8>> {
        let bundle = match some(&run.sent, random) {
            Some(sent) => sent.to_vec(),
            None => self.mixture(run, random)?,
        };
        Some(damaged(bundle, random))
    }

    /// A bundle for the slot and payload with signatures that exist: mostly all of them, now and then some or none.
    fn signed(&self, run: &Run, slot: Slot, payload: Payload, random: &mut Random) -> Fields {
        let existing = match self.forging {
            true => run.system.correct(),
            false => run.signers(slot, payload),
        };
        let mut share = |nodes: u64| match random.below(6) {
            0 => 0,
            1 => nodes & random.word(),
            _ => nodes,
        };
        let sender = (existing | run.system.faulty) & bit(slot.sender);
        Fields {
            slot,
            signers: share(existing) | share(run.system.faulty) | sender,
            payload,
        }
    }

    /// A slot of a faulty sender, if there is one.
    fn some_slot(&self, random: &mut Random) -> Option<&Slot> {
        some(&self.slots, random)
    }
}

/// A slot of any sender, the correct ones too.
fn any_slot(system: &System, random: &mut Random) -> Slot {
    Slot {
        day: system.day,
        sender: random.below(usize::from(system.n)) as u8,
        seq: random.below(3) as u8,
    }
}

/// A strategy, and the correct nodes that are shown the second payload in it.
fn strategy(system: &System, quorum: u32, random: &mut Random) -> (Strategy, u64) {
    let correct = system.correct();
    let half = (correct.count_ones() + random.below(2) as u32) / 2;
    // The others and the faulty ones are a quorum still.
    let few = 1 + random.below((u32::from(system.n) - quorum).max(1) as usize) as u32;
    let few = few.min(correct.count_ones());
    match random.below(10) {
        0..=3 => (Strategy::Split, pick_some(correct, half, random)),
        4..=5 => (Strategy::Replace, pick_some(correct, few, random)),
        6..=7 => (Strategy::Mixture, 0),
        8 => (Strategy::Silent, 0),
        _ => (Strategy::Honest, 0),
    }
}

fn damaged(mut bundle: Vec<u8>, random: &mut Random) -> Vec<u8> {
    let byte = random.word() as u8;
    match random.below(9) {
        0 => bundle.resize(random.below(40), 0),
        1 => bundle[6 + random.below(2)] = byte,
        2 => bundle[random.below(4)] = byte,
        3 => bundle[4] = byte,
        4 => bundle[5] = byte,
        5 => bundle[8 + random.below(8)] = byte,
        6 => bundle[8..16].fill(0),
        7 => bundle[16 + random.below(16)] = byte,
        _ => bundle
            .iter_mut()
            .for_each(|byte| *byte = random.word() as u8),
    }
    bundle
}
