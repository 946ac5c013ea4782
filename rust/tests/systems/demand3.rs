//! Demand 3 of a list of calls and of nothing else: each of its premises and conclusions is a function here.

use crate::trace::{bit, Bundle, Call, Fields, Payload, Slot, Step, System};
use std::collections::{HashMap, HashSet};

#[derive(Clone, Copy, Debug, PartialEq, Eq)]
pub enum Conclusion {
    Agreement,
    Once,
    Validity,
    Single,
    Twice,
    Delivery,
}

impl Conclusion {
    pub const ALL: [Conclusion; 6] = [
        Conclusion::Agreement,
        Conclusion::Once,
        Conclusion::Validity,
        Conclusion::Single,
        Conclusion::Twice,
        Conclusion::Delivery,
    ];
}

/// A conclusion that does not hold, and a slot where it does not.
pub struct Violation {
    pub conclusion: Conclusion,
    pub slot: Slot,
}

/// The premises: a good table, no more faulty nodes than it allows, and calls that the demand speaks of.
pub fn lawful(system: &System, trace: &[Step]) -> Result<(), String> {
    if !system.config(0).good() || system.faulty.count_ones() > u32::from(system.t) {
        return Err(format!("{system}: no system of demand 3"));
    }
    let mut called = 0;
    let mut signed = HashMap::new();
    for (position, step) in trace.iter().enumerate() {
        let first = called & bit(step.node) == 0;
        if !opens_first_and_once(system, step, first) || !unforged(system, step, &signed) {
            return Err(format!("call {position} is not lawful: {step}"));
        }
        called |= bit(step.node);
        if let Some(slot_and_payload) = step.signs() {
            *signed.entry(slot_and_payload).or_default() |= bit(step.node);
        }
    }
    Ok(())
}

/// Calls are at correct nodes, and a node's first call, and no later one, is its opening.
fn opens_first_and_once(system: &System, step: &Step, first: bool) -> bool {
    system.correct() & bit(step.node) != 0 && matches!(step.call, Call::Open) == first
}

/// No signature of a correct node is forged: where a node can read the bundle it is handed, each correct node in it has signed that
/// payload in that slot before.
fn unforged(system: &System, step: &Step, signed: &HashMap<(Slot, Payload), u64>) -> bool {
    step.accepts().is_none_or(|fields| {
        let signers = signed.get(&(fields.slot, fields.payload)).unwrap_or(&0);
        fields.signers & system.correct() & !signers == 0
    })
}

/// Who announced, delivered and sent what, in the order of the list, and which nodes each bundle has reached.
pub struct History {
    announced: Vec<(Slot, Payload)>,
    delivered: Vec<(u8, Slot, Payload)>,
    sent: Vec<(u8, Bundle)>,
    reached: HashMap<Bundle, u64>,
}

impl History {
    pub fn of(system: &System, trace: &[Step]) -> History {
        let mut reached = HashMap::new();
        for step in trace {
            if let Some(bundle) = step.reached_by() {
                *reached.entry(bundle).or_default() |= bit(step.node);
            }
        }
        let delivery = |step: &Step| {
            step.delivers()
                .map(|(slot, payload)| (step.node, slot, payload))
        };
        History {
            announced: trace
                .iter()
                .filter_map(|step| step.announces(system.day))
                .collect(),
            delivered: trace.iter().filter_map(delivery).collect(),
            sent: trace
                .iter()
                .filter_map(|step| Some((step.node, step.sends()?)))
                .collect(),
            reached,
        }
    }

    /// Something was announced or delivered, so that the delivery conclusion says something.
    pub fn has_something_to_deliver(&self) -> bool {
        !self.announced.is_empty() || !self.delivered.is_empty()
    }
}

/// The conclusions that ask nothing of the radio.
pub fn broken_safety(system: &System, history: &History) -> Vec<Violation> {
    let found = [
        (Conclusion::Agreement, disagreement(history)),
        (Conclusion::Once, delivered_twice(history)),
        (Conclusion::Validity, not_announced(system, history)),
        (Conclusion::Single, announced_twice(history)),
        (Conclusion::Twice, sent_thrice(history)),
    ];
    let violation = |(conclusion, slot): (_, Option<Slot>)| {
        Some(Violation {
            conclusion,
            slot: slot?,
        })
    };
    found.into_iter().filter_map(violation).collect()
}

/// Agreement: a slot in which two correct nodes delivered different payloads.
fn disagreement(history: &History) -> Option<Slot> {
    let mut first = HashMap::new();
    let mut differs = |slot, payload| *first.entry(slot).or_insert(payload) != payload;
    history
        .delivered
        .iter()
        .find_map(|&(_, slot, payload)| differs(slot, payload).then_some(slot))
}

/// A slot in which one node was answered delivered twice.
fn delivered_twice(history: &History) -> Option<Slot> {
    let mut seen = HashSet::new();
    history
        .delivered
        .iter()
        .find_map(|&(node, slot, _)| (!seen.insert((node, slot))).then_some(slot))
}

/// Validity: a correct sender's slot in which something was delivered that the sender did not announce there.
fn not_announced(system: &System, history: &History) -> Option<Slot> {
    let announced: HashSet<_> = history.announced.iter().copied().collect();
    let invented = |slot: Slot, payload| {
        system.correct() & bit(slot.sender) != 0 && !announced.contains(&(slot, payload))
    };
    history
        .delivered
        .iter()
        .find_map(|&(_, slot, payload)| invented(slot, payload).then_some(slot))
}

/// A slot in which its sender announced twice.
fn announced_twice(history: &History) -> Option<Slot> {
    let mut seen = HashSet::new();
    history
        .announced
        .iter()
        .find_map(|&(slot, _)| (!seen.insert(slot)).then_some(slot))
}

/// A slot in which one node sent three bundles.
fn sent_thrice(history: &History) -> Option<Slot> {
    let mut times = HashMap::new();
    history.sent.iter().find_map(|(node, bundle)| {
        let slot = Fields::of(bundle).slot;
        let count = times.entry((*node, slot)).or_insert(0);
        *count += 1;
        (*count > 2).then_some(slot)
    })
}

/// The premise of delivery: each bundle that was sent has reached so many correct nodes, its sender counted like any other. In the demand
/// itself `receivers` is c - d.
pub fn reached(history: &History, receivers: u32) -> bool {
    let nodes = |bundle| {
        history
            .reached
            .get(bundle)
            .map_or(0, |nodes| nodes.count_ones())
    };
    history
        .sent
        .iter()
        .all(|(_, bundle)| nodes(bundle) >= receivers)
}

/// Delivery: something that was announced or delivered, and that fewer nodes than `receivers` have delivered; in the demand itself that
/// is c - d.
pub fn broken_delivery(history: &History, receivers: u32) -> Option<Violation> {
    let mut nodes: HashMap<_, u64> = HashMap::new();
    for &(node, slot, payload) in &history.delivered {
        *nodes.entry((slot, payload)).or_default() |= bit(node);
    }
    let by_too_few =
        |key: &(Slot, Payload)| nodes.get(key).map_or(0, |nodes| nodes.count_ones()) < receivers;
    let delivered = history
        .delivered
        .iter()
        .map(|&(_, slot, payload)| (slot, payload));
    let (slot, _) = history
        .announced
        .iter()
        .copied()
        .chain(delivered)
        .find(by_too_few)?;
    Some(Violation {
        conclusion: Conclusion::Delivery,
        slot,
    })
}
