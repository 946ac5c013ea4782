//! Demand 3 as a test of the statement itself: whole systems, with faulty nodes and losses, through the exported functions.
//!
//! A list of calls comes from a seed, with any quorum that its table may have; its conclusions are checked from the list alone. The same
//! checks see violations where the quorum is one less than the least or one more than the most, and where one correct node more than d
//! misses each sending. On a twentieth as many lists the nodes announce setpoints, and what each makes of them at the end is checked.
//! What the records hold at the end of each list is checked too: whose bits stand beside a payload, noted ones included, whose slots have
//! a note, and whom the recordings of two nodes name side by side. Those checks fail where signatures are forged, where bundles are taken
//! wrongly, and where two recordings are not of one list.
//!
//! MBRB_LISTS sets how many lists there are, MBRB_SEED the first one's seed.

mod adversary;
mod chance;
mod demand3;
mod equivocators;
mod lists;
mod network;
mod notes;
mod run;
mod setpoints;
mod tally;
mod trace;
mod wrong_notes;

use demand3::{Conclusion, History, Violation};
use equivocators::Named;
use lists::{played, Announced, Quorum, Rules, LAWFUL};
use mbrb::setting;
use notes::Notes;
use run::Run;
use setpoints::Outcomes;
use std::fmt::Debug;
use std::time::Instant;
use tally::Tally;
use trace::{Call, Fields, Slot, Step, System, ANNOUNCED, DELIVERED, KEPT, SIGNED};

fn first_seed() -> u64 {
    setting("MBRB_SEED", 1)
}

/// Every conclusion of demand 3 that the list breaks.
fn violations(system: &System, history: &History) -> Vec<Violation> {
    let mut found = demand3::broken_safety(system, history);
    if demand3::reached(history, system.nearly_all()) {
        found.extend(demand3::broken_delivery(history, system.nearly_all()));
    }
    found
}

/// A list with its history, after the check that the claim speaks of it.
fn lawful_list(rules: Rules, seed: u64) -> (Run, History) {
    let run = played(rules, seed);
    if let Err(reason) = demand3::lawful(&run.system, &run.trace) {
        panic!("seed {seed}: {reason}");
    }
    let history = History::of(&run.system, &run.trace);
    (run, history)
}

/// What is broken, with the calls in its slot that changed something.
fn shown(run: &Run, broken: impl Debug, slot: Slot) -> Vec<String> {
    let Run { system, trace, .. } = run;
    let concerned = |step: &Step| {
        let announced = step.announces(system.day).map(|(slot, _)| slot);
        let received = step.accepts().map(|fields| fields.slot);
        step.code >= KEPT && announced.or(received) == Some(slot)
    };
    let calls = trace.iter().filter(|step| concerned(step));
    let title = format!("{broken:?} is broken in {system}:");
    std::iter::once(title)
        .chain(calls.map(|step| format!("  {step}")))
        .collect()
}

#[test]
fn no_violation_in_100_000_lists() {
    let started = Instant::now();
    let lists = setting("MBRB_LISTS", 100_000);
    let (mut tally, mut notes, mut named) = <(Tally, Notes, Named)>::default();
    for seed in (first_seed()..).take(lists as usize) {
        let (run, history) = lawful_list(LAWFUL, seed);
        if let Some(violation) = violations(&run.system, &history).first() {
            let calls = shown(&run, violation.conclusion, violation.slot).join("\n");
            panic!("seed {seed}: {calls}");
        }
        if let Some((wrong, node, slot)) = notes::wrong(&run).first() {
            let calls = shown(&run, wrong, *slot).join("\n");
            panic!("seed {seed}, the records of node {node}: {calls}");
        }
        if let Err(reason) = named.add(&run) {
            panic!("seed {seed}, {}: {reason}", run.system);
        }
        tally.add(&run.system, &run.trace, &history);
        notes.add(&run);
    }
    println!("{tally}");
    println!("{notes}");
    println!("{named}");
    println!("no violation, {:.1?}", started.elapsed());
    tally.assert_not_vacuous();
    notes.assert_not_vacuous();
    named.assert_not_vacuous();
}

/// Small ones: each node announces, so that there are far more calls than elsewhere.
const SETPOINT_TABLES: &[(u8, u8, u8)] = &[
    (3, 0, 1),
    (4, 1, 0),
    (5, 1, 0),
    (6, 1, 1),
    (7, 2, 0),
    (8, 1, 2),
    (8, 2, 0),
    (9, 2, 1),
];

#[test]
fn no_outcome_is_past_what_correct_nodes_announced() {
    let started = Instant::now();
    let rules = Rules {
        tables: SETPOINT_TABLES,
        announced: Announced::Setpoints,
        ..LAWFUL
    };
    let lists = setting("MBRB_LISTS", 100_000) / 20;
    let mut outcomes = Outcomes::default();
    for seed in (first_seed()..).take(lists as usize) {
        let run = played(rules, seed);
        if let Err(reason) = demand3::lawful(&run.system, &run.trace) {
            panic!("seed {seed}: {reason}");
        }
        if let Err(reason) = outcomes.add(&run) {
            panic!("seed {seed}, {}: {reason}", run.system);
        }
    }
    println!("{outcomes}, {:.1?}", started.elapsed());
    outcomes.assert_not_vacuous();
}

/// A list written by hand, of nodes 0 and 1 of four, of which 3 is faulty: the steps need not be what the functions would answer.
fn broken_by(steps: &[Step]) -> Vec<Conclusion> {
    let system = System {
        n: 4,
        t: 1,
        d: 0,
        day: 7,
        q: 3,
        faulty: 1 << 3,
    };
    let history = History::of(&system, steps);
    let found = demand3::broken_safety(&system, &history);
    found.iter().map(|violation| violation.conclusion).collect()
}

/// A step at a node about number 0 of a sender, with a payload of sixteen times `text`.
fn step(node: u8, sender: u8, text: u8, code: u32) -> Step {
    let payload = [text; 16];
    let slot = Slot {
        day: 7,
        sender,
        seq: 0,
    };
    let bundle = Fields {
        slot,
        signers: 1 << sender,
        payload,
    }
    .bundle()
    .to_vec();
    let call = match code {
        ANNOUNCED.. => Call::Broadcast {
            payload: payload.to_vec(),
        },
        _ => Call::Receive {
            bundle: bundle.clone(),
        },
    };
    Step {
        node,
        call,
        code,
        out: bundle,
    }
}

#[test]
fn each_safety_conclusion_is_seen_to_break() {
    use Conclusion::{Agreement, Once, Single, Twice, Validity};
    let announced = || step(0, 0, b'a', ANNOUNCED);
    assert_eq!(broken_by(&[announced(), step(1, 0, b'a', DELIVERED)]), []);
    let two_payloads = [step(0, 3, b'a', DELIVERED), step(1, 3, b'b', DELIVERED)];
    assert_eq!(broken_by(&two_payloads), [Agreement]);
    let delivered = || step(1, 3, b'a', DELIVERED);
    assert_eq!(broken_by(&[delivered(), delivered()]), [Once]);
    assert_eq!(broken_by(&[step(1, 0, b'a', DELIVERED)]), [Validity]);
    let another = [announced(), step(1, 0, b'b', DELIVERED)];
    assert_eq!(broken_by(&another), [Validity]);
    assert_eq!(broken_by(&[announced(), announced()]), [Single]);
    let signed = || step(1, 3, b'a', SIGNED);
    assert_eq!(broken_by(&[signed(), signed()]), []);
    assert_eq!(broken_by(&[signed(), signed(), signed()]), [Twice]);
}

/// Tables that leave room below the least quorum: a node that is told of no faults accepts one less.
const SEVERAL_FAULTS: &[(u8, u8, u8)] = &[
    (5, 1, 0),
    (7, 1, 1),
    (7, 2, 0),
    (8, 2, 0),
    (9, 2, 1),
    (10, 2, 0),
    (10, 3, 0),
    (12, 3, 1),
    (13, 4, 0),
];

/// Tables with a fault or a loss: the most quorum is less than n.
const FAULT_OR_LOSS: &[(u8, u8, u8)] = &[
    (3, 0, 1),
    (4, 1, 0),
    (5, 0, 2),
    (5, 1, 0),
    (6, 0, 1),
    (6, 1, 1),
    (7, 1, 0),
    (7, 2, 0),
    (9, 2, 1),
];

/// How many of 10,000 lists break each conclusion, and the calls of the shortest that breaks this one.
fn count_violations(rules: Rules, shortest_of: Conclusion) -> ([u64; 6], Vec<String>) {
    let mut counts = [0; 6];
    let mut shortest = Vec::new();
    for seed in (first_seed()..).take(10_000) {
        let (run, history) = lawful_list(rules, seed);
        for violation in violations(&run.system, &history) {
            counts[violation.conclusion as usize] += 1;
            let calls = shown(&run, violation.conclusion, violation.slot);
            let shorter = shortest.is_empty() || calls.len() < shortest.len();
            if violation.conclusion == shortest_of && shorter {
                shortest = calls;
            }
        }
    }
    (counts, shortest)
}

/// With the right quorum no list breaks a conclusion; with the wrong one at least a hundred break this one, and none breaks another than
/// those named.
fn assert_seen(right: Rules, wrong: Rules, conclusion: Conclusion, others: &[Conclusion]) {
    assert_eq!(count_violations(right, conclusion).0, [0; 6]);
    let (broken, shortest) = count_violations(wrong, conclusion);
    println!("quorum {:?}, broken in 10000 lists:", wrong.quorum);
    for conclusion in Conclusion::ALL {
        println!("  {conclusion:?}: {}", broken[conclusion as usize]);
    }
    println!("{}", shortest.join("\n"));
    assert!(broken[conclusion as usize] >= 100);
    for other in Conclusion::ALL {
        let may_break = other == conclusion || others.contains(&other);
        assert!(may_break || broken[other as usize] == 0, "{other:?}");
    }
}

#[test]
fn a_quorum_one_below_the_least_is_seen() {
    let least = Rules {
        quorum: Quorum::Least,
        tables: SEVERAL_FAULTS,
        ..LAWFUL
    };
    let one_below = Rules {
        quorum: Quorum::OneBelow,
        ..least
    };
    assert_seen(
        least,
        one_below,
        Conclusion::Agreement,
        &[Conclusion::Delivery],
    );
}

#[test]
fn a_quorum_one_above_the_most_is_seen() {
    let most = Rules {
        quorum: Quorum::Most,
        tables: FAULT_OR_LOSS,
        always_drained: true,
        ..LAWFUL
    };
    let one_above = Rules {
        quorum: Quorum::OneAbove,
        ..most
    };
    assert_seen(most, one_above, Conclusion::Delivery, &[]);
}

#[test]
fn one_loss_more_than_d_is_seen() {
    let rules = Rules {
        missed_more: 1,
        always_drained: true,
        ..LAWFUL
    };
    let [mut premise_held, mut broken, mut broken_for_more] = [0; 3];
    for seed in (first_seed()..).take(10_000) {
        let (Run { system, .. }, history) = lawful_list(rules, seed);
        assert!(violations(&system, &history).is_empty());
        let receivers = system.nearly_all() - 1;
        assert!(demand3::reached(&history, receivers));
        premise_held += u64::from(history.has_something_to_deliver());
        broken += u64::from(demand3::broken_delivery(&history, system.nearly_all()).is_some());
        broken_for_more += u64::from(demand3::broken_delivery(&history, receivers).is_some());
    }
    println!("one loss more than d: {premise_held} lists with something to deliver,");
    println!("  {broken} in which fewer than c - d nodes delivered it,");
    println!("  {broken_for_more} in which fewer did than each sending reached");
    assert!(broken >= 100 && broken_for_more >= 100);
}
