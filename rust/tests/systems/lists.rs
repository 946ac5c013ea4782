//! Lists of calls, each from its own seed: a system, what its correct nodes announce, what the faulty ones do, and what is lost.

use crate::adversary::Adversary;
use crate::chance::{mostly, mostly_the_most, pick, pick_some};
use crate::network::Network;
use crate::run::{Receive, Run};
use crate::setpoints::setpoint;
use crate::trace::{Payload, System};
use mbrb::random::Random;
use mbrb::{host, Config};

/// The quorum that the nodes go by.
#[derive(Clone, Copy, Debug)]
pub enum Quorum {
    /// any that the table may have
    Any,
    Least,
    Most,
    OneBelow,
    OneAbove,
}

/// What is announced.
#[derive(Clone, Copy, PartialEq, Eq)]
pub enum Announced {
    /// at most two payloads, from few
    Few,
    /// setpoints, by most nodes and some of them more than once; what faulty nodes announce is far from the others
    Setpoints,
}

/// How a list is made, apart from chance.
#[derive(Clone, Copy)]
pub struct Rules {
    pub quorum: Quorum,
    /// how many correct nodes more than d a sending may miss
    pub missed_more: u32,
    /// the tables (n, t, d) to choose from; any good one if there are none
    pub tables: &'static [(u8, u8, u8)],
    /// Every list goes on until each sending has reached enough nodes.
    pub always_drained: bool,
    pub announced: Announced,
    /// The faulty nodes set any correct node's bit, which no list of demand 3 has.
    pub forging: bool,
    pub receive: Receive,
}

/// The rules of demand 3.
pub const LAWFUL: Rules = Rules {
    quorum: Quorum::Any,
    missed_more: 0,
    tables: &[],
    always_drained: false,
    announced: Announced::Few,
    forging: false,
    receive: host::receive,
};

/// The system at the end of the list.
pub fn played(rules: Rules, seed: u64) -> Run {
    let random = &mut Random::new(seed);
    let system = system(rules, random);
    play(system, rules, random)
}

/// The same system at the end of another list, on which its correct nodes announce something else.
pub fn played_again(run: &Run, rules: Rules, seed: u64) -> Run {
    play(run.system, rules, &mut Random::new(seed))
}

fn system(rules: Rules, random: &mut Random) -> System {
    let (n, t, d) = match rules.tables {
        [] => any_table(random),
        tables => tables[random.below(tables.len())],
    };
    let day = [0, 7, u32::MAX, random.word() as u32][random.below(4)];
    let mut system = System {
        n,
        t,
        d,
        day,
        q: 0,
        faulty: 0,
    };
    system.q = match rules.quorum {
        Quorum::Any => any_quorum(&system, random),
        Quorum::Least | Quorum::OneBelow => *system.quorums().start(),
        Quorum::Most | Quorum::OneAbove => *system.quorums().end(),
    };
    let faulty = match rules.quorum {
        Quorum::Any => mostly_the_most(usize::from(t), random) as u32,
        _ => u32::from(t),
    };
    system.faulty = pick_some(system.correct(), faulty, random);
    system
}

fn any_quorum(system: &System, random: &mut Random) -> u32 {
    let (least, most) = system.quorums().into_inner();
    least + random.below((most - least) as usize + 1) as u32
}

/// The table that node 0 is given. The counts go by the quorum alone, so where that is not the system's the table names no faults and no
/// losses: then it is good with more quorums.
fn given_table(system: &System, rules: Rules) -> Config {
    let table = system.config(0);
    let with_any_quorum = |q| Config {
        t: 0,
        d: 0,
        q,
        ..table
    };
    match rules.quorum {
        Quorum::Any | Quorum::Least | Quorum::Most => table,
        Quorum::OneBelow => with_any_quorum(system.q - 1),
        Quorum::OneAbove => with_any_quorum(system.q + 1),
    }
}

/// Good tables, mostly small. One in three would mostly be bad with one fault or one loss more, and has a single quorum then; the others
/// have nodes that faults and losses do not need, and mostly more than one quorum.
fn any_table(random: &mut Random) -> (u8, u8, u8) {
    let n = match random.below(400) {
        0..=1 => 11 + random.below(54),
        2..=60 => 1 + random.below(10),
        _ => 4 + random.below(4),
    };
    let needless = [0, 2, 3][random.below(3)].min(n - 1);
    let t = mostly_the_most((n - needless - 1) / 3, random);
    let d = mostly_the_most((n - needless - 1 - 3 * t) / 2, random);
    (n as u8, t as u8, d as u8)
}

fn play(system: System, rules: Rules, random: &mut Random) -> Run {
    let payloads = match rules.announced {
        Announced::Few => Payloads::few(random),
        Announced::Setpoints => Payloads::setpoints(random),
    };
    let table = given_table(&system, rules);
    let mut run = Run::new(system, table, rules.receive, random);
    let quorum = table.quorum();
    let mut adversary = Adversary::new(&system, quorum, payloads.faulty, random);
    adversary.forging = rules.forging;
    let missed = u32::from(system.d) + rules.missed_more;
    let mut network = match rules.always_drained || random.once_in(2) {
        true => Network::draining(&system, missed, random),
        false => Network::losing_any(random),
    };
    let nodes = usize::from(system.n);
    let (mut announcements, more_steps) = match rules.announced {
        Announced::Few => (random.below(3), 0),
        Announced::Setpoints => (2 * nodes, 12 * nodes),
    };
    for _ in 0..4 + more_steps + random.below(8 * nodes) {
        match random.below(8) {
            0 if announcements > 0 => {
                announcements -= 1;
                announce(&mut run, &payloads.correct, random);
            }
            1..=2 => _ = network.carry(&mut run, random),
            _ => adversary.act(&mut run, random),
        }
    }
    if system.n <= 10 && random.once_in(400) {
        use_up_a_day(&mut run, &payloads.correct, random);
    }
    drain(&mut run, &mut network, &adversary, random);
    run
}

/// Hands on what was sent, and what is sent upon that, until each sending has reached enough nodes. The faulty nodes go on for a while.
fn drain(run: &mut Run, network: &mut Network, adversary: &Adversary, random: &mut Random) {
    let mut acts = random.below(10);
    while !network.ends_anywhere() && network.carry(run, random) {
        if acts > 0 && random.once_in(6) {
            acts -= 1;
            adversary.act(run, random);
        }
    }
}

/// What the nodes of a list announce.
struct Payloads {
    correct: Vec<Payload>,
    faulty: [Payload; 3],
}

impl Payloads {
    /// Few and alike, so that two nodes may well have the same: one is all zero, one a bit away from another.
    fn few(random: &mut Random) -> Payloads {
        let any = u128::from(random.word()) << 64 | u128::from(random.word());
        let faulty = [
            [0; 16],
            any.to_be_bytes(),
            (any ^ 1 << random.below(128)).to_be_bytes(),
        ];
        Payloads {
            correct: faulty.to_vec(),
            faulty,
        }
    }

    /// About as warm, above or below zero, but for what faulty nodes announce. Now and then it is something else than a setpoint.
    fn setpoints(random: &mut Random) -> Payloads {
        let usual = random.below(4_000) as i16 - 1_000;
        let mut about = |_| setpoint(usual + random.below(200) as i16);
        let mut correct: Vec<_> = (0..7).map(&mut about).collect();
        correct.push([0; 16]);
        let far = [i16::MIN, usual - 3_000, usual + 3_000, i16::MAX];
        let faulty = [(); 3].map(|()| setpoint(far[random.below(4)]));
        Payloads { correct, faulty }
    }
}

fn announce(run: &mut Run, payloads: &[Payload], random: &mut Random) {
    let node = pick(run.system.correct(), random);
    let mut payload = payloads[random.below(payloads.len())].to_vec();
    payload.resize(mostly(16, random), 0);
    run.broadcast(node, &payload, mostly(32, random));
}

/// A node announces until it has no slot left, and once more.
fn use_up_a_day(run: &mut Run, payloads: &[Payload], random: &mut Random) {
    let node = pick(run.system.correct(), random);
    for _ in 0..17 {
        run.broadcast(node, &payloads[random.below(payloads.len())], 32);
    }
}
