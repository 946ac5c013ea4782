//! Every percent that a run can print, written out, and runs that print each of them.

use crate::files::{Feed, Made};
use crate::heads::nodes_of;
use mbrb::runs::{Bundle, System};
use mbrb::Config;
use std::fmt::Display;

const LAST_NAMES: &str = "sender number units percent";

/// For n nodes the row at n - 1: how many percent of them one is, then two, and so on up to n. Of eight nodes each odd number is a half, which
/// goes to the even neighbour.
pub const PERCENTS: [&[usize]; 8] = [
    &[100],
    &[50, 100],
    &[33, 67, 100],
    &[25, 50, 75, 100],
    &[20, 40, 60, 80, 100],
    &[17, 33, 50, 67, 83, 100],
    &[14, 29, 43, 57, 71, 86, 100],
    &[12, 25, 38, 50, 62, 75, 88, 100],
];

/// What the last rows can say of a slot, by the table above.
pub fn shares() -> impl Iterator<Item = String> {
    let table = (1..).zip(PERCENTS);
    table.flat_map(|(n, percents)| {
        let counted = (1..).zip(percents);
        counted.map(move |(nodes, percent)| share(nodes, n, percent))
    })
}

/// What the last rows of this output say.
pub fn printed<'a>(file: &'a [u8], output: &'a str) -> impl Iterator<Item = String> + 'a {
    let rows = output
        .lines()
        .skip_while(|line| *line != LAST_NAMES)
        .skip(1);
    rows.map(|row| {
        let fields: Vec<_> = row.split(' ').collect();
        share(fields[2], nodes_of(file), fields[3])
    })
}

pub fn share(nodes: impl Display, n: impl Display, percent: impl Display) -> String {
    format!("{nodes} of {n} units, {percent} percent")
}

/// Each of the n nodes announces n payloads, of which one node delivers the first, two the second, and so on.
pub fn run(n: u8) -> Made {
    let mut system = System::new(Config {
        n,
        t: 0,
        d: 0,
        own: 0,
        day: 7,
        q: n.into(),
    });
    let mut text = system.head();
    for sender in 0..n {
        for deliveries in 1..=n {
            text += &slot(&mut system, sender, deliveries);
        }
    }
    Made {
        bytes: text.into_bytes(),
        feed: Feed::File,
        kind: "every percent",
    }
}

/// Those that deliver are the next ones after the sender, in a circle, so that it is the last one itself. The others hold the payload: whoever
/// counts them too prints another number.
fn slot(system: &mut System, sender: u8, deliveries: u8) -> String {
    let n = system.config.n;
    let mut rows = system.broadcast(sender, u128::from(deliveries)) + "\n";
    let sent = *system.sent.last().expect("just announced");
    for place in 1..=n {
        let node = (sender + place) % n;
        // A node that has not signed yet accepts no bundle with its own bit.
        let others = system.config.mask() & !(1 << node);
        let signers = match place <= deliveries {
            true => sent.signers | others,
            false => sent.signers,
        };
        rows += &system.receive(node, Bundle { signers, ..sent });
        rows += "\n";
    }
    rows
}
