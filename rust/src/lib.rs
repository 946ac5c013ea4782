//! The proved calls and the proved run program beside another implementation of the same rules.
//!
//! [`host`] calls the functions that the static library exports, as a C host does; [`reference`] is written from the papers alone. The
//! tests compare the two, and play whole systems through the exported functions. [`player`] is the run program over the reference, to be
//! compared with the proved one on what [`runs`] writes.

use std::path::PathBuf;

pub mod host;
pub mod player;
pub mod random;
pub mod reference;
pub mod runs;

/// A number that a test takes from the environment, or its usual one.
pub fn setting(name: &str, usual: u64) -> u64 {
    let Ok(text) = std::env::var(name) else {
        return usual;
    };
    text.parse()
        .unwrap_or_else(|_| panic!("{name} is not a number: {text}"))
}

/// Where the proved run program is: where `rt run` in crates/play puts it, unless `MBRB_PLAY` names another.
pub fn program_under_test() -> PathBuf {
    let built = concat!(env!("CARGO_MANIFEST_DIR"), "/../crates/play/out/play");
    let path = std::env::var_os("MBRB_PLAY").unwrap_or_else(|| built.into());
    let path = PathBuf::from(path);
    assert!(
        path.is_file(),
        "{}: no such program, `rt run` in crates/play builds it",
        path.display()
    );
    path
}

/// What the nodes of a system share but for `own`: the rules' table. It may hold any values: a call refuses one that is not good.
#[derive(Clone, Copy, Debug, PartialEq, Eq)]
pub struct Config {
    /// how many nodes the system has
    pub n: u8,
    /// how many of them may be faulty
    pub t: u8,
    /// how many correct nodes may miss one sending
    pub d: u8,
    /// the number of this node
    pub own: u8,
    pub day: u32,
    /// how many signers deliver a payload, as the site has chosen: the quorum
    pub q: u32,
}
