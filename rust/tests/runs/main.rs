//! The proved run program beside the Rust player: the same bytes from both, on run files made from a seed, whole and damaged, and on some
//! that print every percent.
//!
//! `MBRB_RUNS` sets how many files, `MBRB_SEED` another seed, both decimal; `MBRB_PLAY` names another program. With fewer than three
//! thousand files something may be too rare, and the test fails for that.

mod damage;
mod files;
mod heads;
mod percents;
mod program;
mod tally;
mod wrong;

use files::{file, Made};
use mbrb::{player, program_under_test, setting};
use program::Program;
use std::collections::BTreeSet;
use tally::Tally;

const RUNS: u64 = 4_000;
const SEED: u64 = 1;

/// The files of a seed, each with its number and what has to be printed.
fn files(seed: u64, runs: u64) -> impl Iterator<Item = (u64, Made, Vec<u8>)> {
    (0..runs).map(move |number| {
        let made = file(seed, number);
        let output = expected(&made.bytes);
        (number, made, output)
    })
}

fn expected(input: &[u8]) -> Vec<u8> {
    let mut output = Vec::new();
    player::play(input, &mut output).expect("neither side can fail");
    output
}

#[test]
fn the_program_prints_what_the_player_prints() {
    let (seed, runs) = (setting("MBRB_SEED", SEED), setting("MBRB_RUNS", RUNS));
    println!("seed: {seed}");
    let program = Program::new(program_under_test());
    let mut tally = Tally::default();
    for (number, made, output) in files(seed, runs) {
        tally.count(&made, &output);
        if program.run(&made) != output {
            let path = program.keep(&made);
            panic!(
                "seed {seed}, file {number}, {}: {}",
                made.kind,
                path.display()
            );
        }
    }
    program.remove_folder();
    println!("{tally}");
    tally.assert_complete(runs / 100);
}

#[test]
fn the_program_prints_every_percent() {
    let program = Program::new(program_under_test());
    let text = |bytes| String::from_utf8(bytes).expect("only letters and digits are printed");
    let mut seen = BTreeSet::new();
    for n in 1..=8 {
        let made = percents::run(n);
        let output = text(program.run(&made));
        assert_eq!(output, text(expected(&made.bytes)));
        seen.extend(percents::printed(&made.bytes, &output));
    }
    program.remove_folder();
    assert_eq!(seen, percents::shares().collect());
    assert_eq!(
        seen.len(),
        36,
        "one for each number of units and deliveries"
    );
}

#[test]
fn the_program_ends_where_it_cannot_print() {
    let program = Program::new(program_under_test());
    let said = program.run_without_room(&"A 0 - - -\n".repeat(100_000));
    program.remove_folder();
    assert_eq!(said, "play: writing failed\n");
}

#[test]
fn a_line_that_was_not_read_whole_is_not_played() {
    let program = Program::new(program_under_test());
    let rows = "A 0 - - - 11111111111111111111111111111111\nA 0 - - -";
    let [printed, said] = program.run_broken(rows);
    program.remove_folder();
    assert_eq!(
        printed,
        "line act unit answer reason count\n1 A 0 announced 0 1\n"
    );
    assert_eq!(said, "play: reading failed\n");
}

#[test]
fn wrong_players_are_found() {
    let mut found = [0; wrong::PLAYERS.len()];
    for (_, made, output) in files(SEED, RUNS) {
        for (found, (_, play)) in found.iter_mut().zip(wrong::PLAYERS) {
            *found += u64::from(play(&made.bytes) != output);
        }
    }
    for (found, (name, _)) in found.into_iter().zip(wrong::PLAYERS) {
        println!("found in {found:>5} files of {RUNS}: {name}");
        assert!(found >= 5, "{name}: in {found} files only");
    }
}
