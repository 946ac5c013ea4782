//! The run program in Rust, from standard input to standard output: the yardstick for the proved one.

use std::io;
use std::process::ExitCode;

fn main() -> ExitCode {
    match mbrb::player::play(io::stdin().lock(), io::stdout().lock()) {
        Ok(()) => ExitCode::SUCCESS,
        Err(error) => {
            eprintln!("play: {error}");
            ExitCode::FAILURE
        }
    }
}
