//! A drawing program that is wrong on purpose, to show that `compare-draws` can
//! fail: the lower 16 bits of a draw are used.

use second_model::command::{respond, words};
use second_model::draw::{command, draw_by};
use second_model::model::Refusal;
use std::io;
use std::process::ExitCode;

fn draw(seed: u32, n: u64, steps: u64) -> Result<Vec<u8>, Refusal> {
    draw_by(seed, n, steps, |draw| draw as u16)
}

fn main() -> io::Result<ExitCode> {
    match command::answer(&words(), draw) {
        Some(answer) => respond(answer),
        None => {
            eprintln!("usage: wrong-draw SEED N STEPS");
            Ok(ExitCode::from(2))
        }
    }
}
