//! `second-draw SEED N STEPS` writes a drawn run to standard output, or the line
//! `no K` to standard error.

use second_model::command::{respond, words};
use second_model::draw::{command, draw};
use std::io;
use std::process::ExitCode;

fn main() -> io::Result<ExitCode> {
    match command::answer(&words(), draw) {
        Some(answer) => respond(answer),
        None => {
            eprintln!("usage: second-draw SEED N STEPS");
            Ok(ExitCode::from(2))
        }
    }
}
