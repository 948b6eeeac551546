//! A shortening program that is wrong on purpose, to show that `compare-shorten`
//! can fail: it makes one pass only.

use second_model::command::{input, respond};
use second_model::shorten::shorten_by;
use std::io;
use std::process::ExitCode;

fn main() -> io::Result<ExitCode> {
    let input = match input("wrong-shorten") {
        Ok(input) => input,
        Err(status) => return Ok(status),
    };
    let shortened = shorten_by(&input, |run| {
        run.pass();
    });
    respond(shortened.map(|(file, _)| file))
}
