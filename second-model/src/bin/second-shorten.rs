//! `second-shorten [FILE]` writes the shortened run of a record file, standard
//! input without FILE or with `-`, to standard output, or the line `no K` to
//! standard error.

use second_model::command::{input, respond};
use second_model::shorten::shorten;
use std::io;
use std::process::ExitCode;

fn main() -> io::Result<ExitCode> {
    match input("second-shorten") {
        Ok(input) => respond(shorten(&input)),
        Err(status) => Ok(status),
    }
}
