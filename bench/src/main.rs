//! `bench RUN SECOND-RUN [--rounds N]`: the proved model against the second
//! one, in plain Rust, in one run and on the same inputs. A ratio above 1 means
//! that the proved model is the faster, or the smaller.

mod child;
mod table;

use second_model::generate::generate;
use second_model::model::{Answer, Model as Second};
use second_model::records::{self, Record};
use second_model::run::output;
use std::hint::black_box;
use std::time::Instant;
use woldladle::{run, Model, OUTPUT_ROOM};

const LONGEST: usize = 65_536;
const SEED: u64 = 7;
const ROUNDS: usize = 100;

#[derive(Clone, Copy)]
enum Side {
    Ours,
    Theirs,
}

fn main() {
    let arguments: Vec<String> = std::env::args().skip(1).collect();
    let words: Vec<&str> = arguments.iter().map(String::as_str).collect();
    let (programs, rounds) = match words[..] {
        [ours, theirs] => ([ours, theirs], ROUNDS),
        [ours, theirs, "--rounds", n] => ([ours, theirs], n.parse().unwrap_or(0)),
        _ => ([""; 2], 0),
    };
    if rounds == 0 {
        eprintln!("usage: bench RUN SECOND-RUN [--rounds N]     N from 1 ({ROUNDS})");
        std::process::exit(2);
    }
    let inputs: Vec<_> = CHAIN
        .iter()
        .chain(&QUORUM)
        .map(|kind| (*kind, generate(kind, SEED, LONGEST).expect("a kind")))
        .collect();
    steps(rounds, &inputs);
    processes(rounds, &inputs, programs);
    growth(rounds);
}

/// The kinds whose files run to their end, those of a chain and those of a quorum
/// store. Each has a mean of its own.
const CHAIN: [&str; 21] = [
    "accepted",
    "dense",
    "full-waiting",
    "full-links",
    "full-open",
    "colliding",
    "replacements",
    "removals",
    "repeats-losses",
    "direct-reads",
    "pending-writes",
    "lone",
    "small",
    "limits",
    "random-steps",
    "contexts",
    "context-faults",
    "small-contexts",
    "joins",
    "join-faults",
    "small-joins",
];
const QUORUM: [&str; 5] = [
    "quorum",
    "quorum-full",
    "quorum-acks",
    "quorum-replacements",
    "small-quorum",
];

/// For each row the least cost of ours and of theirs. A round takes every row
/// once, both sides right after each other; who begins changes with the round.
fn least(rounds: usize, rows: usize, cost: impl Fn(usize, Side) -> f64) -> Vec<[f64; 2]> {
    let mut least = vec![[f64::INFINITY; 2]; rows];
    for round in 0..rounds {
        for (row, least) in least.iter_mut().enumerate() {
            for turn in [round % 2, (round + 1) % 2] {
                let side = [Side::Ours, Side::Theirs][turn];
                least[turn] = least[turn].min(cost(row, side));
            }
        }
    }
    least
}

fn timed(work: impl FnOnce()) -> f64 {
    let start = Instant::now();
    work();
    start.elapsed().as_secs_f64()
}

/// (a) Steps through the exported library, and the second model called in the
/// same way: the bytes of one record in, the answer and both counts out.
fn steps(rounds: usize, inputs: &[(&str, Vec<u8>)]) {
    let pieces: Vec<_> = inputs.iter().map(|(_, f)| records::pieces(f)).collect();
    let costs = least(rounds, inputs.len(), |row, side| {
        let (start, rest) = pieces[row].split_first().expect("a start");
        let seconds = timed(|| match side {
            Side::Ours => step_ours(start, rest),
            Side::Theirs => step_theirs(start, rest),
        });
        seconds * 1e9 / rest.len() as f64
    });
    let head = ["(a) steps", "ours, ns", "second, ns", "ratio"];
    print(head, &costs);
}

/// The costs of each kind, with a mean for the chain and one for the quorum store.
fn print(head: [&str; 4], costs: &[[f64; 2]]) {
    let (chain, quorum) = costs.split_at(CHAIN.len());
    table::print_head(head);
    table::print_rows(&CHAIN, chain);
    table::print_rows(&QUORUM, quorum);
    println!();
}

fn step_ours(start: &[u8], records: &[&[u8]]) {
    let mut model = Model::start_record(start).expect("a start");
    for record in records {
        black_box(model.step(record));
        black_box((model.waiting(), model.marks()));
    }
}

fn step_theirs(start: &[u8], records: &[&[u8]]) {
    let Some((Record::Start(start), _)) = records::read(start) else {
        unreachable!("a file begins with a start");
    };
    let mut model = Second::start(start).expect("a start");
    for record in records {
        black_box(step_second(&mut model, record));
        black_box((model.waiting(), model.counting_marks()));
    }
}

/// The step of one record, or refusal 1 as nothing.
fn step_second(model: &mut Second, record: &[u8]) -> Option<Answer> {
    match records::read(record)? {
        (Record::Step(step), _) => Some(model.step(step)),
        (Record::Start(_), _) => None,
    }
}

/// (b) The run program and the second model's, on a file of each kind, and (c)
/// the most memory that each had.
fn processes(rounds: usize, inputs: &[(&str, Vec<u8>)], programs: [&str; 2]) {
    let folder = std::env::temp_dir().join(format!("bench-{}", std::process::id()));
    std::fs::create_dir(&folder).expect("a temporary folder");
    for (kind, file) in inputs {
        std::fs::write(folder.join(kind), file).expect("a temporary file");
    }
    let times = least(rounds, inputs.len(), |row, side| {
        child::seconds(programs[side as usize], &folder.join(inputs[row].0)) * 1e3
    });
    let head = ["(b) programs", "ours, ms", "second, ms", "ratio"];
    print(head, &times);
    let sizes = least(rounds, inputs.len(), |row, side| {
        child::kibibytes(programs[side as usize], &folder.join(inputs[row].0))
    });
    let head = ["(c) memory", "ours, KiB", "second, KiB", "ratio"];
    print(head, &sizes);
    std::fs::remove_dir_all(&folder).expect("it was there");
}

/// A file of many short records: reads that are begun, lost and given up.
fn short_records(count: usize) -> Vec<u8> {
    let mut file = vec![32, 0, 1, 3];
    for operation in 1..=count / 3 {
        let [_, _, high, low] = (operation as u32).to_be_bytes();
        file.extend([1, 0, 2, high % 4, low]);
        file.extend([4, 0, 2, 0, 0]);
        file.extend([10, 0, 2, high, low]);
    }
    file
}

/// (d) How the time of a whole run grows with its records.
fn growth(rounds: usize) {
    let counts: Vec<usize> = (1_000..=13_000).step_by(2_000).collect();
    let inputs: Vec<_> = counts.iter().map(|&count| short_records(count)).collect();
    let out = std::cell::RefCell::new(vec![0; OUTPUT_ROOM]);
    let costs = least(rounds, counts.len(), |row, side| {
        let mut out = out.borrow_mut();
        let seconds = timed(|| match side {
            Side::Ours => drop(black_box(run(&inputs[row], &mut out))),
            Side::Theirs => drop(black_box(output(&inputs[row]))),
        });
        seconds * 1e9 / counts[row] as f64
    });
    let head = ["(d) records", "ours, ns each", "second, ns each", "ratio"];
    table::print_head(head);
    table::print_rows(&counts, &costs);
    println!();
}
