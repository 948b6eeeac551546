//! `compare`, `compare-draws` and `compare-shorten` agree with this model's own
//! programs, and can fail.

use second_model::compare::printed;
use second_model::compare::shortenings::NUMBERS;
use second_model::draw::draw;
use second_model::examples::all;
use second_model::generate::{generate, SMALL};
use second_model::order::{find_order, history};
use second_model::records::{given_up_in_two_bytes, pieces};
use second_model::run::output;
use second_model::words::file;
use std::fs;
use std::path::{Path, PathBuf};
use std::process::{Command, Output};

fn compare(program: &str, more: &[&str]) -> Output {
    let mut command = Command::new(env!("CARGO_BIN_EXE_compare"));
    command.arg(program).args(more);
    command.output().unwrap()
}

fn text(output: &Output) -> String {
    String::from_utf8(output.stdout.clone()).unwrap()
}

#[test]
fn no_difference_with_itself() {
    let own = env!("CARGO_BIN_EXE_second-run");
    let run = compare(own, &["--files", "217", "--small", "40", "--seed", "5"]);
    let text = text(&run);
    assert_eq!(run.status.code(), Some(0), "{text}");
    assert!(text.starts_with("seed 5\n"));
    let answers = [
        "old",
        "new",
        "context, direct",
        "context, tail",
        "context, rejected",
        "no 16",
        "join, begun",
        "join, whole",
        "no 17",
        "no 18",
        "no 19",
        "give-up 2, ok",
        "give-up 2, no 13",
        "give-up 4, ok",
        "give-up 4, no 13",
        "lagging, answered",
        "quorum, sent on",
        "exact majority",
        "24, no majority",
        "24, full link",
        "drop, full log",
        "drop, full link",
        "no 23",
        "no 24",
    ];
    for word in answers {
        let (_, after) = text.split_once(&format!("\n{word}  ")).unwrap();
        let times = after.lines().next().unwrap().trim();
        assert_ne!(times, "0", "{word}");
    }
    let last = text.lines().last().unwrap();
    assert!(last.starts_with("compared 217 files, "), "{last}");
    assert!(last.contains(" 0 differences; orders found for 40 small runs"));
}

/// What `compare` keeps of a difference.
struct Kept {
    short: Vec<u8>,
    ours: String,
    theirs: String,
}

/// Compares a wrong program and gives what is kept of the difference found.
fn difference(program: &str, folder: &str) -> Kept {
    let keep = PathBuf::from(env!("CARGO_TARGET_TMPDIR")).join(folder);
    let _ = fs::remove_dir_all(&keep);
    let run = compare(program, &["--seed", "5", "--keep", keep.to_str().unwrap()]);
    let text = text(&run);
    assert_eq!(run.status.code(), Some(1), "{text}");
    assert!(text.contains("difference on file "), "{text}");
    let kept = fs::read_dir(&keep).unwrap().next().unwrap().unwrap().path();
    let lines = |name: &str| fs::read_to_string(kept.join(name)).unwrap();
    let kept = Kept {
        short: fs::read(kept.join("short.records")).unwrap(),
        ours: lines("short.ours"),
        theirs: lines("short.theirs"),
    };
    assert_eq!(output(&kept.short), kept.ours.as_bytes());
    kept
}

#[test]
fn a_wrong_program_is_found_and_the_file_shortened() {
    let kept = difference(env!("CARGO_BIN_EXE_wrong-run"), "wrong");
    assert!(kept.ours.ends_with(" no 8\n") && kept.theirs.ends_with(" no 6\n"));
    // A start, at least 64 begins and repeats, one repeat refused; no more
    // than two steps for each of them are left.
    let length = kept.short.len();
    assert!(length < 1300, "{length} bytes");
}

#[test]
fn a_wrong_last_field_is_found_and_the_file_shortened() {
    let kept = difference(env!("CARGO_BIN_EXE_wrong-age-run"), "wrong-age");
    assert!(kept.ours.ends_with(" 0 old\n") && kept.theirs.ends_with(" 0 -\n"));
    // A start, a write, a read and four deliveries have 42 bytes; positions
    // stay as they are, so that packets before them must be left too.
    let length = kept.short.len();
    assert!((42..1000).contains(&length), "{length} bytes");
}

/// A direct read of several objects that is answered where it should be sent on:
/// it finishes with values joined by commas where it should not finish.
#[test]
fn a_wrong_context_is_found_and_the_file_shortened() {
    let kept = difference(env!("CARGO_BIN_EXE_wrong-context-run"), "wrong-context");
    let last = |lines: &str| lines.lines().last().unwrap().to_string();
    let (ours, theirs) = (last(&kept.ours), last(&kept.theirs));
    assert!(ours.ends_with(" - - -"), "{ours}");
    let values = theirs.split(' ').nth(5).unwrap();
    assert!(values.contains(','), "{theirs}");
    // A start, two writes, a read of two objects and nine deliveries have 83
    // bytes, with one replica at the least to advance.
    let length = kept.short.len();
    assert!((83..1000).contains(&length), "{length} bytes");
}

/// The wrong program's small runs do not all have an order; this model's have.
#[test]
fn a_wrong_context_leaves_a_small_run_without_an_order() {
    let folder = PathBuf::from(env!("CARGO_TARGET_TMPDIR"));
    let path = folder.join("small-contexts.records");
    let program = Path::new(env!("CARGO_BIN_EXE_wrong-context-run"));
    let mut without = 0;
    for seed in 0..400 {
        let input = generate("small-contexts", seed, 500).unwrap();
        let found = |lines: &[u8]| find_order(&history(&input, lines).unwrap()).is_some();
        assert!(found(&output(&input)), "seed {seed}");
        without += usize::from(!found(&printed(program, &input, &path).unwrap()));
    }
    assert!(without >= 5, "{without}");
}

/// A write during a join that the newcomer misses: a read of one object or of
/// several has another value or age there.
#[test]
fn a_wrong_join_is_found_and_the_file_shortened() {
    let kept = difference(env!("CARGO_BIN_EXE_wrong-join-run"), "wrong-join");
    let steps: Vec<u8> = pieces(&kept.short).into_iter().map(|p| p[0]).collect();
    let count = |tag| steps.iter().filter(|&&t| t == tag).count();
    assert!(count(2) >= 1 && count(12) >= 1 && count(13) >= 16);
    let (ours, theirs) = (kept.ours.lines().last(), kept.theirs.lines().last());
    assert_ne!(ours, theirs);
    assert!(ours.is_some_and(|line| line.contains(" ok ")), "{ours:?}");
    // A start, a join with its copies, a write, a read and six deliveries have
    // 105 bytes; there may be other joins, since the chain must stay alike.
    let length = kept.short.len();
    assert!((105..2000).contains(&length), "{length} bytes");
}

/// The stored examples about writes to copied objects notice it, those about
/// other objects do not.
#[test]
fn a_wrong_join_is_seen_in_the_examples() {
    let path = PathBuf::from(env!("CARGO_TARGET_TMPDIR")).join("example.records");
    let program = Path::new(env!("CARGO_BIN_EXE_wrong-join-run"));
    let examples = all().into_iter();
    let seen = examples.filter(|e| output(&e.input) != printed(program, &e.input, &path).unwrap());
    let seen: Vec<String> = seen.map(|e| e.name).collect();
    let seen: Vec<&str> = seen.iter().map(String::as_str).collect();
    for name in [
        "write-to-a-copied-object-reaches-the-newcomer",
        "write-of-a-lone-replica-reaches-the-newcomer",
        "write-of-the-last-object-copied",
        "write-after-the-fifteenth-copy-to-a-copied-object",
        "write-meanwhile-after-a-late-completion",
    ] {
        assert!(seen.contains(&name), "{name} not among {seen:?}");
    }
    assert!(!seen.contains(&"write-to-an-object-not-yet-copied-is-copied-later"));
    assert!(!seen.contains(&"write-before-the-first-copy-is-copied"));
}

/// The wrong program's small runs do not all have an order; this model's have.
#[test]
fn a_wrong_join_leaves_a_small_run_without_an_order() {
    let folder = PathBuf::from(env!("CARGO_TARGET_TMPDIR"));
    let path = folder.join("small-joins.records");
    let program = Path::new(env!("CARGO_BIN_EXE_wrong-join-run"));
    let (mut differ, mut without) = (0, 0);
    for seed in 0..400 {
        let input = generate("small-joins", seed, 700).unwrap();
        let found = |lines: &[u8]| find_order(&history(&input, lines).unwrap()).is_some();
        let (ours, theirs) = (output(&input), printed(program, &input, &path).unwrap());
        assert!(found(&ours), "seed {seed}");
        differ += usize::from(ours != theirs);
        without += usize::from(!found(&theirs));
    }
    println!("{differ} of 400 small runs differ, {without} have no order");
    assert!(differ >= 20 && without >= 10, "{differ}, {without}");
}

/// A start, a give-up with length 2, and a record that the wrong program does not
/// find: what it finds two bytes further on is a fault, another step or the end.
#[test]
fn a_wrong_length_is_found_and_the_file_shortened() {
    let kept = difference(env!("CARGO_BIN_EXE_wrong-length-run"), "wrong-length");
    let records = pieces(&kept.short);
    assert!(records.len() >= 3);
    let before = records[records.len() - 2];
    assert!(before.starts_with(&[10, 0, 2]), "{before:?}");
    assert_ne!(kept.ours.lines().last(), kept.theirs.lines().last());
    let length = kept.short.len();
    assert!((10..60).contains(&length), "{length} bytes");
}

/// The stored examples with length 2 in which more follows notice it, unless they
/// end in a fault; those with length 4 do not.
#[test]
fn a_wrong_length_is_seen_in_the_examples() {
    let path = PathBuf::from(env!("CARGO_TARGET_TMPDIR")).join("length.records");
    let program = Path::new(env!("CARGO_BIN_EXE_wrong-length-run"));
    let mut noticed = 0;
    for example in all() {
        let mut before_the_last = pieces(&example.input).into_iter().rev().skip(1);
        let here = before_the_last.any(|piece| given_up_in_two_bytes(piece).is_some());
        let ours = output(&example.input);
        let differs = ours != printed(program, &example.input, &path).unwrap();
        assert!(here || !differs, "{}", example.name);
        let faulty = ours.ends_with(b" no 1\n");
        assert!(differs || faulty || !here, "{}", example.name);
        noticed += usize::from(differs);
    }
    println!("{noticed} examples notice the wrong length");
    assert!(noticed >= 20, "{noticed}");
}

/// A former switch's completion turns direct reads on: a read is direct where it
/// should be a normal one, so that it comes to another end some steps later.
#[test]
fn a_wrong_completion_is_found_and_the_file_shortened() {
    let program = env!("CARGO_BIN_EXE_wrong-completion-run");
    let kept = difference(program, "wrong-completion");
    let tags: Vec<u8> = pieces(&kept.short).into_iter().map(|p| p[0]).collect();
    let count = |tag| tags.iter().filter(|&&t| t == tag).count();
    assert!(count(2) >= 1 && count(7) >= 1 && count(1) + count(11) >= 1);
    assert_ne!(kept.ours.lines().last(), kept.theirs.lines().last());
    // A start, a write, a replacement, a read and seven deliveries have 65 bytes.
    let length = kept.short.len();
    assert!((65..1000).contains(&length), "{length} bytes");
}

/// The stored examples about reads after a late completion notice it, those about
/// direct reads that are on already do not.
#[test]
fn a_wrong_completion_is_seen_in_the_examples() {
    let path = PathBuf::from(env!("CARGO_TARGET_TMPDIR")).join("completion.records");
    let program = Path::new(env!("CARGO_BIN_EXE_wrong-completion-run"));
    let examples = all().into_iter();
    let seen = examples.filter(|e| output(&e.input) != printed(program, &e.input, &path).unwrap());
    let seen: Vec<String> = seen.map(|e| e.name).collect();
    let seen: Vec<&str> = seen.iter().map(String::as_str).collect();
    for name in [
        "former-switch-s-completion-leaves-direct-reads-off",
        "repeated-completion-of-a-former-switch",
        "completions-of-two-former-switches",
        "copy-of-a-completion-past-the-next-replacement",
        "late-completion-of-an-old-switch",
        "context-after-a-late-completion",
    ] {
        assert!(seen.contains(&name), "{name} not among {seen:?}");
    }
    assert!(!seen.contains(&"former-switch-s-completion-leaves-direct-reads-on"));
    assert!(!seen.contains(&"own-completion-turns-direct-reads-on"));
}

/// In the chain the order does not rest on this rule: the wrong program's small runs
/// have one too, also where its lines are others.
#[test]
fn a_wrong_completion_leaves_an_order() {
    let folder = PathBuf::from(env!("CARGO_TARGET_TMPDIR"));
    let path = folder.join("small-completions.records");
    let program = Path::new(env!("CARGO_BIN_EXE_wrong-completion-run"));
    let chains = &SMALL[..3];
    let mut differ = 0;
    for seed in 0..900 {
        let kind = chains[seed as usize % chains.len()];
        let input = generate(kind, seed, 700).unwrap();
        let found = |lines: &[u8]| find_order(&history(&input, lines).unwrap()).is_some();
        let (ours, theirs) = (output(&input), printed(program, &input, &path).unwrap());
        assert!(found(&ours) && found(&theirs), "{kind}, seed {seed}");
        differ += usize::from(ours != theirs);
    }
    println!("{differ} of 900 small runs differ");
    assert!(differ >= 3, "{differ}");
}

/// How many of the small quorum runs of some seeds a program prints otherwise than
/// this model, and how many of its have no order; this model's all have one.
fn small_quorum_runs(program: &str, name: &str, seeds: std::ops::Range<u64>) -> (usize, usize) {
    let path = PathBuf::from(env!("CARGO_TARGET_TMPDIR")).join(name);
    let (mut differ, mut without) = (0, 0);
    for seed in seeds {
        let input = generate("small-quorum", seed, 700).unwrap();
        let found = |lines: &[u8]| find_order(&history(&input, lines).unwrap()).is_some();
        let ours = output(&input);
        let theirs = printed(Path::new(program), &input, &path).unwrap();
        assert!(found(&ours), "seed {seed}");
        differ += usize::from(ours != theirs);
        without += usize::from(!found(&theirs));
    }
    println!("{name}: {differ} differ, {without} have no order");
    (differ, without)
}

/// In a quorum store the order does rest on Req 10: a stored example has none with the
/// wrong program. Small runs differ too.
#[test]
fn a_wrong_completion_leaves_a_quorum_run_without_an_order() {
    let program = env!("CARGO_BIN_EXE_wrong-completion-run");
    let path = PathBuf::from(env!("CARGO_TARGET_TMPDIR")).join("completion-quorum");
    let name = "former-switch-s-completion-over-a-quorum";
    let example = all().into_iter().find(|e| e.name == name).unwrap();
    let theirs = printed(Path::new(program), &example.input, &path).unwrap();
    let found = |lines: &[u8]| find_order(&history(&example.input, lines).unwrap());
    assert!(found(&output(&example.input)).is_some());
    assert_eq!(found(&theirs), None);
    let (differ, _) = small_quorum_runs(program, "small-completion-quorum.records", 0..300);
    assert!(differ >= 5, "{differ}");
}

/// A replica of a quorum store that looks at the objects' stamps answers where it
/// should send a read on: the read has another end.
#[test]
fn a_wrong_quorum_is_found_and_the_file_shortened() {
    let kept = difference(env!("CARGO_BIN_EXE_wrong-quorum-run"), "wrong-quorum");
    let tags: Vec<u8> = pieces(&kept.short).into_iter().map(|p| p[0]).collect();
    let count = |tag| tags.iter().filter(|&&t| t == tag).count();
    assert_eq!(tags[0], 33);
    assert!(count(2) >= 1 && count(14) >= 1 && count(1) + count(11) >= 1);
    assert_ne!(kept.ours.lines().last(), kept.theirs.lines().last());
    // A start, a write, an advance, an execution, a read and seven deliveries have 67
    // bytes.
    let length = kept.short.len();
    assert!((67..1000).contains(&length), "{length} bytes");
}

/// The stored examples about followers that lag notice it, those about chains do not.
#[test]
fn a_wrong_quorum_is_seen_in_the_examples() {
    let path = PathBuf::from(env!("CARGO_TARGET_TMPDIR")).join("quorum.records");
    let program = Path::new(env!("CARGO_BIN_EXE_wrong-quorum-run"));
    let examples = all().into_iter();
    let seen = examples.filter(|e| output(&e.input) != printed(program, &e.input, &path).unwrap());
    let seen: Vec<(String, u8)> = seen.map(|e| (e.name, e.input[0])).collect();
    assert!(seen.iter().all(|(_, tag)| *tag == 33));
    let seen: Vec<&str> = seen.iter().map(|(name, _)| name.as_str()).collect();
    for name in [
        "direct-read-at-a-follower-that-has-not",
        "direct-read-of-an-object-never-written-is-sent-on",
        "context-sent-on-by-a-lagging-follower",
        "direct-read-answered-with-a-later-write",
        "lagging-follower-answers-once-and-sends-on-once",
    ] {
        assert!(seen.contains(&name), "{name} not among {seen:?}");
    }
    assert!(!seen.contains(&"direct-read-at-a-follower-that-has-executed"));
    assert!(!seen.contains(&"lagging-follower-answers"));
}

/// The wrong program's small runs do not all have an order; this model's have.
#[test]
fn a_wrong_quorum_leaves_a_small_run_without_an_order() {
    let program = env!("CARGO_BIN_EXE_wrong-quorum-run");
    let (differ, without) = small_quorum_runs(program, "wrong-quorum.records", 0..300);
    assert!(differ >= 20 && without >= 10, "{differ}, {without}");
}

#[test]
fn a_program_that_prints_nothing_is_found() {
    let run = compare("/bin/true", &["--files", "20", "--seed", "1"]);
    assert_eq!(run.status.code(), Some(1));
    assert!(text(&run).contains("difference on file "));
}

#[test]
fn a_program_that_is_not_there_is_an_error() {
    let run = compare("/no/such/program", &["--files", "2"]);
    assert_eq!(run.status.code(), Some(2));
}

fn compare_draws(draw: &str, run: &str, draws: &str) -> Output {
    let mut command = Command::new(env!("CARGO_BIN_EXE_compare-draws"));
    command.args([draw, run, "--draws", draws, "--seed", "5"]);
    command.output().unwrap()
}

#[test]
fn no_difference_with_its_own_draws() {
    let (draw, run) = (
        env!("CARGO_BIN_EXE_second-draw"),
        env!("CARGO_BIN_EXE_second-run"),
    );
    let compared = compare_draws(draw, run, "600");
    let text = text(&compared);
    assert_eq!(compared.status.code(), Some(0), "{text}");
    assert!(text.starts_with("seed 5\ncompared 600 draws (12 refused), "));
    let last = text.lines().last().unwrap();
    assert!(last.ends_with(" operations finished in them"), "{last}");
    assert!(!last.contains("lines of 0 runs") && !last.contains(" 0 operations"));
}

/// A drawing program that uses the lower bits, one that writes nothing, and a run
/// program that prints nothing.
#[test]
fn wrong_draws_and_wrong_lines_are_found() {
    let (draw, run) = (
        env!("CARGO_BIN_EXE_second-draw"),
        env!("CARGO_BIN_EXE_second-run"),
    );
    let wrong = env!("CARGO_BIN_EXE_wrong-draw");
    for (draw, run, about) in [
        (wrong, run, "difference on draw "),
        ("/bin/true", run, "difference on draw "),
        (draw, "/bin/true", "difference on run of draw "),
    ] {
        let compared = compare_draws(draw, run, "200");
        let text = text(&compared);
        assert_eq!(compared.status.code(), Some(1), "{draw} {run}: {text}");
        assert!(text.contains(about), "{draw} {run}: {text}");
    }
    let compared = compare_draws("/no/such/program", run, "200");
    assert_eq!(compared.status.code(), Some(2));
}

/// Bytes, refusals and usage of the drawing program, with their exit status.
#[test]
fn what_the_drawing_program_answers() {
    let answer = |words: &[&str]| {
        let mut command = Command::new(env!("CARGO_BIN_EXE_second-draw"));
        let output = command.args(words).output().unwrap();
        let error = String::from_utf8(output.stderr).unwrap();
        (output.status.code(), output.stdout, error)
    };
    let bytes = draw(7, 3, 4).unwrap();
    assert_eq!(answer(&["7", "3", "4"]), (Some(0), bytes, String::new()));
    let refused = |line: &str| (Some(1), vec![], String::from(line));
    assert_eq!(answer(&["7", "9", "7001"]), refused("no 2\n"));
    assert_eq!(answer(&["7", "3", "7001"]), refused("no 20\n"));
    for words in [&["7", "3"][..], &["4294967296", "3", "4"], &["7", "3", "x"]] {
        let (status, bytes, error) = answer(words);
        assert_eq!((status, bytes), (Some(2), vec![]));
        assert_eq!(error, "usage: second-draw SEED N STEPS\n");
    }
}

fn compare_shorten(program: &str, files: &str) -> Output {
    let mut command = Command::new(env!("CARGO_BIN_EXE_compare-shorten"));
    command.args([program, "--files", files, "--seed", "5"]);
    command.env("TMPDIR", env!("CARGO_TARGET_TMPDIR"));
    command.output().unwrap()
}

#[test]
fn no_difference_with_its_own_shortening() {
    let compared = compare_shorten(env!("CARGO_BIN_EXE_second-shorten"), "200");
    let text = text(&compared);
    assert_eq!(compared.status.code(), Some(0), "{text}");
    assert!(text.starts_with("seed 5\n"));
    for number in NUMBERS {
        assert!(
            text.contains(&format!("\nno {number} ")),
            "{number}\n{text}"
        );
    }
    let (_, refused) = text.split_once("not shortened").unwrap();
    for number in [1, 2, 14, 21, 22] {
        let line = format!("\nno {number} ");
        assert!(refused.contains(&line), "{number}\n{text}");
    }
    let last = text.lines().last().unwrap();
    assert!(last.starts_with("compared 200 files ("), "{last}");
    assert!(last.contains(" 0 differences; of "), "{last}");
}

/// A shortening program that makes one pass only, one that leaves all as it is, and
/// one that writes nothing.
#[test]
fn a_wrong_shortening_is_found() {
    for program in [env!("CARGO_BIN_EXE_wrong-shorten"), "/bin/cat", "/bin/true"] {
        let compared = compare_shorten(program, "200");
        let text = text(&compared);
        assert_eq!(compared.status.code(), Some(1), "{program}: {text}");
        assert!(text.contains("difference on file "), "{program}: {text}");
        let (_, kept) = text.trim_end().split_once("; see ").unwrap();
        assert!(fs::remove_file(kept).is_ok(), "{kept}");
    }
    let compared = compare_shorten("/no/such/program", "20");
    assert_eq!(compared.status.code(), Some(2));
}

/// Bytes and refusals of the shortening program, from a file and from standard
/// input, with their exit status.
#[test]
fn what_the_shortening_program_answers() {
    let folder = PathBuf::from(env!("CARGO_TARGET_TMPDIR"));
    let (run, start) = (folder.join("to-shorten.records"), folder.join("start"));
    fs::write(&run, file("start 2; read 5; remove 1; remove 2")).unwrap();
    fs::write(&start, file("start 2")).unwrap();
    let answer = |words: &[&Path], input: &Path| {
        let mut command = Command::new(env!("CARGO_BIN_EXE_second-shorten"));
        command.args(words).stdin(fs::File::open(input).unwrap());
        let output = command.output().unwrap();
        let error = String::from_utf8(output.stderr).unwrap();
        (output.status.code(), output.stdout, error)
    };
    let kept = (Some(0), file("start 2; remove 1; remove 2"), String::new());
    let refused = (Some(1), vec![], String::from("no 21\n"));
    for (path, expected) in [(&run, kept), (&start, refused)] {
        assert_eq!(answer(&[], path), expected);
        assert_eq!(answer(&[Path::new("-")], path), expected);
        assert_eq!(answer(&[path], &run), expected);
    }
    for words in [&[Path::new("/no/such/file")][..], &[&run, &start]] {
        let (status, bytes, error) = answer(words, &run);
        assert_eq!((status, bytes), (Some(2), vec![]));
        assert!(!error.is_empty());
    }
}
