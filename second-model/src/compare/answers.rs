//! What a command answers with, beside what it should: the bytes of a record file
//! on standard output, or a refusal on standard error.

use crate::model::Refusal;
use std::process::Output;

/// How an answer differs from the one expected, in words; none if it does not. The
/// exit status is not looked at, and where bytes are expected neither is standard
/// error.
pub fn differing(expected: &Result<Vec<u8>, Refusal>, output: &Output) -> Option<String> {
    match expected {
        Ok(bytes) if output.stdout == *bytes => None,
        Ok(bytes) => Some(differing_bytes(bytes, &output.stdout)),
        Err(refusal) => {
            let line = format!("no {}\n", refusal.number());
            let same = output.stdout.is_empty() && output.stderr == line.as_bytes();
            (!same).then(|| {
                format!(
                    "expected {line:?} alone on standard error, not {:?} and {} bytes on \
                     standard output",
                    String::from_utf8_lossy(&output.stderr),
                    output.stdout.len()
                )
            })
        }
    }
}

/// Where two unequal files differ first.
fn differing_bytes(ours: &[u8], theirs: &[u8]) -> String {
    let place = ours.iter().zip(theirs).take_while(|(a, b)| a == b).count();
    let byte = |file: &[u8]| match file.get(place) {
        Some(byte) => byte.to_string(),
        None => String::from("the end"),
    };
    format!(
        "byte {place} is {} and not {} ({} bytes, and {} expected)",
        byte(theirs),
        byte(ours),
        theirs.len(),
        ours.len()
    )
}

#[cfg(test)]
mod tests {
    use super::*;
    use std::process::ExitStatus;

    fn output(stdout: &[u8], stderr: &[u8]) -> Output {
        Output {
            status: ExitStatus::default(),
            stdout: stdout.to_vec(),
            stderr: stderr.to_vec(),
        }
    }

    #[test]
    fn bytes_are_compared() {
        let expected = Ok(vec![32, 0, 1, 3]);
        assert_eq!(differing(&expected, &output(&[32, 0, 1, 3], b"")), None);
        let other = differing(&expected, &output(&[32, 0, 2, 3], b"")).unwrap();
        assert_eq!(other, "byte 2 is 2 and not 1 (4 bytes, and 4 expected)");
        let short = differing(&expected, &output(&[32, 0], b"no 2\n")).unwrap();
        assert!(short.starts_with("byte 2 is the end and not 1 "));
        let long = differing(&expected, &output(&[32, 0, 1, 3, 9], b"")).unwrap();
        assert!(long.starts_with("byte 4 is 9 and not the end "));
    }

    #[test]
    fn a_refusal_stands_alone() {
        let expected = Err(Refusal::TooManySteps);
        assert_eq!(differing(&expected, &output(b"", b"no 20\n")), None);
        for (stdout, stderr) in [
            (&b""[..], &b"no 2\n"[..]),
            (b"", b""),
            (b"", b"no 20"),
            (b"", b"x\nno 20\n"),
            (b" ", b"no 20\n"),
            (b"no 20\n", b""),
        ] {
            assert!(differing(&expected, &output(stdout, stderr)).is_some());
        }
    }
}
