//! Makes a file shorter on which two programs differ.

use crate::records::pieces;
use crate::run::walk;
use std::io;

/// The most runs that shortening makes, some twenty seconds.
const MOST_TRIES: usize = 6000;

/// The records of a file.
type Records = Vec<Vec<u8>>;

/// A file being made shorter, and how to find out whether a shorter one will do.
struct Shortening<F> {
    kept: Records,
    tries: usize,
    differs: F,
}

/// Takes records out of a file while `differs` still holds: first all after
/// the first difference, then joins with their copies, then pieces from half of
/// the file down to one record, as long as there are tries left.
pub fn shorten(
    input: &[u8],
    first: usize,
    mut differs: impl FnMut(&[u8]) -> io::Result<bool>,
) -> io::Result<Vec<u8>> {
    let mut kept: Records = pieces(input).into_iter().map(<[u8]>::to_vec).collect();
    if first < kept.len() && differs(&kept[..first].concat())? {
        kept.truncate(first);
    }
    let mut shortening = Shortening {
        kept,
        tries: 0,
        differs,
    };
    shortening.drop_joins()?;
    shortening.drop_pieces()?;
    Ok(shortening.kept.concat())
}

impl<F: FnMut(&[u8]) -> io::Result<bool>> Shortening<F> {
    /// Leaves out some records if the rest still differs; says whether it does.
    fn drop(&mut self, dropped: impl Fn(usize) -> bool) -> io::Result<bool> {
        self.tries += 1;
        let rest = without(&self.kept, dropped);
        let differs = (self.differs)(&rest.concat())?;
        if differs {
            self.kept = rest;
        }
        Ok(differs)
    }

    /// Leaves out joins, each with the copies up to the next one, the last join
    /// first.
    fn drop_joins(&mut self) -> io::Result<()> {
        let mut before = self.kept.len();
        while let Some(join) = self.kept[..before].iter().rposition(|p| p[0] == 12) {
            if self.tries == MOST_TRIES {
                break;
            }
            let tags: Vec<u8> = self.kept.iter().map(|p| p[0]).collect();
            let later = tags[join + 1..].iter().position(|&tag| tag == 12);
            let next = later.map_or(tags.len(), |place| join + 1 + place);
            let copies = |index| (join..next).contains(&index) && tags[index] == 13;
            self.drop(|index| index == join || copies(index))?;
            before = join;
        }
        Ok(())
    }

    /// Leaves out records that stand together.
    fn drop_pieces(&mut self) -> io::Result<()> {
        let mut size = self.kept.len().div_ceil(2).max(1);
        loop {
            let before = self.kept.len();
            let mut place = 0;
            while place < self.kept.len() && self.tries < MOST_TRIES {
                let end = self.kept.len().min(place + size);
                if !self.drop(|index| (place..end).contains(&index))? {
                    place = end;
                }
            }
            match (size, self.kept.len() < before) {
                (1, false) => return Ok(()),
                _ if self.tries >= MOST_TRIES => return Ok(()),
                (1, true) => {}
                _ => size = size.div_ceil(2),
            }
        }
    }
}

/// The records without some of them. With an accepted join the steps that name
/// its newcomer go too, and higher numbers come down, so that the other steps
/// are about the same replicas as before.
fn without(records: &Records, dropped: impl Fn(usize) -> bool) -> Records {
    let numbers = numbers_given(records);
    let gone = (0..records.len()).filter(|&index| dropped(index));
    let gone: Vec<u8> = gone.filter_map(|index| numbers[index]).collect();
    let rest = (0..records.len()).filter(|&index| !dropped(index));
    rest.filter_map(|index| renumbered(&records[index], &gone))
        .collect()
}

/// The number that each record gives to a newcomer, if it is a join that is
/// accepted.
fn numbers_given(records: &Records) -> Vec<Option<u8>> {
    let mut numbers = vec![None; records.len()];
    if records.iter().all(|record| record[0] != 12) {
        return numbers;
    }
    let mut last = records[0].last().copied();
    walk(&records.concat(), |line, outcome| {
        let index = line.wrapping_sub(1);
        if outcome.is_ok() && records.get(index).is_some_and(|r| r[0] == 12) {
            last = last.and_then(|last| last.checked_add(1));
            numbers[index] = last;
        }
    });
    numbers
}

/// A record as it is with these numbers not given; none if it names one.
fn renumbered(record: &[u8], gone: &[u8]) -> Option<Vec<u8>> {
    let &[tag @ (6 | 8 | 9), 0, 1, name] = record else {
        return Some(record.to_vec());
    };
    let below = gone.iter().filter(|&&number| number < name).count();
    (!gone.contains(&name)).then(|| vec![tag, 0, 1, name - below as u8])
}

#[cfg(test)]
mod tests {
    use super::super::first_difference;
    use super::*;
    use crate::run::output;
    use crate::words;

    /// A wrong program in which refusal 13 is printed as 12: what is left is a
    /// start and one give-up.
    #[test]
    fn shortening_leaves_what_is_needed() {
        let input = words::file(
            "start 3; write 5 9; 2 * deliver 0; advance 2; advance 3; give up 7; \
             2 * deliver 0; give up 1; read 5; 3 * deliver 0",
        );
        let wrong = |bytes: &[u8]| {
            let text = String::from_utf8(output(bytes)).unwrap();
            text.replace("no 13", "no 12").into_bytes()
        };
        let first = first_difference(&output(&input), &wrong(&input));
        assert_eq!(first, 7);
        let short = shorten(&input, first, |b| Ok(output(b) != wrong(b))).unwrap();
        assert_eq!(short, words::file("start 3; give up 7"));
    }

    /// A wrong program that takes 255 for 9 where a replica is not live: of three
    /// joins none is needed, and the number named comes down with them.
    #[test]
    fn joins_are_taken_out_with_their_copies() {
        let input = words::file(
            "start 2; join; 16 * copy; join; 3 * copy; read 5; remove 3; join; copy; remove 1; \
             15 * copy; tell 5; remove 2; remove 9",
        );
        let wrong = |bytes: &[u8]| {
            let text = String::from_utf8(output(bytes)).unwrap();
            text.replace("no 9", "no 255").into_bytes()
        };
        let first = first_difference(&output(&input), &wrong(&input));
        assert_eq!(first, 45, "the last record");
        let short = shorten(&input, first, |b| Ok(output(b) != wrong(b))).unwrap();
        assert_eq!(short, words::file("start 2; remove 6"));
    }

    #[test]
    fn numbers_come_down_and_newcomers_gone_are_not_named() {
        let records = |words: &str| -> Records {
            let file = words::file(words);
            pieces(&file).into_iter().map(<[u8]>::to_vec).collect()
        };
        let all = records(
            "start 2; join; join; 16 * copy; tell 3; join; remove 3; join; 16 * copy; \
             tell 5; advance 5; tell 4; tell 2; read 5",
        );
        let numbers: Vec<u8> = numbers_given(&all).into_iter().flatten().collect();
        assert_eq!(numbers, [3, 4, 5], "a refused join has none");
        let rest = without(&all, |index| index == 20);
        let expected = records(
            "start 2; join; join; 16 * copy; tell 3; remove 3; join; 16 * copy; \
             tell 4; advance 4; tell 2; read 5",
        );
        assert_eq!(rest, expected);
    }
}
