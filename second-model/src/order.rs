//! Looks for an order of the operations of a run (document 01, "The run that
//! demand 3 speaks of"; document 02, Req 02 and Req 04) by trying all of them,
//! after Wing and Gong.
//!
//! Only operations count against its limit: a run may have any number of other
//! steps, such as the copies of a join.

use crate::model::{Age, Few, Objects, Step, Values};
use crate::records::{Reader, Record};
use std::collections::HashSet;

/// How an operation finished: the record's number, and values and age as its
/// line says.
#[derive(Clone, Copy, Debug, PartialEq, Eq)]
pub struct End {
    pub at: usize,
    pub values: Values,
    pub age: Age,
}

/// An operation as the steps and their answers show it. `begun` is a record's
/// number; `written` is a write's value and none for a read. Only a read of a
/// context has more than one object.
#[derive(Clone, Copy, Debug, PartialEq, Eq)]
pub struct Operation {
    pub objects: Objects,
    pub written: Option<u32>,
    pub begun: usize,
    pub finished: Option<End>,
}

/// The operations of a run, read from its records and the lines printed for
/// them. Nothing if a line is not of the printed form or names no operation.
pub fn history(input: &[u8], lines: &[u8]) -> Option<Vec<Operation>> {
    let lines = std::str::from_utf8(lines).ok()?;
    let mut operations: Vec<Operation> = Vec::new();
    for ((number, line), record) in (1..).zip(lines.lines()).zip(Reader::new(input)) {
        let fields: Vec<&str> = line.split(' ').collect();
        let finished = match fields[..] {
            [_, "no", _] => continue,
            [_, "ok", _, _, "-", "-", "-"] => None,
            [_, "ok", _, _, operation, values, age] => {
                let operation: usize = operation.parse().ok()?;
                Some((operation, end(number, values, age)?))
            }
            _ => return None,
        };
        match record {
            Ok(Record::Step(Step::Read { object })) => {
                operations.push(begun(number, Few::one(object), None));
            }
            Ok(Record::Step(Step::Context { objects })) => {
                operations.push(begun(number, objects, None));
            }
            Ok(Record::Step(Step::Write { object, value })) => {
                operations.push(begun(number, Few::one(object), Some(value)));
            }
            _ => {}
        }
        if let Some((operation, end)) = finished {
            let named = operations.get_mut(operation.checked_sub(1)?)?;
            named.finished = Some(end);
        }
    }
    Some(operations)
}

/// The last two fields of a line that names an operation.
fn end(at: usize, values: &str, age: &str) -> Option<End> {
    let mut ages = [Age::None, Age::Old, Age::New].into_iter();
    let values: Result<Values, _> = values.split(',').map(str::parse).collect();
    Some(End {
        at,
        values: values.ok()?,
        age: ages.find(|a| a.word() == age)?,
    })
}

/// "The k-th accepted begin starts operation k."
fn begun(number: usize, objects: Objects, written: Option<u32>) -> Operation {
    Operation {
        objects,
        written,
        begun: number,
        finished: None,
    }
}

/// A search under way: which operations are in the order so far (a bit each),
/// the order, and the points that are known to lead nowhere, each with the last
/// write of every operation's objects.
struct Search<'a> {
    operations: &'a [Operation],
    taken: u64,
    order: Vec<usize>,
    dead: HashSet<(u64, Vec<Option<usize>>)>,
}

/// An order (operation numbers from 1) that holds every finished operation and
/// perhaps unfinished ones, in which an operation that finished before another
/// began is earlier, and each finished read gives the value of the last
/// earlier write of its object, 0 if there is none; a read of a context gives
/// that for each of its objects, all at its one place in the order.
///
/// A read that finished `new` must have an earlier write of its object. One
/// that finished `old` went round a write of its object: one that began before
/// the read finished and is not earlier in the order.
pub fn find_order(operations: &[Operation]) -> Option<Vec<usize>> {
    assert!(operations.len() <= 64, "the search is for small runs");
    if !operations.iter().all(honest) {
        return None;
    }
    let mut search = Search {
        operations,
        taken: 0,
        order: Vec::new(),
        dead: HashSet::new(),
    };
    search.go_on().then_some(search.order)
}

/// A write finishes with its own value, a read with a value for each object;
/// only a read of one object has an age.
fn honest(operation: &Operation) -> bool {
    let Some(end) = operation.finished else {
        return true;
    };
    match (operation.written, operation.objects.count()) {
        (Some(written), _) => (end.values, end.age) == (Few::one(written), Age::None),
        (None, 1) => end.values.count() == 1,
        (None, count) => (end.values.count(), end.age) == (count, Age::None),
    }
}

impl Search<'_> {
    /// Completes the order if that can be done.
    fn go_on(&mut self) -> bool {
        if self.left().all(|(_, o)| o.finished.is_none()) {
            return true;
        }
        let point = (self.taken, self.last_writes());
        if self.dead.contains(&point) {
            return false;
        }
        for index in 0..self.operations.len() {
            if self.may_be_next(index) {
                self.taken |= 1 << index;
                self.order.push(index + 1);
                if self.go_on() {
                    return true;
                }
                self.order.pop();
                self.taken &= !(1 << index);
            }
        }
        self.dead.insert(point);
        false
    }

    /// The operations that are not yet in the order.
    fn left(&self) -> impl Iterator<Item = (usize, &Operation)> {
        let taken = self.taken;
        let all = self.operations.iter().enumerate();
        all.filter(move |(index, _)| taken >> index & 1 == 0)
    }

    /// Not yet taken, nothing left that finished before it began, and if it is
    /// a read, finished, with the values that stand now, and of fitting age.
    fn may_be_next(&self, index: usize) -> bool {
        let next = &self.operations[index];
        let before = |o: &Operation| o.finished.is_some_and(|end| end.at < next.begun);
        if self.taken >> index & 1 == 1 || self.left().any(|(_, o)| before(o)) {
            return false;
        }
        match (next.written, next.finished) {
            (Some(_), _) => true,
            (None, Some(end)) => {
                let standing = next.objects.each().map(|o| self.standing(o));
                standing.eq(end.values.each()) && self.age_fits(next.objects, end)
            }
            (None, None) => false,
        }
    }

    /// Does a read of these objects that ended so have the age of one that comes
    /// next in the order? Only a read of one object is old or new.
    fn age_fits(&self, objects: Objects, end: End) -> bool {
        let round = |o: &Operation| o.written.is_some() && o.objects == objects && o.begun < end.at;
        match end.age {
            Age::None => true,
            Age::Old => self.left().any(|(_, o)| round(o)),
            Age::New => objects.each().all(|o| self.last_write(o).is_some()),
        }
    }

    /// The last write of an object in the order so far.
    fn last_write(&self, object: u16) -> Option<usize> {
        let ours = |&&number: &&usize| {
            let operation = &self.operations[number - 1];
            operation.written.is_some() && operation.objects == Few::one(object)
        };
        self.order.iter().rev().find(ours).copied()
    }

    /// The last write for each of every operation's objects.
    fn last_writes(&self) -> Vec<Option<usize>> {
        let objects = self.operations.iter().flat_map(|o| o.objects.each());
        objects.map(|object| self.last_write(object)).collect()
    }

    /// The value of an object after the order so far.
    fn standing(&self, object: u16) -> u32 {
        let write = self.last_write(object);
        let value = write.and_then(|number| self.operations[number - 1].written);
        value.unwrap_or(0)
    }
}

#[cfg(test)]
mod tests {
    use super::*;
    use crate::run::output;
    use crate::words::file;

    fn write(object: u16, value: u32, begun: usize, at: Option<usize>) -> Operation {
        Operation {
            objects: Few::one(object),
            written: Some(value),
            begun,
            finished: at.map(|at| End {
                at,
                values: Few::one(value),
                age: Age::None,
            }),
        }
    }

    fn read(object: u16, value: u32, begun: usize, at: usize) -> Operation {
        aged(Age::None, object, value, begun, at)
    }

    fn aged(age: Age, object: u16, value: u32, begun: usize, at: usize) -> Operation {
        Operation {
            objects: Few::one(object),
            written: None,
            begun,
            finished: Some(End {
                at,
                values: Few::one(value),
                age,
            }),
        }
    }

    /// A read of a context.
    fn context(objects: &[u16], values: &[u32], begun: usize, at: usize) -> Operation {
        Operation {
            objects: Few::new(objects),
            written: None,
            begun,
            finished: Some(End {
                at,
                values: Few::new(values),
                age: Age::None,
            }),
        }
    }

    #[test]
    fn nothing_at_all_has_an_order() {
        assert_eq!(find_order(&[]), Some(vec![]));
    }

    #[test]
    fn a_stale_read_has_none() {
        let old = [write(5, 9, 2, Some(6)), read(5, 0, 8, 11)];
        assert_eq!(find_order(&old), None);
        let new = [write(5, 9, 2, Some(6)), read(5, 9, 8, 11)];
        assert_eq!(find_order(&new), Some(vec![1, 2]));
        let between = [write(5, 9, 2, Some(9)), read(5, 0, 8, 11)];
        assert_eq!(find_order(&between), Some(vec![2, 1]));
    }

    #[test]
    fn two_reads_may_not_see_new_then_old() {
        let open = write(1, 7, 2, None);
        let back = [open, read(1, 7, 3, 4), read(1, 0, 5, 6)];
        assert_eq!(find_order(&back), None);
        let forth = [open, read(1, 0, 3, 4), read(1, 7, 5, 6)];
        assert_eq!(find_order(&forth), Some(vec![2, 1, 3]));
    }

    #[test]
    fn an_unfinished_write_need_not_take_effect() {
        let lost = [write(1, 7, 2, None), read(1, 0, 3, 4), read(1, 0, 5, 6)];
        assert_eq!(find_order(&lost), Some(vec![2, 3]));
    }

    #[test]
    fn a_write_has_no_effect_before_its_begin() {
        let early = [read(1, 7, 2, 3), write(1, 7, 4, Some(5))];
        assert_eq!(find_order(&early), None);
        let unfinished = [read(1, 7, 2, 3), write(1, 7, 4, None)];
        assert_eq!(find_order(&unfinished), None);
    }

    #[test]
    fn a_read_of_a_value_never_written_has_none() {
        assert_eq!(find_order(&[read(3, 1, 2, 3)]), None);
        let other = [write(4, 1, 2, Some(3)), read(3, 1, 4, 5)];
        assert_eq!(find_order(&other), None);
    }

    #[test]
    fn a_write_must_finish_with_its_own_value() {
        let end = |values: &[u32], age| End {
            at: 3,
            values: Few::new(values),
            age,
        };
        let mut wrong = write(3, 1, 2, Some(3));
        for end in [
            end(&[2], Age::None),
            end(&[1], Age::New),
            end(&[1, 1], Age::None),
        ] {
            wrong.finished = Some(end);
            assert_eq!(find_order(&[wrong]), None);
        }
    }

    #[test]
    fn a_new_read_has_a_write_before_it() {
        let new = aged(Age::New, 1, 0, 3, 6);
        assert_eq!(find_order(&[new]), None);
        assert_eq!(find_order(&[write(2, 0, 2, None), new]), None);
        assert_eq!(find_order(&[write(1, 0, 2, None), new]), Some(vec![1, 2]));
        let late = write(1, 0, 7, Some(8));
        assert_eq!(find_order(&[new, late]), None);
    }

    #[test]
    fn an_old_read_has_a_write_that_is_not_before_it() {
        let old = aged(Age::Old, 1, 0, 3, 6);
        assert_eq!(find_order(&[old]), None);
        assert_eq!(find_order(&[write(2, 7, 2, None), old]), None);
        assert_eq!(find_order(&[write(1, 7, 2, None), old]), Some(vec![2]));
        assert_eq!(
            find_order(&[write(1, 7, 2, Some(5)), old]),
            Some(vec![2, 1])
        );
        let (finished, late) = (write(1, 0, 1, Some(2)), write(1, 7, 7, Some(8)));
        assert_eq!(find_order(&[finished, old]), None, "came before");
        assert_eq!(find_order(&[old, late]), None, "began after");
    }

    #[test]
    fn two_readers_must_agree_on_two_writes() {
        let writes = [write(1, 7, 2, Some(90)), write(1, 8, 3, Some(91))];
        let agree = [read(1, 7, 4, 5), read(1, 8, 6, 7), read(1, 8, 8, 9)];
        assert!(find_order(&[&writes[..], &agree[..]].concat()).is_some());
        let differ = [read(1, 7, 4, 5), read(1, 8, 6, 7), read(1, 7, 8, 9)];
        assert_eq!(find_order(&[&writes[..], &differ[..]].concat()), None);
    }

    /// Objects 1 and 2 are written one after the other, 7 and then 8. The pair
    /// 0,8 stands at no point.
    #[test]
    fn a_context_whose_pair_stands_at_no_point_has_no_order() {
        let writes = [write(1, 7, 2, Some(3)), write(2, 8, 4, Some(5))];
        let with = |values: &[u32]| {
            let read = context(&[1, 2], values, 1, 9);
            find_order(&[read, writes[0], writes[1]])
        };
        assert_eq!(with(&[0, 0]), Some(vec![1, 2, 3]));
        assert_eq!(with(&[7, 0]), Some(vec![2, 1, 3]));
        assert_eq!(with(&[7, 8]), Some(vec![2, 3, 1]));
        assert_eq!(with(&[0, 8]), None);
        assert_eq!(with(&[8, 7]), None, "not in the order given");
    }

    /// The values of two single reads may stand at two points, those of one read
    /// of both objects may not.
    #[test]
    fn two_single_reads_have_an_order_where_a_context_has_none() {
        let writes = [write(1, 7, 2, Some(3)), write(2, 8, 4, Some(5))];
        let single = [read(1, 0, 1, 9), read(2, 8, 1, 9)];
        let both = [context(&[1, 2], &[0, 8], 1, 9)];
        assert!(find_order(&[&writes[..], &single[..]].concat()).is_some());
        assert_eq!(find_order(&[&writes[..], &both[..]].concat()), None);
    }

    /// Two contexts, all writes open: one has seen the write of object 1 only,
    /// the other that of object 2 only.
    #[test]
    fn two_contexts_must_agree_on_two_writes() {
        let writes = [write(1, 7, 2, None), write(2, 8, 2, None)];
        let first = context(&[1, 2], &[7, 0], 3, 9);
        let swapped = context(&[2, 1], &[8, 0], 3, 9);
        let later = context(&[2, 1], &[8, 7], 3, 9);
        let order = |reads: &[Operation]| find_order(&[&writes[..], reads].concat());
        assert_eq!(order(&[first, later]), Some(vec![1, 3, 2, 4]));
        assert_eq!(order(&[first]), Some(vec![1, 3]));
        assert_eq!(order(&[swapped]), Some(vec![2, 3]));
        assert_eq!(order(&[first, swapped]), None);
    }

    #[test]
    fn a_context_has_a_value_for_each_object_and_no_age() {
        let sound = context(&[1, 2], &[0, 0], 2, 3);
        assert_eq!(find_order(&[sound]), Some(vec![1]));
        assert_eq!(find_order(&[context(&[1, 2], &[0], 2, 3)]), None);
        assert_eq!(find_order(&[context(&[1, 2], &[0; 3], 2, 3)]), None);
        assert_eq!(find_order(&[context(&[1], &[0; 2], 2, 3)]), None);
        let eight = [1, 2, 3, 4, 5, 6, 7, 8];
        assert_eq!(find_order(&[context(&eight, &[0; 9], 2, 3)]), None);
        for age in [Age::Old, Age::New] {
            let mut aged = sound;
            aged.finished = aged.finished.map(|end| End { age, ..end });
            let writes = [write(1, 0, 1, None), write(2, 0, 1, None)];
            assert_eq!(find_order(&[writes[0], writes[1], aged]), None);
        }
    }

    #[test]
    fn the_history_of_a_context() {
        let input = file("start 1; write 6 9; 4 * deliver 0; read 5 5; read 6 5; 3 * deliver 0");
        let operations = history(&input, &output(&input)).unwrap();
        let read = context(&[6, 5], &[9, 0], 8, 11);
        assert_eq!(operations, [write(6, 9, 2, Some(5)), read]);
        assert_eq!(find_order(&operations), Some(vec![1, 2]));
    }

    /// A write during a join that the newcomer hears of, and reads before and
    /// after it becomes the tail, the latter with the other replica gone. The
    /// steps of the join are no operations.
    #[test]
    fn the_history_of_a_run_with_a_join() {
        let input = file(
            "start 1; join; copy; read 5; 3 * deliver 0; write 5 9; 4 * deliver 0; 15 * copy; \
             remove 1; read 5; 3 * deliver 0",
        );
        let operations = history(&input, &output(&input)).unwrap();
        let before = read(5, 0, 4, 7);
        let after = |value| read(5, value, 29, 32);
        let write = write(5, 9, 8, Some(11));
        assert_eq!(operations, [before, write, after(9)]);
        assert_eq!(find_order(&operations), Some(vec![1, 2, 3]));
        let missed = [before, write, after(0)];
        assert_eq!(find_order(&missed), None, "the newcomer missed the write");
    }

    /// 64 operations and several hundred copies.
    #[test]
    fn copies_do_not_count_against_the_limit() {
        let input = file("start 1; 7 * (join; 16 * copy); 64 * (read 5; 3 * deliver 0; copy)");
        let operations = history(&input, &output(&input)).unwrap();
        assert_eq!(operations.len(), 64);
        assert_eq!(find_order(&operations), Some((1..=64).collect()));
    }

    #[test]
    fn the_history_of_the_listing() {
        let input = file(
            "start 2; write 5 9; 2 * deliver 0; advance 2; 2 * deliver 0; \
             read 5; read 1024; 3 * deliver 0; give up 2",
        );
        let operations = history(&input, &output(&input)).unwrap();
        assert_eq!(operations.len(), 2);
        assert_eq!(operations[0], write(5, 9, 2, Some(6)));
        assert_eq!(operations[1], read(5, 9, 8, 12));
    }

    #[test]
    fn the_history_of_an_old_read() {
        let input = file("start 2; write 5 9; deliver 0; read 5; 3 * deliver 1");
        let operations = history(&input, &output(&input)).unwrap();
        let old = aged(Age::Old, 5, 0, 4, 7);
        assert_eq!(operations, [write(5, 9, 2, None), old]);
    }

    #[test]
    fn lines_of_another_form_give_no_history() {
        let input = file("start 2; write 5 9");
        let second = |line: &str| format!("1 ok 0 0 - - -\n2 {line}\n").into_bytes();
        assert!(history(&input, &second("ok 1 0 - - -")).is_some());
        assert!(history(&input, &second("ok 1 0 1 9 old")).is_some());
        assert!(history(&input, &second("ok 1 0 1 9,8 -")).is_some());
        let others = [
            "ok",
            "ok 1 0 - -",
            "ok 1 0 7 9 -",
            "ok 1 0 1 9 odd",
            "ok 1 0 1 9, -",
            "ok 1 0 1 ,9 -",
            "ok 1 0 1 9;8 -",
            "no",
        ];
        for line in others {
            assert_eq!(history(&input, &second(line)), None, "{line}");
        }
    }
}
