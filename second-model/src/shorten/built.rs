//! A run built to take many passes and steps to shorten.
//!
//! It has blocks of repeats of one packet, and then of losses, one fewer, of what
//! they have put at the end. The last record is a repeat that meets the last of two
//! unstamped writes. With a loss less it meets the first of them, and with a repeat
//! less as well the last again; with one more of either gone it meets another packet
//! or none. So each pass drops one loss and one repeat of the last block.
//!
//! Behind each other block stand a write, a read and the delivery of that write. With
//! a loss or a repeat less in the block before it another packet is delivered, and
//! the write stands where the next block's repeats take their copies, or nothing
//! does: they are refused. So a block is held fast until the next one is used up.

use crate::model::{Start, Step};
use crate::records::{append, Record};

/// The losses of each block of the worst run known.
pub const WORST: [u16; 5] = [53, 50, 51, 51, 40];

/// The run with so many losses in each block, for one replica.
pub fn built(losses: &[u16]) -> Vec<u8> {
    let read = Step::Read { object: 0 };
    let write = Step::Write {
        object: 0,
        value: 1,
    };
    let mut steps = vec![read];
    let (mut copied, mut waiting) = (0, 1);
    for (block, &losses) in losses.iter().enumerate() {
        if block > 0 {
            let deliver = Step::Deliver {
                position: waiting,
                choice: 0,
            };
            steps.extend([write, read, deliver]);
            (copied, waiting) = (waiting, waiting + 2);
        }
        let repeat = Step::Repeat { position: copied };
        let lose = Step::Lose {
            position: copied + 1,
        };
        steps.extend((0..=losses).map(|_| repeat));
        steps.extend((0..losses).map(|_| lose));
        waiting += 1;
    }
    let position = waiting + 1;
    steps.extend([write, write, Step::Repeat { position }]);
    let mut file = Vec::new();
    append(Record::Start(Start::Chain { replicas: 1 }), &mut file);
    for step in steps {
        append(Record::Step(step), &mut file);
    }
    file
}

#[cfg(test)]
mod tests {
    use super::*;
    use crate::records::pieces;
    use crate::shorten::{shorten_by, Shortening, Work};
    use crate::words::file;

    fn work(file: &[u8]) -> Work {
        let shortened = shorten_by(file, Shortening::passes);
        shortened.unwrap().1
    }

    #[test]
    fn a_small_one_in_words() {
        let words = "start 1; read 0; 3 * repeat 0; 2 * lose 1; write 0 1; read 0; deliver 2; \
                     4 * repeat 2; 3 * lose 3; write 0 1; write 0 1; repeat 6";
        assert_eq!(built(&[2, 3]), file(words));
    }

    /// One pass for each loss of one block or of two, and the last, which drops none.
    #[test]
    fn a_pass_for_each_loss() {
        for losses in [1, 5, 20, 60] {
            assert_eq!(work(&built(&[losses])).passes, usize::from(losses) + 1);
        }
        let passes = work(&built(&[20, 20])).passes;
        assert!((39..=41).contains(&passes), "{passes}");
    }

    /// The stored one, with the figures that the README has.
    #[test]
    fn the_worst_known() {
        let stored = include_bytes!("../../worst-shorten.records");
        assert_eq!(built(&WORST), stored);
        assert_eq!(pieces(stored).len(), 512);
        let figures = Work {
            passes: 191,
            trials: 57_756,
            steps: 20_798_545,
        };
        assert_eq!(work(stored), figures);
    }
}
