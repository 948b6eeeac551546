//! The switch and its marks (document 01, "The marks (dirty set)"; document 02,
//! Req 01, Req 07 and Req 10).

use super::Stamp;

/// Slots in one stage: "three stages of 16 slots".
const STAGE: usize = 16;
/// Slots in all three stages.
const SLOTS: usize = 3 * STAGE;

/// Switch: number, counter, last-committed stamp, direct-reads sign, marks.
///
/// A slot that holds nothing has no holder and the stamp (0,0), which is never
/// above last-committed and so never counts.
pub(super) struct Switch {
    pub number: u16,
    pub committed: Stamp,
    pub direct_reads: bool,
    counter: u32,
    holders: [Option<u16>; SLOTS],
    stamps: [Stamp; SLOTS],
}

/// The three slots of an object: o mod 16, (o div 16) mod 16, o div 64.
fn slots_of(object: u16) -> [usize; 3] {
    let o = usize::from(object);
    [o % 16, STAGE + (o / 16) % 16, 2 * STAGE + (o / 64) % 16]
}

impl Switch {
    /// A switch with this number: counter 0, last-committed (0,0), no marks,
    /// direct reads off (start and tag 7).
    pub fn new(number: u16) -> Self {
        Switch {
            number,
            committed: Stamp::ZERO,
            direct_reads: false,
            counter: 0,
            holders: [None; SLOTS],
            stamps: [Stamp::ZERO; SLOTS],
        }
    }

    /// "A mark counts while its stamp is above the last-committed stamp."
    fn counts(&self, slot: usize) -> bool {
        self.stamps[slot] > self.committed
    }

    /// Raises the counter and marks the object with the new stamp; with no
    /// slot for it nothing changes and there is no stamp ("the write is
    /// dropped and the counter does not move").
    pub fn mark(&mut self, object: u16) -> Option<Stamp> {
        let counter = self.counter.checked_add(1)?;
        let slots = slots_of(object);
        let held = slots.iter().find(|&&s| self.holders[s] == Some(object));
        let slot = *held.or_else(|| slots.iter().find(|&&s| !self.counts(s)))?;
        let stamp = Stamp::new(self.number, counter);
        self.counter = counter;
        self.holders[slot] = Some(object);
        self.stamps[slot] = stamp;
        Some(stamp)
    }

    /// "Looking up a mark now gives its stamp": that of the object's counting
    /// mark, first stage first; none if it has no mark that counts.
    pub fn counting_mark(&self, object: u16) -> Option<Stamp> {
        let slots = slots_of(object);
        let ours = |&&s: &&usize| self.holders[s] == Some(object) && self.counts(s);
        slots.iter().find(ours).map(|&s| self.stamps[s])
    }

    /// "Completion, to the switch": clears the object's marks not above the
    /// stamp and raises last-committed; turns direct reads on "only if its stamp
    /// bears the present switch's number" (Req 10), and never off.
    pub fn complete(&mut self, object: u16, stamp: Stamp) {
        for slot in slots_of(object) {
            if self.holders[slot] == Some(object) && self.stamps[slot] <= stamp {
                self.holders[slot] = None;
                self.stamps[slot] = Stamp::ZERO;
            }
        }
        self.committed = self.committed.max(stamp);
        self.direct_reads |= stamp.switch() == self.number;
    }

    /// The counter of the last stamp given, 0 if none.
    pub fn counter(&self) -> u32 {
        self.counter
    }

    /// Puts the counter somewhere, for tests only.
    #[cfg(test)]
    pub fn set_counter_for_tests(&mut self, counter: u32) {
        self.counter = counter;
    }

    /// The number of counting marks, "counted over the slots".
    pub fn counting(&self) -> usize {
        let above = self.stamps.iter().filter(|&&s| s > self.committed);
        above.count()
    }
}

#[cfg(test)]
mod tests {
    use super::*;

    fn marked(objects: &[u16]) -> Switch {
        let mut switch = Switch::new(1);
        for &object in objects {
            assert!(switch.mark(object).is_some());
        }
        switch
    }

    #[test]
    fn slots_follow_the_three_divisions() {
        assert_eq!(slots_of(0), [0, 16, 32]);
        assert_eq!(slots_of(256), [0, 16, 36]);
        assert_eq!(slots_of(1023), [15, 31, 47]);
        assert_eq!(slots_of(273), [1, 17, 36]);
    }

    #[test]
    fn p4_and_p5() {
        let mut switch = marked(&[16, 512, 32, 17, 33]);
        assert_eq!(switch.mark(0), None);
        assert_eq!((switch.counter, switch.counting()), (5, 5));
        assert_eq!(switch.mark(256), Some(Stamp::new(1, 6)));
        assert_eq!(switch.holders[36], Some(256));
        assert_eq!(switch.counting(), 6);
    }

    #[test]
    fn p7_a_lower_completion_leaves_the_mark() {
        let mut switch = marked(&[5, 5, 5, 5]);
        switch.complete(5, Stamp::new(1, 3));
        assert_eq!(switch.counting_mark(5), Some(Stamp::new(1, 4)));
        assert_eq!(switch.counting(), 1);
        assert_eq!(switch.holders[5], Some(5));
    }

    #[test]
    fn p8_another_completion_overtakes_the_mark() {
        let mut switch = marked(&[1, 2, 3, 5, 6, 7, 9]);
        switch.complete(9, Stamp::new(1, 7));
        assert_eq!(switch.counting_mark(5), None);
        assert_eq!(switch.counting(), 0);
        assert_eq!(switch.holders[5], Some(5), "overtaken, yet still there");
        assert_eq!(switch.holders[9], None, "cleared");
    }

    #[test]
    fn an_overtaken_mark_is_found_before_an_earlier_free_slot() {
        let mut switch = marked(&[16, 512, 5]);
        switch.complete(5, Stamp::new(1, 3));
        assert_eq!(switch.mark(512), Some(Stamp::new(1, 4)));
        assert_eq!(switch.holders[0], Some(16));
        assert_eq!(switch.holders[16], Some(512));
        assert_eq!(switch.stamps[16], Stamp::new(1, 4));
    }

    #[test]
    fn a_free_slot_with_another_object_is_taken_over() {
        let mut switch = marked(&[16, 5]);
        switch.complete(5, Stamp::new(1, 2));
        assert_eq!(switch.mark(32), Some(Stamp::new(1, 3)));
        assert_eq!(switch.holders[0], Some(32));
        assert_eq!(switch.counting_mark(16), None);
    }

    #[test]
    fn a_completion_also_empties_an_overtaken_mark() {
        let mut switch = marked(&[16, 5]);
        switch.complete(5, Stamp::new(1, 2));
        switch.complete(16, Stamp::new(1, 1));
        assert_eq!(switch.holders[0], None);
        assert_eq!(switch.committed, Stamp::new(1, 2));
    }

    #[test]
    fn a_former_switch_s_completion_leaves_direct_reads_off() {
        let mut switch = Switch::new(2);
        switch.mark(5);
        switch.complete(5, Stamp::new(1, 9));
        assert_eq!(switch.committed, Stamp::new(1, 9));
        assert!(!switch.direct_reads);
        assert_eq!(switch.counting_mark(5), Some(Stamp::new(2, 1)));
        switch.complete(5, Stamp::new(2, 1));
        assert_eq!(switch.committed, Stamp::new(2, 1));
        assert!(switch.direct_reads);
        assert_eq!((switch.counting_mark(5), switch.holders[5]), (None, None));
    }

    #[test]
    fn a_former_switch_s_completion_leaves_direct_reads_on() {
        let mut switch = Switch::new(2);
        switch.mark(5);
        switch.complete(5, Stamp::new(2, 1));
        switch.complete(6, Stamp::new(1, 9));
        assert!(switch.direct_reads);
        assert_eq!(switch.committed, Stamp::new(2, 1));
    }

    /// No run gets there: a mark that is not above a former switch's completion is
    /// cleared by it, others of that object or of another one stay, and whether
    /// they count follows last-committed.
    #[test]
    fn a_former_switch_s_completion_clears_marks_and_raises_last_committed() {
        let mut switch = marked(&[5, 6, 7, 7]);
        switch.number = 3;
        switch.complete(5, Stamp::new(1, 1));
        assert_eq!((switch.holders[5], switch.counting()), (None, 2));
        assert_eq!(switch.committed, Stamp::new(1, 1));
        switch.complete(7, Stamp::new(1, 3));
        assert_eq!((switch.holders[7], switch.counting()), (Some(7), 1));
        assert_eq!(switch.counting_mark(6), None, "overtaken");
        switch.complete(7, Stamp::new(2, 0));
        assert_eq!((switch.holders[7], switch.counting()), (None, 0));
        assert_eq!(switch.committed, Stamp::new(2, 0));
        assert!(!switch.direct_reads);
    }

    /// A number above the present one is no more the present one's.
    #[test]
    fn a_later_switch_s_completion_leaves_direct_reads_off() {
        let mut switch = Switch::new(2);
        switch.complete(5, Stamp::new(3, 1));
        assert!(!switch.direct_reads);
        assert_eq!(switch.committed, Stamp::new(3, 1));
    }

    #[test]
    fn looking_up_gives_the_stamp_in_each_stage() {
        let mut switch = marked(&[16, 512, 256]);
        assert_eq!(switch.holders[0], Some(16));
        assert_eq!(switch.holders[16], Some(512));
        assert_eq!(switch.holders[36], Some(256));
        assert_eq!(switch.counting_mark(16), Some(Stamp::new(1, 1)));
        assert_eq!(switch.counting_mark(512), Some(Stamp::new(1, 2)));
        assert_eq!(switch.counting_mark(256), Some(Stamp::new(1, 3)));
        assert_eq!(switch.counting_mark(0), None, "the slots of others");
        switch.mark(16);
        assert_eq!(switch.counting_mark(16), Some(Stamp::new(1, 4)));
    }

    #[test]
    fn the_counter_stops_at_its_end() {
        let mut switch = Switch::new(1);
        switch.set_counter_for_tests(4_294_967_294);
        let last = Stamp::new(1, 4_294_967_295);
        assert_eq!(switch.mark(3), Some(last));
        assert_eq!((switch.mark(3), switch.mark(4)), (None, None));
        assert_eq!((switch.counter(), switch.counting()), (4_294_967_295, 1));
        assert_eq!((switch.stamps[3], switch.holders[4]), (last, None));
    }

    /// The stamps on both sides of 65,535 rise, and a completion of the lower
    /// leaves the mark of the higher.
    #[test]
    fn the_counter_goes_on_beyond_65535() {
        let mut switch = Switch::new(1);
        switch.set_counter_for_tests(65_534);
        let (low, high) = (Stamp::new(1, 65_535), Stamp::new(1, 65_536));
        assert_eq!((switch.mark(3), switch.mark(3)), (Some(low), Some(high)));
        assert!(low < high);
        switch.complete(3, low);
        assert_eq!(switch.counting_mark(3), Some(high));
        switch.complete(3, high);
        assert_eq!((switch.counting_mark(3), switch.committed), (None, high));
    }
}
