//! What the comparer counts of quorum stores (document 02, Req 11).

use crate::model::{Answer, Model, Packet, Stamp, Step, FULL};

/// How often direct reads were answered by a follower that had executed less than
/// the leader, how often they were sent on, how often exactly a majority held what
/// was executed, how often 24 was for want of a majority alone or for a full link
/// alone, and how often a write was dropped for a full log alone or a full link
/// alone.
#[derive(Clone, Copy, Debug, Default)]
pub struct Quorums {
    pub lagging: usize,
    pub rejected: usize,
    pub exact: usize,
    pub no_majority: usize,
    pub full_link: usize,
    pub log_drops: usize,
    pub link_drops: usize,
}

impl Quorums {
    /// Makes a step and counts it; nothing is counted in a chain.
    pub fn step(&mut self, model: &mut Model, step: Step) -> Answer {
        if model.is_quorum() {
            self.count(model, step);
        }
        model.step(step)
    }

    /// Counts a step that is about to be made.
    fn count(&mut self, model: &Model, step: Step) {
        match step {
            Step::Deliver { position, .. } => match model.packets().get(usize::from(position)) {
                Some(&Packet::DirectRead {
                    to,
                    switch,
                    committed,
                    ..
                }) => self.count_direct(model, to, switch, committed),
                Some(Packet::StampedWrite { write, .. }) => self.count_write(model, write.stamp),
                _ => {}
            },
            Step::Execute => self.count_execution(model),
            _ => {}
        }
    }

    fn count_direct(&mut self, model: &Model, to: u8, switch: u16, committed: Stamp) {
        let executed = model.executed(to);
        let answered = model.permits(to) == Some(switch) && executed >= Some(committed);
        let lags = executed < model.executed(1);
        self.lagging += usize::from(answered && lags);
        self.rejected += usize::from(!answered);
    }

    fn count_write(&mut self, model: &Model, stamp: Stamp) {
        let full = model.unexecuted() >= FULL;
        match (model.is_above_the_log(stamp), full, model.link_full()) {
            (true, true, false) => self.log_drops += 1,
            (true, false, true) => self.link_drops += 1,
            _ => {}
        }
    }

    fn count_execution(&mut self, model: &Model) {
        let Some(holders) = model.holders() else {
            return;
        };
        let majority = holders >= model.majority();
        match (majority, model.link_full()) {
            (false, false) => self.no_majority += 1,
            (true, true) => self.full_link += 1,
            (true, false) if model.waiting() + 2 <= FULL => {
                self.exact += usize::from(holders == model.majority());
            }
            _ => {}
        }
    }

    /// Adds another count to this one.
    pub fn add(&mut self, other: &Quorums) {
        self.lagging += other.lagging;
        self.rejected += other.rejected;
        self.exact += other.exact;
        self.no_majority += other.no_majority;
        self.full_link += other.full_link;
        self.log_drops += other.log_drops;
        self.link_drops += other.link_drops;
    }

    /// Each with its name and number.
    pub fn rows(&self) -> [(&'static str, usize); 7] {
        [
            ("lagging, answered", self.lagging),
            ("quorum, sent on", self.rejected),
            ("exact majority", self.exact),
            ("24, no majority", self.no_majority),
            ("24, full link", self.full_link),
            ("drop, full log", self.log_drops),
            ("drop, full link", self.link_drops),
        ]
    }
}
