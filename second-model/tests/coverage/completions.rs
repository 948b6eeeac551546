//! What completions of former switches and of the present one do, and the reads that
//! go to the tail where such a completion turned direct reads on before Req 10
//! (document 02, Req 10).

use second_model::model::{Answer, Model, Objects, Packet, Stamp, Step};

/// Every event that must occur, and how often at the least.
pub const WANTED: [(&str, usize); 12] = [
    ("former completion: direct reads off", 15_000),
    ("former completion: direct reads on", 500),
    ("former completion: raises last-committed", 10_000),
    ("former completion: last-committed stays", 3_000),
    ("former completion: off, its object has a mark", 6_000),
    ("former completion: on, its object has a mark", 250),
    ("former completion: of the switch before", 6_000),
    ("former completion: of an earlier switch", 6_000),
    ("own completion: turns direct reads on", 2_500),
    ("own completion: after a former one", 1_500),
    ("read: not direct since Req 10", 10_000),
    ("context: not direct since Req 10", 600),
];

/// A run has only marks of its present switch, which are above every former one's
/// completion.
pub const NEVER: [&str; 1] = ["former completion: a mark is cleared"];

type Events = Vec<&'static str>;

/// What the state before the delivery of a completion says.
struct Delivered {
    former: bool,
    direct_reads: bool,
    committed: Stamp,
    object: u16,
    marks: (usize, Option<Stamp>),
    before: bool,
}

/// Have direct reads been turned on, by the rule before Req 10? A run's present
/// switch has had its own completion, a former one's, or both.
#[derive(Default)]
pub struct Completions {
    any: bool,
    delivered: Option<Delivered>,
}

/// The packet that a step delivers.
fn packet(model: &Model, step: Step) -> Option<Packet> {
    let Step::Deliver { position, .. } = step else {
        return None;
    };
    model.packets().get(usize::from(position)).copied()
}

/// The marks that count, and that of an object.
fn marks(model: &Model, object: u16) -> (usize, Option<Stamp>) {
    (model.counting_marks(), model.counting_mark(object))
}

impl Completions {
    /// The events that the state before a step shows.
    pub fn before(&mut self, model: &Model, step: Step) -> Events {
        let now = model.switch_number();
        self.delivered = None;
        match packet(model, step) {
            Some(Packet::Completion { object, stamp }) => {
                self.delivered = Some(Delivered {
                    former: stamp.switch() < now,
                    direct_reads: model.direct_reads(),
                    committed: model.last_committed(),
                    object,
                    marks: marks(model, object),
                    before: stamp.switch() + 1 == now,
                });
                vec![]
            }
            Some(Packet::Read { objects, .. }) => self.not_direct(model, objects),
            _ => vec![],
        }
    }

    /// A read at the switch that was direct by the rule before.
    fn not_direct(&self, model: &Model, objects: Objects) -> Events {
        let marked = objects.each().any(|o| model.counting_mark(o).is_some());
        match (self.any && !model.direct_reads(), marked) {
            (true, false) if objects.is_context() => vec!["context: not direct since Req 10"],
            (true, false) => vec!["read: not direct since Req 10"],
            _ => vec![],
        }
    }

    /// The events that an accepted step shows. In every run, while direct reads are
    /// on, last-committed bears the present switch's number; while they are off it
    /// bears a lower one.
    pub fn after(&mut self, model: &Model, step: Step, answer: Answer) -> Events {
        let own = model.last_committed().switch() == model.switch_number();
        assert_eq!(
            model.direct_reads(),
            own,
            "last-committed of another switch"
        );
        if answer.is_err() {
            return vec![];
        }
        if let Step::Replace { .. } = step {
            self.any = false;
        }
        let Some(delivered) = self.delivered.take() else {
            return vec![];
        };
        let after_a_former = self.any;
        self.any = true;
        match delivered.former {
            true => former(model, &delivered),
            false => present(&delivered, after_a_former),
        }
    }
}

/// A former switch's completion, just delivered.
fn former(model: &Model, delivered: &Delivered) -> Events {
    let on = delivered.direct_reads;
    assert_eq!(model.direct_reads(), on, "direct reads stay as they were");
    let raised = model.last_committed() > delivered.committed;
    let marked = delivered.marks.1.is_some();
    let cleared = marks(model, delivered.object) != delivered.marks;
    let holds = [
        (!on, "former completion: direct reads off"),
        (on, "former completion: direct reads on"),
        (raised, "former completion: raises last-committed"),
        (!raised, "former completion: last-committed stays"),
        (
            !on && marked,
            "former completion: off, its object has a mark",
        ),
        (on && marked, "former completion: on, its object has a mark"),
        (cleared, "former completion: a mark is cleared"),
        (delivered.before, "former completion: of the switch before"),
        (!delivered.before, "former completion: of an earlier switch"),
    ];
    let held = holds.into_iter().filter(|(holds, _)| *holds);
    held.map(|(_, name)| name).collect()
}

/// A completion of the present switch, just delivered.
fn present(delivered: &Delivered, after_a_former: bool) -> Events {
    match (delivered.direct_reads, after_a_former) {
        (false, false) => vec!["own completion: turns direct reads on"],
        (false, true) => vec![
            "own completion: turns direct reads on",
            "own completion: after a former one",
        ],
        _ => vec![],
    }
}
