// A plain scheduler of the standard board with a distance of 9000 ticks on each line: by ticks, or by events.
use std::collections::VecDeque;

const SLOTS: [(u8, u64); 3] = [(0, 6000), (1, 6000), (2, 2000)];
const CYCLE: u64 = 14_000;
// owner, top cost, handler cost
const LINES: [(u8, u64, u64); 3] = [(0, 5, 40), (1, 5, 60), (2, 5, 80)];
const CHECK: u64 = 2;
const RESCHEDULE: u64 = 3;
const SWITCH: u64 = 4;
const DISTANCE: u64 = 9000;

#[derive(Clone, Copy, PartialEq)]
pub enum Step {
    Tick,
    Event,
}

#[derive(Clone, Copy, PartialEq)]
enum Kind {
    Top,
    Switch,
    Interposed,
    Bottom,
    Application,
}

#[derive(Clone, Copy)]
struct Span {
    _first: u64,
    ticks: u64,
    kind: Kind,
    who: u8,
    owner: u8,
}

#[derive(Clone, Copy)]
struct Event {
    tag: u32,
    line: usize,
    raised: u64,
    left: u64,
}

#[derive(Clone, Copy)]
struct Finished {
    _tag: u32,
    _line: usize,
    _raised: u64,
    _at: u64,
}

struct Grant {
    line: usize,
    steps: [u64; 3],
}

pub struct Core {
    pub instant: u64,
    owed: u64,
    grant: Option<Grant>,
    queues: [VecDeque<Event>; 3],
    latest: [Option<u64>; 3],
    spans: Vec<Span>,
    finished: Vec<Finished>,
}

// Owner of the slot at an instant, and the ticks up to its end.
fn slot_at(at: u64) -> (u8, u64) {
    let mut place = at % CYCLE;
    for (owner, ticks) in SLOTS {
        if place < ticks {
            return (owner, ticks - place);
        }
        place -= ticks;
    }
    unreachable!()
}

impl Core {
    pub fn new() -> Core {
        Core {
            instant: 0,
            owed: 0,
            grant: None,
            queues: [VecDeque::new(), VecDeque::new(), VecDeque::new()],
            latest: [None; 3],
            spans: Vec::with_capacity(64),
            finished: Vec::with_capacity(16),
        }
    }

    pub fn raise(&mut self, line: usize, tag: u32) {
        let (owner, top, handler) = LINES[line];
        let queue = &mut self.queues[owner as usize];
        if queue.len() == 32 {
            return;
        }
        queue.push_back(Event { tag, line, raised: self.instant, left: handler });
        self.owed += top;
        if slot_at(self.instant).0 == owner {
            return;
        }
        self.owed += CHECK;
        let ready = self.latest[line].map_or(true, |latest| self.instant >= latest + DISTANCE);
        if self.grant.is_none() && ready {
            self.latest[line] = Some(self.instant);
            self.grant = Some(Grant { line, steps: [RESCHEDULE + SWITCH, handler, SWITCH] });
        }
    }

    // Spans and finished events written. The runs never need more than the 64 and 16 places that the vectors start with.
    pub fn advance(&mut self, ticks: u64, step: Step) -> (usize, usize) {
        self.spans.clear();
        self.finished.clear();
        let end = self.instant + ticks;
        while self.instant < end {
            let (owner, to_slot_end) = slot_at(self.instant);
            let mut served = None;
            let mut phase = None;
            let (kind, who, most) = if self.owed > 0 {
                (Kind::Top, 255, self.owed)
            } else if let Some(grant) = &self.grant {
                let at = grant.steps.iter().position(|left| *left > 0).unwrap();
                phase = Some(at);
                let kind = if at == 1 { Kind::Interposed } else { Kind::Switch };
                if at == 1 {
                    served = Some(LINES[grant.line].0 as usize);
                }
                (kind, grant.line as u8, grant.steps[at])
            } else if !self.queues[owner as usize].is_empty() {
                served = Some(owner as usize);
                (Kind::Bottom, owner, u64::MAX)
            } else {
                (Kind::Application, owner, u64::MAX)
            };
            let mut length = most.min(to_slot_end).min(end - self.instant);
            if let Some(partition) = served {
                length = length.min(self.queues[partition][0].left);
            }
            if step == Step::Tick {
                length = 1;
            }
            let ends = served.is_some_and(|partition| self.queues[partition][0].left == length);
            match self.spans.last_mut() {
                Some(last) if (last.kind, last.who, last.owner) == (kind, who, owner) => {
                    last.ticks += length
                }
                _ => self.spans.push(Span { _first: self.instant, ticks: length, kind, who, owner }),
            }
            self.instant += length;
            if kind == Kind::Top {
                self.owed -= length;
            }
            if let (Some(at), Some(grant)) = (phase, &mut self.grant) {
                grant.steps[at] -= length;
                if grant.steps == [0; 3] {
                    self.grant = None;
                }
            }
            if let Some(partition) = served {
                self.queues[partition][0].left -= length;
                if ends {
                    let event = self.queues[partition].pop_front().unwrap();
                    self.finished.push(Finished {
                        _tag: event.tag,
                        _line: event.line,
                        _raised: event.raised,
                        _at: self.instant,
                    });
                }
            }
        }
        (self.spans.len(), self.finished.len())
    }
}
