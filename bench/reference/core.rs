// The core, one tick at a time.
use crate::monitor::{Monitor, END};
use std::collections::VecDeque;

pub struct Line {
    pub owner: usize,
    pub top: u64,
    pub handler: u64,
}

pub struct Board {
    pub partitions: usize,
    // owner and length
    pub slots: Vec<(usize, u64)>,
    pub lines: Vec<Line>,
    pub check: u64,
    pub reschedule: u64,
    pub switch: u64,
}

impl Board {
    fn owner_at(&self, at: u64) -> usize {
        let cycle: u64 = self.slots.iter().map(|slot| slot.1).sum();
        let mut place = at % cycle;
        for (owner, length) in &self.slots {
            if place < *length {
                return *owner;
            }
            place -= length;
        }
        unreachable!()
    }
}

struct Event {
    tag: u32,
    line: usize,
    raised: u64,
    left: u64,
}

// Ticks that the open grant still has in each of its three steps.
struct Grant {
    line: usize,
    lead: u64,
    work: u64,
    trail: u64,
}

pub struct Core {
    board: Board,
    monitor: Monitor,
    pub instant: u64,
    owed: u64,
    grant: Option<Grant>,
    queues: Vec<VecDeque<Event>>,
}

#[derive(Clone, Copy, PartialEq)]
pub struct Span {
    pub first: u64,
    pub ticks: u64,
    pub letter: char,
    pub who: usize,
    pub owner: usize,
}

pub struct Finished {
    pub tag: u32,
    pub line: usize,
    pub raised: u64,
    pub at: u64,
}

// Number and place.
pub struct Refusal(pub u32, pub u64);

impl Core {
    pub fn new(board: Board, monitor: Monitor) -> Core {
        let queues = (0..board.partitions).map(|_| VecDeque::new()).collect();
        Core { board, monitor, instant: 0, owed: 0, grant: None, queues }
    }

    // Whether the event was permitted.
    pub fn raise(&mut self, mask: u16, line: u32, tag: u32) -> Result<bool, Refusal> {
        let Some(about) = self.board.lines.get(line as usize) else {
            return Err(Refusal(6, line as u64));
        };
        if mask & (1 << line) != 0 {
            return Err(Refusal(7, line as u64));
        }
        if self.queues[about.owner].len() == 32 {
            return Err(Refusal(8, about.owner as u64));
        }
        self.queues[about.owner].push_back(Event {
            tag,
            line: line as usize,
            raised: self.instant,
            left: about.handler,
        });
        self.owed += about.top;
        if self.board.owner_at(self.instant) == about.owner {
            return Ok(false);
        }
        self.owed += self.board.check;
        if self.grant.is_some() || !self.monitor.ask(line, self.instant) {
            return Ok(false);
        }
        self.grant = Some(Grant {
            line: line as usize,
            lead: self.board.reschedule + self.board.switch,
            work: about.handler,
            trail: self.board.switch,
        });
        Ok(true)
    }

    // The lines taken and the lines permitted.
    pub fn strobe(&mut self, mask: u16, word: u16, tag: u32) -> (u16, u16) {
        let mut taken = 0;
        let mut permitted = 0;
        for line in 0..16 {
            if word & (1 << line) == 0 {
                continue;
            }
            if let Ok(yes) = self.raise(mask, line, tag) {
                taken |= 1 << line;
                if yes {
                    permitted |= 1 << line;
                }
            }
        }
        (taken, permitted)
    }

    // The spans and finished events of up to `ticks` ticks, with so many places for each.
    pub fn advance(
        &mut self,
        ticks: u64,
        span_places: usize,
        finished_places: usize,
    ) -> Result<(u64, Vec<Span>, Vec<Finished>), Refusal> {
        let rest = END - self.instant;
        if ticks > rest {
            return Err(Refusal(9, rest));
        }
        let mut spans: Vec<Span> = Vec::new();
        let mut finished = Vec::new();
        let mut ran = 0;
        while ran < ticks {
            let owner = self.board.owner_at(self.instant);
            let (letter, who, served) = self.next_tick(owner);
            let lengthens = spans
                .last()
                .is_some_and(|last| (last.letter, last.who, last.owner) == (letter, who, owner));
            if !lengthens && spans.len() == span_places {
                break;
            }
            let ends = served.is_some_and(|partition| {
                self.queues[partition].front().is_some_and(|head| head.left == 1)
            });
            if ends && finished.len() == finished_places {
                break;
            }
            match spans.last_mut() {
                Some(last) if lengthens => last.ticks += 1,
                _ => spans.push(Span { first: self.instant, ticks: 1, letter, who, owner }),
            }
            self.spend(letter);
            self.instant += 1;
            ran += 1;
            if let Some(partition) = served {
                if let Some(head) = self.queues[partition].front_mut() {
                    head.left -= 1;
                }
                if ends {
                    let event = self.queues[partition].pop_front().unwrap();
                    finished.push(Finished {
                        tag: event.tag,
                        line: event.line,
                        raised: event.raised,
                        at: self.instant,
                    });
                }
            }
        }
        Ok((ran, spans, finished))
    }

    // Kind and who of the next tick, and the partition whose head event it serves.
    fn next_tick(&self, owner: usize) -> (char, usize, Option<usize>) {
        if self.owed > 0 {
            return ('T', 255, None);
        }
        if let Some(grant) = &self.grant {
            if grant.lead == 0 && grant.work > 0 {
                return ('I', grant.line, Some(self.board.lines[grant.line].owner));
            }
            return ('X', grant.line, None);
        }
        if !self.queues[owner].is_empty() {
            return ('B', owner, Some(owner));
        }
        ('A', owner, None)
    }

    // Takes the tick from the work owed or from the grant's present step.
    fn spend(&mut self, letter: char) {
        if letter == 'T' {
            self.owed -= 1;
        } else if let Some(grant) = &mut self.grant {
            if grant.lead > 0 {
                grant.lead -= 1;
            } else if grant.work > 0 {
                grant.work -= 1;
            } else {
                grant.trail -= 1;
            }
            if grant.lead + grant.work + grant.trail == 0 {
                self.grant = None;
            }
        }
    }
}
