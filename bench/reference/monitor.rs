// The monitors. Each keeps every permit it gave, and answers by its rule over that list.

pub const END: u64 = 4_000_000_000;

pub enum Monitor {
    Distance { distance: u64, permits: Vec<u64> },
    Trail { distances: Vec<u64>, permits: Vec<u64> },
    Budget { most: usize, period: u64, permits: Vec<u64> },
    Pair(Box<Monitor>, Box<Monitor>),
    Joint(Box<Monitor>, Box<Monitor>),
}

pub fn distance(distance: u64) -> Monitor {
    Monitor::Distance { distance, permits: Vec::new() }
}

pub fn trail(distances: &[u64]) -> Monitor {
    Monitor::Trail { distances: distances.to_vec(), permits: Vec::new() }
}

pub fn budget(most: usize, period: u64) -> Monitor {
    Monitor::Budget { most, period, permits: Vec::new() }
}

pub fn pair(first: Monitor, second: Monitor) -> Monitor {
    Monitor::Pair(Box::new(first), Box::new(second))
}

pub fn joint(first: Monitor, second: Monitor) -> Monitor {
    Monitor::Joint(Box::new(first), Box::new(second))
}

impl Monitor {
    pub fn lines(&self) -> u32 {
        match self {
            Monitor::Pair(first, second) => (first.lines() + second.lines()).min(16),
            Monitor::Joint(first, _) => first.lines(),
            _ => 1,
        }
    }

    pub fn ready(&self, line: u32, at: u64) -> bool {
        if line >= self.lines() || at > END {
            return false;
        }
        match self {
            Monitor::Distance { distance, permits } => match permits.last() {
                None => true,
                Some(latest) => at >= latest + distance,
            },
            Monitor::Trail { distances, permits } => distances
                .iter()
                .zip(permits.iter().rev())
                .all(|(distance, permit)| at >= permit + distance),
            Monitor::Budget { most, period, permits } => {
                let after = permits.last().map_or(true, |latest| at >= *latest);
                let spent = permits
                    .iter()
                    .rev()
                    .take_while(|permit| *permit / period == at / period)
                    .count();
                after && spent < *most
            }
            Monitor::Pair(first, second) => {
                if line < first.lines() {
                    first.ready(line, at)
                } else {
                    second.ready(line - first.lines(), at)
                }
            }
            Monitor::Joint(first, second) => first.ready(line, at) && second.ready(0, at),
        }
    }

    // A permit, if the line is ready.
    pub fn ask(&mut self, line: u32, at: u64) -> bool {
        if !self.ready(line, at) {
            return false;
        }
        match self {
            Monitor::Distance { permits, .. }
            | Monitor::Trail { permits, .. }
            | Monitor::Budget { permits, .. } => permits.push(at),
            Monitor::Pair(first, second) => {
                let split = first.lines();
                if line < split {
                    first.ask(line, at);
                } else {
                    second.ask(line - split, at);
                }
            }
            Monitor::Joint(first, second) => {
                first.ask(line, at);
                second.ask(0, at);
            }
        }
        true
    }
}
