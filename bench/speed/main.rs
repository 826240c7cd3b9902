// Times the standard board on three schedulers, idle and loaded: one tick at a time, event by event, and the program `speed`.
mod plain;

use plain::{Core, Step};
use std::io::{BufRead, BufReader};
use std::process::{Command, Stdio};
use std::time::Instant;

const ROUNDS: u32 = 7;

// Ticks, spans and finished events of a run, and its seconds.
#[derive(Clone, Copy)]
struct Measured {
    ticks: u64,
    spans: u64,
    finished: u64,
    seconds: f64,
}

impl Measured {
    fn rate(self) -> f64 {
        self.ticks as f64 / self.seconds
    }
}

// The run in the middle by its time. Not the fastest: where a line of `speed` is read late, the run after it looks too short.
fn middle(mut runs: Vec<Measured>) -> Measured {
    runs.sort_by(|a, b| a.seconds.total_cmp(&b.seconds));
    runs[runs.len() / 2]
}

// The runs of one scheduler, idle and loaded.
#[derive(Default)]
struct Runs {
    idle: Vec<Measured>,
    loaded: Vec<Measured>,
}

impl Runs {
    fn add(&mut self, idle: Measured, loaded: Measured) {
        self.idle.push(idle);
        self.loaded.push(loaded);
    }
}

fn idle(step: Step, calls: u32) -> Measured {
    let start = Instant::now();
    let mut core = Core::new();
    let mut spans = 0;
    for _ in 0..calls {
        spans += core.advance(66_666, step).0 as u64;
    }
    let seconds = start.elapsed().as_secs_f64();
    Measured { ticks: core.instant, spans, finished: 0, seconds }
}

fn loaded(step: Step, calls: u32) -> Measured {
    let start = Instant::now();
    let mut core = Core::new();
    let mut spans = 0;
    let mut finished = 0;
    for tag in 0..calls {
        core.raise(tag as usize % 3, tag);
        let (written, ended) = core.advance(3000, step);
        spans += written as u64;
        finished += ended as u64;
    }
    let seconds = start.elapsed().as_secs_f64();
    Measured { ticks: core.instant, spans, finished, seconds }
}

// The program prints a line before and after each of its two runs; the time between them is the run's.
fn proved(program: &str) -> Vec<Measured> {
    let mut child = Command::new(program).stdout(Stdio::piped()).spawn().expect("the program starts");
    let mut last = Instant::now();
    let mut measured = Vec::new();
    for line in BufReader::new(child.stdout.take().unwrap()).lines() {
        let line = line.unwrap();
        let seconds = last.elapsed().as_secs_f64();
        last = Instant::now();
        let numbers: Vec<u64> = line.split(' ').skip(1).map(|word| word.parse().unwrap()).collect();
        if let [ticks, spans, finished] = numbers[..] {
            measured.push(Measured { ticks, spans, finished, seconds });
        }
    }
    child.wait().unwrap();
    measured
}

fn show(name: &str, tick: Measured, event: Measured, ours: Measured) {
    let same = (event.ticks, event.spans, event.finished) == (ours.ticks, ours.spans, ours.finished);
    println!("{name}: tick by tick   {:9.1} million ticks/s", tick.rate() / 1e6);
    println!("{name}: event by event {:9.1} million ticks/s", event.rate() / 1e6);
    println!("{name}: proved         {:9.1} million ticks/s", ours.rate() / 1e6);
    println!("{name}: proved / tick by tick   {:.2}", ours.rate() / tick.rate());
    println!("{name}: proved / event by event {:.2}", ours.rate() / event.rate());
    println!("{name}: spans {}, finished {}, same counts: {same}", ours.spans, ours.finished);
}

fn main() {
    let Some(program) = std::env::args().nth(1) else {
        // what `speed` is to print
        let still = idle(Step::Event, 60_000);
        let busy = loaded(Step::Event, 1_333_000);
        println!("start");
        println!("idle {} {} {}", still.ticks, still.spans, still.finished);
        println!("loaded {} {} {}", busy.ticks, busy.spans, busy.finished);
        return;
    };
    let part = (idle(Step::Tick, 3_000), loaded(Step::Tick, 66_650));
    let check = (idle(Step::Event, 3_000), loaded(Step::Event, 66_650));
    let alike = |a: Measured, b: Measured| (a.ticks, a.spans, a.finished) == (b.ticks, b.spans, b.finished);
    println!("the two plain schedulers agree: {}", alike(part.0, check.0) && alike(part.1, check.1));
    // each run again with new cores, one scheduler after the other
    let (mut tick, mut event, mut ours) = (Runs::default(), Runs::default(), Runs::default());
    for _ in 0..ROUNDS {
        tick.add(idle(Step::Tick, 3_000), loaded(Step::Tick, 66_650));
        event.add(idle(Step::Event, 60_000), loaded(Step::Event, 1_333_000));
        let measured = proved(&program);
        ours.add(measured[0], measured[1]);
    }
    show("idle", middle(tick.idle), middle(event.idle), middle(ours.idle));
    show("loaded", middle(tick.loaded), middle(event.loaded), middle(ours.loaded));
}
