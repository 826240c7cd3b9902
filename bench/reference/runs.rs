// The list of runs, and the text that they are told in.
use crate::core::{Board, Core, Line, Refusal};
use crate::monitor::{budget, distance, joint, pair, trail, Monitor};
use std::fmt::Write;

fn board(
    partitions: usize,
    slots: &[(usize, u64)],
    lines: &[(usize, u64, u64)],
    overheads: (u64, u64, u64),
) -> Board {
    Board {
        partitions,
        slots: slots.to_vec(),
        lines: lines
            .iter()
            .map(|&(owner, top, handler)| Line { owner, top, handler })
            .collect(),
        check: overheads.0,
        reschedule: overheads.1,
        switch: overheads.2,
    }
}

fn board_k() -> Board {
    board(2, &[(0, 10), (1, 6)], &[(1, 2, 3), (0, 1, 4)], (1, 1, 2))
}

fn three() -> Board {
    let lines = [(0, 1, 9), (1, 3, 5), (2, 2, 14), (2, 1, 1)];
    board(3, &[(0, 60), (1, 60), (2, 20)], &lines, (2, 0, 3))
}

fn single() -> Board {
    board(1, &[(0, 7)], &[(0, 1, 6), (0, 4, 2)], (5, 6, 7))
}

fn eight() -> Board {
    let slots = [(0, 31), (1, 1), (2, 17), (2, 5), (3, 40), (0, 2), (4, 23), (5, 8)];
    let lines = [
        (0, 1, 3), (1, 2, 1), (2, 1, 7), (3, 1, 2), (4, 3, 4), (5, 1, 12), (6, 1, 5), (7, 2, 6),
        (7, 1, 1), (6, 1, 9), (5, 1, 2), (4, 2, 8), (3, 1, 1), (2, 1, 3), (1, 1, 4), (0, 1, 10),
    ];
    board(8, &slots, &lines, (1, 2, 0))
}

fn long() -> Board {
    board(2, &[(0, 1_000_000), (1, 1_000_000)], &[(0, 5, 40), (1, 2, 25)], (3, 2, 4))
}

fn four(near: u64, permits: usize, period: u64, far: u64) -> Monitor {
    pair(
        pair(distance(near), budget(permits, period)),
        pair(trail(&[near, period]), distance(far)),
    )
}

fn sixteen() -> Monitor {
    pair(
        pair(four(50, 2, 300, 90), four(80, 1, 100, 200)),
        pair(four(10, 3, 500, 1000), four(120, 4, 1000, 60)),
    )
}

struct Numbers(u32);

impl Numbers {
    fn below(&mut self, count: u32) -> u32 {
        self.0 = self.0.wrapping_mul(1_664_525).wrapping_add(1_013_904_223);
        (self.0 >> 16) * count >> 16
    }

    fn word(&mut self) -> u16 {
        self.below(65_535) as u16
    }
}

struct Player {
    core: Core,
    text: String,
}

impl Player {
    fn new(title: &str, board: Board, monitor: Monitor) -> Player {
        Player { core: Core::new(board, monitor), text: format!("{title}\n") }
    }

    fn refused(&mut self, refusal: Refusal) {
        writeln!(self.text, "E {} {}", refusal.0, refusal.1).unwrap();
    }

    fn raise(&mut self, mask: u16, line: u32, tag: u32) {
        match self.core.raise(mask, line, tag) {
            Ok(permitted) => self.text += if permitted { "P\n" } else { "Q\n" },
            Err(refusal) => self.refused(refusal),
        }
    }

    fn strobe(&mut self, mask: u16, word: u16, tag: u32) {
        let (taken, permitted) = self.core.strobe(mask, word, tag);
        writeln!(self.text, "W {taken} {permitted}").unwrap();
    }

    fn advance(&mut self, ticks: u64, places: u32) {
        let (span_places, finished_places) = match places {
            0 => (1, 1),
            1 => (2, 1),
            2 => (4, 2),
            3 => (8, 0),
            4 => (0, 8),
            _ => (16, 8),
        };
        match self.core.advance(ticks, span_places, finished_places) {
            Ok((ran, spans, finished)) => {
                writeln!(self.text, "A {ran}").unwrap();
                for s in spans {
                    let (first, ticks, letter, who, owner) =
                        (s.first, s.ticks, s.letter, s.who, s.owner);
                    writeln!(self.text, "S {first} {ticks} {letter} {who} {owner}").unwrap();
                }
                for d in finished {
                    writeln!(self.text, "D {} {} {} {}", d.tag, d.line, d.raised, d.at).unwrap();
                }
            }
            Err(refusal) => self.refused(refusal),
        }
    }

    fn pass(&mut self, ticks: u64) {
        let mut rest = ticks;
        for _ in 0..300 {
            if let Ok((ran, _, _)) = self.core.advance(rest, 16, 8) {
                rest -= ran;
            }
        }
        writeln!(self.text, "instant {}", self.core.instant).unwrap();
    }

    fn play(&mut self, seed: u32, calls: u32, lines: u32, step: u32) {
        let mut numbers = Numbers(seed);
        let mut mask = 0;
        for tag in 0..calls {
            match numbers.below(20) {
                0..=8 => {
                    let line = numbers.below(lines);
                    self.raise(mask, line, tag);
                }
                9 => {
                    let word = numbers.word();
                    self.strobe(mask, word, tag);
                }
                10 => {
                    mask = numbers.word() & numbers.word() & numbers.word();
                    writeln!(self.text, "M {mask}").unwrap();
                }
                _ => {
                    let ticks = numbers.below(step);
                    let places = numbers.below(8);
                    self.advance(ticks as u64, places);
                }
            }
        }
    }

    fn print(self) {
        print!("{}", self.text);
    }
}

// A run that is drawn by lot from its first call on.
fn drawn(title: &str, board: Board, monitor: Monitor, seed: u32, calls: u32, lines: u32, step: u32) {
    let mut player = Player::new(title, board, monitor);
    player.play(seed, calls, lines, step);
    player.print();
}

pub fn all() {
    let two = pair(distance(100), distance(200));
    drawn("board K, two distances", board_k(), two, 1, 400, 3, 60);
    let kinds = pair(pair(trail(&[50, 200, 500]), budget(2, 300)), distance(150));
    drawn("three partitions; a trail, a budget and a distance", three(), kinds, 2, 500, 5, 120);
    drawn("one partition, one distance", single(), distance(1), 3, 200, 3, 50);
    drawn("eight partitions, sixteen lines", eight(), sixteen(), 4, 600, 17, 300);
    let limited = joint(pair(budget(3, 64), trail(&[1, 30, 31, 90, 200])), budget(4, 100));
    drawn("board K, a budget and a trail, limited by a budget", board_k(), limited, 5, 300, 3, 90);
    queues();
    last();
}

fn queues() {
    let monitor = pair(trail(&[7, 20]), budget(64, 1_000_000_000));
    let mut player = Player::new("board K, full queues", board_k(), monitor);
    for tag in 0..34 {
        player.raise(0, 0, tag);
    }
    player.strobe(0, 65_535, 34);
    for tag in 35..69 {
        player.raise(0, 1, tag);
    }
    player.strobe(0, 65_535, 69);
    for _ in 0..40 {
        player.advance(60, 7);
    }
    player.play(6, 100, 3, 60);
    player.print();
}

fn last() {
    let monitor = pair(distance(300), budget(2, 1000));
    let mut player = Player::new("two long slots, the clock's end", long(), monitor);
    player.pass(3_999_994_000);
    player.play(7, 200, 3, 500);
    player.print();
}
