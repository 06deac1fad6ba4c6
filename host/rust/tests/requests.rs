//! A million requests at random, meaningful and garbled: kernel and model give the same replies and states.

mod common;

use common::{first_seed, Asker, Pair};
use model::{Model, Record, Structure, PROCESSES};
use std::collections::BTreeSet;

const PANELS: u64 = 250;
const REQUESTS: usize = 4000;

/// What the requests got to; the test fails where they did not get far enough.
#[derive(Default, Debug)]
struct Reached {
    /// Calls with the codes that they were answered.
    answers: BTreeSet<(u8, u8)>,
    longest_line: usize,
    released_at_once: usize,
    woken_at_once: usize,
    served_at_once: usize,
    /// Calls that served getters and putters both.
    both_served: usize,
    /// Requests met while some ring had both lines occupied.
    standoffs: usize,
    suspended_released: usize,
    numbers_reused: usize,
    full_panels: usize,
    ring_sizes: BTreeSet<usize>,
}

/// How many stand in structure n's lines: (a semaphore's or getters, putters).
fn lines(model: &Model, n: u8) -> (usize, usize) {
    match model.live_structure(n) {
        Some(Structure::Semaphore(semaphore)) => (semaphore.line.len(), 0),
        Some(Structure::Ring(ring)) => (ring.getters.len(), ring.putters.len()),
        None => (0, 0),
    }
}

impl Reached {
    fn note(&mut self, request: &Record, reply: &Record, before: &Before, model: &Model) {
        let (call, code, n) = (request[0], reply[0], request[2]);
        self.answers.insert((call.min(24), code));
        self.standoffs += usize::from(before.standoff);
        if code > 2 {
            return;
        }
        let (first, putters) = lines(model, n);
        self.longest_line = self.longest_line.max(first).max(putters);
        if (18..=22).contains(&call) {
            let joined = usize::from(code == 2);
            let served = before.lines.0 + before.lines.1 + joined - first - putters;
            self.served_at_once = self.served_at_once.max(served);
            let both = first < before.lines.0 && putters < before.lines.1;
            self.both_served += usize::from(both);
        }
        match call {
            1 => {
                let woken = before.sleepers - model.sleepers.len();
                self.woken_at_once = self.woken_at_once.max(woken);
            }
            15 => self.released_at_once = self.released_at_once.max(reply[2].into()),
            2 => self.numbers_reused += usize::from(reply[2] < before.newest),
            10 => self.ring_sizes.extend(model.live_ring(reply[2]).map(|r| r.size)),
            _ => {}
        }
        let releases = call == 1 || call >= 13;
        self.suspended_released += usize::from(releases && model.parked.len() > before.parked);
        let full = before.newest == PROCESSES && model.live_structures().len() == 24;
        self.full_panels += usize::from(full && model.rings().count() == 8);
    }

    fn check(&self) {
        for call in 0..=24 {
            for &code in possible(call) {
                let answer = (call, code);
                assert!(self.answers.contains(&answer), "call, code {answer:?}");
            }
        }
        assert!(self.longest_line >= 25);
        assert!(self.released_at_once >= 20);
        assert!(self.woken_at_once >= 5);
        assert!(self.served_at_once >= 10);
        assert!(self.both_served >= 300);
        assert!(self.standoffs >= 10_000);
        assert!(self.suspended_released >= 1000);
        assert!(self.numbers_reused >= 1000);
        assert!(self.full_panels >= 1000);
        let ends = [1, 256].iter().all(|size| self.ring_sizes.contains(size));
        assert!(ends && self.ring_sizes.len() >= 200);
    }
}

/// The codes that a call can be answered; 24 stands for all above 23.
fn possible(call: u8) -> &'static [u8] {
    match call {
        1 | 3 | 7 => &[0, 42, 43],
        2 => &[0, 42, 43, 52],
        4 | 5 => &[0, 42, 43, 46, 47],
        6 | 8 => &[0, 42, 43, 46],
        9 => &[0, 2, 42, 43],
        10 => &[0, 42, 43, 53],
        11 => &[0, 42, 43, 44, 51],
        12 => &[0, 42, 43, 44],
        13 => &[0, 42, 43, 44, 45, 50],
        14 | 17 => &[0, 1, 42, 43, 44, 45],
        15 | 22 => &[0, 42, 43, 44, 45],
        16 => &[0, 2, 42, 43, 44, 45],
        18 | 20 => &[0, 2, 42, 43, 44, 45, 48, 49],
        19 | 21 => &[0, 1, 42, 43, 44, 45, 48, 49],
        23 => &[0, 1, 42, 43],
        _ => &[41],
    }
}

/// What `note` needs of the panel before a request.
struct Before {
    lines: (usize, usize),
    sleepers: usize,
    parked: usize,
    standoff: bool,
    /// The highest number of a live process.
    newest: u8,
}

impl Before {
    fn of(model: &Model, request: &Record) -> Before {
        let mut rings = model.rings();
        Before {
            lines: lines(model, request[2]),
            sleepers: model.sleepers.len(),
            parked: model.parked.len(),
            standoff: rings.any(|ring| !ring.getters.is_empty() && !ring.putters.is_empty()),
            newest: model.live_processes().last().copied().unwrap_or(0),
        }
    }
}

#[test]
fn a_million_requests() {
    let first = first_seed();
    println!("seeds {first} to {}", first + PANELS - 1);
    let mut reached = Reached::default();
    for seed in first..first + PANELS {
        let mut asker = Asker::new(seed);
        let mut pair = Pair::fresh(format!("BROMBEERTOR_SEED={seed}"));
        for _ in 0..REQUESTS {
            let request = asker.request(&pair.model);
            let before = Before::of(&pair.model, &request);
            let reply = pair.ask(&request);
            reached.note(&request, &reply, &before, &pair.model);
        }
    }
    println!("{reached:?}");
    reached.check();
}
