//! The kernel and the model side by side, and requests at random.
#![allow(dead_code)]

use model::{Model, Record, Structure, RECORD};

/// Where the seeds begin: BROMBEERTOR_SEED, else 1. A failing panel tells its own seed.
pub fn first_seed() -> u64 {
    match std::env::var("BROMBEERTOR_SEED") {
        Ok(seed) => seed.parse().expect("BROMBEERTOR_SEED is a number"),
        Err(_) => 1,
    }
}

/// A xorshift.
pub struct Random(u64);

impl Random {
    pub fn new(seed: u64) -> Random {
        let mut random = Random(seed.wrapping_mul(0x9E37_79B9_7F4A_7C15) | 1);
        for _ in 0..8 {
            random.next();
        }
        random
    }

    fn next(&mut self) -> u64 {
        self.0 ^= self.0 << 13;
        self.0 ^= self.0 >> 7;
        self.0 ^= self.0 << 17;
        self.0.wrapping_mul(0x2545_F491_4F6C_DD1D) >> 16
    }

    /// From 0 to below `end`.
    pub fn below(&mut self, end: usize) -> usize {
        (self.next() % end as u64) as usize
    }

    /// From `low` to `high`, both included.
    pub fn between(&mut self, low: usize, high: usize) -> usize {
        low + self.below(high - low + 1)
    }

    pub fn one_in(&mut self, n: usize) -> bool {
        self.below(n) == 0
    }

    pub fn byte(&mut self) -> u8 {
        self.next() as u8
    }

    pub fn pick<T: Copy>(&mut self, from: &[T]) -> T {
        from[self.below(from.len())]
    }

    pub fn shuffle<T>(&mut self, list: &mut [T]) {
        for i in (1..list.len()).rev() {
            list.swap(i, self.below(i + 1));
        }
    }
}

/// A request's record.
pub fn record(call: u8, caller: u8, n: u8, l: u8, m: u32, data: &[u8]) -> Record {
    let mut record = [0; RECORD];
    record[..4].copy_from_slice(&[call, caller, n, l]);
    record[4..8].copy_from_slice(&m.to_le_bytes());
    record[8..8 + data.len()].copy_from_slice(data);
    record
}

/// One panel twice: the kernel's bytes and the model's queues.
pub struct Pair {
    pub state: Vec<u8>,
    pub model: Model,
    /// How to find it again.
    name: String,
    asked: usize,
}

impl Pair {
    /// A fresh panel.
    pub fn fresh(name: String) -> Pair {
        let mut state = vec![0xEE; brombeertor::state_length()];
        assert_eq!(brombeertor::fresh(&mut state), 0);
        let pair = Pair { state, model: Model::fresh(), name, asked: 0 };
        assert_eq!(pair.state, pair.model.write());
        pair
    }

    /// A panel with a sound state.
    pub fn with_state(state: Vec<u8>, model: Model, name: String) -> Pair {
        Pair { state, model, name, asked: 0 }
    }

    /// Asks both: replies and states are compared whole.
    pub fn ask(&mut self, request: &Record) -> Record {
        self.asked += 1;
        let mut reply = [0xEE; RECORD];
        let code = brombeertor::call(&mut self.state, request, &mut reply);
        let expected = self.model.step(request);
        let place = || format!("{}, request {}: {request:?}", self.name, self.asked);
        assert_eq!(reply, expected, "kernel's reply and model's, {}", place());
        assert_eq!(code, u32::from(reply[0]), "returned code, {}", place());
        let state = self.model.write();
        if self.state != state {
            let differs = |&at: &usize| self.state[at] != state[at];
            let at: Vec<usize> = (0..state.len()).filter(differs).collect();
            panic!("kernel's state and model's differ at {at:?}, {}", place());
        }
        reply
    }
}

/// What is mostly asked for a while; a call that stands there more often is asked more often.
const MOODS: [&[u8]; 9] = [
    &[2, 2, 2, 10, 10, 10, 6, 7],
    &[2, 16, 16, 16, 16, 16, 13, 13, 14, 15, 17, 12, 4, 5],
    &[2, 18, 18, 18, 20, 20, 20, 23, 23, 19, 21, 22, 10, 4, 5],
    &[18, 18, 18, 18, 20, 20, 20, 20, 20, 23, 23, 23, 19, 19, 7, 6],
    &[2, 9, 9, 9, 9, 9, 9, 9, 1, 4, 5, 8],
    &[4, 4, 4, 5, 5, 5, 6, 6, 7, 7, 8, 16, 13, 9, 1],
    &[2, 2, 5, 23, 16, 16, 16, 16, 16, 16, 16, 16, 16, 16],
    &[2, 2, 5, 23, 23, 20, 20, 20, 20, 20, 20, 18, 18, 18],
    &[3, 11, 11, 15, 22, 1, 1, 5, 2, 10, 13],
];

/// Makes requests that mean something on the present panel, and some that do not.
pub struct Asker {
    pub random: Random,
    mood: &'static [u8],
    /// The structure that is asked for more than others, so that lines get long.
    favourite: u8,
    /// Rings are small, so that standoffs come about.
    small: bool,
}

impl Asker {
    pub fn new(seed: u64) -> Asker {
        Asker { random: Random::new(seed), mood: MOODS[0], favourite: 1, small: true }
    }

    /// The next request.
    pub fn request(&mut self, model: &Model) -> Record {
        if self.random.one_in(150) {
            self.mood = self.random.pick(&MOODS);
            self.favourite = self.random.between(1, 24) as u8;
            self.small = self.random.one_in(2);
        }
        let mut request = self.meaningful(model);
        if self.random.one_in(12) {
            self.garble(&mut request);
        }
        request
    }

    fn meaningful(&mut self, model: &Model) -> Record {
        let call = if self.random.one_in(8) { self.random.between(1, 23) as u8 } else { self.random.pick(self.mood) };
        let caller = self.caller(call, model);
        let n = match call {
            4..=6 | 8 => self.process(model),
            11..=22 => self.structure(call, model),
            _ => 0,
        };
        let kind = self.random.pick(&[1, 2, 2, 3, 3, 3, 3, 4]);
        let l = match call {
            2 | 6 => self.priority(),
            10 => kind,
            18..=21 => self.length(call, n, model),
            _ => 0,
        };
        let m = match call {
            9 => self.milliseconds(),
            10 => self.amount(kind),
            _ => 0,
        };
        let data: Vec<u8> = match call {
            18 | 19 => (0..l.min(64)).map(|_| self.random.byte()).collect(),
            _ => Vec::new(),
        };
        record(call, caller, n, l, m, &data)
    }

    /// Mostly one who is allowed the call.
    fn caller(&mut self, call: u8, model: &Model) -> u8 {
        let board_only = call == 1;
        let process_only = matches!(call, 3 | 4 | 6 | 7 | 9 | 16 | 17 | 18 | 20 | 21 | 23);
        if self.random.one_in(40) {
            return self.random.below(3) as u8;
        }
        let process = process_only || model.running != 0 && !self.random.one_in(3);
        u8::from(process && !board_only)
    }

    fn process(&mut self, model: &Model) -> u8 {
        let live = model.live_processes();
        if live.is_empty() || self.random.one_in(12) {
            return self.random.below(35) as u8;
        }
        self.random.pick(&live)
    }

    /// Mostly a live structure of the right kind, often the favourite.
    fn structure(&mut self, call: u8, model: &Model) -> u8 {
        let fits = |n: u8| match model.live_structure(n) {
            Some(Structure::Semaphore(_)) => call < 18,
            Some(Structure::Ring(_)) => !(13..18).contains(&call),
            None => false,
        };
        if self.random.one_in(20) {
            return self.random.below(27) as u8;
        }
        if fits(self.favourite) && !self.random.one_in(6) {
            return self.favourite;
        }
        let live: Vec<u8> = (1..=24).filter(|&n| fits(n)).collect();
        if live.is_empty() {
            return self.random.below(27) as u8;
        }
        self.random.pick(&live)
    }

    /// Mostly few different ones, so that there are equals.
    fn priority(&mut self) -> u8 {
        if self.random.one_in(8) {
            return self.random.byte();
        }
        self.random.pick(&[0, 4, 5, 5, 5, 6, 255])
    }

    /// Mostly one that the ring can take; often one byte, just what goes, or one more.
    fn length(&mut self, call: u8, n: u8, model: &Model) -> u8 {
        let Some(ring) = model.live_ring(n) else {
            return self.random.between(1, 64) as u8;
        };
        let goes = if call < 20 { ring.room() } else { ring.held.len() };
        let length = match self.random.below(16) {
            0 => self.random.between(0, 70),
            1..=3 => goes,
            4..=5 => goes + 1,
            6..=8 => 1,
            _ => self.random.between(1, ring.size.min(64)),
        };
        length.min(if self.random.one_in(30) { 255 } else { 64 }) as u8
    }

    /// Mostly few; some for ever, or out of range.
    fn milliseconds(&mut self) -> u32 {
        if self.random.one_in(40) {
            return self.random.pick(&[2_147_483_647, 2_147_483_648]);
        }
        self.random.pick(&[0, 1, 1, 2, 2, 3, 4, 5, 9])
    }

    /// A start value or a size.
    fn amount(&mut self, kind: u8) -> u32 {
        match kind {
            1 => self.random.pick(&[0, 0, 0, 1, 1, 2]),
            2 => self.random.pick(&[0, 0, 0, 0, 1, 3, 32_760, 32_766, 32_767, 32_768]),
            3 if self.small => self.random.between(0, 12) as u32,
            3 if self.random.one_in(4) => self.random.pick(&[64, 255, 256, 257]),
            3 => self.random.between(1, 256) as u32,
            _ => self.random.below(3) as u32,
        }
    }

    /// Some bytes become others, or all.
    fn garble(&mut self, request: &mut Record) {
        let part = self.random.pick(&[2, 4, 8, RECORD]);
        for _ in 0..self.random.pick(&[1, 1, 1, 2, 3, 100]) {
            let at = self.random.below(part);
            request[at] = match self.random.below(3) {
                0 => self.random.byte(),
                1 => request[at] ^ (1 << self.random.below(8)),
                _ => self.random.below(40) as u8,
            };
        }
    }
}
