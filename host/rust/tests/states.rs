//! A state is accepted exactly when the model says that it is sound; on 40 nothing changes.

mod common;

use common::{first_seed, record, Asker, Pair, Random};
use model::{Model, Place, Process, Record, Ring, Semaphore, Structure, LENGTH, RECORD};

/// Bytes before the bays' and parcels' bytes.
const CONTROL: usize = 473;

/// How many states were accepted, how many not.
#[derive(Default, Debug)]
struct Verdicts {
    sound: usize,
    damaged: usize,
}

impl Verdicts {
    /// Kernel and model judge a state and, where it is sound, do the same with it.
    fn judge(&mut self, state: &[u8], request: &Record, name: &dyn Fn() -> String) {
        let mut after = state.to_vec();
        let mut reply = [0xEE; RECORD];
        let code = brombeertor::call(&mut after, request, &mut reply);
        let Some(mut model) = Model::read(state) else {
            self.damaged += 1;
            assert_eq!(code, 40, "not sound says the model, {}", name());
            assert_eq!(reply, record(40, 0, 0, 0, 0, &[]), "{}", name());
            assert!(after == state, "40 and yet the state changed, {}", name());
            return;
        };
        self.sound += 1;
        assert_eq!(reply, model.step(request), "sound says the model, {}", name());
        assert_eq!(code, u32::from(reply[0]), "{}", name());
        assert!(after == model.write(), "another state afterwards, {}", name());
    }
}

/// A panel after some requests.
fn lived_in(seed: u64, asker: &mut Asker, requests: usize) -> Pair {
    let mut pair = Pair::fresh(format!("BROMBEERTOR_SEED={seed}, on the way to a state"));
    for _ in 0..requests {
        let request = asker.request(&pair.model);
        pair.ask(&request);
    }
    pair
}

/// One damage: a byte, a bit, a plausible small number, a number one off, a block, two bytes or entries exchanged.
fn damage(state: &mut [u8], random: &mut Random) {
    let part = if random.one_in(5) { LENGTH } else { CONTROL };
    let at = random.below(part);
    match random.below(8) {
        0 => state[at] = random.byte(),
        1 => state[at] ^= 1 << random.below(8),
        2 => state[at] = random.below(9) as u8,
        3 => state[at] = state[at].wrapping_add(random.pick(&[1, 255])),
        4 => {
            let end = LENGTH.min(at + random.between(1, 64));
            state[at..end].iter_mut().for_each(|byte| *byte = random.byte());
        }
        5 => state[at..LENGTH.min(at + random.between(1, 16))].fill(0),
        6 => state.swap(random.between(1, 32), random.between(1, 32)),
        _ => exchange(state, random),
    }
}

/// Exchanges two entries of one of the tables.
fn exchange(state: &mut [u8], random: &mut Random) {
    let (offset, bytes, entries) = random.pick(&[(33, 8, 32), (289, 3, 24), (361, 6, 8), (409, 2, 32)]);
    let (one, other) = (random.below(entries), random.below(entries));
    for i in 0..bytes {
        state.swap(offset + one * bytes + i, offset + other * bytes + i);
    }
}

#[test]
fn damaged_at_random() {
    let first = first_seed();
    let mut verdicts = Verdicts::default();
    for seed in first..first + 300 {
        let mut asker = Asker::new(seed);
        let requests = asker.random.between(0, 1000);
        let pair = lived_in(seed, &mut asker, requests);
        for copy in 0..500 {
            let mut state = pair.state.clone();
            for _ in 0..asker.random.pick(&[1, 1, 1, 2]) {
                damage(&mut state, &mut asker.random);
            }
            let request = asker.request(&pair.model);
            let name = || format!("BROMBEERTOR_SEED={seed}, copy {copy}");
            verdicts.judge(&state, &request, &name);
        }
    }
    println!("seeds from {first}: {verdicts:?}");
    assert!(verdicts.sound >= 10_000 && verdicts.damaged >= 10_000);
}

/// Every value of every byte of the control part, some values of the others.
#[test]
fn every_byte_every_value() {
    let first = first_seed();
    let mut verdicts = Verdicts::default();
    let request = record(12, 0, 1, 0, 0, &[]);
    for seed in first..first + 3 {
        let mut state = lived_in(seed, &mut Asker::new(seed), 700).state;
        for at in 0..LENGTH {
            let kept = state[at];
            let tried = |&value: &u8| at < CONTROL || matches!(value, 0 | 1 | 0x80 | 0xFF);
            for value in (0..=255).filter(tried) {
                state[at] = value;
                let name = || format!("BROMBEERTOR_SEED={seed}, byte {at} = {value}");
                verdicts.judge(&state, &request, &name);
            }
            state[at] = kept;
        }
    }
    println!("seeds from {first}: {verdicts:?}");
    assert!(verdicts.sound >= 10_000 && verdicts.damaged >= 10_000);
}

/// A state made by hand, as no run makes it: any numbers, any bays, any starts, any order. Most are sound.
fn built(random: &mut Random) -> Vec<u8> {
    let mut model = Model::fresh();
    let mut bays: Vec<u8> = (1..=8).collect();
    random.shuffle(&mut bays);
    for n in 1..=24 {
        model.structures[n] = built_structure(random, &mut bays);
    }
    let mut joins: Vec<u64> = (1..=32).collect();
    random.shuffle(&mut joins);
    let crowd = random.between(1, 8);
    for p in 1..=32 {
        if random.below(8) < crowd {
            model.processes[p] = Some(built_process(random, &model, joins[p - 1]));
        }
    }
    somebody_runs(random, &mut model);
    model.write()
}

/// A structure of any kind, or none; a ring takes one of the bays.
fn built_structure(random: &mut Random, bays: &mut Vec<u8>) -> Option<Structure> {
    let counting = random.one_in(2);
    match random.below(6) {
        0 => None,
        1 | 2 => Some(Structure::Semaphore(Semaphore {
            counting,
            value: if counting { random.pick(&[1, 500, 32_767]) } else { 1 },
            ..Semaphore::default()
        })),
        3 => Some(Structure::Semaphore(Semaphore { counting, ..Semaphore::default() })),
        _ => {
            let size = random.pick(&[1, 2, 8, 40, 64, 200, 256]);
            let held = random.between(0, size);
            Some(Structure::Ring(Ring {
                bay: bays.pop()?,
                size,
                start: random.below(size),
                held: (0..held).map(|_| random.byte()).collect(),
                ..Ring::default()
            }))
        }
    }
}

/// A process in some place; where it would wait at a structure that it could pass, it is parked instead.
fn built_process(random: &mut Random, model: &Model, joined: u64) -> Process {
    let n = random.between(1, 24) as u8;
    let bold = random.one_in(60);
    let mut process = Process {
        priority: random.pick(&[0, 5, 5, 5, 9, 200, 255]),
        suspended: random.one_in(3),
        place: Place::Parked,
        parcel: Vec::new(),
        joined,
    };
    process.place = match (random.below(8), model.live_structure(n)) {
        (0, _) => Place::Ready,
        (1, _) => Place::Asleep(random.pick(&[1, 2, 77, 2_147_483_647])),
        (_, Some(Structure::Semaphore(semaphore))) if bold || semaphore.value == 0 => Place::InLine(n),
        (2..=4, Some(Structure::Ring(ring))) => match longer(random, ring.held.len(), ring.size) {
            Some(length) => Place::Getting(n, length),
            None => Place::Parked,
        },
        (_, Some(Structure::Ring(ring))) => match longer(random, ring.room(), ring.size) {
            Some(length) => {
                process.parcel = (0..length).map(|_| random.byte()).collect();
                Place::Putting(n)
            }
            None => Place::Parked,
        },
        _ => Place::Parked,
    };
    match process.place {
        Place::Ready => process.suspended = bold,
        Place::Parked => process.suspended = !bold,
        _ => {}
    }
    let collects = !matches!(process.place, Place::Getting(..) | Place::Putting(_));
    if collects && random.one_in(3) {
        process.parcel = (0..random.between(1, 64)).map(|_| random.byte()).collect();
    }
    process
}

/// A length that cannot be served, mostly: above `goes`, at most the size and 64.
fn longer(random: &mut Random, goes: usize, size: usize) -> Option<u8> {
    let low = if random.one_in(20) { 0 } else { goes };
    let high = size.min(64);
    (low < high).then(|| random.between(low + 1, high) as u8)
}

/// The most urgent of the ready ones runs, not always the first of them.
fn somebody_runs(random: &mut Random, model: &mut Model) {
    let ready = |model: &Model, p: u8| {
        let process = model.live_process(p).filter(|process| process.place == Place::Ready);
        process.map(|process| (process.priority, p))
    };
    let best = (1..=32).filter_map(|p| ready(model, p)).max();
    if let Some((_, p)) = best.filter(|_| !random.one_in(30)) {
        model.running = p;
        model.processes[p as usize].as_mut().unwrap().place = Place::Running;
    }
}

/// What was built is judged; where it is sound, some requests follow.
#[test]
fn built_by_hand() {
    let first = first_seed();
    let mut verdicts = Verdicts::default();
    for seed in first..first + 20_000 {
        let mut asker = Asker::new(seed);
        let state = built(&mut asker.random);
        let name = format!("BROMBEERTOR_SEED={seed}, built by hand");
        let request = record(8, 0, 1, 0, 0, &[]);
        verdicts.judge(&state, &request, &|| name.clone());
        let Some(model) = Model::read(&state) else {
            continue;
        };
        let mut pair = Pair::with_state(state, model, name);
        for _ in 0..10 {
            let request = asker.request(&pair.model);
            pair.ask(&request);
        }
    }
    println!("seeds from {first}: {verdicts:?}");
    assert!(verdicts.sound >= 5_000 && verdicts.damaged >= 1_000);
}

#[test]
fn what_the_model_writes_it_reads() {
    let first = first_seed();
    for seed in first..first + 50 {
        let state = lived_in(seed, &mut Asker::new(seed), 500).state;
        let model = Model::read(&state).expect("a run leads to a sound state");
        assert_eq!(model.write(), state);
    }
}

/// 39 and 40 by lengths alone; a buffer that is not written keeps its bytes.
#[test]
fn wrong_lengths() {
    let request = record(2, 0, 0, 9, 0, &[]);
    for length in [0, 1, 71, 73, 144] {
        let mut state = vec![0xEE; LENGTH];
        let mut long = request.to_vec();
        long.resize(length, 0);
        let mut reply = vec![0xEE; RECORD];
        // 39 comes first, though the state is not sound either.
        assert_eq!(brombeertor::call(&mut state, &long, &mut reply), 39);
        let mut other = vec![0xEE; length];
        assert_eq!(brombeertor::call(&mut state, &request, &mut other), 39);
        let kept = [&state, &reply, &other].iter().all(|bytes| bytes.iter().all(|&b| b == 0xEE));
        assert!(kept, "39 and yet a buffer changed");
    }
    for length in [0, 1, LENGTH - 1, LENGTH + 1, 2 * LENGTH] {
        let mut state = vec![0; length];
        let mut reply = [0xEE; RECORD];
        assert_eq!(brombeertor::call(&mut state, &request, &mut reply), 40);
        assert_eq!(reply, record(40, 0, 0, 0, 0, &[]));
        assert!(state.iter().all(|&byte| byte == 0), "40 and yet the state changed");
        let mut lent = vec![0xEE; length];
        assert_eq!(brombeertor::fresh(&mut lent), 40);
        assert!(lent.iter().all(|&byte| byte == 0xEE), "40 and yet the buffer changed");
    }
    assert_eq!(brombeertor::state_length(), LENGTH);
    assert_eq!(brombeertor::STATE, LENGTH);
}
