//! Document 01 again, in plain Rust and written from the paper alone: a queue for each line, nothing proved.
//! The kernel's tests compare every reply and every state with it; `host/speed` measures against its `perform`.

mod refusals;
mod state;
mod steps;

pub use state::LENGTH;
use std::collections::VecDeque;

/// Bytes of a request or a reply.
pub const RECORD: usize = 72;
/// A request or a reply as it lies in memory.
pub type Record = [u8; RECORD];
/// The most bytes that one transfer moves.
pub const DATA: usize = 64;

pub const PROCESSES: u8 = 32;
pub const STRUCTURES: u8 = 24;
pub const BAYS: u8 = 8;
pub const LARGEST_COUNT: u16 = 32_767;
pub const LARGEST_RING: usize = 256;
pub const LONGEST_SLEEP: u32 = 2_147_483_647;

/// The fields of a request.
#[derive(Clone, Copy)]
pub struct Request {
    pub call: u8,
    pub caller: u8,
    pub n: u8,
    pub l: u8,
    pub m: u32,
    pub data: [u8; DATA],
}

impl Request {
    /// Reads the 72 bytes.
    pub fn of(record: &Record) -> Request {
        Request {
            call: record[0],
            caller: record[1],
            n: record[2],
            l: record[3],
            m: u32::from_le_bytes(record[4..8].try_into().unwrap()),
            data: record[8..].try_into().unwrap(),
        }
    }
}

/// A live process's one place; structures by number, a getter with its length, a sleeper with its remainder.
/// A putter's length is that of its parcel.
#[derive(Clone, Copy, PartialEq, Eq, Debug)]
pub enum Place {
    Running,
    Ready,
    Parked,
    InLine(u8),
    Getting(u8, u8),
    Putting(u8),
    Asleep(u32),
}

impl Place {
    /// The paper's number of the place.
    pub fn number(self) -> u8 {
        match self {
            Place::Running => 1,
            Place::Ready => 2,
            Place::Parked => 3,
            Place::InLine(_) => 4,
            Place::Getting(..) => 5,
            Place::Putting(_) => 6,
            Place::Asleep(_) => 7,
        }
    }

    /// The structure waited at, or 0.
    pub fn structure(self) -> u8 {
        match self {
            Place::InLine(n) | Place::Getting(n, _) | Place::Putting(n) => n,
            _ => 0,
        }
    }
}

#[derive(Clone, Debug)]
pub struct Process {
    pub priority: u8,
    pub suspended: bool,
    pub place: Place,
    pub parcel: Vec<u8>,
    /// Which join of a line was its last: only the state's layout asks.
    pub joined: u64,
}

#[derive(Clone, Debug, Default)]
pub struct Semaphore {
    pub counting: bool,
    pub value: u16,
    pub line: VecDeque<u8>,
}

#[derive(Clone, Debug, Default)]
pub struct Ring {
    pub bay: u8,
    pub size: usize,
    /// Where the first held byte lies in the bay: only the state's layout asks.
    pub start: usize,
    pub held: VecDeque<u8>,
    pub getters: VecDeque<u8>,
    pub putters: VecDeque<u8>,
}

impl Ring {
    /// How many bytes more it could hold.
    pub fn room(&self) -> usize {
        self.size - self.held.len()
    }

    /// The first bytes leave.
    pub(crate) fn leave(&mut self, length: usize) -> Vec<u8> {
        self.start = (self.start + length) % self.size;
        self.held.drain(..length).collect()
    }
}

#[derive(Clone, Debug)]
pub enum Structure {
    Semaphore(Semaphore),
    Ring(Ring),
}

impl Structure {
    /// The paper's number of the kind.
    pub fn kind(&self) -> u8 {
        match self {
            Structure::Semaphore(semaphore) => 1 + u8::from(semaphore.counting),
            Structure::Ring(_) => 3,
        }
    }

    /// How many processes stand in its lines.
    pub fn in_lines(&self) -> usize {
        match self {
            Structure::Semaphore(semaphore) => semaphore.line.len(),
            Structure::Ring(ring) => ring.getters.len() + ring.putters.len(),
        }
    }
}

/// What the panel holds. Entry 0 of both tables is nobody's.
#[derive(Clone, Debug)]
pub struct Model {
    pub running: u8,
    pub processes: Vec<Option<Process>>,
    pub structures: Vec<Option<Structure>>,
    pub ready: VecDeque<u8>,
    pub parked: VecDeque<u8>,
    pub sleepers: VecDeque<u8>,
    joins: u64,
}

impl Model {
    /// Nothing live, running 0.
    pub fn fresh() -> Model {
        Model {
            running: 0,
            processes: vec![None; PROCESSES as usize + 1],
            structures: vec![None; STRUCTURES as usize + 1],
            ready: VecDeque::new(),
            parked: VecDeque::new(),
            sleepers: VecDeque::new(),
            joins: 0,
        }
    }

    /// Process n if it is live.
    pub fn live_process(&self, n: u8) -> Option<&Process> {
        self.processes.get(n as usize)?.as_ref()
    }

    /// Structure n if it is live.
    pub fn live_structure(&self, n: u8) -> Option<&Structure> {
        self.structures.get(n as usize)?.as_ref()
    }

    /// Structure n if it is a live ring.
    pub fn live_ring(&self, n: u8) -> Option<&Ring> {
        match self.live_structure(n)? {
            Structure::Ring(ring) => Some(ring),
            Structure::Semaphore(_) => None,
        }
    }

    /// The numbers of the live processes, rising.
    pub fn live_processes(&self) -> Vec<u8> {
        (1..=PROCESSES).filter(|&p| self.live_process(p).is_some()).collect()
    }

    /// The numbers of the live structures, rising.
    pub fn live_structures(&self) -> Vec<u8> {
        (1..=STRUCTURES).filter(|&n| self.live_structure(n).is_some()).collect()
    }

    /// The live rings.
    pub fn rings(&self) -> impl Iterator<Item = &Ring> {
        self.structures.iter().flatten().filter_map(|s| match s {
            Structure::Ring(ring) => Some(ring),
            Structure::Semaphore(_) => None,
        })
    }

    /// A live process, to be changed.
    fn process(&mut self, p: u8) -> &mut Process {
        self.processes[p as usize].as_mut().expect("a live process")
    }

    /// Nobody has priority 0.
    fn priority(&self, p: u8) -> u8 {
        self.live_process(p).map_or(0, |process| process.priority)
    }

    /// A live semaphore, to be changed.
    fn semaphore(&mut self, n: u8) -> &mut Semaphore {
        match &mut self.structures[n as usize] {
            Some(Structure::Semaphore(semaphore)) => semaphore,
            _ => panic!("structure {n} is no semaphore"),
        }
    }

    /// A live ring, to be changed.
    fn ring(&mut self, n: u8) -> &mut Ring {
        match &mut self.structures[n as usize] {
            Some(Structure::Ring(ring)) => ring,
            _ => panic!("structure {n} is no ring"),
        }
    }
}
