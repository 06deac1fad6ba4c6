//! The state's bytes by docs/LAYOUT.md, and the paper's paragraph "Sound".

use crate::{Model, Place, Process, Ring, Semaphore, Structure};
use crate::{BAYS, DATA, LARGEST_COUNT, LARGEST_RING, LONGEST_SLEEP, PROCESSES, STRUCTURES};
use std::collections::VecDeque;
use std::ops::Range;

/// Bytes of a state.
pub const LENGTH: usize = 4569;

const ORDER: Range<usize> = 1..33;

/// Where process p's entry lies.
fn process_entry(p: u8) -> Range<usize> {
    entry(33, 8, p)
}

/// Where structure n's entry lies.
fn structure_entry(n: u8) -> Range<usize> {
    entry(289, 3, n)
}

/// Where bay b's numbers lie.
fn bay_numbers(b: u8) -> Range<usize> {
    entry(361, 6, b)
}

/// Where it is said what process p's parcel holds.
fn parcel_numbers(p: u8) -> Range<usize> {
    entry(409, 2, p)
}

/// Where bay b's bytes lie.
fn bay_bytes(b: u8) -> Range<usize> {
    entry(473, LARGEST_RING, b)
}

/// Where process p's parcel's bytes lie.
fn parcel_bytes(p: u8) -> Range<usize> {
    entry(2521, DATA, p)
}

/// Entry `number`, counted from 1, of a table that begins at `offset`.
fn entry(offset: usize, bytes: usize, number: u8) -> Range<usize> {
    let begin = offset + bytes * (number as usize - 1);
    begin..begin + bytes
}

// Writing.
impl Model {
    /// The state's bytes; what nothing uses is zero.
    pub fn write(&self) -> Vec<u8> {
        let mut bytes = vec![0; LENGTH];
        bytes[0] = self.running;
        let mut order = self.live_processes();
        order.sort_by_key(|&p| self.live_process(p).map(|process| process.joined));
        bytes[ORDER.end - order.len()..ORDER.end].copy_from_slice(&order);
        for p in order {
            self.write_process(p, &mut bytes);
        }
        for n in self.live_structures() {
            self.write_structure(n, &mut bytes);
        }
        bytes
    }

    fn write_process(&self, p: u8, bytes: &mut [u8]) {
        let process = self.live_process(p).expect("a live process");
        let parcel = &process.parcel;
        let amount = match process.place {
            Place::Getting(_, length) => u32::from(length),
            Place::Putting(_) => parcel.len() as u32,
            Place::Asleep(left) => left,
            _ => 0,
        };
        let entry = &mut bytes[process_entry(p)];
        entry[0] = process.priority;
        entry[1] = u8::from(process.suspended);
        entry[2] = process.place.number();
        entry[3] = process.place.structure();
        entry[4..].copy_from_slice(&amount.to_le_bytes());
        bytes[parcel_numbers(p)].copy_from_slice(&[u8::from(!parcel.is_empty()), parcel.len() as u8]);
        bytes[parcel_bytes(p)][..parcel.len()].copy_from_slice(parcel);
    }

    fn write_structure(&self, n: u8, bytes: &mut [u8]) {
        let structure = self.live_structure(n).expect("a live structure");
        let value = match structure {
            Structure::Semaphore(semaphore) => semaphore.value,
            Structure::Ring(ring) => u16::from(ring.bay),
        };
        let entry = &mut bytes[structure_entry(n)];
        entry[0] = structure.kind();
        entry[1..].copy_from_slice(&value.to_le_bytes());
        if let Structure::Ring(ring) = structure {
            write_ring(ring, bytes);
        }
    }
}

/// A ring is a circle of its bay's first `size` bytes.
fn write_ring(ring: &Ring, bytes: &mut [u8]) {
    let numbers = [ring.start, ring.size, ring.held.len()];
    for (at, number) in bay_numbers(ring.bay).step_by(2).zip(numbers) {
        bytes[at..at + 2].copy_from_slice(&(number as u16).to_le_bytes());
    }
    let bay = &mut bytes[bay_bytes(ring.bay)];
    for (i, &byte) in ring.held.iter().enumerate() {
        bay[(ring.start + i) % ring.size] = byte;
    }
}

// Reading.
impl Model {
    /// What the bytes say, if they are a sound state. Unused room is zero if writing gives the same bytes.
    pub fn read(bytes: &[u8]) -> Option<Model> {
        let model = Model::read_untested(bytes)?;
        (model.sound() && model.write() == bytes).then_some(model)
    }

    /// The tables and lines that the bytes name, sound or not; none where a number names nothing.
    pub fn read_untested(bytes: &[u8]) -> Option<Model> {
        if bytes.len() != LENGTH {
            return None;
        }
        let mut model = Model::fresh();
        for n in 1..=STRUCTURES {
            model.structures[n as usize] = read_structure(n, bytes)?;
        }
        for p in 1..=PROCESSES {
            model.processes[p as usize] = read_process(p, bytes)?;
        }
        for &p in bytes[ORDER].iter().filter(|&&p| p != 0) {
            let place = model.live_process(p)?.place;
            model.has_line(place).then(|| model.join(p, place))?;
        }
        model.running = bytes[0];
        Some(model)
    }

    /// Is there a structure of the right kind behind a place?
    fn has_line(&self, place: Place) -> bool {
        match place {
            Place::InLine(n) => matches!(self.live_structure(n), Some(Structure::Semaphore(_))),
            Place::Getting(n, _) | Place::Putting(n) => self.live_ring(n).is_some(),
            _ => true,
        }
    }
}

/// A number of two bytes.
fn u16_at(bytes: &[u8], at: usize) -> u16 {
    u16::from_le_bytes([bytes[at], bytes[at + 1]])
}

/// Process p or a free entry; none where the bytes are neither.
fn read_process(p: u8, bytes: &[u8]) -> Option<Option<Process>> {
    let entry = &bytes[process_entry(p)];
    let (structure, amount) = (entry[3], u32::from_le_bytes(entry[4..].try_into().ok()?));
    let place = match entry[2] {
        0 => return Some(None),
        1 => Place::Running,
        2 => Place::Ready,
        3 => Place::Parked,
        4 => Place::InLine(structure),
        5 => Place::Getting(structure, u8::try_from(amount).ok()?),
        6 => Place::Putting(structure),
        7 => Place::Asleep(amount),
        _ => return None,
    };
    let held = bytes[parcel_numbers(p)][1] as usize;
    Some(Some(Process {
        priority: entry[0],
        suspended: entry[1] != 0,
        place,
        parcel: bytes[parcel_bytes(p)].get(..held)?.to_vec(),
        joined: 0,
    }))
}

/// Structure n or a free entry; none where the bytes are neither.
fn read_structure(n: u8, bytes: &[u8]) -> Option<Option<Structure>> {
    let entry = &bytes[structure_entry(n)];
    let value = u16_at(entry, 1);
    match entry[0] {
        0 => Some(None),
        kind @ 1..=2 => {
            Some(Some(Structure::Semaphore(Semaphore { counting: kind == 2, value, line: VecDeque::new() })))
        }
        3 => Some(Some(Structure::Ring(read_ring(value, bytes)?))),
        _ => None,
    }
}

/// The ring in a bay, with no lines yet; none where bay or size is none.
fn read_ring(bay: u16, bytes: &[u8]) -> Option<Ring> {
    let bay = u8::try_from(bay).ok()?;
    if !(1..=BAYS).contains(&bay) {
        return None;
    }
    let numbers = &bytes[bay_numbers(bay)];
    let [start, size, held] = [0, 2, 4].map(|at| u16_at(numbers, at) as usize);
    if !(1..=LARGEST_RING).contains(&size) {
        return None;
    }
    let byte = |i| bytes[bay_bytes(bay)][(start + i) % size];
    Some(Ring { bay, size, start, held: (0..held).map(byte).collect(), ..Ring::default() })
}

// Sound.
impl Model {
    /// The paper's sentences in their order, but for two: tables have no unused room, and the layout's ready line falls
    /// in priority however its bytes are.
    pub fn sound(&self) -> bool {
        self.listed_once()
            && self.structures.iter().flatten().all(in_range)
            && self.live_processes().iter().all(|&p| self.fits(p))
            && self.runner_is_most_urgent()
            && !self.structures.iter().flatten().any(|s| self.could_serve(s))
            && self.bays_apart()
    }

    /// "Every live process is listed in exactly one place, nothing else is listed."
    fn listed_once(&self) -> bool {
        let mut listed: Vec<u8> = Vec::from_iter((self.running != 0).then_some(self.running));
        for line in [&self.ready, &self.parked, &self.sleepers] {
            listed.extend(line);
        }
        for structure in self.structures.iter().flatten() {
            match structure {
                Structure::Semaphore(semaphore) => listed.extend(&semaphore.line),
                Structure::Ring(ring) => listed.extend(ring.getters.iter().chain(&ring.putters)),
            }
        }
        listed.sort_unstable();
        listed == self.live_processes()
    }

    /// Lengths and remainder in range, suspended or not and its parcel as its place asks; a parcel of more than 64 was
    /// not read.
    fn fits(&self, p: u8) -> bool {
        let process = self.live_process(p).expect("a live process");
        let parcel = process.parcel.len();
        let transfer = |n, length| {
            let size = self.live_ring(n).map_or(0, |ring| ring.size);
            (1..=DATA.min(size)).contains(&length)
        };
        match process.place {
            Place::Running | Place::Ready => !process.suspended,
            Place::Parked => process.suspended,
            Place::InLine(_) => true,
            Place::Getting(n, length) => transfer(n, length as usize) && parcel == 0,
            Place::Putting(n) => transfer(n, parcel),
            Place::Asleep(left) => (1..=LONGEST_SLEEP).contains(&left),
        }
    }

    /// "Running is 0 only with an empty ready line, and is no less urgent than its head."
    fn runner_is_most_urgent(&self) -> bool {
        match self.ready.front() {
            None => true,
            Some(&head) => self.running != 0 && self.priority(self.running) >= self.priority(head),
        }
    }

    /// Could the head of one of its lines be served?
    fn could_serve(&self, structure: &Structure) -> bool {
        let place = |head: &u8| self.live_process(*head).map(|process| process.place);
        let parcel = |head: &u8| self.live_process(*head).map_or(0, |p| p.parcel.len());
        match structure {
            Structure::Semaphore(semaphore) => semaphore.value > 0 && !semaphore.line.is_empty(),
            Structure::Ring(ring) => {
                let gets = match ring.getters.front().and_then(place) {
                    Some(Place::Getting(_, length)) => length as usize <= ring.held.len(),
                    _ => false,
                };
                gets || ring.putters.front().is_some_and(|head| parcel(head) <= ring.room())
            }
        }
    }

    /// "Each live ring has a bay of its own."
    fn bays_apart(&self) -> bool {
        let mut bays: Vec<u8> = self.rings().map(|ring| ring.bay).collect();
        let rings = bays.len();
        bays.sort_unstable();
        bays.dedup();
        bays.len() == rings
    }
}

/// Its values in range; a ring's size was seen to when it was read.
fn in_range(structure: &Structure) -> bool {
    match structure {
        Structure::Semaphore(semaphore) if semaphore.counting => semaphore.value <= LARGEST_COUNT,
        Structure::Semaphore(semaphore) => semaphore.value <= 1,
        Structure::Ring(ring) => ring.start < ring.size && ring.held.len() <= ring.size,
    }
}
