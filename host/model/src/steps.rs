//! What an accepted request does, by the paper's paragraphs under "Steps".

use crate::{Model, Place, Process, Record, Request, Ring, Semaphore, Structure};
use crate::{BAYS, DATA, PROCESSES, RECORD, STRUCTURES};
use std::collections::VecDeque;

/// Codes 0 to 2.
const DONE: u8 = 0;
const NO: u8 = 1;
const WAITS: u8 = 2;

/// The fields of a reply but for the running process.
struct Answer {
    code: u8,
    n: u8,
    l: u8,
    m: u32,
    data: [u8; DATA],
}

impl Answer {
    /// A code, and zeros.
    fn code(code: u8) -> Answer {
        Answer { code, n: 0, l: 0, m: 0, data: [0; DATA] }
    }

    /// L and data.
    fn bytes(&mut self, bytes: &[u8]) {
        self.l = bytes.len() as u8;
        self.data[..bytes.len()].copy_from_slice(bytes);
    }

    /// The 72 bytes of the reply.
    fn record(&self, running: u8) -> Record {
        let mut record = [0; RECORD];
        record[..4].copy_from_slice(&[self.code, running, self.n, self.l]);
        record[4..8].copy_from_slice(&self.m.to_le_bytes());
        record[8..].copy_from_slice(&self.data);
        record
    }
}

// A request.
impl Model {
    /// The reply to a request: refused and nothing changed, or performed.
    pub fn step(&mut self, record: &Record) -> Record {
        match self.refusal(&Request::of(record)) {
            Some(code) => Answer::code(code).record(self.running),
            None => self.perform(record),
        }
    }

    /// Does what a request asks that nothing refuses, and looks at nothing else.
    pub fn perform(&mut self, record: &Record) -> Record {
        let r = Request::of(record);
        let mut answer = Answer::code(DONE);
        match r.call {
            1 => self.tick(),
            2 => answer.n = self.create_process(r.l),
            3 => self.delete_myself(),
            4 => self.suspend(r.n),
            5 => self.resume(r.n),
            6 => self.change_priority(r.n, r.l),
            7 => self.schedule(),
            8 => self.process_state(r.n, &mut answer),
            9 => answer.code = self.sleep(r.m),
            10 => answer.n = self.create_structure(r.l, r.m),
            11 => self.structures[r.n as usize] = None,
            12 => self.structure_value(r.n, &mut answer),
            13 => self.signal(r.n),
            14 => answer.code = self.conditional_signal(r.n),
            15 => answer.n = self.signal_all(r.n),
            16 => answer.code = self.wait(r.n),
            17 => answer.code = self.conditional_wait(r.n),
            18 => answer.code = self.put(r.n, &r.data[..r.l as usize]),
            19 => answer.code = self.conditional_put(r.n, &r.data[..r.l as usize]),
            20 => self.get(r.n, r.l, &mut answer),
            21 => self.conditional_get(r.n, r.l, &mut answer),
            22 => self.reset(r.n),
            23 => self.collect(&mut answer),
            _ => unreachable!("call {} was to be refused", r.call),
        }
        self.dispatch();
        answer.record(self.running)
    }
}

// Ready line, released.
impl Model {
    /// p joins the line of its new place at the end, the ready line behind its equals.
    pub(crate) fn join(&mut self, p: u8, place: Place) {
        self.joins += 1;
        let joins = self.joins;
        let process = self.process(p);
        process.place = place;
        process.joined = joins;
        match place {
            Place::Running => self.running = p,
            Place::Ready => {
                let priority = self.priority(p);
                let less_urgent = |&other: &u8| self.priority(other) < priority;
                let at = self.ready.iter().position(less_urgent);
                self.ready.insert(at.unwrap_or(self.ready.len()), p);
            }
            Place::Parked => self.parked.push_back(p),
            Place::InLine(n) => self.semaphore(n).line.push_back(p),
            Place::Getting(n, _) => self.ring(n).getters.push_back(p),
            Place::Putting(n) => self.ring(n).putters.push_back(p),
            Place::Asleep(_) => self.sleepers.push_back(p),
        }
    }

    /// The running process goes to a line; nobody runs.
    fn caller_joins(&mut self, place: Place) {
        let caller = std::mem::take(&mut self.running);
        self.join(caller, place);
    }

    /// To the ready line, or to the end of the parked line if suspended. It has left its line already.
    fn release(&mut self, p: u8) {
        let suspended = self.process(p).suspended;
        self.join(p, if suspended { Place::Parked } else { Place::Ready });
    }

    /// If nobody runs, the head runs; if the head is strictly more urgent than the runner, they change.
    fn dispatch(&mut self) {
        let Some(&head) = self.ready.front() else {
            return;
        };
        if self.running != 0 && self.priority(head) <= self.priority(self.running) {
            return;
        }
        self.run_head();
    }

    /// The head of the ready line runs; a runner goes behind its equals.
    fn run_head(&mut self) {
        let Some(head) = self.ready.pop_front() else {
            return;
        };
        if self.running != 0 {
            self.caller_joins(Place::Ready);
        }
        self.running = head;
        self.process(head).place = Place::Running;
    }
}

// Processes and time.
impl Model {
    /// "Every sleeper's remainder falls by 1; those at 0 are released in the order they went to sleep."
    fn tick(&mut self) {
        let processes = &mut self.processes;
        let mut due = Vec::new();
        self.sleepers.retain(|&p| {
            let process = processes[p as usize].as_mut().expect("a live sleeper");
            let Place::Asleep(left) = process.place else {
                unreachable!("a sleeper is asleep");
            };
            process.place = Place::Asleep(left - 1);
            if left == 1 {
                due.push(p);
            }
            left > 1
        });
        for p in due {
            self.release(p);
        }
    }

    /// The lowest free number; the new process joins the ready line.
    fn create_process(&mut self, priority: u8) -> u8 {
        let free = |&p: &u8| self.live_process(p).is_none();
        let p = (1..=PROCESSES).find(free).expect("a free number");
        self.processes[p as usize] =
            Some(Process { priority, suspended: false, place: Place::Ready, parcel: Vec::new(), joined: 0 });
        self.join(p, Place::Ready);
        p
    }

    /// The caller goes, and its parcel with it.
    fn delete_myself(&mut self) {
        self.processes[self.running as usize] = None;
        self.running = 0;
    }

    /// Running or ready goes to the end of the parked line; waiting or asleep is marked and keeps its position.
    fn suspend(&mut self, p: u8) {
        self.process(p).suspended = true;
        match self.process(p).place {
            Place::Running => self.caller_joins(Place::Parked),
            Place::Ready => {
                self.ready.retain(|&other| other != p);
                self.join(p, Place::Parked);
            }
            _ => {}
        }
    }

    /// Undoes either; a parked one joins the ready line.
    fn resume(&mut self, p: u8) {
        self.process(p).suspended = false;
        if self.process(p).place == Place::Parked {
            self.parked.retain(|&other| other != p);
            self.join(p, Place::Ready);
        }
    }

    /// A ready process is moved behind its new equals; others only get the new number.
    fn change_priority(&mut self, p: u8, priority: u8) {
        if self.priority(p) == priority {
            return;
        }
        self.process(p).priority = priority;
        if self.process(p).place == Place::Ready {
            self.ready.retain(|&other| other != p);
            self.join(p, Place::Ready);
        }
    }

    /// If a ready process has the caller's priority, the caller goes behind its equals and the head runs.
    fn schedule(&mut self) {
        let priority = self.priority(self.running);
        if self.ready.iter().any(|&p| self.priority(p) == priority) {
            self.run_head();
        }
    }

    /// Structure waited at, priority, place code.
    fn process_state(&mut self, p: u8, answer: &mut Answer) {
        let process = self.process(p);
        let waits = process.place.number() >= 4;
        let marked = waits && process.suspended;
        answer.n = process.place.structure();
        answer.l = process.priority;
        answer.m = u32::from(process.place.number()) + if marked { 16 } else { 0 };
    }

    /// "Sleep 0 is code 0 and changes nothing."
    fn sleep(&mut self, milliseconds: u32) -> u8 {
        if milliseconds == 0 {
            return DONE;
        }
        self.caller_joins(Place::Asleep(milliseconds));
        WAITS
    }
}

// Structures and semaphores.
impl Model {
    /// The lowest free number and, for a ring, bay.
    fn create_structure(&mut self, kind: u8, amount: u32) -> u8 {
        let free = |&n: &u8| self.live_structure(n).is_none();
        let n = (1..=STRUCTURES).find(free).expect("a free number");
        let taken = |bay: u8| self.rings().any(|ring| ring.bay == bay);
        let structure = match kind {
            3 => Structure::Ring(Ring {
                bay: (1..=BAYS).find(|&bay| !taken(bay)).expect("a free bay"),
                size: amount as usize,
                ..Ring::default()
            }),
            _ => Structure::Semaphore(Semaphore { counting: kind == 2, value: amount as u16, line: VecDeque::new() }),
        };
        self.structures[n as usize] = Some(structure);
        n
    }

    /// Processes in its lines, kind, value or bytes held.
    fn structure_value(&mut self, n: u8, answer: &mut Answer) {
        let structure = self.live_structure(n).expect("a live structure");
        answer.n = structure.in_lines() as u8;
        answer.l = structure.kind();
        answer.m = match structure {
            Structure::Semaphore(semaphore) => u32::from(semaphore.value),
            Structure::Ring(ring) => ring.held.len() as u32,
        };
    }

    /// With a line, its head is released and the value stays; with none, counting rises by 1 and binary becomes 1.
    fn signal(&mut self, n: u8) {
        if self.conditional_signal(n) == DONE {
            return;
        }
        let semaphore = self.semaphore(n);
        if semaphore.counting {
            semaphore.value += 1;
        } else {
            semaphore.value = 1;
        }
    }

    /// As signal if there is a line.
    fn conditional_signal(&mut self, n: u8) -> u8 {
        let Some(head) = self.semaphore(n).line.pop_front() else {
            return NO;
        };
        self.release(head);
        DONE
    }

    /// Releases the whole line in order; the value stays. Gives how many.
    fn signal_all(&mut self, n: u8) -> u8 {
        let line = std::mem::take(&mut self.semaphore(n).line);
        for &p in &line {
            self.release(p);
        }
        line.len() as u8
    }

    /// A value above 0 falls by 1; else the caller joins the line.
    fn wait(&mut self, n: u8) -> u8 {
        if self.conditional_wait(n) == DONE {
            return DONE;
        }
        self.caller_joins(Place::InLine(n));
        WAITS
    }

    /// As wait if the value is above 0.
    fn conditional_wait(&mut self, n: u8) -> u8 {
        let semaphore = self.semaphore(n);
        if semaphore.value == 0 {
            return NO;
        }
        semaphore.value -= 1;
        DONE
    }
}

// Rings.
impl Model {
    /// At once, or the caller joins the putters' line with its bytes in its parcel.
    fn put(&mut self, n: u8, bytes: &[u8]) -> u8 {
        if self.conditional_put(n, bytes) == DONE {
            return DONE;
        }
        let caller = self.running;
        self.process(caller).parcel = bytes.to_vec();
        self.caller_joins(Place::Putting(n));
        WAITS
    }

    /// At once when nobody stands in the putters' line and the room suffices.
    fn conditional_put(&mut self, n: u8, bytes: &[u8]) -> u8 {
        let ring = self.ring(n);
        if !ring.putters.is_empty() || ring.room() < bytes.len() {
            return NO;
        }
        ring.held.extend(bytes);
        self.serve(n);
        DONE
    }

    /// At once, or the caller joins the getters' line.
    fn get(&mut self, n: u8, length: u8, answer: &mut Answer) {
        self.conditional_get(n, length, answer);
        if answer.code == NO {
            self.caller_joins(Place::Getting(n, length));
            answer.code = WAITS;
        }
    }

    /// At once when nobody stands in the getters' line and the bytes suffice.
    fn conditional_get(&mut self, n: u8, length: u8, answer: &mut Answer) {
        let ring = self.ring(n);
        if !ring.getters.is_empty() || ring.held.len() < length as usize {
            answer.code = NO;
            return;
        }
        answer.bytes(&ring.leave(length as usize));
        self.serve(n);
    }

    /// The head getter if it can be, if not the head putter; then again, until neither can.
    fn serve(&mut self, n: u8) {
        while self.serve_getter(n) || self.serve_putter(n) {}
    }

    /// Served if it wants no more than is held: its bytes lie in its parcel then.
    fn serve_getter(&mut self, n: u8) -> bool {
        let Some(&head) = self.ring(n).getters.front() else {
            return false;
        };
        let Place::Getting(_, length) = self.process(head).place else {
            unreachable!("a getter gets");
        };
        let ring = self.ring(n);
        if length as usize > ring.held.len() {
            return false;
        }
        ring.getters.pop_front();
        self.process(head).parcel = self.ring(n).leave(length as usize);
        self.release(head);
        true
    }

    /// Goes in when there is room: its parcel is emptied then.
    fn serve_putter(&mut self, n: u8) -> bool {
        let Some(&head) = self.ring(n).putters.front() else {
            return false;
        };
        if self.process(head).parcel.len() > self.ring(n).room() {
            return false;
        }
        let bytes = std::mem::take(&mut self.process(head).parcel);
        let ring = self.ring(n);
        ring.putters.pop_front();
        ring.held.extend(bytes);
        self.release(head);
        true
    }

    /// Throws the held bytes away, then serves.
    fn reset(&mut self, n: u8) {
        let ring = self.ring(n);
        ring.leave(ring.held.len());
        self.serve(n);
    }

    /// Brings a served getter's bytes and empties its parcel.
    fn collect(&mut self, answer: &mut Answer) {
        let caller = self.running;
        let bytes = std::mem::take(&mut self.process(caller).parcel);
        answer.bytes(&bytes);
        if bytes.is_empty() {
            answer.code = NO;
        }
    }
}
