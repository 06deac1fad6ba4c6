//! Codes 41 to 53: when each applies, in the paper's words.

use crate::{Model, Request, Structure};
use crate::{BAYS, DATA, LARGEST_COUNT, LARGEST_RING, LONGEST_SLEEP, PROCESSES, STRUCTURES};

/// Which callers a call is allowed: (board, process).
fn allowed(call: u8) -> (bool, bool) {
    match call {
        1 => (true, false),
        3 | 4 | 6 | 7 | 9 | 16 | 17 | 18 | 20 | 21 | 23 => (false, true),
        _ => (true, true),
    }
}

/// Is N a process here?
fn names_process(call: u8) -> bool {
    matches!(call, 4..=6 | 8)
}

/// Is N a structure here?
fn names_structure(call: u8) -> bool {
    matches!(call, 11..=22)
}

/// Is L the length of a transfer here?
fn transfers(call: u8) -> bool {
    matches!(call, 18..=21)
}

/// "A field out of range, or an unused one not zero".
fn bad_field(r: &Request) -> bool {
    let n_good = names_process(r.call) || names_structure(r.call) || r.n == 0;
    let l_good = match r.call {
        2 | 6 => true,
        10 => matches!(r.l, 1..=3),
        _ if transfers(r.call) => (1..=DATA).contains(&(r.l as usize)),
        _ => r.l == 0,
    };
    let m_good = match (r.call, r.l) {
        (9, _) => r.m <= LONGEST_SLEEP,
        (10, 1) => r.m <= 1,
        (10, 2) => r.m <= u32::from(LARGEST_COUNT),
        (10, 3) => (1..=LARGEST_RING).contains(&(r.m as usize)),
        _ => r.m == 0,
    };
    let brought = match r.call {
        18 | 19 => DATA.min(r.l as usize),
        _ => 0,
    };
    let data_good = r.data[brought..].iter().all(|&byte| byte == 0);
    !(n_good && l_good && m_good && data_good)
}

impl Model {
    /// The lowest number that applies.
    pub fn refusal(&self, r: &Request) -> Option<u8> {
        (41..=53).find(|&code| self.applies(code, r))
    }

    /// The paper's table, a line for each number; that no lower number applies may be relied on.
    fn applies(&self, code: u8, r: &Request) -> bool {
        let process = self.live_process(r.n).filter(|_| names_process(r.call));
        let structure = self.live_structure(r.n).filter(|_| names_structure(r.call));
        match code {
            41 => r.call == 0 || r.call > 23,
            42 => match r.caller {
                0 => !allowed(r.call).0,
                1 => !allowed(r.call).1 || self.running == 0,
                _ => true,
            },
            43 => bad_field(r),
            44 => names_structure(r.call) && structure.is_none(),
            45 => match structure {
                Some(Structure::Semaphore(_)) => matches!(r.call, 18..=22),
                Some(Structure::Ring(_)) => matches!(r.call, 13..=17),
                None => false,
            },
            46 => names_process(r.call) && process.is_none(),
            47 => process.is_some_and(|process| match r.call {
                4 => process.suspended,
                5 => !process.suspended,
                _ => false,
            }),
            48 => transfers(r.call) && r.caller == 1 && self.uncollected(),
            49 => match structure {
                Some(Structure::Ring(ring)) => r.l as usize > ring.size,
                _ => false,
            },
            50 => match structure {
                Some(Structure::Semaphore(semaphore)) => r.call == 13 && semaphore.value == LARGEST_COUNT,
                _ => false,
            },
            51 => r.call == 11 && structure.is_some_and(|s| s.in_lines() > 0),
            52 => r.call == 2 && self.live_processes().len() == PROCESSES.into(),
            53 => {
                let no_number = self.live_structures().len() == STRUCTURES.into();
                let no_bay = r.l == 3 && self.rings().count() == BAYS.into();
                r.call == 10 && (no_number || no_bay)
            }
            _ => false,
        }
    }

    /// Does the caller's parcel hold uncollected bytes?
    fn uncollected(&self) -> bool {
        self.live_process(self.running).is_some_and(|caller| !caller.parcel.is_empty())
    }
}
