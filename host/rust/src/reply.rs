//! What a call gives back.

use crate::{Record, Request, DATA};

/// Codes 0 to 2.
#[derive(Clone, Copy, Debug, PartialEq, Eq)]
pub enum Outcome {
    Done = 0,
    No = 1,
    Waits = 2,
}

/// Codes 39 to 53: why a request was refused. The state is as it was.
#[derive(Clone, Copy, Debug, PartialEq, Eq)]
pub enum Refusal {
    LengthWrong = 39,
    NotSound = 40,
    UnknownCall = 41,
    WrongCaller = 42,
    BadField = 43,
    DeadStructure = 44,
    WrongKind = 45,
    DeadProcess = 46,
    WrongSuspension = 47,
    Uncollected = 48,
    TooLong = 49,
    SignalsFull = 50,
    DeletesInUse = 51,
    ProcessesFull = 52,
    StructuresFull = 53,
}

impl Refusal {
    const ALL: [Refusal; 15] = [
        Refusal::LengthWrong,
        Refusal::NotSound,
        Refusal::UnknownCall,
        Refusal::WrongCaller,
        Refusal::BadField,
        Refusal::DeadStructure,
        Refusal::WrongKind,
        Refusal::DeadProcess,
        Refusal::WrongSuspension,
        Refusal::Uncollected,
        Refusal::TooLong,
        Refusal::SignalsFull,
        Refusal::DeletesInUse,
        Refusal::ProcessesFull,
        Refusal::StructuresFull,
    ];
}

/// Up to 64 bytes.
#[derive(Clone, Copy, Debug, PartialEq, Eq)]
pub struct Bytes {
    length: u8,
    data: [u8; DATA],
}

impl Bytes {
    pub fn as_slice(&self) -> &[u8] {
        &self.data[..self.length as usize]
    }
}

/// What a reply tells beyond the code.
#[derive(Clone, Copy, Debug, PartialEq, Eq)]
pub enum Told {
    Nothing,
    /// The number of what was created.
    Created(u8),
    /// Place is 01's place code; structure is 0 where it waits at none.
    ProcessState {
        structure: u8,
        priority: u8,
        place: u8,
    },
    /// Value is a semaphore's value or a ring's bytes held.
    StructureValue {
        in_lines: u8,
        kind: u8,
        value: u32,
    },
    /// How many were released.
    Released(u8),
    /// What was got or collected.
    Bytes(Bytes),
}

/// The reply to an accepted request.
#[derive(Clone, Copy, Debug, PartialEq, Eq)]
pub struct Reply {
    pub outcome: Outcome,
    /// The process running afterwards, or 0.
    pub running: u8,
    pub told: Told,
}

impl Reply {
    /// What the record of a reply to this request says.
    pub(crate) fn of(request: &Request, record: &Record) -> Result<Reply, Refusal> {
        let outcome = match record[0] {
            0 => Outcome::Done,
            1 => Outcome::No,
            2 => Outcome::Waits,
            code => return Err(Refusal::ALL[code as usize - 39]),
        };
        Ok(Reply { outcome, running: record[1], told: told(request, outcome, record) })
    }
}

fn told(request: &Request, outcome: Outcome, record: &Record) -> Told {
    let (n, l) = (record[2], record[3]);
    let m = u32::from_le_bytes([record[4], record[5], record[6], record[7]]);
    match request {
        Request::CreateProcess { .. } | Request::CreateStructure(_) => Told::Created(n),
        Request::ProcessState { .. } => Told::ProcessState { structure: n, priority: l, place: m as u8 },
        Request::StructureValue { .. } => Told::StructureValue { in_lines: n, kind: l, value: m },
        Request::SignalAll { .. } => Told::Released(n),
        Request::Get { .. } | Request::ConditionalGet { .. } | Request::Collect if outcome == Outcome::Done => {
            let mut data = [0; DATA];
            data.copy_from_slice(&record[8..]);
            Told::Bytes(Bytes { length: l, data })
        }
        _ => Told::Nothing,
    }
}
