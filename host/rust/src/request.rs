//! The twenty-three requests.

use crate::{Record, DATA, RECORD};

/// Who asks.
#[derive(Clone, Copy, Debug, PartialEq, Eq)]
pub enum Caller {
    Board = 0,
    RunningProcess = 1,
}

/// A structure to be created.
#[derive(Clone, Copy, Debug, PartialEq, Eq)]
pub enum Kind {
    Binary { value: u32 },
    Counting { value: u32 },
    Ring { size: u32 },
}

/// A request; processes, structures and rings are named by their numbers.
#[derive(Clone, Copy, Debug, PartialEq, Eq)]
pub enum Request<'a> {
    Tick,
    CreateProcess { priority: u8 },
    DeleteMyself,
    Suspend { process: u8 },
    Resume { process: u8 },
    ChangePriority { process: u8, priority: u8 },
    Schedule,
    ProcessState { process: u8 },
    Sleep { milliseconds: u32 },
    CreateStructure(Kind),
    DeleteStructure { structure: u8 },
    StructureValue { structure: u8 },
    Signal { semaphore: u8 },
    ConditionalSignal { semaphore: u8 },
    SignalAll { semaphore: u8 },
    Wait { semaphore: u8 },
    ConditionalWait { semaphore: u8 },
    Put { ring: u8, bytes: &'a [u8] },
    ConditionalPut { ring: u8, bytes: &'a [u8] },
    Get { ring: u8, length: u8 },
    ConditionalGet { ring: u8, length: u8 },
    ResetRing { ring: u8 },
    Collect,
}

impl Request<'_> {
    /// Call, N, L and M.
    fn fields(&self) -> (u8, u8, u8, u32) {
        match *self {
            Request::Tick => (1, 0, 0, 0),
            Request::CreateProcess { priority } => (2, 0, priority, 0),
            Request::DeleteMyself => (3, 0, 0, 0),
            Request::Suspend { process } => (4, process, 0, 0),
            Request::Resume { process } => (5, process, 0, 0),
            Request::ChangePriority { process, priority } => (6, process, priority, 0),
            Request::Schedule => (7, 0, 0, 0),
            Request::ProcessState { process } => (8, process, 0, 0),
            Request::Sleep { milliseconds } => (9, 0, 0, milliseconds),
            Request::CreateStructure(Kind::Binary { value }) => (10, 0, 1, value),
            Request::CreateStructure(Kind::Counting { value }) => (10, 0, 2, value),
            Request::CreateStructure(Kind::Ring { size }) => (10, 0, 3, size),
            Request::DeleteStructure { structure } => (11, structure, 0, 0),
            Request::StructureValue { structure } => (12, structure, 0, 0),
            Request::Signal { semaphore } => (13, semaphore, 0, 0),
            Request::ConditionalSignal { semaphore } => (14, semaphore, 0, 0),
            Request::SignalAll { semaphore } => (15, semaphore, 0, 0),
            Request::Wait { semaphore } => (16, semaphore, 0, 0),
            Request::ConditionalWait { semaphore } => (17, semaphore, 0, 0),
            Request::Put { ring, bytes } => (18, ring, length_of(bytes), 0),
            Request::ConditionalPut { ring, bytes } => (19, ring, length_of(bytes), 0),
            Request::Get { ring, length } => (20, ring, length, 0),
            Request::ConditionalGet { ring, length } => (21, ring, length, 0),
            Request::ResetRing { ring } => (22, ring, 0, 0),
            Request::Collect => (23, 0, 0, 0),
        }
    }

    /// The bytes that it brings.
    fn data(&self) -> &[u8] {
        match *self {
            Request::Put { bytes, .. } | Request::ConditionalPut { bytes, .. } => bytes,
            _ => &[],
        }
    }

    /// The 72 bytes of the request.
    pub fn record(&self, caller: Caller) -> Record {
        let (call, n, l, m) = self.fields();
        let data = &self.data()[..self.data().len().min(DATA)];
        let mut record = [0; RECORD];
        record[..4].copy_from_slice(&[call, caller as u8, n, l]);
        record[4..8].copy_from_slice(&m.to_le_bytes());
        record[8..8 + data.len()].copy_from_slice(data);
        record
    }
}

/// L for these bytes; more than 255 stay above 64 and so are refused.
fn length_of(bytes: &[u8]) -> u8 {
    u8::try_from(bytes.len()).unwrap_or(u8::MAX)
}
