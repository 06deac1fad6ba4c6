//! The kernel for a board's Rust code: `Panel::new`, then `call` with a typed request. What a C caller must promise
//! (buffers apart, no null pointer, no call inside a call) the borrow rules see to.
#![no_std]

mod reply;
mod request;

pub use reply::{Bytes, Outcome, Refusal, Reply, Told};
pub use request::{Caller, Kind, Request};

/// Bytes of a request or a reply.
pub const RECORD: usize = 72;
/// A request or a reply as it lies in memory.
pub type Record = [u8; RECORD];
/// The most bytes that one transfer moves.
pub const DATA: usize = 64;
/// Bytes of a state.
pub const STATE: usize = 4569;

mod library {
    extern "C" {
        pub fn brombeertor_state_length() -> usize;
        pub fn brombeertor_fresh(state: *mut u8, length: usize) -> u32;
        pub fn brombeertor_call(
            state: *mut u8,
            state_length: usize,
            request: *const u8,
            request_length: usize,
            reply: *mut u8,
            reply_length: usize,
        ) -> u32;
    }
}

/// The length that the library wants of a state.
pub fn state_length() -> usize {
    // SAFETY: takes nothing and touches nothing.
    unsafe { library::brombeertor_state_length() }
}

/// Makes a fresh state in a lent buffer: 0, or 40 of the wrong length.
pub fn fresh(state: &mut [u8]) -> u32 {
    // SAFETY: the pointer and the length are one slice's.
    unsafe { library::brombeertor_fresh(state.as_mut_ptr(), state.len()) }
}

/// One request on lent buffers, as the library has it: any bytes, any lengths. Gives the code.
pub fn call(state: &mut [u8], request: &[u8], reply: &mut [u8]) -> u32 {
    // SAFETY: each pointer and length are one slice's, and two unique borrows overlap nothing.
    unsafe {
        library::brombeertor_call(
            state.as_mut_ptr(),
            state.len(),
            request.as_ptr(),
            request.len(),
            reply.as_mut_ptr(),
            reply.len(),
        )
    }
}

/// A panel's state.
#[derive(Clone, Debug)]
pub struct Panel {
    state: [u8; STATE],
}

impl Panel {
    /// A fresh panel: nothing live, nobody runs.
    pub fn new() -> Panel {
        let mut state = [0; STATE];
        assert_eq!(fresh(&mut state), 0, "the library wants a state of another length");
        Panel { state }
    }

    /// A panel with a state that was kept; whether it is sound, the next call says.
    pub fn with_state(state: [u8; STATE]) -> Panel {
        Panel { state }
    }

    /// The state's bytes, to be kept.
    pub fn state(&self) -> &[u8; STATE] {
        &self.state
    }

    /// Does what a request asks, or tells why not.
    pub fn call(&mut self, caller: Caller, request: Request) -> Result<Reply, Refusal> {
        Reply::of(&request, &self.call_record(&request.record(caller)))
    }

    /// The same with records.
    pub fn call_record(&mut self, request: &Record) -> Record {
        let mut reply = [0; RECORD];
        call(&mut self.state, request, &mut reply);
        reply
    }
}

impl Default for Panel {
    fn default() -> Panel {
        Panel::new()
    }
}
