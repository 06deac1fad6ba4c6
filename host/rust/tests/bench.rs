//! Document 01's 'Tried at the bench' and its listing, on the kernel and on the model; and the typed wrapper.

mod common;

use brombeertor::{Caller, Kind, Outcome, Panel, Refusal, Request, Told};
use common::Pair;
use Caller::{Board, RunningProcess};
use Request::*;

const P1: u8 = 1;
const P2: u8 = 2;
const BYTES: [u8; 65] = [7; 65];

/// Asks and expects a code; gives N and M of the reply.
fn ask(pair: &mut Pair, caller: Caller, request: Request, code: u8) -> (u8, u32) {
    let reply = pair.ask(&request.record(caller));
    assert_eq!(reply[0], code, "{request:?}");
    (reply[2], u32::from_le_bytes(reply[4..8].try_into().unwrap()))
}

/// Asks several times, each time done.
fn ask_often(pair: &mut Pair, caller: Caller, request: Request, times: usize) {
    for _ in 0..times {
        ask(pair, caller, request, 0);
    }
}

/// A panel with one structure, number 1, and processes of priority 5.
fn panel(kind: Kind, processes: usize) -> Pair {
    let mut pair = Pair::fresh(format!("{kind:?}"));
    ask(&mut pair, Board, CreateStructure(kind), 0);
    ask_often(&mut pair, Board, CreateProcess { priority: 5 }, processes);
    pair
}

fn place(pair: &mut Pair, process: u8) -> u32 {
    ask(pair, Board, ProcessState { process }, 0).1
}

fn held(pair: &mut Pair) -> u32 {
    ask(pair, Board, StructureValue { structure: 1 }, 0).1
}

#[test]
fn nine_signals() {
    let signal = Signal { semaphore: 1 };
    let wait = Wait { semaphore: 1 };
    let mut binary = panel(Kind::Binary { value: 0 }, 1);
    ask_often(&mut binary, Board, signal, 9);
    ask(&mut binary, RunningProcess, wait, 0);
    ask(&mut binary, RunningProcess, wait, 2);
    let mut counting = panel(Kind::Counting { value: 0 }, 1);
    ask_often(&mut counting, Board, signal, 9);
    ask_often(&mut counting, RunningProcess, wait, 9);
    ask(&mut counting, RunningProcess, wait, 2);
    let mut nearly = panel(Kind::Counting { value: 32_766 }, 0);
    ask(&mut nearly, Board, signal, 0);
    ask(&mut nearly, Board, signal, 50);
    ask(&mut nearly, Board, ConditionalSignal { semaphore: 1 }, 1);
}

#[test]
fn rings_of_8() {
    let get = |length| Get { ring: 1, length };
    let put = |length: usize| Put { ring: 1, bytes: &BYTES[..length] };
    let mut one = panel(Kind::Ring { size: 8 }, 2);
    ask(&mut one, RunningProcess, get(6), 2);
    ask(&mut one, RunningProcess, put(4), 0);
    ask(&mut one, RunningProcess, put(4), 0);
    assert_eq!((place(&mut one, P1), held(&mut one)), (2, 2));

    let mut two = panel(Kind::Ring { size: 8 }, 3);
    ask(&mut two, RunningProcess, get(6), 2);
    ask(&mut two, RunningProcess, get(1), 2);
    ask(&mut two, RunningProcess, put(5), 0);
    assert_eq!((place(&mut two, P1), place(&mut two, P2)), (5, 5));
    ask(&mut two, RunningProcess, ConditionalGet { ring: 1, length: 1 }, 1);
    ask(&mut two, RunningProcess, put(1), 0);
    assert_eq!((place(&mut two, P1), place(&mut two, P2)), (2, 5));
    assert_eq!(held(&mut two), 0);

    let mut standoff = panel(Kind::Ring { size: 8 }, 3);
    ask(&mut standoff, RunningProcess, put(4), 0);
    ask(&mut standoff, RunningProcess, get(6), 2);
    ask(&mut standoff, RunningProcess, put(5), 2);
    ask(&mut standoff, RunningProcess, ResetRing { ring: 1 }, 0);
    assert_eq!((place(&mut standoff, P1), place(&mut standoff, P2)), (5, 2));
    assert_eq!(held(&mut standoff), 5);
    ask(&mut standoff, RunningProcess, put(9), 49);
    ask(&mut standoff, RunningProcess, DeleteStructure { structure: 1 }, 51);
}

#[test]
fn a_suspended_waiter_signalled() {
    let mut pair = panel(Kind::Binary { value: 0 }, 2);
    ask(&mut pair, RunningProcess, Wait { semaphore: 1 }, 2);
    ask(&mut pair, RunningProcess, Suspend { process: P1 }, 0);
    assert_eq!(place(&mut pair, P1), 20);
    ask(&mut pair, Board, Signal { semaphore: 1 }, 0);
    assert_eq!(place(&mut pair, P1), 3);
    assert_eq!(pair.model.running, P2);
}

#[test]
fn lengths_and_callers() {
    let put = |ring, length: usize| Put { ring, bytes: &BYTES[..length] };
    let mut pair = panel(Kind::Ring { size: 256 }, 0);
    ask(&mut pair, RunningProcess, put(1, 64), 42);
    ask(&mut pair, Board, CreateProcess { priority: 5 }, 0);
    ask(&mut pair, RunningProcess, put(1, 64), 0);
    ask(&mut pair, RunningProcess, put(1, 65), 43);
    ask(&mut pair, RunningProcess, put(1, 0), 43);
    ask(&mut pair, RunningProcess, put(9, 0), 43);
    ask(&mut pair, RunningProcess, put(9, 1), 44);
    let sleep = |milliseconds| Sleep { milliseconds };
    ask(&mut pair, RunningProcess, sleep(2_147_483_648), 43);
    ask(&mut pair, RunningProcess, sleep(2_147_483_647), 2);
}

#[test]
fn full_tables() {
    let mut pair = Pair::fresh("full tables".into());
    let process = CreateProcess { priority: 5 };
    ask_often(&mut pair, Board, process, 32);
    ask(&mut pair, Board, process, 52);
    let ring = CreateStructure(Kind::Ring { size: 1 });
    let semaphore = CreateStructure(Kind::Binary { value: 0 });
    ask_often(&mut pair, Board, ring, 8);
    ask(&mut pair, Board, ring, 53);
    ask_often(&mut pair, Board, semaphore, 16);
    ask(&mut pair, Board, semaphore, 53);
}

#[test]
fn the_listing() {
    let requests = include_bytes!("../../../examples/listing.requests");
    let expected = include_str!("../../../examples/listing.lines");
    let mut pair = Pair::fresh("the listing".into());
    let mut lines = String::new();
    for request in requests.chunks_exact(72) {
        let request = request.try_into().unwrap();
        let reply = pair.ask(request);
        let m = u32::from_le_bytes(reply[4..8].try_into().unwrap());
        let [code, running, n, l] = reply[..4] else { unreachable!() };
        lines += &format!("{} {code} {running} {n} {l} {m}\n", request[0]);
    }
    assert_eq!(lines, expected);
}

#[test]
fn typed_replies() {
    let mut panel = Panel::new();
    let created = panel.call(Board, CreateProcess { priority: 9 }).unwrap();
    assert_eq!((created.outcome, created.running), (Outcome::Done, 1));
    assert_eq!(created.told, Told::Created(1));
    panel.call(Board, CreateStructure(Kind::Ring { size: 8 })).unwrap();
    panel.call(Board, CreateStructure(Kind::Counting { value: 300 })).unwrap();

    let waits = panel.call(RunningProcess, Get { ring: 1, length: 4 }).unwrap();
    assert_eq!((waits.outcome, waits.running, waits.told), (Outcome::Waits, 0, Told::Nothing));
    let state = panel.call(Board, ProcessState { process: 1 }).unwrap();
    let getting = Told::ProcessState { structure: 1, priority: 9, place: 5 };
    assert_eq!(state.told, getting);
    let put = ConditionalPut { ring: 1, bytes: b"pump" };
    assert_eq!(panel.call(Board, put).unwrap().running, 1);
    let Told::Bytes(bytes) = panel.call(RunningProcess, Collect).unwrap().told else {
        panic!("collect brings bytes");
    };
    assert_eq!(bytes.as_slice(), b"pump");
    let nothing = panel.call(RunningProcess, Collect).unwrap();
    assert_eq!((nothing.outcome, nothing.told), (Outcome::No, Told::Nothing));
    let value = panel.call(Board, StructureValue { structure: 2 }).unwrap();
    let counting = Told::StructureValue { in_lines: 0, kind: 2, value: 300 };
    assert_eq!(value.told, counting);
    panel.call(RunningProcess, Sleep { milliseconds: 3 }).unwrap();
    assert_eq!(panel.call(Board, SignalAll { semaphore: 2 }).unwrap().told, Told::Released(0));

    assert_eq!(panel.call(Board, Wait { semaphore: 2 }), Err(Refusal::WrongCaller));
    assert_eq!(panel.call(Board, Signal { semaphore: 1 }), Err(Refusal::WrongKind));
    let mut damaged = *panel.state();
    damaged[0] = 33;
    assert_eq!(Panel::with_state(damaged).call(Board, Tick), Err(Refusal::NotSound));
}
