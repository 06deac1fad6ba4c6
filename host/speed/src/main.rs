//! Nanoseconds a call: the kernel, and the model's `perform`, which tests neither state nor request, in one run; the model
//! once with its tables in memory and once on a lent state's bytes. After every case all must have come to the same state.

use brombeertor::{Caller, Kind, Record, Request, RECORD};
use model::Model;
use std::hint::black_box;
use std::time::Instant;
use Caller::{Board, RunningProcess};
use Request::*;

/// Many short rounds, of which the best counts: other work on the machine then spoils some and not all.
const ROUNDS: usize = 150;
const CALLS: usize = 500;
const BYTES: [u8; 64] = [7; 64];

/// One panel twice: the kernel's bytes and the model's queues; the semaphores and the ring that the cases use.
#[derive(Clone)]
struct Panel {
    state: Vec<u8>,
    model: Model,
    /// Counting, at 5.
    open: u8,
    /// Counting, at 0.
    closed: u8,
    /// Of 256 bytes, 64 held.
    ring: u8,
    /// The process that is suspended and resumed.
    process: u8,
}

impl Panel {
    /// Nothing live.
    fn fresh() -> Panel {
        let mut state = vec![0; brombeertor::state_length()];
        assert_eq!(brombeertor::fresh(&mut state), 0);
        let model = Model::fresh();
        Panel { state, model, open: 0, closed: 0, ring: 0, process: 1 }
    }

    /// Asks both and expects a code; gives N.
    fn ask(&mut self, caller: Caller, request: Request, code: u8) -> u8 {
        let record = request.record(caller);
        let mut reply = [0; RECORD];
        brombeertor::call(&mut self.state, &record, &mut reply);
        assert_eq!(reply[0], code, "{request:?}");
        assert_eq!(reply, self.model.step(&record), "{request:?}");
        reply[2]
    }

    /// So many processes, one after the other, ask what makes them wait.
    fn leave(&mut self, request: Request, processes: usize) {
        for _ in 0..processes {
            self.ask(RunningProcess, request, 2);
        }
    }

    /// A new structure's number.
    fn create(&mut self, kind: Kind) -> u8 {
        self.ask(Board, CreateStructure(kind), 0)
    }

    /// A new ring of 256 that holds 64 bytes.
    fn create_ring(&mut self) -> u8 {
        let ring = self.create(Kind::Ring { size: 256 });
        self.ask(Board, ConditionalPut { ring, bytes: &BYTES }, 0);
        ring
    }

    /// So many processes of falling priority, all ready, and rings; what the cases use; other semaphores.
    fn of(processes: u8, rings: usize, others: usize) -> Panel {
        let mut panel = Panel::fresh();
        for i in 0..processes {
            panel.process = panel.ask(Board, CreateProcess { priority: 200 - i }, 0);
        }
        for _ in 0..rings {
            panel.ring = panel.create_ring();
        }
        for _ in 0..others {
            panel.create(Kind::Binary { value: 0 });
        }
        panel.open = panel.create(Kind::Counting { value: 5 });
        panel.closed = panel.create(Kind::Counting { value: 0 });
        panel
    }

    /// A process, a ring and two semaphores.
    fn empty() -> Panel {
        Panel::of(1, 1, 0)
    }

    /// 32 processes, 8 rings, 16 semaphores; one runs and all others are ready.
    fn full() -> Panel {
        Panel::of(32, 8, 14)
    }

    /// The same tables, and processes in every place: 9 asleep, 5 in a semaphore's line, 4 getting and 4 putting at
    /// a standoff, 2 parked, 7 ready.
    fn busy() -> Panel {
        let mut panel = Panel::full();
        let (ring, semaphore) = (1, 9);
        let bytes = &BYTES[..60];
        panel.ask(Board, DeleteStructure { structure: ring }, 0);
        panel.create(Kind::Ring { size: 110 });
        panel.ask(Board, ConditionalPut { ring, bytes }, 0);
        let leaving = [
            (9, Sleep { milliseconds: 2_000_000_000 }),
            (5, Wait { semaphore }),
            (4, Get { ring, length: 64 }),
            (4, Put { ring, bytes }),
        ];
        for (times, request) in leaving {
            panel.leave(request, times);
        }
        for process in 30..32 {
            panel.ask(RunningProcess, Suspend { process }, 0);
        }
        panel
    }
}

/// Two requests that undo each other.
type Case = [(Caller, Request<'static>); 2];

/// What is measured, on a panel's own numbers.
fn cases(panel: &Panel) -> Vec<(&'static str, Case)> {
    let (open, closed) = (panel.open, panel.closed);
    let (ring, process) = (panel.ring, panel.process);
    let put = ConditionalPut { ring, bytes: &BYTES };
    let get = ConditionalGet { ring, length: 64 };
    let signal = |semaphore| (Board, Signal { semaphore });
    let running = |request| (RunningProcess, request);
    vec![
        ("tick", [(Board, Tick), (Board, Tick)]),
        (
            "process state, structure value",
            [(Board, ProcessState { process }), (Board, StructureValue { structure: ring })],
        ),
        ("signal, conditional wait", [signal(open), running(ConditionalWait { semaphore: open })]),
        ("wait, signal", [running(Wait { semaphore: closed }), signal(closed)]),
        ("suspend, resume", [running(Suspend { process }), (Board, Resume { process })]),
        ("sleep 1, tick", [running(Sleep { milliseconds: 1 }), (Board, Tick)]),
        ("conditional get, put of 64", [running(get), (Board, put)]),
    ]
}

/// Nanoseconds for each of `CALLS` calls, by turns of the two.
fn timed(records: &[Record; 2], mut call: impl FnMut(&Record)) -> f64 {
    let begun = Instant::now();
    for _ in 0..CALLS / 2 {
        call(black_box(&records[0]));
        call(black_box(&records[1]));
    }
    begun.elapsed().as_nanos() as f64 / CALLS as f64
}

/// Nanoseconds a call: the kernel, the model with its tables in memory, the model on a state's bytes.
type Times = [f64; 3];

/// The lesser of each.
fn best(a: Times, b: Times) -> Times {
    [0, 1, 2].map(|i| a[i].min(b[i]))
}

/// The model as a kernel that tests nothing: it reads the state's bytes, performs and writes them.
fn perform_on_bytes(state: &mut Vec<u8>, request: &Record) -> Record {
    let mut model = Model::read_untested(state).expect("a state");
    let reply = model.perform(request);
    *state = model.write();
    reply
}

/// Best nanoseconds a call, rounds of each in turn.
fn measure(panel: &mut Panel, case: &Case) -> Times {
    let records = case.map(|(caller, request)| request.record(caller));
    let mut reply = [0; RECORD];
    for record in &records {
        brombeertor::call(&mut panel.state, record, &mut reply);
        assert_eq!(reply, panel.model.step(record));
        assert!(reply[0] <= 2, "only what is accepted is compared");
    }
    let mut bytes = panel.state.clone();
    let mut times = [f64::MAX; 3];
    for _ in 0..ROUNDS {
        let kernel = timed(&records, |request| {
            black_box(brombeertor::call(&mut panel.state, request, &mut reply));
        });
        let model = timed(&records, |request| {
            black_box(panel.model.perform(request));
        });
        let on_bytes = timed(&records, |request| {
            black_box(perform_on_bytes(&mut bytes, request));
        });
        times = best(times, [kernel, model, on_bytes]);
    }
    assert!(panel.state == panel.model.write(), "kernel and model did not do the same");
    assert!(panel.state == bytes, "kernel and model on bytes did not do the same");
    times
}

/// Best nanoseconds of the kernel alone.
fn measure_refused(panel: &mut Panel) -> f64 {
    let records = [0, 99].map(|semaphore| Signal { semaphore }.record(Board));
    let mut reply = [0; RECORD];
    let rounds = (0..ROUNDS).map(|_| {
        timed(&records, |request| {
            black_box(brombeertor::call(&mut panel.state, request, &mut reply));
        })
    });
    rounds.fold(f64::MAX, f64::min)
}

/// Nanoseconds of one call.
fn once(call: impl FnOnce()) -> f64 {
    let begun = Instant::now();
    call();
    begun.elapsed().as_nanos() as f64
}

/// One put that serves 31 getters: best nanoseconds.
fn measure_many_served() -> Times {
    let mut before = Panel::of(32, 0, 0);
    let ring = before.create(Kind::Ring { size: 256 });
    before.leave(Get { ring, length: 1 }, 31);
    let bytes = &BYTES[..31];
    let record = Put { ring, bytes }.record(RunningProcess);
    let mut reply = [0; RECORD];
    let mut times = [f64::MAX; 3];
    for _ in 0..2000 {
        let mut panel = before.clone();
        let mut bytes = before.state.clone();
        let kernel = once(|| {
            black_box(brombeertor::call(&mut panel.state, black_box(&record), &mut reply));
        });
        let model = once(|| {
            black_box(panel.model.perform(black_box(&record)));
        });
        let on_bytes = once(|| {
            black_box(perform_on_bytes(&mut bytes, black_box(&record)));
        });
        times = best(times, [kernel, model, on_bytes]);
        assert!(panel.state == panel.model.write() && panel.state == bytes, "they did not do the same");
    }
    times
}

/// What looking at every byte of a state takes, once and without any use: nothing that tests a state is below it.
fn measure_glance() -> f64 {
    let state = vec![0u8; brombeertor::state_length()];
    let record = [[0; RECORD]; 2];
    let glance = |_: &Record| {
        let state = black_box(&state);
        black_box(state.iter().fold(0, |seen, byte| seen | byte));
    };
    let rounds = (0..ROUNDS).map(|_| timed(&record, glance));
    rounds.fold(f64::MAX, f64::min)
}

/// A row: the kernel, and each model with how many times its time the kernel takes.
fn print_row(name: &str, [kernel, model, on_bytes]: Times) {
    let (ratio, ratio_on_bytes) = (kernel / model, kernel / on_bytes);
    println!("| {name} | {kernel:.0} | {model:.0} | {ratio:.1} | {on_bytes:.0} | {ratio_on_bytes:.2} |");
}

/// Every case on a panel.
fn print_calls(name: &str, mut panel: Panel) {
    println!("Nanoseconds a call, {name}\n");
    println!("| call | kernel | model | ratio | model on bytes | ratio |\n|---|---|---|---|---|---|");
    for (name, case) in cases(&panel) {
        print_row(name, measure(&mut panel, &case));
    }
    println!("| refused | {:.0} | | | | |", measure_refused(&mut panel));
}

/// Signal and conditional wait, the kernel alone, by live processes and rings.
fn print_growth() {
    let rings = [0, 2, 4, 8];
    println!("Signal and conditional wait, kernel, by live processes and rings\n");
    println!("| processes | no ring | 2 rings | 4 rings | 8 rings |\n|---|---|---|---|---|");
    for processes in [1, 8, 16, 24, 32] {
        let row = rings.map(|rings| {
            let mut panel = Panel::of(processes, rings, 0);
            let semaphore = panel.open;
            let wait = ConditionalWait { semaphore };
            let case = [(Board, Signal { semaphore }), (RunningProcess, wait)];
            format!("{:.0}", measure(&mut panel, &case)[0])
        });
        println!("| {processes} | {} |", row.join(" | "));
    }
    println!();
}

fn main() {
    print_calls("empty panel", Panel::empty());
    println!();
    print_calls("full panel", Panel::full());
    print_row("put that serves 31", measure_many_served());
    println!();
    print_calls("busy panel", Panel::busy());
    println!("\nLooking at every byte of a state once: {:.0} ns\n", measure_glance());
    print_growth();
}
