//! What is measured: books with their calls, each below 65,536 bytes of text.

use compare::case::{Call, Case, Row, AND, ATOM, HISTORICALLY, IMPLIES, NOT, ONCE, OR, SINCE, TRUE};

const MAX: u64 = u64::MAX;
const H: u64 = u64::MAX / 2;

pub struct Workload {
    pub name: &'static str,
    pub case: Case,
}

pub fn workloads() -> Vec<Workload> {
    vec![
        Workload { name: "whole case", case: whole_case() },
        Workload { name: "desk of 16 kits", case: desk(KITS, stamped) },
        Workload { name: "desk, separate calls", case: desk(KITS, separate) },
        Workload { name: "nested temporal", case: nested(MOST_ROWS) },
        Workload { name: "wide and/or", case: wide() },
        Workload { name: ONE_RUN, case: runs(RUNS_IN_ONE, [0, HALF_THE_RUNS]) },
        Workload { name: MANY_RUNS, case: runs(RUNS_APART, [0, HALF_THE_RUNS]) },
        Workload { name: "clock at the newest of 64", case: runs(RUNS_APART, [NEXT, NEXT]) },
        Workload { name: "clock behind all 64", case: runs(RUNS_APART, [FAR_AHEAD, FAR_AHEAD]) },
        Workload { name: "one of 64 lapses in every call", case: lapsing() },
    ]
}

/// Books that grow: rows one above the other, of which a call may change all, and desks, of which it changes what belongs to one kit.
pub fn growing() -> Vec<Workload> {
    let nested = [8, 16, 32, 64, MOST_ROWS].map(|rows| Workload { name: "nested temporal", case: nested(rows) });
    let desks = [1, 2, 4, 8, KITS].map(|kits| Workload { name: "desk", case: desk(kits, stamped) });
    nested.into_iter().chain(desks).collect()
}

/// The same calls in the lasting way, with the clock going so many instants in each: the first is one.
pub fn jumps() -> Vec<(u64, Workload)> {
    JUMPS.into_iter().map(|jump| (jump, Workload { name: "jumps in the lasting way", case: jumping(jump) })).collect()
}

pub const ONE_RUN: &str = "sets of 1 run";
pub const MANY_RUNS: &str = "sets of 64 runs";

/// The same text with every call refused after it is read: the clock is set to H first, so that times are below it, and
/// a state's last word is 2.
pub fn with_calls_refused(case: &Case) -> Case {
    let refused = |call: &Call| match call {
        Call::State(state) => Call::State([&state[..state.len() - 1], &[2]].concat()),
        time => time.clone(),
    };
    let calls = [Call::Time(H)].into_iter().chain(case.calls.iter().map(refused)).collect();
    Case { calls, ..case.clone() }
}

/// Rows put together one by one.
#[derive(Default)]
struct Rows(Vec<Row>);

impl Rows {
    fn plain(&mut self, kind: u64, operands: Vec<usize>) -> usize {
        self.put(Row::plain(kind, 0, operands))
    }

    fn atom(&mut self, number: u64) -> usize {
        self.put(Row::plain(ATOM, number, Vec::new()))
    }

    fn temporal(&mut self, kind: u64, operands: Vec<usize>, lower: u64, upper: u64) -> usize {
        self.put(Row { kind, atom: 0, lower, upper, operands })
    }

    fn put(&mut self, row: Row) -> usize {
        self.0.push(row);
        self.0.len() - 1
    }

    fn case(self, assumes: Vec<usize>, guarantees: Vec<usize>, calls: Vec<Call>) -> Case {
        Case { rows: self.0, assumes, guarantees, calls }
    }
}

/// The whole case of REFERENCE 8.6, with 4000 calls.
fn whole_case() -> Case {
    let mut rows = Rows::default();
    let atom = rows.atom(0);
    let once = rows.temporal(ONCE, vec![atom], 0, MAX);
    let historically = rows.temporal(HISTORICALLY, vec![once], 0, MAX);
    let calls = (0..2000).flat_map(|i| [Call::State(vec![i / 3 % 2]), Call::Time(i + 1)]).collect();
    rows.case(vec![], vec![historically], calls)
}

const MOST_ROWS: usize = 128;

const KITS: u64 = 16;
const WINDOW: u64 = 72;
const SCANS: u64 = 280;

/// For each kit: after every call so far, a handout implies that within the window a promise was scanned with no return
/// since. A scan is a time and a state with one bit on, stamped or as two calls, and then a state all clear.
fn desk(kits: u64, scanned: fn(u64, Vec<u64>) -> Vec<Call>) -> Case {
    let mut rows = Rows::default();
    let mut guarantees = Vec::new();
    for kit in 0..kits {
        let handout = rows.atom(3 * kit + 1);
        let returned = rows.atom(3 * kit + 2);
        let kept = rows.plain(NOT, vec![returned]);
        let promise = rows.atom(3 * kit);
        let promised = rows.temporal(SINCE, vec![kept, promise], 0, WINDOW);
        let allowed = rows.plain(IMPLIES, vec![handout, promised]);
        guarantees.push(rows.temporal(HISTORICALLY, vec![allowed], 0, MAX));
    }
    let clear = vec![0; 3 * kits as usize];
    let mut calls = Vec::new();
    for scan in 0..SCANS {
        // Every kit in turn: promise, handout, return; every fifth kit's handout comes without a promise.
        let (kit, round) = (scan % kits, scan / kits);
        let code = if kit % 5 == 0 { 1 + round % 2 } else { round % 3 };
        let mut state = clear.clone();
        state[(3 * kit + code) as usize] = 1;
        calls.extend(scanned(scan * 2, state));
        calls.push(Call::State(clear.clone()));
    }
    rows.case(vec![], guarantees, calls)
}

fn stamped(time: u64, state: Vec<u64>) -> Vec<Call> {
    vec![Call::Stamped(time, state)]
}

fn separate(time: u64, state: Vec<u64>) -> Vec<Call> {
    vec![Call::Time(time), Call::State(state)]
}

/// What one step of the next takes at the most.
const STEP_ROWS: usize = 4;

/// Up to 32 temporal rows, each above the last, with Not and And between them, as far as there are rows; Not over Not for the rest.
fn nested(count: usize) -> Case {
    let mut rows = Rows::default();
    let mut top = rows.atom(0);
    for step in 0..32u64 {
        if rows.0.len() + STEP_ROWS > count {
            break;
        }
        let upper = if step % 4 == 3 { MAX } else { 20 + step };
        let lower = step % 3;
        top = match step % 3 {
            0 => rows.temporal(ONCE, vec![top], lower, upper),
            1 => rows.temporal(HISTORICALLY, vec![top], lower, upper),
            _ => {
                let left = rows.plain(TRUE, vec![]);
                rows.temporal(SINCE, vec![left, top], lower, upper)
            }
        };
        let not = rows.plain(NOT, vec![top]);
        top = rows.plain(AND, vec![not]);
    }
    while rows.0.len() < count {
        top = rows.plain(NOT, vec![top]);
    }
    // The atom turns every 50 rounds, so that no set comes to have many runs.
    let calls = (0..2000).flat_map(|i| [Call::State(vec![i / 50 % 2]), Call::Time(i + 1)]).collect();
    rows.case(vec![], vec![top], calls)
}

/// Not (And of 62 atoms implies Or of 62 atoms): 128 rows and 127 operands. Each state is followed by twenty times.
fn wide() -> Case {
    let mut rows = Rows::default();
    let all: Vec<usize> = (0..62).map(|n| rows.atom(n)).collect();
    let and = rows.plain(AND, all);
    let any: Vec<usize> = (62..124).map(|n| rows.atom(n)).collect();
    let or = rows.plain(OR, any);
    let implies = rows.plain(IMPLIES, vec![and, or]);
    let not = rows.plain(NOT, vec![implies]);
    let mut calls = Vec::new();
    for round in 0..120u64 {
        // The And holds or fails at its end, and so does the Or.
        let state = (0..124).map(|n| {
            if n < 61 {
                1
            } else if n == 61 {
                round % 2
            } else {
                u64::from(n == 123) * (round / 2 % 2)
            }
        });
        calls.push(Call::State(state.collect()));
        calls.extend((0..20).map(|step| Call::Time(round * 20 + step)));
    }
    rows.case(vec![not], vec![], calls)
}

/// 64 steps that make one run in each set, or 64 runs, up to the same clock.
const RUNS_IN_ONE: (u64, u64) = (1063, 1);
const RUNS_APART: (u64, u64) = (1000, 2);

/// Distances of an instant from the clock: the newest of the 64 runs then meets it, half of them are ahead of it, or all
/// of them to the last call.
const NEXT: u64 = 1;
const HALF_THE_RUNS: u64 = 63;
const FAR_AHEAD: u64 = 4000;

const ONCES: u64 = 32;

/// Once rows over an instant, half of them at one distance from the clock, half at another. At 0 the clock is what a
/// call adds, so that no set is searched.
fn onces(distances: [u64; 2], calls: Vec<Call>) -> Case {
    let mut rows = Rows::default();
    let mut properties = Vec::new();
    for number in 0..ONCES {
        let atom = rows.atom(number);
        let distance = distances[number as usize % 2];
        properties.push(rows.temporal(ONCE, vec![atom], distance, distance));
    }
    let guarantees = properties.split_off(16);
    rows.case(properties, guarantees, calls)
}

/// All atoms of the Once rows hold.
fn all_hold() -> Call {
    Call::State(vec![1; ONCES as usize])
}

/// After the runs are made: 2000 equal times, then 2000 steps of one.
fn runs((start, step): (u64, u64), distances: [u64; 2]) -> Case {
    let mut calls = vec![Call::Time(start), all_hold()];
    calls.extend((1..64).map(|i| Call::Time(start + i * step)));
    calls.extend((0..2000).map(|_| Call::Time(1127)));
    calls.extend((1..=2000).map(|i| Call::Time(1127 + i)));
    onces(distances, calls)
}

/// With calls this far apart an instant that is 63 calls ahead leaves 64 runs that are not over.
const APART: u64 = 2;
const SIXTY_THREE_CALLS: u64 = 63 * APART;

/// Each call adds a run to every set, and from the 65th on the oldest has ended just before it: 64 are kept.
fn lapsing() -> Case {
    let mut calls = vec![all_hold()];
    calls.extend((1..=4064).map(|i| Call::Time(i * APART)));
    onces([SIXTY_THREE_CALLS, SIXTY_THREE_CALLS], calls)
}

/// How far the clock goes in a call: one instant, some, and so many that all calls together go nearly as far as a clock goes.
const JUMPS: [u64; 3] = [1, 1000, 1 << 52];
const JUMPING: u64 = 2000;

/// 32 rows that add to their sets in most calls: Once, Historically and Since, with an end and without. Every 50th call has a state, in
/// which the atoms turn.
fn jumping(jump: u64) -> Case {
    let mut rows = Rows::default();
    let mut properties = Vec::new();
    for number in 0..ONCES {
        let atom = rows.atom(number);
        let (lower, upper) = [(0, MAX), (1, 1), (2, 9), (0, 20)][number as usize / 2 % 4];
        properties.push(match number % 4 {
            0 | 1 => rows.temporal(ONCE, vec![atom], lower, upper),
            2 => {
                let not = rows.plain(NOT, vec![atom]);
                rows.temporal(HISTORICALLY, vec![not], lower, upper)
            }
            _ => {
                let left = rows.plain(TRUE, vec![]);
                rows.temporal(SINCE, vec![left, atom], lower, upper)
            }
        });
    }
    let guarantees = properties.split_off(16);
    let mut calls = Vec::new();
    for number in 1..=JUMPING {
        if number % 50 == 1 {
            calls.push(Call::State(vec![u64::from(number / 50 % 4 != 3); ONCES as usize]));
        }
        calls.push(Call::Time(number * jump));
    }
    rows.case(properties, guarantees, calls)
}
