//! Calls drawn at random for a book.

use crate::case::{Call, Case};
use crate::chance::Chance;
use judge::book::{is_temporal, H, MAX};
use judge::monitor::MOST_WIDTH;

/// Calls stop before an input's text grows past this many bytes.
const LONGEST_TEXT: usize = 60_000;

/// How the clock moves.
#[derive(Clone, Copy)]
pub enum Pace {
    /// Equal times and small steps.
    Slow,
    /// Steps as long as the book's bounds, or one more or less.
    Bounds,
    /// Steps of two and a little more, each a run of its own.
    Apart,
    /// Small steps and some of hundreds.
    Gaps,
    /// Jumps of any size.
    Jumps,
    /// Small steps just below H.
    NearH,
}

/// How states change.
#[derive(Clone, Copy)]
enum States {
    /// Each word is 1 once in so many.
    OneIn(usize),
    /// Each word is 0 once in so many.
    ZeroIn(usize),
    /// The last state with one word turned.
    Turning,
}

pub struct Style {
    count: usize,
    pace: Pace,
    states: States,
    /// A call has a state once in so many.
    state_in: usize,
    /// A call with a state has a time, too, once in so many; 0 is never.
    stamped_in: usize,
    /// A call is meant to be refused once in so many; 0 is never.
    refused_in: usize,
    /// No step of the clock is longer.
    longest: u64,
}

/// The longest step of calls between which every instant is walked.
const LONGEST_WALK: u64 = 400;

impl Style {
    pub fn drawn(chance: &mut Chance, count: usize) -> Self {
        Self {
            count: chance.below(count + 1),
            pace: chance.among(&[Pace::Slow, Pace::Slow, Pace::Bounds, Pace::Bounds, Pace::Apart, Pace::Jumps, Pace::NearH]),
            states: chance.among(&[States::OneIn(2), States::OneIn(6), States::ZeroIn(6), States::Turning, States::Turning]),
            state_in: chance.among(&[2, 2, 3, 5]),
            stamped_in: chance.among(&[0, 1, 2, 2]),
            refused_in: chance.among(&[0, 0, 20, 8]),
            longest: MAX,
        }
    }

    /// Calls near enough to each other in time that every instant between them can be walked.
    pub fn near(chance: &mut Chance, count: usize) -> Self {
        let pace = chance.among(&[Pace::Slow, Pace::Apart, Pace::Gaps, Pace::Gaps, Pace::Bounds]);
        Self { pace, longest: LONGEST_WALK, ..Self::drawn(chance, count) }
    }

    /// Calls with states that seldom stay, near to each other in time: where a state lasts, only these part runs.
    pub fn near_with_many_runs(chance: &mut Chance) -> Self {
        Self {
            count: 300 + chance.below(400),
            states: States::Turning,
            state_in: chance.among(&[1, 1, 2]),
            stamped_in: chance.among(&[1, 2]),
            longest: LONGEST_WALK,
            ..Self::with_many_runs(chance)
        }
    }

    /// Calls apart from each other in time, enough of them to fill a set.
    pub fn with_many_runs(chance: &mut Chance) -> Self {
        Self {
            count: 100 + chance.below(300),
            pace: Pace::Apart,
            states: chance.among(&[States::ZeroIn(4), States::OneIn(4), States::Turning]),
            state_in: chance.among(&[3, 6, 30]),
            ..Self::drawn(chance, 1)
        }
    }
}

/// Adds drawn calls to a case.
pub fn add_calls(chance: &mut Chance, case: &mut Case, style: &Style) {
    let bounds: Vec<u64> =
        case.rows.iter().filter(|r| is_temporal(r.kind)).flat_map(|r| [r.lower, r.upper]).filter(|&b| b != MAX && b > 0).collect();
    let mut drawing = Drawing { chance, style, bounds, width: case.width(), clock: 0, state: Vec::new() };
    drawing.state.resize(drawing.width, 0);
    let mut bytes = case.text().len();
    for _ in 0..style.count {
        let call = drawing.call();
        bytes += most_bytes(&call);
        if bytes > LONGEST_TEXT {
            break;
        }
        case.calls.push(call);
    }
}

/// Makes some calls of a case again at once, with the same content: none, each, or one in so many.
pub fn double_calls(chance: &mut Chance, case: &mut Case) {
    let doubled_in = chance.among(&[0, 0, 0, 1, 2, 8]);
    if doubled_in == 0 {
        return;
    }
    let mut bytes = case.text().len();
    let mut calls = Vec::new();
    for call in case.calls.drain(..) {
        calls.push(call.clone());
        if bytes + most_bytes(&call) <= LONGEST_TEXT && chance.one_in(doubled_in) {
            bytes += most_bytes(&call);
            calls.push(call);
        }
    }
    case.calls = calls;
}

/// The most bytes that a call takes in a text.
fn most_bytes(call: &Call) -> usize {
    match call {
        Call::Time(_) => 23,
        Call::State(state) => 6 + 2 * state.len(),
        Call::Stamped(_, state) => 27 + 2 * state.len(),
    }
}

struct Drawing<'a> {
    chance: &'a mut Chance,
    style: &'a Style,
    bounds: Vec<u64>,
    width: usize,
    /// The time of the last call with one that was not meant to be refused.
    clock: u64,
    state: Vec<u64>,
}

impl Drawing<'_> {
    fn call(&mut self) -> Call {
        let refused = self.style.refused_in > 0 && self.chance.one_in(self.style.refused_in);
        let has_state = self.chance.one_in(self.style.state_in);
        let stamped = has_state && self.style.stamped_in > 0 && self.chance.one_in(self.style.stamped_in);
        match (has_state, refused) {
            _ if stamped => self.stamped(refused),
            (true, false) => Call::State(self.next_state()),
            (true, true) => Call::State(self.bad_state()),
            (false, false) => {
                self.clock = self.next_time();
                Call::Time(self.clock)
            }
            (false, true) => Call::Time(self.bad_time()),
        }
    }

    /// A stamped call; one that is meant to be refused has a bad time, a bad state, or both.
    fn stamped(&mut self, refused: bool) -> Call {
        let (bad_time, bad_state) = if refused { self.chance.among(&[(true, false), (false, true), (true, true)]) } else { (false, false) };
        let time = if bad_time { self.bad_time() } else { self.next_time() };
        let state = if bad_state { self.bad_state() } else { self.next_state() };
        if !refused {
            self.clock = time;
        }
        Call::Stamped(time, state)
    }

    fn next_time(&mut self) -> u64 {
        let small = self.chance.among(&[0, 1, 1, 1, 2, 2, 3, 7]);
        let step = match self.style.pace {
            Pace::Slow => small,
            Pace::Bounds if !self.bounds.is_empty() && self.chance.one_in(2) => {
                let bound = self.chance.among(&self.bounds);
                self.chance.among(&[bound, bound, bound - 1, bound.saturating_add(1), bound.saturating_add(small)])
            }
            Pace::Gaps => self.chance.among(&[0, 1, small, small, 10, 63, 64, 128, 130, 301]),
            Pace::Apart => self.chance.among(&[2, 2, 2, 2, 2, 3, 4, 8, 1, 0, small]),
            Pace::Jumps if self.chance.one_in(3) => {
                let shift = 1 + self.chance.below(60);
                (self.chance.word() & H) >> shift
            }
            Pace::NearH if self.clock < H / 2 && self.chance.one_in(4) => {
                let before_h = self.chance.among(&[0, 1, 10, 100, 1000]);
                H - self.clock - before_h
            }
            _ => small,
        };
        let step = step.min(self.style.longest);
        // Past H there is nothing to accept: stay where the clock is.
        if step > H - self.clock {
            self.clock
        } else {
            self.clock + step
        }
    }

    /// A time below the clock, or above H.
    fn bad_time(&mut self) -> u64 {
        let above = self.chance.among(&[H + 1, H + 2, MAX, MAX - 1, H + 1000]);
        if self.clock == 0 || self.chance.one_in(3) {
            return above;
        }
        let back = self.chance.among(&[1, 1, 2, 5, self.clock]);
        self.clock.saturating_sub(back)
    }

    /// A state that the monitor takes.
    fn next_state(&mut self) -> Vec<u64> {
        for place in 0..self.width {
            self.state[place] = match self.style.states {
                States::OneIn(n) => u64::from(self.chance.one_in(n)),
                States::ZeroIn(n) => u64::from(!self.chance.one_in(n)),
                States::Turning => self.state[place],
            };
        }
        if matches!(self.style.states, States::Turning) && self.width > 0 {
            let place = self.chance.below(self.width);
            self.state[place] ^= 1;
        }
        self.state.clone()
    }

    /// A state of another width, or with a word over 1, or both.
    fn bad_state(&mut self) -> Vec<u64> {
        let mut state = self.next_state();
        let width = self.other_width();
        state.truncate(width);
        while state.len() < width {
            state.push(self.chance.below(2) as u64);
        }
        if !state.is_empty() && (width == self.width || self.chance.one_in(3)) {
            let place = self.chance.below(width);
            state[place] = self.chance.among(&[2, 2, 3, 255, 256, 257, 1 << 32, (1 << 32) + 1, H, MAX]);
        }
        state
    }

    /// A width that is too small, too large, or, where the book has atoms, right.
    fn other_width(&mut self) -> usize {
        let more = self.chance.among(&[1, 1, 2, 9, MOST_WIDTH]);
        let longer = MOST_WIDTH.min(self.width + more);
        if self.width == 0 {
            return longer;
        }
        let shorter = self.chance.below(self.width);
        self.chance.among(&[shorter, longer, self.width])
    }
}
