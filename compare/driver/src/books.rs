//! Books drawn at random.

use crate::case::{Case, Row, AND, ATOM, FALSE, HISTORICALLY, IMPLIES, NOT, ONCE, OR, SINCE, TRUE};
use crate::chance::Chance;
use judge::book::{is_temporal, H, LARGEST_ATOM, MAX, MOST_PROPERTIES, MOST_ROWS, MOST_TEMPORAL};

/// How likely each kind is, in the order of the kinds' numbers.
type Weights = [usize; 10];

const BALANCED: Weights = [1, 1, 6, 3, 3, 3, 3, 3, 3, 3];
const TEMPORAL: Weights = [1, 1, 5, 1, 1, 1, 1, 6, 6, 6];
const LOGIC: Weights = [2, 2, 6, 6, 6, 4, 4, 1, 1, 1];
const CHAIN: Weights = [1, 1, 3, 1, 1, 2, 1, 6, 6, 6];
const CONSTANT: Weights = [6, 6, 3, 3, 3, 3, 3, 4, 4, 4];
const TURNED: Weights = [1, 2, 1, 1, 1, 4, 1, 2, 2, 6];
const WIDE: Weights = [1, 1, 30, 1, 1, 1, 1, 1, 1, 1];

/// What a book is to look like.
pub struct Style {
    pub rows: usize,
    pub properties: usize,
    temporal: usize,
    weights: Weights,
    /// Operands are the rows made last, so that the book grows deep.
    deep: bool,
    /// Atoms are numbered below this.
    atoms: u64,
    bounds: Bounds,
    /// How many times the first rows are Historically Once of an atom, unbounded, or its Not: once the atom has failed and
    /// then held, Historically is true early and can never hold again.
    turned: usize,
    /// No temporal row lies inside another.
    flat: bool,
}

/// Where bounds lie.
#[derive(Clone, Copy)]
pub enum Bounds {
    Small,
    /// Mostly unbounded.
    Open,
    /// Late and short, so that many runs lie ahead of the clock.
    Late,
    /// So late that many runs lie ahead of the clock though each takes several instants.
    Later,
    Mixed,
    NearH,
}

impl Style {
    /// A book with this many rows at most.
    pub fn drawn(chance: &mut Chance, rows: usize) -> Self {
        Self {
            rows: 1 + chance.below(rows),
            properties: if chance.one_in(2) { 1 } else { 1 + chance.below(4) },
            temporal: MOST_TEMPORAL,
            weights: chance.among(&[BALANCED, BALANCED, TEMPORAL, TEMPORAL, LOGIC, CHAIN, CONSTANT]),
            deep: chance.one_in(3),
            atoms: 1 + chance.below(5) as u64,
            bounds: chance.among(&[Bounds::Small, Bounds::Small, Bounds::Small, Bounds::Mixed, Bounds::NearH]),
            turned: 0,
            flat: false,
        }
    }

    /// A book with this many rows at most, in which no temporal row lies inside another.
    pub fn flat(chance: &mut Chance, rows: usize) -> Self {
        let bounds = [Bounds::Small, Bounds::Small, Bounds::Open, Bounds::Late, Bounds::Later, Bounds::Mixed, Bounds::NearH];
        Self { flat: true, bounds: chance.among(&bounds), weights: chance.among(&[BALANCED, TEMPORAL, CHAIN]), ..Self::drawn(chance, rows) }
    }

    /// Such a book of few rows, whose sets come to have many runs.
    pub fn flat_with_many_runs(chance: &mut Chance) -> Self {
        Self { rows: 4 + chance.below(6), bounds: Bounds::Later, flat: true, ..Self::with_many_runs(chance) }
    }

    /// A book whose rows mostly are properties or operands of one.
    pub fn shallow(chance: &mut Chance) -> Self {
        Self { properties: 1 + chance.below(8), weights: chance.among(&[TEMPORAL, CONSTANT]), ..Self::drawn(chance, 14) }
    }

    /// Temporal rows over rows whose early answers turn out wrong.
    pub fn turned(chance: &mut Chance) -> Self {
        let turned = 1 + chance.below(3);
        let rows = 4 * turned + 1 + chance.below(8);
        Self { rows, turned, weights: TURNED, properties: 4, bounds: Bounds::Open, ..Self::drawn(chance, 1) }
    }

    /// A book at or near the limits.
    pub fn at_limits(chance: &mut Chance) -> Self {
        let most = 2 * MOST_PROPERTIES as usize;
        Self {
            rows: if chance.one_in(2) { MOST_ROWS as usize } else { 100 + chance.below(28) },
            properties: chance.among(&[1, 1, 2, 8, most, most]),
            weights: chance.among(&[BALANCED, TEMPORAL, CHAIN, CHAIN, LOGIC, WIDE]),
            deep: chance.one_in(2),
            atoms: chance.among(&[1, 3, 10, 40, LARGEST_ATOM + 1]),
            ..Self::drawn(chance, 1)
        }
    }

    /// A few temporal rows with short ranges, whose sets come to have many runs, one after the other or at a time.
    pub fn with_many_runs(chance: &mut Chance) -> Self {
        Self {
            rows: 2 + chance.below(8),
            weights: TEMPORAL,
            atoms: 1 + chance.below(2) as u64,
            bounds: chance.among(&[Bounds::Small, Bounds::Late, Bounds::Late]),
            ..Self::drawn(chance, 1)
        }
    }

    /// As many temporal rows as are allowed, or one or two more.
    pub fn over_the_limit(chance: &mut Chance) -> Self {
        Self { temporal: MOST_TEMPORAL + chance.among(&[0, 1, 1, 2]), weights: TEMPORAL, ..Self::at_limits(chance) }
    }
}

/// A book with no calls.
pub fn book(chance: &mut Chance, style: &Style) -> Case {
    let mut rows: Vec<Row> = Vec::new();
    // Rows that no row uses yet; at the end they are the properties.
    let mut free: Vec<usize> = Vec::new();
    for _ in 0..style.turned {
        put_turned(chance, style, &mut rows, &mut free);
    }
    let mut temporal = 2 * style.turned;
    while rows.len() < style.rows {
        let is_last = rows.len() + 1 == style.rows;
        let row = if is_last && free.len() >= style.properties {
            let spare = free.len() + 1 - style.properties;
            let operands = take(chance, style, &mut free, spare);
            Row::plain(chance.among(&[AND, OR]), 0, operands)
        } else {
            drawn_row(chance, style, &rows, &mut free, temporal < style.temporal)
        };
        temporal += usize::from(is_temporal(row.kind));
        free.push(rows.len());
        rows.push(row);
    }
    let (assumes, guarantees) = properties(chance, free);
    Case { rows, assumes, guarantees, calls: Vec::new() }
}

fn put_turned(chance: &mut Chance, style: &Style, rows: &mut Vec<Row>, free: &mut Vec<usize>) {
    let first = rows.len();
    rows.push(Row::plain(ATOM, chance.within(0..=style.atoms - 1), Vec::new()));
    rows.push(Row { kind: ONCE, atom: 0, lower: 0, upper: MAX, operands: vec![first] });
    rows.push(Row { kind: HISTORICALLY, atom: 0, lower: 0, upper: MAX, operands: vec![first + 1] });
    if chance.one_in(2) {
        rows.push(Row::plain(NOT, 0, vec![first + 2]));
    }
    free.push(rows.len() - 1);
}

/// Whether a row, or one that it is made of, is temporal.
fn has_temporal(rows: &[Row], row: usize) -> bool {
    is_temporal(rows[row].kind) || rows[row].operands.iter().any(|&o| has_temporal(rows, o))
}

fn drawn_row(chance: &mut Chance, style: &Style, rows: &[Row], free: &mut Vec<usize>, temporal: bool) -> Row {
    let kind = chance.weighed(&style.weights) as u64;
    let takes = match kind {
        AND | OR => chance.among(&[0, 1, 2, 2, 3, 3, 4, free.len() / 2]),
        NOT => 1,
        IMPLIES | SINCE => 2,
        _ if is_temporal(kind) => 1,
        _ => 0,
    };
    let only_still = style.flat && is_temporal(kind);
    let (mut takeable, others): (Vec<usize>, Vec<usize>) = free.iter().partition(|&&row| !only_still || !has_temporal(rows, row));
    if takes > takeable.len() || (is_temporal(kind) && !temporal) {
        return leaf(chance, style);
    }
    let operands = take(chance, style, &mut takeable, takes);
    free.clear();
    free.extend(others.into_iter().chain(takeable));
    match kind {
        FALSE | TRUE => Row::plain(kind, 0, operands),
        ATOM => leaf(chance, style),
        _ if is_temporal(kind) => {
            let (lower, upper) = bounds(chance, style.bounds);
            Row { kind, atom: 0, lower, upper, operands }
        }
        _ => Row::plain(kind, 0, operands),
    }
}

fn leaf(chance: &mut Chance, style: &Style) -> Row {
    if chance.one_in(12) {
        return Row::plain(chance.among(&[FALSE, TRUE]), 0, Vec::new());
    }
    Row::plain(ATOM, chance.within(0..=style.atoms - 1), Vec::new())
}

/// Takes this many of the free rows, in any order.
fn take(chance: &mut Chance, style: &Style, free: &mut Vec<usize>, count: usize) -> Vec<usize> {
    let mut taken = Vec::new();
    for _ in 0..count {
        let place = if style.deep { free.len() - 1 } else { chance.below(free.len()) };
        taken.push(free.remove(place));
    }
    if taken.len() > 1 && chance.one_in(2) {
        let place = chance.below(taken.len());
        taken.swap(0, place);
    }
    taken
}

/// The free rows, in any order, some as assumes and the others as guarantees.
fn properties(chance: &mut Chance, mut free: Vec<usize>) -> (Vec<usize>, Vec<usize>) {
    let most = MOST_PROPERTIES as usize;
    let (mut assumes, mut guarantees) = (Vec::new(), Vec::new());
    while !free.is_empty() {
        let row = free.remove(chance.below(free.len()));
        let to_assumes = guarantees.len() == most || (assumes.len() < most && chance.one_in(2));
        if to_assumes {
            assumes.push(row)
        } else {
            guarantees.push(row)
        }
    }
    (assumes, guarantees)
}

fn bounds(chance: &mut Chance, style: Bounds) -> (u64, u64) {
    let lower = match style {
        Bounds::Small | Bounds::Open => chance.among(&[0, 0, 0, 1, 2, 3, 5]),
        Bounds::Late => chance.among(&[0, 120, 126, 127, 128, 129, 150, 200, 300]),
        Bounds::Later => chance.among(&[300, 500, 700, 900, 1200, 1500]),
        Bounds::Mixed => {
            let any = chance.word() & H;
            let shift = chance.below(63);
            chance.among(&[0, 0, 1, 2, 10, 1000, 1 << 32, any >> shift])
        }
        Bounds::NearH => chance.among(&[0, 0, 1, 2, H - 2, H - 1, H, H / 2]),
    };
    let small = chance.within(0..=6);
    let any = chance.word() & H;
    let shift = chance.below(63);
    let upper = match style {
        Bounds::Small => chance.among(&[MAX, lower, lower + small, lower + small, lower + 20]),
        Bounds::Open => chance.among(&[MAX, MAX, MAX, lower + small]),
        Bounds::Late | Bounds::Later => chance.among(&[lower, lower, lower, lower + 1, lower + small]),
        Bounds::Mixed => chance.among(&[MAX, lower, lower.saturating_add(small), lower.saturating_add(any >> shift), H]),
        Bounds::NearH => chance.among(&[MAX, lower, lower.saturating_add(small), H - 1, H]),
    };
    if upper == MAX {
        (lower, MAX)
    } else {
        (lower, upper.clamp(lower, H))
    }
}

#[cfg(test)]
mod tests {
    use super::*;

    #[test]
    fn drawn_books_are_accepted() {
        for index in 0..2000 {
            let mut chance = Chance::new(7, index);
            let style = match index % 4 {
                0 => Style::at_limits(&mut chance),
                2 => Style::turned(&mut chance),
                1 => Style::with_many_runs(&mut chance),
                _ => Style::drawn(&mut chance, 30),
            };
            let case = book(&mut chance, &style);
            assert!(judge::book::judge(&case.sections()).is_ok(), "{case:?}");
        }
    }

    #[test]
    fn drawn_flat_books_are_flat() {
        let mut with_two = 0;
        for index in 0..2000 {
            let mut chance = Chance::new(8, index);
            let style = if index % 3 == 0 { Style::flat_with_many_runs(&mut chance) } else { Style::flat(&mut chance, 30) };
            let case = book(&mut chance, &style);
            assert!(!judge::book::judge(&case.sections()).expect("the book is accepted").is_nested(), "{case:?}");
            with_two += usize::from(case.rows.iter().filter(|row| is_temporal(row.kind)).count() > 1);
        }
        assert!(with_two > 1000, "{with_two} with two temporal rows");
    }
}
