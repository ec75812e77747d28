//! The book: its sections as words, and what they mean once they are judged.

use crate::monitor::MOST_RUNS;
use crate::text::Reader;

/// Unbounded, as an upper.
pub const MAX: u64 = u64::MAX;
/// The largest time, lower and finite upper.
pub const H: u64 = 9223372036854775807;

pub const MOST_ROWS: u64 = 128;
pub const MOST_OPERANDS: u64 = 128;
pub const MOST_PROPERTIES: u64 = 16;
pub const MOST_TEMPORAL: usize = 32;
pub const LARGEST_ATOM: u64 = 255;

/// A count or the 33rd temporal row passes a limit.
pub const PASSES_LIMIT: u64 = 2;
/// Kind, arg, or a nonzero bound on kinds 0 to 6.
pub const BAD_ROW: u64 = 3;
/// Lower above upper, lower above H, finite upper above H.
pub const BAD_BOUNDS: u64 = 4;
/// Operand count, operand not below its owner, property not below the row count.
pub const BAD_OPERAND: u64 = 5;
/// A row used never or twice.
pub const NOT_USED_ONCE: u64 = 6;

/// A range of which a set can need more runs than there is room for, where a book is loaded strictly.
pub const COULD_RUN_OUT: u64 = 15;
/// A temporal row inside another, where a book is loaded in the lasting way.
pub const NESTED: u64 = 17;

/// The four sections of a book as they are read.
#[derive(Debug, Clone, PartialEq, Eq, Default)]
pub struct Sections {
    /// Kind, arg, lower, upper.
    pub rows: Vec<[u64; 4]>,
    pub operands: Vec<u64>,
    pub assumes: Vec<u64>,
    pub guarantees: Vec<u64>,
}

/// The instants lower..=upper; an upper of MAX means unbounded.
#[derive(Debug, Clone, Copy, PartialEq, Eq)]
pub struct Range {
    pub lower: u64,
    pub upper: u64,
}

impl Range {
    /// First and last instant of the range counted from t.
    pub fn counted_from(self, t: u64) -> (u64, u64) {
        let upper = if self.upper == MAX { MAX } else { t + self.upper };
        (t + self.lower, upper)
    }
}

/// A row with its operands' row numbers.
#[derive(Debug, Clone, PartialEq, Eq)]
pub enum Row {
    False,
    True,
    Atom(usize),
    And(Vec<usize>),
    Or(Vec<usize>),
    Not(usize),
    Implies(usize, usize),
    Historically(usize, Range),
    Once(usize, Range),
    /// Left, right.
    Since(usize, usize, Range),
}

impl Row {
    /// The range of a temporal row.
    pub fn range(&self) -> Option<Range> {
        match self {
            Row::Historically(_, range) | Row::Once(_, range) | Row::Since(_, _, range) => Some(*range),
            _ => None,
        }
    }

    fn is_temporal(&self) -> bool {
        self.range().is_some()
    }
}

/// An accepted book.
#[derive(Debug, Clone, PartialEq, Eq)]
pub struct Book {
    pub rows: Vec<Row>,
    pub assumes: Vec<usize>,
    pub guarantees: Vec<usize>,
    /// The largest atom plus 1; 0 if the book has no atom.
    pub width: usize,
}

impl Book {
    /// The rows that a row is made of.
    fn operands(&self, row: usize) -> Vec<usize> {
        match &self.rows[row] {
            Row::False | Row::True | Row::Atom(_) => Vec::new(),
            Row::And(operands) | Row::Or(operands) => operands.clone(),
            Row::Not(o) | Row::Historically(o, _) | Row::Once(o, _) => vec![*o],
            Row::Implies(left, right) | Row::Since(left, right, _) => vec![*left, *right],
        }
    }

    /// Whether a row, or one that it is made of, however far down, is temporal.
    fn has_temporal(&self, row: usize) -> bool {
        self.rows[row].is_temporal() || self.operands(row).into_iter().any(|o| self.has_temporal(o))
    }

    /// Whether a temporal row lies inside another.
    pub fn is_nested(&self) -> bool {
        let temporal = (0..self.rows.len()).filter(|&row| self.rows[row].is_temporal());
        temporal.flat_map(|row| self.operands(row)).any(|o| self.has_temporal(o))
    }

    /// The properties' rows, assumes first.
    pub fn properties(&self) -> impl Iterator<Item = usize> + '_ {
        self.assumes.iter().chain(&self.guarantees).copied()
    }
}

/// The first row whose set can need more runs than there is room for, and how many it can need.
pub fn over(book: &Book) -> Option<(usize, u64)> {
    book.rows.iter().enumerate().find_map(|(row, kind)| {
        let range = kind.range()?;
        let count = range.upper / (range.upper - range.lower).checked_add(2)? + 1;
        (range.upper != MAX && count > MOST_RUNS as u64).then_some((row, count))
    })
}

/// Reads the four sections; a count is judged before what follows it.
pub fn read(words: &mut Reader) -> Result<Sections, u64> {
    let mut rows = Vec::new();
    for _ in 0..read_count(words, MOST_ROWS)? {
        rows.push([words.next_word()?, words.next_word()?, words.next_word()?, words.next_word()?]);
    }
    let operands = read_section(words, MOST_OPERANDS)?;
    let assumes = read_section(words, MOST_PROPERTIES)?;
    let guarantees = read_section(words, MOST_PROPERTIES)?;
    Ok(Sections { rows, operands, assumes, guarantees })
}

fn read_count(words: &mut Reader, most: u64) -> Result<u64, u64> {
    let count = words.next_word()?;
    if count > most {
        Err(PASSES_LIMIT)
    } else {
        Ok(count)
    }
}

fn read_section(words: &mut Reader, most: u64) -> Result<Vec<u64>, u64> {
    (0..read_count(words, most)?).map(|_| words.next_word()).collect()
}

/// The book, or its first refusal: rows in order (3, 4, 2), then 5, then 6.
pub fn judge(sections: &Sections) -> Result<Book, u64> {
    let mut temporal = 0;
    for row in &sections.rows {
        judge_row(row)?;
        if is_temporal(row[0]) {
            temporal += 1;
        }
        if temporal > MOST_TEMPORAL {
            return Err(PASSES_LIMIT);
        }
    }
    judge_operands(sections)?;
    judge_uses(sections)?;
    Ok(built(sections))
}

pub fn is_temporal(kind: u64) -> bool {
    (7..=9).contains(&kind)
}

fn judge_row(&[kind, arg, lower, upper]: &[u64; 4]) -> Result<(), u64> {
    let fits = match kind {
        0 | 1 => arg == 0,
        2 => arg <= LARGEST_ATOM,
        3 | 4 => arg <= MOST_OPERANDS,
        5 | 7 | 8 => arg == 1,
        6 | 9 => arg == 2,
        _ => false,
    };
    if !fits || (!is_temporal(kind) && (lower != 0 || upper != 0)) {
        return Err(BAD_ROW);
    }
    if lower > upper || lower > H || (upper != MAX && upper > H) {
        return Err(BAD_BOUNDS);
    }
    Ok(())
}

/// How many operands a row of this kind and arg takes.
pub fn operands_taken(kind: u64, arg: u64) -> usize {
    match kind {
        0..=2 => 0,
        _ => arg as usize,
    }
}

/// 5: the count, then operands, assumes, guarantees.
fn judge_operands(sections: &Sections) -> Result<(), u64> {
    let needed: usize = sections.rows.iter().map(|row| operands_taken(row[0], row[1])).sum();
    if needed != sections.operands.len() {
        return Err(BAD_OPERAND);
    }
    let mut operands = sections.operands.iter();
    for (owner, row) in sections.rows.iter().enumerate() {
        if operands.by_ref().take(operands_taken(row[0], row[1])).any(|&o| o >= owner as u64) {
            return Err(BAD_OPERAND);
        }
    }
    let mut properties = sections.assumes.iter().chain(&sections.guarantees);
    if properties.any(|&p| p >= sections.rows.len() as u64) {
        return Err(BAD_OPERAND);
    }
    Ok(())
}

/// 6: each row is used exactly once, as an operand or as a property.
fn judge_uses(sections: &Sections) -> Result<(), u64> {
    let mut uses = vec![0; sections.rows.len()];
    for &row in sections.operands.iter().chain(&sections.assumes).chain(&sections.guarantees) {
        uses[row as usize] += 1;
    }
    if uses.iter().all(|&n| n == 1) {
        Ok(())
    } else {
        Err(NOT_USED_ONCE)
    }
}

/// The book of sections that were judged to be good.
fn built(sections: &Sections) -> Book {
    let numbers = |words: &[u64]| words.iter().map(|&w| w as usize).collect::<Vec<usize>>();
    let mut operands = sections.operands.iter().map(|&o| o as usize);
    let mut width = 0;
    let mut rows = Vec::new();
    for &[kind, arg, lower, upper] in &sections.rows {
        let range = Range { lower, upper };
        let own: Vec<usize> = operands.by_ref().take(operands_taken(kind, arg)).collect();
        rows.push(match kind {
            0 => Row::False,
            1 => Row::True,
            2 => {
                width = width.max(arg as usize + 1);
                Row::Atom(arg as usize)
            }
            3 => Row::And(own),
            4 => Row::Or(own),
            5 => Row::Not(own[0]),
            6 => Row::Implies(own[0], own[1]),
            7 => Row::Historically(own[0], range),
            8 => Row::Once(own[0], range),
            _ => Row::Since(own[0], own[1], range),
        });
    }
    Book { rows, assumes: numbers(&sections.assumes), guarantees: numbers(&sections.guarantees), width }
}

#[cfg(test)]
mod tests {
    use super::*;

    fn number(text: &str) -> u64 {
        read(&mut Reader::new(text.as_bytes())).and_then(|s| judge(&s)).err().unwrap_or(0)
    }

    #[test]
    fn the_order_of_refusals() {
        // The first row's 4 before the second row's 3.
        assert_eq!(number("2 8 1 2 1 10 0 0 0 0 0 0"), 4);
        assert_eq!(number("2 10 0 0 0 8 1 2 1 0 0 0"), 3);
        // A count is judged before what follows it, and all sections before any row.
        assert_eq!(number("129"), 2);
        assert_eq!(number("1 10 0 0 0 0 0 17"), 2);
        assert_eq!(number("1 10 0 0 0 0 0 x"), 13);
        assert_eq!(number("1 10 0 0 0 0 0"), 1);
        assert_eq!(number("1 3 129 0 0 0 0 0"), 3);
        assert_eq!(number("1 3 128 0 0 0 0 0"), 5);
        assert_eq!(number("1 2 256 0 0 0 0 1 0"), 3);
        assert_eq!(number("1 2 255 0 0 0 0 1 0"), 0);
        assert_eq!(number("1 0 0 0 1 0 0 1 0"), 3);
        assert_eq!(number("1 0 0 0 0 0 0 0"), 6);
        assert_eq!(number("1 0 0 0 0 0 1 0 1 0"), 6);
        assert_eq!(number("1 0 0 0 0 0 1 1 1 0"), 5);
        assert_eq!(number("1 5 1 0 0 1 0 0 1 0"), 5);
        assert_eq!(number("0 0 0 0"), 0);
    }

    #[test]
    fn bounds() {
        let once = |lower: u64, upper: u64| number(&format!("2 1 0 0 0 8 1 {lower} {upper} 1 0 0 1 1"));
        assert_eq!(once(0, MAX), 0);
        assert_eq!(once(H, H), 0);
        assert_eq!(once(H, MAX), 0);
        assert_eq!(once(H + 1, MAX), 4);
        assert_eq!(once(MAX, MAX), 4);
        assert_eq!(once(0, H + 1), 4);
        assert_eq!(once(0, MAX - 1), 4);
        assert_eq!(once(1, 0), 4);
    }

    #[test]
    fn temporal_rows_inside_others() {
        let nested = |text: &str| judge(&read(&mut Reader::new(text.as_bytes())).unwrap()).unwrap().is_nested();
        // Once Historically a; Once Not a; and, as properties side by side, Once a and Historically b.
        assert!(nested("3 2 0 0 0 7 1 0 5 8 1 0 5 2 0 1 0 1 2"));
        assert!(!nested("3 2 0 0 0 5 1 0 0 8 1 0 5 2 0 1 0 1 2"));
        assert!(!nested("4 2 0 0 0 8 1 0 5 2 1 0 0 7 1 0 5 2 0 2 0 2 1 3"));
        // And of two temporal rows; Since with one far below its right, and with one as its left.
        assert!(!nested("5 2 0 0 0 8 1 0 5 2 1 0 0 7 1 0 5 3 2 0 0 4 0 2 1 3 0 1 4"));
        assert!(nested("6 2 0 0 0 2 1 0 0 8 1 0 5 5 1 0 0 3 1 0 0 9 2 0 5 5 1 2 3 0 4 0 1 5"));
        assert!(nested("4 2 0 0 0 8 1 0 5 2 1 0 0 9 2 0 5 3 0 1 2 0 1 3"));
    }

    #[test]
    fn the_33rd_temporal_row() {
        let book = |n: usize| {
            let rows = " 1 0 0 0 8 1 0 0".repeat(n);
            let operands: String = (0..n).map(|i| format!(" {}", 2 * i)).collect();
            format!("{}{rows} {n}{operands} 0 0", 2 * n)
        };
        // 32 are judged on (properties are missing: 6); the 33rd is 2.
        assert_eq!(number(&book(32)), 6);
        assert_eq!(number(&book(33)), 2);
    }
}
