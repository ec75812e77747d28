//! Inputs written by hand: the examples of docs/REFERENCE.md, every refusal, and what is seldom drawn.

/// Unbounded, in text.
const MAX: &str = "18446744073709551615";
const OVER_MAX: &str = "18446744073709551616";
const H: &str = "9223372036854775807";
const OVER_H: &str = "9223372036854775808";

/// Once[0,0] a, whose runs are over one instant later, and Once[128,128] a, whose runs are all ahead at first.
const NOW: &str = "2\n2 0 0 0\n8 1 0 0\n1 0\n0\n1 1\n";
const AHEAD: &str = "2\n2 0 0 0\n8 1 128 128\n1 0\n0\n1 1\n";
/// Since(a0, a1)[128,128], whose runs are all ahead at first, and dropped where a0 fails.
const SINCE_AHEAD: &str = "3\n2 0 0 0\n2 1 0 0\n9 2 128 128\n2 0 1\n0\n1 2\n";
/// Once[0,5] a.
const SHORT: &str = "2\n2 0 0 0\n8 1 0 5\n1 0\n0\n1 1\n";

/// Rules that settle when their set has lapsed: Historically[0,5] Once[0,MAX] a0; Since(a1, Historically[0,MAX] a0)[0,5];
/// Once[2,5] Historically[0,MAX] a0.
const LAPSED_HISTORICALLY: &str = "3\n2 0 0 0\n8 1 0 18446744073709551615\n7 1 0 5\n2 0 1\n0\n1 2\n";
const LAPSED_SINCE: &str = "4\n2 0 0 0\n7 1 0 18446744073709551615\n2 1 0 0\n9 2 0 5\n3 0 2 1\n0\n1 3\n";
const LAPSED_LATER: &str = "3\n2 0 0 0\n7 1 0 18446744073709551615\n8 1 2 5\n2 0 1\n0\n1 2\n";

/// A name and an input each.
pub fn examples() -> Vec<(String, Vec<u8>)> {
    let mut all = of_document();
    all.extend(refused_books());
    all.extend(refused_calls());
    all.push(("early-turned", early_turned()));
    all.into_iter().map(|(name, text)| (name.to_string(), text.into_bytes())).collect()
}

/// A book's text and its calls, one to a line.
fn case(book: &str, calls: &[&str]) -> String {
    let lines: String = calls.iter().map(|call| format!("{call}\n")).collect();
    format!("{book}{}\n{lines}", calls.len())
}

fn of_document() -> Vec<(&'static str, String)> {
    let whole = format!("3\n2 0 0 0\n8 1 0 {MAX}\n7 1 0 {MAX}\n2 0 1\n0\n1 2\n");
    let since = format!("3\n2 0 0 0\n2 1 0 0\n9 2 0 {MAX}\n2 0 1\n0\n1 2\n");
    let constants = format!("3\n0 0 0 0\n1 0 0 0\n9 2 0 {MAX}\n2 0 1\n0\n1 2\n");
    let and_or = "5\n0 0 0 0\n2 0 0 0\n3 2 0 0\n3 0 0 0\n4 0 0 0\n2 0 1\n1 2\n2 3 4\n".to_string();
    let once_historically = |upper: &str| format!("3\n2 0 0 0\n7 1 0 {MAX}\n8 1 0 {upper}\n2 0 1\n0\n1 2\n");
    let steps: Vec<String> = (1..=63).map(|i| format!("0 {}", 2 * i)).collect();
    let full = |first: &'static str, last: &[&'static str]| {
        let calls: Vec<&str> = [first].into_iter().chain(steps.iter().map(String::as_str)).chain(last.iter().copied()).collect();
        calls.iter().map(|call| call.to_string()).collect::<Vec<String>>()
    };
    let joined = |book: &str, calls: Vec<String>| case(book, &calls.iter().map(String::as_str).collect::<Vec<_>>());
    let full_later = "4\n2 1 0 0\n7 1 1 1\n2 0 0 0\n8 1 128 128\n2 0 2\n0\n2 1 3\n";
    vec![
        ("whole-case", case(&whole, &["1 1 0", "0 1", "1 1 1", "0 5"])),
        ("p06", case("2\n2 0 0 0\n8 1 2 3\n1 0\n0\n1 1\n", &["1 1 1", "1 1 0", "0 1", "0 2", "0 3", "0 4"])),
        ("p07", case("2\n2 0 0 0\n8 1 1 1\n1 0\n0\n1 1\n", &["1 1 1", "0 5"])),
        ("p08", case("2\n2 0 0 0\n7 1 0 0\n1 0\n0\n1 1\n", &["0 4", "1 1 1"])),
        ("p09", case(&since, &["1 2 0 1", "1 2 1 0", "0 7", "1 2 0 0"])),
        ("p10", case(&constants, &["0 0"])),
        ("p11", case(&and_or, &["0 0", "1 1 1"])),
        ("p12", case(&once_historically(MAX), &["1 1 1", "1 1 0"])),
        ("lapsed", case(&once_historically("5"), &["1 1 1", "1 1 0", "0 5", "0 6"])),
        ("lapsed-historically", case(LAPSED_HISTORICALLY, &["1 1 0", "1 1 1", "0 5", "0 6"])),
        ("lapsed-since", case(LAPSED_SINCE, &["1 2 1 1", "1 2 0 1", "0 5", "0 6"])),
        ("lapsed-later", case(LAPSED_LATER, &["1 1 1", "1 1 0", "0 1", "0 5", "0 6"])),
        ("full-set", joined(AHEAD, full("1 1 1", &["0 128", "0 128", "0 129", "0 130", "0 131"]))),
        ("full-later-row", joined(full_later, full("1 2 1 1", &["1 2 1 0", "0 128", "0 127", "1 2 0 1", "0 129"]))),
        ("full-by-a-state", joined(SINCE_AHEAD, full("1 2 1 1", &["1 2 1 0", "0 128", "1 2 1 1", "0 129", "1 2 1 1"]))),
        ("p08-stamped", case("2\n2 0 0 0\n7 1 0 0\n1 0\n0\n1 1\n", &["2 4 1 1", "2 5 1 1", "2 5 1 0"])),
        ("stamped-full-between", joined(SINCE_AHEAD, full("1 2 1 1", &["2 128 2 0 0", "0 127", "2 128 2 0 0"]))),
        ("stamped-full-after", joined(SINCE_AHEAD, full("1 2 1 1", &["1 2 1 0", "2 128 2 1 1", "0 127", "2 129 2 1 1"]))),
        ("old-set", joined(NOW, full("1 1 1", &["0 128", "0 127", "0 130", "0 1000"]))),
        ("old-run", case(SHORT, &["1 1 1", "1 1 0", "0 5", "0 6", "1 1 1", "0 12", "1 1 0", "0 17", "0 18"])),
        ("time-h", case(NOW, &["1 1 1", &format!("0 {OVER_H}"), &format!("0 {H}"), &format!("0 {MAX}"), "0 5"])),
        ("no-rows", case("0\n0\n0\n0\n", &["0 3", "1 0", "1 2 1 0", "1 1 2"])),
        ("empty", String::new()),
    ]
}

fn refused_books() -> Vec<(&'static str, String)> {
    let once = |lower: &str, upper: &str| format!("2\n1 0 0 0\n8 1 {lower} {upper}\n1 0\n0\n1 1\n0\n");
    let temporal = |count: usize| {
        let rows: String = (0..count).map(|_| "8 1 0 0\n").collect();
        let operands: String = (0..count).map(|i| format!(" {i}")).collect();
        format!("{}\n2 0 0 0\n{rows}{count}{operands}\n0\n1 {count}\n1\n1 1 1\n", count + 1)
    };
    let trues = |count: usize| format!("{count}\n{}0\n0\n0\n0\n", "1 0 0 0\n".repeat(count));
    vec![
        ("book-ends-early", "1 2 0 0".to_string()),
        ("book-bad-word", "1 2 0 0 01 0 0 1 0 0".to_string()),
        ("book-129-rows", trues(129)),
        ("book-128-rows-not-used", trues(128)),
        ("book-17-assumes", "1 10 0 0 0 0 17 x".to_string()),
        ("book-32-temporal", temporal(32)),
        ("book-33-temporal", temporal(33)),
        ("book-kind", "1\n10 0 0 0\n0\n0\n1 0\n0\n".to_string()),
        ("book-and-of-129", "1\n3 129 0 0\n0\n0\n1 0\n0\n".to_string()),
        ("book-and-of-128", "1\n3 128 0 0\n0\n0\n1 0\n0\n".to_string()),
        ("book-atom-256", "1\n2 256 0 0\n0\n0\n1 0\n0\n".to_string()),
        ("book-bound-on-atom", "1\n2 0 0 1\n0\n0\n1 0\n0\n".to_string()),
        ("book-rows-in-order", "2 8 1 2 1 10 0 0 0 0 0 0".to_string()),
        ("book-lower-above-upper", once("2", "1")),
        ("book-lower-above-h", once(OVER_H, MAX)),
        ("book-upper-above-h", once("0", OVER_H)),
        ("book-bounds-of-h", once(H, H)),
        ("book-operand-of-itself", "1\n5 1 0 0\n1 0\n0\n1 0\n0\n".to_string()),
        ("book-property-past-rows", "1\n1 0 0 0\n0\n0\n1 1\n0\n".to_string()),
        ("book-row-used-twice", "1\n1 0 0 0\n0\n1 0\n1 0\n0\n".to_string()),
        ("book-row-not-used", "2\n1 0 0 0\n1 0 0 0\n0\n0\n1 1\n0\n".to_string()),
    ]
}

fn refused_calls() -> Vec<(&'static str, String)> {
    let atom = "1\n2 1 0 0\n0\n0\n1 0\n";
    let now = "1\n2 0 0 0\n0\n0\n1 0\n";
    let states = ["1 1 5", "1 2 0 2", &format!("1 2 0 {MAX}"), "1 2 0 257", "1 3 0 1 2", "1 3 0 1 0", "1 2 0 1", "1 0"];
    let wide = |atom: &str, width: usize| format!("{atom}2\n0 1\n1 {width}{}\n", " 1".repeat(width));
    vec![
        ("call-states", case(atom, &states)),
        ("call-times", case(atom, &["0 5", "0 4", "0 5", "0 6", "0 0"])),
        ("call-refused-in-a-stretch", case(now, &["1 1 1", "1 1 0", "1 1 2", "0 5", "0 4", "1 1 1", "1 1 0"])),
        ("call-stamped", case(atom, &["2 5 2 0 1", "2 4 1 2", &format!("2 {OVER_H} 1 2"), "2 6 1 2", "2 6 3 0 1 2", "2 6 2 0 2", "2 6 2 0 1"])),
        ("stop-no-count", atom.to_string()),
        ("stop-bad-count", format!("{atom}1x")),
        ("stop-large-count", format!("{atom}{MAX} 0 3")),
        ("stop-left-over", format!("{atom}1 0 3 4")),
        ("stop-bad-left-over", format!("{atom}1 0 3\r")),
        ("stop-in-state", format!("{atom}2 0 1 1 2 7")),
        ("stop-bad-state-word", format!("{atom}2 0 1 1 2 0 {OVER_MAX}")),
        ("stop-kind", format!("{atom}2 0 1 3 x")),
        ("stop-in-stamped", format!("{atom}2 2 1 2 0 1 2 0 2 0")),
        ("stop-stamped-width", format!("{atom}2 2 1 2 0 1 2 {MAX} 257 x")),
        ("stop-width", wide(atom, 257)),
        ("call-too-wide", wide(atom, 256)),
        ("call-widest", wide("1\n2 255 0 0\n0\n0\n1 0\n", 256)),
        ("spaces", "  \n1  2 0\n\n0 0 0 0 1 0\n   1 0  7  ".to_string()),
    ]
}

/// Since whose left is false early while its value holds, with a set that covers: Not Historically Once a, after a failed
/// and then held. Its right is true early, false, or open.
fn early_turned() -> String {
    let mut rows = String::new();
    let mut operands = String::new();
    // Six of them, rows 0 to 23, each with its last row as the result.
    for first in (0..24).step_by(4) {
        rows += &format!("2 0 0 0\n8 1 0 {MAX}\n7 1 0 {MAX}\n5 1 0 0\n");
        operands += &format!(" {} {} {}", first, first + 1, first + 2);
    }
    rows += &format!("1 0 0 0\n2 0 0 0\n9 2 1 {MAX}\n9 2 0 {MAX}\n9 2 1 {MAX}\n9 2 1 {MAX}\n");
    operands += " 3 24 7 11 15 19 23 25";
    case(&format!("30\n{rows}26{operands}\n0\n4 26 27 28 29\n"), &["0 0", "1 1 1", "0 1", "0 2"])
}
