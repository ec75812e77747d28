//! The sentences that the recorded answers must decide.

const ANSWERS: [&str; 3] = ["false", "true", "open"];
const LOWERS: [&str; 2] = ["lower 0", "lower over 0"];
const COVERS: [&str; 2] = ["covers", "does not cover"];
const TEMPORAL: [&str; 3] = ["Historically", "Once", "Since"];
const RANGES: [&str; 17] = [
    "[0, the same]",
    "[0, small]",
    "[0, large]",
    "[0, near H]",
    "[0, unbounded]",
    "[small, the same]",
    "[small, small]",
    "[small, large]",
    "[small, near H]",
    "[small, unbounded]",
    "[large, the same]",
    "[large, large]",
    "[large, near H]",
    "[large, unbounded]",
    "[near H, the same]",
    "[near H, near H]",
    "[near H, unbounded]",
];

pub fn required() -> Vec<String> {
    [kinds(), early_rules(), settled_rules(), ranges(), counts(), refusals()].concat()
}

/// Every kind's value both ways, and its early and settled answers every way.
fn kinds() -> Vec<String> {
    let mut all = vec!["False value 0".to_string(), "True value 1".to_string(), "Atom value 0".to_string(), "Atom value 1".to_string()];
    for kind in ["And", "Or", "Not", "Implies", "Historically", "Once", "Since"] {
        all.extend(["value 0", "value 1"].map(|value| format!("{kind} {value}")));
        for rule in ["early", "settled"] {
            all.extend(ANSWERS.map(|answer| format!("{kind} {rule} {answer}")));
        }
    }
    all
}

/// The count from none to a full set.
fn counts() -> Vec<String> {
    ["0", "1", "over 1", "full"].map(|count| format!("count {count}")).to_vec()
}

/// Every case that an early rule tells apart.
fn early_rules() -> Vec<String> {
    let mut all = logic("early");
    for lower in LOWERS {
        for covers in COVERS {
            for left in ANSWERS {
                all.extend(["Historically", "Once"].map(|kind| format!("{kind} early: {left}, {lower}, {covers}")));
                all.extend(ANSWERS.map(|right| format!("Since early: {left} {right}, {lower}, {covers}")));
            }
        }
    }
    all
}

/// The rules of And, Or, Not and Implies.
fn logic(rule: &str) -> Vec<String> {
    let mut all = Vec::new();
    for left in ANSWERS {
        all.push(format!("Not {rule} of {left}"));
        all.extend(ANSWERS.map(|right| format!("Implies {rule} of {left} {right}")));
    }
    for kind in ["And", "Or"] {
        for operands in ["none", "false", "true", "open", "false and open", "false and true", "open and true", "false and open and true"] {
            all.push(format!("{kind} {rule} of {operands}"));
        }
    }
    all
}

/// Each clause of the settled rules, and what it just misses.
fn settled_rules() -> Vec<String> {
    let clauses = [
        "Once settled: open, lower over 0, covers",
        "Once settled: true, lower 0, does not cover",
        "Once settled: true, lower over 0, does not cover",
        "Once settled: false, lower 0, empty",
        "Once settled: false, lower 0, lapsed",
        "Once settled: false, lower over 0, lapsed",
        "Once settled: open, lower 0, lapsed",
        "Once settled: false, lower 0, does not cover",
        "Once settled: false, lower 0, covers",
        "Once settled: open, lower 0, empty",
        "Historically settled: open, lower over 0, covers",
        "Historically settled: false, lower 0, does not cover",
        "Historically settled: false, lower over 0, does not cover",
        "Historically settled: true, lower 0, empty",
        "Historically settled: true, lower 0, lapsed",
        "Historically settled: true, lower 0, does not cover",
        "Historically settled: true, lower 0, covers",
        "Historically settled: open, lower 0, empty",
        "Since settled: true open, lower over 0, covers",
        "Since settled: true open, lower over 0, does not cover",
        "Since settled: open open, lower 0, covers",
        "Since settled: open true, lower 0, does not cover",
        "Since settled: open true, lower over 0, does not cover",
        "Since settled: open false, lower 0, empty",
        "Since settled: open false, lower 0, lapsed",
        "Since settled: open false, lower 0, does not cover",
        "Since settled: open open, lower 0, empty",
        "Since settled: false open, lower over 0, empty",
        "Since settled: false open, lower over 0, does not cover",
        "Since settled: false open, lower 0, empty",
        "Since settled: false open, lower 0, covers",
    ];
    let mut all = logic("settled");
    all.extend(clauses.map(str::to_string));
    all
}

/// Every kind of range under every temporal kind, both ways.
fn ranges() -> Vec<String> {
    let mut all = Vec::new();
    for kind in TEMPORAL {
        for range in RANGES {
            all.extend([0, 1].map(|value| format!("{kind} over {range} value {value}")));
        }
    }
    all
}

fn refusals() -> Vec<String> {
    let books = [0, 1, 2, 3, 4, 5, 6, 13].map(|n| format!("book {n}"));
    let times = [0, 7, 8, 11].map(|n| format!("time call {n}"));
    let states = [0, 9, 10, 11, 16].map(|n| format!("state call {n}"));
    let stamped = [0, 7, 8, 9, 10, 11, 16].map(|n| format!("stamped call {n}"));
    let stops = [1, 2, 13].map(|n| format!("stop {n}"));
    books.into_iter().chain(times).chain(states).chain(stamped).chain(stops).collect()
}
