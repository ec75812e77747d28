//! The examples of docs/REFERENCE.md, run through the report.

use crate::report::{lasting, report, strictly, Gaps, Nobody, LONGEST_INPUT};
use crate::summaries::calls_of;

const MAX: &str = "18446744073709551615";

fn reported(input: &str) -> String {
    String::from_utf8(report(input.as_bytes(), &mut Nobody).expect("original and rules agree")).expect("a report is ASCII")
}

/// The report in the lasting way, whether calls are put in at every instant or at the ends of the gaps alone.
fn lastingly(input: &str) -> String {
    let [whole, ends] = [Gaps::Whole, Gaps::Ends].map(|gaps| {
        let report = lasting(input.as_bytes(), gaps, 100_000, &mut Nobody).expect("original and rules agree");
        String::from_utf8(report.expect("not too many calls are put in")).expect("a report is ASCII")
    });
    assert_eq!(whole, ends);
    whole
}

/// An input of a book and calls; the calls are given without their count.
fn input_of(book: &str, calls: &[&str]) -> String {
    format!("{book}\n{}\n{}", calls.len(), calls.join("\n"))
}

/// The lines of a report after `book 0`, without the summaries.
fn after_book(report: &str) -> Vec<String> {
    assert_eq!(report.lines().next(), Some("book 0"));
    calls_of(report).chain(report.lines().last()).map(str::to_string).collect()
}

fn lines(book: &str, calls: &[&str]) -> Vec<String> {
    after_book(&reported(&input_of(book, calls)))
}

/// The lines in the lasting way.
fn lasting_lines(book: &str, calls: &[&str]) -> Vec<String> {
    after_book(&lastingly(&input_of(book, calls)))
}

/// The first property's word after each call.
fn words(book: &str, calls: &[&str]) -> Vec<String> {
    let lines = lines(book, calls);
    lines[..calls.len()].iter().map(|l| l.split(' ').nth(2).unwrap_or("-").to_string()).collect()
}

fn values(book: &str, calls: &[&str]) -> String {
    words(book, calls).iter().map(|w| &w[..1]).collect()
}

#[test]
fn whole_case() {
    let input = "3\n2 0 0 0\n8 1 0 18446744073709551615\n7 1 0 18446744073709551615\n2 0 1\n0\n1 2\n4\n1 1 0\n0 1\n1 1 1\n0 5\n";
    assert_eq!(reported(input), "book 0\n1 0 000 1\n2 0 000 1\n3 0 010 1\n4 0 010 1\n4 4 1 4 4 1\nend\n");
}

#[test]
fn p6_once_in_a_window() {
    let book = "2 2 0 0 0 8 1 2 3 1 0 0 1 1";
    assert_eq!(values(book, &["1 1 1", "1 1 0", "0 1", "0 2", "0 3", "0 4"]), "000110");
}

#[test]
fn p7_only_calls_count() {
    assert_eq!(values("2 2 0 0 0 8 1 1 1 1 0 0 1 1", &["1 1 1", "0 5"]), "00");
}

#[test]
fn p8_a_time_call_sees_the_old_state() {
    assert_eq!(values("2 2 0 0 0 7 1 0 0 1 0 0 1 1", &["0 4", "1 1 1"]), "00");
}

#[test]
fn a_stamped_call_is_its_two_calls_in_turn() {
    let book = "2 2 0 0 0 7 1 0 0 1 0 0 1 1";
    assert_eq!(lines(book, &["2 4 1 1"])[0], lines(book, &["0 4", "1 1 1"])[1].replacen('2', "1", 1));
    assert_eq!(values(book, &["2 4 1 1", "2 5 1 1"]), "01");
}

#[test]
fn a_stamped_call_is_refused_by_the_first_wrong_thing() {
    let book = "1 2 1 0 0 0 0 1 0";
    let calls = ["2 5 2 0 1", "2 4 1 2", "2 9223372036854775808 1 2", "2 6 1 2", "2 6 3 0 1 2", "2 6 2 0 2", "0 5"];
    assert_eq!(lines(book, &calls), ["1 0 122 0", "2 7", "3 8", "4 9", "5 16", "6 10", "7 0 122 0", "end"]);
}

#[test]
fn a_stamped_call_has_room_at_both_steps_or_changes_nothing() {
    let steps = every_second(126);
    let filled = |first: &'static str, more: &[&'static str]| {
        let calls = [&[first], &steps.iter().map(String::as_str).collect::<Vec<_>>()[..], more].concat();
        lines("3 2 0 0 0 2 1 0 0 9 2 128 128 2 0 1 0 1 2", &calls).split_off(64)
    };
    // The time step would make a 65th run, and the state step would drop them all: left fails.
    assert_eq!(filled("1 2 1 1", &["2 128 2 0 0", "0 127"]), ["65 11", "66 0 022 64", "end"]);
    // The state step alone would make it: right holds no more when the time is set.
    assert_eq!(filled("1 2 1 1", &["1 2 1 0", "2 128 2 1 1", "0 127"]), ["65 0 022 64", "66 11", "67 0 022 64", "end"]);
}

#[test]
fn p9_since() {
    let book = format!("3 2 0 0 0 2 1 0 0 9 2 0 {MAX} 2 0 1 0 1 2");
    assert_eq!(values(&book, &["1 2 0 1", "1 2 1 0", "0 7", "1 2 0 0"]), "1110");
}

#[test]
fn p10_since_false_true() {
    let book = format!("3 0 0 0 0 1 0 0 0 9 2 0 {MAX} 2 0 1 0 1 2");
    assert_eq!(words(&book, &["0 0"]), ["101"]);
}

#[test]
fn p11_and_or() {
    assert_eq!(words("3 0 0 0 0 2 0 0 0 3 2 0 0 2 0 1 0 1 2", &["1 1 1"]), ["020"]);
    assert_eq!(words("1 3 0 0 0 0 0 1 0", &["0 0"]), ["111"]);
    assert_eq!(words("1 4 0 0 0 0 0 1 0", &["0 0"]), ["000"]);
}

#[test]
fn p12_once_historically() {
    let book = format!("3 2 0 0 0 7 1 0 {MAX} 8 1 0 {MAX} 2 0 1 0 1 2");
    assert_eq!(words(&book, &["1 1 1", "1 1 0"]), ["111", "101"]);
}

#[test]
fn a_lapsed_rule_settles() {
    let book = format!("3 2 0 0 0 7 1 0 {MAX} 8 1 0 5 2 0 1 0 1 2");
    assert_eq!(words(&book, &["1 1 1", "1 1 0", "0 5", "0 6"])[2..], ["102", "000"]);
}

/// A call at every second instant, from 2 to the last.
fn every_second(last: u64) -> Vec<String> {
    (1..=last / 2).map(|i| format!("0 {}", 2 * i)).collect()
}

#[test]
fn old_runs_give_their_room_back() {
    let steps = every_second(1000);
    let mut calls = vec!["1 1 1"];
    calls.extend(steps.iter().map(String::as_str));
    let lines = lines("2 2 0 0 0 8 1 0 0 1 0 0 1 1", &calls);
    assert!(lines[..501].iter().all(|l| l.ends_with(" 0 122 1")), "{lines:?}");
}

#[test]
fn a_thousand_episodes_of_ten_minutes() {
    let times: Vec<[String; 2]> = (0..1000).map(|n| [1000 * n, 1000 * n + 601].map(|time| format!("0 {time}"))).collect();
    let calls: Vec<&str> = times.iter().flat_map(|[start, end]| [start, "1 1 1", "1 1 0", end]).collect();
    assert_eq!(values("2 2 0 0 0 8 1 0 600 1 0 0 1 1", &calls), "0110".repeat(1000));
}

#[test]
fn sixty_four_runs() {
    // Each call adds one instant, 128 ahead: at 128 none of the 64 runs is over, at 129 the oldest is.
    let steps = every_second(126);
    let mut calls = vec!["1 1 1"];
    calls.extend(steps.iter().map(String::as_str));
    calls.extend(["0 128", "0 128", "0 129"]);
    let lines = lines("2 2 0 0 0 8 1 128 128 1 0 0 1 1", &calls);
    assert!(lines[..64].iter().zip(1..).all(|(l, runs)| *l == format!("{runs} 0 022 {runs}")), "{lines:?}");
    assert_eq!(lines[64..], ["65 11", "66 11", "67 0 022 64", "end"]);
}

#[test]
fn a_full_row_leaves_the_rows_below_as_they_were() {
    // Row 1 counts calls without b, row 3 those with a. Row 3 is full at t128, so row 1 must not get 129 from that call.
    let book = "4 2 1 0 0 7 1 1 1 2 0 0 0 8 1 128 128 2 0 2 0 2 1 3";
    let steps = every_second(126);
    let mut calls = vec!["1 2 1 1"];
    calls.extend(steps.iter().map(String::as_str));
    calls.extend(["1 2 1 0", "0 128", "0 127", "1 2 0 1", "0 129"]);
    let lines = lines(book, &calls);
    assert_eq!(lines[65], "66 11");
    assert_eq!(lines[66], "67 0 022 022 64");
    assert_eq!(lines[68], "69 0 122 022 63");
}

#[test]
fn h_is_accepted_and_no_later_time() {
    let book = "1 1 0 0 0 0 0 1 0";
    let calls = ["0 9223372036854775808", "0 9223372036854775807", "0 18446744073709551615", "0 5"];
    assert_eq!(lines(book, &calls), ["1 8", "2 0 111 0", "3 8", "4 7", "end"]);
}

#[test]
fn refused_states() {
    let book = "1 2 1 0 0 0 0 1 0";
    let calls = ["1 1 5", "1 2 0 2", "1 3 0 1 18446744073709551615", "1 3 0 1 0", "1 2 0 1", "1 0"];
    assert_eq!(lines(book, &calls), ["1 9", "2 10", "3 16", "4 16", "5 0 122 0", "6 9", "end"]);
    // If the book has no atom, the empty state alone has the right width.
    assert_eq!(lines("0 0 0 0", &["1 0", "1 1 1", "1 1 2"]), ["1 0 0", "2 16", "3 16", "end"]);
}

/// The summaries: the lines between those of the calls and the last.
fn summaries(book: &str, calls: &[&str]) -> Vec<String> {
    let report = reported(&input_of(book, calls));
    let lines: Vec<&str> = report.lines().collect();
    assert_eq!(lines.last(), Some(&"end"));
    lines[1 + calls.len()..lines.len() - 1].iter().map(|line| line.to_string()).collect()
}

#[test]
fn a_refused_call_has_a_number_and_breaks_no_stretch() {
    // a, then not a at the calls 2 and 4, a at 6, not a at 7; the calls 3 and 5 are refused.
    let calls = ["1 1 1", "1 1 0", "1 1 2", "0 5", "0 4", "1 1 1", "1 1 0"];
    assert_eq!(summaries("1 2 0 0 0 0 0 1 0", &calls), ["5 3 2 7 2 0"]);
}

#[test]
fn a_summary_says_where_a_property_settled() {
    // Historically a as an assume, and a as a guarantee: the first settles at call 4, the second never.
    let book = format!("3 2 0 0 0 7 1 0 {MAX} 2 0 0 0 1 0 1 1 1 2");
    assert_eq!(summaries(&book, &["1 1 1", "0 3", "0 2", "1 1 0", "1 1 1"]), ["4 2 4 5 2 4", "4 1 4 4 1 0"]);
}

#[test]
fn summaries_of_no_call_and_none_before_stop() {
    let book = "2 2 0 0 0 1 0 0 0 0 1 1 1 0";
    assert_eq!(reported(&format!("{book} 0")), "book 0\n0 0 0 0 0 0\n0 0 0 0 0 0\nend\n");
    assert_eq!(reported(&format!("{book} 1 0 4 0")), "book 0\n1 0 111 022 0\nstop 1\n");
}

#[test]
fn stops() {
    let book = "0 0 0 0";
    assert_eq!(reported(""), "book 1\n");
    assert_eq!(reported("\n \n"), "book 1\n");
    assert_eq!(reported("x"), "book 13\n");
    assert_eq!(reported(book), "book 0\nstop 1\n");
    assert_eq!(reported(&format!("{book} 00")), "book 0\nstop 13\n");
    assert_eq!(reported(&format!("{book} 0")), "book 0\nend\n");
    assert_eq!(reported(&format!("{book} 0 0")), "book 0\nstop 1\n");
    assert_eq!(reported(&format!("{book} 0 0\r")), "book 0\nstop 13\n");
    assert_eq!(reported(&format!("{book} {MAX} 0 3")), "book 0\n1 0 0\nstop 1\n");
    assert_eq!(reported(&format!("{book} 1 3 x")), "book 0\nstop 13\n");
    assert_eq!(reported(&format!("{book} 1 2 5 257 x")), "book 0\nstop 2\n");
    // A width that is too large is met before a time that is, and a text that ends within a stamped call has no line.
    assert_eq!(reported(&format!("{book} 1 2 {MAX} 257")), "book 0\nstop 2\n");
    assert_eq!(reported(&format!("{book} 1 2 {MAX}")), "book 0\nstop 1\n");
    assert_eq!(reported(&format!("{book} 1 1 257 x")), "book 0\nstop 2\n");
    assert_eq!(reported(&format!("{book} 1 1 256 x")), "book 0\nstop 13\n");
    // A text that ends within a state has no line, whatever 10 would have said.
    assert_eq!(reported(&format!("{book} 1 1 2 7")), "book 0\nstop 1\n");
    assert_eq!(reported(&format!("{book} 1 1 1 18446744073709551616")), "book 0\nstop 13\n");
}

#[test]
fn input_too_long() {
    let padded = |length: usize| format!("0 0 0 0 0{}", " ".repeat(length - 9));
    assert_eq!(reported(&padded(LONGEST_INPUT)), "book 0\nend\n");
    assert_eq!(reported(&padded(LONGEST_INPUT + 1)), "stop 2\n");
}

#[test]
fn strict_loading() {
    let report = |rows: &str| {
        let input = format!("2 2 0 0 0 {rows} 1 0 0 1 1 0");
        let ordinary = reported(&input);
        String::from_utf8(strictly(input.as_bytes(), ordinary.as_bytes())).expect("a report is ASCII")
    };
    assert_eq!(report("8 1 127 127"), "book 0\n0 0 0 0 0 0\nend\n");
    assert_eq!(report("8 1 128 128"), "book 15 1 65\n");
    assert_eq!(report("7 1 0 9223372036854775807"), "book 0\n0 0 0 0 0 0\nend\n");
    assert_eq!(report("7 1 9223372036854775807 9223372036854775807"), "book 15 1 4611686018427387904\n");
    assert_eq!(report(&format!("8 1 9223372036854775807 {MAX}")), "book 0\n0 0 0 0 0 0\nend\n");
}

#[test]
fn p7_and_p8_in_the_lasting_way() {
    // P7: a held at 4, where a call is put in. P8: the state set at 4 comes after the time call at 4, in either way.
    assert_eq!(lasting_lines("2 2 0 0 0 8 1 1 1 1 0 0 1 1", &["1 1 1", "0 5"]), ["1 0 022 1", "2 0 122 1", "end"]);
    let (book, calls) = ("2 2 0 0 0 7 1 0 0 1 0 0 1 1", ["0 4", "1 1 1"]);
    assert_eq!(lasting_lines(book, &calls), ["1 0 022 1", "2 0 022 1", "end"]);
    assert_eq!(lasting_lines(book, &calls), lines(book, &calls));
}

#[test]
fn no_call_is_put_in_at_the_clock_itself() {
    // Historically[5,5] a: a fails all the time, but there was no call at 0.
    assert_eq!(lasting_lines("2 2 0 0 0 7 1 5 5 1 0 0 1 1", &["0 5", "0 6"]), ["1 0 122 1", "2 0 022 1", "end"]);
    // Once[4,4] a: the state set at 1 counts from there, so that at 5 it was 4 ago; then it is gone.
    let once = "2 2 0 0 0 8 1 4 4 1 0 0 1 1";
    assert_eq!(lasting_lines(once, &["0 1", "1 1 1", "1 1 0", "0 5", "0 6"])[3..], ["4 0 122 1", "5 0 022 0", "end"]);
}

#[test]
fn a_state_lasts_up_to_the_new_clock() {
    // Once[0,0] a: the state lasts, and holds at the clock.
    let now = "2 2 0 0 0 8 1 0 0 1 0 0 1 1";
    assert_eq!(lasting_lines(now, &["1 1 1", "0 5"]), ["1 0 122 1", "2 0 122 1", "end"]);
    // A stamped call's state does not reach back: up to 5, and at 5 before its state, the old one counts.
    let ago = "2 2 0 0 0 8 1 1 1 1 0 0 1 1";
    assert_eq!(lasting_lines(ago, &["1 1 1", "2 5 1 0", "0 6", "0 7"]), ["1 0 022 1", "2 0 122 1", "3 0 122 1", "4 0 022 0", "end"]);
    assert_eq!(lasting_lines(ago, &["2 5 1 1", "0 6"]), ["1 0 022 1", "2 0 122 1", "end"]);
}

#[test]
fn one_set_of_many_calls_is_one_run() {
    // Once[128,128] a with a call at every second instant: what lasts between them joins the runs.
    let steps = every_second(300);
    let calls: Vec<&str> = ["1 1 1"].into_iter().chain(steps.iter().map(String::as_str)).collect();
    let lines = lasting_lines("2 2 0 0 0 8 1 128 128 1 0 0 1 1", &calls);
    assert!(lines[..151].iter().all(|line| line.ends_with(" 1")), "{lines:?}");
}

#[test]
fn eleven_in_the_lasting_way_is_of_the_sets_with_what_is_put_in() {
    // A state at an instant alone, each two after the one before: 64 runs; the next is one too many. A refused call puts nothing in.
    let book = "2 2 0 0 0 8 1 300 300 1 0 0 1 1";
    let times: Vec<String> = (1..=64).map(|i| format!("2 {} 1 1", 2 * i)).collect();
    let calls = |last: &[&'static str]| {
        let apart: Vec<&str> = times.iter().flat_map(|time| [time.as_str(), "1 1 0"]).chain(last.iter().copied()).collect();
        lasting_lines(book, &apart).split_off(127)
    };
    assert_eq!(calls(&["2 130 1 1", "0 129", "2 131 1 1"])[1..], ["129 11", "130 0 022 64", "131 11", "end"]);
    assert_eq!(calls(&["2 400 1 1"])[..2], ["128 0 022 64", "129 0 122 16"]);
}

#[test]
fn since_in_the_lasting_way() {
    // Since[3,3](a,b): a and b hold from 0 to 5. Where a fails the set is dropped, and b counts at the clock alone.
    let book = "3 2 0 0 0 2 1 0 0 9 2 3 3 2 0 1 0 1 2";
    assert_eq!(lasting_lines(book, &["1 2 1 1", "0 5", "0 6"]), ["1 0 022 1", "2 0 122 1", "3 0 122 1", "end"]);
    assert_eq!(
        lasting_lines(book, &["1 2 0 1", "0 5", "1 2 1 0", "0 8", "0 9"])[1..],
        ["2 0 022 1", "3 0 022 1", "4 0 122 1", "5 0 022 0", "end"]
    );
}

#[test]
fn books_that_the_lasting_way_does_not_take() {
    let nested = |range: &str| format!("3 2 0 0 0 7 1 0 5 8 1 {range} 2 0 1 0 1 2 0");
    let strictly_lasting = |input: &str| String::from_utf8(strictly(input.as_bytes(), lastingly(input).as_bytes())).expect("ASCII");
    assert_eq!(reported(&nested("0 5")), "book 0\n0 0 0 0 0 0\nend\n");
    assert_eq!(lastingly(&nested("0 5")), "book 17\n");
    assert_eq!(strictly_lasting(&nested("0 5")), "book 17\n");
    // 15 comes before 17, and 6 before both.
    assert_eq!(lastingly(&nested("128 128")), "book 17\n");
    assert_eq!(strictly_lasting(&nested("128 128")), "book 15 2 65\n");
    assert_eq!(strictly_lasting("3 2 0 0 0 7 1 0 5 8 1 128 128 2 0 1 0 2 2 1 0"), "book 6\n");
    assert_eq!(lastingly("3 2 0 0 0 7 1 0 5 8 1 0 5 2 0 1 0 2 2 1 0"), "book 6\n");
}

#[test]
fn calls_that_are_too_many_to_put_in() {
    let report = |gaps: Gaps, most: u64, calls: &[&str]| {
        let input = input_of("2 2 0 0 0 8 1 0 5 1 0 0 1 1", calls);
        lasting(input.as_bytes(), gaps, most, &mut Nobody).expect("original and rules agree").is_some()
    };
    let calls = ["0 5", "0 5", "0 11"];
    assert!(report(Gaps::Whole, 9, &calls) && !report(Gaps::Whole, 8, &calls));
    // A call that is refused in itself puts nothing in.
    assert!(report(Gaps::Whole, 0, &["0 9223372036854775808", "2 9223372036854775807 1 2", "0 1"]));
    let far = ["0 9223372036854775807"];
    assert!(!report(Gaps::Whole, 1000, &far) && !report(Gaps::Ends, 5, &far) && report(Gaps::Ends, 6, &far));
    // Nor is anything needed where no row is temporal.
    let input = input_of("1 2 0 0 0 0 0 1 0", &far);
    assert!(lasting(input.as_bytes(), Gaps::Whole, 0, &mut Nobody).expect("original and rules agree").is_some());
}

#[test]
fn jumps_too_far_to_walk() {
    let lines = |book: &str, calls: &[&str]| {
        let report = lasting(input_of(book, calls).as_bytes(), Gaps::Ends, 1000, &mut Nobody).expect("original and rules agree");
        after_book(&String::from_utf8(report.expect("not too many calls are put in")).expect("a report is ASCII"))
    };
    let h = "0 9223372036854775807";
    assert_eq!(lines("2 2 0 0 0 8 1 1 1 1 0 0 1 1", &["1 1 1", h])[1], "2 0 122 1");
    assert_eq!(lines("2 2 0 0 0 7 1 3 7 1 0 0 1 1", &["1 1 1", h])[1], "2 0 122 0");
    assert_eq!(lines(&format!("2 2 0 0 0 8 1 7 {MAX} 1 0 0 1 1"), &["1 1 1", h])[1], "2 0 111 1");
}
