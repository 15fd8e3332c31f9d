//! Cases a to l of document 01, and the scripts that ship with the trials.

mod common;

use common::{answers, expect, fast, lines, reference};
use trials::demand;
use trials::script;

const E: &str = "open 1 720 2 50 0
commit 1 1 10 60 1 0
commit 1 3 10 60 1 0
commit 1 2 5 60 1 0
commit 1 2 5 60 1 0
commit 1 2 5 20 1 5
commit 1 1 10 60 1 0
";

const H: &str = "open 1 720 1 100 0
commit 1 1 10 60 1 0
commit 1 1 10 15 1 10
";

/// Case h's opening and orders with more lines, and the answers to those.
fn after_h(more: &str, expected: &[&str]) {
    let mut all = vec!["open 0 1", "ticket 1 start 0", "ticket 2 start 10"];
    all.extend_from_slice(expected);
    expect(&format!("{H}{more}"), &all);
}

#[test]
fn a_to_d_open() {
    expect("open 1 720 5 20 0", &["open 0 1"]);
    expect("open 1 720 10 10 0", &["open 0 1"]);
    expect("open 1 720 9 11 0", &["open 0 1"]);
    expect("open 1 720 60 100 0\nopen 1 720 61 100 0", &["open 0 60", "refused 1"]);
}

/// N3: hundredths, and the bound.
#[test]
fn n3_bounds_are_rounded_to_nearest() {
    let text = "open 1 720 30 5 0\nopen 1 720 30 15 0\nopen 1 720 10 5 0\nopen 1 720 50 1 0\nopen 1 720 17 3 0\nopen 1 720 9 11 0\nopen 1 720 2 75 0";
    let expected =
        ["open 0 2", "open 0 4", "refused 3", "refused 3", "open 0 1", "open 0 1", "open 0 2"];
    expect(text, &expected);
}

/// For every N and c in range 100 × D is within 50 of c × N, and D is even where it is
/// exactly 50 away; the opening is refused where D is 0, that is up to c × N = 50.
#[test]
fn n3_every_bound() {
    for limit in 1..=60u32 {
        for percent in 0..=100u32 {
            let exact = i64::from(limit * percent);
            let answer = answers(reference(), &format!("open 1 720 {limit} {percent} 0")).remove(0);
            let bound = answer.strip_prefix("open 0 ").map_or(0, |bound| bound.parse().unwrap());
            let away = (100 * bound - exact).abs();
            assert!(away < 50 || (away == 50 && bound % 2 == 0), "{limit} {percent}: {answer}");
            assert_eq!(answer == "refused 3", exact <= 50, "{limit} {percent}");
            assert!(bound <= i64::from(limit), "{limit} {percent}: {answer}");
        }
    }
}

#[test]
fn e_to_g_begun_charges_lean_on_a_waiting_one() {
    let more = "move 1 360\ncommit 1 3 3 10 1 1\nlatest 1\nenquire 5\nenquire 7";
    let expected = [
        "open 0 1",
        "ticket 1 start 0",
        "ticket 2 start 0",
        "ticket 3 start 0",
        "ticket 4 start 0",
        "ticket 5 start 5",
        "ticket 6 start 0",
        "moved 5 dropped 0 1 0 2 0 3 0 4 0 6 0",
        "ticket 7 start 1",
        "plan 1 0 0 0",
        "waiting 5 1",
        "waiting 1 1",
    ];
    expect(&format!("{E}{more}"), &expected);
}

#[test]
fn h_both_replans_are_taken() {
    after_h("latest 1\nenquire 1\nenquire 2", &["plan 0 5 0 0", "waiting 10 1", "waiting 0 1"]);
    after_h("lines 1 1000\nenquire 1\nenquire 2", &["plan 0 5 0 1", "waiting 10 1", "waiting 0 1"]);
    after_h("lines 1 1", &["plan 0 5 0 1"]);
}

#[test]
fn i_moved_before_the_replan() {
    after_h("move 1 360\nlatest 1", &["moved 1 dropped 0 1 0", "plan 7 5 5 0"]);
    after_h("move 1 360\nlines 1 1000", &["moved 1 dropped 0 1 0", "plan 7 5 5 1"]);
}

#[test]
fn j_offers() {
    after_h("offer 1 10 0", &["plan 0 5 0 0"]);
    after_h("offer 1 10 1", &["plan 5 5 5 0"]);
    after_h("offer 1 11 0", &["plan 4 5 5 0"]);
}

#[test]
fn k_rounds() {
    let k = "open 1 720 2 50 0\ncommit 1 1 10 60 1 0\ncommit 1 1 10 60 1 10\n";
    let opened = ["open 0 1", "ticket 1 start 0", "ticket 2 start 10"];
    expect(&format!("{k}lines 1 2"), &[&opened[..], &["plan 7 0 0 2"]].concat());
    expect(&format!("{k}lines 1 1"), &[&opened[..], &["plan 2 0 0 1"]].concat());
}

#[test]
fn l_nothing_waits() {
    for open in ["", "open 1 720 2 50 0\n", "open 1 720 60 100 0\n"] {
        let opened = answers(reference(), open);
        let mut expected: Vec<&str> = opened.iter().map(String::as_str).collect();
        expected.extend(["plan 7 0 0 0", "plan 7 0 0 1", "plan 7 0 0 0"]);
        expect(&format!("{open}latest 1\nlines 1 5\noffer 1"), &expected);
    }
}

/// N1: latest starts 0, -3, 4 and -10.
const HURRY: &str = "open 1 720 1 100 0
commit 1 1 40 40 1 0
commit 1 1 10 7 1 40
commit 1 1 20 24 1 50
commit 1 1 10 0 1 70
";

/// By latest start tickets 4, 2, 1, 3. By lines (N5) tickets 4 and 2 are the shortest of
/// those that cannot wait, and the smaller d − p goes first; in minute 20 neither of the
/// others can wait, and ticket 3 is the shorter one.
#[test]
fn n1_latest_starts_below_zero_come_before_zero() {
    let asked = "enquire 4\nenquire 2\nenquire 1\nenquire 3";
    let mut expected =
        vec!["open 0 1", "ticket 1 start 0", "ticket 2 start 40", "ticket 3 start 50"];
    expected.push("ticket 4 start 70");
    let latest = ["plan 0 169 99 0", "waiting 0 1", "waiting 10 1", "waiting 20 1", "waiting 60 1"];
    let lines = ["plan 0 169 79 1", "waiting 0 1", "waiting 10 1", "waiting 40 1", "waiting 20 1"];
    for (replan, answers) in [("latest 1", latest), ("lines 1 1", lines)] {
        let expected = [&expected[..], &answers].concat();
        expect(&format!("{HURRY}{replan}\n{asked}"), &expected);
    }
}

#[test]
fn n1_equal_latest_starts_below_zero_go_by_ticket() {
    let text =
        "open 1 720 1 100 0\ncommit 1 1 20 60 1 0\ncommit 1 1 10 7 1 20\ncommit 1 1 13 10 1 30\nlatest 1\n\
                enquire 1\nenquire 2\nenquire 3";
    let mut expected = vec!["open 0 1", "ticket 1 start 0", "ticket 2 start 20"];
    expected.extend(["ticket 3 start 30", "plan 0 56 16 0"]);
    expected.extend(["waiting 23 1", "waiting 0 1", "waiting 10 1"]);
    expect(text, &expected);
}

#[test]
fn n1_lateness_counts_from_the_due_minute_given() {
    let text =
        "open 1 720 1 100 0\nmove 500 360\ncommit 1 1 10 600 1 500\ncommit 1 1 10 0 1 510\noffer 1 510 500\n\
                commit 1 1 10 2000000 1 520\ncommit 1 1 10 2000001 1 0";
    let mut expected = vec!["open 0 1", "moved 0 dropped 0", "ticket 1 start 500"];
    expected.extend(["ticket 2 start 510", "plan 0 520 510 0", "ticket 3 start 520", "refused 6"]);
    expect(text, &expected);
}

/// N4: N 2, D 2. The two do not fit on one line together; beside each other they do.
#[test]
fn n4_a_charge_of_rate_2_counts_as_two_in_the_limit() {
    let text =
        "open 1 720 2 100 0\ncommit 1 1 10 60 2 0\ncommit 1 1 10 60 1 10\ncommit 1 2 10 60 1 0\n\
                move 1 360\nenquire 1\nenquire 2\nenquire 3";
    let mut expected = vec!["open 0 2", "ticket 1 start 0", "ticket 2 start 10"];
    expected.extend(["ticket 3 start 0", "moved 2 dropped 0 1 0 3 0"]);
    expected.extend(["charging 0 10 2", "waiting 10 1", "charging 0 10 1"]);
    expect(text, &expected);
}

/// N4: with D 2 a charge of rate 2 stands beside empty lines, and one more on its line
/// does not, until another line has one too.
#[test]
fn n4_a_charge_of_rate_2_counts_as_two_in_the_balance() {
    let text =
        "open 1 720 4 50 0\ncommit 1 1 10 60 2 0\npreview 1 1 5 60 1\ncommit 1 2 10 60 1 0\n\
                preview 1 1 5 60 1\ncommit 1 3 10 60 1 0\ncommit 1 1 5 60 1 0";
    let mut expected = vec!["open 0 2", "ticket 1 start 0", "start 10", "ticket 2 start 0"];
    expected.extend(["start 10", "ticket 3 start 0", "ticket 4 start 0"]);
    expect(text, &expected);
}

#[test]
fn n4_rates_above_the_bound_are_refused() {
    let text = "open 1 720 2 50 0\npreview 1 1 10 60 2\ncommit 1 1 10 60 2 0\ncommit 1 1 10 60 1 0";
    expect(text, &["open 0 1", "refused 18", "refused 18", "ticket 1 start 0"]);
    expect("open 1 720 1 100 0\npreview 1 1 10 60 2", &["open 0 1", "refused 18"]);
}

/// N4: four points in minute 0 beside empty lines. The cap comes down from 4 to 2.
#[test]
fn n4_a_cap_two_lower() {
    let k = "open 1 720 4 50 0\ncommit 1 1 10 60 2 0\ncommit 1 1 10 60 2 10\n";
    let opened = ["open 0 2", "ticket 1 start 0", "ticket 2 start 10"];
    expect(&format!("{k}lines 1 2"), &[&opened[..], &["plan 7 0 0 2"]].concat());
    expect(&format!("{k}lines 1 1"), &[&opened[..], &["plan 2 0 0 1"]].concat());
}

/// N5. The lines of a queue on one point, by lines with allowance 1: orders as (p, d), the
/// lateness before and after, and the starts.
fn n5(orders: &[(u64, u64)], before: u64, after: u64, starts: &[u64]) {
    let mut text = "open 1 720 1 100 0\n".to_string();
    let mut expected = vec!["open 0 1".to_string()];
    let mut start = 0;
    for (place, (time, due)) in orders.iter().enumerate() {
        text += &format!("commit 1 1 {time} {due} 1 {start}\n");
        expected.push(format!("ticket {} start {start}", place + 1));
        start += time;
    }
    text += "lines 1 1\n";
    expected.push(format!("plan 0 {before} {after} 1"));
    for (place, start) in starts.iter().enumerate() {
        text += &format!("enquire {}\n", place + 1);
        expected.push(format!("waiting {start} 1"));
    }
    expect(&text, &expected.iter().map(String::as_str).collect::<Vec<_>>());
}

/// N5. n 2 and P 110: ticket 2 has k 93, and E(93) / 10 is more than twice E(0) / 100. By
/// latest start the long one, which is due at once, keeps its place.
#[test]
fn n5_a_short_charge_with_slack_before_a_long_urgent_one() {
    n5(&[(100, 100), (10, 30)], 80, 10, &[10, 0]);
    let text = "open 1 720 1 100 0\ncommit 1 1 100 100 1 0\ncommit 1 1 10 30 1 100\nlatest 1";
    expect(text, &["open 0 1", "ticket 1 start 0", "ticket 2 start 100", "plan 7 80 80 0"]);
}

/// N5. The short one has k 1,280, weight 0.
#[test]
fn n5_a_long_urgent_charge_before_a_short_one_with_slack() {
    n5(&[(10, 110), (30, 30)], 10, 0, &[30, 0]);
}

/// N5. n 3 and P 427: E(1) / 63 and E(0) / 64 are both 2^24, so the smaller d − p goes first,
/// which is ticket 3; ticket 1 has weight 0.
#[test]
fn n5_equal_weights_over_p_go_by_latest_start() {
    n5(&[(300, 2_000), (63, 64), (64, 64)], 662, 63, &[127, 64, 0]);
}

#[test]
fn n5_equal_charges_go_by_ticket() {
    n5(&[(50, 2_000), (10, 12), (10, 12)], 106, 8, &[20, 0, 10]);
}

/// N5. n 5 and P 50: slack of 20 and more has weight 0, so at 0 all five go by d − p, and
/// at 10 all four that are left.
#[test]
fn n5_weights_of_nothing_go_by_latest_start() {
    let orders = [(10, 55), (10, 50), (10, 45), (10, 40), (10, 35)];
    n5(&orders, 15, 0, &[40, 30, 20, 10, 0]);
}

/// N5. Latest starts 4, -3, 0 and -10: whatever they are, none of tickets 2 to 4 can wait,
/// so the shorter ones go first.
#[test]
fn n5_drivers_in_a_hurry_go_by_their_times() {
    n5(&[(20, 24), (4, 1), (10, 10), (12, 2)], 91, 53, &[26, 0, 4, 14]);
}

/// N5. Ticket 2 is the most urgent, but in minute 1 there is one point for it, and it needs
/// two. Ticket 3 fits there.
#[test]
fn n5_the_most_urgent_charge_does_not_fit() {
    let text = "open 1 720 2 100 0\ncommit 1 1 20 60 1 0\nmove 1 360\ncommit 1 1 10 10 2 20\n\
                commit 1 1 30 31 1 30\nlines 1 1\nenquire 2\nenquire 3";
    let mut expected = vec!["open 0 2", "ticket 1 start 0", "moved 1 dropped 0 1 0"];
    expected.extend(["ticket 2 start 20", "ticket 3 start 30", "plan 0 49 31 1"]);
    expected.extend(["waiting 31 2", "waiting 1 1"]);
    expect(text, &expected);
}

/// N7: two on a full line start r apart. In its tail a charge is charging with an end at or
/// below the clock, counts and keeps its place; the minute after it is gone.
#[test]
fn n7_a_charge_in_its_tail() {
    let text = "open 1 720 1 100 2\ncommit 1 1 10 60 1 0\ncommit 1 1 10 60 1 12\nmove 10 360\nenquire 1\n\
                preview 1 1 5 60 1\npreview 1 2 5 60 1\nmove 11 360\nenquire 1\nmove 12 360\nenquire 1";
    let mut expected = vec!["open 0 1", "ticket 1 start 0", "ticket 2 start 12"];
    expected.extend(["moved 1 dropped 0 1 0", "charging 0 10 1", "start 24", "start 10"]);
    expected.extend(["moved 0 dropped 0", "charging 0 10 1", "moved 0 dropped 1", "refused 15"]);
    expect(text, &expected);
}

/// N7: case h with r 3. Lateness and cause 4 go by s + p, limit and balance by s + p + r.
#[test]
fn n7_plans_with_tails() {
    let h = "open 1 720 1 100 3\ncommit 1 1 10 60 1 0\ncommit 1 1 10 15 1 13\n";
    let opened = ["open 0 1", "ticket 1 start 0", "ticket 2 start 13"];
    let calls = [
        ("latest 1", "plan 0 8 0 0"),
        ("lines 1 1", "plan 0 8 0 1"),
        ("offer 1 13 0", "plan 0 8 0 0"),
        ("offer 1 12 0", "plan 5 8 8 0"),
        ("offer 1 14 0", "plan 4 8 8 0"),
    ];
    for (call, plan) in calls {
        expect(&format!("{h}{call}"), &[&opened[..], &[plan]].concat());
    }
}

/// N7: the tail of ticket 1 is in minute 1, so a second charge of its line waits for the
/// minute after it, for the sake of balance. By lines the cap is lowered once.
#[test]
fn n7_tails_in_the_balance_and_under_caps() {
    let text = "open 1 720 3 17 1\ncommit 1 3 1 0 1 0\ncommit 1 3 1 0 1 2\nlines 1 2\nlines 1 1";
    let mut expected = vec!["open 0 1", "ticket 1 start 0", "ticket 2 start 2"];
    expected.extend(["plan 7 4 4 2", "plan 2 4 4 1"]);
    expect(text, &expected);
}

/// N7: "19, after 3, r above 5"; beside a refused opening r is 0.
#[test]
fn n7_openings_refused() {
    let text = "open 1 720 2 50 6\nopen 1 720 10 5 6\nopen 1 720 1 101 6\nopen 1 720 0 100 6\nopen 1 720 2 50 4294967295\n\
                commit 1 1 10 60 1 0\ncommit 1 1 10 60 1 10\nopen 1 720 2 50 5\nopen 1 720 61 50 5\n\
                commit 1 1 10 60 1 0\ncommit 1 1 10 60 1 10";
    let mut expected = vec!["refused 19", "refused 3", "refused 2", "refused 1", "refused 19"];
    expected.extend(["ticket 1 start 0", "ticket 2 start 10", "open 0 1", "refused 1"]);
    expected.extend(["ticket 1 start 0", "ticket 2 start 10"]);
    expect(text, &expected);
}

/// N7: tails hold the places of a full yard.
#[test]
fn n7_a_yard_full_of_tails() {
    let queue = "commit 1 1 1 1 1 0\ncommit 1 2 1 1 1 0\ncommit 1 3 1 1 1 0\n".repeat(60);
    let text = format!(
        "open 1 720 60 100 5\n{queue}move 5 360\npreview 1 1 1 1 1\nmove 6 360\npreview 1 1 1 1 1"
    );
    for answers in [answers(reference(), &text), answers(fast(), &text)] {
        assert!(answers[181].starts_with("moved 180 dropped 0 1 0"), "{}", answers[181]);
        assert_eq!(answers[182..], ["refused 13", "moved 0 dropped 180", "start 6"]);
    }
}

/// The files in scripts/ and the answers beside them.
#[test]
fn shipped_scripts() {
    let cases = (include_str!("../scripts/cases.txt"), include_str!("../scripts/cases.answers"));
    let evening =
        (include_str!("../scripts/evening.txt"), include_str!("../scripts/evening.answers"));
    for (text, expected) in [cases, evening] {
        let expected: Vec<&str> = expected.lines().collect();
        assert_eq!(answers(reference(), text), expected);
        assert_eq!(answers(fast(), text), expected);
    }
    let calls = lines(evening.0);
    assert_eq!(demand::check(&calls, &script::reference_answers(&calls)), Ok(()));
}
