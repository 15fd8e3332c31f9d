//! The generator brings about every answer that the rules know, the fast program
//! agrees with the reference on its scripts, and shrinking does its part.

mod common;

use common::{fast, lines, reference, Inside};
use std::collections::BTreeSet;
use trials::compare::{compare, Choice, LOOPS};
use trials::coverage::coverage;
use trials::generate;
use trials::interpret::Interpreter;
use trials::protocol::{read_call, Call, LONGEST_LINE};
use trials::reference::Station;
use trials::script;
use trials::shrink::shrink;

fn choice(scripts: u64, seed: u64) -> Choice<'static> {
    Choice { scripts, seed, ..Choice::default() }
}

#[test]
fn the_same_seed_gives_the_same_scripts() {
    for number in 0..40 {
        assert_eq!(generate::script(5, number).lines, generate::script(5, number).lines);
    }
    assert_ne!(generate::script(5, 0).lines, generate::script(6, 0).lines);
}

#[test]
fn every_script_begins_with_an_opening() {
    for kind in &generate::KINDS {
        let script = generate::script_of_kind(kind.name, 1, 0).unwrap();
        let opens = script.lines.iter().position(|line| line.starts_with(b"open "));
        let expected = (kind.name != generate::UNOPENED).then_some(0);
        assert_eq!(opens, expected, "{}", kind.name);
    }
}

const REFUSALS: [(&str, &[u32]); 10] = [
    ("open", &[27, 1, 2, 3, 19, 28]),
    ("preview", &[29, 4, 5, 17, 18, 6, 13, 14]),
    ("commit", &[29, 4, 5, 17, 18, 6, 13, 14, 16]),
    ("move", &[8, 9, 12]),
    ("offer", &[29, 10]),
    ("latest", &[29]),
    ("lines", &[29, 11]),
    ("enquire", &[15]),
    ("board", &[23, 24]),
    ("withdraw", &[15, 25, 26]),
];

/// The other causes cannot happen to these calls.
const CAUSES: [(&str, &[u32]); 3] =
    [("offer", &[0, 3, 4, 5, 6, 7]), ("latest", &[0, 1, 4, 7]), ("lines", &[0, 1, 2, 4, 7])];

const OTHERS: [&str; 14] = [
    "open: open",
    "preview: start",
    "commit: ticket",
    "move: moved",
    "enquire: waiting",
    "enquire: charging",
    "board: board",
    "withdraw: withdrawn",
    "error unknown call",
    "error not a number",
    "error number too large",
    "error missing number",
    "error extra number",
    "error line too long",
];

#[test]
fn every_answer_occurs() {
    let totals = coverage(&choice(600, 1));
    let mut wanted: Vec<String> = OTHERS.iter().map(|sort| sort.to_string()).collect();
    for (call, numbers) in REFUSALS {
        wanted.extend(numbers.iter().map(|number| format!("{call}: refused {number:>2}")));
    }
    for (call, numbers) in CAUSES {
        wanted.extend(numbers.iter().map(|number| format!("{call}: cause {number}")));
    }
    for sort in wanted {
        assert!(totals.contains_key(&sort), "no '{sort}' in {totals:#?}");
    }
    // N1: "Refusal 7 ends".
    assert!(!totals.keys().any(|sort| sort.ends_with("refused  7")), "{totals:#?}");
}

/// N14: what calls have to do with the site.
const SITES: [&str; 12] = [
    "site: feeders: 1",
    "site: feeders: 2",
    "site: feeders: 3",
    "site: feeders: 4",
    "site: an order waits for W",
    "site: an order that W leaves alone",
    "site: an order waits for other feeders",
    "site: an order waits for the lines of its own feeder under W",
    "site: a plan gives way to W",
    "site: a plan gives way to W and is taken",
    "site: a plan beside others that fill W",
    "site: a plan beside others that fill W is taken",
];

/// N14: all of them on sites of several feeders too, but for those that have nothing to do with
/// feeders.
#[test]
fn every_answer_occurs_on_sites() {
    let mut totals = coverage(&Choice { kind: Some("feeders"), ..choice(500, 1) });
    totals.extend(coverage(&Choice { kind: Some("row"), ..choice(1, 1) }));
    for (call, numbers) in REFUSALS {
        for number in numbers.iter().filter(|number| ![8, 11, 12].contains(*number)) {
            let sort = format!("{call}: refused {number:>2}");
            assert!(totals.contains_key(&sort), "no '{sort}' in {totals:#?}");
        }
    }
    for (call, numbers) in CAUSES {
        for number in numbers {
            let sort = format!("{call}: cause {number}");
            assert!(totals.contains_key(&sort), "no '{sort}' in {totals:#?}");
        }
    }
    for sort in SITES {
        assert!(totals.get(sort).is_some_and(|times| *times >= 20), "{sort}: {totals:#?}");
    }
}

/// N1: due minutes at the edges of what can be met and of what is taken, in the kind
/// that is about them and in busy evenings.
#[test]
fn drivers_in_a_hurry_occur() {
    for (kind, scripts) in [("hurry", 40), ("evening", 20)] {
        let mut seen = BTreeSet::new();
        for number in 0..scripts {
            let mut yard = Interpreter::new(reference());
            for line in generate::script_of_kind(kind, 1, number).unwrap().lines {
                let clock = yard.yard().clock;
                if let Ok(Some(Call::Commit { order, .. })) = read_call(&line) {
                    let (time, due) = (u64::from(order.time), u64::from(order.due));
                    seen.extend((due < clock).then_some("below the clock"));
                    seen.extend((due == 0).then_some("0"));
                    seen.extend((due + 1 == clock + time).then_some("clock + p - 1"));
                    seen.extend((due == clock + time).then_some("clock + p"));
                    seen.extend((due == 2_000_000).then_some("the last"));
                    seen.extend((due == 2_000_001).then_some("past the last"));
                }
                yard.answer(&line, &mut Vec::new());
            }
        }
        assert_eq!(seen.len(), 6, "{kind}: {seen:?}");
    }
}

/// Lists of every length that matters, in stations with as many waiting charges or
/// fewer, right and wrong in their words.
#[test]
fn long_lists_occur() {
    let mut seen = BTreeSet::new();
    for number in 0..80 {
        let script = generate::script_of_kind("lists", 1, number).unwrap();
        for (line, answer) in script::answered(&script.lines).zip(&script.answers) {
            let numbers = line.split(|byte| *byte == b' ').count() - 1;
            // The feeder is one of the numbers.
            if line.starts_with(b"offer 1 ") && numbers > 179 {
                let first = script::show(answer).split(' ').next().map(String::from);
                seen.insert((numbers.min(502) - 1, line.len() == LONGEST_LINE, first));
            }
        }
    }
    let has = |numbers, full, word: &str| seen.contains(&(numbers, full, Some(word.to_string())));
    assert!(has(180, false, "plan"), "{seen:?}");
    for numbers in [179, 180, 181, 182, 500] {
        assert!(has(numbers, false, "refused"), "{numbers}: {seen:?}");
        assert!(has(numbers, false, "error"), "{numbers}: {seen:?}");
    }
    assert!(has(501, true, "refused"), "{seen:?}");
}

/// N2: a start shown before a move, another commit or a taken plan is committed to,
/// and is still the earliest or not any more.
#[test]
fn shown_starts_are_committed_late() {
    let mut seen = BTreeSet::new();
    for number in 0..80 {
        let script = generate::script_of_kind("commits", 1, number).unwrap();
        let (mut last, mut since) = (None, "nothing");
        for (line, answer) in script::answered(&script.lines).zip(&script.answers) {
            let answer = script::show(answer);
            let word = answer.split(' ').next().unwrap_or("").to_string();
            match (read_call(line), word.as_str()) {
                (Ok(Some(Call::Preview { order })), "start") => {
                    (last, since) = (Some((order, answer.replace("start ", ""))), "nothing");
                }
                (Ok(Some(Call::Commit { order, shown })), _)
                    if last == Some((order, shown.to_string())) =>
                {
                    seen.insert((since, word));
                    (last, since) = (None, "nothing");
                }
                (_, "ticket") => since = "a commit",
                (_, "moved") => since = "a move",
                (_, "plan") if answer.starts_with("plan 0 ") => since = "a taken plan",
                _ => (),
            }
        }
    }
    let has = |since, word: &str| seen.contains(&(since, word.to_string()));
    assert!(has("nothing", "ticket"), "{seen:?}");
    for since in ["a commit", "a move", "a taken plan"] {
        assert!(has(since, "ticket") && has(since, "refused"), "{since}: {seen:?}");
    }
}

/// N4: rates inside and outside their range, under bounds of 1, 2 and 3.
#[test]
fn rates_of_all_sorts_occur() {
    let mut seen = BTreeSet::new();
    for number in 0..150 {
        let mut yard = Interpreter::new(reference());
        for line in generate::script_of_kind("rates", 1, number).unwrap().lines {
            if let Ok(Some(Call::Commit { order, .. })) = read_call(&line) {
                seen.insert((yard.yard().feeders[0].bound, order.rate.min(u32::MAX - 1)));
            }
            yard.answer(&line, &mut Vec::new());
        }
    }
    for bound in 1..=3 {
        for rate in [0, 1, 2, 3, u32::MAX - 1] {
            assert!(seen.contains(&(bound, rate)), "{bound} {rate}: {seen:?}");
        }
    }
}

/// N5: where a replan by lines begins, charges of all places of the table and beyond, times
/// that differ much, equal charges, and 180 of one line.
#[test]
fn weights_of_all_sorts_occur() {
    let mut seen = BTreeSet::new();
    for (kind, scripts) in [("priority", 60), ("weights", 60)] {
        for number in 0..scripts {
            let mut yard = Interpreter::new(reference());
            for line in generate::script_of_kind(kind, 1, number).unwrap().lines {
                if let Ok(Some(Call::Lines { .. })) = read_call(&line) {
                    (1..=3).for_each(|line| sorts_of_weights(yard.yard(), line, &mut seen));
                }
                yard.answer(&line, &mut Vec::new());
            }
        }
    }
    assert_eq!(seen.len(), 10, "{seen:?}");
}

fn sorts_of_weights(station: &Station, line: u32, seen: &mut BTreeSet<&'static str>) {
    let mut own = station.waiting(1);
    own.retain(|charge| charge.line == line);
    let time: u64 = own.iter().map(|charge| charge.time).sum();
    for charge in &own {
        let slack = charge.latest_start() - station.clock as i64;
        let k = 256 * slack * own.len() as i64 / time as i64;
        seen.extend((slack < 0).then_some("too late"));
        seen.extend((slack == 0).then_some("just in time"));
        seen.extend((0 < k && k < 511).then_some("inside the table"));
        seen.extend((k == 511).then_some("the last of the table"));
        seen.extend((k == 512).then_some("just behind the table"));
        seen.extend((k > 50_000).then_some("far behind the table"));
    }
    let times = || own.iter().map(|charge| charge.time);
    let (least, most) = (times().min().unwrap_or(0), times().max().unwrap_or(0));
    seen.extend((most > 20 * least).then_some("mixed times"));
    seen.extend((own.len() == 180).then_some("180 of one line"));
    let alike = own.windows(2).all(|two| (two[0].time, two[0].due) == (two[1].time, two[1].due));
    seen.extend((alike && own.len() > 5).then_some("equal ones"));
    let rates: BTreeSet<u32> = own.iter().map(|charge| charge.rate).collect();
    seen.extend((rates.len() == 2).then_some("both rates"));
}

/// N7: every r, moves that end inside tails, and full yards whose places are held by them.
#[test]
fn tails_of_all_sorts_occur() {
    let mut seen = BTreeSet::new();
    for number in 0..200 {
        let mut yard = Interpreter::new(reference());
        for line in generate::script_of_kind("tails", 1, number).unwrap().lines {
            let mut answer = Vec::new();
            yard.answer(&line, &mut answer);
            let Station { clock, charges, feeders, .. } = yard.yard();
            let tail = feeders[0].tail;
            let in_tail = charges.iter().filter(|charge| charge.end() <= *clock).count();
            match read_call(&line) {
                Ok(Some(Call::Open { .. })) => seen.insert(format!("opened with {tail}")),
                Ok(Some(Call::Move { .. })) if in_tail > 0 => {
                    seen.insert(format!("a move into a tail of {tail}"))
                }
                Ok(Some(Call::Commit { .. })) if in_tail == 180 => {
                    seen.insert("a yard full of tails".to_string())
                }
                Ok(Some(Call::Enquire { .. })) if answer.starts_with(b"charging") => {
                    let words: Vec<u64> = script::show(&answer)
                        .split(' ')
                        .filter_map(|word| word.parse().ok())
                        .collect();
                    let below = if words[1] < *clock { "below" } else { "from" };
                    let at = if words[1] == *clock { "at" } else { below };
                    seen.insert(format!("an end {at} the clock"))
                }
                _ => false,
            };
        }
    }
    assert_eq!(seen.len(), 6 + 5 + 1 + 3, "{seen:?}");
}

#[test]
fn the_fast_program_agrees() {
    let scripts = Choice { without: Some(LOOPS), ..choice(400, 11) };
    let summary = compare(&Inside(fast), &scripts).map_err(|failure| failure.what);
    assert_eq!(summary.map(|summary| summary.scripts), Ok(410));
    let sites = Choice { kind: Some("feeders"), ..choice(400, 12) };
    let summary = compare(&Inside(fast), &sites).map_err(|failure| failure.what);
    assert_eq!(summary.map(|summary| summary.scripts), Ok(410));
}

#[test]
fn shrinking_leaves_what_fails() {
    let script = lines(
        "open 1 720 5 20 0\ncommit 1 1 10 60 1 0\ncommit 1 2 11 60 1 0\nmove 900 360\n\
         latest 1\nlatest 1",
    );
    let fails = |lines: &[Vec<u8>]| {
        let move_far =
            |line: &Vec<u8>| line.starts_with(b"move") && line.len() >= b"move 90 360".len();
        lines.iter().any(move_far) && lines.last().is_some_and(|line| line.starts_with(b"latest"))
    };
    let left = shrink(&script, fails);
    assert_eq!(left.len(), 2);
    assert_eq!(left[1], b"latest 0");
}
