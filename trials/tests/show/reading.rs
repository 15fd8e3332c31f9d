//! What is read out of calls and answers, on small scripts worked out by hand.

use crate::common::lines;
use crate::{evening, steps, story, EVENING, SITE};
use trials::protocol::Call;
use trials::script;
use trials::show::lanes::{Mark, Subject};
use trials::show::terminal::{draw, Look};
use trials::show::{page, read, Sort};

#[test]
fn counts_spread_and_site() {
    use Mark::{Reached, Within};
    let story = story(SITE);
    let evening = evening(&story);
    let at_end = |subject| steps(evening, evening.last(), subject);
    // The tail counts: 10 minutes and one more.
    assert_eq!(at_end(Subject::Line { feeder: 1, line: 1 }), [(0, 11, 2, Reached)]);
    assert_eq!(at_end(Subject::Line { feeder: 1, line: 2 }), []);
    assert_eq!(at_end(Subject::Spread { feeder: 1 }), [(0, 11, 2, Reached)]);
    // A charge of rate 2 counts as two, on another line after the first has ended.
    assert_eq!(at_end(Subject::Line { feeder: 2, line: 3 }), [(0, 5, 2, Within)]);
    assert_eq!(at_end(Subject::Line { feeder: 2, line: 1 }), [(5, 9, 2, Within)]);
    assert_eq!(at_end(Subject::Spread { feeder: 2 }), [(0, 9, 2, Within)]);
    assert_eq!(at_end(Subject::Site), [(0, 9, 4, Within), (9, 11, 2, Within)]);
    // After the second order nothing draws on feeder 2 yet.
    assert_eq!(steps(evening, 2, Subject::Site), [(0, 11, 2, Within)]);
    assert_eq!(story.broken(), Vec::<String>::new());
}

#[test]
fn the_site_limit_is_reached() {
    let story = story("open 2 3 2 100 0 2 100 0\ncommit 1 1 4 9 2 0\ncommit 2 1 4 9 1 0");
    let evening = evening(&story);
    assert_eq!(steps(evening, 2, Subject::Site), [(0, 4, 3, Mark::Reached)]);
}

const REPLANNED: &str = "open 1 720 1 100 0
commit 1 1 10 60 1 0
commit 1 1 10 15 1 10
latest 1
move 3 360
";

#[test]
fn a_replan_before_and_after() {
    let story = story(REPLANNED);
    let evening = evening(&story);
    let starts = |moment: usize| -> Vec<Option<u64>> {
        evening.charges.iter().map(|charge| charge.start_after(moment)).collect()
    };
    assert_eq!(evening.entries[3].sort, Sort::Taken);
    assert_eq!(starts(2), [Some(0), Some(10)]);
    assert_eq!(starts(3), [Some(10), Some(0)]);
    assert_eq!(evening.entries[3].meaning(), "taken: 5 minutes late before, 0 after");
    // Questions are in the history and not among the lines of the script.
    assert!(evening.entries.iter().any(|entry| entry.asked));
    let shown: Vec<usize> = evening.shown().map(|(_, entry)| entry.line).collect();
    assert_eq!(shown, [1, 2, 3, 4, 5]);
    assert_eq!(story.broken(), Vec::<String>::new());
}

/// Without questions the report tells one start, and the other is not told: nothing is said of
/// minutes that it may be in.
#[test]
fn starts_that_no_answer_tells() {
    let lines = lines(REPLANNED);
    let story = read(&lines, &script::reference_answers(&lines));
    let evening = evening(&story);
    assert_eq!(evening.charges[1].start_after(3), Some(0));
    assert_eq!(evening.charges[0].start_after(3), None);
    assert_eq!(
        steps(evening, 4, Subject::Site),
        [(0, 10, 1, Mark::Unknown)],
        "the one in hand goes on beyond the clock"
    );
    assert_eq!(story.broken(), Vec::<String>::new());
    let drawn = draw(&story, &Look { columns: 80, colour: false });
    assert!(drawn.contains("| ?"), "{drawn}");
}

#[test]
fn an_offer_tells_its_starts() {
    let text = REPLANNED.replace("latest 1", "offer 1 10 0");
    let lines = lines(&text);
    let story = read(&lines, &script::reference_answers(&lines));
    assert_eq!(evening(&story).charges[0].start_after(3), Some(10));
}

#[test]
fn withdrawn_and_tail() {
    use trials::show::charge::State;
    let text =
        "open 1 720 1 100 2\ncommit 1 1 5 9 1 0\ncommit 1 1 5 9 1 7\nmove 3 360\nwithdraw 2\n\
                move 5 360\nmove 7 360";
    let story = story(text);
    let evening = evening(&story);
    let states: Vec<(State, State)> = evening
        .shown()
        .skip(2)
        .map(|(moment, entry)| {
            let state = |place: usize| evening.charges[place].state(moment, entry.clock);
            (state(0), state(1))
        })
        .collect();
    let expected = [
        (State::Waiting, State::Waiting),
        (State::Charging, State::Waiting),
        (State::Charging, State::Withdrawn),
        (State::Tail, State::Withdrawn),
        (State::Gone, State::Withdrawn),
    ];
    assert_eq!(states, expected);
    assert_eq!(steps(evening, 3, Subject::Site), [(0, 14, 1, Mark::Within)]);
    assert_eq!(steps(evening, 4, Subject::Site), [(0, 7, 1, Mark::Within)]);
    assert_eq!(story.broken(), Vec::<String>::new());
}

#[test]
fn refused_and_unreadable_lines_are_marked() {
    let text = "open 1 720 1 100 0\ncommit 1 1 5 5 1 0\n\n# a comment\nhello <b>\ncommit 1 4 5 5 1 0\nmove x 1";
    let story = story(text);
    let sorts: Vec<(usize, Sort)> =
        evening(&story).shown().map(|(_, entry)| (entry.line, entry.sort)).collect();
    let expected = [
        (1, Sort::Opened),
        (2, Sort::Ordered),
        (5, Sort::Unreadable),
        (6, Sort::Refused),
        (7, Sort::Unreadable),
    ];
    assert_eq!(sorts, expected);
    let drawn = draw(&story, &Look { columns: 80, colour: false });
    assert!(drawn.contains("line    5  hello <b>"), "{drawn}");
    assert!(drawn.contains("error unknown call") && drawn.contains("refused: no such line"));
    assert!(drawn.contains("Nothing is broken"));
    let html = page::page(&story, "marked");
    assert!(html.contains("<li class=\"unreadable\"><p class=\"note\">a comment</p>"));
    assert!(html.contains("hello &lt;b&gt;") && !html.contains("hello <b>"));
}

#[test]
fn answers_that_do_not_fit_are_told_with_their_line() {
    let text = "open 1 720 1 100 0\n# a comment\ncommit 1 1 5 5 1 0\nmove 2 360\nfoo";
    let broken = |answers: &str| read(&lines(text), &lines(answers)).broken();
    let right = "open 0 1\nticket 1 start 0\nmoved 1 dropped 0 1 0\nerror unknown call";
    assert_eq!(broken(right), Vec::<String>::new());
    let told = broken("open 0 1\nstart 0\nmoved 1 dropped 0 1 0\nerror unknown call");
    assert_eq!(told[0], "line 3: 'commit 1 1 5 5 1 0' is answered 'start 0', which does not fit");
    let told = broken("open 0 1\nticket 1 start 0\nmoved 1 dropped 0 1\nerror unknown call");
    assert!(told[0].starts_with("line 4: 'move 2 360' is answered 'moved 1 dropped 0 1'"));
    let told = broken("open 0 1\nticket 1 start 0\nmoved 1 dropped 0 1 0\nrefused 4");
    assert_eq!(told, ["line 5: 'foo' is answered 'refused 4', which does not fit"]);
    let told = broken("open 0 1\nticket 1 start 0\nmoved 1 dropped 0 1 0");
    assert_eq!(told, ["line 5: 'foo' has no answer"]);
    let told = broken(&format!("{right}\nwithdrawn"));
    assert_eq!(told, ["answer line 5: 'withdrawn' has no call"]);
    assert_eq!(broken("").len(), 4);
}

/// What the example evening is there to show.
#[test]
fn the_example_evening() {
    let story = story(EVENING);
    let evening = evening(&story);
    let feeders = &evening.site.feeders;
    assert!(feeders.len() == 2 && feeders.iter().all(|feeder| feeder.tail > 0), "late contactors");
    let charges = || evening.charges.iter();
    assert!([1, 2].iter().all(|rate| charges().any(|charge| charge.rate == *rate)), "both rates");
    let in_a_hurry = charges().any(|charge| charge.ordered.minute + charge.time > charge.due);
    assert!(in_a_hurry, "a driver who cannot be in time");
    assert!(charges().any(|charge| charge.withdrawn.is_some()), "a withdrawal");
    for sort in [Sort::Taken, Sort::Kept, Sort::Refused] {
        assert!(evening.shown().any(|(_, entry)| entry.sort == sort), "{sort:?}");
    }
    let calls = || evening.shown().filter_map(|(_, entry)| entry.call.as_ref().ok());
    let ordered = |wanted: &_| {
        calls().any(|call| matches!(call, Call::Commit { order, .. } if order == wanted))
    };
    let looked_only = calls().any(|call| match call {
        Call::Preview { order } => !ordered(order),
        _ => false,
    });
    assert!(looked_only, "a preview that is not taken");
    let full = |feeder, line| {
        let steps = steps(evening, evening.last(), Subject::Line { feeder, line });
        steps.iter().any(|(_, _, _, mark)| *mark == Mark::Reached)
    };
    assert!(full(1, 1), "a full line");
    assert_eq!(story.broken(), Vec::<String>::new());
}
