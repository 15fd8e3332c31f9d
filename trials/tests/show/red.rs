//! What no right program answers is red, and nothing else is.

use crate::common::faulty::{Error, Faulty};
use crate::common::lines;
use crate::{evening, falsified, generated, steps};
use trials::fill::{fill, unfill};
use trials::script::{self, answers_of};
use trials::show::ask::asked;
use trials::show::lanes::{Mark, Subject};
use trials::show::terminal::{draw, Look};
use trials::show::{page, read, Story};
use trials::{demand, generate};

#[test]
fn a_broken_limit_is_red() {
    let text = "open 1 720 1 100 0\ncommit 1 1 5 5 1 0\ncommit 1 1 5 9 1 5\nmove 20 360";
    let story = falsified(text, "moved 2 dropped 2 1 0 2 5", "moved 2 dropped 2 1 0 2 4");
    let broken = story.broken();
    assert!(broken.contains(&"line 4: ticket 2 had start 5, and has 4 with no plan".to_string()));
    assert!(broken.contains(&"line 4: minute 4: feeder 1 line 1 has 2, limit 1".to_string()));
    assert!(broken.contains(&"line 4: minute 4: feeder 1 spread has 2, bound 1".to_string()));
    let site = steps(evening(&story), 3, Subject::Line { feeder: 1, line: 1 });
    assert_eq!(site[1], (4, 5, 2, Mark::Broken));
    let html = page::page(&story, "broken");
    assert!(html.contains("verdict red"));
    assert!(html.contains(r#"<rect class="broken" x="40.00%""#), "4 of 10 minutes");
    let colour = draw(&story, &Look { columns: 80, colour: true });
    assert!(colour.contains("\u{1b}[1;97;41m2"));
    let plain = draw(&story, &Look { columns: 80, colour: false });
    assert!(plain.contains("BROKEN:") && plain.contains("====!====") && !plain.contains('\u{1b}'));
}

#[test]
fn a_broken_site_limit_is_red() {
    let text = "open 2 3 2 100 0 2 100 0\ncommit 1 1 4 9 2 0\ncommit 2 1 4 9 2 4";
    let story = falsified(text, "ticket 2 start 4", "ticket 2 start 3");
    assert!(story.broken().contains(&"line 3: minute 3: site has 4, W 3".to_string()));
}

#[test]
fn what_no_right_program_does() {
    let broken = |text: &str, right: &str, wrong: &str, what: &str| {
        let told = falsified(text, right, wrong).broken();
        assert!(told.iter().any(|line| line.contains(what)), "{wrong}: {told:?}");
    };
    let moved =
        "open 1 720 2 100 0\ncommit 1 1 5 5 1 0\ncommit 1 1 5 9 1 0\nmove 3 360\nmove 9 360";
    broken(moved, "ticket 2 start 0", "ticket 3 start 0", "line 3: ticket 3 where 2 is next");
    broken(moved, "ticket 2 start 0", "ticket 2 start 1", "not in 0 as shown");
    broken(moved, "moved 2 dropped 0 1 0 2 0", "moved 1 dropped 0 1 0", "ticket 2 begins");
    broken(moved, "moved 2 dropped 0 1 0 2 0", "moved 2 dropped 0 1 0 7 0", "was not given");
    broken(moved, "moved 0 dropped 2", "moved 0 dropped 1", "1 dropped where 2 are finished");
    broken(moved, "moved 0 dropped 2", "moved 1 dropped 2 1 4", "line 5: ticket 1 began in 0");
    let late =
        "open 1 720 1 100 0\ncommit 1 1 10 60 1 0\ncommit 1 1 10 15 1 10\nlatest 1\nenquire 1\n\
                enquire 2";
    broken(late, "plan 0 5 0 0", "plan 0 6 0 0", "line 4: 6 minutes late told before, 5 held");
    broken(late, "plan 0 5 0 0", "plan 0 5 1 0", "line 4: 1 minute late told after, 0 held");
    let gone = "open 1 720 1 100 0\ncommit 1 1 5 5 1 0\nmove 2 360\nwithdraw 1";
    broken(gone, "refused 25", "withdrawn", "line 4: ticket 1 does not wait and is withdrawn");
}

/// Whatever the reference answers, nothing is red: on scripts of all kinds, asked and not.
#[test]
fn right_answers_are_never_red() {
    let long = ["tickets", "row", "spent", "openings", "full", "far"];
    for kind in generate::KINDS.iter().filter(|kind| !long.contains(&kind.name)) {
        for number in 0..3 {
            let script = generated(kind.name, 7, number);
            let told = read(&script.lines, &script.answers).broken();
            assert_eq!(told, Vec::<String>::new(), "{} {number}", kind.name);
            let lines = asked(&script.lines);
            let story = read(&lines, &script::reference_answers(&lines));
            assert_eq!(story.broken(), Vec::<String>::new(), "{} {number}", kind.name);
        }
    }
}

/// How the answers of a program with an error are drawn. The script has the starts that the
/// program itself would show, so that its orders are taken.
fn drawn_of(error: Error, kind: &str, number: u64) -> Story {
    let own = fill(Faulty::new(error), &unfill(&generated(kind, 1, number).lines));
    let lines = asked(&own);
    let answers = answers_of(Faulty::new(error), &lines);
    let story = read(&lines, &answers);
    let failed = demand::check(&lines, &answers).is_err_and(|broken| !broken.is_unknown());
    let red = !story.broken().is_empty();
    assert!(red || !failed, "{error:?} breaks demand 3 and is not red");
    story
}

/// A program with an error shows red: in the verdict, and where a limit or a bound is broken in the
/// drawings too, with colour and without.
#[test]
fn broken_programs_are_red() {
    let errors = [
        (Error::BalanceOnlyAtTheStart, "mixed", true),
        (Error::NeighbouringLinesOnly, "mixed", true),
        (Error::OneStartForEverybody, "mixed", true),
        (Error::SiteNotInOrders, "feeders", true),
        (Error::TailNotInTheBalance, "tails", true),
        (Error::ReportsOnlyOnce, "mixed", false),
        (Error::RoundedUp, "mixed", false),
        (Error::DroppedAtTheEnd, "tails", false),
        (Error::LatenessWithTheTail, "tails", false),
    ];
    for (error, kind, breaks_a_limit) in errors {
        let stories = (0..40).map(|number| drawn_of(error, kind, number));
        let red: Vec<Story> = stories.filter(|story| !story.broken().is_empty()).collect();
        assert!(!red.is_empty(), "{error:?} is never red");
        let mut limits = 0;
        for story in &red {
            let html = page::page(story, "broken");
            let plain = draw(story, &Look { columns: 80, colour: false });
            let colour = draw(story, &Look { columns: 80, colour: true });
            assert!(html.contains("verdict red") && plain.contains("BROKEN:"), "{error:?}");
            assert!(colour.contains("\u{1b}[1;97;41m"), "{error:?}");
            let terminal = plain.lines().any(below_a_lane);
            assert!(!terminal || in_figure(&html), "{error:?} is red in the terminal alone");
            limits += usize::from(terminal);
        }
        assert!(!breaks_a_limit || limits > 0, "{error:?} breaks no limit that is drawn");
    }
}

/// Whether a line of the terminal is one below a lane, with the sign for a broken limit.
fn below_a_lane(line: &str) -> bool {
    line.starts_with("             |") && line.contains('!')
}

/// Whether something is broken in the picture as it stands at the end; the legend has no percent.
fn in_figure(html: &str) -> bool {
    let shapes = html.split(r#"<rect class="broken" x=""#).skip(1);
    shapes.filter_map(|shape| shape.split_once('"')).any(|(x, _)| x.ends_with('%'))
}

/// Whatever a program answers, it is drawn: a line or a feeder that there is not, numbers that no
/// station has, bounds that are wrong.
#[test]
fn answers_out_of_all_ranges() {
    let broken = |calls: &str, answers: &str, what: &str| {
        let story = read(&lines(calls), &lines(answers));
        let told = story.broken();
        assert!(told.iter().any(|line| line.contains(what)), "{answers}: {told:?}");
        draw(&story, &Look { columns: 80, colour: false });
        page::page(&story, "wrong");
    };
    let open = "open 1 720 2 100 0\n";
    for line in [0, 4] {
        let calls = format!("{open}commit 1 {line} 5 5 1 0");
        broken(&calls, "open 0 2\nticket 1 start 0", &format!("ticket 1 for line {line}"));
    }
    let calls = format!("{open}commit 2 1 5 5 1 0");
    broken(&calls, "open 0 2\nticket 1 start 0", "of feeder 2");
    broken(open, "open 0 3", "bounds [3] told where [2] are right");
    broken("open 5 720 1 100 0", "open 0 1 1 1 1 1", "does not fit");
    let calls = format!("{open}commit 1 1 1440 5 1 4294967295\nenquire 1");
    let late = "open 0 2\nticket 1 start 4294967295\nwaiting 4294967295 1";
    broken(&calls, late, "demand 3: ticket 1 ends in 4294968735, after 1440");
    for answer in ["ticket 1 start 4294967296", "ticket start 1 0", "ticket +1 start 0", "ticket 1"]
    {
        let calls = format!("{open}commit 1 1 5 5 1 0");
        broken(&calls, &format!("open 0 2\n{answer}"), "line 2: 'commit 1 1 5 5 1 0' is answered");
    }
    broken(&format!("{open}commit 1 1 5 5 7 0"), "open 0 2\nticket 1 start 0", "spread has 7");
}
