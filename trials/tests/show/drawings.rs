//! Drawings in the terminal and on pages, to the letter where they are small.

use crate::common::lines;
use crate::{evening, generated, story, EVENING, SITE};
use trials::fill::fill;
use trials::reference::Station;
use trials::script;
use trials::show::ask::asked;
use trials::show::terminal::{draw, Look};
use trials::show::{answers, page, read, wall};

/// To the letter, on a site small enough to be drawn by hand.
#[test]
fn the_terminal_to_the_letter() {
    let text = format!("{SITE}move 7 720\nwithdraw 9");
    let drawn = draw(&story(&text), &Look { columns: 80, colour: false });
    let expected = "\
2 feeders, 4 charges, clock 7. A character is 1 minute and shows the most in
them; numbers are read downwards.

feeder 1: limit 2, bound 2, tail 1
              0         10
  line 1 of 2|22222222222|
             |===========|
  line 2 of 2|...........|
  line 3 of 2|...........|
  spread of 2|22222222222|
             |===========|

feeder 2: limit 3, bound 3, tail 0
              0         10
  line 1 of 3|.....2222..|
  line 2 of 3|...........|
  line 3 of 3|22222......|
  spread of 3|222222222..|

    site of 5|44444444422|

ticket feeder/line, x2: rate 2
              0         10
     1 1/1   |##########~|
     2 1/1   |##########~|
     4 2/1 x2|o....%%%%  |+6
     3 2/3 x2|#####      |

o ordered  . waiting  # charged  % charged after its due minute  ~ tail
- planned  + planned after its due minute  x withdrawn  +12 minutes late
= limit, bound or site limit reached  ! broken

Refused:
  line    7  withdraw 9              refused: no such ticket held

Nothing is broken: every line, every spread and the site kept their limits in
every minute.
";
    assert_eq!(drawn, expected);
}

#[test]
fn columns_are_kept() {
    for columns in [40, 60, 80, 132, 200] {
        let drawn = draw(&story(EVENING), &Look { columns, colour: false });
        let widest = drawn.lines().map(|line| line.chars().count()).max().unwrap_or(0);
        assert!(widest <= columns, "{widest} of {columns}");
    }
}

/// The page stands alone: nothing is fetched, and whatever a script holds is text in it.
#[test]
fn a_page_that_needs_no_network() {
    let story = story(EVENING);
    let html = page::page(&story, "An evening <here>");
    assert!(html.contains("<title>An evening &lt;here&gt;</title>"));
    let addresses = html.matches("http").count();
    assert_eq!(addresses, 0, "an address in the page");
    assert!(!html.contains("{{") && !html.contains("}}"), "a place was not filled");
    assert_eq!(html.matches("<section class=\"station\">").count(), 1);
    assert!(html.contains("ticket 19: gone, feeder 1, line 3, rate 1, ordered in 15, start 47"));
}

/// Malformed lines, null bytes and such among them, and stations without orders.
#[test]
fn any_script_is_drawn() {
    for number in 0..5 {
        let script = generated("malformed", 3, number);
        let story = read(&script.lines, &script.answers);
        let drawn = draw(&story, &Look { columns: 80, colour: false });
        assert!(drawn.contains("Unreadable:") && !drawn.contains('\u{1b}'));
        assert!(page::page(&story, "malformed").ends_with("</html>\n"));
    }
    let nothing = read(&[], &[]);
    let drawn = draw(&nothing, &Look { columns: 80, colour: false });
    assert_eq!(drawn, "No order was taken, so nothing draws.\n");
    assert!(page::page(&nothing, "nothing").contains("</html>"));
}

/// The picture in README.md is that of the example evening as it is now.
#[test]
fn the_picture_in_the_documents() {
    let story = story(EVENING);
    let drawn = trials::show::standalone(evening(&story), 800);
    let stored = include_str!("../../../docs/evening.svg");
    assert!(drawn == stored, "docs/evening.svg is old; trials/README.md says how to draw it anew");
}

/// The same rows, page by page.
#[test]
fn rows_of_the_wall() {
    let mut rows: Vec<String> = (1..=50).map(|row| format!("{row:>6} & {:<28}", "<x>")).collect();
    rows[0] = "ticket l".to_string();
    let html = wall::wall_page(&(rows.join("\n") + "\n"));
    let pages: Vec<&str> = html.split("<pre>").skip(1).collect();
    assert_eq!(pages.len(), 2);
    assert!(pages[0].starts_with("ticket l\n     2 &amp; &lt;x&gt;"));
    assert!(pages[1].starts_with("    26 &amp;"));
    assert!(html.contains("http-equiv=\"refresh\""));
    let refused = wall::wall_page(&format!("{:<37}\n", "no station"));
    assert!(refused.contains("<pre>no station  "));
}

/// A call with its answer beside it or below it, as `./yard` prints it; questions are left out.
#[test]
fn calls_with_their_answers() {
    let text =
        "# late\nopen 1 720 1 100 0\n\ncommit 1 1 10 60 1 0\nlatest 1\n\u{7}\u{1b}[2J\nmove 3 360";
    let lines = asked(&lines(text));
    let shown = answers(&lines, &script::reference_answers(&lines));
    let expected = "# late
open 1 720 1 100 0   -> open 0 1

commit 1 1 10 60 1 0 -> ticket 1 start 0
latest 1             -> plan 7 0 0 0
\u{fffd}\u{fffd}[2J                -> error unknown call
move 3 360           -> moved 1 dropped 0 1 0

";
    assert_eq!(shown, expected);
    assert_eq!(answers(&asked(&crate::lines("enquire 1")), &[]), "enquire 1            -> \n\n");
}

/// A full site of four feeders and some thousand calls: each piece is on the page once.
#[test]
fn a_full_site() {
    let mut text = "open 4 720 60 50 5 60 50 5 60 50 5 60 50 5\n".to_string();
    let order = |place: u32| {
        let (feeder, line, time) = (1 + place % 4, 1 + place / 4 % 3, 10 + place * 7 % 190);
        format!("commit {feeder} {line} {time} {} 1 ?\n", place * 11 % 900)
    };
    text.extend((0..720).map(order));
    text.push_str("latest 1\nlines 2 1000\n");
    for target in 1..200 {
        text.push_str(&format!("move {} 1440\n", 5 * target));
        text.push_str(&"preview 1 1 30 40 1\n".repeat(10));
    }
    let lines = asked(&fill(Station::fresh(1, 100, 0), &lines(&text)));
    let story = read(&lines, &script::reference_answers(&lines));
    assert_eq!(story.broken(), Vec::<String>::new());
    assert_eq!(evening(&story).charges.len(), 720);
    let html = page::page(&story, "full");
    assert!(html.len() < 12_000_000, "{} bytes", html.len());
    let drawn = draw(&story, &Look { columns: 80, colour: false });
    assert!(drawn.contains("   720 4/3"));
}

/// Lines that end with a carriage return, as some editors write them, and several stations.
#[test]
fn carriage_returns_and_stations_without_orders() {
    let text =
        "open 1 720 1 100 0\r\nopen 2 720 1 100 0 1 100 0\nopen 1 720 1 100 0\ncommit 1 1 5 5 1 0";
    let story = story(text);
    let drawn = draw(&story, &Look { columns: 80, colour: false });
    assert!(drawn.starts_with("Station 3 of 3: 1 feeder, 1 charge, clock 0."), "{drawn}");
    assert!(drawn.contains("error not a number, the line ends with a carriage return"), "{drawn}");
    let html = page::page(&story, "several");
    assert_eq!(html.matches("<h2>Station ").count(), 3);
    assert_eq!(html.matches("<p>No order was taken.</p>").count(), 2);
}

/// What pointing at a charge tells: ticket, line, rate, order minute, start, end, due, lateness.
#[test]
fn what_is_read_of_a_charge() {
    let text = "open 2 720 1 100 0 2 100 2\ncommit 1 1 5 4 1 0\ncommit 2 3 5 5 2 0\nmove 3 720\n\
                commit 2 3 1 3 2 7\ncommit 1 2 9 8 1 3\nwithdraw 4";
    let html = page::page(&story(text), "read");
    let (picture, _) = html.split_once("application/json").expect("the film stands behind");
    let read: Vec<&str> = picture
        .split("aria-label=\"ticket ")
        .skip(1)
        .filter_map(|part| Some(part.split_once('"')?.0))
        .collect();
    let expected = [
        "1: charging, feeder 1, line 1, rate 1, ordered in 0, start 0, end 5, due 4, 1 minute late",
        "4: withdrawn, feeder 1, line 2, rate 1, ordered in 3, start 3, end 12, due 8, withdrawn in 3",
        "2: charging, feeder 2, line 3, rate 2, ordered in 0, start 0, end 5, draws to 7, due 5, not late",
        "3: waiting, feeder 2, line 3, rate 2, ordered in 3, start 7, end 8, draws to 10, due 3, 5 minutes late",
    ];
    assert_eq!(read, expected);
}
