//! "Errors this yard has to catch", as faulty yards, each with a short script in which it
//! answers otherwise than the rules.

mod common;

use common::caught;
use common::faulty::Error;

/// "Testing balance only at the new charge's start. An end on another line can
/// break it later." Line 2 ends in minute 5, and then the lines count 2, 0, 1.
#[test]
fn balance_only_at_the_start() {
    let text =
        "open 1 720 2 50 0\ncommit 1 2 5 60 1 0\ncommit 1 1 10 60 1 0\ncommit 1 3 10 60 1 0\npreview 1 1 10 60 1";
    caught(Error::BalanceOnlyAtTheStart, text, "start 10", "start 0");
}

/// "Judging soundness from begun charges alone. They may lean on a waiting one,
/// as in g."
#[test]
fn begun_charges_alone() {
    let text =
        "open 1 720 2 50 0\ncommit 1 1 10 60 1 0\ncommit 1 3 10 60 1 0\ncommit 1 2 5 60 1 0\ncommit 1 2 5 60 1 0\n\
                commit 1 2 5 20 1 5\ncommit 1 1 10 60 1 0\nmove 1 360\ncommit 1 3 3 10 1 1\nlatest 1";
    caught(Error::BegunTakenAsSound, text, "plan 1 0 0 0", "plan 7 0 0 0");
    let text = "open 1 720 1 100 0\ncommit 1 1 10 60 1 0\npreview 1 1 10 15 1";
    caught(Error::WaitingIgnored, text, "start 10", "start 0");
}

/// "Counting a charge in the minute of its end, so that a successor starts one
/// minute late."
#[test]
fn counted_in_the_minute_of_the_end() {
    let text = "open 1 720 1 100 0\ncommit 1 1 10 60 1 0\npreview 1 1 10 15 1";
    caught(Error::CountedInTheMinuteOfTheEnd, text, "start 10", "start 11");
}

/// "Treating a start equal to the clock as begun."
#[test]
fn start_at_the_clock() {
    let h = "open 1 720 1 100 0\ncommit 1 1 10 60 1 0\ncommit 1 1 10 15 1 10\n";
    let error = Error::StartAtTheClockIsBegun;
    caught(error, &format!("{h}latest 1"), "plan 0 5 0 0", "plan 7 5 5 0");
    caught(error, &format!("{h}enquire 1"), "waiting 0 1", "charging 0 10 1");
    caught(error, &format!("{h}offer 1 10 0"), "plan 0 5 0 0", "refused 10");
    caught(error, &format!("{h}move 1 360"), "moved 1 dropped 0 1 0", "moved 0 dropped 0");
}

/// "Comparing only lines 1 and 2, and 2 and 3." Two of line 1, one of line 2 and
/// none of line 3 are balanced pair by neighbouring pair.
#[test]
fn neighbouring_lines_only() {
    let text = "open 1 720 2 50 0\ncommit 1 2 10 60 1 0\ncommit 1 1 10 60 1 0\npreview 1 1 10 60 1";
    caught(Error::NeighbouringLinesOnly, text, "start 10", "start 0");
}
