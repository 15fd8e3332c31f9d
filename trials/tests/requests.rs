//! The wrong programs of each request, as faulty yards, each with a short script in which
//! it answers otherwise than the rules.

mod common;

use common::faulty::Error;
use common::{caught, lines, reference};
use trials::fill::fill;
use trials::script;

/// N1. Latest starts 0, -3, 4 and -10: the order of the integers is tickets 4, 2, 1, 3.
#[test]
fn latest_starts_below_zero() {
    let text =
        "open 1 720 1 100 0\ncommit 1 1 40 40 1 0\ncommit 1 1 10 7 1 40\ncommit 1 1 20 24 1 50\n\
                commit 1 1 10 0 1 70\nlatest 1\nenquire 4";
    caught(Error::LatestStartCutAtZero, text, "waiting 0 1", "waiting 50 1");
    // Negative ones last would be later than the held plan, so ticket 4 stays last.
    caught(Error::LatestStartUnsigned, text, "waiting 0 1", "waiting 70 1");
}

/// N1, N5. By lines d − p decides between equal times that cannot wait: 0, -3 and -10.
#[test]
fn latest_starts_below_zero_by_lines() {
    let text =
        "open 1 720 1 100 0\ncommit 1 1 10 110 1 0\ncommit 1 1 10 10 1 10\ncommit 1 1 10 7 1 20\n\
                commit 1 1 10 0 1 30\nlines 1 1\nenquire 4";
    caught(Error::LatestStartCutAtZero, text, "waiting 0 1", "waiting 20 1");
    caught(Error::LatestStartUnsigned, text, "waiting 0 1", "waiting 10 1");
}

/// N1. Two latest starts of -3.
#[test]
fn equal_latest_starts_below_zero() {
    let text =
        "open 1 720 1 100 0\ncommit 1 1 20 60 1 0\ncommit 1 1 10 7 1 20\ncommit 1 1 13 10 1 30\n\
                latest 1\nenquire 2";
    caught(Error::HigherTicketFirst, text, "waiting 0 1", "waiting 13 1");
    let text =
        "open 1 720 1 100 0\ncommit 1 1 10 110 1 0\ncommit 1 1 10 7 1 10\ncommit 1 1 10 7 1 20\n\
                lines 1 1\nenquire 2";
    caught(Error::HigherTicketFirst, text, "waiting 0 1", "waiting 10 1");
}

/// N1. "its lateness counts from the due minute given", be it 0 at a late clock.
#[test]
fn lateness_from_the_due_minute_given() {
    let text = "open 1 720 1 100 0\nmove 500 360\ncommit 1 1 10 0 1 500\nlatest 1";
    caught(Error::LatenessFromTheClock, text, "plan 7 510 510 0", "plan 7 0 0 0");
    let text = "open 1 720 1 100 0\nmove 500 360\ncommit 1 1 10 509 1 500";
    caught(Error::HurryRefused6, text, "ticket 1 start 500", "refused 6");
    caught(Error::HurryRefused7, text, "ticket 1 start 500", "refused 7");
}

/// N2. Minute 1 is sound and not the earliest; minute 0 is gone after a move.
#[test]
fn commits_with_another_start() {
    let text = "open 1 720 1 100 0\ncommit 1 2 9 60 1 0\ncommit 1 1 10 60 1 1";
    caught(Error::TakesAnySoundStart, text, "refused 16", "ticket 2 start 1");
    caught(Error::GivesTheEarliestStart, text, "refused 16", "ticket 2 start 0");
    let text = "open 1 720 1 100 0\npreview 1 1 10 60 1\nmove 1 360\ncommit 1 1 10 60 1 0";
    caught(Error::TakesTheStartShownBefore, text, "refused 16", "ticket 1 start 0");
}

/// N2. "changes nothing", and shows "the start it would give".
#[test]
fn previews_that_are_no_previews() {
    let text = "open 1 720 1 100 0\npreview 1 1 10 60 1\ncommit 1 1 10 60 1 0";
    caught(Error::PreviewTakesATicket, text, "ticket 1 start 0", "ticket 2 start 0");
    let text = "open 1 720 1 100 0\ncommit 1 1 10 60 1 0\npreview 1 2 10 60 1";
    caught(Error::PreviewShowsTheLastEnd, text, "start 0", "start 10");
}

/// N2. "16, after 14": a full yard is refused 13 whatever start was shown.
#[test]
fn a_full_yard_whatever_was_shown() {
    let text =
        format!("open 1 720 60 100 0\n{}commit 1 1 5 60 1 7", "commit 1 1 1 9 1 ?\n".repeat(180));
    let filled = script::join(&fill(reference(), &lines(&text)));
    let text = script::show(&filled);
    caught(Error::StartBeforePlaces, text.trim_end(), "refused 13", "refused 16");
}

/// N3. 1.5 and 4.5 are the halves at which up and down go wrong, 0.99 and 1.2 are
/// nearer to 1.
#[test]
fn bounds_rounded_otherwise() {
    caught(Error::HalfUp, "open 1 720 30 15 0", "open 0 4", "open 0 5");
    caught(Error::HalfUp, "open 1 720 10 5 0", "refused 3", "open 0 1");
    caught(Error::HalfDown, "open 1 720 30 5 0", "open 0 2", "open 0 1");
    caught(Error::RoundedUp, "open 1 720 6 20 0", "open 0 1", "open 0 2");
    caught(Error::RoundedUp, "open 1 720 50 1 0", "refused 3", "open 0 1");
    caught(Error::RoundedDown, "open 1 720 9 11 0", "open 0 1", "refused 3");
    caught(Error::RoundedDownAndOpened, "open 1 720 9 11 0", "open 0 1", "open 0 0");
    caught(Error::RefusedBelowAHundred, "open 1 720 17 3 0", "open 0 1", "refused 3");
}

/// N4. A charge of rate 2 leaves its line two ahead, so with D = 2 one of rate 1 has to
/// wait for its end.
#[test]
fn rates_counted_otherwise() {
    let text = "open 1 720 4 50 0\ncommit 1 1 10 60 2 0\npreview 1 1 10 60 1";
    caught(Error::RateNotInTheBalance, text, "start 10", "start 0");
    caught(Error::SecondHalfOnTheNextLine, text, "start 10", "start 0");
}

/// N4. "18, after 17, rate above N or above D", and both after 5 and before 6.
#[test]
fn rates_refused_otherwise() {
    let text = "open 1 720 2 50 0\npreview 1 1 10 60 2";
    caught(Error::RateAgainstTheLimitOnly, text, "refused 18", "start 0");
    let text = "open 1 720 2 50 0\npreview 1 1 10 2000001 2";
    caught(Error::RateAfterDue, text, "refused 18", "refused 6");
    let text = "open 1 720 2 50 0\npreview 1 1 10 2000001 3";
    caught(Error::RateAfterDue, text, "refused 17", "refused 6");
}

/// N4. "Enquiries show the rate", also after a plan was taken.
#[test]
fn rates_that_get_lost() {
    let h = "open 1 720 2 100 0\ncommit 1 1 10 60 2 0\ncommit 1 1 10 15 2 10\n";
    let text = format!("{h}latest 1\nenquire 1");
    caught(Error::RateLostByAPlan, &text, "waiting 10 2", "waiting 10 1");
    caught(Error::RateNotShown, &format!("{h}enquire 1"), "waiting 0 2", "waiting 0 1");
}

/// N4. Two charges of rate 2 in one minute are four points; the cap becomes 2, which has
/// room for one of them.
#[test]
fn caps_that_count_charges() {
    let text = "open 1 720 4 50 0\ncommit 1 1 10 60 2 0\ncommit 1 1 10 60 2 10\nlines 1 2";
    caught(Error::CapsCountCharges, text, "plan 7 0 0 2", "plan 2 0 0 2");
}

/// N4. In minute 1 line 1 has two charges, a begun one that counts as two and a placed
/// one.
#[test]
fn a_placed_charge_beside_a_begun_one() {
    let text =
        "open 1 720 3 67 0\ncommit 1 1 10 60 2 0\ncommit 1 1 5 60 1 10\nmove 1 360\nlines 1 2";
    caught(Error::PlacedChargeHidden, text, "plan 7 0 0 2", "plan 1 0 0 1");
}

/// N5. Ticket 2 cannot wait any more than ticket 1, but is shorter; with its slack not cut
/// off it would be the last.
#[test]
fn weights_worked_out_otherwise() {
    let text = "open 1 720 1 100 0\ncommit 1 3 2 0 1 0\ncommit 1 3 1 0 1 2\nlines 1 1";
    caught(Error::SlackNotCutOff, text, "plan 0 5 4 1", "plan 7 5 5 1");
    // After ticket 2 is placed n is still 3 and P 19, so that ticket 3 is weighed as before.
    let text = "open 1 720 1 100 0\ncommit 1 3 15 0 1 0\ncommit 1 3 3 0 1 15\ncommit 1 3 1 9 1 18\nlines 1 1";
    caught(Error::NumbersShrink, text, "plan 0 43 31 1", "plan 0 43 22 1");
}

/// N5. A short charge with slack before a long urgent one; and a charge of rate 2 that is
/// the most urgent but does not fit beside a begun one.
#[test]
fn charges_chosen_otherwise() {
    let text = "open 1 720 1 100 0\ncommit 1 1 100 100 1 0\ncommit 1 1 10 30 1 100\nlines 1 1";
    caught(Error::LatestStartBeforeWeight, text, "plan 0 80 10 1", "plan 7 80 80 1");
    let text = "open 1 720 2 100 0\ncommit 1 1 20 60 1 0\nmove 1 360\ncommit 1 1 10 10 2 20\n\
                commit 1 1 30 31 1 30\nlines 1 1";
    caught(Error::ChargeChosenFirst, text, "plan 0 49 31 1", "plan 7 49 49 1");
}

/// N5. With n 3 and P 3,062 tickets 2 and 3 have k 437 and 434: E(437) / 1,166 is larger than
/// E(434) / 1,223 by less than one, and d - p is smaller for ticket 3.
#[test]
fn weights_over_p_are_not_rounded() {
    let text = "open 1 720 1 100 0\ncommit 1 2 673 3861 1 0\ncommit 1 2 1166 2912 1 673\n\
                commit 1 2 1223 2957 1 1839\nlines 1 1000\nenquire 2";
    caught(Error::WeightRounded, text, "waiting 0 1", "waiting 1223 1");
}

/// N5. A k of 100; and tickets with a k of 511 and of 512, the last of the table and the first
/// behind it.
#[test]
fn tables_with_other_numbers() {
    let text = "open 1 720 1 100 0\nmove 1 360\ncommit 1 3 22 123 1 1\ncommit 1 3 396 0 1 23\n\
                commit 1 3 222 0 1 419\ncommit 1 3 74 98 1 641\ncommit 1 3 554 0 1 715\nlines 1 1\nenquire 1";
    caught(Error::OneWrongNumber, text, "waiting 1 1", "waiting 75 1");
    let text = "open 1 720 1 100 0\ncommit 1 3 158 2201 1 0\ncommit 1 3 1382 3436 1 158\n\
                commit 1 3 1153 2690 1 1540\ncommit 1 3 1394 2985 1 2693\nlines 1 1000\nenquire 1";
    caught(Error::TableOnePlaceTooFar, text, "waiting 0 1", "waiting 1153 1");
    let text = "open 1 720 1 100 0\ncommit 1 3 158 2198 1 0\ncommit 1 3 1369 3389 1 158\n\
                commit 1 3 1153 2689 1 1527\ncommit 1 3 1393 3072 1 2680\nlines 1 1\nenquire 1";
    caught(Error::TableTooLong, text, "waiting 1153 1", "waiting 0 1");
}

/// N6. Ticket 1 leaves line 1 three ahead in minute 1, between the first and the last minute
/// of the candidate 0; right behind a failing minute there is room; and ticket 2 starts
/// behind the first minute of the third one.
#[test]
fn candidates_tested_otherwise() {
    let text = "open 1 720 3 50 0\ncommit 1 1 2 0 2 0\ncommit 1 3 1 0 1 0\ncommit 1 2 1 0 1 0\npreview 1 1 3 0 1";
    caught(Error::StartAndLastMinuteOnly, text, "start 2", "start 0");
    let text = "open 1 720 1 100 0\ncommit 1 1 1 0 1 0\npreview 1 1 1 0 1";
    caught(Error::CandidateSkipped, text, "start 1", "start 2");
    let text = "open 1 720 1 100 0\ncommit 1 1 1 0 1 0\ncommit 1 1 1 0 1 1\npreview 1 1 1 0 1";
    caught(Error::WindowNotWidened, text, "start 2", "start 1");
}

/// N7. With r 1 a charge of one minute is active in two; the second one of its line has to
/// wait for both, for balance and under a cap.
#[test]
fn tails_left_out() {
    let text = "open 1 720 3 17 1\ncommit 1 3 1 0 1 0\npreview 1 3 1 0 1";
    caught(Error::TailNotInTheBalance, text, "start 2", "start 1");
    let text = "open 1 720 3 17 1\ncommit 1 3 1 0 1 0\ncommit 1 3 1 0 1 2\nlines 1 2";
    caught(Error::TailNotInTheCaps, text, "plan 7 4 4 2", "plan 2 4 4 2");
    let text = "open 1 720 1 100 2\ncommit 1 1 10 60 1 0\nmove 10 360";
    let (right, wrong) = ("moved 1 dropped 0 1 0", "moved 1 dropped 1 1 0");
    caught(Error::DroppedAtTheEnd, text, right, wrong);
}

/// N7. Lateness "still uses s + p", and an enquiry shows it as the end.
#[test]
fn tails_where_they_have_no_part() {
    let text = "open 1 720 1 100 3\ncommit 1 1 10 60 1 0\ncommit 1 1 10 15 1 13\nlines 1 1";
    caught(Error::LatenessWithTheTail, text, "plan 0 8 0 1", "plan 0 11 0 1");
    let text = "open 1 720 1 100 2\ncommit 1 1 10 60 1 0\nmove 10 360\nenquire 1";
    caught(Error::EndShownWithTheTail, text, "charging 0 10 1", "charging 0 12 1");
}

/// N7. "Beside a refused opening r is 0", and 19 comes after 3.
#[test]
fn tails_of_openings() {
    let text = "open 1 720 61 50 5\ncommit 1 1 10 60 1 0\npreview 1 1 10 60 1";
    caught(Error::TailOfARefusedOpening, text, "start 10", "start 15");
    caught(Error::TailBeforeTheBound, "open 1 720 10 5 6", "refused 3", "refused 19");
}
