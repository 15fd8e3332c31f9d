//! What can be judged once all is read: limits and bounds, the lateness that plans tell, and
//! demand 3 as its checker finds it.

use super::charge::Charge;
use super::entry::Sort;
use super::evening::Evening;
use super::lanes::{self, Lane};
use super::words::minutes;
use crate::demand;
use crate::script::Line;
use crate::told::Told;
use std::collections::HashSet;
use std::rc::Rc;

/// Goes through all counts once. Minutes in which something is broken are told once, for the first
/// moment in which they are.
pub fn check_lanes(evening: &mut Evening) {
    let mut found: Vec<(usize, String)> = Vec::new();
    let mut told: HashSet<String> = HashSet::new();
    let mut highest: Vec<u64> = Vec::new();
    let mut before: Option<Rc<[Lane]>> = None;
    for (moment, lanes) in lanes::walk(evening).enumerate() {
        if before.is_some_and(|before| Rc::ptr_eq(&before, &lanes)) {
            before = Some(lanes);
            continue;
        }
        highest.resize(lanes.len(), 0);
        for (most, lane) in highest.iter_mut().zip(lanes.iter()) {
            *most = lane.highest().max(*most);
        }
        let broken = lanes.iter().filter_map(Lane::broken);
        found.extend(broken.filter(|what| told.insert(what.clone())).map(|what| (moment, what)));
        before = Some(lanes);
    }
    evening.highest = highest;
    for (moment, what) in found {
        evening.entries[moment].broken.push(what);
    }
}

/// "lateness before and after": the sum over the charges that the feeder holds, where all of
/// their starts were told.
pub fn check_lateness(evening: &mut Evening) {
    for moment in 1..evening.entries.len() {
        if let Some(what) = wrong_lateness(evening, moment) {
            evening.entries[moment].broken.push(what);
        }
    }
}

fn wrong_lateness(evening: &Evening, moment: usize) -> Option<String> {
    let entry = &evening.entries[moment];
    let Some(Told::Planned { before, after, .. }) = entry.told else { return None };
    let feeder = entry.planned_feeder()?;
    let held = |moment| lateness(evening, feeder, moment, entry.clock);
    let sides = [("before", before, held(moment - 1)), ("after", after, held(moment))];
    let (side, told, held) = sides
        .into_iter()
        .filter_map(|(side, told, held)| Some((side, told, held?)))
        .find(|(_, told, held)| told != held)?;
    Some(format!("{} late told {side}, {held} held", minutes(told)))
}

/// None where a start is not known.
fn lateness(evening: &Evening, feeder: u32, moment: usize, clock: u64) -> Option<u64> {
    let held = |charge: &&Charge| {
        let finished = charge.begun_by(moment)
            && charge.reported.is_some_and(|reported| charge.clear(reported.minute) <= clock);
        charge.feeder == feeder
            && charge.ordered_by(moment)
            && !charge.withdrawn_by(moment)
            && !finished
    };
    let late = |charge: &Charge| Some(charge.lateness(charge.start_after(moment)?));
    evening.charges.iter().filter(held).map(late).sum()
}

/// The checker's verdict stands with the call at which it came out, unless something there is
/// told already or the checker only misses an enquiry.
pub fn check_demand(
    evenings: &mut [Evening],
    places: &[(usize, usize)],
    lines: &[Line],
    answers: &[Line],
) {
    let Err(broken) = demand::check(lines, answers) else { return };
    let Some((evening, moment)) = places.get(broken.answer.saturating_sub(1)) else { return };
    let entry = &mut evenings[*evening].entries[*moment];
    if !broken.is_unknown() && entry.sort != Sort::Unfitting {
        entry.broken.push(format!("demand 3: {}", broken.what));
    }
}
