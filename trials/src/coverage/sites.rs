//! What a call has to do with the site (N14), which its answer alone does not tell: how many
//! feeders there are, whether W is what an order waits for or a plan gives way to, and whether
//! other feeders have taken the room.

use crate::interpret::Interpreter;
use crate::protocol::{read_call, Call};
use crate::reference::{Charge, Station, WIDEST_SITE};
use crate::script::{self, Script};
use crate::yard::{Order, Yard};

/// What there is to see in a script, once for each call that it is seen at.
pub fn seen(script: &Script) -> Vec<String> {
    let mut yard = Interpreter::new(Station::fresh(1, 100, 0));
    let mut all = Vec::new();
    for line in &script.lines {
        let before = yard.yard().clone();
        let mut answer = Vec::new();
        yard.answer(line, &mut answer);
        if let Ok(Some(call)) = read_call(line) {
            all.extend(at_call(&before, yard.yard(), call, &script::show(&answer)));
        }
    }
    all
}

/// What one call shows, between the stations before and after it.
pub fn at_call(before: &Station, after: &Station, call: Call, answer: &str) -> Vec<String> {
    if answer.starts_with("refused") {
        return Vec::new();
    }
    let taken = answer.starts_with("plan 0");
    match call {
        Call::Open { .. } => vec![format!("site: feeders: {}", after.feeders.len())],
        Call::Commit { order, .. } => at_order(before, order),
        Call::Latest { feeder } => {
            let moved = wide(before).latest_list(feeder) != before.latest_list(feeder);
            at_plan(before, feeder, moved, taken)
        }
        Call::Lines { feeder, allowance } => {
            let list = before.lines_list(feeder, allowance);
            at_plan(before, feeder, wide(before).lines_list(feeder, allowance) != list, taken)
        }
        Call::Offer { feeder, starts } => {
            let starts: Vec<u64> = starts.into_iter().map(u64::from).collect();
            let only = before.cause(feeder, &starts) != wide(before).cause(feeder, &starts);
            at_plan(before, feeder, only, taken)
        }
        _ => Vec::new(),
    }
}

fn wide(station: &Station) -> Station {
    Station { site_limit: WIDEST_SITE, ..station.clone() }
}

fn named(sorts: &[(bool, &str)]) -> Vec<String> {
    sorts.iter().filter(|(holds, _)| *holds).map(|(_, sort)| format!("site: {sort}")).collect()
}

fn at_order(before: &Station, order: Order) -> Vec<String> {
    let start = before.clone().preview(order);
    let waits = wide(before).preview(order) != start;
    let own = Station { charges: before.held(order.feeder), ..before.clone() };
    let others = own.clone().preview(order) != start;
    named(&[
        (waits, "an order waits for W"),
        (!waits && before.site_limit < WIDEST_SITE, "an order that W leaves alone"),
        (others, "an order waits for other feeders"),
        (waits && !others, "an order waits for the lines of its own feeder under W"),
    ])
}

/// `gives_way`: without W the list, or the cause, would be another one.
fn at_plan(before: &Station, feeder: u32, gives_way: bool, taken: bool) -> Vec<String> {
    let waiting = !before.waiting(feeder).is_empty();
    let mut others: Vec<Charge> = before.charges.clone();
    others.retain(|charge| charge.feeder != feeder);
    let full = before.rules(feeder).site_full(&others, before.clock);
    named(&[
        (gives_way, "a plan gives way to W"),
        (gives_way && taken, "a plan gives way to W and is taken"),
        (waiting && full, "a plan beside others that fill W"),
        (waiting && full && taken, "a plan beside others that fill W is taken"),
    ])
}
