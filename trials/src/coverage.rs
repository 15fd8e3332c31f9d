//! How often each sort of answer occurs in the scripts of a seed: a trial says
//! nothing about an answer that no script brings about. Of sites (N14) it is told too what the
//! answers do not show.

pub mod sites;

use crate::compare::Choice;
use crate::protocol::{read_call, Call};
use crate::script::{self, Script};
use std::collections::BTreeMap;

/// Kinds whose sites have limits that bind. The others have one feeder and the widest limit, or
/// are long.
const SITES: [&str; 2] = ["feeders", "narrow"];

pub fn coverage(choice: &Choice) -> BTreeMap<String, usize> {
    let mut totals = BTreeMap::new();
    for script in (0..choice.scripts).filter_map(|number| choice.script(number)) {
        *totals.entry(format!("kind {}", script.kind)).or_default() += 1;
        add(&script, &mut totals);
        if SITES.contains(&script.kind) {
            for sort in sites::seen(&script) {
                *totals.entry(sort).or_default() += 1;
            }
        }
    }
    totals
}

fn add(script: &Script, totals: &mut BTreeMap<String, usize>) {
    for (line, answer) in script::answered(&script.lines).zip(&script.answers) {
        *totals.entry(sort_of(line, &script::show(answer))).or_default() += 1;
    }
}

/// The call's word with the refusal, the cause, or the sort of the answer.
fn sort_of(line: &[u8], answer: &str) -> String {
    let call = match read_call(line) {
        Ok(Some(call)) => call,
        _ => return answer.to_string(),
    };
    let name = match call {
        Call::Open { .. } => "open",
        Call::Preview { .. } => "preview",
        Call::Commit { .. } => "commit",
        Call::Move { .. } => "move",
        Call::Offer { .. } => "offer",
        Call::Latest { .. } => "latest",
        Call::Lines { .. } => "lines",
        Call::Enquire { .. } => "enquire",
        Call::Board { .. } => "board",
        Call::Withdraw { .. } => "withdraw",
    };
    let words: Vec<&str> = answer.split(' ').collect();
    match words[0] {
        "refused" => format!("{name}: refused {:>2}", words[1]),
        "plan" => format!("{name}: cause {}", words[1]),
        other => format!("{name}: {other}"),
    }
}
