//! What calls and answers tell, with no station behind them. The checker of demand 3 and the
//! pictures of an evening both read through here, so that they see the same.

mod answer;
mod counts;
mod site;

pub use answer::Told;
pub use counts::{counts, spread, Counts, Load};
pub use site::{Feeder, Site};

use crate::protocol::{read_call, Call, Fault};
use crate::script::{self, Line};

/// A line of a script that has an answer, with it.
pub struct Pair {
    /// Its place among the lines of the script, from 0.
    pub place: usize,
    /// The reason where it is no call.
    pub call: Result<Call, Fault>,
    /// None where the answers have ended.
    pub answer: Option<String>,
    /// None where the answer is none to this call.
    pub told: Option<Told>,
}

/// The lines that have answers, one after another, each with its own.
pub fn pairs<'a>(lines: &'a [Line], answers: &'a [Line]) -> impl Iterator<Item = Pair> + 'a {
    let calls = lines.iter().enumerate().filter_map(|(place, line)| match read_call(line) {
        Ok(None) => None,
        Ok(Some(call)) => Some((place, Ok(call))),
        Err(fault) => Some((place, Err(fault))),
    });
    calls.enumerate().map(|(number, (place, call))| {
        let answer = answers.get(number).map(|answer| script::show(answer));
        let told = answer.as_ref().and_then(|answer| Told::of(&call, answer));
        Pair { place, call, answer, told }
    })
}
