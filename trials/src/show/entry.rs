//! One line of a script with its answer, and how it is to be marked.

use super::words;
use crate::protocol::{Call, Fault};
use crate::told::Told;

/// What became of a line.
#[derive(Clone, Copy, Debug, PartialEq, Eq)]
pub enum Sort {
    Opened,
    Previewed,
    Ordered,
    Moved,
    /// A plan that was taken.
    Taken,
    /// A plan that was kept out.
    Kept,
    /// An enquiry or a board.
    Looked,
    Withdrawn,
    Refused,
    /// No call at all.
    Unreadable,
    /// Its answer is none to this call, or there is none.
    Unfitting,
}

impl Sort {
    pub fn of(told: Option<&Told>) -> Sort {
        match told {
            None => Sort::Unfitting,
            Some(Told::Error) => Sort::Unreadable,
            Some(Told::Refused(_)) => Sort::Refused,
            Some(Told::Opened { .. }) => Sort::Opened,
            Some(Told::Previewed { .. }) => Sort::Previewed,
            Some(Told::Accepted { .. }) => Sort::Ordered,
            Some(Told::Moved { .. }) => Sort::Moved,
            Some(Told::Planned { cause: 0, .. }) => Sort::Taken,
            Some(Told::Planned { .. }) => Sort::Kept,
            Some(Told::Waiting { .. } | Told::Charging { .. } | Told::Board { .. }) => Sort::Looked,
            Some(Told::Withdrawn) => Sort::Withdrawn,
        }
    }

    pub fn name(self) -> &'static str {
        match self {
            Sort::Opened => "opened",
            Sort::Previewed => "previewed",
            Sort::Ordered => "ordered",
            Sort::Moved => "moved",
            Sort::Taken => "taken",
            Sort::Kept => "kept",
            Sort::Looked => "looked",
            Sort::Withdrawn => "withdrawn",
            Sort::Refused => "refused",
            Sort::Unreadable => "unreadable",
            Sort::Unfitting => "unfitting",
        }
    }

    pub fn is_plan(self) -> bool {
        matches!(self, Sort::Taken | Sort::Kept)
    }
}

#[derive(Clone, Debug, PartialEq, Eq)]
pub struct Entry {
    /// The script's, from 1; questions asked for the picture do not count.
    pub line: usize,
    /// The comments before it, a line each.
    pub notes: Vec<String>,
    pub text: String,
    pub call: Result<Call, Fault>,
    pub answer: String,
    pub told: Option<Told>,
    pub sort: Sort,
    /// The clock after it.
    pub clock: u64,
    /// What no right program does.
    pub broken: Vec<String>,
    /// A question that is none of the script's calls.
    pub asked: bool,
}

impl Entry {
    /// The answer in words, where its numbers do not speak for themselves.
    pub fn meaning(&self) -> String {
        match &self.told {
            None => "no answer to this call".to_string(),
            Some(Told::Error) => format!("not a call{}", self.carriage_return()),
            Some(Told::Refused(number)) => format!("refused: {}", words::refusal(*number)),
            Some(Told::Planned { cause: 0, before, after }) => {
                format!("taken: {} late before, {after} after", words::minutes(*before))
            }
            Some(Told::Planned { cause, before, .. }) => {
                format!("{}, {} late", words::cause(*cause), words::minutes(*before))
            }
            _ => String::new(),
        }
    }

    /// A script from elsewhere may have such lines throughout, and nothing shows why none is read.
    pub fn carriage_return(&self) -> &'static str {
        match self.text.ends_with('\r') {
            true => ", the line ends with a carriage return",
            false => "",
        }
    }

    /// The feeder that a plan is made for.
    pub fn planned_feeder(&self) -> Option<u32> {
        match self.call {
            Ok(
                Call::Offer { feeder, .. } | Call::Latest { feeder } | Call::Lines { feeder, .. },
            ) => Some(feeder),
            _ => None,
        }
    }
}
