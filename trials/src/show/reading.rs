//! From a script and its answers to a history: an evening for each station, with its charges
//! and a line for each call. Nothing here knows what a program should have answered.

use super::ask::is_question;
use super::entry::{Entry, Sort};
use super::evening::Evening;
use super::verdict;
use crate::protocol::Call;
use crate::script::{self, Line};
use crate::told::{self, Pair, Site, Told};

/// Everything that a script tells.
#[derive(Debug)]
pub struct Story {
    pub evenings: Vec<Evening>,
    /// What belongs to no call, as an answer too many.
    pub troubles: Vec<String>,
}

impl Story {
    /// Everything that no right program does, with the line of the script that it came out at.
    pub fn broken(&self) -> Vec<String> {
        let entries = self.evenings.iter().flat_map(|evening| &evening.entries);
        let lines = entries.flat_map(|entry| {
            entry.broken.iter().map(|what| format!("line {}: {what}", entry.line))
        });
        lines.chain(self.troubles.iter().cloned()).collect()
    }

    /// Said where nothing is broken, and no more than the answers tell.
    pub fn kept(&self) -> &'static str {
        let charges = || self.evenings.iter().flat_map(|evening| &evening.charges);
        let untold =
            |evening: &Evening| evening.charges.iter().any(|charge| charge.unknown(evening.last()));
        match () {
            () if charges().next().is_none() => "No order was taken, so nothing draws.",
            () if self.evenings.iter().any(untold) => {
                "Nothing is broken as far as starts were told: no line, no spread and no site was \
                 above its limit."
            }
            () => {
                "Nothing is broken: every line, every spread and the site kept their limits in \
                 every minute."
            }
        }
    }
}

/// The script's lines one after another, with where each is.
struct Reader<'a> {
    lines: &'a [Line],
    /// How many lines were read, with questions and their marks.
    read: usize,
    /// How many of the script's own.
    own: usize,
    evenings: Vec<Evening>,
    /// For each answer its evening and its place there.
    places: Vec<(usize, usize)>,
}

/// Reads a script and the answers to it.
pub fn read(lines: &[Line], answers: &[Line]) -> Story {
    let evenings = vec![Evening::of(Site::beside_a_refusal())];
    let mut reader = Reader { lines, read: 0, own: 0, evenings, places: Vec::new() };
    told::pairs(lines, answers).for_each(|pair| reader.take(pair));
    let Reader { mut evenings, places, .. } = reader;
    evenings.iter_mut().for_each(verdict::check_lanes);
    evenings.iter_mut().for_each(verdict::check_lateness);
    verdict::check_demand(&mut evenings, &places, lines, answers);
    evenings.iter_mut().for_each(Evening::gather);
    evenings.retain(|evening| !evening.entries.is_empty());
    Story { evenings, troubles: left_over(answers, places.len()) }
}

impl Reader<'_> {
    fn take(&mut self, pair: Pair) {
        let (notes, asked) = self.lines_before(pair.place);
        let text = script::show(&self.lines[pair.place]);
        let broken = match (&pair.answer, &pair.told) {
            (_, Some(_)) => Vec::new(),
            (None, _) => vec![format!("'{text}' has no answer")],
            (Some(answer), _) => {
                vec![format!("'{text}' is answered '{answer}', which does not fit")]
            }
        };
        if let Ok(Call::Open { opening }) = &pair.call {
            self.evenings.push(Evening::of(match pair.told {
                Some(Told::Opened { .. }) => Site::from_opening(opening),
                _ => Site::beside_a_refusal(),
            }));
        }
        let place = self.evenings.len() - 1;
        let evening = &mut self.evenings[place];
        self.places.push((place, evening.entries.len()));
        evening.entries.push(Entry {
            line: self.own,
            notes,
            text,
            answer: pair.answer.unwrap_or_default(),
            sort: Sort::of(pair.told.as_ref()),
            call: pair.call,
            told: pair.told,
            clock: evening.clock,
            broken,
            asked,
        });
        evening.step();
    }

    /// The comments before the line at a place, and whether it is a question for the picture: the
    /// mark stands right before it then, and neither counts as a line.
    fn lines_before(&mut self, place: usize) -> (Vec<String>, bool) {
        let before = &self.lines[self.read..place];
        let asked = is_question(self.lines, place);
        let note = |line: &Line| {
            let text = script::show(line);
            text.trim_start_matches('#').trim().to_string()
        };
        let own = &before[..before.len() - usize::from(asked)];
        let notes = own.iter().map(note).filter(|note| !note.is_empty()).collect();
        self.read = place + 1;
        self.own += own.len() + usize::from(!asked);
        (notes, asked)
    }
}

/// Answers that no line is there for.
fn left_over(answers: &[Line], calls: usize) -> Vec<String> {
    let rest = answers.iter().enumerate().skip(calls);
    rest.map(|(place, answer)| {
        format!("answer line {}: '{}' has no call", place + 1, script::show(answer))
    })
    .collect()
}
