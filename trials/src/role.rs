//! What a program under trial is to be: a console, or a bus over an image (N8). Both are
//! given the same scripts. A bus holds no station before the first opening, and an opening
//! that is refused leaves its image, where a console has the station of 1, 100; so does an
//! opening of several feeders, which a bus cannot save (N14).

use crate::bus::files::Shelf;
use crate::bus::images::Reference;
use crate::bus::{self, Bus};
use crate::compare::{difference, Difference};
use crate::folder::Folder;
use crate::image;
use crate::program::Answering;
use crate::script::{self, Line, Script};
use std::fs;

#[derive(Clone, Copy, Debug, Default, PartialEq, Eq)]
pub enum Role {
    #[default]
    Console,
    Bus,
}

impl Role {
    /// The answers of the second implementation.
    pub fn answers(self, lines: &[Line]) -> Vec<Line> {
        match self {
            Role::Console => script::reference_answers(lines),
            Role::Bus => bus::answers(lines),
        }
    }

    /// The calls and answers that demand 3 speaks of. Those of a bus are without what was
    /// refused for its image, and without the numbers of blocks; None is a list with a refused
    /// opening, be it for its feeders (N14), after which a bus goes on with a station whose
    /// tickets the script does not ask for.
    pub fn list_of_calls(self, lines: &[Line], answers: &[Line]) -> Option<(Vec<Line>, Vec<Line>)> {
        if self == Role::Console {
            return Some((lines.to_vec(), answers.to_vec()));
        }
        let refusals = [image::SIZE, image::CHECK, image::CONTENTS];
        let refused = refusals.map(|number| format!("refused {number}").into_bytes());
        let pairs = script::answered(lines).zip(answers);
        let calls: Vec<_> = pairs.filter(|(line, _)| !line.starts_with(b"write ")).collect();
        let is_refused_opening = |line: &Line, answer: &Line| {
            line.starts_with(b"open ") && answer.starts_with(b"refused")
        };
        let made = calls.iter().filter(|(_, answer)| !refused.contains(answer));
        match calls.iter().any(|(line, answer)| is_refused_opening(line, answer)) {
            true => None,
            false => Some(made.map(|(line, answer)| ((*line).clone(), unblocked(answer))).unzip()),
        }
    }
}

/// The answer that a console would give.
fn unblocked(answer: &Line) -> Line {
    let mark = b" blocks ";
    let end = answer.windows(mark.len()).position(|part| part == mark);
    answer[..end.unwrap_or(answer.len())].to_vec()
}

/// A program with its role.
pub struct Trial<'a> {
    pub program: &'a dyn Answering,
    pub role: Role,
    /// Where a bus writes its image after each script.
    folder: Option<Folder>,
}

/// Scripts for one run, with the answers and the images that they should give.
pub struct Batch {
    pub scripts: Vec<Script>,
    written: Vec<(String, Vec<u8>)>,
}

impl<'a> Trial<'a> {
    pub fn new(program: &'a dyn Answering, role: Role) -> Trial<'a> {
        let folder = match role {
            Role::Console => None,
            Role::Bus => Folder::new("compare").ok(),
        };
        Trial { program, role, folder }
    }

    /// The scripts of a bus each end with its image written to a file.
    pub fn prepared(&self, mut scripts: Vec<Script>) -> Batch {
        let mut written = Vec::new();
        if let Some(folder) = &self.folder {
            let mut bus = Bus::new(Reference, Shelf::default());
            for (place, script) in scripts.iter_mut().enumerate() {
                let path = folder.file(&place.to_string());
                script.lines.push(format!("write {path}").into_bytes());
                bus.files_mut().expect(&path);
                script.answers = bus::answers_of(&mut bus, &script.lines);
                written.push((path, bus.image().to_vec()));
            }
        }
        Batch { scripts, written }
    }

    pub fn differs(&self, lines: &[Line]) -> Option<Difference> {
        let answers = match self.role {
            Role::Console => script::reference_answers(lines),
            Role::Bus => Vec::new(),
        };
        let script = Script { lines: lines.to_vec(), answers, ..Script::default() };
        self.run(&self.prepared(vec![script]), false).err()
    }

    /// The answers, if they and the images are as they should be.
    pub fn run(&self, batch: &Batch, unended: bool) -> Result<Vec<Line>, Difference> {
        // Files of an earlier run may still be there; that nothing is written shows.
        batch.written.iter().for_each(|(path, _)| drop(fs::remove_file(path)));
        let lines: Vec<Line> =
            batch.scripts.iter().flat_map(|script| script.lines.clone()).collect();
        let expected: Vec<Line> =
            batch.scripts.iter().flat_map(|script| script.answers.clone()).collect();
        let mut input = script::join(&lines);
        if unended {
            input.pop();
        }
        let outcome = self.program.answers(&input);
        match difference(&expected, &outcome).or_else(|| batch.wrong_image()) {
            Some(difference) => Err(difference),
            None => Ok(outcome.answers),
        }
    }
}

impl Batch {
    /// The first image that is not what it should be, at the answer to its line.
    fn wrong_image(&self) -> Option<Difference> {
        let mut place = 0;
        for (script, (path, image)) in self.scripts.iter().zip(&self.written) {
            place += script.answers.len();
            if let Some(what) = wrong_image(image, &fs::read(path).unwrap_or_default()) {
                return Some(Difference { place: place - 1, what });
            }
        }
        None
    }
}

/// What is wrong with an image that was written.
pub fn wrong_image(expected: &[u8], found: &[u8]) -> Option<String> {
    let length = expected.len().max(found.len());
    let place = (0..length).find(|place| found.get(*place) != expected.get(*place))?;
    let byte = |image: &[u8]| image.get(place).map_or("missing".to_string(), u8::to_string);
    let (should, is) = (byte(expected), byte(found));
    Some(format!("byte {place} of the image written should be {should}, but is {is}"))
}
