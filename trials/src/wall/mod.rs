//! `trials wall PROGRAM`: the page for the office wall (N12), printed here from the request's
//! sentences and compared with what a program prints of the same images.
//!
//! - `page`: the independent printer
//! - `stations`: stations whose images are printed
//! - `inputs`: what the program is given

pub mod inputs;
pub mod page;
pub mod stations;

use crate::compare::{difference, Failure, Summary};
use crate::program::{Answering, Program};
use crate::script;
use inputs::Input;

/// The named inputs, and so many that are drawn by lot; every second one of these is an image
/// that a bus is tried with, damaged or from elsewhere.
pub fn inputs(seed: u64, images: u64) -> impl Iterator<Item = Input> {
    let own = (0..images.div_ceil(2)).map(move |number| inputs::drawn(seed, number));
    // They are made only once it comes to them.
    let others = std::iter::once(seed).flat_map(inputs::of_a_bus).take((images / 2) as usize);
    inputs::named().into_iter().chain(own).chain(others)
}

/// Every input's pages, line by line; the lines are counted as answers.
pub fn compare(program: &dyn Answering, seed: u64, images: u64) -> Result<Summary, Failure> {
    let mut summary = Summary::default();
    for Input { title, bytes, way } in inputs(seed, images) {
        let expected = script::split(page::of_image(&bytes).as_bytes());
        let outcome = program.answers_to(&bytes, &way);
        if let Some(difference) = difference(&expected, &outcome) {
            let title =
                format!("the wall; 'trials wall-input \"{title}\" --seed {seed}' prints the input");
            return Err(Failure { title, lines: Vec::new(), what: difference.what });
        }
        summary.scripts += 1;
        summary.answers += expected.len();
    }
    Ok(summary)
}

/// With nobody to read its pages, no output at all or a full one the program ends all the
/// same.
pub fn without_output(program: &Program) -> Result<(), Failure> {
    let (closed, full) = (program.with_output(">&-"), program.with_output(">/dev/full"));
    for Input { title, bytes, .. } in inputs::named() {
        for (output, program) in [("unheard", program), ("closed", &closed), ("full", &full)] {
            program.ends_unheard(&bytes).map_err(|what| {
                let title = format!("the wall, its output {output}: {title}");
                Failure { title, lines: Vec::new(), what }
            })?;
        }
    }
    Ok(())
}
