//! Table: how many blocks of the image a call rewrites (N9), over the days of the source's
//! benchmark, with the records in columns and with the records one after the other as they
//! lay before.

use super::day::{self, REPLANS};
use super::sample::digits;
use super::table::Table;
use crate::bus::images::Images;
use crate::fast::{Fast, Station};
use crate::image::blocks::{self, differing};
use crate::image::{arrangement, BYTES};
use crate::interpret::Interpreter;
use crate::script::{show, Line};

/// "Blocks 1 to 8 hold 25 records each, in ticket order" (N8).
const BYTES_OF_25: usize = 500;

/// The image as it was before N9, from the present one.
fn earlier(image: &[u8]) -> Vec<u8> {
    let contents = blocks::contents(image);
    let row = arrangement::taken_up(&contents[1..]);
    let mut before = vec![contents[0].clone()];
    before.extend(row.chunks(BYTES_OF_25).map(<[u8]>::to_vec));
    blocks::sealed(&blocks::filled_up(before))
}

/// Blocks rewritten by calls of one kind.
#[derive(Clone, Copy, Default)]
struct Rewritten {
    calls: u64,
    in_a_row: u64,
    in_columns: u64,
}

impl Rewritten {
    fn add(&mut self, other: Rewritten) {
        self.calls += other.calls;
        self.in_a_row += other.in_a_row;
        self.in_columns += other.in_columns;
    }
}

const KINDS: [&str; 6] = [
    "open",
    "commit",
    "move, nothing dropped",
    "move, charges dropped",
    "replan, taken",
    "replan, kept",
];

fn kind_of(answer: &str) -> Option<usize> {
    match answer.split(' ').next()? {
        "open" => Some(0),
        "ticket" => Some(1),
        "moved" if answer.contains(" dropped 0") => Some(2),
        "moved" => Some(3),
        "plan" if answer.starts_with("plan 0 ") => Some(4),
        "plan" => Some(5),
        _ => None,
    }
}

/// Each call of a script by its kind.
fn of_script(lines: &[Line], sums: &mut [Rewritten; 6]) -> Result<(), String> {
    let mut interpreter = Interpreter::new(Station::fresh(1, 100, 0));
    let mut image = vec![0; BYTES];
    let mut row = earlier(&image);
    for line in lines {
        let mut answer = Vec::new();
        interpreter.answer(line, &mut answer);
        let lent = image.clone();
        let in_columns = Fast
            .save(interpreter.yard(), &lent, &mut image)
            .map_err(|refusal| format!("refused {refusal}"))?;
        let after = earlier(&image);
        let in_a_row = differing(&row, &after);
        row = after;
        let kind = kind_of(&show(&answer)).ok_or(format!("{}: {}", show(line), show(&answer)))?;
        let (in_a_row, in_columns) = (in_a_row.into(), in_columns.into());
        sums[kind].add(Rewritten { calls: 1, in_a_row, in_columns });
    }
    Ok(())
}

/// The first day of each class, with each replan.
pub fn print() -> Result<(), String> {
    let mut sums = [Rewritten::default(); 6];
    for class in day::classes() {
        for replan in REPLANS {
            of_script(&day::script(class, 0, replan), &mut sums)?;
        }
    }
    let titles = ["call", "calls", "one after the other", "in columns"];
    let mut table = Table::new(&titles);
    let mut all = Rewritten::default();
    sums.iter().for_each(|sum| all.add(*sum));
    for (title, sum) in KINDS.into_iter().zip(sums).chain([("all calls", all)]) {
        let each = |blocks: u64| digits(blocks as f64 / sum.calls.max(1) as f64);
        let cells = [sum.calls.to_string(), each(sum.in_a_row), each(sum.in_columns)];
        table.row([vec![title.to_string()], cells.to_vec()].concat());
    }
    println!("Blocks rewritten by a call, of nine, over {} days:\n", 3 * day::classes().len());
    table.print();
    Ok(())
}

#[cfg(test)]
mod tests {
    use super::*;
    use crate::image::records::push_record;
    use crate::reference;

    /// The earlier image of a station whose first record is known.
    #[test]
    fn the_earlier_image_has_its_records_one_after_the_other() {
        let mut interpreter = Interpreter::new(reference::Station::fresh(1, 100, 0));
        for line in ["open 1 720 2 50 0", "commit 1 1 10 60 1 0", "commit 1 2 9 50 1 0"] {
            interpreter.answer(line.as_bytes(), &mut Vec::new());
        }
        let station = interpreter.yard();
        let image = earlier(&crate::image::image_of(station));
        let mut records = Vec::new();
        station.charges.iter().for_each(|charge| push_record(&mut records, charge));
        assert_eq!(image[512..552], records);
        assert!(image[552..1_020].iter().all(|byte| *byte == 0));
        assert!(blocks::checks_are_right(&image));
    }

    #[test]
    fn calls_by_their_kind() {
        let mut sums = [Rewritten::default(); 6];
        of_script(&day::script(day::classes()[0], 0, REPLANS[1]), &mut sums).unwrap();
        assert_eq!(sums[0].calls, 1);
        assert_eq!(sums[1].calls, 180);
        assert_eq!((sums[5].in_a_row, sums[5].in_columns), (0, 0));
    }
}
