//! "A program reads a saved image on standard input and prints pages of a heading and 24
//! rows, each line, heading included, exactly 37 characters and a line feed."

use crate::image::restore;
use crate::reference::{Charge, Station};

/// Rows of a page, without its heading.
pub const ROWS: usize = 24;
/// Characters of a line, without its line feed.
pub const WIDTH: usize = 37;

/// "Heading words, aligned as their columns"
const HEADING: [&str; 5] = ["ticket", "l", "start", "end", "state"];

/// "A refused image prints only the row "no station", padded on the right, without a
/// heading."
pub fn of_image(image: &[u8]) -> String {
    match restore(image) {
        Ok(station) => of_station(&station),
        Err(_) => padded("no station"),
    }
}

/// "Rows go by ticket, and unused rows are spaces. No charges means one page."
pub fn of_station(station: &Station) -> String {
    let mut rows: Vec<String> =
        station.charges.iter().map(|charge| row(charge, station.clock)).collect();
    let pages = rows.len().div_ceil(ROWS).max(1);
    rows.resize(pages * ROWS, padded(""));
    rows.chunks(ROWS).map(|page| line(HEADING) + &page.concat()).collect()
}

/// "The end is s + p." "States: waiting, charging."
fn row(charge: &Charge, clock: u64) -> String {
    let state = if charge.begun(clock) { "charging" } else { "waiting" };
    let [ticket, line_of, start, end] =
        [charge.ticket.into(), charge.line.into(), charge.start, charge.end()]
            .map(|number: u64| number.to_string());
    line([&ticket, &line_of, &start, &end, state])
}

/// "Columns: ticket (6, right), line (1), start (9, right), end (9, right), state (8, left),
/// one space between."
fn line(cells: [&str; 5]) -> String {
    let [ticket, line, start, end, state] = cells;
    padded(&format!("{ticket:>6} {line} {start:>9} {end:>9} {state:<8}"))
}

fn padded(text: &str) -> String {
    format!("{text:<WIDTH$}\n")
}
