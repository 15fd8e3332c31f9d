//! The pages for the office wall (N12) as a page for a browser: the same rows to the letter,
//! in letters that can be read from three metres, read anew by itself.

use super::markup::escaped;
use crate::wall::page::ROWS;

const PAGE: &str = include_str!("wall.html");

/// Lines of a page with its heading.
const LINES: usize = ROWS + 1;

/// The browser's page of what `./wall` prints.
pub fn wall_page(pages: &str) -> String {
    let lines: Vec<&str> = pages.lines().collect();
    let parts: Vec<String> = lines
        .chunks(LINES)
        .map(|part| {
            let rows: Vec<String> = part.iter().map(|row| escaped(row)).collect();
            format!("<pre>{}</pre>\n", rows.join("\n"))
        })
        .collect();
    PAGE.replace("{{pages}}", &parts.concat())
}
