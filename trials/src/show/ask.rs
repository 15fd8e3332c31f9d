//! Questions between the calls of a script. A replan answers with its lateness and not with its
//! starts; a board shows them and changes nothing. So before a picture is made of a script, a
//! board of all tickets that there may be is put after each plan and at the end of each station.

use crate::protocol::{read_call, write_call, Call};
use crate::script::Line;

/// The comment before a question, by which a picture knows that it is none of the script's calls.
const MARK: &str = "# asked for the picture";
/// "The board asks for up to 180 tickets at a time" (N10).
const MOST: u32 = 180;

/// The script with the questions.
pub fn asked(lines: &[Line]) -> Vec<Line> {
    let mut all = Vec::new();
    let mut commits = 0;
    for line in lines {
        let call = read_call(line);
        if let Ok(Some(Call::Open { .. })) = call {
            ask(&mut all, commits);
            commits = 0;
        }
        all.push(line.clone());
        match call {
            Ok(Some(Call::Commit { .. })) => commits += 1,
            Ok(Some(Call::Offer { .. } | Call::Latest { .. } | Call::Lines { .. })) => {
                ask(&mut all, commits);
            }
            _ => (),
        }
    }
    ask(&mut all, commits);
    all
}

/// Whether the line at a place is a question for the picture: a board with the mark before it.
pub fn is_question(lines: &[Line], place: usize) -> bool {
    let marked = place > 0 && lines[place - 1] == MARK.as_bytes();
    marked && lines[place].starts_with(b"board ")
}

/// No more tickets were given than commits were made; a ticket that was not given is not held.
fn ask(lines: &mut Vec<Line>, commits: u32) {
    let tickets: Vec<u32> = (1..=commits).collect();
    for part in tickets.chunks(MOST as usize) {
        let board = Call::Board { places: MOST, tickets: part.to_vec() };
        lines.push(MARK.into());
        lines.push(write_call(&board).into_bytes());
    }
}
