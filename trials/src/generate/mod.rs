//! Scripts made from a seed, in kinds that each look for trouble of their own.
//! Every script but the `unopened` ones begins with an opening, so many of them can
//! follow each other in one run of a program.

mod author;
mod boards;
pub mod cars;
mod commits;
mod due;
mod edges;
mod evening;
mod far;
mod feeders;
mod full;
mod hurry;
mod leaning;
mod lists;
mod malformed;
mod mixed;
mod offers;
mod openings;
mod plans;
mod priority;
mod rates;
mod rounds;
mod row;
mod searches;
mod spent;
mod tails;
mod tickets;
mod unopened;
mod weights;
mod withdraw;

use crate::random::Random;
use crate::reference::Station;
use crate::script::{Line, Script};
use author::Author;

/// A kind of script: its name, its share among the shares of all kinds, and who
/// writes it.
pub struct Kind {
    pub name: &'static str,
    share: u64,
    write: fn(&mut Author),
}

pub const KINDS: [Kind; 26] = [
    Kind { name: "edges", share: 15, write: edges::write },
    Kind { name: "mixed", share: 24, write: mixed::write },
    Kind { name: "offers", share: 15, write: offers::write },
    Kind { name: "leaning", share: 20, write: leaning::write },
    Kind { name: "malformed", share: 12, write: malformed::write },
    Kind { name: "rounds", share: 5, write: rounds::write },
    Kind { name: "evening", share: 4, write: evening::write },
    Kind { name: "full", share: 3, write: full::write },
    Kind { name: "far", share: 2, write: far::write },
    Kind { name: "lists", share: 3, write: lists::write },
    Kind { name: "hurry", share: 10, write: hurry::write },
    Kind { name: "commits", share: 15, write: commits::write },
    Kind { name: "rates", share: 15, write: rates::write },
    Kind { name: "priority", share: 12, write: priority::write },
    Kind { name: "weights", share: 5, write: weights::write },
    Kind { name: "searches", share: 8, write: searches::write },
    Kind { name: "tails", share: 15, write: tails::write },
    Kind { name: "boards", share: 8, write: boards::write },
    Kind { name: "withdraw", share: 15, write: withdraw::write },
    Kind { name: "feeders", share: 40, write: feeders::write },
    // A part of `feeders`, for images.
    Kind { name: "narrow", share: 0, write: feeders::one_feeder },
    // These are long and come once in a thousand, at turns of their own.
    Kind { name: "tickets", share: 0, write: tickets::write },
    Kind { name: "row", share: 0, write: row::write },
    Kind { name: "spent", share: 0, write: spent::write },
    Kind { name: "openings", share: 0, write: openings::write },
    // Only where a run of a program begins.
    Kind { name: UNOPENED, share: 0, write: unopened::write },
];

/// The kind whose scripts have no opening.
pub const UNOPENED: &str = "unopened";

const THOUSAND: u64 = 1_000;
const TICKETS_TURN: u64 = 99;
const SPENT_TURN: u64 = 199;
const OPENINGS_TURN: u64 = 299;
const ROW_TURN: u64 = 399;

/// The script with this number among those of a seed.
pub fn script(seed: u64, number: u64) -> Script {
    let mut random = Random::of_script(seed, number);
    let kind = choose(&mut random, number);
    write(kind, number, random)
}

/// A script of one kind.
pub fn script_of_kind(name: &str, seed: u64, number: u64) -> Option<Script> {
    Some(write(named(name)?, number, Random::of_script(seed, number)))
}

/// So many calls of all sorts from a station on, without an opening.
pub fn continuing(station: Station, random: &mut Random, calls: u64) -> Vec<Line> {
    let mut author = Author::from_station(station, Random::new(random.draw()));
    let longest = random.pick(&[3, 12, 60, 400]);
    for _ in 0..calls {
        mixed::one_call(&mut author, longest);
    }
    author.lines_so_far()
}

fn named(name: &str) -> Option<&'static Kind> {
    KINDS.iter().find(|kind| kind.name == name)
}

fn choose(random: &mut Random, number: u64) -> &'static Kind {
    match number % THOUSAND {
        TICKETS_TURN => return named("tickets").expect("a kind of the table"),
        SPENT_TURN => return named("spent").expect("a kind of the table"),
        OPENINGS_TURN => return named("openings").expect("a kind of the table"),
        ROW_TURN => return named("row").expect("a kind of the table"),
        _ => (),
    }
    let mut draw = random.below(KINDS.iter().map(|kind| kind.share).sum());
    for kind in &KINDS {
        if draw < kind.share {
            return kind;
        }
        draw -= kind.share;
    }
    unreachable!("the draw is below the sum of all shares")
}

fn write(kind: &Kind, number: u64, random: Random) -> Script {
    let mut author = Author::new(kind.name, number, random);
    (kind.write)(&mut author);
    author.finish()
}
