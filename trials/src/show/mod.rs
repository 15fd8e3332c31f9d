//! An evening to look at. From calls and answers alone, as the checker of demand 3 reads
//! them, so that it shows what a program did and not what it meant: `reading` makes a history
//! of charges out of them, `lanes` counts, `terminal` and `page` draw.

pub mod ask;
mod bar;
mod cells;
pub mod charge;
mod drawing;
mod entry;
mod evening;
mod film;
pub mod lanes;
mod layout;
mod listing;
mod markup;
mod numbers;
pub mod page;
pub mod put;
pub mod reading;
mod step;
pub mod terminal;
mod verdict;
pub mod wall;
mod words;

pub use drawing::standalone;
pub use entry::{Entry, Sort};
pub use evening::Evening;
pub use listing::answers;
pub use reading::{read, Story};
