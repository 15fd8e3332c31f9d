//! The second implementation of all rules of document 01, written minute by
//! minute and straight from its sentences. It is meant to be read beside the
//! document, so it is plain where it could be fast.
//!
//! - `station`: the words: charge, station, begun, finished, lateness
//! - `minutes`: counts in every minute, and when a plan is sound
//! - `search`: the smallest start
//! - `judge`: the test that offers and both replans end with
//! - `latest`, `lines`: the two replans
//! - `priority`: which charge of a line is taken at a start (N5)
//! - `calls`: the calls with their refusals

mod calls;
mod judge;
mod latest;
mod lines;
pub mod minutes;
pub mod priority;
pub mod search;
mod station;

pub use judge::List;
pub use latest::{in_ticket_order, latest_start_order};
pub use station::{
    bound, last_clear, last_end, of_feeder, Charge, Feeder, Station, PLACES, WIDEST_SITE,
};
