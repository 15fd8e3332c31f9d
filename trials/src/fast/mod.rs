//! The same rules for speed: the baseline for run times. It goes over the minutes
//! in which something changes and not over all of them. Its algorithms are those of
//! the proved program, so that a ratio of run times measures the language and not
//! the method.
//!
//! - `profile`: the counts as a sorted step function with its searches
//! - `search`: the earliest start of an order
//! - `station`: the station and its calls
//! - `plan`: the common test of a plan, and the replan by latest start
//! - `lines`: the replan by lines with caps as arrays of minutes
//! - `priority`: which charge of a line is taken at a start
//! - `image`: save and restore (N8)

mod image;
mod lines;
mod plan;
mod priority;
mod profile;
mod search;
mod station;

pub use image::Fast;
pub use station::Station;
