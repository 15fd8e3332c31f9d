//! What restores and saves in a bus.

use crate::image;
use crate::reference::Station;
use crate::yard::{Refusal, Yard};

pub trait Images {
    type Yard: Yard;

    /// The station of 1, 100 and r = 0, one feeder and W 720.
    fn fresh(&self) -> Self::Yard;
    fn restore(&self, image: &[u8]) -> Result<Self::Yard, Refusal>;
    /// Answers in how many blocks the image differs from the previous one.
    fn save(&self, yard: &Self::Yard, previous: &[u8], image: &mut [u8]) -> Result<u32, Refusal>;
}

/// Those of the second implementation.
#[derive(Clone, Copy)]
pub struct Reference;

impl Images for Reference {
    type Yard = Station;

    fn fresh(&self) -> Station {
        Station::fresh(1, 100, 0)
    }

    fn restore(&self, image: &[u8]) -> Result<Station, Refusal> {
        image::restore(image)
    }

    fn save(&self, yard: &Station, previous: &[u8], image: &mut [u8]) -> Result<u32, Refusal> {
        image::save(yard, previous, image)
    }
}
