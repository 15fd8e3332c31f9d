//! Images with a fault in how they are written or in what is accepted.

use super::Fault;
use trials::bus::images::Images;
use trials::image::arrangement;
use trials::image::blocks::{self, Contents, BLOCK, CONTENT};
use trials::image::rules::{self, Rule};
use trials::image::{contents_of, refuse_size, station_in, CHECK, CONTENTS};
use trials::reference::Station;
use trials::yard::Refusal;

pub struct Wrong(pub Fault);

impl Wrong {
    fn check(&self, content: &[u8]) -> u32 {
        match self.0 {
            Fault::CheckWithoutPlace => content.iter().map(|byte| u32::from(*byte)).sum(),
            Fault::CheckOf507Bytes => blocks::check(&content[..CONTENT - 1]),
            _ => blocks::check(content),
        }
    }

    /// What blocks 1 to 8 hold of the records.
    fn laid_out(&self, row: &[u8]) -> Contents {
        let mut blocks = vec![vec![0; CONTENT]; 8];
        for (record, j) in (0..200).flat_map(|record| (0..20).map(move |j| (record, j))) {
            if let Some((block, place)) = self.place(record, j) {
                blocks[block][place] = row[20 * record + j];
            }
        }
        blocks
    }

    /// The way back; a byte that has no place is 0.
    fn taken_up(&self, blocks: &[Vec<u8>]) -> Vec<u8> {
        let places = (0..200).flat_map(|record| (0..20).map(move |j| self.place(record, j)));
        places.map(|place| place.map_or(0, |(block, place)| blocks[block][place])).collect()
    }

    fn place(&self, record: usize, j: usize) -> Option<(usize, usize)> {
        let z = match self.0 {
            Fault::NumberedByRecord => 20 * record + j,
            _ => 200 * j + record,
        };
        match self.0 {
            Fault::BlocksOf512 => Some((z / 512, z % 512)).filter(|(_, place)| *place < CONTENT),
            Fault::RecordsInARow => Some((record / 25, 20 * (record % 25) + j)),
            _ => Some((z / CONTENT, z % CONTENT)),
        }
    }

    /// The header, and the row of records with its numbers as the fault has them.
    fn turned(&self, mut header: Vec<u8>, mut row: Vec<u8>) -> (Vec<u8>, Vec<u8>) {
        if self.0 == Fault::BigEndian {
            header[..28].chunks_mut(4).for_each(<[u8]>::reverse);
            for record in row.chunks_mut(20) {
                record[..16].chunks_mut(4).for_each(<[u8]>::reverse);
                record[16..18].reverse();
            }
        }
        (header, row)
    }

    fn contents_of(&self, station: &Station) -> Contents {
        let contents = contents_of(station);
        let row = arrangement::taken_up(&contents[1..]);
        let (header, row) = self.turned(contents[0].clone(), row);
        [vec![header], self.laid_out(&row)].concat()
    }

    fn station_in(&self, contents: &Contents) -> Station {
        let row = self.taken_up(&contents[1..]);
        let (header, row) = self.turned(contents[0].clone(), row);
        let laid_out = blocks::filled_up(arrangement::laid_out(&row));
        station_in(&[vec![header], laid_out].concat())
    }

    fn checks_are_right(&self, image: &[u8]) -> bool {
        let right = |block: &[u8]| {
            let (content, written) = block.split_at(CONTENT);
            written == self.check(content).to_le_bytes()
        };
        self.0 == Fault::AnyCheck || image.chunks(BLOCK).all(right)
    }

    fn accepts(&self, station: &Station) -> bool {
        let mut broken = rules::broken(station);
        let tickets: Vec<u32> = station.charges.iter().map(|charge| charge.ticket).collect();
        let end = |start: u64, time: u64| u64::from((start as u32).wrapping_add(time as u32));
        let ceiling = station.clock + 1_445 * u64::from(station.next_ticket.saturating_sub(1));
        let mut ends = station.charges.iter().map(|charge| end(charge.start, charge.time));
        let ignored = match self.0 {
            Fault::UnsoundTaken => Some(Rule::Unsound),
            Fault::SiteExceededTaken => Some(Rule::SiteExceeded),
            Fault::AnySiteLimit => Some(Rule::SiteLimit),
            Fault::FinishedTaken => Some(Rule::Finished),
            Fault::TicketsRepeat if tickets.windows(2).all(|pair| pair[0] <= pair[1]) => {
                Some(Rule::Tickets)
            }
            Fault::EndIn32Bits if ends.all(|end| end <= ceiling) => Some(Rule::EndTooLate),
            _ => None,
        };
        ignored.map(|rule| broken.remove(&rule));
        broken.is_empty() && !self.refuses_more(station)
    }

    fn refuses_more(&self, station: &Station) -> bool {
        let past = Station { clock: 0, ..station.clone() };
        match self.0 {
            Fault::SoundInThePast => rules::broken(&past).contains(&Rule::Unsound),
            Fault::DueRefused => {
                station.charges.iter().any(|charge| charge.due < charge.order + charge.time)
            }
            Fault::Only180Tickets => station.next_ticket > 181,
            _ => false,
        }
    }
}

impl Images for Wrong {
    type Yard = Station;

    fn fresh(&self) -> Station {
        Station::fresh(1, 100, 0)
    }

    fn restore(&self, image: &[u8]) -> Result<Station, Refusal> {
        refuse_size(image)?;
        let contents = blocks::contents(image);
        let station = self.station_in(&contents);
        let same = self.0 == Fault::SpareByteTaken || self.contents_of(&station) == contents;
        let in_order = same && self.accepts(&station);
        match (self.checks_are_right(image), in_order) {
            (true, true) => Ok(station),
            (false, false) if self.0 == Fault::ContentsBeforeChecks => Err(CONTENTS),
            (false, _) => Err(CHECK),
            (true, false) => Err(CONTENTS),
        }
    }

    fn save(&self, yard: &Station, previous: &[u8], image: &mut [u8]) -> Result<u32, Refusal> {
        refuse_size(previous)?;
        refuse_size(image)?;
        if yard.feeders.len() > 1 && self.0 != Fault::FirstOfSeveralSaved {
            return Err(CONTENTS);
        }
        let contents = self.contents_of(yard);
        for (block, content) in image.chunks_mut(BLOCK).zip(&contents) {
            block[..CONTENT].copy_from_slice(content);
            block[CONTENT..].copy_from_slice(&self.check(content).to_le_bytes());
        }
        let pairs = previous.chunks(BLOCK).zip(image.chunks(BLOCK));
        Ok(match self.0 {
            Fault::BlocksWithoutChecks => {
                pairs.filter(|(one, other)| one[..CONTENT] != other[..CONTENT]).count() as u32
            }
            Fault::BlocksAfterWriting => 0,
            Fault::BlocksWithoutTheFirst => blocks::differing(&previous[BLOCK..], &image[BLOCK..]),
            _ => blocks::differing(previous, image),
        })
    }
}
