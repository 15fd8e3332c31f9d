//! Every rule of refusal 22 broken alone, with right checks, and stations at the edges of
//! the rules, which are accepted.

use super::stations::{charge, resealed, settled, some, wide};
use super::{all_calls, Trial};
use crate::image::rules::Rule;
use crate::image::{contents_of, image_of};
use crate::reference::Station;

/// A station that breaks this rule, or none.
pub struct Sample {
    pub broken: Option<Rule>,
    pub title: &'static str,
    pub station: Station,
}

type Change = fn(&mut Station);

/// Changes of one station, each of which breaks the rule.
fn broken(rule: Rule, station: fn() -> Station, changes: &[(&'static str, Change)]) -> Vec<Sample> {
    samples(Some(rule), station, changes)
}

fn samples(
    broken: Option<Rule>,
    station: fn() -> Station,
    changes: &[(&'static str, Change)],
) -> Vec<Sample> {
    let sample = |(title, change): &(&'static str, Change)| {
        let mut station = station();
        change(&mut station);
        Sample { broken, title, station: settled(station) }
    };
    changes.iter().map(sample).collect()
}

fn fields() -> Vec<Sample> {
    let mut all = broken(
        Rule::Limit,
        wide,
        &[
            ("N 0", |s| s.feeders[0].limit = 0),
            ("N 61", |s| s.feeders[0].limit = 61),
            ("N 256", |s| s.feeders[0].limit = 256),
            ("N 2^32 - 1", |s| s.feeders[0].limit = 0xffff_ffff),
        ],
    );
    all.extend(broken(Rule::Limit, some, &[("N 61 with charges", |s| s.feeders[0].limit = 61)]));
    all.extend(broken(
        Rule::Percent,
        some,
        &[
            ("c 101", |s| s.feeders[0].percent = 101),
            ("c 286", |s| s.feeders[0].percent = 256 + 30),
            ("c 2^31", |s| s.feeders[0].percent = 1 << 31),
        ],
    ));
    all.extend(broken(
        Rule::Tail,
        some,
        &[
            ("r 6", |s| s.feeders[0].tail = 6),
            ("r 256", |s| s.feeders[0].tail = 256),
            ("r 2^31", |s| s.feeders[0].tail = 1 << 31),
        ],
    ));
    all.extend(broken(Rule::Clock, wide, &[("clock 1,000,001", |s| s.clock = 1_000_001)]));
    all.extend(broken(Rule::Clock, late, &[("clock 1,000,001 with charges", |s| s.clock += 1)]));
    all.extend(broken(
        Rule::NextTicket,
        some,
        &[("next 65,537", |s| s.next_ticket = 65_537), ("next 2^31", |s| s.next_ticket = 1 << 31)],
    ));
    all.extend(site_limits());
    all.extend(broken(
        Rule::Held,
        || crowd(181),
        &[
            ("181 held", |_| ()),
            ("190 held", |s| *s = crowd(190)),
            ("200 held", |s| *s = crowd(200)),
        ],
    ));
    all
}

/// "22 covers W out of range" (N14).
fn site_limits() -> Vec<Sample> {
    let mut all = broken(
        Rule::SiteLimit,
        wide,
        &[
            ("W 0", |s| s.site_limit = 0),
            ("W 721", |s| s.site_limit = 721),
            ("W 65,536 + 720", |s| s.site_limit = 65_536 + 720),
            ("W 2^32 - 1", |s| s.site_limit = 0xffff_ffff),
        ],
    );
    all.extend(broken(
        Rule::SiteLimit,
        some,
        &[
            ("W 0 with charges", |s| s.site_limit = 0),
            ("W 721 with charges", |s| s.site_limit = 721),
        ],
    ));
    all
}

/// "or exceeded" (N14): four draw at the clock, then two.
fn sites() -> Vec<Sample> {
    let mut all = broken(
        Rule::SiteExceeded,
        some,
        &[
            ("W exceeded in the clock's minute", |s| s.site_limit = 3),
            ("W exceeded in a tail", |s| {
                s.charges.remove(1);
                (s.site_limit, s.charges[2].start) = (3, 116);
            }),
            ("W exceeded far off", |s| {
                s.charges.remove(1);
                s.charges.push(charge(8, 2, 2, 900, 50));
                (s.site_limit, s.next_ticket) = (3, 9);
            }),
        ],
    );
    all.extend(broken(
        Rule::SiteExceeded,
        || crowd(180),
        &[("W 179 with 180 at once", |s| s.site_limit = 179)],
    ));
    all
}

/// At the last minute of the clock.
fn late() -> Station {
    let mut station = some();
    let later = 1_000_000 - station.clock;
    station.clock += later;
    for charge in &mut station.charges {
        charge.order += later;
        charge.start += later + 1;
    }
    station
}

/// So many charges: sixty on each line at once, the others behind them.
fn crowd(count: u32) -> Station {
    let mut station = wide();
    let start = |place: u32| if place < 180 { 100 } else { 130 };
    let one = |place: u32| charge(place + 1, place % 3 + 1, 1, start(place), 20);
    station.charges = (0..count).map(one).collect();
    station
}

fn charges() -> Vec<Sample> {
    let mut all = broken(
        Rule::Time,
        || Station { next_ticket: 100, ..some() },
        &[
            ("p 0", |s| s.charges[3].time = 0),
            ("p 1,441", |s| s.charges[3].time = 1_441),
            ("p 65,535", |s| s.charges[2].time = 65_535),
        ],
    );
    all.extend(broken(
        Rule::Due,
        some,
        &[
            ("d 2,000,001", |s| s.charges[0].due = 2_000_001),
            ("d 2^32 - 1", |s| s.charges[3].due = 0xffff_ffff),
        ],
    ));
    all.extend(broken(
        Rule::Line,
        some,
        &[
            ("line 0", |s| s.charges[1].line = 0),
            ("line 4", |s| s.charges[2].line = 4),
            ("line 255", |s| s.charges[0].line = 255),
        ],
    ));
    all.extend(broken(
        Rule::Rate,
        some,
        &[("rate 0", |s| s.charges[2].rate = 0), ("rate 3", |s| s.charges[2].rate = 3)],
    ));
    all.extend(broken(
        Rule::Bound,
        wide,
        &[
            ("refusal 3, 5 and 10", |s| (s.feeders[0].limit, s.feeders[0].percent) = (5, 10)),
            ("refusal 3, 1 and 50", |s| (s.feeders[0].limit, s.feeders[0].percent) = (1, 50)),
            ("refusal 3, 60 and 0", |s| (s.feeders[0].limit, s.feeders[0].percent) = (60, 0)),
        ],
    ));
    all.extend(broken(Rule::RateAbove, lean, &[("refusal 18", |s| s.charges[0].rate = 2)]));
    all
}

/// D 1, one charge on each line at the same time.
fn lean() -> Station {
    let charges = (1..=3).map(|line| charge(line, line, 1, 100, 10)).collect();
    Station { clock: 100, next_ticket: 4, charges, ..Station::fresh(2, 50, 0) }
}

fn tickets() -> Vec<Sample> {
    broken(
        Rule::Tickets,
        some,
        &[
            ("equal tickets", |s| s.charges[2].ticket = 3),
            ("equal tickets at the end", |s| s.charges[3].ticket = 5),
            ("falling tickets", |s| (s.charges[0].ticket, s.charges[1].ticket) = (3, 2)),
            ("falling tickets at the end", |s| (s.charges[2].ticket, s.charges[3].ticket) = (7, 5)),
            ("ticket 0", |s| s.charges[0].ticket = 0),
            ("next is the last", |s| s.next_ticket = 7),
            ("next is below the last", |s| s.next_ticket = 6),
            ("a ticket of 2^31", |s| s.charges[3].ticket = 1 << 31),
        ],
    )
}

fn minutes() -> Vec<Sample> {
    let mut all = broken(
        Rule::Finished,
        some,
        &[
            ("finished just now", |s| s.charges[0].start = 78),
            ("finished long ago", |s| (s.charges[0].start, s.charges[0].order) = (0, 0)),
        ],
    );
    all.extend(broken(
        Rule::StartBeforeOrder,
        some,
        &[
            ("start before its order minute", |s| s.charges[0].order = 96),
            ("start before its order minute, the clock", |s| s.charges[1].order = 100),
        ],
    ));
    all.extend(broken(
        Rule::OrderAfterClock,
        some,
        &[
            ("order minute after the clock", |s| s.charges[3].order = 101),
            ("order minute is the start", |s| s.charges[3].order = 150),
        ],
    ));
    all.extend(broken(
        Rule::EndTooLate,
        alone,
        &[
            ("end one above the ceiling", |s| s.charges[0].start += 1),
            ("end above 2^32", |s| s.charges[0].start = 0xffff_ffff),
            ("end that is 0 in 32 bits", |s| s.charges[0].start = (1 << 32) - 1_440),
            ("end that is at the clock in 32 bits", |s| s.charges[0].start = (1 << 32) - 1_340),
            ("end above the ceiling of all tickets", |s| {
                s.next_ticket = 65_536;
                s.charges[0].start = 100 + 1_445 * 65_535 - 1_439;
            }),
        ],
    ));
    all
}

/// One charge with the last end that there may be.
fn alone() -> Station {
    let charges = vec![charge(1, 2, 1, 105, 1_440)];
    Station { clock: 100, next_ticket: 2, charges, ..Station::fresh(1, 100, 0) }
}

fn plans() -> Vec<Sample> {
    broken(
        Rule::Unsound,
        leaning,
        &[
            ("limit, all lines alike", |s| {
                (s.feeders[0].percent, s.next_ticket) = (100, 10);
                s.charges =
                    (0..9).map(|place| charge(place + 1, place / 3 + 1, 1, 100, 9)).collect();
            }),
            ("balance in the clock's minute", |s| s.charges[3].start = 101),
            ("balance between lines 1 and 3", |s| s.charges.truncate(3)),
            ("balance after an end", |s| s.charges[2].time = 9),
            ("balance before a start", |s| s.charges[2] = charge(3, 2, 1, 102, 8)),
            ("limit in a tail", |s| {
                (s.feeders[0].tail, s.next_ticket, s.charges[0].time) = (2, 6, 6);
                s.charges.push(charge(5, 1, 1, 101, 9));
            }),
            ("balance far off", |s| {
                s.charges.extend([charge(5, 3, 1, 900, 50), charge(6, 3, 1, 949, 50)]);
                s.next_ticket = 7;
            }),
        ],
    )
}

/// N 2 and D 1; two on line 1, which lean on one on each other line.
fn leaning() -> Station {
    let mut station = lean();
    station.charges.insert(0, charge(1, 1, 1, 95, 15));
    for (charge, ticket) in station.charges.iter_mut().zip(1..) {
        charge.ticket = ticket;
    }
    station.next_ticket = 5;
    station
}

/// Accepted, each just so.
fn edges() -> Vec<Sample> {
    let mut all = samples(
        None,
        some,
        &[
            ("some charges", |_| ()),
            ("next 65,536", |s| s.next_ticket = 65_536),
            ("ticket 65,535", |s| (s.charges[3].ticket, s.next_ticket) = (65_535, 65_536)),
            ("ticket 1", |s| s.charges[0].ticket = 1),
            ("d 2,000,000 and 0", |s| (s.charges[0].due, s.charges[1].due) = (2_000_000, 0)),
            ("p 1", |s| s.charges[2].time = 1),
            ("r 5", |s| s.feeders[0].tail = 5),
            ("N 60", |s| s.feeders[0].limit = 60),
            ("c 100", |s| s.feeders[0].percent = 100),
            ("W 4", |s| s.site_limit = 4),
            ("W up to a tail", |s| {
                s.charges.remove(1);
                (s.site_limit, s.charges[2].start) = (3, 117);
            }),
            ("unfinished by a minute", |s| s.charges[0].start = 79),
            ("start at its order minute", |s| s.charges[0].order = 95),
            ("order minute at the clock", |s| s.charges[3].order = 100),
            ("no charges", |s| s.charges.clear()),
        ],
    );
    all.extend(samples(None, alone, &[("the last end that there may be", |_| ())]));
    all.extend(samples(None, late, &[("clock 1,000,000", |_| ())]));
    all.extend(samples(None, || crowd(180), &[("180 held", |_| ())]));
    all.extend(samples(None, || crowd(180), &[("W 180", |s| s.site_limit = 180)]));
    all.extend(samples(None, wide, &[("W 1", |s| s.site_limit = 1)]));
    all.extend(samples(None, past, &[("a past that was not in balance", |_| ())]));
    all.extend(samples(None, lean, &[("D 1", |_| ())]));
    let without_a_tail: Change = |s| {
        (s.next_ticket, s.charges[0].time) = (6, 6);
        s.charges.push(charge(5, 1, 1, 101, 9));
    };
    all.extend(samples(None, leaning, &[("leaning", |_| ()), ("no tail", without_a_tail)]));
    all
}

/// Up to the clock line 1 had three and the others none.
fn past() -> Station {
    let mut charges: Vec<_> = (1..=3).map(|ticket| charge(ticket, 1, 1, 50, 60)).collect();
    charges.extend([charge(4, 2, 2, 100, 10), charge(5, 3, 2, 99, 11)]);
    Station { clock: 100, next_ticket: 6, charges, ..Station::fresh(3, 67, 0) }
}

pub fn samples_of_rules() -> Vec<Sample> {
    let samples = [fields(), charges(), tickets(), minutes(), plans(), sites(), edges()];
    samples.into_iter().flatten().collect()
}

/// Numbers held that are not the number of records used, and what breaks two rules at once.
fn held() -> Vec<Trial> {
    let numbers = [0u32, 3, 5, 181, 201, 256 + 4, 65_536 + 4, 1 << 31, u32::MAX];
    let trial = |number: u32| {
        let image = resealed(contents_of(&some()), |contents| {
            contents[0][20..24].copy_from_slice(&number.to_le_bytes());
        });
        Trial { title: format!("{number} held, 4 records"), image, calls: all_calls(false) }
    };
    let mut all: Vec<Trial> = numbers.map(trial).into();
    let next = |contents: &mut Vec<Vec<u8>>| contents[0][16..20].fill(0);
    let image = resealed(contents_of(&wide()), next);
    all.push(Trial { title: "next 0".to_string(), image, calls: all_calls(false) });
    // A rate above W exceeds it too.
    let image = image_of(&settled(Station { site_limit: 1, ..some() }));
    all.push(Trial { title: "a rate above W".to_string(), image, calls: all_calls(false) });
    all
}

pub fn trials() -> Vec<Trial> {
    let trial = |sample: Sample| {
        let image = image_of(&sample.station);
        let broken = sample.broken.map_or("valid".to_string(), |rule| format!("{rule:?}"));
        Trial { title: format!("{} ({broken})", sample.title), image, calls: all_calls(true) }
    };
    samples_of_rules().into_iter().map(trial).chain(held()).collect()
}

#[cfg(test)]
mod tests {
    use super::*;
    use crate::image::rules;
    use std::collections::BTreeSet;

    /// Each is broken alone, and each is there.
    #[test]
    fn one_rule_at_a_time() {
        let mut seen = BTreeSet::new();
        for sample in samples_of_rules() {
            let broken = rules::broken(&sample.station);
            assert_eq!(broken, sample.broken.into_iter().collect(), "{}", sample.title);
            seen.extend(sample.broken);
        }
        assert_eq!(seen.len(), Rule::SiteExceeded as usize + 1);
    }

    #[test]
    fn images_say_what_stations_are() {
        for sample in samples_of_rules() {
            let restored = crate::image::restore(&image_of(&sample.station));
            match sample.broken {
                None => assert_eq!(restored, Ok(sample.station), "{}", sample.title),
                Some(_) => assert_eq!(restored, Err(22), "{}", sample.title),
            }
        }
        for trial in held() {
            assert_eq!(crate::image::restore(&trial.image), Err(22), "{}", trial.title);
        }
    }
}
