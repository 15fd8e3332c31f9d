//! The lateness of a day, from calls and answers alone: each charge by the start
//! that a clock move reported, and by the charging time and due minute ordered.

use crate::protocol::{read_call, Call};
use crate::script::{self, Line};

/// What a day came to.
#[derive(Clone, Copy, Debug, Default, PartialEq, Eq)]
pub struct Worth {
    /// The sum of max(0, start + p − d) over the day's charges.
    pub lateness: u64,
    /// How often a replan was answered with each cause, 0 for taken.
    pub causes: [u64; 8],
    /// The rounds made for them.
    pub rounds: u64,
}

impl Worth {
    pub fn add(&mut self, other: Worth) {
        self.lateness += other.lateness;
        for (sum, times) in self.causes.iter_mut().zip(other.causes) {
            *sum += times;
        }
        self.rounds += other.rounds;
    }

    pub fn replans(&self) -> u64 {
        self.causes.iter().sum()
    }

    /// Cause, lateness before and after, rounds used.
    fn add_plan(&mut self, plan: &[u64]) {
        self.causes[plan[0] as usize] += 1;
        self.rounds += plan[3];
    }
}

/// The orders of one day by ticket: charging time and due minute.
#[derive(Default)]
struct Orders {
    times: Vec<(u64, u64)>,
    reported: usize,
}

impl Orders {
    /// Tickets are 1, 2, 3 and so on in the order of acceptance.
    fn late(&mut self, ticket: u64, start: u64) -> Result<u64, String> {
        let place = (ticket as usize).wrapping_sub(1);
        let (time, due) = self.times.get(place).ok_or(format!("ticket {ticket} not given"))?;
        self.reported += 1;
        Ok((start + time).saturating_sub(*due))
    }

    /// A day that leaves an accepted order unreported has no lateness yet.
    fn close(self) -> Result<(), String> {
        match self.times.len() == self.reported {
            true => Ok(()),
            false => Err(format!("{} orders, but {} reported", self.times.len(), self.reported)),
        }
    }
}

/// Of one day or several; an opening begins the next one.
pub fn worth(lines: &[Line], answers: &[Line]) -> Result<Worth, String> {
    let mut worth = Worth::default();
    let mut orders = Orders::default();
    for (line, answer) in script::answered(lines).zip(answers) {
        let text = script::show(answer);
        let words: Vec<&str> = text.split(' ').collect();
        match (read_call(line), words[0]) {
            (_, "open") => std::mem::take(&mut orders).close()?,
            (Ok(Some(Call::Commit { order, .. })), "ticket") => {
                orders.times.push((u64::from(order.time), u64::from(order.due)));
            }
            (_, "moved") => {
                for pair in numbers(&words[4..])?.chunks_exact(2) {
                    worth.lateness += orders.late(pair[0], pair[1])?;
                }
            }
            (_, "plan") => worth.add_plan(&numbers(&words[1..])?),
            _ => return Err(format!("{}: {text}", script::show(line))),
        }
    }
    orders.close()?;
    Ok(worth)
}

fn numbers(words: &[&str]) -> Result<Vec<u64>, String> {
    let number = |word: &&str| word.parse().map_err(|_| format!("'{word}' is no number"));
    words.iter().map(number).collect()
}

#[cfg(test)]
mod tests {
    use super::*;

    fn of(calls: &str, answers: &str) -> Result<Worth, String> {
        worth(&script::split(calls.as_bytes()), &script::split(answers.as_bytes()))
    }

    const CALLS: &str =
        "open 1 720 1 100 0\ncommit 1 1 10 60 1 0\ncommit 1 1 10 15 1 10\nlatest 1\nmove 100 360\n";

    #[test]
    fn the_reported_start_counts_and_not_the_first_one() {
        let answers = "open 0 1\nticket 1 start 0\nticket 2 start 10\n";
        let taken = format!("{answers}plan 0 5 0 0\nmoved 2 dropped 2 2 0 1 10\n");
        let expected = Worth { lateness: 0, causes: [1, 0, 0, 0, 0, 0, 0, 0], rounds: 0 };
        assert_eq!(of(CALLS, &taken), Ok(expected));
        let kept = format!("{answers}plan 7 5 5 3\nmoved 2 dropped 2 1 0 2 10\n");
        let expected = Worth { lateness: 5, causes: [0, 0, 0, 0, 0, 0, 0, 1], rounds: 3 };
        assert_eq!(of(CALLS, &kept), Ok(expected));
    }

    #[test]
    fn a_day_that_is_not_over() {
        let answers = "open 0 1\nticket 1 start 0\nticket 2 start 10\nplan 7 5 5 0\n";
        let outcome = of(CALLS, &format!("{answers}moved 1 dropped 1 1 0\n"));
        assert_eq!(outcome, Err("2 orders, but 1 reported".to_string()));
    }

    #[test]
    fn tickets_begin_anew_with_each_day() {
        let calls =
            "open 1 720 1 100 0\ncommit 1 1 10 10 1 3\nmove 9 360\nopen 1 720 1 100 0\ncommit 1 2 5 6 1 2\nmove 9 360\n";
        let first = "open 0 1\nticket 1 start 3\nmoved 1 dropped 0 1 3\n";
        let second = "open 0 1\nticket 1 start 2\nmoved 1 dropped 1 1 2\n";
        let lateness = of(calls, &format!("{first}{second}")).map(|worth| worth.lateness);
        assert_eq!(lateness, Ok(3 + 1));
    }

    #[test]
    fn a_refusal_or_an_unknown_ticket() {
        assert!(of("open 1 720 1 100 0\ncommit 1 4 1 1 1 0\n", "open 0 1\nrefused 4\n").is_err());
        assert!(
            of("open 1 720 1 100 0\nmove 5 360\n", "open 0 1\nmoved 1 dropped 0 1 0\n").is_err()
        );
    }
}
