//! Table: what the plans are worth, as lateness of whole days.

use super::day::{self, Class, REPLANS};
use super::lateness::{worth, Worth};
use super::table::Table;
use crate::fast::Station;
use crate::script::answers_of;

/// One class: what its days came to without replan, by latest start and by lines.
struct Valued {
    class: Class,
    days: u64,
    worths: [Worth; 3],
}

/// The Rust program gives the answers, for the sake of time. Those of the program
/// are the same: on the first day of each class they have been compared.
fn value(class: Class, days: u64) -> Result<Valued, String> {
    let mut worths = [Worth::default(); 3];
    for number in 0..days {
        for (replan, sum) in REPLANS.iter().zip(&mut worths) {
            let script = day::script(class, number, *replan);
            sum.add(worth(&script, &answers_of(Station::fresh(1, 100, 0), &script))?);
        }
    }
    Ok(Valued { class, days, worths })
}

/// The sum over the classes that the test picks, and how many days these are.
fn sum(valued: &[Valued], picks: impl Fn(&Class) -> bool) -> ([Worth; 3], u64) {
    let mut sums = [Worth::default(); 3];
    let mut days = 0;
    for valued in valued.iter().filter(|valued| picks(&valued.class)) {
        days += valued.days;
        for (sum, worth) in sums.iter_mut().zip(valued.worths) {
            sum.add(worth);
        }
    }
    (sums, days)
}

fn row(table: &mut Table, title: &str, valued: &[Valued], picks: impl Fn(&Class) -> bool) {
    let (sums, days) = sum(valued, picks);
    let mut cells = vec![title.to_string()];
    cells.extend(sums.map(|sum| (sum.lateness / days).to_string()));
    let [_, latest, lines] = sums;
    let more = latest.lateness as f64 / lines.lateness.max(1) as f64 - 1.0;
    cells.push(format!("{:+.1} %", 100.0 * more));
    cells.push(format!("{:.1}", lines.rounds as f64 / lines.replans().max(1) as f64));
    table.row(cells);
}

fn print_lateness(valued: &[Valued]) {
    let titles =
        ["days", "no replan", "latest start", "by lines", "latest over lines", "rounds a replan"];
    let mut table = Table::new(&titles);
    for scenario in 1..=3 {
        for (even, lines) in [(true, "even"), (false, "10, 30, 60")] {
            let picks = |class: &Class| class.scenario == scenario && class.even == even;
            row(&mut table, &format!("scenario {scenario}, lines {lines}"), valued, picks);
        }
    }
    for limit in [20, 30, 40] {
        row(&mut table, &format!("N = {limit}"), valued, |class| class.limit == limit);
    }
    for percent in [20, 40, 60, 80] {
        let title = format!("Δ = 0.{}", percent / 10);
        row(&mut table, &title, valued, |class| class.percent == percent);
    }
    row(&mut table, "all 72 classes", valued, |_| true);
    table.print();
}

/// Why replans kept the old plan.
fn print_causes(valued: &[Valued]) {
    let titles = ["replans", "taken", "cause 1", "cause 2", "cause 4", "cause 7"];
    let mut table = Table::new(&titles);
    let (sums, _) = sum(valued, |_| true);
    for (replan, worth) in REPLANS.iter().zip(sums).skip(1) {
        let replans = worth.replans() as f64;
        let share = |cause: usize| format!("{:.1} %", 100.0 * worth.causes[cause] as f64 / replans);
        let mut cells = vec![replan.title().to_string()];
        cells.extend([0, 1, 2, 4, 7].map(share));
        table.row(cells);
    }
    table.print();
}

pub fn print(days: u64) -> Result<(), String> {
    let classes = day::classes().into_iter();
    let valued =
        classes.map(|class| value(class, days)).collect::<Result<Vec<Valued>, String>>()?;
    println!("Minutes of lateness in a day, averages of {days} days of each class:\n");
    print_lateness(&valued);
    println!("What the replans were answered with:\n");
    print_causes(&valued);
    Ok(())
}
