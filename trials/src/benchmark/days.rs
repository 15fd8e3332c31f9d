//! Table: whole days of the source's benchmark.

use super::day::{self, Class, Replan, REPLANS};
use super::lateness::{worth, Worth};
use super::pair::{Pair, LONG_ENOUGH};
use super::sample::digits;
use super::table::Table;
use crate::script::{repeated, Line};

/// The classes of a row; they follow each other in one script, since every day
/// begins with an opening.
struct Row {
    title: String,
    classes: Vec<Class>,
}

/// The classes put together by some of their marks, in the order of `day::classes`.
fn rows(title: impl Fn(&Class) -> String) -> Vec<Row> {
    let mut rows: Vec<Row> = Vec::new();
    for class in day::classes() {
        let title = title(&class);
        match rows.iter_mut().find(|row| row.title == title) {
            Some(row) => row.classes.push(class),
            None => rows.push(Row { title, classes: vec![class] }),
        }
    }
    rows
}

fn by_scenario(class: &Class) -> String {
    let lines = if class.even { "even" } else { "10, 30, 60" };
    format!("scenario {}, lines {lines}", class.scenario)
}

/// The first day of each class.
fn script(classes: &[Class], replan: Replan) -> Vec<Line> {
    classes.iter().flat_map(|class| day::script(*class, 0, replan)).collect()
}

/// Numbers of a row, in milliseconds and for one day.
struct Costs {
    program: f64,
    rust: f64,
    sum: Worth,
}

fn print_row(table: &mut Table, row: Row, replan: Replan, pair: &Pair) -> Result<Costs, String> {
    let script = script(&row.classes, replan);
    let sum = worth(&script, &pair.answers(&script)?)?;
    let turns = (LONG_ENOUGH / pair.once(&script)?).ceil().clamp(1.0, 20.0);
    let times = pair.difference(&repeated(&script, turns as usize), &[])?;
    let days = row.classes.len() as f64;
    let per_day = |total: u64| format!("{:.0}", total as f64 / days);
    let mut cells = vec![row.title, per_day(sum.replans()), per_day(sum.rounds)];
    cells.extend(times.millis(days * turns));
    table.row(cells);
    let whole = 1e3 / turns;
    Ok(Costs { program: times.program.median * whole, rust: times.rust.median * whole, sum })
}

fn print_kind(replan: Replan, pair: &Pair) -> Result<(), String> {
    let titles = ["one day", "replans", "rounds", "program ms", "Rust ms", "ratio"];
    let mut table = Table::new(&titles);
    let (mut program, mut rust, mut sum) = (0.0, 0.0, Worth::default());
    for row in rows(by_scenario) {
        let costs = print_row(&mut table, row, replan, pair)?;
        program += costs.program;
        rust += costs.rust;
        sum.add(costs.sum);
    }
    let mut cells = vec!["all 72 days together".to_string()];
    cells.extend([sum.replans(), sum.rounds].map(|total| total.to_string()));
    cells.extend([program, rust, program / rust].map(digits));
    table.row(cells);
    println!("Days, {}:\n", replan.title());
    table.print();
    Ok(())
}

pub fn print(pair: &Pair) -> Result<(), String> {
    REPLANS.iter().try_for_each(|replan| print_kind(*replan, pair))
}

/// The Rust program against itself on all days without replan.
pub fn noise(pair: &Pair) -> Result<String, String> {
    let script = script(&day::classes(), Replan::Never);
    let times = pair.noise()?.difference(&script, &[])?;
    Ok(times.ratio.show_ratio())
}
