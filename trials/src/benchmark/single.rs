//! Tables: single calls at 180 charges, how their cost grows up to there, and with the feeders
//! of a site.

use super::calls::{self, Cost, Measured};
use super::pair::Pair;
use super::table::Table;

const HELD: usize = 180;
/// Charges held, for orders and for replans.
const ORDERED: [usize; 4] = [20, 60, 120, 180];
const GROWING: [usize; 5] = [20, 60, 100, 140, 180];

fn row(table: &mut Table, title: &str, cost: &Cost, parts: f64) {
    let mut cells = vec![title.to_string()];
    cells.extend(cost.times.micros(cost.calls * parts));
    table.row(cells);
}

/// A replan by lines of several rounds has a second row, shared out among them.
fn rows(table: &mut Table, title: &str, measured: &Measured, pair: &Pair) -> Result<(), String> {
    let cost = measured.cost(pair)?;
    if measured.rounds == 0 {
        row(table, title, &cost, 1.0);
        return Ok(());
    }
    let rounds = measured.rounds;
    if rounds > 1 {
        row(table, &format!("{title}, {rounds} rounds"), &cost, 1.0);
    }
    row(table, &format!("{title}, one round"), &cost, rounds as f64);
    Ok(())
}

pub fn print(pair: &Pair) -> Result<(), String> {
    let measured = [
        ("commit, room at once", calls::typical_commit(HELD)),
        ("commit, through all steps", calls::worst_commit(HELD)),
        ("preview, room at once", calls::typical_preview(HELD)),
        ("preview, through all steps", calls::worst_preview(HELD)),
        ("offer, typical", calls::typical_offer(HELD)),
        ("offer, worst", calls::worst_offer()),
        ("replan by latest start, typical", calls::typical_latest(HELD)),
        ("replan by latest start, worst", calls::worst_latest()),
        ("replan by lines, typical", calls::typical_lines(HELD)),
        ("replan by lines, 180 spread", calls::one_round(true)),
        ("replan by lines, 180 on one line", calls::one_round(false)),
        ("replan by lines, 180 equal ones on one line", calls::all_equal()),
        ("replan by lines, worst", calls::worst_lines()?),
        ("board of 1 ticket", calls::board(1)),
        ("board of 20 tickets", calls::board(20)),
        ("board of 180 tickets", calls::board(180)),
        ("withdrawal, typical", calls::typical_withdrawal(HELD)),
        ("withdrawal, worst", calls::worst_withdrawal(HELD)),
    ];
    let mut table = Table::new(&["call", "program µs", "Rust µs", "ratio"]);
    for (title, measured) in &measured {
        rows(&mut table, title, measured, pair)?;
    }
    table.print();
    Ok(())
}

/// A call by the number of charges held.
type Growing = (&'static str, fn(usize) -> Measured);

const ORDERS: [Growing; 7] = [
    ("preview, room at once", calls::typical_preview),
    ("preview, room at once, all charges but one behind it", calls::preview_before_all),
    ("preview, through all steps", calls::worst_preview),
    ("commit, room at once", calls::typical_commit),
    ("commit, through all steps", calls::worst_commit),
    ("withdrawal, typical", calls::typical_withdrawal),
    ("withdrawal, worst", calls::worst_withdrawal),
];

const REPLANS: [Growing; 2] = [
    ("replan by latest start", calls::typical_latest),
    ("replan by lines, one round", calls::typical_lines),
];

fn print_growing(calls: &[Growing], numbers: &[usize], pair: &Pair) -> Result<(), String> {
    for (title, call) in calls {
        let mut table = Table::new(&["charges held", "program µs", "Rust µs", "ratio"]);
        for held in numbers {
            let measured = call(*held);
            let parts = measured.rounds.max(1) as f64;
            row(&mut table, &held.to_string(), &measured.cost(pair)?, parts);
        }
        println!("{title}:\n");
        table.print();
    }
    Ok(())
}

/// Sites of several feeders (N14) beside one of one.
const FEEDERS: [u32; 3] = [1, 2, 4];

pub fn print_sites(pair: &Pair) -> Result<(), String> {
    let mut table = Table::new(&["call", "program µs", "Rust µs", "ratio"]);
    for feeders in FEEDERS {
        let of = if feeders == 1 { "1 feeder".to_string() } else { format!("{feeders} feeders") };
        for (title, measured) in calls::of_site(feeders) {
            rows(&mut table, &format!("{of}, {title}"), &measured, pair)?;
        }
    }
    table.print();
    Ok(())
}

pub fn print_growth(pair: &Pair) -> Result<(), String> {
    print_growing(&ORDERS, &ORDERED, pair)?;
    print_growing(&REPLANS, &GROWING, pair)
}
