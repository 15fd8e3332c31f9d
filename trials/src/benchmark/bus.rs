//! Table: calls of a bus, which restore, act and save, beside the call alone and beside
//! the same in Rust.

use super::calls::{self, Measured};
use super::pair::Pair;
use super::table::Table;

const HELD: [usize; 2] = [20, 180];

/// A call of each kind on a station with so many charges.
fn measured(held: usize) -> [(&'static str, Measured); 10] {
    [
        ("open", calls::opening()),
        ("preview", calls::typical_preview(held)),
        ("commit", calls::typical_commit(held)),
        ("move that goes nowhere", calls::typical_move(held)),
        ("offer", calls::typical_offer(held)),
        ("latest start", calls::typical_latest(held)),
        ("lines", calls::typical_lines(held)),
        ("enquire", calls::typical_enquiry(held)),
        ("board of 20 tickets", calls::board_of(20, held)),
        ("withdraw", calls::typical_withdrawal(held)),
    ]
}

/// The bus in turn with the console, and in turn with the Rust program's bus.
struct Pairs {
    console: Pair,
    rust: Pair,
}

impl Pairs {
    fn new(pair: &Pair, bus: &str, repeat: usize) -> Result<Pairs, String> {
        let bus: Vec<String> = bus.split_whitespace().map(String::from).collect();
        let [console, fast] = pair.programs();
        let mut rust = fast.to_vec();
        rust.pop();
        rust.push("fast-bus".to_string());
        Ok(Pairs {
            console: Pair::of_words(bus.clone(), console.to_vec(), repeat, "console")?,
            rust: Pair::of_words(bus, rust, repeat, "bus")?,
        })
    }

    fn row(&self, title: &str, measured: &Measured) -> Result<Vec<String>, String> {
        let beside_rust = measured.cost(&self.rust)?;
        let beside_console = measured.times(&self.console)?;
        let [bus, rust, over_rust] = beside_rust.times.micros(beside_rust.calls);
        let [_, alone, over_alone] = beside_console.times.micros(beside_console.calls);
        Ok(vec![title.to_string(), bus, alone, over_alone, rust, over_rust])
    }
}

pub fn print(pair: &Pair, bus: &str, repeat: usize) -> Result<(), String> {
    let pairs = Pairs::new(pair, bus, repeat)?;
    for held in HELD {
        let titles =
            ["call", "bus µs", "call alone µs", "bus over alone", "Rust bus µs", "bus over Rust"];
        let mut table = Table::new(&titles);
        for (title, measured) in measured(held) {
            table.row(pairs.row(title, &measured)?);
        }
        println!("{held} charges held:\n");
        table.print();
    }
    Ok(())
}
