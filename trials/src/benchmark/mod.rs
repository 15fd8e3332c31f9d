//! `trials benchmark PROGRAM`: run times of a program beside those of the Rust
//! program of the same algorithms, its stack, and what its plans are worth.
//!
//! - `day`, `lateness`: a day of the source's benchmark as a script, and its worth
//! - `states`, `calls`: stations with so many charges, and single calls on them
//! - `stopwatch`, `sample`, `pair`: one time, several of them, two programs in turn
//! - `bus`, `blocks`: calls over an image (N8), and the blocks that they rewrite (N9)
//! - `days`, `single`, `stack`, `plans`: the tables; `table`: their layout

mod blocks;
mod bus;
mod calls;
mod day;
mod days;
mod lateness;
mod pair;
mod plans;
mod sample;
mod single;
mod stack;
mod states;
mod stopwatch;
mod table;

use pair::Pair;
use std::time::Instant;

/// Prints the tables as the last part of docs/BENCHMARKS.md, which says more about
/// each of them. `days` is how many days of each class are valued; the source has 30.
/// With a bus its calls are measured too.
pub fn run(program: &str, bus: Option<&str>, repeat: usize, days: u64) -> Result<(), String> {
    let begun = Instant::now();
    let pair = Pair::new(program, repeat)?;
    // A program that is not there, or does not speak the protocol, is told at once.
    pair.answers(&[b"open 1 720 5 20 0".to_vec()])?;
    print_method(&pair, repeat)?;
    println!("### Whole days\n");
    days::print(&pair)?;
    println!("### Single calls with 180 charges\n");
    single::print(&pair)?;
    println!("### Sites of several feeders, 180 charges on each\n");
    single::print_sites(&pair)?;
    println!("### Growth with the charges held\n");
    single::print_growth(&pair)?;
    if let Some(bus) = bus {
        println!("### Calls over an image\n");
        bus::print(&pair, bus, repeat)?;
        blocks::print()?;
    }
    println!("### Deepest stack\n");
    stack::print(&pair)?;
    println!("### What the plans are worth\n");
    plans::print(days.max(1))?;
    println!("The run took {:.0} s.", begun.elapsed().as_secs_f64());
    Ok(())
}

fn print_method(pair: &Pair, repeat: usize) -> Result<(), String> {
    let clock = match stopwatch::knows_processor_time() {
        true => "processor time of the process",
        false => "time that passed",
    };
    let cores = std::thread::available_parallelism().map_or(1, usize::from);
    let noise = days::noise(pair)?;
    println!("Times are medians of {repeat} repeats ({clock}), ± half the width of the middle");
    println!("half. Ratios are medians of the ratios of each repeat, with their middle half in");
    println!(
        "brackets. {cores} cores. Noise: the Rust program against itself has ratio {noise}.\n"
    );
    Ok(())
}

/// The tables of a bus alone.
pub fn run_bus(program: &str, bus: &str, repeat: usize) -> Result<(), String> {
    let pair = Pair::new(program, repeat)?;
    print_method(&pair, repeat)?;
    bus::print(&pair, bus, repeat)?;
    blocks::print()
}
