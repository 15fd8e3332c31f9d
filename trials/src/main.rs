//! The commands; README.md lists them.

use std::collections::HashMap;
use std::io::{self, Read, Write};
use std::path::Path;
use std::process::ExitCode;
use std::time::{Duration, Instant};
use trials::bus::files::Disk;
use trials::bus::images::{Images, Reference};
use trials::bus::keep::Kept;
use trials::bus::Bus;
use trials::compare::{compare, Choice, Failure, Summary, LOOPS};
use trials::fast::Fast;
use trials::kills::Tally;
use trials::program::Program;
use trials::role::Role;
use trials::{
    benchmark, between, coverage, damage, demand, fast, fill, generate, interpret, kills, loops,
    reference, script, show, wall,
};

const USAGE: &str = "\
trials answers < SCRIPT                      answers of the reference
trials fast < SCRIPT                         answers of the fast program
trials bus [FILE] < SCRIPT                   answers of a bus over an image, kept in FILE
trials fast-bus [FILE] < SCRIPT              the same of the fast program
trials fill < SCRIPT                         the script with a start for each commit's '?'
trials generate [--kind KIND] [--seed S] [--scripts K]
trials compare PROGRAM [--scripts K] [--seed S] [--kind KIND] [--without KIND]
                       [--patience SECONDS] [--as bus]
trials images BUS [--seed S] [--times T]     damaged images and images from elsewhere
trials kills BUS [--stops K] [--between B] [--seed S] [--seconds T]
                                             stops at random moments, the image in a file,
                                             and B between keeping it and the answer
trials loops [TITLE]                         titles of the trials of the loop, or an input
trials coverage [--scripts K] [--seed S] [--kind KIND] [--without KIND]
trials benchmark PROGRAM [--bus BUS] [--repeat R] [--days D] [--only bus]
                                             run times beside those of the fast program
trials demand SCRIPT ANSWERS                 demand 3 from calls and answers alone
trials ask < SCRIPT                          the script with the questions that a picture needs
trials show [--columns N] [--colour yes|no] SCRIPT ANSWERS
                                             the evening in the terminal
trials picture SCRIPT ANSWERS [--title T] [--to FILE]
                                             the evening as a page for a browser
trials drawing SCRIPT ANSWERS [--width P] [--to FILE]
                                             the evening as one drawing (SVG)
trials wall-page [--to FILE] < PAGES         pages for the wall as a page for a browser
trials pages < IMAGE                         the pages for the wall of an image
trials wall PROGRAM [--images K] [--seed S] [--patience SECONDS]
trials wall-input TITLE [--images K] [--seed S]
                                             an input that the wall is given";

type Outcome = Result<(), String>;

/// The words of the command line: those after a name with two dashes, and the
/// others.
struct Words {
    named: HashMap<String, String>,
    others: Vec<String>,
}

impl Words {
    fn read() -> Result<Words, String> {
        let mut words = Words { named: HashMap::new(), others: Vec::new() };
        let mut arguments = std::env::args().skip(1);
        while let Some(word) = arguments.next() {
            match word.strip_prefix("--") {
                Some(name) => {
                    let value = arguments.next().ok_or(format!("--{name} needs a value"))?;
                    words.named.insert(name.to_string(), value);
                }
                None => words.others.push(word),
            }
        }
        Ok(words)
    }

    fn number(&self, name: &str, usual: u64) -> Result<u64, String> {
        match self.named.get(name) {
            None => Ok(usual),
            Some(value) => value.parse().map_err(|_| format!("--{name} {value} is no number")),
        }
    }

    fn choice(&self, scripts: u64) -> Result<Choice<'_>, String> {
        Ok(Choice {
            scripts: self.number("scripts", scripts)?,
            seed: self.number("seed", 1)?,
            kind: self.kind("kind")?,
            without: self.kind("without")?,
            role: self.role()?,
        })
    }

    /// A console, unless it is said to be a bus.
    fn role(&self) -> Result<Role, String> {
        match self.named.get("as").map(String::as_str) {
            None | Some("console") => Ok(Role::Console),
            Some("bus") => Ok(Role::Bus),
            Some(other) => Err(format!("--as {other}: there are console and bus")),
        }
    }

    /// The kind of scripts that a named word gives.
    fn kind(&self, name: &str) -> Result<Option<&str>, String> {
        let kind = self.named.get(name).map(String::as_str);
        let mut known: Vec<&str> = generate::KINDS.iter().map(|kind| kind.name).collect();
        known.push(LOOPS);
        match kind.filter(|kind| !known.contains(kind)) {
            Some(kind) => Err(format!("no kind {kind}; there are {}", known.join(", "))),
            None => Ok(kind),
        }
    }
}

fn main() -> ExitCode {
    match Words::read().and_then(|words| run(&words)) {
        Ok(()) => ExitCode::SUCCESS,
        Err(what) => {
            eprintln!("{what}");
            ExitCode::FAILURE
        }
    }
}

fn run(words: &Words) -> Outcome {
    match words.others.first().map(String::as_str) {
        Some("answers") => serve(reference::Station::fresh(1, 100, 0)),
        Some("fast") => serve(fast::Station::fresh(1, 100, 0)),
        Some("bus") => serve_bus(Reference, words.others.get(1)),
        Some("fast-bus") => serve_bus(Fast, words.others.get(1)),
        Some("fill") => fill_script(),
        Some("generate") => print_scripts(&words.choice(1)?),
        Some("compare") => run_comparison(words),
        Some("images") => run_images(words),
        Some("kills") => run_kills(words),
        Some("loops") => print_loops(words.others.get(1)),
        Some("coverage") => print_coverage(&words.choice(1_000)?),
        Some("benchmark") => run_benchmark(words),
        Some("demand") => check_files(&words.others[1..]),
        Some("ask") => print_lines(&show::ask::asked(&script::split(&read_input()?))),
        Some("show") => show_evening(words),
        Some("picture") => print_picture(words),
        Some("drawing") => print_drawing(words),
        Some("wall-page") => print_wall_page(words),
        Some("pages") => print_pages(),
        Some("wall") => run_wall(words),
        Some("wall-input") => print_wall_input(words),
        _ => Err(USAGE.to_string()),
    }
}

fn serve(yard: impl trials::yard::Yard) -> Outcome {
    let (input, output) = (io::stdin().lock(), io::stdout().lock());
    interpret::serve(yard, input, output).map_err(|error| error.to_string())
}

/// A bus, with its image in a file if there is one named.
fn serve_bus(images: impl Images, file: Option<&String>) -> Outcome {
    let (input, output) = (io::stdin().lock(), io::stdout().lock());
    let mut bus = Bus::new(images, Disk);
    let served = match file {
        None => interpret::serve_lines(|line, out| bus.answer(line, out), input, output),
        Some(file) => {
            let mut kept = Kept::new(bus, Path::new(file));
            interpret::serve_lines(|line, out| kept.answer(line, out), input, output)
        }
    };
    served.map_err(|error| error.to_string())
}

fn read_input() -> Result<Vec<u8>, String> {
    let mut bytes = Vec::new();
    io::stdin().lock().read_to_end(&mut bytes).map_err(|error| error.to_string())?;
    Ok(bytes)
}

fn fill_script() -> Outcome {
    let lines = script::split(&read_input()?);
    print_lines(&fill::fill(reference::Station::fresh(1, 100, 0), &lines))
}

fn print_scripts(choice: &Choice) -> Outcome {
    let scripts = (0..choice.scripts).filter_map(|number| choice.script(number));
    scripts.map(|script| script.lines).try_for_each(|lines| print_lines(&lines))
}

fn print_lines(lines: &[script::Line]) -> Outcome {
    print_bytes(&script::join(lines))
}

fn print_bytes(bytes: &[u8]) -> Outcome {
    io::stdout().write_all(bytes).map_err(|error| error.to_string())
}

/// The titles, or the input of one.
fn print_loops(title: Option<&String>) -> Outcome {
    let trials = loops::trials();
    let Some(title) = title else {
        let titles: Vec<script::Line> =
            trials.into_iter().map(|trial| trial.title.into_bytes()).collect();
        return print_lines(&titles);
    };
    let trial = trials.iter().find(|trial| trial.title == *title);
    print_bytes(&trial.ok_or(format!("no trial {title}"))?.input)
}

fn print_coverage(choice: &Choice) -> Outcome {
    for (sort, times) in coverage::coverage(choice) {
        println!("{times:>9}  {sort}");
    }
    Ok(())
}

fn run_benchmark(words: &Words) -> Outcome {
    let command = words.others.get(1).or(words.named.get("program")).ok_or(USAGE)?;
    let bus = words.named.get("bus").map(String::as_str);
    let (repeat, days) = (words.number("repeat", 5)? as usize, words.number("days", 5)?);
    match (bus, words.named.get("only").map(String::as_str)) {
        (Some(bus), Some("bus")) => benchmark::run_bus(command, bus, repeat),
        _ => benchmark::run(command, bus, repeat, days),
    }
}

fn run_comparison(words: &Words) -> Outcome {
    let command = words.others.get(1).or(words.named.get("program")).ok_or(USAGE)?;
    let choice = words.choice(1_000)?;
    let patience = Duration::from_secs(words.number("patience", 60)?);
    let begun = Instant::now();
    match compare(&Program::new(command, patience), &choice) {
        Ok(summary) => {
            let (scripts, answers) = (summary.scripts, summary.answers);
            let seconds = begun.elapsed().as_secs_f64();
            println!(
                "{scripts} scripts, {answers} answers, all as they should be ({seconds:.1} s)"
            );
            Ok(())
        }
        Err(failure) => {
            print_failure(&failure)?;
            Err(format!("the comparison failed, seed {}", choice.seed))
        }
    }
}

/// Damaged images and images from elsewhere, read by a bus.
fn run_images(words: &Words) -> Outcome {
    let command = words.others.get(1).or(words.named.get("program")).ok_or(USAGE)?;
    let (seed, times) = (words.number("seed", 1)?, words.number("times", 1)?);
    let patience = Duration::from_secs(words.number("patience", 60)?);
    let program = Program::new(command, patience);
    let begun = Instant::now();
    match damage::compare(&program, damage::trials(seed, times)) {
        Ok(Summary { scripts, answers }) => {
            let seconds = begun.elapsed().as_secs_f64();
            println!("{scripts} images, {answers} answers, all as they should be ({seconds:.1} s)");
            Ok(())
        }
        Err(failure) => {
            print_failure(&failure)?;
            Err(format!("a trial of images failed, seed {seed}"))
        }
    }
}

/// A bus that keeps its image in a file, stopped and started again.
fn run_kills(words: &Words) -> Outcome {
    let command = words.others.get(1).or(words.named.get("program")).ok_or(USAGE)?;
    let program: Vec<String> = command.split_whitespace().map(String::from).collect();
    let (seed, stops) = (words.number("seed", 1)?, words.number("stops", 300)? as usize);
    let longest = Duration::from_secs(words.number("seconds", 25)?);
    let begun = Instant::now();
    let between = words.number("between", 20)? as usize;
    let trial = kills::compare(&program, seed, stops, longest)
        .and_then(|tally| between::compare(&program, seed, between).map(|()| tally));
    match trial {
        Ok(Tally { stops, answers, after }) => {
            let seconds = begun.elapsed().as_secs_f64();
            println!("{stops} stops, {after} of them after the call in hand was kept,");
            println!("{answers} answers, no answered call lost;");
            println!("{between} stops between keeping an image and its answer ({seconds:.1} s)");
            Ok(())
        }
        Err(failure) => {
            print_failure(&failure)?;
            Err(format!("the trial of stops failed, seed {seed}"))
        }
    }
}

/// As comments around the script, so that the whole can be kept as a script.
fn print_failure(failure: &Failure) -> Outcome {
    println!("# {}", failure.title);
    print_lines(&failure.lines)?;
    println!("# {}", failure.what);
    Ok(())
}

/// A script and its answers, from the files that are named.
fn read_files(paths: &[String]) -> Result<(Vec<script::Line>, Vec<script::Line>), String> {
    let [calls, answers] = paths else { return Err(USAGE.to_string()) };
    let read = |path: &String| std::fs::read(path).map_err(|error| format!("{path}: {error}"));
    Ok((script::split(&read(calls)?), script::split(&read(answers)?)))
}

/// The story that two files tell.
fn read_story(words: &Words) -> Result<show::Story, String> {
    let (lines, answers) = read_files(&words.others[1..])?;
    Ok(show::read(&lines, &answers))
}

/// Drawn all the same, but the command fails where something is broken.
fn tell_broken(story: &show::Story) -> Outcome {
    match story.broken().as_slice() {
        [] => Ok(()),
        broken => Err(broken.join("\n")),
    }
}

fn show_evening(words: &Words) -> Outcome {
    let columns = words.number("columns", 80)? as usize;
    let colour = match words.named.get("colour").map(String::as_str) {
        None | Some("no") => false,
        Some("yes") => true,
        Some(other) => return Err(format!("--colour {other}: there are yes and no")),
    };
    let (lines, answers) = read_files(&words.others[1..])?;
    let story = show::read(&lines, &answers);
    let look = show::terminal::Look { columns, colour };
    let drawn = show::answers(&lines, &answers) + &show::terminal::draw(&story, &look);
    print_bytes(drawn.as_bytes())?;
    match story.broken().len() {
        0 => Ok(()),
        broken => Err(format!("broken: {broken}, listed above")),
    }
}

/// To the file that is named, else to standard output.
fn write_page(words: &Words, page: &str) -> Outcome {
    match words.named.get("to") {
        None => print_bytes(page.as_bytes()),
        Some(file) => show::put::put(Path::new(file), page.as_bytes())
            .map_err(|error| format!("the page could not be written: {file}: {error}")),
    }
}

fn print_picture(words: &Words) -> Outcome {
    let story = read_story(words)?;
    let title = words.named.get("title").map_or("An evening in the yard", String::as_str);
    write_page(words, &show::page::page(&story, title))?;
    tell_broken(&story)
}

/// Of the first station that took an order.
fn print_drawing(words: &Words) -> Outcome {
    let story = read_story(words)?;
    let width = words.number("width", 800)? as u32;
    let evening = story.evenings.iter().find(|evening| !evening.charges.is_empty());
    let evening = evening.ok_or("no order was taken")?;
    write_page(words, &show::standalone(evening, width))?;
    tell_broken(&story)
}

fn print_wall_page(words: &Words) -> Outcome {
    let pages = read_input()?;
    write_page(words, &show::wall::wall_page(&String::from_utf8_lossy(&pages)))
}

fn check_files(paths: &[String]) -> Outcome {
    let (lines, answers) = read_files(paths)?;
    demand::check(&lines, &answers).map_err(|broken| broken.to_string())?;
    println!("demand 3 holds");
    Ok(())
}

fn print_pages() -> Outcome {
    print_bytes(wall::page::of_image(&read_input()?).as_bytes())
}

fn run_wall(words: &Words) -> Outcome {
    let command = words.others.get(1).or(words.named.get("program")).ok_or(USAGE)?;
    let (images, seed) = (words.number("images", 2_000)?, words.number("seed", 1)?);
    let patience = Duration::from_secs(words.number("patience", 60)?);
    let program = Program::new(command, patience);
    let compared =
        wall::without_output(&program).and_then(|()| wall::compare(&program, seed, images));
    match compared {
        Ok(summary) => {
            let (images, lines) = (summary.scripts, summary.answers);
            println!("{images} inputs, {lines} lines, all as they should be");
            Ok(())
        }
        Err(failure) => {
            print_failure(&failure)?;
            Err(format!("the comparison failed, seed {seed}"))
        }
    }
}

fn print_wall_input(words: &Words) -> Outcome {
    let title = words.others.get(1).ok_or(USAGE)?;
    let (images, seed) = (words.number("images", 2_000)?, words.number("seed", 1)?);
    let input = wall::inputs(seed, images).find(|input| input.title == *title);
    print_bytes(&input.ok_or(format!("no input {title}"))?.bytes)
}
