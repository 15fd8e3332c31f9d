//! Lines of a script with what was answered, for a terminal: all of them, and those that are
//! plans, were refused, are no calls, or show something broken.

use super::ask::is_question;
use super::entry::{Entry, Sort};
use super::markup::{flowing, shortened, without_controls};
use super::reading::Story;
use super::terminal::{Look, LEFT};
use crate::protocol::LONGEST_LINE;
use crate::script::{self, Line};
use crate::told;
use std::fmt::Write;

/// Up to so many letters a call has its answer beside it, as `./yard` prints it.
const BESIDE: usize = 20;

/// Each line of the script, calls with their answers; what was asked for the picture is left out.
pub fn answers(lines: &[Line], answers: &[Line]) -> String {
    let mut out = String::new();
    let mut next = 0;
    for pair in told::pairs(lines, answers) {
        let before = &lines[next..pair.place];
        next = pair.place + 1;
        let asked = is_question(lines, pair.place);
        let own = &before[..before.len() - usize::from(asked)];
        own.iter().for_each(|line| out.push_str(&(shown(line) + "\n")));
        if asked {
            continue;
        }
        let (call, answer) = (shown(&lines[pair.place]), pair.answer.unwrap_or_default());
        let answer = without_controls(&answer);
        let _ = match call.chars().count() {
            0..=BESIDE => writeln!(out, "{call:<BESIDE$} -> {answer}"),
            _ => writeln!(out, "{call}\n{:BESIDE$} -> {answer}", ""),
        };
    }
    lines[next..].iter().for_each(|line| out.push_str(&(shown(line) + "\n")));
    out + "\n"
}

fn shown(line: &Line) -> String {
    shortened(&without_controls(&script::show(line)), LONGEST_LINE)
}

/// The plans, the lines that changed nothing, and what is broken.
pub fn lists(story: &Story, look: &Look, out: &mut String) {
    let entries = || story.evenings.iter().flat_map(|evening| evening.shown());
    let of = |wanted: fn(Sort) -> bool| -> Vec<&Entry> {
        entries().map(|(_, entry)| entry).filter(|entry| wanted(entry.sort)).collect()
    };
    list("Plans:", &of(Sort::is_plan), look, out);
    list("Refused:", &of(|sort| sort == Sort::Refused), look, out);
    list("Unreadable:", &of(|sort| sort == Sort::Unreadable), look, out);
    let broken = story.broken();
    if broken.is_empty() {
        let kept: Vec<&str> = story.kept().split(' ').collect();
        out.push_str(&flowing(&kept, " ", look.columns));
        return;
    }
    out.push_str("BROKEN:\n");
    let (on, off) = if look.colour { ("\u{1b}[1;97;41m", "\u{1b}[0m") } else { ("", "") };
    for what in broken {
        let what = shortened(&without_controls(&what), LONGEST_LINE);
        let words: Vec<&str> = what.split(' ').collect();
        for line in flowing(&words, " ", look.columns - 2).lines() {
            let _ = writeln!(out, "  {on}{line}{off}");
        }
    }
}

fn list(title: &str, entries: &[&Entry], look: &Look, out: &mut String) {
    if entries.is_empty() {
        return;
    }
    let _ = writeln!(out, "{title}");
    for entry in entries {
        let meaning = match entry.sort {
            Sort::Unreadable => without_controls(&entry.answer) + entry.carriage_return(),
            _ => entry.meaning(),
        };
        let call = shortened(&without_controls(&entry.text), look.columns - LEFT);
        let text = format!("  line {:>4}  {call:<22}", entry.line);
        if text.chars().count() + 2 + meaning.chars().count() <= look.columns {
            let _ = writeln!(out, "{text}  {meaning}");
            continue;
        }
        // What does not fit beside the call stands below it.
        let _ = writeln!(out, "{}", text.trim_end());
        let words: Vec<&str> = meaning.split(' ').collect();
        for line in flowing(&words, " ", look.columns - LEFT - 2).lines() {
            let _ = writeln!(out, "{:LEFT$}  {line}", "");
        }
    }
    out.push('\n');
}
