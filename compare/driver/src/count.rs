//! What was compared: calls by their number, and what happened on the boards.

use crate::generate::Step;
use plain::Reason;
use std::collections::{BTreeMap, BTreeSet};

#[derive(Default)]
pub struct Counts {
    pub games: usize,
    pub calls: usize,
    pub numbers: BTreeMap<(String, String), usize>,
    pub sizes: BTreeSet<String>,
    pub flags: BTreeSet<String>,
    pub events: BTreeMap<&'static str, usize>,
}

impl Counts {
    pub fn add(&mut self, lines: &[String], answers: &[String], steps: &[Step]) {
        self.games += 1;
        self.calls += lines.len();
        for (line, answer) in lines.iter().zip(answers) {
            let mut words = line.split_whitespace();
            let name = words.next().unwrap_or("(empty)");
            let known = ["new", "handicap", "stone", "pass", "resign", "resume", "check", "legals", "render"].contains(&name);
            let name = if known { name } else { "other lines" };
            let first = answer.split(' ').next().unwrap_or("");
            let number = if first.parse::<u8>().is_ok() || first == "?" { first } else { "text" };
            *self.numbers.entry((name.to_string(), number.to_string())).or_default() += 1;
            if name == "new" && number == "0" {
                let words: Vec<&str> = words.collect();
                self.sizes.insert(format!("{}x{}", words[0], words[1]));
                self.flags.insert(words[2].to_string());
            }
        }
        for step in steps {
            for event in events(step) {
                *self.events.entry(event).or_default() += 1;
            }
        }
    }

    pub fn print(&self, lists: bool) {
        let after = if lists { "a state and a legal list" } else { "a state" };
        println!("  {} games, {} calls, {after} after each; {} sizes, {} flag bytes", self.games, self.calls, self.sizes.len(), self.flags.len());
        let names: BTreeSet<&String> = self.numbers.keys().map(|(name, _)| name).collect();
        for name in names {
            let row = self.numbers.iter().filter(|((other, _), _)| other == name);
            let mut row: Vec<(Option<u8>, String)> = row.map(|((_, number), count)| (number.parse().ok(), format!("{number}: {count}"))).collect();
            row.sort();
            let row: Vec<String> = row.into_iter().map(|(_, text)| text).collect();
            println!("    {name:<12} {}", row.join("  "));
        }
        for (event, count) in &self.events {
            println!("    {event}: {count}");
        }
    }
}

/// The kinds of captures and refusals that a number alone does not tell.
fn events(step: &Step) -> Vec<&'static str> {
    let (enemy, own) = &step.taken;
    let mut events = match enemy.as_slice() {
        [] => vec![],
        [1] => vec!["captures of one stone"],
        [_] => vec!["captures of one chain of two stones or more"],
        [_, _] => vec!["captures of two chains"],
        [_, _, _] => vec!["captures of three chains"],
        _ => vec!["captures of four chains"],
    };
    match own.as_slice() {
        [] => {}
        [1] => events.push("suicides of one stone"),
        _ => events.push("suicides of a chain"),
    }
    events.extend(match step.reason {
        Reason::Ko => Some("8 by the ko step"),
        Reason::SuperkoByKo => Some("8 by the superko step through the ko test"),
        Reason::SuperkoByRecord => Some("8 by the superko step through a record"),
        Reason::EyeByCorners => Some("9 by four corners"),
        Reason::EyeByDiagonal => Some("9 by an empty diagonal"),
        _ => None,
    });
    events
}
