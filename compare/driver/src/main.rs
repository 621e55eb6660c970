//! Plays seeded random games through two referees and compares every answer; the first difference is shrunk and shown.

mod antt;
mod call;
mod compare;
mod count;
mod definitions;
mod family;
mod generate;
mod gnugo;
mod kinds;
mod limit;
mod one_hash;
mod program;
mod sample;
mod shrink;
mod sizes;
mod words;

use compare::{Difference, Pair};
use count::Counts;
use family::{Family, Play};
use program::Program;
use std::io::{IsTerminal, Write};
use std::time::Instant;

const USAGE: &str = "usage: driver LEFT RIGHT FAMILY [--games N] [--seed N] [--show]
       driver LEFT RIGHT sizes [--games N] [--seed N]
       driver sample [--kinds]
       driver one-hash
       driver gnugo REFEREE GNUGO SIDE FLAGS GAMES SEED
       driver definitions ORACLE PLAIN FOLDER CALLS LARGE SEED
LEFT and RIGHT are commands with their words; FAMILY is square, tall, all, limit, words, or one size, as 3x2.
--show prints the lines of the games in place of playing them.
sizes tells which of the 361 sizes the two play alike, with and without legal lists.
sample prints short games that show each test both ways and each kind of capture; --kinds lists what they show.
one-hash prints a game on which a referee that compares hashes alone is wrong.
gnugo plays random games on SIDE × SIDE by FLAGS, 0 to 3, through a referee and GNU Go.
definitions writes a crate of specs into FOLDER: some thousand calls on small boards, CALLS more at random and LARGE games on 9×9 for the prover to compute.";

/// Of a longer game only so many lines at both ends are shown.
const LONGEST_SHOWN: usize = 400;
const ENDS_SHOWN: usize = 10;

struct Wanted {
    pair: Pair,
    family: String,
    games: usize,
    seed: u64,
    show: bool,
}

fn wanted() -> Option<Wanted> {
    let mut words = std::env::args().skip(1);
    let pair = Pair { left: Program::new(&words.next()?), right: Program::new(&words.next()?) };
    let mut wanted = Wanted { pair, family: words.next()?, games: 100, seed: 1, show: false };
    while let Some(word) = words.next() {
        match word.as_str() {
            "--games" => wanted.games = words.next()?.parse().ok()?,
            "--seed" => wanted.seed = words.next()?.parse().ok()?,
            "--show" => wanted.show = true,
            _ => return None,
        }
    }
    Some(wanted)
}

fn main() {
    let words: Vec<String> = std::env::args().skip(1).collect();
    match words.iter().map(String::as_str).collect::<Vec<_>>()[..] {
        ["sample"] => return sample::print(1, false),
        ["sample", "--kinds"] => return sample::print(1, true),
        ["one-hash"] => return one_hash::print(),
        ["gnugo", referee, gnugo, side, flags, games, seed] => {
            if let (Ok(side), Ok(flags), Ok(games), Ok(seed)) = (side.parse(), flags.parse(), games.parse(), seed.parse()) {
                let wanted = gnugo::Wanted { referee: Program::new(referee), gnugo: gnugo.to_string(), side, flags, games, seed };
                std::process::exit(if gnugo::play(&wanted) { 0 } else { 1 });
            }
        }
        ["definitions", oracle, plain, folder, calls, large, seed] => {
            if let (Ok(calls), Ok(large), Ok(seed)) = (calls.parse(), large.parse(), seed.parse()) {
                let (oracle, plain) = (Program::new(oracle), Program::new(plain));
                let wanted = definitions::Wanted { oracle, plain, folder: folder.as_ref(), calls, large, seed };
                return definitions::write(&wanted).expect("a folder to write");
            }
        }
        _ => {}
    }
    let Some(wanted) = wanted() else {
        eprintln!("{USAGE}");
        std::process::exit(2);
    };
    if wanted.family == "sizes" {
        return sizes::tell(&wanted.pair, wanted.seed, wanted.games);
    }
    let Some(family) = family::named(&wanted.family) else {
        eprintln!("{USAGE}");
        std::process::exit(2);
    };
    let games = wanted.games.min(family.most());
    if wanted.show {
        (0..games).for_each(|number| family.game(wanted.seed, number).lines.iter().for_each(|line| println!("{line}")));
        return;
    }
    std::process::exit(if play_all(&wanted, family, games) { 0 } else { 1 });
}

/// Games are played some at a time, each time by programs started anew, so that a program may keep its answers to its end.
fn play_all(wanted: &Wanted, family: Family, games: usize) -> bool {
    let together = if family == Family::Limit { 1 } else { 20 };
    let mut counts = Counts::default();
    let mut progress = Progress::new(wanted, games);
    for first in (0..games).step_by(together) {
        let plays: Vec<Play> = (first..games.min(first + together)).map(|number| family.game(wanted.seed, number)).collect();
        let lines: Vec<&[String]> = plays.iter().map(|play| play.lines.as_slice()).collect();
        match wanted.pair.play(&lines, family.lists()) {
            Ok(answers) => plays.iter().zip(&answers).for_each(|(play, answers)| counts.add(&play.lines, answers, &play.steps)),
            Err(found) => {
                progress.end();
                let alike = counts.calls + lines[..found.game].iter().map(|game| game.len()).sum::<usize>() + found.call;
                println!(
                    "{} and {} differ: family {}, seed {}, game {}, call {}, after {alike} calls that were answered alike.",
                    wanted.pair.left.name,
                    wanted.pair.right.name,
                    wanted.family,
                    wanted.seed,
                    first + found.game,
                    found.call
                );
                show(&wanted.pair, lines[found.game], family.lists(), &found);
                return false;
            }
        }
        progress.tell(&counts);
    }
    progress.end();
    println!("{} and {} agree, family {}, seed {}:", wanted.pair.left.name, wanted.pair.right.name, wanted.family, wanted.seed);
    counts.print(family.lists());
    true
}

/// Shrinks the game and prints it with both answers at its end.
fn show(pair: &Pair, lines: &[String], lists: bool, found: &Difference) {
    let (small, found) = shrink::shrink(pair, lines, lists, found);
    println!("The smallest game found:");
    let hidden = if small.len() > LONGEST_SHOWN { ENDS_SHOWN..small.len() - ENDS_SHOWN } else { 0..0 };
    small[..hidden.start].iter().for_each(|line| println!("{line}"));
    if !hidden.is_empty() {
        println!("# {} lines between", hidden.len());
    }
    small[hidden.end..].iter().chain(&found.after).for_each(|line| println!("{line}"));
    println!("  {}: {}", pair.left.name, found.left);
    println!("  {}: {}", pair.right.name, found.right);
}

/// A line that is written over on a terminal, and now and then a line elsewhere.
struct Progress {
    title: String,
    games: usize,
    began: Instant,
    told: u64,
}

impl Progress {
    fn new(wanted: &Wanted, games: usize) -> Progress {
        let title = format!("{} and {}, {}", wanted.pair.left.name, wanted.pair.right.name, wanted.family);
        Progress { title, games, began: Instant::now(), told: 0 }
    }

    fn tell(&mut self, counts: &Counts) {
        let seconds = self.began.elapsed().as_secs();
        let terminal = std::io::stderr().is_terminal();
        if !terminal && (seconds < self.told + 10 && counts.games < self.games) {
            return;
        }
        self.told = seconds;
        let ends = if terminal { ("\r", "") } else { ("", "\n") };
        eprint!("{}{}: {} of {} games, {} calls, {} s{}", ends.0, self.title, counts.games, self.games, counts.calls, seconds, ends.1);
        std::io::stderr().flush().unwrap_or(());
    }

    fn end(&self) {
        if std::io::stderr().is_terminal() {
            eprintln!();
        }
    }
}
