//! Makes a game with a difference small: lines, rows, columns and flags are left out while the two still part.

use crate::compare::{Difference, Pair};
use std::time::{Duration, Instant};

/// A game of 65,535 stones has too many lines to try them all.
const LONGEST: Duration = Duration::from_secs(30);

/// Pairs of lines are tried in games up to this many lines.
const LONGEST_FOR_PAIRS: usize = 40;

struct Shrinker<'a> {
    pair: &'a Pair,
    lists: bool,
    began: Instant,
    game: Vec<String>,
    found: Difference,
    /// Whether the first difference was one where a side has no answer to give; else such ones are not followed.
    takes_beyond: bool,
}

/// A smaller game that still shows a difference, cut off at it.
pub fn shrink(pair: &Pair, game: &[String], lists: bool, found: &Difference) -> (Vec<String>, Difference) {
    let game = game[..=found.call].to_vec();
    let mut shrinker = Shrinker { pair, lists, began: Instant::now(), game, found: found.clone(), takes_beyond: found.is_beyond() };
    loop {
        let before = shrinker.game.clone();
        shrinker.drop_games();
        shrinker.drop_lines();
        shrinker.drop_pairs();
        shrinker.drop_rows_and_columns();
        shrinker.simplify_the_start();
        if shrinker.game == before || !shrinker.has_time() {
            return (shrinker.game, shrinker.found);
        }
    }
}

impl Shrinker<'_> {
    fn has_time(&self) -> bool {
        self.began.elapsed() < LONGEST
    }

    fn take_if_it_differs(&mut self, candidate: Vec<String>) -> bool {
        match self.pair.difference(&candidate, self.lists) {
            Some(found) if self.takes_beyond || !found.is_beyond() => {
                self.game = candidate[..=found.call].to_vec();
                self.found = found;
                true
            }
            _ => false,
        }
    }

    /// What comes before another new game.
    fn drop_games(&mut self) {
        let starts = (1..self.game.len()).rev().filter(|&line| self.game[line].starts_with("new "));
        for start in starts.collect::<Vec<_>>() {
            if self.take_if_it_differs(self.game[start..].to_vec()) {
                return;
            }
        }
    }

    /// Half of the lines at first, then fewer at a time; the first line stays.
    fn drop_lines(&mut self) {
        let mut size = self.game.len() / 2;
        while size > 0 {
            let mut from = 1;
            while from < self.game.len() && self.has_time() {
                let to = (from + size).min(self.game.len());
                let shorter = [&self.game[..from], &self.game[to..]].concat();
                if shorter.len() < 2 || !self.take_if_it_differs(shorter) {
                    from += size;
                }
            }
            size /= 2;
        }
    }

    /// Two stones apart from each other: one alone would change whose turn it is.
    fn drop_pairs(&mut self) {
        let mut first = 1;
        while first < self.game.len() && self.game.len() <= LONGEST_FOR_PAIRS {
            let dropped = (first + 1..self.game.len()).any(|second| {
                let mut shorter = self.game.clone();
                shorter.remove(second);
                shorter.remove(first);
                shorter.len() >= 2 && self.take_if_it_differs(shorter)
            });
            if !dropped {
                first += 1;
            }
        }
    }

    /// A square board loses a row and a column together, and stays square.
    fn drop_rows_and_columns(&mut self) {
        let mut least = (0, 0);
        while let Some((height, width)) = size(&self.game[0]) {
            let (row, column) = least;
            let cuts = if height == width { vec![(Some(row), Some(column))] } else { vec![(Some(row), None), (None, Some(row))] };
            let cut = cuts.into_iter().any(|(row, column)| {
                let fits = row.is_none_or(|row| row < height && height > 1) && column.is_none_or(|column| column < width && width > 1);
                fits && self.take_if_it_differs(without(&self.game, row, column))
            });
            if cut {
                continue;
            }
            least = if height == width && column + 1 < width { (row, column + 1) } else { (row + 1, 0) };
            if least.0 >= height.max(width) {
                return;
            }
        }
    }

    /// Fewer flags, and no lent length.
    fn simplify_the_start(&mut self) {
        for bit in 0..4 {
            self.start_with(|words| {
                let flags = words.get(3)?.parse::<u64>().ok()?;
                words[3] = (flags & !(1 << bit)).to_string();
                Some(())
            });
        }
        self.start_with(|words| (words.len() > 4).then(|| words.truncate(4)));
    }

    fn start_with(&mut self, change: impl Fn(&mut Vec<String>) -> Option<()>) {
        let mut words: Vec<String> = self.game[0].split(' ').map(str::to_string).collect();
        if words[0] == "new" && change(&mut words).is_some() && words.join(" ") != self.game[0] {
            let mut simpler = self.game.clone();
            simpler[0] = words.join(" ");
            self.take_if_it_differs(simpler);
        }
    }
}

/// The sides that the first line names.
fn size(line: &str) -> Option<(u64, u64)> {
    let mut words = line.strip_prefix("new ")?.split(' ');
    Some((words.next()?.parse().ok()?, words.next()?.parse().ok()?))
}

/// The game without a row and a column: their points go, those beyond move up.
fn without(game: &[String], row: Option<u64>, column: Option<u64>) -> Vec<String> {
    let moved = |place: u64, cut: Option<u64>| match cut {
        Some(cut) if place == cut => None,
        Some(cut) if place > cut => Some(place - 1),
        _ => Some(place),
    };
    let shifted = |line: &String| {
        let words: Vec<&str> = line.split(' ').collect();
        let numbers: Option<Vec<u64>> = words[1..].iter().map(|word| word.parse().ok()).collect();
        let Some(numbers) = numbers else {
            return Some(line.clone());
        };
        let point = |pair: &[u64]| Some([moved(pair[0], row)?, moved(pair[1], column)?]);
        let numbers = match (words[0], numbers.as_slice()) {
            ("new", [height, width, rest @ ..]) => {
                let sides = [height.saturating_sub(row.is_some().into()), width.saturating_sub(column.is_some().into())];
                [&sides, rest].concat()
            }
            ("stone", [_, _]) | ("check", [_, _, _]) => [&point(&numbers)?, &numbers[2..]].concat(),
            ("handicap", points) if points.len() % 2 == 0 => points.chunks(2).filter_map(point).flatten().collect(),
            _ => numbers,
        };
        Some(numbers.iter().fold(words[0].to_string(), |line, number| format!("{line} {number}")))
    };
    game.iter().filter_map(shifted).collect()
}
