//! A line of the protocol with its answer as a line of antt, for the prover to compute.

use crate::call::Call;

/// What a referee said to a call: its number, what it listed or drew, and the state after it.
#[derive(Clone, PartialEq, Eq)]
pub struct Said {
    pub number: u64,
    pub listed: Vec<u64>,
    /// Turn, passes, White stones and Black stones removed.
    pub counts: [u64; 4],
    pub ko: Option<u64>,
    pub outcome: Option<u64>,
    pub records: u64,
    pub colours: Vec<u64>,
}

fn player(word: &str) -> Option<u64> {
    Some(match word {
        "-" => 0,
        "B" => 1,
        "W" => 2,
        _ => return None,
    })
}

impl Said {
    /// From the answer and the state, as they were written.
    pub fn read(call: &Call, answer: &str, state: &str) -> Option<Said> {
        let (number, listed) = match call {
            Call::Render => (0, (0..answer.len()).step_by(2).map(|at| u64::from_str_radix(answer.get(at..at + 2)?, 16).ok()).collect::<Option<_>>()?),
            _ => {
                let numbers: Option<Vec<u64>> = answer.split(' ').map(|word| word.parse().ok()).collect();
                let numbers = numbers?;
                (*numbers.first()?, numbers.get(2..).unwrap_or(&[]).to_vec())
            }
        };
        let words: Vec<&str> = state.split(' ').collect();
        let [turn, passes, white, black, ko, outcome, records, rows] = words[..] else {
            return None;
        };
        let width = rows.split('/').next()?.len() as u64;
        let ko = match ko.split_once(',') {
            Some((row, column)) => Some(row.parse::<u64>().ok()? * width + column.parse::<u64>().ok()?),
            None => None,
        };
        let colour = |sign| [b'.', b'X', b'O'].iter().position(|&other| other == sign).map(|colour| colour as u64);
        Some(Said {
            number,
            listed,
            counts: [player(turn)?, passes.parse().ok()?, white.parse().ok()?, black.parse().ok()?],
            ko,
            outcome: Some(player(outcome)?).filter(|&player| player != 0),
            records: records.parse().ok()?,
            colours: rows.bytes().filter(|&sign| sign != b'/').map(colour).collect::<Option<_>>()?,
        })
    }

    /// The places in which an answer can be wrong.
    pub const PLACES: usize = 10;

    /// The same with one place wrong.
    pub fn spoiled(&self, place: usize) -> Said {
        let mut said = self.clone();
        let other = |choice: Option<u64>| if choice == Some(1) { None } else { Some(1) };
        match place {
            0 => said.number += 1,
            1 => said.listed.push(0),
            2..=5 => said.counts[place - 2] += 1,
            6 => said.ko = other(said.ko),
            7 => said.outcome = other(said.outcome),
            8 => said.records += 1,
            _ => said.colours[0] = (said.colours[0] + 1) % 3,
        }
        said
    }

    /// As the words after the call.
    pub fn text(&self) -> String {
        let [turn, passes, white, black] = self.counts;
        let option = |choice: Option<u64>| choice.map_or("None".to_string(), |number| format!("(Some {number})"));
        format!(
            "{} {} {turn} {passes} {white} {black} {} {} {} {}",
            self.number,
            list(self.listed.iter().map(u64::to_string)),
            option(self.ko),
            option(self.outcome),
            self.records,
            list(self.colours.iter().map(u64::to_string))
        )
    }
}

/// A list in brackets, where it is not empty.
pub fn list(items: impl Iterator<Item = String>) -> String {
    let items: Vec<String> = items.collect();
    if items.is_empty() {
        "[]".to_string()
    } else {
        format!("({} ∷ [])", items.join(" ∷ "))
    }
}

/// The call in antt; where no lent length is named, this many bytes are lent.
pub fn call(call: &Call, lent: u128) -> String {
    match call {
        Call::New(height, width, flags, bytes) => format!("(starts {height} {width} {flags} {})", bytes.unwrap_or(lent)),
        Call::Handicap(points) => format!("(handicap_on {})", list(points.iter().map(|(row, column)| format!("spot {row} {column}")))),
        Call::Stone(row, column) => format!("(stone_at {row} {column})"),
        Call::Pass => "passes".to_string(),
        Call::ResignBlack => "(resigns 1)".to_string(),
        Call::ResignWhite => "(resigns 2)".to_string(),
        Call::Resume => "resumes".to_string(),
        Call::Check(row, column, flags) => format!("(checks_at {row} {column} {flags})"),
        Call::Legals(flags) => format!("(lists {flags})"),
        Call::Render => "draws".to_string(),
    }
}

/// The call as an entry of a replay: kind, row, column.
pub fn entry(call: &Call) -> Option<String> {
    Some(match call {
        Call::Stone(row, column) => format!("entry 0 {row} {column}"),
        Call::Pass => "entry 1 0 0".to_string(),
        Call::ResignBlack => "entry 2 0 0".to_string(),
        Call::ResignWhite => "entry 3 0 0".to_string(),
        Call::Resume => "entry 4 0 0".to_string(),
        _ => return None,
    })
}
