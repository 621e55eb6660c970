//! The line protocol of a referee: one line in, one line out, whoever referees behind it.

use std::io::{self, BufRead, Write};

/// Longer lines are refused and skipped.
pub const LONGEST_LINE: usize = 8192;
/// History bytes lent where `new` names none, and the most that are lent.
pub const LENT: u64 = 655_360;
pub const MOST_LENT: u64 = 1_048_576;

/// A number of the table, or why this referee cannot be asked that.
pub type Answer = Result<u8, &'static str>;

/// The colour of a stone or a player; the numbers are those of the records.
pub const EMPTY: u8 = 0;
pub const BLACK: u8 = 1;
pub const WHITE: u8 = 2;

/// What a game shows after every call.
pub struct State {
    pub turn: u8,
    pub passes: u64,
    pub white_removed: u64,
    pub black_removed: u64,
    pub ko: Option<(u64, u64)>,
    pub outcome: u8,
    pub records: u64,
    pub rows: Vec<Vec<u8>>,
}

/// The calls. Numbers come as they were written; one above 2^64 - 1 comes as 2^64 - 1.
pub trait Referee {
    fn new_game(&mut self, height: u64, width: u64, flags: u64, bytes: u64) -> Answer;
    fn handicap(&mut self, points: &[(u64, u64)]) -> Answer;
    fn stone(&mut self, row: u64, column: u64) -> Answer;
    fn pass(&mut self) -> Answer;
    fn resign(&mut self, player: u8) -> Answer;
    fn resume(&mut self) -> Answer;
    fn check(&self, row: u64, column: u64, flags: u64) -> Answer;
    /// The legal points in ascending order, or the refusal's number.
    fn legals(&self, flags: u64) -> Result<Result<Vec<usize>, u8>, &'static str>;
    fn state(&self) -> State;
    fn render(&self) -> Vec<u8>;
}

/// Answers every line of standard input on standard output.
pub fn serve(referee: &mut impl Referee) -> io::Result<()> {
    let mut input = io::stdin().lock();
    let mut output = io::BufWriter::new(io::stdout().lock());
    while let Some(line) = next_line(&mut input)? {
        let answer = match line {
            Some(line) => answer(referee, &line),
            None => b"? line too long".to_vec(),
        };
        output.write_all(&answer)?;
        output.write_all(b"\n")?;
    }
    output.flush()
}

/// The next line without its end; inner `None` for one that is too long, outer `None` at the end of the input.
fn next_line(input: &mut impl BufRead) -> io::Result<Option<Option<Vec<u8>>>> {
    let mut line = Vec::new();
    if input.read_until(b'\n', &mut line)? == 0 {
        return Ok(None);
    }
    if line.last() == Some(&b'\n') {
        line.pop();
        if line.last() == Some(&b'\r') {
            line.pop();
        }
    }
    Ok(Some((line.len() <= LONGEST_LINE).then_some(line)))
}

/// The answer to one line, without its end.
pub fn answer(referee: &mut impl Referee, line: &[u8]) -> Vec<u8> {
    if line.is_empty() || line[0] == b'#' {
        return line.to_vec();
    }
    let text = match std::str::from_utf8(line) {
        Ok(text) => asked(referee, text),
        Err(_) => Err("not a line of this protocol"),
    };
    text.unwrap_or_else(|why| format!("? {why}")).into_bytes()
}

fn asked(referee: &mut impl Referee, line: &str) -> Result<String, &'static str> {
    let words: Vec<&str> = line.split([' ', '\t']).filter(|word| !word.is_empty()).collect();
    let (name, rest) = words.split_first().ok_or("no word")?;
    let number = |answer: Answer| answer.map(|number| number.to_string());
    match (*name, rest) {
        ("pass", []) => number(referee.pass()),
        ("resign", ["b"]) => number(referee.resign(BLACK)),
        ("resign", ["w"]) => number(referee.resign(WHITE)),
        ("resume", []) => number(referee.resume()),
        ("state", []) => Ok(state_text(&referee.state())),
        ("render", []) => Ok(referee.render().iter().map(|byte| format!("{byte:02x}")).collect()),
        _ => {
            let numbers: Option<Vec<u64>> = rest.iter().map(|word| decimal(word)).collect();
            match (*name, numbers.ok_or("not a call")?.as_slice()) {
                ("new", &[height, width, flags]) => number(referee.new_game(height, width, flags, LENT)),
                ("new", &[_, _, _, bytes]) if bytes > MOST_LENT => Err("too many bytes of history"),
                ("new", &[height, width, flags, bytes]) => number(referee.new_game(height, width, flags, bytes)),
                ("handicap", points) if points.len() % 2 == 0 => {
                    let points: Vec<(u64, u64)> = points.chunks(2).map(|pair| (pair[0], pair[1])).collect();
                    number(referee.handicap(&points))
                }
                ("stone", &[row, column]) => number(referee.stone(row, column)),
                ("check", &[row, column, flags]) => number(referee.check(row, column, flags)),
                ("legals", &[flags]) => referee.legals(flags).map(|list| match list {
                    Ok(points) => [0, points.len()].iter().chain(&points).map(usize::to_string).collect::<Vec<_>>().join(" "),
                    Err(number) => number.to_string(),
                }),
                _ => Err("not a call"),
            }
        }
    }
}

/// A decimal of any length; what does not fit is the largest number there is.
fn decimal(word: &str) -> Option<u64> {
    let digits = !word.is_empty() && word.bytes().all(|byte| byte.is_ascii_digit());
    digits.then(|| word.parse().unwrap_or(u64::MAX))
}

fn state_text(state: &State) -> String {
    let player = |colour| {
        if colour == BLACK {
            'B'
        } else if colour == WHITE {
            'W'
        } else {
            '-'
        }
    };
    let ko = state.ko.map_or("-".to_string(), |(row, column)| format!("{row},{column}"));
    let sign = |&colour: &u8| {
        if colour == BLACK {
            'X'
        } else if colour == WHITE {
            'O'
        } else {
            '.'
        }
    };
    let rows: Vec<String> = state.rows.iter().map(|row| row.iter().map(sign).collect()).collect();
    format!(
        "{} {} {} {} {} {} {} {}",
        player(state.turn),
        state.passes,
        state.white_removed,
        state.black_removed,
        ko,
        player(state.outcome),
        state.records,
        rows.join("/")
    )
}
