//! GNU Go as a third opinion on square boards, by flags 0 to 3: after every call which points are legal, the stones, the prisoners.
//! Its ko rule is another one where suicide is allowed; what parts for that reason is counted apart.

use crate::call::Call;
use crate::generate::{self, Scope};
use crate::program::Program;
use plain::board::{Board, BLACK, EMPTY, WHITE};
use random::Random;
use std::collections::BTreeSet;

const KO: u8 = 1;
const SUICIDE: u8 = 2;

#[derive(Default)]
pub struct Counts {
    games: usize,
    calls: usize,
    points: usize,
    forbidden: usize,
    on_the_ko_point: usize,
    suicides_on_the_ko_point: usize,
}

impl Counts {
    pub fn print(&self) {
        let Counts { games, calls, points, forbidden, on_the_ko_point, .. } = self;
        println!(
            "  {games} games, {calls} calls, {points} empty points asked, {forbidden} forbidden by both, {on_the_ko_point} of them on the ko point"
        );
        if self.suicides_on_the_ko_point > 0 {
            println!("  {} suicides on the ko point: 8 here, accepted by GNU Go", self.suicides_on_the_ko_point);
        }
    }
}

/// What our referee says of a game: the state, and the points that are legal for the player to move.
struct Position {
    board: Board,
    turn: u8,
    prisoners: (u64, u64),
    ko: Option<usize>,
    legal: BTreeSet<usize>,
    /// How many stones of the player to move the last stone took.
    taken: u64,
}

impl Position {
    fn read(side: usize, state: &str, legals: &str, before: Option<&Position>) -> Option<Position> {
        let words: Vec<&str> = state.split(' ').collect();
        let [turn, _, white, black, ko, _, _, rows] = words[..] else {
            return None;
        };
        let mut board = Board::empty(side, side);
        board.colours = rows.bytes().filter(|&sign| sign != b'/').map(colour).collect();
        let ko = match ko.split_once(',') {
            Some((row, column)) => board.point(row.parse().ok()?, column.parse().ok()?),
            None => None,
        };
        let numbers: Option<Vec<usize>> = legals.split(' ').map(|word| word.parse().ok()).collect();
        let turn = if turn == "B" { BLACK } else { WHITE };
        let prisoners: (u64, u64) = (white.parse().ok()?, black.parse().ok()?);
        let of_the_mover = |(white, black)| if turn == BLACK { black } else { white };
        Some(Position {
            board,
            turn,
            prisoners,
            taken: of_the_mover(prisoners).wrapping_sub(before.map_or(0, |before| of_the_mover(before.prisoners))),
            ko,
            legal: numbers?.get(2..)?.iter().copied().collect(),
        })
    }

    /// One stone was taken there, and a stone there would take nothing: the ko test refuses it, and GNU Go has no ko, since nothing is taken back.
    fn suicide_on_the_ko_point(&self, point: usize) -> bool {
        self.ko == Some(point) && self.taken == 1 && self.board.neighbours(point).all(|next| self.board.chain(next).liberties.len() > 1)
    }
}

fn colour(sign: u8) -> u8 {
    match sign {
        b'X' => BLACK,
        b'O' => WHITE,
        _ => EMPTY,
    }
}

/// The point in GNU Go's words: a letter without I, rows from below.
fn vertex(side: usize, point: usize) -> String {
    let letter = b"ABCDEFGHJKLMNOPQRST"[point % side] as char;
    format!("{letter}{}", side - point / side)
}

fn name(colour: u8) -> &'static str {
    if colour == BLACK {
        "black"
    } else {
        "white"
    }
}

/// What both are asked of one game. `moves` are GNU Go's words for the accepted calls, `at` the places of the calls in the lines.
struct Asked {
    lines: Vec<String>,
    positions: Vec<Position>,
    moves: Vec<Vec<String>>,
    at: Vec<usize>,
}

/// Plays the lines through our referee.
fn ask(referee: &Program, side: usize, flags: u8, calls: &[Call]) -> Result<Asked, String> {
    let lines: Vec<String> = calls.iter().map(Call::to_string).collect();
    let text: String = lines.iter().map(|line| format!("{line}\nstate\nlegals {flags}\n")).collect();
    let answers = referee.answers(text.as_bytes());
    let mut asked = Asked { lines, positions: Vec::new(), moves: Vec::new(), at: Vec::new() };
    for (place, call) in calls.iter().enumerate() {
        let answer = answers.at(3 * place);
        // A stone and the legal list must say the same; a paused game takes no stone.
        if let (&Call::Stone(row, column), Some(before)) = (call, asked.positions.last()) {
            let listed = before.legal.contains(&(row as usize * side + column as usize));
            if answer != "4" && (answer == "0") != listed {
                return Err(format!(
                    "{} answers {answer} and its legal list has the point: {listed}\nafter\n{}",
                    referee.name,
                    asked.lines[..=place].join("\n")
                ));
            }
        }
        if answer != "0" {
            continue;
        }
        let turn = asked.positions.last().map_or(BLACK, |position| position.turn);
        let play = |colour: u8, row: u128, column: u128| format!("play {} {}", name(colour), vertex(side, row as usize * side + column as usize));
        let moves = match call {
            Call::Handicap(points) => points.iter().map(|&(row, column)| play(BLACK, row, column)).collect(),
            &Call::Stone(row, column) => vec![play(turn, row, column)],
            Call::Pass => vec![format!("play {} pass", name(turn))],
            _ => Vec::new(),
        };
        let (state, legals) = (answers.at(3 * place + 1), answers.at(3 * place + 2));
        let mut position =
            Position::read(side, &state, &legals, asked.positions.last()).ok_or(format!("{} answers {state} and {legals}", referee.name))?;
        // A resumption takes nothing, and the ko point stays.
        if let (Call::Resume, Some(before)) = (call, asked.positions.last()) {
            position.taken = before.taken;
        }
        asked.positions.push(position);
        asked.moves.push(moves);
        asked.at.push(place);
    }
    Ok(asked)
}

/// GNU Go's words for one game: the moves, and after each of our calls every empty point, the stones and the prisoners.
fn words(side: usize, asked: &Asked) -> String {
    let mut words = vec![format!("boardsize {side}"), "clear_board".to_string()];
    for (moves, position) in asked.moves.iter().zip(&asked.positions) {
        words.extend(moves.iter().cloned());
        words.extend(empty(&position.board).map(|point| format!("is_legal {} {}", name(position.turn), vertex(side, point))));
        words.extend(["list_stones black", "list_stones white", "captures black", "captures white"].map(str::to_string));
    }
    words.join("\n") + "\n"
}

fn empty(board: &Board) -> impl Iterator<Item = usize> + '_ {
    (0..board.area()).filter(|&point| board.colours[point] == EMPTY)
}

/// Compares one game; the error says where the two part, with the lines up to there.
fn compare(wanted: &Wanted, gnugo: &Program, calls: &[Call], counts: &mut Counts) -> Result<(), String> {
    let side = wanted.side;
    let asked = ask(&wanted.referee, side, wanted.flags, calls)?;
    let text = gnugo.answers(words(side, &asked).as_bytes());
    // An answer is a line that begins with = or ?, then an empty one.
    let mut at = 0;
    let mut next = || {
        while text.at(at).is_empty() {
            at += 1;
        }
        at += 1;
        text.at(at - 1)
    };
    let accepted = |answer: String, what: &str| if answer.starts_with('=') { Ok(answer) } else { Err(format!("GNU Go to {what}: {answer}")) };
    accepted(next(), "boardsize")?;
    accepted(next(), "clear_board")?;
    counts.games += 1;
    for ((place, moves), position) in asked.at.iter().zip(&asked.moves).zip(&asked.positions) {
        let here = |why: String| format!("{why}\nafter\n{}", asked.lines[..=*place].join("\n"));
        counts.calls += 1;
        for played in moves {
            accepted(next(), played).map_err(here)?;
        }
        for point in empty(&position.board) {
            let theirs = accepted(next(), "is_legal").map_err(here)? == "= 1";
            let ours = position.legal.contains(&point);
            counts.points += 1;
            match (ours, theirs) {
                (false, false) => {
                    counts.forbidden += 1;
                    counts.on_the_ko_point += usize::from(position.ko == Some(point));
                }
                (true, true) => {}
                (false, true) if wanted.flags == KO && position.suicide_on_the_ko_point(point) => counts.suicides_on_the_ko_point += 1,
                _ => return Err(here(format!("row {} column {}: legal here {ours}, for GNU Go {theirs}", point / side, point % side))),
            }
        }
        for colour in [BLACK, WHITE] {
            let theirs = accepted(next(), "list_stones").map_err(here)?;
            let theirs: BTreeSet<String> = theirs[1..].split_whitespace().map(str::to_string).collect();
            let stones = (0..position.board.area()).filter(|&point| position.board.colours[point] == colour);
            let ours: BTreeSet<String> = stones.map(|point| vertex(side, point)).collect();
            if ours != theirs {
                return Err(here(format!("{} stones here {ours:?}, for GNU Go {theirs:?}", name(colour))));
            }
        }
        // What Black captured are White stones.
        for (ours, taker) in [(position.prisoners.0, BLACK), (position.prisoners.1, WHITE)] {
            let theirs = accepted(next(), "captures").map_err(here)?;
            if theirs != format!("= {ours}") {
                return Err(here(format!("stones taken by {} here {ours}, for GNU Go {theirs}", name(taker))));
            }
        }
    }
    Ok(())
}

pub struct Wanted {
    pub referee: Program,
    pub gnugo: String,
    pub side: usize,
    pub flags: u8,
    pub games: u64,
    pub seed: u64,
}

/// Random games on a square board; true if nothing but the known difference was found.
pub fn play(wanted: &Wanted) -> bool {
    let Wanted { referee, side, flags, seed, .. } = wanted;
    let ko = if flags & KO != 0 { "--simple-ko" } else { "--no-ko" };
    let suicide = if flags & SUICIDE != 0 { "--forbid-suicide" } else { "--allow-all-suicide" };
    let gnugo = Program::new(&format!("{} --mode gtp {ko} {suicide}", wanted.gnugo));
    let scope = Scope { beyond_the_crate: false, legal_lists: false, flags: Some(*flags) };
    let mut counts = Counts::default();
    for number in 0..wanted.games {
        let steps = generate::game(&mut Random::new(*seed, number), scope, *side, *side);
        let asked = |call: &Call| matches!(call, Call::New(..) | Call::Handicap(..) | Call::Stone(..) | Call::Pass | Call::Resume);
        let calls: Vec<Call> = steps.into_iter().map(|step| step.call).filter(asked).collect();
        if let Err(why) = compare(wanted, &gnugo, &calls, &mut counts) {
            println!("{} and GNU Go differ on {side}×{side}, flags {flags}, seed {seed}, game {number}:\n{why}", referee.name);
            return false;
        }
    }
    println!("{} and GNU Go agree on {side}×{side}, flags {flags}, seed {seed}:", referee.name);
    counts.print();
    true
}
