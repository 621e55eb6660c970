//! The plain referee as a program; `--slip N` makes it wrong on purpose.

use lines::{Answer, Referee, State, BLACK, EMPTY, LENT, WHITE};
use plain::slips::{Slip, SLIPS};
use plain::{Game, Reason};

struct Desk {
    game: Game,
    slip: Slip,
}

fn number(reason: Reason) -> Answer {
    Ok(reason.number())
}

impl Referee for Desk {
    fn new_game(&mut self, height: u64, width: u64, flags: u64, bytes: u64) -> Answer {
        let (reason, game) = Game::new_game(height, width, flags, bytes, self.slip);
        self.game = game;
        number(reason)
    }

    fn handicap(&mut self, points: &[(u64, u64)]) -> Answer {
        number(self.game.handicap(points))
    }

    fn stone(&mut self, row: u64, column: u64) -> Answer {
        number(self.game.stone(row, column))
    }

    fn pass(&mut self) -> Answer {
        number(self.game.pass())
    }

    fn resign(&mut self, player: u8) -> Answer {
        number(self.game.resign(player))
    }

    fn resume(&mut self) -> Answer {
        number(self.game.resume())
    }

    fn check(&self, row: u64, column: u64, flags: u64) -> Answer {
        number(self.game.check(row, column, flags))
    }

    fn legals(&self, flags: u64) -> Result<Result<Vec<usize>, u8>, &'static str> {
        Ok(self.game.legals(flags).map_err(Reason::number))
    }

    fn state(&self) -> State {
        let game = &self.game;
        State {
            turn: game.turn,
            passes: game.passes,
            white_removed: game.white_removed,
            black_removed: game.black_removed,
            ko: game.ko.map(|point| game.board.row_column(point)),
            outcome: game.outcome,
            records: game.records.len() as u64,
            rows: game.board.colours.chunks(game.board.width).map(<[u8]>::to_vec).collect(),
        }
    }

    /// One sign of three bytes a point, a newline a row.
    fn render(&self) -> Vec<u8> {
        let board = &self.game.board;
        let mut picture = String::new();
        for row in 0..board.height {
            for column in 0..board.width {
                picture.push(match board.colours[row * board.width + column] {
                    BLACK => '●',
                    WHITE => '○',
                    EMPTY => crossing(row == 0, row + 1 == board.height, column == 0, column + 1 == board.width),
                    _ => unreachable!(),
                });
            }
            picture.push('\n');
        }
        picture.into_bytes()
    }
}

/// The sign of an empty point: the top and the left come first where a board is one row or one column.
fn crossing(top: bool, bottom: bool, left: bool, right: bool) -> char {
    let vertical = if top {
        0
    } else if bottom {
        2
    } else {
        1
    };
    let horizontal = if left {
        0
    } else if right {
        2
    } else {
        1
    };
    [['┏', '┯', '┓'], ['┠', '┼', '┨'], ['┗', '┷', '┛']][vertical][horizontal]
}

fn main() {
    let words: Vec<String> = std::env::args().skip(1).collect();
    let slip = match words.iter().map(String::as_str).collect::<Vec<_>>()[..] {
        [] => Some(Slip::None),
        ["--slip", number] => number.parse::<usize>().ok().and_then(|number| SLIPS.get(number).copied()),
        _ => None,
    };
    let Some(slip) = slip else {
        eprintln!("usage: plain [--slip N], N from 0 (none) to {}", SLIPS.len() - 1);
        std::process::exit(2);
    };
    let game = Game::empty(1, 1, 0, LENT, slip);
    lines::serve(&mut Desk { game, slip }).expect("standard input or output");
}
