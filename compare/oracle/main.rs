//! The crate behind the line protocol. What it has no check for is answered by `?`: there is nothing to compare.

use lines::{Answer, Referee, State, BLACK, EMPTY, LENT, WHITE};
use oracle::pieces::goban::Goban;
use oracle::pieces::stones::Color;
use oracle::pieces::util::coord::Coord;
use oracle::rules::game::Game;
use oracle::rules::{game_builder, GobanSizes, IllegalRules, Move, PlayError, Rule, CHINESE};

struct Desk {
    game: Game,
    begun: bool,
}

const BEYOND: &str = "the crate has no check for this";

/// Our flag byte in the crate's bits.
fn rules(flags: u64) -> Result<IllegalRules, &'static str> {
    let all = [IllegalRules::KO, IllegalRules::SUICIDE, IllegalRules::FILLEYE, IllegalRules::SUPERKO];
    if flags >= 1 << all.len() {
        return Err(BEYOND);
    }
    let set = all.into_iter().enumerate().filter(|(bit, _)| flags >> bit & 1 == 1);
    Ok(set.fold(IllegalRules::empty(), |sum, (_, rule)| sum | rule))
}

fn refusal(error: PlayError) -> u8 {
    match error {
        PlayError::GamePaused => 4,
        PlayError::PointNotEmpty => 6,
        PlayError::Suicide => 7,
        PlayError::Ko => 8,
        PlayError::FillEye => 9,
    }
}

fn number(colour: Option<Color>) -> u8 {
    match colour {
        None => EMPTY,
        Some(Color::Black) => BLACK,
        Some(Color::White) => WHITE,
    }
}

fn size(height: u64, width: u64) -> Result<GobanSizes, &'static str> {
    let fits = |side| (1..=19).contains(&side);
    match (height, width) {
        (9, 9) => Ok(GobanSizes::Nine),
        (13, 13) => Ok(GobanSizes::Thirteen),
        (19, 19) => Ok(GobanSizes::Nineteen),
        _ if fits(height) && fits(width) => Ok(GobanSizes::Custom(height as usize, width as usize)),
        _ => Err(BEYOND),
    }
}

impl Desk {
    fn on_board(&self, row: u64, column: u64) -> Result<Coord, &'static str> {
        let (height, width) = self.game.size();
        (row < height.into() && column < width.into()).then_some((row as u8, column as u8)).ok_or(BEYOND)
    }

    fn play(&mut self, call: Move) -> Answer {
        match self.game.try_play(call) {
            Ok(_) => {
                self.begun = true;
                Ok(0)
            }
            Err(error) => Ok(refusal(error)),
        }
    }
}

/// Whether the points are different and each chain that they make keeps a liberty.
fn takes(goban: &Goban, points: &[Coord]) -> bool {
    let mut goban = goban.clone();
    points.iter().all(|&point| {
        goban.get_color(point).is_none() && {
            goban.push(point, Color::Black);
            true
        }
    }) && !goban.chains().any(|chain| chain.is_dead())
}

impl Referee for Desk {
    fn new_game(&mut self, height: u64, width: u64, flags: u64, bytes: u64) -> Answer {
        if bytes != LENT {
            return Err(BEYOND);
        }
        let rule = Rule { flag_illegal: rules(flags)?, ..CHINESE };
        self.game = Game::new(size(height, width)?, rule);
        self.begun = false;
        Ok(0)
    }

    fn handicap(&mut self, points: &[(u64, u64)]) -> Answer {
        let points: Result<Vec<Coord>, _> = points.iter().map(|&(row, column)| self.on_board(row, column)).collect();
        let points = points?;
        if self.begun || !takes(self.game.goban(), &points) {
            return Err(BEYOND);
        }
        self.game.put_handicap(&points);
        self.begun = true;
        Ok(0)
    }

    fn stone(&mut self, row: u64, column: u64) -> Answer {
        let (row, column) = self.on_board(row, column)?;
        self.play(Move::Play(row, column))
    }

    fn pass(&mut self) -> Answer {
        self.play(Move::Pass)
    }

    fn resign(&mut self, player: u8) -> Answer {
        self.play(Move::Resign(if player == BLACK { Color::Black } else { Color::White }))
    }

    fn resume(&mut self) -> Answer {
        self.game.resume();
        Ok(0)
    }

    fn check(&self, row: u64, column: u64, flags: u64) -> Answer {
        let point = self.on_board(row, column)?;
        Ok(self.game.check_point_by(point, rules(flags)?).map_or(0, refusal))
    }

    fn legals(&self, flags: u64) -> Result<Result<Vec<usize>, u8>, &'static str> {
        let width = usize::from(self.game.size().1);
        let legals = self.game.legals_by(rules(flags)?);
        let mut points: Vec<usize> = legals.map(|(row, column)| usize::from(row) * width + usize::from(column)).collect();
        points.sort();
        Ok(Ok(points))
    }

    fn state(&self) -> State {
        let game = &self.game;
        let (height, width) = game.size();
        let (white_removed, black_removed) = game.prisoners();
        State {
            turn: number(Some(game.turn())),
            passes: game_builder::passes(game).into(),
            white_removed: white_removed.into(),
            black_removed: black_removed.into(),
            ko: game_builder::ko_point(game).map(|(row, column)| (row.into(), column.into())),
            outcome: number(game_builder::resigned(game)),
            records: game_builder::records(game) as u64,
            rows: (0..height).map(|row| (0..width).map(|column| number(game.goban().get_color((row, column)))).collect()).collect(),
        }
    }

    fn render(&self) -> Vec<u8> {
        self.game.goban().pretty_string().into_bytes()
    }
}

fn main() {
    let rule = Rule { flag_illegal: IllegalRules::empty(), ..CHINESE };
    let game = Game::new(GobanSizes::Custom(1, 1), rule);
    lines::serve(&mut Desk { game, begun: false }).expect("standard input or output");
}
