//! The twelve small games that are known by heart.

mod common;

use common::{after, game};
use samtrekhu::{Colour, Flags, Game, Move, Player, Point, Prisoners, Refusal};

/// White stones removed, then Black ones.
fn prisoners(game: &Game) -> (u32, u32) {
    let Prisoners { black, white } = game.facts().expect("a true state").prisoners;
    (white, black)
}

fn stones(game: &Game) -> usize {
    game.board().and_then(|board| board.get_stones()).expect("a true state").len()
}

#[test]
fn g1_suicide_on_one_point() {
    assert_eq!(game(1, 1, Flags::SUICIDE).stone((0, 0)), Err(Refusal::Suicide));
}

#[test]
fn g2_allowed_suicide_on_one_point() {
    let game = after(1, 1, Flags::NONE, &[(0, 0)]);
    let facts = game.facts().unwrap();
    assert_eq!((stones(&game), prisoners(&game)), (0, (0, 1)));
    assert_eq!((facts.ko, facts.records, facts.turn), (None, 1, Player::White));
}

#[test]
fn g3_eye_on_one_point() {
    assert_eq!(game(1, 1, Flags::FILLEYE).stone((0, 0)), Err(Refusal::FillEye));
}

#[test]
fn g4_ko_on_two_points() {
    let mut game = after(1, 2, Flags::KO, &[(0, 0), (0, 1)]);
    assert_eq!((prisoners(&game), game.facts().unwrap().ko), ((0, 1), Some(Point::new(0, 0))));
    assert_eq!(game.stone((0, 0)), Err(Refusal::Ko));
}

#[test]
fn g5_superko_on_two_points() {
    let mut game = after(1, 2, Flags::SUPERKO, &[(0, 0), (0, 1)]);
    assert_eq!(game.facts().unwrap().records, 2);
    assert_eq!(game.stone((0, 0)), Ok(()));
    assert_eq!(game.is_superko_at((0, 1)), Ok(true));
    assert_eq!(game.stone((0, 1)), Err(Refusal::Ko));
}

/// Black on both ends of three points, White passing, and Black to move.
fn ends(flags: Flags) -> Game {
    let mut game = game(1, 3, flags);
    game.replay(&[Move::stone(0, 0), Move::Pass, Move::stone(0, 2), Move::Pass]).expect("four moves");
    game
}

#[test]
fn g6_suicide_of_three() {
    assert_eq!(ends(Flags::SUICIDE).stone((0, 1)), Err(Refusal::Suicide));
}

#[test]
fn g7_allowed_suicide_of_three() {
    let mut game = ends(Flags::NONE);
    assert_eq!(game.stone((0, 1)), Ok(()));
    assert_eq!((stones(&game), prisoners(&game)), (0, (0, 3)));
}

#[test]
fn g8_ko_that_takes_nothing() {
    assert_eq!(after(1, 3, Flags::KO, &[(0, 0), (0, 1)]).stone((0, 0)), Err(Refusal::Ko));
}

#[test]
fn g9_suicide_comes_before_ko() {
    assert_eq!(after(1, 3, Flags::KO | Flags::SUICIDE, &[(0, 0), (0, 1)]).stone((0, 0)), Err(Refusal::Suicide));
}

#[test]
fn g10_handicap() {
    let mut game = game(1, 2, Flags::NONE);
    let (left, right) = (Point::new(0, 0), Point::new(0, 1));
    assert_eq!(game.handicap(&[left, right]), Err(Refusal::NoLiberty));
    assert_eq!(game.handicap(&[left]), Ok(()));
    assert_eq!(game.facts().unwrap().turn, Player::White);
    assert_eq!(game.board().unwrap().get_color(left), Ok(Colour::Black));
}

#[test]
fn g11_two_passes() {
    let mut game = game(9, 9, Flags::NONE);
    assert_eq!((game.pass(), game.pass()), (Ok(()), Ok(())));
    assert_eq!(game.resign(Player::White), Err(Refusal::GamePaused));
    assert_eq!(game.resume(), Ok(()));
    assert_eq!(game.facts().unwrap().turn, Player::Black);
    assert_eq!(game.stone((4, 4)), Ok(()));
}

#[test]
fn g12_beyond_the_board_and_beyond_the_history() {
    assert_eq!(game(9, 9, Flags::NONE).stone((0, 12)), Err(Refusal::OffBoard));
    let mut short = Game::with_history(9, 9, Flags::NONE, [0; 99]).unwrap();
    assert_eq!(short.stone((4, 4)), Err(Refusal::HistoryFull));
    let mut one = Game::with_history(9, 9, Flags::NONE, [0; 100]).unwrap();
    assert_eq!(one.stone((4, 4)), Ok(()));
    assert_eq!(one.stone((4, 5)), Err(Refusal::HistoryFull));
}

#[test]
fn the_picture_of_two_points() {
    let picture = after(1, 2, Flags::NONE, &[(0, 0)]).board().unwrap().pretty_string().unwrap();
    assert_eq!(picture.as_bytes(), [0xE2, 0x97, 0x8F, 0xE2, 0x94, 0x93, 0x0A]);
}
