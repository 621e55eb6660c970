//! Games on threads: each call fits on a small stack, and games share nothing.

#[path = "../examples/random/mod.rs"]
mod random;

use random::Random;
use samtrekhu::{Board, Colour, Flags, Game, Move, Player, Point, Refusal};
use std::thread;

/// A thread of this size has room for every call.
const STACK: usize = 262_144;

/// Every question of a game and of its board at one point, whatever they answer. Not inlined: the boards that it passes would be on the caller's stack.
#[inline(never)]
fn ask(game: &Game, point: Point) -> Result<(), Refusal> {
    assert!(game.is_true());
    let _ = (game.check_point(point), game.check_point_by(Flags::ALL, point));
    game.legals()?;
    game.legals_by(Flags::ALL)?;
    game.empty_points()?;
    game.facts()?;
    game.will_capture(point)?;
    game.is_suicide_at(point)?;
    game.is_ko_at(point)?;
    game.is_eye_at(point)?;
    game.is_superko_at(point)?;
    let board = game.board()?;
    assert!(board.is_true());
    let (height, width) = board.size()?;
    board.zobrist_hash()?;
    board.number_of_stones()?;
    board.number_of_chains()?;
    board.get_color(point)?;
    board.has_liberties(point)?;
    board.chain_at(point)?;
    board.contains_liberty(point, point)?;
    board.get_stones()?;
    board.get_coords_by_color(Colour::White)?;
    board.get_empty_coords()?;
    board.chain_stones(point)?;
    board.chain_liberties(point)?;
    board.get_connected_points(point)?;
    board.get_connected_stones(point)?;
    board.get_liberties(point)?;
    board.get_connected_groups(point)?;
    board.pretty_string()?;
    Board::new(height, width)?;
    Board::from_colours(height, width, &board.to_vec()?)?;
    Ok(())
}

fn stone(game: &mut Game, point: Point) -> Result<(), Refusal> {
    game.stone(point)
}

fn replay(game: &mut Game, point: Point) -> Result<(), Refusal> {
    game.replay(&[Move::Stone(point), Move::Pass, Move::Resume]).map_err(|stopped| stopped.refusal)
}

/// A random game that makes every call, laying its stones as it is told, and the hash of its last board.
fn play(side: u8, flags: Flags, seed: u64, stones: usize, lay: fn(&mut Game, Point) -> Result<(), Refusal>) -> Result<u64, Refusal> {
    let mut random = Random(seed);
    let mut game = Game::new(side, side, flags)?;
    game.handicap(&[Point::new(0, 0), Point::new(side - 1, side - 1)])?;
    let mut accepted = 0;
    for _ in 0..100 * stones {
        let point = Point::new(random.below(side), random.below(side));
        if lay(&mut game, point).is_err() {
            continue;
        }
        accepted += 1;
        if accepted % 16 == 0 {
            game.pass()?;
            game.resume()?;
            game.resign(Player::White)?;
            ask(&game, point)?;
        }
        if accepted == stones {
            break;
        }
    }
    game.board()?.zobrist_hash()
}

fn on_thread<T: Send + 'static>(stack: usize, call: impl FnOnce() -> T + Send + 'static) -> thread::JoinHandle<T> {
    thread::Builder::new().stack_size(stack).spawn(call).expect("a thread")
}

#[test]
fn every_call_fits_on_a_small_stack() {
    for (side, byte) in [(2, 8), (3, 11), (5, 0), (9, 15), (19, 0), (19, 11), (19, 15)] {
        let flags = Flags::from_byte(byte);
        assert!(on_thread(STACK, move || play(side, flags, 7, 320, stone)).join().expect("no overflow").is_ok());
        assert!(on_thread(STACK, move || play(side, flags, 7, 320, replay)).join().expect("no overflow").is_ok());
    }
}

#[test]
fn games_on_threads_do_not_meet() {
    let game = |seed| play(9, Flags::KO | Flags::SUPERKO, seed, 100, stone).unwrap();
    let alone = (1..=8).map(game).collect::<Vec<_>>();
    let threads = (1..=8).map(|seed| on_thread(STACK, move || game(seed))).collect::<Vec<_>>();
    let together = threads.into_iter().map(|thread| thread.join().unwrap()).collect::<Vec<_>>();
    assert_eq!(alone, together);
    assert!(alone.iter().any(|&hash| hash != alone[0]), "the games are different ones");
}

#[test]
fn a_game_goes_from_thread_to_thread() {
    let mut game = Game::new(9, 9, Flags::ALL).unwrap();
    for row in 0..9 {
        game = on_thread(STACK, move || game.stone((row, row)).map(|()| game)).join().unwrap().unwrap();
    }
    assert_eq!(game.facts().unwrap().accepted, 9);
}
