//! Referees a short game: what each move is answered, then the board and the prisoners.

use samtrekhu::{Flags, Game, Move, Player, Refusal};

/// A ko in one corner and a suicide in another, with some moves that no game allows.
const MOVES: [Move; 18] = [
    Move::stone(0, 1),
    Move::stone(0, 2),
    Move::stone(1, 0),
    Move::stone(1, 1),
    Move::stone(4, 5),
    Move::stone(4, 1),
    Move::stone(0, 0),
    Move::stone(0, 1),
    Move::stone(3, 0),
    Move::stone(4, 0),
    Move::stone(0, 0),
    Move::stone(0, 1),
    Move::Pass,
    Move::Pass,
    Move::stone(2, 2),
    Move::Resume,
    Move::stone(2, 2),
    Move::Resign(Player::Black),
];

fn main() -> Result<(), Refusal> {
    let mut game = Game::new(5, 5, Flags::KO | Flags::SUICIDE)?;
    for play in MOVES {
        let player = game.facts()?.turn;
        match game.play(play) {
            Ok(()) => println!("{player}, {play}: accepted"),
            Err(refusal) => println!("{player}, {play}: {refusal:?} ({}). {refusal}", refusal.number()),
        }
    }
    let facts = game.facts()?;
    print!("{}", game.board()?.pretty_string()?);
    println!("prisoners: {} Black, {} White", facts.prisoners.black, facts.prisoners.white);
    if let Some(player) = facts.outcome {
        println!("the outcome names {player}");
    }
    Ok(())
}
