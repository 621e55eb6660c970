//! Games to begin with.

use samtrekhu::{Flags, Game};

pub fn game(height: u8, width: u8, flags: Flags) -> Game {
    Game::new(height, width, flags).expect("a new game")
}

/// The game after these stones, all of them accepted.
pub fn after(height: u8, width: u8, flags: Flags, stones: &[(u8, u8)]) -> Game {
    let mut game = game(height, width, flags);
    for &point in stones {
        assert_eq!(game.stone(point), Ok(()), "stone {point:?}");
    }
    game
}
