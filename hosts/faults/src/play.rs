//! True states: random games played through the library, of all sizes and flags, with handicaps, passes, resignations, captures and kos.

use crate::made::{beside, nothing};
use random::Random;
use samtrekhu::raw::*;

pub struct Played {
    pub game: Box<Game>,
    pub history: Vec<u8>,
    /// moves that this game is still to have
    ahead: usize,
    /// where the last stone went
    near: usize,
}

/// Mostly small boards. A large one is used for more states than a small one, so that 19×19 comes seldom here and often in the run.
fn sides(random: &mut Random) -> (u8, u8) {
    let mut up_to = |most: usize| 1 + random.below(most) as u8;
    match up_to(20) {
        1..=8 => (up_to(4), up_to(4)),
        9..=13 => (up_to(7), up_to(7)),
        14..=16 => (9, 9),
        17 => (19, 19),
        _ => (up_to(19), up_to(19)),
    }
}

/// A new game on the heap; a frame of its own for what goes by value.
#[inline(never)]
pub fn fresh(height: u8, width: u8, flags: u8) -> Box<Game> {
    let mut game = nothing();
    *game = samtrekhu_new_game(height, width, flags).game;
    game
}

impl Played {
    pub fn new(sides_asked: Option<(u8, u8)>, random: &mut Random) -> Played {
        let (height, width) = sides_asked.unwrap_or_else(|| sides(random));
        let game = fresh(height, width, random.byte() % 16);
        let area = usize::from(height) * usize::from(width);
        let ahead = 1 + random.below(2 * area + 8);
        // some histories are too short for the game
        let records = if random.one_in(5) { random.below(ahead + 1) } else { ahead };
        let history = vec![0; RECORD_BYTES * records + random.below(RECORD_BYTES)];
        let mut played = Played { game, history, ahead, near: random.below(area) };
        if random.one_in(4) {
            let spots: Vec<u16> =
                (0..random.below(area.min(20) + 1)).map(|_| (random.below(height.into()) * 256 + random.below(width.into())) as u16).collect();
            unsafe { samtrekhu_handicap_in_place(&mut played.game, spots.as_ptr(), spots.len()) };
        }
        played
    }

    pub fn is_over(&self) -> bool {
        self.ahead == 0
    }

    /// Tries one move; what is refused leaves the game as it was.
    pub fn go_on(&mut self, random: &mut Random) {
        self.ahead -= 1;
        let game = &mut *self.game;
        if game.passes == 2 {
            samtrekhu_resume_in_place(game);
            return;
        }
        match random.below(40) {
            0..=2 => {
                samtrekhu_pass_in_place(game);
            }
            3 => {
                samtrekhu_resign_in_place(game, random.byte());
            }
            _ => {
                // near the last stone there are captures and kos
                let area = usize::from(game.board.height) * usize::from(game.board.width);
                for _ in 0..6 {
                    let near = beside(&game.board, self.near);
                    let point = if random.one_in(2) { random.pick(&near).unwrap_or(self.near) } else { random.below(area) };
                    let (row, column) = (point / usize::from(game.board.width), point % usize::from(game.board.width));
                    let (at, length) = (self.history.as_mut_ptr(), self.history.len());
                    if unsafe { samtrekhu_stone_in_place(game, at, length, row as u8, column as u8) } == 0 {
                        self.near = point;
                        return;
                    }
                    self.near = random.below(area);
                }
            }
        }
    }
}
