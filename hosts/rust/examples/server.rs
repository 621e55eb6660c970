//! Holds many games and makes random calls on all of them, as a server's strangers do. `server [GAMES] [CALLS]` says how many games, and how many calls on each;
//! runs with the same numbers play the same.

mod random;

use random::Random;
use samtrekhu::{Flags, Game, Move, Player, Point, Refusal};
use std::collections::BTreeMap;
use std::time::Instant;

const SEED: u64 = 88_172_645_463_325_252;

/// A game, and the side of its board.
struct Table {
    side: u8,
    game: Game,
}

impl Table {
    fn open(random: &mut Random) -> Result<Table, Refusal> {
        let side = [5, 9, 13, 19][usize::from(random.below(4))];
        let game = Game::new(side, side, Flags::from_byte(random.below(16)))?;
        Ok(Table { side, game })
    }

    /// A point of the board, now and then one beyond it.
    fn point(&self, random: &mut Random) -> Point {
        let end = if random.below(50) == 0 { self.side + 1 } else { self.side };
        Point::new(random.below(end), random.below(end))
    }

    /// One call on the game, most often a stone.
    fn call(&mut self, random: &mut Random) -> Result<(), Refusal> {
        let point = self.point(random);
        match random.below(100) {
            0 => self.game.resume(),
            1 => self.game.resign(Player::Black),
            2..=4 => self.game.pass(),
            5..=9 => self.game.check_point(point),
            10 => self.game.legals().map(|_| ()),
            11 => self.game.handicap(&[point]),
            12 => self.game.replay(&[Move::Resume, Move::Stone(point), Move::Pass]).map_err(|stopped| stopped.refusal),
            _ => self.game.stone(point),
        }
    }
}

/// The kilobytes that this process has in memory, where the system tells.
fn resident() -> Option<u64> {
    let status = std::fs::read_to_string("/proc/self/status").ok()?;
    let line = status.lines().find_map(|line| line.strip_prefix("VmRSS:"))?;
    line.trim().strip_suffix(" kB")?.parse().ok()
}

/// Where the stones are that all games have taken, and how long their histories are.
fn tell_stones(tables: &[Table]) -> Result<(), Refusal> {
    let (mut laid, mut on_boards, mut removed, mut history) = (0, 0, 0, 0);
    for Table { game, .. } in tables {
        let facts = game.facts()?;
        let stones = game.board()?.number_of_stones()?;
        laid += u64::from(facts.accepted) + u64::from(facts.handicap);
        on_boards += stones.black + stones.white;
        removed += facts.prisoners.black + facts.prisoners.white;
        history += game.history().len();
    }
    println!("{laid} stones laid: {on_boards} are on the boards, {removed} were removed");
    println!("{} bytes of state and {} of history a game", size_of::<samtrekhu::raw::Game>(), history / tables.len());
    Ok(())
}

fn main() -> Result<(), Refusal> {
    let mut numbers = std::env::args().skip(1).map(|word| word.parse().expect("a number above 0"));
    let games: usize = numbers.next().unwrap_or(10_000);
    let each: usize = numbers.next().unwrap_or(100);
    let mut random = Random(SEED);
    let empty = resident();
    let start = Instant::now();
    let mut tables = (0..games).map(|_| Table::open(&mut random)).collect::<Result<Vec<_>, _>>()?;
    let mut accepted = 0;
    let mut refused = BTreeMap::new();
    for _ in 0..each {
        for table in &mut tables {
            match table.call(&mut random) {
                Ok(()) => accepted += 1,
                Err(refusal) => *refused.entry(refusal).or_insert(0) += 1,
            }
        }
    }
    let seconds = start.elapsed().as_secs_f64();
    let full = resident();

    let calls = games * each;
    println!("{games} games, {each} calls on each: {calls} calls");
    println!("{accepted:>9} accepted");
    for (refusal, count) in refused {
        println!("{count:>9} {refusal:?}");
    }
    tell_stones(&tables)?;
    println!("took {seconds:.2} s, {:.1} µs a call", seconds * 1e6 / calls as f64);
    if let (Some(empty), Some(full)) = (empty, full) {
        println!("memory: {empty} kB before the first game, {full} kB after the last call");
    }
    Ok(())
}
