//! The time of each call on the same positions of random games: ours, the crate's and a plain referee's. Then how ours grows with the size of
//! the board, the stones on it and the records in the history.

use measure::times::Times;
use measure::HISTORY_BYTES;
use oracle::rules::game::Game as Crate;
use oracle::rules::{GobanSizes, IllegalRules, Move as Play, Rule, CHINESE};
use plain::slips::Slip;
use plain::Game as Plain;
use plain::Reason;
use random::Random;
use samtrekhu::raw::*;

/// Flags as the crate has them: 1 KO, 2 SUICIDE, 4 FILLEYE, 8 SUPERKO.
fn rules(flags: u8) -> IllegalRules {
    let all = [IllegalRules::KO, IllegalRules::SUICIDE, IllegalRules::FILLEYE, IllegalRules::SUPERKO];
    all.into_iter().enumerate().filter(|(bit, _)| flags >> bit & 1 == 1).fold(IllegalRules::empty(), |sum, (_, rule)| sum | rule)
}

fn crate_game(side: u8, flags: u8) -> Crate {
    let size = GobanSizes::Custom(side.into(), side.into());
    Crate::new(size, Rule { flag_illegal: rules(flags), ..CHINESE })
}

fn plain_game(side: u8, flags: u8) -> Plain {
    Plain::new_game(side.into(), side.into(), flags.into(), HISTORY_BYTES as u64, Slip::None).1
}

/// One row of a table: a call, timed in three programs.
#[derive(Default)]
struct Row {
    ours: Times,
    crates: Times,
    plain: Times,
}

impl Row {
    fn print(&self, name: &str) {
        let shown = |times: &Times| if times.median().is_nan() { "-".to_string() } else { format!("{:.0} ns", times.median()) };
        let ratio = if self.crates.median().is_nan() { "-".to_string() } else { format!("{:.2}", self.ours.median() / self.crates.median()) };
        println!("  {name:<28} {:>12} {:>12} {:>12} {ratio:>8}", shown(&self.ours), shown(&self.crates), shown(&self.plain));
    }
}

const STONES: usize = 250;

fn times(side: u8, flags: u8, games: usize, history: &mut [u8]) {
    let mut random = Random::new(1, 0);
    let [mut stone, mut in_place, mut judge, mut pass, mut check, mut legals, mut picture, mut replay]: [Row; 8] = Default::default();
    let mut buffer = [0u16; MAX_AREA];
    let mut bytes = [0u8; PICTURE_BYTES];
    for _ in 0..games {
        let mut game = samtrekhu_new_game(side, side, flags).game;
        let mut theirs = crate_game(side, flags);
        let mut third = plain_game(side, flags);
        let mut played = Vec::new();
        let mut tries = 0;
        while played.len() < STONES && tries < 20 * STONES {
            tries += 1;
            let (row, column) = (random.below(side.into()) as u8, random.below(side.into()) as u8);
            let (at, length) = (history.as_mut_ptr(), history.len());
            let checked = check.ours.add(|| unsafe { samtrekhu_check_point_by(game, at, length, flags, row, column) });
            let expected = check.crates.add(|| theirs.check_point_by((row, column), rules(flags)));
            let also = check.plain.add(|| third.check(row.into(), column.into(), flags.into()));
            assert!(((checked == 0), also.number()) == (expected.is_none(), checked), "the three disagree");
            if checked != 0 {
                continue;
            }
            let mut again = game;
            let records = game.records;
            let answered = stone.ours.add(|| unsafe { samtrekhu_stone(game, at, length, row, column) });
            if answered.game.records > records {
                history[RECORD_BYTES * records..RECORD_BYTES * (records + 1)].fill(0);
            }
            let (at, length) = (history.as_mut_ptr(), history.len());
            let number = in_place.ours.add(|| unsafe { samtrekhu_stone_in_place(&mut again, at, length, row, column) });
            assert_eq!((answered.answer, number, again.board.hash), (0, 0, answered.game.board.hash));
            game = again;
            stone.crates.add(|| theirs.try_play(Play::Play(row, column)).is_ok());
            stone.plain.add(|| third.stone(row.into(), column.into()));
            assert!(judge.ours.add(|| samtrekhu_is_true_board(game.board)));
            pass.ours.add(|| samtrekhu_pass(game).answer);
            let mut copy = theirs.clone();
            pass.crates.add(|| copy.try_play(Play::Pass).is_ok());
            let mut copy = third.clone();
            pass.plain.add(|| copy.pass() == Reason::Accepted);
            if played.len() % 10 == 0 {
                let listed = legals.ours.add(|| unsafe { samtrekhu_legals_by(game, at, length, flags, buffer.as_mut_ptr(), buffer.len()) });
                let count = legals.crates.add(|| theirs.legals_by(rules(flags)).count());
                let also = legals.plain.add(|| third.legals(flags.into()).map_or(0, |list| list.len()));
                assert_eq!((listed.number, listed.count, also), (0, count, count));
                picture.ours.add(|| unsafe { samtrekhu_pretty_string(game.board, bytes.as_mut_ptr(), bytes.len()) });
                picture.crates.add(|| theirs.goban().pretty_string());
            }
            played.push(Move { kind: kinds::STONE, row, column });
        }
        history.fill(0);
        let first = samtrekhu_new_game(side, side, flags).game;
        let (at, length) = (history.as_mut_ptr(), history.len());
        let replayed = replay.ours.add(|| unsafe { samtrekhu_replay(first, at, length, played.as_ptr(), played.len()) });
        assert_eq!((replayed.entries, replayed.answer, replayed.game.board.hash), (played.len(), 0, game.board.hash));
        replay.crates.add(|| {
            let mut theirs = crate_game(side, flags);
            played.iter().all(|m| theirs.try_play(Play::Play(m.row, m.column)).is_ok())
        });
        replay.plain.add(|| {
            let mut third = plain_game(side, flags);
            played.iter().all(|m| third.stone(m.row.into(), m.column.into()) == Reason::Accepted)
        });
        history.fill(0);
    }
    println!("{side}×{side}, flags {flags}: {games} random games of up to {STONES} stones; ours, the crate, plain Rust, ours to the crate");
    stone.print("accepted stone");
    in_place.crates = stone.crates;
    in_place.plain = stone.plain;
    in_place.print("accepted stone, in place");
    judge.print("judge of a board");
    pass.print("pass");
    check.print("check of a point");
    legals.print("legal list");
    picture.print("picture");
    replay.print("replay of the game");
}

/// A position of so many random stones, or as many as find room.
fn position(side: u8, stones: usize, random: &mut Random, history: &mut [u8]) -> Game {
    let mut game = samtrekhu_new_game(side, side, 11).game;
    let mut tries = 0;
    while usize::from(game.accepted) < stones && tries < 100 * stones {
        tries += 1;
        unsafe {
            samtrekhu_stone_in_place(&mut game, history.as_mut_ptr(), history.len(), random.below(side.into()) as u8, random.below(side.into()) as u8)
        };
    }
    game
}

/// How the calls grow: each on many positions of one kind.
fn grows(name: &str, of: &[usize], mut make: impl FnMut(usize, &mut Random, &mut [u8]) -> Game, history: &mut [u8]) {
    println!("{name}: stone in place, judge, check of a point, legal list, all with flags 11");
    let mut buffer = [0u16; MAX_AREA];
    for &amount in of {
        let mut random = Random::new(2, 0);
        let [mut stone, mut judge, mut check, mut legals]: [Times; 4] = Default::default();
        for _ in 0..10 {
            let game = make(amount, &mut random, history);
            let side = game.board.height;
            let (at, length) = (history.as_mut_ptr(), history.len());
            for _ in 0..100 {
                let (row, column) = (random.below(side.into()) as u8, random.below(side.into()) as u8);
                if check.add(|| unsafe { samtrekhu_check_point(game, at, length, row, column) }) == 0 {
                    let mut copy = game;
                    stone.add(|| unsafe { samtrekhu_stone_in_place(&mut copy, at, length, row, column) });
                }
                judge.add(|| samtrekhu_is_true_board(game.board));
                legals.add(|| unsafe { samtrekhu_legals(game, at, length, buffer.as_mut_ptr(), buffer.len()) });
            }
        }
        let [stone, judge, check, legals] = [stone, judge, check, legals].map(|times| format!("{:.0} ns", times.median()));
        println!("  {amount:>8} {stone:>12} {judge:>12} {check:>12} {legals:>12}");
    }
}

fn main() {
    let mut history = vec![0u8; HISTORY_BYTES];
    let mut clock = Times::default();
    (0..100_000).for_each(|_| clock.add(|| ()));
    println!("every time is a median and has in it the clock's own, {:.0} ns", clock.median());
    for (side, games) in [(9, 60), (MAX_SIDE, 40)] {
        for flags in [3, 11] {
            times(side, flags, games, &mut history);
        }
    }
    let half = |side: usize, random: &mut Random, history: &mut [u8]| position(side as u8, side * side / 2, random, history);
    grows("boards half full, by side", &[5, 9, 13, 19], half, &mut history);
    let full = |stones: usize, random: &mut Random, history: &mut [u8]| position(MAX_SIDE, stones, random, history);
    grows("19×19, by stones played", &[0, 50, 100, 150, 200, 250, 300], full, &mut history);
    // What the records hold is taken as it stands, so any bytes will do.
    let recorded = |records: usize, random: &mut Random, history: &mut [u8]| {
        let mut game = position(MAX_SIDE, 150, random, history);
        history[..RECORD_BYTES * records].iter_mut().for_each(|byte| *byte = random.byte());
        game.records = records;
        game
    };
    grows("19×19 after 150 stones, by records", &[0, 100, 500, 1_000, 5_000], recorded, &mut history);
}
