//! The run: true states are played, damaged, judged twice, and handed to the library's calls.

use crate::calls::{Desk, CALLS};
use crate::check::{wrong, Verdict};
use crate::damage::{Scene, KINDS};
use crate::judge::Judge;
use crate::play::{fresh, Played};
use crate::text;
use random::Random;
use samtrekhu::raw::*;
use std::thread;

/// The stack that a host's thread is thought to have at least.
const STACK: usize = 256 << 10;

/// What is run.
#[derive(Clone)]
pub struct Plan {
    pub states: usize,
    pub seed: u64,
    pub judge: Judge,
    /// whether the other calls are made too
    pub calls: bool,
    /// these sides alone
    pub sides: Option<(u8, u8)>,
    /// these ways of damage, one after the other, alone
    pub kinds: Option<Vec<usize>>,
    /// called with the number of states done
    pub progress: fn(usize),
}

impl Plan {
    pub fn new(states: usize, seed: u64) -> Plan {
        Plan { states, seed, judge: Judge::new(), calls: true, sides: None, kinds: None, progress: |_| () }
    }
}

/// How states fared that were damaged in one way.
#[derive(Clone, Copy, Default)]
pub struct Row {
    pub tried: usize,
    pub true_boards: usize,
    pub true_games: usize,
    /// games whose records are within the lent history too
    pub true_with: usize,
}

impl Row {
    fn add(&mut self, verdict: &Verdict) {
        self.tried += 1;
        self.true_boards += usize::from(verdict.board);
        self.true_games += usize::from(verdict.game);
        self.true_with += usize::from(verdict.with);
    }
}

/// A row for each kind, for two at once, for three at once, and how often each call was made.
#[derive(Clone)]
pub struct Table {
    pub kinds: Vec<Row>,
    pub several: [Row; 2],
    pub calls: Vec<[usize; 2]>,
    /// states on boards of up to 16 points, up to 80, of 9×9, larger ones, and of 19×19
    pub sizes: [usize; 5],
}

/// A disagreement.
pub struct Found {
    pub what: String,
    /// the sides before the damage
    pub sides: (u8, u8),
    pub kinds: Vec<usize>,
    pub game: Box<Game>,
    pub lent: usize,
}

impl Found {
    pub fn text(&self) -> String {
        let kinds: Vec<&str> = self.kinds.iter().map(|&kind| KINDS[kind].name).collect();
        let (height, width) = self.sides;
        format!(
            "{}\ndamage to {height}×{width}: {}\nhistory bytes lent: {}\n{}",
            self.what,
            kinds.join("; then "),
            self.lent,
            text::state(&self.game)
        )
    }
}

/// Runs on a thread of 256 KiB until the states are done or the two judges, or a call, disagree.
pub fn run(plan: &Plan) -> Result<Table, Found> {
    thread::scope(|scope| {
        let worker = thread::Builder::new().stack_size(STACK).spawn_scoped(scope, || work(plan)).expect("a thread");
        worker.join().expect("the run")
    })
}

/// A like disagreement on the smallest board, by the fewest of its ways of damage, that a short search finds.
pub fn shrunk(plan: &Plan, found: Found) -> Found {
    let area = |(height, width): (u8, u8)| usize::from(height) * usize::from(width);
    let mut sides: Vec<(u8, u8)> = (1..=MAX_SIDE).flat_map(|height| (1..=MAX_SIDE).map(move |width| (height, width))).collect();
    sides.sort_by_key(|&sides| area(sides));
    sides.retain(|&smaller| area(smaller) <= area(found.sides));
    let mut fewer: Vec<Vec<usize>> = found.kinds.iter().map(|&kind| vec![kind]).collect();
    fewer.push(found.kinds.clone());
    for sides in sides {
        for kinds in &fewer {
            let small = Plan { states: 1_000, sides: Some(sides), kinds: Some(kinds.clone()), progress: |_| (), ..plan.clone() };
            if let Err(smaller) = run(&small) {
                return smaller;
            }
        }
    }
    found
}

fn work(plan: &Plan) -> Result<Table, Found> {
    let mut random = Random::new(plan.seed, 0);
    let mut desk = Desk::new(plan.seed ^ 0x5EED);
    let (kinds, calls) = (vec![Row::default(); KINDS.len()], vec![[0; 2]; CALLS.len()]);
    let mut table = Table { kinds, several: Default::default(), calls, sizes: [0; 5] };
    let mut other = fresh(5, 5, 0);
    let mut done = 0;
    // a way of damage may find nothing to damage on boards as small as asked for
    let mut tries = 0;
    while done < plan.states && tries < 20 * plan.states {
        let mut played = Played::new(plan.sides, &mut random);
        let area = usize::from(played.game.board.height) * usize::from(played.game.board.width);
        while !played.is_over() && done < plan.states {
            played.go_on(&mut random);
            tries += 1;
            if !random.one_in(1 + area / 40) {
                continue;
            }
            for _ in 0..4 + area / 60 {
                if done < plan.states && one(plan, &played, &other, &mut random, &mut desk, &mut table)? {
                    done += 1;
                    table.sizes[[16, 80, 81, 360].iter().filter(|&&most| area > most).count()] += 1;
                    (plan.progress)(done);
                }
            }
            if random.one_in(8) {
                *other = *played.game;
            }
        }
    }
    Ok(table)
}

/// Damages a copy of a state and has it judged. False if the kinds asked for found nothing to damage.
fn one(plan: &Plan, played: &Played, other: &Game, random: &mut Random, desk: &mut Desk, table: &mut Table) -> Result<bool, Found> {
    let lent = lent_bytes(played, random);
    let kinds = loop {
        *desk.given = *played.game;
        let kinds = plan.kinds.clone().unwrap_or_else(|| some_kinds(random));
        let mut scene = Scene { game: &mut desk.given, other, lent, random };
        if kinds.iter().all(|&kind| (KINDS[kind].damage)(&mut scene).is_some()) {
            break kinds;
        }
        if plan.kinds.is_some() {
            return Ok(false);
        }
    };
    desk.lend(&played.history, lent, random);
    let sides = (played.game.board.height, played.game.board.width);
    let found = |what: String, desk: &Desk| Found { what, sides, kinds: kinds.clone(), game: desk.given.clone(), lent };
    let verdict = Verdict::of(&plan.judge, &desk.given, lent);
    if let Some(what) = verdict.differs(&desk.given, lent) {
        return Err(found(what, desk));
    }
    match kinds[..] {
        [kind] => table.kinds[kind].add(&verdict),
        [_, _] => table.several[0].add(&verdict),
        _ => table.several[1].add(&verdict),
    }
    if plan.calls {
        let at = random.below(CALLS.len());
        table.calls[at][usize::from(verdict.on(&CALLS[at]))] += 1;
        if let Some(what) = wrong(&CALLS[at], desk, &verdict, &plan.judge) {
            return Err(found(format!("{}: {what}", CALLS[at].name), desk));
        }
    }
    Ok(true)
}

/// Mostly one kind, at times two or three.
fn some_kinds(random: &mut Random) -> Vec<usize> {
    let many = match random.below(20) {
        0 => 3,
        1 | 2 => 2,
        _ => 1,
    };
    (0..many).map(|_| random.below(KINDS.len())).collect()
}

/// A length of the lent history: as it is, or close to what the records need.
fn lent_bytes(played: &Played, random: &mut Random) -> usize {
    let need = RECORD_BYTES * played.game.records;
    let length = match random.below(8) {
        0 => need,
        1 => need + RECORD_BYTES - 1,
        2 => need.saturating_sub(1),
        3 => random.below(played.history.len() + 1),
        _ => played.history.len(),
    };
    length.min(played.history.len())
}
