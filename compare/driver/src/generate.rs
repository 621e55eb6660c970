//! Random games. A model of the game steers them to where the rules bite: kos, ataris, eyes, stones just taken.

use crate::call::{follow, narrow_points, Call};
use plain::board::{BLACK, EMPTY, WHITE};
use plain::slips::Slip;
use plain::{Game, Reason};
use random::Random;

/// What the calls of a game may be.
#[derive(Clone, Copy)]
pub struct Scope {
    /// Points off the board, flags above 15, wrong sizes, handicaps that are refused, other lent lengths.
    pub beyond_the_crate: bool,
    pub legal_lists: bool,
    /// The flags of the first game; drawn, if none are given.
    pub flags: Option<u8>,
}

pub struct Step {
    pub call: Call,
    pub reason: Reason,
    /// The sizes of the chains that an accepted stone took, enemy chains and own.
    pub taken: (Vec<usize>, Vec<usize>),
}

struct Player<'a> {
    random: &'a mut Random,
    scope: Scope,
    model: Game,
    last: usize,
    lately_taken: Vec<usize>,
    /// The part of the board that the stones go to: least row, least column, rows, columns.
    window: (usize, usize, usize, usize),
    ways: [usize; 7],
    chatter: usize,
    home: (u128, u128),
    steps: Vec<Step>,
}

/// A random game on that size.
pub fn game(random: &mut Random, scope: Scope, height: usize, width: usize) -> Vec<Step> {
    let area = height * width;
    let drawn = random.below(16) as u128;
    let flags = scope.flags.map_or(drawn, u128::from);
    let calls = match area {
        0..=25 => random.between(60, 500),
        26..=100 => random.between(150, 450),
        _ => random.between(200, 520),
    };
    let bytes = scope.beyond_the_crate.then(|| lent(random)).flatten();
    let mut ways = [0; 7];
    ways.iter_mut().for_each(|way| *way = random.of(&[0, 1, 3, 10]).to_owned());
    ways[0] += 2;
    let chatter = random.of(&[5, 15, 40]).to_owned();
    let model = Game::empty(1, 1, 0, lines::LENT, Slip::None);
    let window = (0, 0, height, width);
    let home = (height as u128, width as u128);
    let mut player = Player { random, scope, model, last: 0, lately_taken: Vec::new(), window, ways, chatter, home, steps: Vec::new() };
    player.call(Call::New(home.0, home.1, flags, bytes));
    player.choose_window();
    match player.random.below(25) {
        0..=4 => player.handicap(),
        5 => player.corner_ko(),
        6 => player.many_chains(),
        _ => {}
    }
    while player.steps.len() < calls {
        player.turn();
    }
    player.steps
}

/// History bytes around the lengths that a record begins or ends at.
fn lent(random: &mut Random) -> Option<u128> {
    match random.below(8) {
        0..=3 => None,
        4 => Some(*random.of(&[0, 1, 98, 99, 100, 101, 102, 199, 200, 201, 299, 300, 301])),
        5 => Some(random.below(3000) as u128),
        6 => Some(100 * random.between(1, 80) as u128 + random.below(100) as u128),
        _ => Some(*random.of(&[65_535, 65_536, 655_359, 655_360, 1_048_575, 1_048_576])),
    }
}

/// Numbers that are too large for one width or another.
const LARGE: [u128; 14] = [19, 20, 127, 128, 255, 256, 257, 511, 65_535, 65_536, 1 << 32, (1 << 64) - 1, 1 << 64, 1 << 100];

impl Player<'_> {
    fn call(&mut self, call: Call) {
        let reason = follow(&mut self.model, &call);
        let mut taken = (Vec::new(), Vec::new());
        if matches!(call, Call::Stone(..)) && reason == Reason::Accepted {
            let sizes = |chains: &[Vec<usize>]| chains.iter().map(Vec::len).collect();
            taken = (sizes(&self.model.taken.enemy), sizes(&self.model.taken.own));
            let points: Vec<usize> = self.model.taken.enemy.iter().chain(&self.model.taken.own).flatten().copied().collect();
            if !points.is_empty() {
                self.lately_taken = points;
            }
        }
        self.steps.push(Step { call, reason, taken });
    }

    /// On a large board most games are fought in one place, so that captures and kos come early.
    fn choose_window(&mut self) {
        let side = |random: &mut Random, length: usize| {
            let size = if length > 7 && random.percent(60) { random.between(3, 7) } else { length };
            (random.below(length - size + 1), size)
        };
        let board = &self.model.board;
        let (row, rows) = side(self.random, board.height);
        let (column, columns) = side(self.random, board.width);
        self.window = (row, column, rows, columns);
    }

    fn turn(&mut self) {
        if self.random.percent(self.chatter) {
            return self.question();
        }
        if self.model.passes >= 2 && self.random.percent(50) {
            return self.call(Call::Resume);
        }
        if self.random.below(400) == 0 {
            self.choose_window();
        }
        if self.is_stuck() && self.random.percent(10) {
            let (flags, bytes) = (self.random.below(16) as u128, lent(self.random));
            return self.new_game(self.home.0, self.home.1, flags, bytes);
        }
        let beyond = if self.scope.beyond_the_crate { 3 } else { 0 };
        match self.random.weighted(&[180, 8, 1, 1, 2, beyond, beyond.min(1)]) {
            0 => {
                let (row, column) = self.place();
                self.call(Call::Stone(row, column));
            }
            1 => self.call(Call::Pass),
            2 => self.call(Call::ResignBlack),
            3 => self.call(Call::ResignWhite),
            4 => self.call(Call::Resume),
            5 => self.handicap(),
            _ => self.another_game(),
        }
    }

    /// Calls that change nothing.
    fn question(&mut self) {
        let area = self.model.board.area();
        let lists = if self.scope.legal_lists { 1 + 100 / area } else { 0 };
        match self.random.weighted(&[30, lists, 1]) {
            0 => {
                let (row, column) = self.place();
                let flags = self.flags();
                self.call(Call::Check(row, column, flags));
            }
            1 => {
                let flags = self.flags();
                self.call(Call::Legals(flags));
            }
            _ => self.call(Call::Render),
        }
    }

    fn flags(&mut self) -> u128 {
        if self.scope.beyond_the_crate && self.random.percent(4) {
            *self.random.of(&[16, 17, 31, 32, 128, 255, 256, 257, 271, 65_536, 1 << 32, 1 << 64, 1 << 100])
        } else {
            self.random.below(16) as u128
        }
    }

    /// A point as row and column, off the board now and then.
    fn place(&mut self) -> (u128, u128) {
        let point = self.point();
        self.last = point;
        let (row, column) = self.model.board.row_column(point);
        let (mut row, mut column) = (row.into(), column.into());
        if self.scope.beyond_the_crate && self.random.percent(3) {
            let (height, width) = (self.model.board.height as u128, self.model.board.width as u128);
            match self.random.below(3) {
                0 => row = height.max(*self.random.of(&LARGE) * (self.random.below(2) as u128)),
                1 => column = width.max(*self.random.of(&LARGE) * (self.random.below(2) as u128)),
                _ => (row, column) = (*self.random.of(&LARGE), *self.random.of(&LARGE)),
            }
        }
        (row, column)
    }

    /// An on-board point: anywhere, or where something is going on.
    fn point(&mut self) -> usize {
        let area = self.model.board.area();
        let found = match self.random.weighted(&self.ways) {
            0 => self.empty_in_window(),
            1 => self.near_the_last(),
            2 => self.model.ko,
            3 => (!self.lately_taken.is_empty()).then(|| self.lately_taken[self.random.below(self.lately_taken.len())]),
            4 => self.last_liberty(),
            5 => self.surrounded(),
            _ => Some(self.random.below(area)),
        };
        match found {
            Some(point) if point < area => point,
            _ => self.empty_in_window().unwrap_or_else(|| self.random.below(area)),
        }
    }

    /// Mostly an empty point of the window, where a few tries find one.
    fn empty_in_window(&mut self) -> Option<usize> {
        let board = &self.model.board;
        let (row, column, rows, columns) = self.window;
        (0..12)
            .map(|_| (row + self.random.below(rows), column + self.random.below(columns)))
            .filter(|&(row, column)| row < board.height && column < board.width)
            .map(|(row, column)| row * board.width + column)
            .find(|&point| board.colours[point] == EMPTY)
    }

    fn near_the_last(&mut self) -> Option<usize> {
        let board = &self.model.board;
        let last = (self.last < board.area()).then_some(self.last)?;
        let mut points: Vec<usize> = board.neighbours(last).chain(board.corners(last).into_iter().flatten()).collect();
        points.retain(|&point| board.colours[point] == EMPTY);
        (!points.is_empty()).then(|| *self.random.of(&points))
    }

    /// The last liberty of a chain of either colour.
    fn last_liberty(&mut self) -> Option<usize> {
        let colour = if self.random.percent(50) { BLACK } else { WHITE };
        let chains = self.model.board.chains(colour);
        let points: Vec<usize> = chains.iter().filter(|chain| chain.liberties.len() == 1).map(|chain| chain.liberties[0]).collect();
        (!points.is_empty()).then(|| *self.random.of(&points))
    }

    /// An empty point whose neighbours are all of one colour: an eye, a ko or a suicide.
    fn surrounded(&mut self) -> Option<usize> {
        let board = &self.model.board;
        let points: Vec<usize> = (0..board.area())
            .filter(|&point| board.colours[point] == EMPTY)
            .filter(|&point| [BLACK, WHITE].iter().any(|&colour| board.neighbours(point).all(|next| board.colours[next] == colour)))
            .collect();
        (!points.is_empty()).then(|| *self.random.of(&points))
    }

    /// A handicap; within the crate's scope only one that is accepted.
    fn handicap(&mut self) {
        let board = &self.model.board;
        let area = board.area();
        let count = match self.random.below(6) {
            0 => 0,
            1 => self.random.below(area + 1),
            2 if self.scope.beyond_the_crate => area,
            _ => self.random.below(area.min(9) + 1),
        };
        let mut points: Vec<usize> = (0..area).collect();
        for place in 0..count {
            let other = self.random.between(place, area - 1);
            points.swap(place, other);
        }
        points.truncate(count);
        let mut points: Vec<(u128, u128)> =
            points.iter().map(|&point| board.row_column(point)).map(|(row, column)| (row.into(), column.into())).collect();
        if self.scope.beyond_the_crate && self.random.percent(30) && !points.is_empty() {
            let place = self.random.below(points.len());
            points[place] = if self.random.percent(50) { *self.random.of(&points) } else { (*self.random.of(&LARGE), *self.random.of(&LARGE)) };
        }
        if self.scope.beyond_the_crate || self.model.clone().handicap(&narrow_points(&points)) == Reason::Accepted {
            self.call(Call::Handicap(points));
        }
    }

    /// A new game in the middle of one, refused or not.
    fn another_game(&mut self) {
        let board = &self.model.board;
        let (mut height, mut width, mut flags) = (board.height as u128, board.width as u128, self.random.below(16) as u128);
        match self.random.below(5) {
            0 => height = *self.random.of(&[0, 20, 255, 256, 257, 1 << 64]),
            1 => width = *self.random.of(&[0, 20, 255, 256, 275, 1 << 64]),
            2 => flags = self.flags().max(16),
            3 => (height, flags) = (0, 16),
            _ => {}
        }
        let bytes = lent(self.random);
        self.new_game(height, width, flags, bytes);
    }

    fn new_game(&mut self, height: u128, width: u128, flags: u128, bytes: Option<u128>) {
        self.call(Call::New(height, width, flags, bytes));
        self.lately_taken.clear();
        self.choose_window();
    }

    /// A refused new game left the 1 × 1 one, or no stone can follow since the history is full.
    fn is_stuck(&self) -> bool {
        let board = &self.model.board;
        let elsewhere = (board.height as u128, board.width as u128) != self.home;
        let full = self.model.records.len() as u64 >= self.model.capacity;
        self.scope.beyond_the_crate && (elsewhere || full && !self.model.is_recorded(board))
    }

    /// White stones on all sides of a point, each shut in by a handicap: Black takes them all with one stone.
    fn many_chains(&mut self) {
        let centre = self.random.below(self.model.board.area());
        let board = &self.model.board;
        let place = |point: usize| {
            let (row, column) = board.row_column(point);
            (row.into(), column.into())
        };
        let white: Vec<usize> = board.neighbours(centre).collect();
        let mut black: Vec<usize> = white.iter().flat_map(|&point| board.neighbours(point)).filter(|&point| point != centre).collect();
        black.sort();
        black.dedup();
        let black: Vec<(u128, u128)> = black.into_iter().map(place).collect();
        let stones: Vec<Call> = white.into_iter().chain([centre]).map(place).map(|(row, column)| Call::Stone(row, column)).collect();
        if self.model.clone().handicap(&narrow_points(&black)) != Reason::Accepted {
            return;
        }
        self.call(Call::Handicap(black));
        for (place, stone) in stones.iter().enumerate() {
            self.call(stone.clone());
            if place + 2 < stones.len() {
                self.call(Call::Pass);
            }
        }
    }

    /// A ko in a corner out of a handicap: the one way to ask the superko test with two records and a ko point.
    fn corner_ko(&mut self) {
        let (height, width) = (self.model.board.height as u128, self.model.board.width as u128);
        if height < 3 || width < 3 {
            return;
        }
        let (down, right) = (self.random.percent(50), self.random.percent(50));
        let place = |row: u128, column: u128| (if down { height - 1 - row } else { row }, if right { width - 1 - column } else { column });
        let stone = |(row, column)| Call::Stone(row, column);
        let black = vec![place(0, 0), place(0, 2), place(1, 1)];
        for call in [Call::Handicap(black), stone(place(1, 0)), Call::Pass, stone(place(0, 1)), stone(place(0, 0)), stone(place(0, 1))] {
            self.call(call);
        }
        if self.random.percent(50) {
            let (row, column) = place(0, 0);
            let flags = self.flags();
            self.call(Call::Check(row, column, flags));
        }
    }
}
