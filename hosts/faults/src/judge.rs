//! What a true state is, in the order and the words of the build description's paragraph "A true state". It shares nothing with the referee's
//! judge but the layout of the structs, so that the two can be held against each other.

use samtrekhu::raw::colours::{BLACK, WHITE};
use samtrekhu::raw::{Board, Game, LIBERTY_BYTES, MAX_AREA, MAX_SIDE, NO_CHAIN, NO_POINT, RECORD_BYTES, SLOTS};

macro_rules! clauses {
    ($($name:ident),*) => {
        /// The parts of the paragraph. Each can be left out, to see that its absence is noticed.
        #[derive(Clone, Copy, Debug, PartialEq)]
        pub enum Clause { $($name),* }

        pub const CLAUSES: &[Clause] = &[$(Clause::$name),*];
    };
}

clauses!(
    Height,
    Width,
    Flags,
    Owned,
    Beyond,
    Count,
    Colour,
    Connected,
    Largest,
    Liberties,
    OneLiberty,
    Origin,
    Links,
    Last,
    Hash,
    Passes,
    Ko,
    Capacity,
    Handicap,
    PutBlack,
    PutWhite,
    PutTogether,
    UnbegunBoard,
    UnbegunPut,
    UnbegunRecords,
    UnbegunPasses,
    UnbegunOutcome
);

pub fn is_true_board(board: &Board) -> bool {
    Judge::new().board(board)
}

pub fn is_true_game(game: &Game) -> bool {
    Judge::new().game(game)
}

pub fn is_true_with(game: &Game, history_bytes: usize) -> bool {
    Judge::new().with(game, history_bytes)
}

/// The points above, left, right and below, on a board of these sizes.
pub fn neighbours(height: usize, width: usize, point: usize) -> impl Iterator<Item = usize> {
    let (row, column) = (point / width, point % width);
    let above = (row > 0).then(|| point - width);
    let left = (column > 0).then(|| point - 1);
    let right = (column + 1 < width).then(|| point + 1);
    let below = (row + 1 < height).then(|| point + width);
    [above, left, right, below].into_iter().flatten()
}

/// "Entry 0 is 1442695040888963407; each next entry is the former × 6364136223846793005 + 1442695040888963407, modulo 2^64."
pub const fn hash_table() -> [u64; 2 * MAX_AREA] {
    let mut table = [1_442_695_040_888_963_407; 2 * MAX_AREA];
    let mut at = 1;
    while at < 2 * MAX_AREA {
        table[at] = u64::wrapping_add(u64::wrapping_mul(table[at - 1], 6_364_136_223_846_793_005), 1_442_695_040_888_963_407);
        at += 1;
    }
    table
}

static HASHES: [u64; 2 * MAX_AREA] = hash_table();

/// "entry 2p (Black) or 2p + 1 (White)"
pub fn stone_hash(point: usize, colour: u8) -> u64 {
    HASHES[2 * point + usize::from(colour == WHITE)]
}

/// The colour of each on-board point by its owner: 0 where no used slot owns it.
fn colours(board: &Board, area: usize) -> Vec<u8> {
    (0..area).map(|point| used_owner(board, point).map_or(0, |slot| board.chains[slot].colour)).collect()
}

/// The used slot that owns a point. A slot is used if its count is not 0.
fn used_owner(board: &Board, point: usize) -> Option<usize> {
    let slot = usize::from(board.owners[point]);
    (slot < SLOTS && board.chains[slot].count != 0).then_some(slot)
}

/// The judge, with the clauses that it leaves out.
#[derive(Clone, Default)]
pub struct Judge {
    without: Vec<Clause>,
}

impl Judge {
    pub fn new() -> Judge {
        Judge::default()
    }

    pub fn without(clauses: &[Clause]) -> Judge {
        Judge { without: clauses.to_vec() }
    }

    fn fails(&self, clause: Clause, holds: bool) -> bool {
        !holds && !self.without.contains(&clause)
    }

    /// "A board alone is true by size, owners, slots and hash".
    pub fn board(&self, board: &Board) -> bool {
        let (height, width) = (usize::from(board.height), usize::from(board.width));
        let sides = 1..=usize::from(MAX_SIDE);
        // "sizes ... in range"
        if self.fails(Clause::Height, sides.contains(&height)) || self.fails(Clause::Width, sides.contains(&width)) {
            return false;
        }
        let area = height * width;
        if area > MAX_AREA {
            // only without the clauses above
            return false;
        }
        // "each on-board point owned by no chain or by a used slot"
        for point in 0..area {
            if self.fails(Clause::Owned, board.owners[point] == NO_CHAIN || used_owner(board, point).is_some()) {
                return false;
            }
        }
        // "each point beyond the area by none"
        for point in area..MAX_AREA {
            if self.fails(Clause::Beyond, board.owners[point] == NO_CHAIN) {
                return false;
            }
        }
        // "used slots hold ..."
        let mut held = vec![Vec::new(); SLOTS];
        for point in 0..area {
            if let Some(slot) = used_owner(board, point) {
                held[slot].push(point);
            }
        }
        let used = (0..SLOTS).filter(|&slot| board.chains[slot].count != 0);
        for slot in used {
            if !self.slot(board, slot, &held[slot]) {
                return false;
            }
        }
        // "hash as defined": "the exclusive or over all stones"
        let stones = held.iter().enumerate().flat_map(|(slot, points)| points.iter().map(move |&point| (point, board.chains[slot].colour)));
        let hash = stones.fold(0, |sum, (point, colour)| sum ^ stone_hash(point, colour));
        !self.fails(Clause::Hash, board.hash == hash)
    }

    /// One used slot and the points, in rising order, that it owns.
    fn slot(&self, board: &Board, slot: usize, points: &[usize]) -> bool {
        let (height, width) = (usize::from(board.height), usize::from(board.width));
        let chain = &board.chains[slot];
        // "exactly ... sets": a used slot without a stone fails by its count, which is not 0
        if self.fails(Clause::Count, usize::from(chain.count) == points.len()) {
            return false;
        }
        if self.fails(Clause::Colour, chain.colour == BLACK || chain.colour == WHITE) {
            return false;
        }
        let Some(&least) = points.first() else { return true };
        // "connected": every stone is reached from the least one
        let mut reached = [false; MAX_AREA];
        let mut ahead = vec![least];
        reached[least] = true;
        let mut count = 0;
        while let Some(point) = ahead.pop() {
            count += 1;
            for beside in neighbours(height, width, point) {
                if used_owner(board, beside) == Some(slot) && !reached[beside] {
                    reached[beside] = true;
                    ahead.push(beside);
                }
            }
        }
        if self.fails(Clause::Connected, count == points.len()) {
            return false;
        }
        // "the largest ... one-colour sets": no stone of another slot beside it has its colour. Its liberties: the empty points beside it,
        // "point p at bit p mod 8 of byte p / 8; all other bits 0"
        let mut liberties = [0u8; LIBERTY_BYTES];
        for &point in points {
            for beside in neighbours(height, width, point) {
                match used_owner(board, beside) {
                    None => liberties[beside / 8] |= 1 << (beside % 8),
                    Some(other) if other == slot => {}
                    Some(other) => {
                        if self.fails(Clause::Largest, board.chains[other].colour != chain.colour) {
                            return false;
                        }
                    }
                }
            }
        }
        // "exact liberties, at least one liberty"
        if self.fails(Clause::Liberties, chain.liberties == liberties) || self.fails(Clause::OneLiberty, liberties != [0; LIBERTY_BYTES]) {
            return false;
        }
        // "its least point (origin)"
        let (origin, last) = (usize::from(chain.origin), usize::from(chain.last));
        if self.fails(Clause::Origin, origin == least) {
            return false;
        }
        // "links that go round the chain once from [origin] to last and back"
        !self.fails(Clause::Links, goes_round(board, origin, points)) && !self.fails(Clause::Last, leads_back(board, last, origin, points))
    }

    pub fn game(&self, game: &Game) -> bool {
        // "sizes and flags in range", owners, slots, links, hash
        if self.fails(Clause::Flags, game.flags <= 15) || !self.board(&game.board) {
            return false;
        }
        let area = usize::from(game.board.height) * usize::from(game.board.width);
        // "at most two passes; ko point none or on the board"
        if self.fails(Clause::Passes, game.passes <= 2) || self.fails(Clause::Ko, game.ko == NO_POINT || usize::from(game.ko) < area) {
            return false;
        }
        // "at most 65,535 stones": its type has no more; "handicap at most 361"
        if self.fails(Clause::Handicap, game.handicap <= 361) {
            return false;
        }
        // "stones put per colour equal to those on the board plus those held"
        let colours = colours(&game.board, area);
        let on_board = |colour: u8| colours.iter().filter(|&&c| c == colour).count() as u64;
        let [put_black, put_white, held_black, held_white] = [game.put.black, game.put.white, game.held.black, game.held.white].map(u64::from);
        if self.fails(Clause::PutBlack, put_black == on_board(BLACK) + held_black)
            || self.fails(Clause::PutWhite, put_white == on_board(WHITE) + held_white)
        {
            return false;
        }
        // "both colours' stones put together equal to handicap plus accepted stones"
        if self.fails(Clause::PutTogether, put_black + put_white == u64::from(game.handicap) + u64::from(game.accepted)) {
            return false;
        }
        // "A mark ... tells a begun game; without it the board is empty, nothing was put or recorded, no pass or outcome stands."
        game.begun != 0
            || !(self.fails(Clause::UnbegunBoard, on_board(BLACK) + on_board(WHITE) == 0)
                || self.fails(Clause::UnbegunPut, put_black + put_white == 0)
                || self.fails(Clause::UnbegunRecords, game.records == 0)
                || self.fails(Clause::UnbegunPasses, game.passes == 0)
                || self.fails(Clause::UnbegunOutcome, game.outcome != BLACK && game.outcome != WHITE))
    }

    /// "history count within the capacity, in calls that lend history": "capacity floor(length / 100) records".
    pub fn with(&self, game: &Game, history_bytes: usize) -> bool {
        self.game(game) && !self.fails(Clause::Capacity, game.records <= history_bytes / RECORD_BYTES)
    }
}

/// Whether as many links as there are stones lead from `origin` over each of them once and back to `origin`.
fn goes_round(board: &Board, origin: usize, points: &[usize]) -> bool {
    let mut passed = [false; MAX_AREA];
    let mut at = origin;
    for _ in points {
        if points.binary_search(&at).is_err() || passed[at] {
            return false;
        }
        passed[at] = true;
        at = usize::from(board.next[at]);
    }
    at == origin
}

/// Whether `last` is the stone whose link leads to `origin`.
fn leads_back(board: &Board, last: usize, origin: usize, points: &[usize]) -> bool {
    points.binary_search(&last).is_ok() && usize::from(board.next[last]) == origin
}
