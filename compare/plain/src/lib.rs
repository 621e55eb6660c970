//! A referee written from the paper alone: colours, flood fill, whole boards kept. No chain table, no clever step.

pub mod board;
pub mod slips;

use board::{Board, BLACK, EMPTY, WHITE};
use slips::Slip;
use std::collections::HashSet;

/// What a call answers, with the numbers of the paper's table. The parts of one number are told apart for counting.
#[derive(Clone, Copy, Debug, PartialEq, Eq, Hash, PartialOrd, Ord)]
pub enum Reason {
    Accepted,
    BadSize,
    BadFlags,
    GamePaused,
    OffBoard,
    PointNotEmpty,
    Suicide,
    Ko,
    EyeByCorners,
    EyeByDiagonal,
    SuperkoByKo,
    SuperkoByRecord,
    MoveLimit,
    HistoryFull,
    NotAtStart,
    NoLiberty,
}

impl Reason {
    pub fn number(self) -> u8 {
        match self {
            Reason::Accepted => 0,
            Reason::BadSize => 1,
            Reason::BadFlags => 2,
            Reason::GamePaused => 4,
            Reason::OffBoard => 5,
            Reason::PointNotEmpty => 6,
            Reason::Suicide => 7,
            Reason::Ko | Reason::SuperkoByKo | Reason::SuperkoByRecord => 8,
            Reason::EyeByCorners | Reason::EyeByDiagonal => 9,
            Reason::MoveLimit => 10,
            Reason::HistoryFull => 11,
            Reason::NotAtStart => 12,
            Reason::NoLiberty => 13,
        }
    }
}

pub const KO: u64 = 1;
pub const SUICIDE: u64 = 2;
pub const FILLEYE: u64 = 4;
pub const SUPERKO: u64 = 8;
const FLAGS: u64 = 15;
const SIDE: u64 = 19;
const RECORD: u64 = 100;
const STONES: u32 = 65_535;

/// What the last accepted stone took: enemy chains, each with its points, and the own chain.
#[derive(Clone, Default)]
pub struct Taken {
    pub enemy: Vec<Vec<usize>>,
    pub own: Vec<Vec<usize>>,
}

#[derive(Clone)]
pub struct Game {
    pub board: Board,
    pub flags: u64,
    pub turn: u8,
    pub passes: u64,
    pub white_removed: u64,
    pub black_removed: u64,
    pub ko: Option<usize>,
    pub outcome: u8,
    pub accepted: u32,
    pub begun: bool,
    pub capacity: u64,
    pub records: HashSet<[u8; 100]>,
    pub taken: Taken,
    pub slip: Slip,
}

impl Game {
    pub fn empty(height: u64, width: u64, flags: u64, bytes: u64, slip: Slip) -> Game {
        Game {
            board: Board::empty(height as usize, width as usize),
            flags,
            turn: BLACK,
            passes: 0,
            white_removed: 0,
            black_removed: 0,
            ko: None,
            outcome: EMPTY,
            accepted: 0,
            begun: false,
            capacity: bytes / RECORD,
            records: HashSet::new(),
            taken: Taken::default(),
            slip,
        }
    }

    /// A new game, or an empty 1 × 1 one with flags 0.
    pub fn new_game(height: u64, width: u64, flags: u64, bytes: u64, slip: Slip) -> (Reason, Game) {
        let refused = |reason| (reason, Game::empty(1, 1, 0, bytes, slip));
        let fits = |side| (1..=SIDE).contains(&side);
        if !fits(height) || !fits(width) {
            refused(Reason::BadSize)
        } else if flags > FLAGS {
            refused(Reason::BadFlags)
        } else {
            (Reason::Accepted, Game::empty(height, width, flags, bytes, slip))
        }
    }

    /// Black stones on a game that has not begun.
    pub fn handicap(&mut self, points: &[(u64, u64)]) -> Reason {
        if self.begun {
            return Reason::NotAtStart;
        }
        let mut board = self.board.clone();
        for &(row, column) in points {
            let Some(point) = board.point(row, column) else {
                return Reason::OffBoard;
            };
            if board.colours[point] != EMPTY {
                return Reason::PointNotEmpty;
            }
            board.colours[point] = BLACK;
        }
        if board.dead(BLACK) {
            return Reason::NoLiberty;
        }
        self.board = board;
        self.turn = WHITE;
        self.begun = true;
        Reason::Accepted
    }

    pub fn stone(&mut self, row: u64, column: u64) -> Reason {
        if self.passes >= 2 {
            return Reason::GamePaused;
        }
        let Some(point) = self.board.point(row, column) else {
            return Reason::OffBoard;
        };
        let tests = self.tests(point, self.flags);
        if tests != Reason::Accepted {
            return tests;
        }
        if self.accepted >= STONES {
            return Reason::MoveLimit;
        }
        let present = self.record_of(&self.board);
        let recorded = self.records.contains(&present);
        if !recorded && self.records.len() as u64 >= self.capacity {
            return Reason::HistoryFull;
        }
        self.records.insert(present);
        let (board, taken) = self.laid(point);
        self.board = board;
        self.count_prisoners(&taken);
        self.ko = match taken.enemy.as_slice() {
            [chain] if chain.len() == 1 => Some(chain[0]),
            [.., chain] if self.slip == Slip::KoAfterTwoChains && chain.len() == 1 => Some(chain[0]),
            _ => None,
        };
        self.taken = taken;
        if self.slip != Slip::PassesStay {
            self.passes = 0;
        }
        self.turn = self.enemy();
        self.accepted += 1;
        self.begun = true;
        Reason::Accepted
    }

    pub fn pass(&mut self) -> Reason {
        if self.passes >= 2 {
            return Reason::GamePaused;
        }
        self.turn = self.enemy();
        self.ko = None;
        self.passes += 1;
        self.begun = true;
        Reason::Accepted
    }

    pub fn resign(&mut self, player: u8) -> Reason {
        if self.passes >= 2 {
            return Reason::GamePaused;
        }
        self.outcome = player;
        self.begun = true;
        Reason::Accepted
    }

    pub fn resume(&mut self) -> Reason {
        self.passes = 0;
        Reason::Accepted
    }

    pub fn check(&self, row: u64, column: u64, flags: u64) -> Reason {
        if flags > FLAGS {
            return Reason::BadFlags;
        }
        match self.board.point(row, column) {
            None => Reason::OffBoard,
            Some(point) => self.tests(point, flags),
        }
    }

    pub fn legals(&self, flags: u64) -> Result<Vec<usize>, Reason> {
        if flags > FLAGS {
            return Err(Reason::BadFlags);
        }
        Ok((0..self.board.area()).filter(|&point| self.tests(point, flags) == Reason::Accepted).collect())
    }

    pub fn enemy(&self) -> u8 {
        BLACK + WHITE - self.turn
    }

    /// 6, 7, 8 by ko, 9, 8 by superko, in this order.
    fn tests(&self, point: usize, flags: u64) -> Reason {
        if self.board.colours[point] != EMPTY {
            return Reason::PointNotEmpty;
        }
        if flags & SUICIDE != 0 && self.suicide(point) {
            return Reason::Suicide;
        }
        if flags & KO != 0 && self.ko_holds(point) {
            return Reason::Ko;
        }
        if flags & FILLEYE != 0 {
            let eye = self.eye(point);
            if eye != Reason::Accepted {
                return eye;
            }
        }
        if flags & SUPERKO != 0 {
            return self.superko(point);
        }
        Reason::Accepted
    }

    /// No empty neighbour, no own chain beside it with a liberty count other than 1, no enemy chain beside it with count 1.
    pub fn suicide(&self, point: usize) -> bool {
        self.board.neighbours(point).all(|next| {
            let colour = self.board.colours[next];
            colour != EMPTY && (self.board.chain(next).liberties.len() == 1) == (colour == self.turn)
        })
    }

    /// The ko point, and no chain beside it, of either colour, with one liberty and more than one stone.
    pub fn ko_holds(&self, point: usize) -> bool {
        self.ko == Some(point)
            && !self.board.neighbours(point).filter(|&next| self.board.colours[next] != EMPTY).any(|next| {
                let chain = self.board.chain(next);
                chain.liberties.len() == 1 && chain.stones.len() > 1
            })
    }

    pub fn eye(&self, point: usize) -> Reason {
        let board = &self.board;
        if board.neighbours(point).any(|next| board.colours[next] != self.turn) {
            return Reason::Accepted;
        }
        match board.own_or_off_corners(point, self.turn) {
            4 => Reason::EyeByCorners,
            0 | 1 => Reason::Accepted,
            _ => {
                for corner in board.corners(point).into_iter().flatten().filter(|&corner| board.colours[corner] == EMPTY) {
                    if board.neighbours(corner).any(|next| board.colours[next] == self.enemy()) {
                        return Reason::Accepted;
                    }
                    if matches!(board.own_or_off_corners(corner, self.turn), 2 | 3) {
                        return Reason::EyeByDiagonal;
                    }
                }
                Reason::Accepted
            }
        }
    }

    /// More than two records, a capture, and the ko test or a board that was there before.
    pub fn superko(&self, point: usize) -> Reason {
        let least = if self.slip == Slip::AtLeastTwoRecords { 2 } else { 3 };
        if self.records.len() < least {
            return Reason::Accepted;
        }
        let captures =
            self.board.neighbours(point).any(|next| self.board.colours[next] == self.enemy() && self.board.chain(next).liberties.len() == 1);
        if !captures {
            Reason::Accepted
        } else if self.ko_holds(point) {
            Reason::SuperkoByKo
        } else if self.is_recorded(&self.laid(point).0) {
            Reason::SuperkoByRecord
        } else {
            Reason::Accepted
        }
    }

    /// The board after a stone of the player to move: rule 7, the own chain only where suicide is allowed.
    pub fn laid(&self, point: usize) -> (Board, Taken) {
        let mut board = self.board.clone();
        board.colours[point] = self.turn;
        let mut taken = Taken::default();
        let clears_own = self.flags & SUICIDE == 0;
        if self.slip == Slip::OwnFirst && clears_own {
            taken.own = board.clear(self.turn);
        }
        taken.enemy = board.clear(self.enemy());
        if self.slip != Slip::OwnFirst && clears_own {
            taken.own = board.clear(self.turn);
        }
        (board, taken)
    }

    pub fn is_recorded(&self, board: &Board) -> bool {
        self.records.contains(&self.record_of(board))
    }

    fn record_of(&self, board: &Board) -> [u8; 100] {
        let mut record = board.record();
        if self.slip == Slip::HashAlone {
            record[8..].fill(0);
        }
        record
    }

    fn count_prisoners(&mut self, taken: &Taken) {
        let size = |chains: &[Vec<usize>]| chains.iter().map(|chain| chain.len() as u64).sum::<u64>();
        let (enemy, own) = (size(&taken.enemy), size(&taken.own));
        let white_moves = (self.turn == WHITE) != (self.slip == Slip::PrisonersSwapped);
        let (white, black) = if white_moves { (own, enemy) } else { (enemy, own) };
        self.white_removed += white;
        self.black_removed += black;
    }
}
