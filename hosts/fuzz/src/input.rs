//! An input is a byte string. It is read as cells, each a call or an edit of what lies between the calls; any bytes are some cells.

use crate::kinds::Kind;
use random::Random;

/// What a cell does.
#[derive(Clone, Copy, PartialEq, Eq, Debug)]
pub enum Step {
    Call(Kind),
    /// A state is changed by hand.
    DoctorGame,
    DoctorBoard,
    DoctorHistory,
    /// A history gets another length.
    Lend,
    /// A game or a board is copied to another place.
    Copy,
    /// A game in full swing is made from a board.
    Found,
}

/// How often a step comes up in a cell made at random.
const STEPS: &[(Step, u8)] = &[
    (Step::Call(Kind::Stone), 70),
    (Step::Call(Kind::Replay), 18),
    (Step::Call(Kind::NewGame), 8),
    (Step::Call(Kind::Pass), 10),
    (Step::Call(Kind::Resume), 5),
    (Step::Call(Kind::Resign), 4),
    (Step::Call(Kind::Handicap), 8),
    (Step::Call(Kind::CheckPointBy), 8),
    (Step::Call(Kind::LegalsBy), 4),
    (Step::Call(Kind::CheckPoint), 3),
    (Step::Call(Kind::Legals), 2),
    (Step::Call(Kind::FromColours), 12),
    (Step::Call(Kind::NewBoard), 3),
    (Step::Call(Kind::FactsOf), 3),
    (Step::Call(Kind::IsTrueGame), 3),
    (Step::Call(Kind::IsTrueGameWith), 3),
    (Step::Call(Kind::IsTrueBoard), 6),
    (Step::Call(Kind::EmptyPoints), 2),
    (Step::Call(Kind::BoardOf), 2),
    (Step::Call(Kind::WillCapture), 6),
    (Step::Call(Kind::IsSuicideAt), 6),
    (Step::Call(Kind::IsKoAt), 6),
    (Step::Call(Kind::IsEyeAt), 6),
    (Step::Call(Kind::IsSuperkoAt), 6),
    (Step::Call(Kind::Size), 2),
    (Step::Call(Kind::ZobristHash), 2),
    (Step::Call(Kind::NumberOfStones), 2),
    (Step::Call(Kind::NumberOfChains), 2),
    (Step::Call(Kind::GetColor), 2),
    (Step::Call(Kind::HasLiberties), 2),
    (Step::Call(Kind::ChainAt), 2),
    (Step::Call(Kind::ContainsLiberty), 3),
    (Step::Call(Kind::GetStones), 2),
    (Step::Call(Kind::GetCoordsByColor), 3),
    (Step::Call(Kind::GetEmptyCoords), 2),
    (Step::Call(Kind::ChainStones), 2),
    (Step::Call(Kind::ChainLiberties), 2),
    (Step::Call(Kind::GetConnectedPoints), 2),
    (Step::Call(Kind::GetConnectedStones), 2),
    (Step::Call(Kind::GetLiberties), 2),
    (Step::Call(Kind::GetConnectedGroups), 2),
    (Step::Call(Kind::ToVec), 2),
    (Step::Call(Kind::PrettyString), 2),
    (Step::DoctorGame, 14),
    (Step::DoctorBoard, 10),
    (Step::DoctorHistory, 4),
    (Step::Lend, 5),
    (Step::Copy, 4),
    (Step::Found, 9),
];

const WEIGHTS: usize = {
    let mut sum = 0;
    let mut at = 0;
    while at < STEPS.len() {
        sum += STEPS[at].1 as usize;
        at += 1;
    }
    sum
};

/// One cell: nine bytes, the last of them the length of what follows.
#[derive(Clone, PartialEq, Eq, Debug, Default)]
pub struct Cell {
    pub step: u8,
    /// Which game, board and history, and where the result goes.
    pub seat: u8,
    /// Where what is lent lies.
    pub side: u8,
    /// Of a buffer or a history.
    pub length: u8,
    pub row: u8,
    pub column: u8,
    /// Flags, a colour or a player.
    pub value: u8,
    pub extra: u8,
    pub rest: Vec<u8>,
}

const HEAD: usize = 9;
pub const MOST_CELLS: usize = 48;
pub const MOST_REST: usize = 120;

impl Cell {
    pub fn step(&self) -> Step {
        STEPS[self.step as usize % STEPS.len()].0
    }

    pub fn random(random: &mut Random) -> Cell {
        let mut at = random.below(WEIGHTS);
        let step = STEPS.iter().position(|&(_, weight)| {
            let here = at < weight as usize;
            at = at.saturating_sub(weight as usize);
            here
        });
        let mut cell = Cell {
            step: step.unwrap_or(0) as u8,
            // the first seat half of the time, so that games grow
            seat: if random.below(2) == 0 { 0 } else { random.byte() },
            side: random.byte(),
            length: random.byte(),
            row: random.byte(),
            column: random.byte(),
            value: random.byte(),
            extra: random.byte(),
            rest: Vec::new(),
        };
        if cell.takes_rest() {
            let length = match cell.step() {
                Step::Call(_) if random.below(4) == 0 => random.below(MOST_REST + 1),
                Step::Call(_) => random.below(24),
                // a place, a choice and a number
                _ => 12,
            };
            cell.rest = (0..length).map(|_| random.byte()).collect();
        }
        cell
    }

    pub fn takes_rest(&self) -> bool {
        use Step::*;
        matches!(self.step(), Call(Kind::Replay | Kind::Handicap | Kind::FromColours) | DoctorGame | DoctorBoard | DoctorHistory)
    }

    /// Byte `at` of what follows, 0 behind its end.
    pub fn at(&self, at: usize) -> u8 {
        self.rest.get(at).copied().unwrap_or(0)
    }

    pub fn write(&self, bytes: &mut Vec<u8>) {
        bytes.extend([self.step, self.seat, self.side, self.length, self.row, self.column, self.value, self.extra, self.rest.len() as u8]);
        bytes.extend(&self.rest);
    }
}

pub fn cells(bytes: &[u8]) -> Vec<Cell> {
    let mut left = bytes;
    let mut cells = Vec::new();
    while !left.is_empty() && cells.len() < MOST_CELLS {
        let byte = |at: usize| left.get(at).copied().unwrap_or(0);
        let end = left.len().min(HEAD + (byte(8) as usize).min(MOST_REST));
        cells.push(Cell {
            step: byte(0),
            seat: byte(1),
            side: byte(2),
            length: byte(3),
            row: byte(4),
            column: byte(5),
            value: byte(6),
            extra: byte(7),
            rest: left.get(HEAD..end).unwrap_or_default().to_vec(),
        });
        left = &left[end..];
    }
    cells
}

pub fn bytes(cells: &[Cell]) -> Vec<u8> {
    let mut bytes = Vec::new();
    cells.iter().for_each(|cell| cell.write(&mut bytes));
    bytes
}
