//! The library's calls that take a state, each made on lent memory with guards around it.

use crate::made::nothing;
use random::Random;
use samtrekhu::raw::*;

/// What a call judges.
#[derive(Clone, Copy, PartialEq)]
pub enum Judges {
    Board,
    Game,
    /// the game, and that its records are within the lent history
    WithHistory,
}

/// What a call hands back.
#[derive(Clone, Copy, PartialEq)]
pub enum Gives {
    Answer,
    /// a state too; on refusal the one it got
    State,
    /// a state that keeps what the accepted entries did
    Entries,
}

pub struct Call {
    pub name: &'static str,
    pub judges: Judges,
    pub gives: Gives,
    pub make: fn(&mut Desk) -> u8,
}

macro_rules! calls {
    ($($name:ident $judges:ident $gives:ident: $make:expr;)*) => {
        pub const CALLS: &[Call] = &[$(Call { name: stringify!($name), judges: Judges::$judges, gives: Gives::$gives, make: $make }),*];
    };
}

calls! {
    is_true_board Board Answer: |d| verdict(samtrekhu_is_true_board(d.given.board));
    size Board Answer: |d| samtrekhu_size(d.given.board).answer;
    zobrist_hash Board Answer: |d| samtrekhu_zobrist_hash(d.given.board).answer;
    number_of_stones Board Answer: |d| samtrekhu_number_of_stones(d.given.board).answer;
    number_of_chains Board Answer: |d| samtrekhu_number_of_chains(d.given.board).answer;
    get_color Board Answer: |d| { let (row, column) = d.point(); samtrekhu_get_color(d.given.board, row, column).answer };
    has_liberties Board Answer: |d| { let (row, column) = d.point(); samtrekhu_has_liberties(d.given.board, row, column).answer };
    chain_at Board Answer: |d| { let (row, column) = d.point(); samtrekhu_chain_at(d.given.board, row, column).answer };
    contains_liberty Board Answer: |d| {
        let ((row, column), (other_row, other_column)) = (d.point(), d.point());
        samtrekhu_contains_liberty(d.given.board, row, column, other_row, other_column).answer
    };
    get_stones Board Answer: |d| unsafe { samtrekhu_get_stones(d.given.board, d.list.at(), d.list.length) }.number;
    get_coords_by_color Board Answer: |d| {
        let colour = d.random.byte() % 4;
        unsafe { samtrekhu_get_coords_by_color(d.given.board, colour, d.list.at(), d.list.length) }.number
    };
    get_empty_coords Board Answer: |d| unsafe { samtrekhu_get_empty_coords(d.given.board, d.list.at(), d.list.length) }.number;
    chain_stones Board Answer: |d| d.list_at(samtrekhu_chain_stones);
    chain_liberties Board Answer: |d| d.list_at(samtrekhu_chain_liberties);
    get_connected_points Board Answer: |d| d.list_at(samtrekhu_get_connected_points);
    get_connected_stones Board Answer: |d| d.list_at(samtrekhu_get_connected_stones);
    get_liberties Board Answer: |d| d.list_at(samtrekhu_get_liberties);
    get_connected_groups Board Answer: |d| d.list_at(samtrekhu_get_connected_groups);
    to_vec Board Answer: |d| unsafe { samtrekhu_to_vec(d.given.board, d.bytes.at(), d.bytes.length) }.number;
    pretty_string Board Answer: |d| unsafe { samtrekhu_pretty_string(d.given.board, d.bytes.at(), d.bytes.length) }.number;

    is_true_game Game Answer: |d| verdict(samtrekhu_is_true_game(*d.given));
    is_true_game_with WithHistory Answer: |d| verdict(samtrekhu_is_true_game_with(*d.given, d.history.length));
    handicap Game State: |d| {
        let spots = d.spots();
        let answered = unsafe { samtrekhu_handicap(*d.given, spots.as_ptr(), spots.len()) };
        d.answered(&answered)
    };
    stone WithHistory State: |d| {
        let (row, column) = d.point();
        let answered = unsafe { samtrekhu_stone(*d.given, d.history.at(), d.history.length, row, column) };
        d.answered(&answered)
    };
    pass Game State: |d| { let answered = samtrekhu_pass(*d.given); d.answered(&answered) };
    resign Game State: |d| { let answered = samtrekhu_resign(*d.given, d.random.byte() % 4); d.answered(&answered) };
    resume Game State: |d| { let answered = samtrekhu_resume(*d.given); d.answered(&answered) };
    replay WithHistory Entries: |d| {
        let entries = d.entries();
        let replayed = unsafe { samtrekhu_replay(*d.given, d.history.at(), d.history.length, entries.as_ptr(), entries.len()) };
        *d.back = replayed.game;
        replayed.answer
    };
    check_point WithHistory Answer: |d| {
        let (row, column) = d.point();
        unsafe { samtrekhu_check_point(*d.given, d.history.at(), d.history.length, row, column) }
    };
    check_point_by WithHistory Answer: |d| {
        let ((row, column), flags) = (d.point(), d.random.byte() % 17);
        unsafe { samtrekhu_check_point_by(*d.given, d.history.at(), d.history.length, flags, row, column) }
    };
    legals WithHistory Answer: |d| {
        unsafe { samtrekhu_legals(*d.given, d.history.at(), d.history.length, d.list.at(), d.list.length) }.number
    };
    legals_by WithHistory Answer: |d| {
        let flags = d.random.byte() % 17;
        unsafe { samtrekhu_legals_by(*d.given, d.history.at(), d.history.length, flags, d.list.at(), d.list.length) }.number
    };
    facts_of Game Answer: |d| samtrekhu_facts_of(*d.given).answer;
    empty_points Game Answer: |d| unsafe { samtrekhu_empty_points(*d.given, d.list.at(), d.list.length) }.number;
    board_of Game Answer: |d| samtrekhu_board_of(*d.given).answer;
    will_capture Game Answer: |d| { let (row, column) = d.point(); samtrekhu_will_capture(*d.given, row, column).answer };
    is_suicide_at Game Answer: |d| { let (row, column) = d.point(); samtrekhu_is_suicide_at(*d.given, row, column).answer };
    is_ko_at Game Answer: |d| { let (row, column) = d.point(); samtrekhu_is_ko_at(*d.given, row, column).answer };
    is_eye_at Game Answer: |d| { let (row, column) = d.point(); samtrekhu_is_eye_at(*d.given, row, column).answer };
    is_superko_at WithHistory Answer: |d| {
        let (row, column) = d.point();
        unsafe { samtrekhu_is_superko_at(*d.given, d.history.at(), d.history.length, row, column) }.answer
    };

    stone_in_place WithHistory State: |d| {
        let (row, column) = d.point();
        *d.back = *d.given;
        unsafe { samtrekhu_stone_in_place(&mut d.back, d.history.at(), d.history.length, row, column) }
    };
    pass_in_place Game State: |d| { *d.back = *d.given; samtrekhu_pass_in_place(&mut d.back) };
    resign_in_place Game State: |d| { *d.back = *d.given; samtrekhu_resign_in_place(&mut d.back, d.random.byte() % 4) };
    resume_in_place Game State: |d| { *d.back = *d.given; samtrekhu_resume_in_place(&mut d.back) };
    handicap_in_place Game State: |d| {
        let spots = d.spots();
        *d.back = *d.given;
        unsafe { samtrekhu_handicap_in_place(&mut d.back, spots.as_ptr(), spots.len()) }
    };
    replay_in_place WithHistory Entries: |d| {
        let entries = d.entries();
        *d.back = *d.given;
        unsafe { samtrekhu_replay_in_place(&mut d.back, d.history.at(), d.history.length, entries.as_ptr(), entries.len()) }.answer
    };
}

/// A judge's word as the answer of a call that judges.
fn verdict(holds: bool) -> u8 {
    if holds {
        answers::ACCEPTED
    } else {
        answers::DAMAGED
    }
}

const GUARD: usize = 64;

/// A lent stretch of memory between guards.
pub struct Lent<T> {
    all: Vec<T>,
    before: Vec<T>,
    guard: T,
    pub length: usize,
}

impl<T: Copy + PartialEq> Lent<T> {
    fn new(guard: T) -> Lent<T> {
        Lent { all: Vec::new(), before: Vec::new(), guard, length: 0 }
    }

    /// Lends the first elements of this; the rest is a guard too.
    fn lend(&mut self, content: &[T], length: usize) {
        self.before.clear();
        self.before.resize(GUARD, self.guard);
        self.before.extend_from_slice(content);
        self.before.resize(2 * GUARD + content.len(), self.guard);
        self.all.clone_from(&self.before);
        self.length = length;
    }

    pub fn at(&mut self) -> *mut T {
        self.all[GUARD..].as_mut_ptr()
    }

    /// Whether nothing at all changed.
    pub fn untouched(&self) -> bool {
        self.all == self.before
    }

    /// Whether nothing changed before the first lent element or from this one on.
    pub fn same_beyond(&self, length: usize) -> bool {
        let (from, to) = (GUARD, GUARD + length);
        self.all[..from] == self.before[..from] && self.all[to..] == self.before[to..]
    }
}

/// All that a call is given and all that it gives back, on the heap: the thread's stack is small.
pub struct Desk {
    pub given: Box<Game>,
    pub back: Box<Game>,
    pub history: Lent<u8>,
    pub list: Lent<u16>,
    pub bytes: Lent<u8>,
    pub random: Random,
}

impl Desk {
    pub fn new(seed: u64) -> Desk {
        let (history, list, bytes) = (Lent::new(0xC3), Lent::new(0xC3C3), Lent::new(0xC3));
        Desk { given: nothing(), back: nothing(), history, list, bytes, random: Random::new(seed, 0) }
    }

    /// Lends so much of a history, and buffers that are long enough or not.
    pub fn lend(&mut self, history: &[u8], lent: usize, random: &mut Random) {
        let (height, width) = (usize::from(self.given.board.height), usize::from(self.given.board.width));
        let (area, picture) = (height * width, height * (3 * width + 1));
        let places = [0, area.wrapping_sub(1), area, MAX_AREA, MAX_AREA][random.below(5)].min(MAX_AREA);
        let bytes = [0, area, picture.wrapping_sub(1), picture, PICTURE_BYTES, PICTURE_BYTES][random.below(6)].min(PICTURE_BYTES);
        self.history.lend(history, lent);
        self.list.lend(&[0x5A5A; MAX_AREA], places);
        self.bytes.lend(&[0x5A; PICTURE_BYTES], bytes);
    }

    /// A row or column, mostly on the board.
    fn side(&mut self, side: u8) -> u8 {
        if side == 0 || self.random.one_in(12) {
            self.random.byte()
        } else {
            self.random.byte() % side
        }
    }

    fn point(&mut self) -> (u8, u8) {
        (self.side(self.given.board.height), self.side(self.given.board.width))
    }

    fn spots(&mut self) -> Vec<u16> {
        (0..self.random.below(4)).map(|_| self.point()).map(|(row, column)| u16::from(row) * 256 + u16::from(column)).collect()
    }

    fn entries(&mut self) -> Vec<Move> {
        let many = self.random.below(4);
        (0..many).map(|_| (self.random.byte() % 6, self.point())).map(|(kind, (row, column))| Move { kind: kind % 5, row, column }).collect()
    }

    fn list_at(&mut self, call: unsafe extern "C" fn(Board, u8, u8, *mut u16, usize) -> Listed) -> u8 {
        let (row, column) = self.point();
        unsafe { call(self.given.board, row, column, self.list.at(), self.list.length) }.number
    }

    fn answered(&mut self, answered: &Answered) -> u8 {
        *self.back = answered.game;
        answered.answer
    }
}
