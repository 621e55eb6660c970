//! The border's calls, each between guards: what is lent and what is got lies in guarded memory, and the counters are read after every call.

use crate::complaint::{ensure, Checked};
use crate::cover::{self, Seen};
use crate::kinds::Kind;
use crate::memory::{boxed, bytes_of, Lent, Side};
use crate::slips::Slip;
use samtrekhu::raw::{
    self, Answered, Board, BoardAnswer, ChainAnswer, Facts, Game, Listed, Move, Placed, Replayed, StonesAnswer, TestAnswer,
};
use std::mem::{offset_of, transmute};
use std::ptr;

/// Every call runs on the stack of the thread that plays the inputs.
pub const STACK: usize = 256 << 10;

// Each in a function of its own, so that the states by value of one call do not lie on the stack of another.
//
// By the C convention of x86-64 a result above 16 bytes comes by a pointer that the caller gives before all arguments, and that is handed back. Said openly, the
// result's place can lie between guards too. A bool is got as the byte that it is, since 2 would be no bool.
macro_rules! placed {
    ($($name:ident: $raw:ident($($state:ty)?; $($arg:ident: $kind:ty),*) -> $result:ty;)*) => { $(
        #[inline(never)]
        unsafe fn $name(place: *mut u8, $(state: &$state,)? $($arg: $kind),*) -> *mut u8 {
            let known: unsafe extern "C" fn($($state,)? $($kind),*) -> $result = raw::$raw;
            unsafe {
                let call: unsafe extern "C" fn(*mut u8, $($state,)? $($kind),*) -> *mut u8 = transmute(known);
                cover::begin();
                call(place, $({ let by_value: $state = *state; by_value },)? $($arg),*)
            }
        }
    )* };
}

macro_rules! in_registers {
    ($($name:ident: $raw:ident($state:ty; $($arg:ident: $kind:ty),*) -> $result:ty as $seen:ty;)*) => { $(
        #[inline(never)]
        #[allow(clippy::useless_transmute)] // where what is seen is the result itself
        unsafe fn $name(state: &$state, $($arg: $kind),*) -> $seen {
            let known: unsafe extern "C" fn($state, $($kind),*) -> $result = raw::$raw;
            unsafe {
                let call: unsafe extern "C" fn($state, $($kind),*) -> $seen = transmute(known);
                cover::begin();
                call(*state, $($arg),*)
            }
        }
    )* };
}

/// A `TestAnswer` in bytes.
#[repr(C)]
struct Yes {
    answer: u8,
    holds: u8,
}

placed! {
    new_board: samtrekhu_new_board(; height: u8, width: u8) -> Placed;
    from_colours: samtrekhu_from_colours(; height: u8, width: u8, colours: *const u8, length: usize) -> Placed;
    number_of_stones: samtrekhu_number_of_stones(Board;) -> StonesAnswer;
    chain_at: samtrekhu_chain_at(Board; row: u8, column: u8) -> ChainAnswer;
    new_game: samtrekhu_new_game(; height: u8, width: u8, flags: u8) -> Answered;
    handicap: samtrekhu_handicap(Game; spots: *const u16, count: usize) -> Answered;
    stone: samtrekhu_stone(Game; history: *mut u8, length: usize, row: u8, column: u8) -> Answered;
    pass: samtrekhu_pass(Game;) -> Answered;
    resign: samtrekhu_resign(Game; player: u8) -> Answered;
    resume: samtrekhu_resume(Game;) -> Answered;
    replay: samtrekhu_replay(Game; history: *mut u8, length: usize, moves: *const Move, entries: usize) -> Replayed;
    facts_of: samtrekhu_facts_of(Game;) -> Facts;
    board_of: samtrekhu_board_of(Game;) -> BoardAnswer;
}

in_registers! {
    is_true_board: samtrekhu_is_true_board(Board;) -> bool as u8;
    size: samtrekhu_size(Board;) -> raw::SizeAnswer as raw::SizeAnswer;
    zobrist_hash: samtrekhu_zobrist_hash(Board;) -> raw::HashAnswer as raw::HashAnswer;
    number_of_chains: samtrekhu_number_of_chains(Board;) -> raw::ChainsAnswer as raw::ChainsAnswer;
    get_color: samtrekhu_get_color(Board; row: u8, column: u8) -> raw::ColourAnswer as raw::ColourAnswer;
    has_liberties: samtrekhu_has_liberties(Board; row: u8, column: u8) -> TestAnswer as Yes;
    contains_liberty: samtrekhu_contains_liberty(Board; row: u8, column: u8, other_row: u8, other_column: u8) -> TestAnswer as Yes;
    get_stones: samtrekhu_get_stones(Board; buffer: *mut u16, places: usize) -> Listed as Listed;
    get_coords_by_color: samtrekhu_get_coords_by_color(Board; colour: u8, buffer: *mut u16, places: usize) -> Listed as Listed;
    get_empty_coords: samtrekhu_get_empty_coords(Board; buffer: *mut u16, places: usize) -> Listed as Listed;
    chain_stones: samtrekhu_chain_stones(Board; row: u8, column: u8, buffer: *mut u16, places: usize) -> Listed as Listed;
    chain_liberties: samtrekhu_chain_liberties(Board; row: u8, column: u8, buffer: *mut u16, places: usize) -> Listed as Listed;
    get_connected_points: samtrekhu_get_connected_points(Board; row: u8, column: u8, buffer: *mut u16, places: usize) -> Listed as Listed;
    get_connected_stones: samtrekhu_get_connected_stones(Board; row: u8, column: u8, buffer: *mut u16, places: usize) -> Listed as Listed;
    get_liberties: samtrekhu_get_liberties(Board; row: u8, column: u8, buffer: *mut u16, places: usize) -> Listed as Listed;
    get_connected_groups: samtrekhu_get_connected_groups(Board; row: u8, column: u8, buffer: *mut u16, places: usize) -> Listed as Listed;
    to_vec: samtrekhu_to_vec(Board; buffer: *mut u8, length: usize) -> Listed as Listed;
    pretty_string: samtrekhu_pretty_string(Board; buffer: *mut u8, length: usize) -> Listed as Listed;
    check_point: samtrekhu_check_point(Game; history: *const u8, length: usize, row: u8, column: u8) -> u8 as u8;
    check_point_by: samtrekhu_check_point_by(Game; history: *const u8, length: usize, flags: u8, row: u8, column: u8) -> u8 as u8;
    legals: samtrekhu_legals(Game; history: *const u8, length: usize, buffer: *mut u16, places: usize) -> Listed as Listed;
    legals_by: samtrekhu_legals_by(Game; history: *const u8, length: usize, flags: u8, buffer: *mut u16, places: usize) -> Listed as Listed;
    is_true_game: samtrekhu_is_true_game(Game;) -> bool as u8;
    is_true_game_with: samtrekhu_is_true_game_with(Game; length: usize) -> bool as u8;
    empty_points: samtrekhu_empty_points(Game; buffer: *mut u16, places: usize) -> Listed as Listed;
    will_capture: samtrekhu_will_capture(Game; row: u8, column: u8) -> TestAnswer as Yes;
    is_suicide_at: samtrekhu_is_suicide_at(Game; row: u8, column: u8) -> TestAnswer as Yes;
    is_ko_at: samtrekhu_is_ko_at(Game; row: u8, column: u8) -> TestAnswer as Yes;
    is_eye_at: samtrekhu_is_eye_at(Game; row: u8, column: u8) -> TestAnswer as Yes;
    is_superko_at: samtrekhu_is_superko_at(Game; history: *const u8, length: usize, row: u8, column: u8) -> TestAnswer as Yes;
}

/// A call that changes a game.
#[derive(Clone, Copy)]
pub enum Change<'a> {
    Handicap(&'a [u16]),
    Stone(u8, u8),
    Pass,
    Resign(u8),
    Resume,
    Replay(&'a [Move]),
}

/// What such a call leaves: `entries` is a replay's, else 0.
pub struct Done {
    pub entries: usize,
    pub answer: u8,
    pub game: Box<Game>,
    pub history: Vec<u8>,
}

/// A point, or two, or a colour, where a question has one.
#[derive(Clone, Copy, Default)]
pub struct Asked {
    pub row: u8,
    pub column: u8,
    pub other_row: u8,
    pub other_column: u8,
    pub colour: u8,
    pub flags: u8,
}

pub struct Desk {
    history: Lent,
    list: Lent,
    buffer: Lent,
    result: Lent,
    game: Lent,
    pub seen: Seen,
    /// Whether a call went a new way since this was last set to false.
    pub fresh: bool,
    pub calls: u64,
    /// Where what is lent lies in the calls that follow.
    pub side: Side,
    /// Whether a slice of length 0 has no pointer, or one that must not be read.
    pub null: bool,
    pub slip: Slip,
}

impl Desk {
    pub fn new(slip: Slip) -> Desk {
        Desk {
            history: Lent::new(8),
            list: Lent::new(1),
            buffer: Lent::new(1),
            result: Lent::new(5),
            game: Lent::new(5),
            seen: Seen::new(),
            fresh: false,
            calls: 0,
            side: Side::Middle,
            null: false,
            slip,
        }
    }

    /// The longest history that can be lent.
    pub fn most_history(&self) -> usize {
        self.history.most()
    }

    /// The longest buffer in bytes.
    pub fn most_buffer(&self) -> usize {
        self.buffer.most()
    }

    /// After a call: it is counted, its counters are read.
    fn end(&mut self) {
        self.calls += 1;
        self.fresh |= self.seen.end();
    }

    fn pointer(null: bool, lent: &Lent, place: *mut u8) -> *mut u8 {
        match (lent.lent().is_empty(), null) {
            (false, _) => place,
            (true, true) => ptr::null_mut(),
            (true, false) => lent.beyond(),
        }
    }

    fn lend_history(&mut self, history: &[u8]) -> (*mut u8, usize) {
        let place = self.history.lay(history, self.side);
        (Self::pointer(self.null, &self.history, place), history.len())
    }

    fn lend_list<T: Copy>(&mut self, list: &[T]) -> (*const T, usize) {
        let bytes = unsafe { std::slice::from_raw_parts(list.as_ptr() as *const u8, size_of_val(list)) };
        let place = self.list.lay(bytes, self.side);
        (Self::pointer(self.null, &self.list, place) as *const T, list.len())
    }

    fn lend_buffer<T: Copy>(&mut self, before: &[T]) -> (*mut T, usize) {
        let bytes = unsafe { std::slice::from_raw_parts(before.as_ptr() as *const u8, size_of_val(before)) };
        let place = self.buffer.lay(bytes, self.side);
        (Self::pointer(self.null, &self.buffer, place) as *mut T, before.len())
    }

    fn buffer_after<T: Copy>(&self) -> Vec<T> {
        let lent = self.buffer.lent();
        unsafe { std::slice::from_raw_parts(lent.as_ptr() as *const T, lent.len() / size_of::<T>()) }.to_vec()
    }

    fn place<T>(&mut self) -> *mut u8 {
        self.result.clear(size_of::<T>(), self.side)
    }

    /// The result that was put in its place; `back` is the pointer that came back.
    fn got<T: Copy>(&mut self, name: &str, back: *mut u8) -> Checked<Box<T>> {
        self.end();
        let place = self.result.lent().as_ptr();
        ensure!(ptr::eq(place, back), "result", "{name} hands back another place for its result");
        ensure!(self.result.guards_stand(), "guard", "{name} wrote beside its result");
        Ok(boxed(place as *const T))
    }

    /// Of what was lent to be written.
    fn guards(&self, name: &str) -> Checked {
        ensure!(self.history.guards_stand(), "guard", "{name} wrote beside the history");
        ensure!(self.buffer.guards_stand(), "guard", "{name} wrote beside the buffer");
        ensure!(self.list.guards_stand(), "guard", "{name} wrote beside the list");
        ensure!(self.game.guards_stand(), "guard", "{name} wrote beside the game");
        Ok(())
    }

    // ---- boards

    pub fn new_board(&mut self, height: u8, width: u8) -> Checked<Box<Placed>> {
        let place = self.place::<Placed>();
        let back = unsafe { new_board(place, height, width) };
        self.got("new_board", back)
    }

    pub fn from_colours(&mut self, height: u8, width: u8, colours: &[u8]) -> Checked<Box<Placed>> {
        let (pointer, length) = self.lend_list(colours);
        let place = self.place::<Placed>();
        let back = unsafe { from_colours(place, height, width, pointer, length) };
        ensure!(self.list.lent() == colours, "lent", "from_colours changed the colours");
        self.guards("from_colours")?;
        self.got("from_colours", back)
    }

    pub fn number_of_stones(&mut self, board: &Board) -> Checked<Box<StonesAnswer>> {
        let place = self.place::<StonesAnswer>();
        let back = unsafe { number_of_stones(place, board) };
        self.got("number_of_stones", back)
    }

    pub fn chain_at(&mut self, board: &Board, asked: Asked) -> Checked<Box<ChainAnswer>> {
        let place = self.place::<ChainAnswer>();
        let back = unsafe { chain_at(place, board, asked.row, asked.column) };
        for at in [offset_of!(ChainAnswer, present), offset_of!(ChainAnswer, atari)] {
            ensure!(self.result.lent()[at] < 2, "bool", "chain_at");
        }
        let mut answer: Box<ChainAnswer> = self.got("chain_at", back)?;
        if self.slip == Slip::OneLibertyMore && answer.present {
            answer.liberties += 1;
        }
        Ok(answer)
    }

    pub fn size(&mut self, board: &Board) -> raw::SizeAnswer {
        if self.slip == Slip::WildWrite {
            unsafe { ptr::without_provenance_mut::<u8>(8).write_volatile(0) };
        }
        let answer = unsafe { size(board) };
        self.end();
        answer
    }

    pub fn zobrist_hash(&mut self, board: &Board) -> raw::HashAnswer {
        let answer = unsafe { zobrist_hash(board) };
        self.end();
        answer
    }

    pub fn number_of_chains(&mut self, board: &Board) -> raw::ChainsAnswer {
        let answer = unsafe { number_of_chains(board) };
        self.end();
        answer
    }

    pub fn get_color(&mut self, board: &Board, asked: Asked) -> raw::ColourAnswer {
        let answer = unsafe { get_color(board, asked.row, asked.column) };
        self.end();
        answer
    }

    pub fn is_true_board(&mut self, board: &Board) -> Checked<bool> {
        let answer = unsafe { is_true_board(board) };
        self.end();
        yes("is_true_board", answer)
    }

    /// A yes or no about a board.
    pub fn board_test(&mut self, kind: Kind, board: &Board, asked: Asked) -> Checked<(u8, bool)> {
        let Asked { row, column, other_row, other_column, .. } = asked;
        if self.slip == Slip::DeepStack && kind == Kind::HasLiberties {
            deep();
        }
        let Yes { answer, holds } = unsafe {
            match kind {
                Kind::HasLiberties => has_liberties(board, row, column),
                _ => contains_liberty(board, row, column, other_row, other_column),
            }
        };
        self.end();
        Ok((answer, yes(kind.name(), holds)?))
    }

    /// A list of points, or of legal ones, in a buffer that was filled with `before`.
    pub fn board_list(&mut self, kind: Kind, board: &Board, asked: Asked, before: &[u16]) -> Checked<(Listed, Vec<u16>)> {
        let Asked { row, column, colour, .. } = asked;
        let (buffer, places) = self.lend_buffer(before);
        let listed = unsafe {
            match kind {
                Kind::GetStones => get_stones(board, buffer, places),
                Kind::GetCoordsByColor => get_coords_by_color(board, colour, buffer, places),
                Kind::GetEmptyCoords => get_empty_coords(board, buffer, places),
                Kind::ChainStones => chain_stones(board, row, column, buffer, places),
                Kind::ChainLiberties => chain_liberties(board, row, column, buffer, places),
                Kind::GetConnectedPoints => get_connected_points(board, row, column, buffer, places),
                Kind::GetConnectedStones => get_connected_stones(board, row, column, buffer, places),
                Kind::GetLiberties => get_liberties(board, row, column, buffer, places),
                _ => get_connected_groups(board, row, column, buffer, places),
            }
        };
        self.end();
        if self.slip == Slip::BehindTheBuffer && kind == Kind::GetStones && places > 0 {
            unsafe { buffer.add(places).write_volatile(0) };
        }
        if self.slip == Slip::RefusedWrites && listed.number != 0 && places > 0 {
            unsafe { *buffer = !*buffer };
        }
        self.guards(kind.name())?;
        Ok((listed, self.buffer_after()))
    }

    /// Colours or the picture, in a buffer that was filled with `before`.
    pub fn board_bytes(&mut self, kind: Kind, board: &Board, before: &[u8]) -> Checked<(Listed, Vec<u8>)> {
        let (buffer, length) = self.lend_buffer(before);
        let listed = unsafe {
            match kind {
                Kind::ToVec => to_vec(board, buffer, length),
                _ => pretty_string(board, buffer, length),
            }
        };
        self.end();
        if self.slip == Slip::BeforeTheBuffer && kind == Kind::ToVec && length > 0 {
            unsafe { buffer.sub(1).write_volatile(0) };
        }
        self.guards(kind.name())?;
        Ok((listed, self.buffer_after()))
    }

    // ---- games

    pub fn new_game(&mut self, height: u8, width: u8, flags: u8) -> Checked<Box<Answered>> {
        let place = self.place::<Answered>();
        let back = unsafe { new_game(place, height, width, flags) };
        self.got("new_game", back)
    }

    pub fn is_true_game(&mut self, game: &Game) -> Checked<bool> {
        let answer = unsafe { is_true_game(game) };
        self.end();
        let answer = if self.slip == Slip::AllIsTrue { 1 } else { answer };
        yes("is_true_game", answer)
    }

    pub fn is_true_game_with(&mut self, game: &Game, length: usize) -> Checked<bool> {
        let answer = unsafe { is_true_game_with(game, length) };
        self.end();
        yes("is_true_game_with", answer)
    }

    pub fn facts_of(&mut self, game: &Game) -> Checked<Box<Facts>> {
        let place = self.place::<Facts>();
        let back = unsafe { facts_of(place, game) };
        ensure!(self.result.lent()[offset_of!(Facts, over)] < 2, "bool", "facts_of");
        let mut facts: Box<Facts> = self.got("facts_of", back)?;
        if self.slip == Slip::OtherTurn {
            facts.turn = 3 - facts.turn;
        }
        Ok(facts)
    }

    pub fn board_of(&mut self, game: &Game) -> Checked<Box<BoardAnswer>> {
        let place = self.place::<BoardAnswer>();
        let back = unsafe { board_of(place, game) };
        self.got("board_of", back)
    }

    /// The check of a point, by the flags given or by the game's own.
    pub fn check(&mut self, kind: Kind, game: &Game, history: &[u8], asked: Asked) -> Checked<u8> {
        let Asked { row, column, flags, .. } = asked;
        let (pointer, length) = self.lend_history(history);
        let answer = unsafe {
            match kind {
                Kind::CheckPoint => check_point(game, pointer, length, row, column),
                _ => check_point_by(game, pointer, length, flags, row, column),
            }
        };
        self.end();
        self.history_stays(kind, history)?;
        Ok(answer)
    }

    /// A yes or no about a game.
    pub fn game_test(&mut self, kind: Kind, game: &Game, history: &[u8], asked: Asked) -> Checked<(u8, bool)> {
        let Asked { row, column, .. } = asked;
        let (pointer, length) = self.lend_history(history);
        let Yes { answer, mut holds } = unsafe {
            match kind {
                Kind::WillCapture => will_capture(game, row, column),
                Kind::IsSuicideAt => is_suicide_at(game, row, column),
                Kind::IsKoAt => is_ko_at(game, row, column),
                Kind::IsEyeAt => is_eye_at(game, row, column),
                _ => is_superko_at(game, pointer, length, row, column),
            }
        };
        self.end();
        if self.slip == Slip::TwoIsTrue && kind == Kind::IsKoAt {
            holds *= 2;
        }
        self.history_stays(kind, history)?;
        Ok((answer, yes(kind.name(), holds)?))
    }

    pub fn game_list(&mut self, kind: Kind, game: &Game, history: &[u8], asked: Asked, before: &[u16]) -> Checked<(Listed, Vec<u16>)> {
        let (pointer, length) = self.lend_history(history);
        let (buffer, places) = self.lend_buffer(before);
        let mut listed = unsafe {
            match kind {
                Kind::Legals => legals(game, pointer, length, buffer, places),
                Kind::LegalsBy => legals_by(game, pointer, length, asked.flags, buffer, places),
                _ => empty_points(game, buffer, places),
            }
        };
        self.end();
        if self.slip == Slip::LegalIsMissing && kind == Kind::LegalsBy && listed.count > 1 {
            listed.count -= 1;
            unsafe { *buffer.add(listed.count) = before[listed.count] };
        }
        self.history_stays(kind, history)?;
        Ok((listed, self.buffer_after()))
    }

    fn history_stays(&self, kind: Kind, history: &[u8]) -> Checked {
        self.guards(kind.name())?;
        ensure!(self.history.lent() == history, "lent", "{} changed the history", kind.name());
        Ok(())
    }

    // ---- calls that change a game

    pub fn by_value(&mut self, game: &Game, history: &[u8], change: Change) -> Checked<Done> {
        let (pointer, length) = self.lend_history(history);
        let done = match change {
            Change::Handicap(spots) => {
                let (list, count) = self.lend_list(spots);
                let place = self.place::<Answered>();
                let back = unsafe { handicap(place, game, list, count) };
                self.answered("handicap", back)?
            }
            Change::Stone(row, column) => {
                let place = self.place::<Answered>();
                let back = unsafe { stone(place, game, pointer, length, row, column) };
                self.answered("stone", back)?
            }
            Change::Pass => {
                let place = self.place::<Answered>();
                let back = unsafe { pass(place, game) };
                if self.slip == Slip::BehindTheResult {
                    unsafe { place.add(size_of::<Answered>()).write_volatile(0) };
                }
                self.answered("pass", back)?
            }
            Change::Resign(player) => {
                let place = self.place::<Answered>();
                let back = unsafe { resign(place, game, player) };
                self.answered("resign", back)?
            }
            Change::Resume => {
                let place = self.place::<Answered>();
                let back = unsafe { resume(place, game) };
                self.answered("resume", back)?
            }
            Change::Replay(moves) => {
                let (list, entries) = self.lend_list(moves);
                let place = self.place::<Replayed>();
                let back = unsafe { replay(place, game, pointer, length, list, entries) };
                let replayed: Box<Replayed> = self.got("replay", back)?;
                Done { entries: replayed.entries, answer: replayed.answer, game: boxed(&replayed.game), history: Vec::new() }
            }
        };
        self.done(game, history, change, done)
    }

    fn answered(&mut self, name: &str, back: *mut u8) -> Checked<Done> {
        let answered: Box<Answered> = self.got(name, back)?;
        Ok(Done { entries: 0, answer: answered.answer, game: boxed(&answered.game), history: Vec::new() })
    }

    pub fn in_place(&mut self, game: &Game, history: &[u8], change: Change) -> Checked<Done> {
        let (pointer, length) = self.lend_history(history);
        let place = self.game.lay(bytes_of(game), self.side) as *mut Game;
        let standing = unsafe { &mut *place };
        let mut entries = 0;
        cover::begin();
        let answer = match change {
            Change::Handicap(spots) => {
                let (list, count) = self.lend_list(spots);
                unsafe { raw::samtrekhu_handicap_in_place(standing, list, count) }
            }
            Change::Stone(row, column) => unsafe { raw::samtrekhu_stone_in_place(standing, pointer, length, row, column) },
            Change::Pass => raw::samtrekhu_pass_in_place(standing),
            Change::Resign(player) => raw::samtrekhu_resign_in_place(standing, player),
            Change::Resume => raw::samtrekhu_resume_in_place(standing),
            Change::Replay(moves) => {
                let (list, count) = self.lend_list(moves);
                let replayed = unsafe { raw::samtrekhu_replay_in_place(standing, pointer, length, list, count) };
                entries = replayed.entries;
                replayed.answer
            }
        };
        self.end();
        if let Change::Stone(..) = change {
            if self.slip == Slip::BehindTheGame {
                unsafe { (place as *mut u8).add(size_of::<Game>()).write_volatile(0) };
            }
            if self.slip == Slip::BehindTheHistory && length > 0 {
                unsafe { pointer.add(length).write_volatile(0) };
            }
        }
        let done = Done { entries, answer, game: boxed(place), history: Vec::new() };
        let mut done = self.done(game, history, change, done)?;
        if self.slip == Slip::FormsDiffer && matches!(change, Change::Resign(_)) {
            done.game.begun = game.begun;
        }
        Ok(done)
    }

    /// The same for both forms: guards, what was only lent to be read, and faults that both forms share.
    fn done(&mut self, game: &Game, history: &[u8], change: Change, mut done: Done) -> Checked<Done> {
        self.guards(change.kind().name())?;
        match change {
            Change::Handicap(spots) => ensure!(self.list.lent() == slice_bytes(spots), "lent", "handicap changed its spots"),
            Change::Replay(moves) => ensure!(self.list.lent() == slice_bytes(moves), "lent", "replay changed its entries"),
            _ => {}
        }
        done.history = self.history.lent().to_vec();
        match (self.slip, change) {
            (Slip::RefusedChanges, Change::Stone(..)) if done.answer != 0 => done.game.turn ^= 3,
            (Slip::WrongNumber, Change::Resume) => done.answer = 4,
            (Slip::WrongRefusal, Change::Stone(..)) if done.answer == 6 => done.answer = 5,
            (Slip::ReplayDropsHistory, Change::Replay(_)) => done.history = history.to_vec(),
            (Slip::ReplayMiscounts, Change::Replay(_)) if done.entries > 0 => done.entries -= 1,
            (Slip::KoStays, Change::Pass) => done.game.ko = game.ko,
            (Slip::BeyondTheCapacity, Change::Stone(..)) if done.answer == 0 => {
                if let Some(byte) = done.history.get_mut(history.len() / 100 * 100) {
                    *byte ^= 1;
                }
            }
            (Slip::PrisonerIsLost, Change::Stone(..)) if done.game.held.white > game.held.white => {
                done.game.held.white -= 1;
            }
            _ => {}
        }
        Ok(done)
    }
}

impl Change<'_> {
    /// The call by value.
    pub fn kind(&self) -> Kind {
        match self {
            Change::Handicap(_) => Kind::Handicap,
            Change::Stone(..) => Kind::Stone,
            Change::Pass => Kind::Pass,
            Change::Resign(_) => Kind::Resign,
            Change::Resume => Kind::Resume,
            Change::Replay(_) => Kind::Replay,
        }
    }
}

fn slice_bytes<T: Copy>(list: &[T]) -> &[u8] {
    unsafe { std::slice::from_raw_parts(list.as_ptr() as *const u8, size_of_val(list)) }
}

fn yes(name: &str, byte: u8) -> Checked<bool> {
    ensure!(byte < 2, "bool", "{name} gives {byte} for a bool");
    Ok(byte == 1)
}

/// Writes to 300 KiB of its own frame, from the top.
#[inline(never)]
fn deep() {
    let mut frame = [0u8; 300 << 10];
    for at in (0..frame.len()).rev().step_by(1024) {
        unsafe { frame.as_mut_ptr().add(at).write_volatile(1) };
    }
    std::hint::black_box(&frame);
}
