//! The static library's constants, structs and calls, as C sees them: their one home in Rust.
//!
//! A state is a struct of numbers, and any numbers at all may be handed over: a call believes none of them and answers one of the [`answers`]. So the
//! calls that take numbers and states alone are safe. A slice is a pointer and a length in elements; those calls are `unsafe`, since the pointer must
//! lead to that many elements, which nobody else uses while the call runs. Where the length is 0 the pointer may be null or dangle.
//!
//! The safe types of this crate are made of these. Programs that want the bare calls, to time or to damage them, use this module.

/// The longest side of a board.
pub const MAX_SIDE: u8 = 19;
/// The points of the largest board, and the places that a list of points can need.
pub const MAX_AREA: usize = MAX_SIDE as usize * MAX_SIDE as usize;
/// The bytes of a liberty set: point p is bit p mod 8 of byte p / 8.
pub const LIBERTY_BYTES: usize = 46;
/// The slots of the chain table.
pub const SLOTS: usize = 289;
/// The owner of a point that no chain owns.
pub const NO_CHAIN: u16 = SLOTS as u16;
/// The ko point where none stands.
pub const NO_POINT: u16 = u16::MAX;
/// The bytes of one record of the history.
pub const RECORD_BYTES: usize = 100;
/// The bytes of the largest board's picture: three a point, one a row.
pub const PICTURE_BYTES: usize = MAX_AREA * 3 + MAX_SIDE as usize;
/// The stones that a game accepts, handicap not counted.
pub const MAX_STONES: u16 = u16::MAX;

/// What a game forbids, as bits of its flag byte.
pub mod flags {
    /// Taking a stone back at once.
    pub const KO: u8 = 1;
    /// Suicide.
    pub const SUICIDE: u8 = 2;
    /// Filling an eye of one's own.
    pub const FILLEYE: u8 = 4;
    /// Repeating a board of the history.
    pub const SUPERKO: u8 = 8;
    /// The largest flag byte.
    pub const MAX: u8 = KO | SUICIDE | FILLEYE | SUPERKO;
}

/// The colours of points; the last two name the players.
pub mod colours {
    /// No stone.
    pub const EMPTY: u8 = 0;
    /// A Black stone.
    pub const BLACK: u8 = 1;
    /// A White stone.
    pub const WHITE: u8 = 2;
}

/// The kinds of a replay's entries.
pub mod kinds {
    /// A stone.
    pub const STONE: u8 = 0;
    /// A pass.
    pub const PASS: u8 = 1;
    /// A resignation that names Black.
    pub const RESIGN_BLACK: u8 = 2;
    /// A resignation that names White.
    pub const RESIGN_WHITE: u8 = 3;
    /// The game goes on after two passes.
    pub const RESUME: u8 = 4;
}

/// The numbers that a call answers, under the names that the project's papers give them.
pub mod answers {
    /// None of the others applies.
    pub const ACCEPTED: u8 = 0;
    /// Height or width outside 1 to 19.
    pub const BAD_SIZE: u8 = 1;
    /// A flag byte above 15.
    pub const BAD_FLAGS: u8 = 2;
    /// The state is not a true one.
    pub const DAMAGED: u8 = 3;
    /// Two passes stand.
    pub const GAME_PAUSED: u8 = 4;
    /// A row or a column beyond the board.
    pub const OFF_BOARD: u8 = 5;
    /// A stone is there.
    pub const POINT_NOT_EMPTY: u8 = 6;
    /// A forbidden suicide.
    pub const SUICIDE: u8 = 7;
    /// A forbidden ko, or superko.
    pub const KO: u8 = 8;
    /// A forbidden filling of an eye.
    pub const FILL_EYE: u8 = 9;
    /// 65,535 stones are accepted already.
    pub const MOVE_LIMIT: u8 = 10;
    /// The present board has no equal record and no room is left.
    pub const HISTORY_FULL: u8 = 11;
    /// A handicap in a game that has begun.
    pub const NOT_AT_START: u8 = 12;
    /// The placement has a chain without liberty.
    pub const NO_LIBERTY: u8 = 13;
    /// As many colour bytes as points are wanted, or a longer buffer.
    pub const BAD_LENGTH: u8 = 14;
    /// A colour byte above 2.
    pub const BAD_COLOUR: u8 = 15;
    /// The kind of a replay's entry above 4.
    pub const BAD_KIND: u8 = 18;
}

/// One chain: its stones go round from origin to last and back by the board's links. Its slot is free if the count is 0.
#[repr(C)]
#[derive(Clone, Copy, Debug, PartialEq, Eq)]
pub struct Chain {
    /// A bit for each liberty.
    pub liberties: [u8; LIBERTY_BYTES],
    /// The stones' colour.
    pub colour: u8,
    /// The least point.
    pub origin: u16,
    /// The point whose link leads back to the origin.
    pub last: u16,
    /// How many stones.
    pub count: u16,
}

/// A board.
#[repr(C)]
#[derive(Clone, Copy, Debug, PartialEq, Eq)]
pub struct Board {
    /// Rows.
    pub height: u8,
    /// Columns.
    pub width: u8,
    /// The hash of its colours.
    pub hash: u64,
    /// The slot that owns each point, or [`NO_CHAIN`].
    pub owners: [u16; MAX_AREA],
    /// The link from each stone to the next of its chain.
    pub next: [u16; MAX_AREA],
    /// The chain table.
    pub chains: [Chain; SLOTS],
}

/// A number for each player's stones.
#[repr(C)]
#[derive(Clone, Copy, Debug, PartialEq, Eq)]
pub struct Tally {
    /// Of Black stones.
    pub black: u32,
    /// Of White stones.
    pub white: u32,
}

/// The state of a game.
#[repr(C)]
#[derive(Clone, Copy, Debug, PartialEq, Eq)]
pub struct Game {
    /// The board.
    pub board: Board,
    /// What is forbidden: a sum of [`flags`].
    pub flags: u8,
    /// 2 is White, anything else Black.
    pub turn: u8,
    /// Passes in a row, 2 at most.
    pub passes: u8,
    /// The player that a resignation named, 1 Black or 2 White; anything else is none.
    pub outcome: u8,
    /// 0 is a game that has not begun.
    pub begun: u8,
    /// The ko point's index, or [`NO_POINT`].
    pub ko: u16,
    /// Stones of the handicap.
    pub handicap: u16,
    /// Stones accepted, handicap not counted.
    pub accepted: u16,
    /// Stones of each colour that are held prisoner.
    pub held: Tally,
    /// Stones of each colour that were put down.
    pub put: Tally,
    /// How many records the history holds.
    pub records: usize,
}

/// One entry of a replay. Row and column count only where the kind is a stone.
#[repr(C)]
#[derive(Clone, Copy, Debug, PartialEq, Eq)]
pub struct Move {
    /// One of the [`kinds`].
    pub kind: u8,
    /// The stone's row.
    pub row: u8,
    /// The stone's column.
    pub column: u8,
}

/// What a call on a game gives.
#[repr(C)]
#[derive(Clone, Copy, Debug, PartialEq, Eq)]
pub struct Answered {
    /// One of the [`answers`].
    pub answer: u8,
    /// The game after the call.
    pub game: Game,
}

/// What a replay gives.
#[repr(C)]
#[derive(Clone, Copy, Debug, PartialEq, Eq)]
pub struct Replayed {
    /// How many entries were accepted.
    pub entries: usize,
    /// The refusal's number, 0 if none.
    pub answer: u8,
    /// The game after the accepted entries.
    pub game: Game,
}

/// What a replay on a game where it stands gives.
#[repr(C)]
#[derive(Clone, Copy, Debug, PartialEq, Eq)]
pub struct ReplayedInPlace {
    /// How many entries were accepted.
    pub entries: usize,
    /// The refusal's number, 0 if none.
    pub answer: u8,
}

/// What a call that fills a buffer gives.
#[repr(C)]
#[derive(Clone, Copy, Debug, PartialEq, Eq)]
pub struct Listed {
    /// One of the [`answers`].
    pub number: u8,
    /// How many places were filled, none where it is refused.
    pub count: usize,
}

/// What a call that makes a board gives.
#[repr(C)]
#[derive(Clone, Copy, Debug, PartialEq, Eq)]
pub struct Placed {
    /// One of the [`answers`].
    pub answer: u8,
    /// The board, an empty 1 × 1 one where it is refused.
    pub board: Board,
}

/// The board of a game.
#[repr(C)]
#[derive(Clone, Copy, Debug, PartialEq, Eq)]
pub struct BoardAnswer {
    /// One of the [`answers`].
    pub answer: u8,
    /// The board, an empty 1 × 1 one where it is refused.
    pub board: Board,
}

/// The size of a board.
#[repr(C)]
#[derive(Clone, Copy, Debug, PartialEq, Eq)]
pub struct SizeAnswer {
    /// One of the [`answers`].
    pub answer: u8,
    /// Rows.
    pub height: u8,
    /// Columns.
    pub width: u8,
}

/// The hash of a board.
#[repr(C)]
#[derive(Clone, Copy, Debug, PartialEq, Eq)]
pub struct HashAnswer {
    /// One of the [`answers`].
    pub answer: u8,
    /// The hash.
    pub hash: u64,
}

/// The stones on a board.
#[repr(C)]
#[derive(Clone, Copy, Debug, PartialEq, Eq)]
pub struct StonesAnswer {
    /// One of the [`answers`].
    pub answer: u8,
    /// Black stones.
    pub black: usize,
    /// White stones.
    pub white: usize,
}

/// The chains on a board.
#[repr(C)]
#[derive(Clone, Copy, Debug, PartialEq, Eq)]
pub struct ChainsAnswer {
    /// One of the [`answers`].
    pub answer: u8,
    /// How many.
    pub chains: usize,
}

/// The colour of a point.
#[repr(C)]
#[derive(Clone, Copy, Debug, PartialEq, Eq)]
pub struct ColourAnswer {
    /// One of the [`answers`].
    pub answer: u8,
    /// One of the [`colours`].
    pub colour: u8,
}

/// Whether what was asked holds.
#[repr(C)]
#[derive(Clone, Copy, Debug, PartialEq, Eq)]
pub struct TestAnswer {
    /// One of the [`answers`].
    pub answer: u8,
    /// The yes or no.
    pub holds: bool,
}

/// The chain at a point.
#[repr(C)]
#[derive(Clone, Copy, Debug, PartialEq, Eq)]
pub struct ChainAnswer {
    /// One of the [`answers`].
    pub answer: u8,
    /// Whether a stone is there; if not, all that follows is 0.
    pub present: bool,
    /// The stones' colour.
    pub colour: u8,
    /// How many stones.
    pub stones: usize,
    /// How many liberties.
    pub liberties: usize,
    /// Whether it has exactly one liberty.
    pub atari: bool,
    /// The least point.
    pub origin: usize,
}

/// What a game answers of itself.
#[repr(C)]
#[derive(Clone, Copy, Debug, PartialEq, Eq)]
pub struct Facts {
    /// One of the [`answers`].
    pub answer: u8,
    /// Rows.
    pub height: u8,
    /// Columns.
    pub width: u8,
    /// What is forbidden: a sum of [`flags`].
    pub flags: u8,
    /// The player to move, 1 Black or 2 White.
    pub turn: u8,
    /// Passes in a row.
    pub passes: u8,
    /// The player that a resignation named, 1 Black or 2 White; 0 is none.
    pub outcome: u8,
    /// Whether an outcome stands, or two passes.
    pub over: bool,
    /// The ko point's index, or [`NO_POINT`].
    pub ko: u16,
    /// Stones of the handicap.
    pub handicap: u16,
    /// Stones accepted, handicap not counted.
    pub accepted: u16,
    /// Stones of each colour that are held prisoner.
    pub prisoners: Tally,
    /// How many records the history holds.
    pub records: usize,
}

// What each call does stands at the safe method of its name.
#[allow(missing_docs, unsafe_code)]
unsafe extern "C" {
    pub safe fn samtrekhu_new_board(height: u8, width: u8) -> Placed;
    pub unsafe fn samtrekhu_from_colours(height: u8, width: u8, colours: *const u8, length: usize) -> Placed;
    pub safe fn samtrekhu_is_true_board(board: Board) -> bool;
    pub safe fn samtrekhu_size(board: Board) -> SizeAnswer;
    pub safe fn samtrekhu_zobrist_hash(board: Board) -> HashAnswer;
    pub safe fn samtrekhu_number_of_stones(board: Board) -> StonesAnswer;
    pub safe fn samtrekhu_number_of_chains(board: Board) -> ChainsAnswer;
    pub safe fn samtrekhu_get_color(board: Board, row: u8, column: u8) -> ColourAnswer;
    pub safe fn samtrekhu_has_liberties(board: Board, row: u8, column: u8) -> TestAnswer;
    pub safe fn samtrekhu_chain_at(board: Board, row: u8, column: u8) -> ChainAnswer;
    pub safe fn samtrekhu_contains_liberty(board: Board, row: u8, column: u8, other_row: u8, other_column: u8) -> TestAnswer;
    pub unsafe fn samtrekhu_get_stones(board: Board, buffer: *mut u16, places: usize) -> Listed;
    pub unsafe fn samtrekhu_get_coords_by_color(board: Board, colour: u8, buffer: *mut u16, places: usize) -> Listed;
    pub unsafe fn samtrekhu_get_empty_coords(board: Board, buffer: *mut u16, places: usize) -> Listed;
    pub unsafe fn samtrekhu_chain_stones(board: Board, row: u8, column: u8, buffer: *mut u16, places: usize) -> Listed;
    pub unsafe fn samtrekhu_chain_liberties(board: Board, row: u8, column: u8, buffer: *mut u16, places: usize) -> Listed;
    pub unsafe fn samtrekhu_get_connected_points(board: Board, row: u8, column: u8, buffer: *mut u16, places: usize) -> Listed;
    pub unsafe fn samtrekhu_get_connected_stones(board: Board, row: u8, column: u8, buffer: *mut u16, places: usize) -> Listed;
    pub unsafe fn samtrekhu_get_liberties(board: Board, row: u8, column: u8, buffer: *mut u16, places: usize) -> Listed;
    pub unsafe fn samtrekhu_get_connected_groups(board: Board, row: u8, column: u8, buffer: *mut u16, places: usize) -> Listed;
    pub unsafe fn samtrekhu_to_vec(board: Board, buffer: *mut u8, length: usize) -> Listed;
    pub unsafe fn samtrekhu_pretty_string(board: Board, buffer: *mut u8, length: usize) -> Listed;

    pub safe fn samtrekhu_new_game(height: u8, width: u8, flags: u8) -> Answered;
    pub unsafe fn samtrekhu_handicap(game: Game, spots: *const u16, count: usize) -> Answered;
    pub unsafe fn samtrekhu_stone(game: Game, history: *mut u8, length: usize, row: u8, column: u8) -> Answered;
    pub safe fn samtrekhu_pass(game: Game) -> Answered;
    pub safe fn samtrekhu_resign(game: Game, player: u8) -> Answered;
    pub safe fn samtrekhu_resume(game: Game) -> Answered;
    pub unsafe fn samtrekhu_replay(game: Game, history: *mut u8, length: usize, moves: *const Move, entries: usize) -> Replayed;
    pub unsafe fn samtrekhu_check_point(game: Game, history: *const u8, length: usize, row: u8, column: u8) -> u8;
    pub unsafe fn samtrekhu_check_point_by(game: Game, history: *const u8, length: usize, flags: u8, row: u8, column: u8) -> u8;
    pub unsafe fn samtrekhu_legals(game: Game, history: *const u8, length: usize, buffer: *mut u16, places: usize) -> Listed;
    pub unsafe fn samtrekhu_legals_by(game: Game, history: *const u8, length: usize, flags: u8, buffer: *mut u16, places: usize) -> Listed;
    pub safe fn samtrekhu_facts_of(game: Game) -> Facts;
    pub safe fn samtrekhu_is_true_game(game: Game) -> bool;
    pub safe fn samtrekhu_is_true_game_with(game: Game, length: usize) -> bool;
    pub unsafe fn samtrekhu_empty_points(game: Game, buffer: *mut u16, places: usize) -> Listed;
    pub safe fn samtrekhu_board_of(game: Game) -> BoardAnswer;
    pub safe fn samtrekhu_will_capture(game: Game, row: u8, column: u8) -> TestAnswer;
    pub safe fn samtrekhu_is_suicide_at(game: Game, row: u8, column: u8) -> TestAnswer;
    pub safe fn samtrekhu_is_ko_at(game: Game, row: u8, column: u8) -> TestAnswer;
    pub safe fn samtrekhu_is_eye_at(game: Game, row: u8, column: u8) -> TestAnswer;
    pub unsafe fn samtrekhu_is_superko_at(game: Game, history: *const u8, length: usize, row: u8, column: u8) -> TestAnswer;

    pub unsafe fn samtrekhu_stone_in_place(game: &mut Game, history: *mut u8, length: usize, row: u8, column: u8) -> u8;
    pub safe fn samtrekhu_pass_in_place(game: &mut Game) -> u8;
    pub safe fn samtrekhu_resign_in_place(game: &mut Game, player: u8) -> u8;
    pub safe fn samtrekhu_resume_in_place(game: &mut Game) -> u8;
    pub unsafe fn samtrekhu_handicap_in_place(game: &mut Game, spots: *const u16, count: usize) -> u8;
    pub unsafe fn samtrekhu_replay_in_place(game: &mut Game, history: *mut u8, length: usize, moves: *const Move, entries: usize) -> ReplayedInPlace;
}
