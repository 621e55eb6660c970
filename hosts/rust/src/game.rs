//! A game: its calls, and what can be asked of it.

use crate::board::holds;
use crate::raw::{self, answers};
use crate::refusal::accepted;
use crate::{calls, Board, Flags, History, Move, Player, Point, Points, Refusal, Stopped};
use std::fmt;

/// Stones that were removed from the board, those of a suicide among them.
#[derive(Clone, Copy, Debug, Default, PartialEq, Eq, Hash)]
pub struct Prisoners {
    /// Black stones that were removed.
    pub black: u32,
    /// White stones that were removed.
    pub white: u32,
}

/// What a game answers of itself.
#[derive(Clone, Copy, Debug, PartialEq, Eq)]
pub struct Facts {
    /// Rows of the board.
    pub height: u8,
    /// Columns of the board.
    pub width: u8,
    /// What is forbidden.
    pub flags: Flags,
    /// The player to move.
    pub turn: Player,
    /// Passes in a row, two at most.
    pub passes: u8,
    /// The player that a resignation named.
    pub outcome: Option<Player>,
    /// Whether an outcome stands, or two passes.
    pub over: bool,
    /// The point where one stone was just taken.
    pub ko: Option<Point>,
    /// Stones of the handicap.
    pub handicap: u16,
    /// Stones accepted, those of the handicap not counted.
    pub accepted: u16,
    /// Stones removed.
    pub prisoners: Prisoners,
    /// Boards that the history records.
    pub records: usize,
}

/// A game of Go with its history. Each call answers `Ok`, or says why it is refused and has changed nothing.
///
/// The state is about 17,000 bytes in a box. The history is a `Vec<u8>` that grows, unless [`Game::with_history`] lends other bytes.
///
/// ```
/// use samtrekhu::{Flags, Game, Player, Refusal};
///
/// let mut game = Game::new(1, 2, Flags::KO)?;
/// game.stone((0, 0))?;
/// game.stone((0, 1))?; // takes the first
/// assert_eq!(game.facts()?.prisoners.black, 1);
/// assert_eq!(game.stone((0, 0)), Err(Refusal::Ko));
/// assert_eq!(game.facts()?.turn, Player::Black);
/// assert_eq!(game.board()?.pretty_string()?, "┏○\n");
/// # Ok::<(), Refusal>(())
/// ```
#[derive(Clone)]
pub struct Game<H = Vec<u8>> {
    state: Box<raw::Game>,
    history: H,
}

impl Game {
    /// A new game, Black to move, whose history grows as it must. Refused: [`BadSize`](Refusal::BadSize), [`BadFlags`](Refusal::BadFlags).
    pub fn new(height: u8, width: u8, flags: Flags) -> Result<Game, Refusal> {
        Game::with_history(height, width, flags, Vec::new())
    }
}

impl<H: History> Game<H> {
    /// A new game that records into these bytes, whatever they hold: room for one board in each 100 of them.
    ///
    /// ```
    /// use samtrekhu::{Flags, Game, Refusal};
    ///
    /// let mut bytes = [0; 199];
    /// let mut game = Game::with_history(9, 9, Flags::NONE, &mut bytes[..])?;
    /// game.stone((4, 4))?;
    /// assert_eq!(game.stone((4, 5)), Err(Refusal::HistoryFull));
    /// # Ok::<(), Refusal>(())
    /// ```
    pub fn with_history(height: u8, width: u8, flags: Flags, history: H) -> Result<Game<H>, Refusal> {
        let made = raw::samtrekhu_new_game(height, width, flags.byte());
        accepted(made.answer)?;
        Ok(Game::from_raw(made.game, history))
    }

    /// Any numbers at all as a game, with its history. Where they are no true state every call is refused as [`Damaged`](Refusal::Damaged).
    ///
    /// ```
    /// use samtrekhu::{Flags, Game, Refusal};
    ///
    /// let (mut state, history) = Game::new(9, 9, Flags::NONE)?.into_raw();
    /// state.passes = 3;
    /// let mut game = Game::from_raw(state, history);
    /// assert!(!game.is_true());
    /// assert_eq!(game.pass(), Err(Refusal::Damaged));
    /// # Ok::<(), Refusal>(())
    /// ```
    pub fn from_raw(state: raw::Game, history: H) -> Game<H> {
        Game { state: Box::new(state), history }
    }

    /// Its numbers and its history.
    pub fn into_raw(self) -> (raw::Game, H) {
        (*self.state, self.history)
    }

    /// Its numbers.
    pub fn raw(&self) -> &raw::Game {
        &self.state
    }

    /// The bytes of the history, those beyond its records too.
    pub fn history(&self) -> &[u8] {
        self.history.bytes()
    }

    /// Whether it is a true state with room for its records in its history.
    pub fn is_true(&self) -> bool {
        raw::samtrekhu_is_true_game_with(*self.state, self.history.bytes().len())
    }

    /// Lays Black's handicap stones and makes it White's turn, also for no stones at all. Refused: [`NotAtStart`](Refusal::NotAtStart),
    /// [`OffBoard`](Refusal::OffBoard), [`PointNotEmpty`](Refusal::PointNotEmpty) for a repeat, [`NoLiberty`](Refusal::NoLiberty).
    pub fn handicap(&mut self, points: &[Point]) -> Result<(), Refusal> {
        let spots = points.iter().map(|&Point { row, column }| u16::from_be_bytes([row, column])).collect::<Vec<_>>();
        accepted(calls::handicap_in_place(&mut self.state, &spots))
    }

    /// The player to move lays a stone. Refused, in this order: [`GamePaused`](Refusal::GamePaused), [`OffBoard`](Refusal::OffBoard),
    /// [`PointNotEmpty`](Refusal::PointNotEmpty), [`Suicide`](Refusal::Suicide), [`Ko`](Refusal::Ko), [`FillEye`](Refusal::FillEye), `Ko` for a superko,
    /// [`MoveLimit`](Refusal::MoveLimit), [`HistoryFull`](Refusal::HistoryFull).
    pub fn stone(&mut self, point: impl Into<Point>) -> Result<(), Refusal> {
        let Point { row, column } = point.into();
        let mut answer = calls::stone_in_place(&mut self.state, self.history.bytes_mut(), row, column);
        if answer == answers::HISTORY_FULL && self.history.grow() {
            answer = calls::stone_in_place(&mut self.state, self.history.bytes_mut(), row, column);
        }
        accepted(answer)
    }

    /// The player to move passes. Refused: [`GamePaused`](Refusal::GamePaused).
    pub fn pass(&mut self) -> Result<(), Refusal> {
        accepted(raw::samtrekhu_pass_in_place(&mut self.state))
    }

    /// A resignation: the outcome becomes the player named here. The crate goban takes that player for the winner. Refused: [`GamePaused`](Refusal::GamePaused).
    pub fn resign(&mut self, player: Player) -> Result<(), Refusal> {
        accepted(raw::samtrekhu_resign_in_place(&mut self.state, player.number()))
    }

    /// Takes the passes back, so that the game goes on.
    pub fn resume(&mut self) -> Result<(), Refusal> {
        accepted(raw::samtrekhu_resume_in_place(&mut self.state))
    }

    /// The call that a move names.
    pub fn play(&mut self, play: Move) -> Result<(), Refusal> {
        match play {
            Move::Stone(point) => self.stone(point),
            Move::Pass => self.pass(),
            Move::Resign(player) => self.resign(player),
            Move::Resume => self.resume(),
        }
    }

    /// Plays a row of moves up to the first refusal; the moves before it stay played. The state is judged once, so this is the fast way to play many.
    ///
    /// ```
    /// use samtrekhu::{Flags, Game, Move, Refusal};
    ///
    /// let mut game = Game::new(9, 9, Flags::NONE).unwrap();
    /// let stopped = game.replay(&[Move::stone(4, 4), Move::Pass, Move::stone(4, 4)]).unwrap_err();
    /// assert_eq!((stopped.accepted, stopped.refusal), (2, Refusal::PointNotEmpty));
    /// ```
    pub fn replay(&mut self, moves: &[Move]) -> Result<(), Stopped> {
        self.replay_raw(&moves.iter().map(|&play| play.into()).collect::<Vec<_>>())
    }

    /// The same with a stranger's entries. Refused besides: [`BadKind`](Refusal::BadKind).
    pub fn replay_raw(&mut self, moves: &[raw::Move]) -> Result<(), Stopped> {
        let mut accepted = 0;
        loop {
            let replayed = calls::replay_in_place(&mut self.state, self.history.bytes_mut(), &moves[accepted..]);
            accepted += replayed.entries;
            match Refusal::from_number(replayed.answer) {
                None => return Ok(()),
                // a longer history goes on where the shorter one was full
                Some(Refusal::HistoryFull) if self.history.grow() => {}
                Some(refusal) => return Err(Stopped { accepted, refusal }),
            }
        }
    }

    /// Whether the player to move could lay a stone, by the rules of this game, as if no passes stood. Refused, in this order: [`OffBoard`](Refusal::OffBoard),
    /// [`PointNotEmpty`](Refusal::PointNotEmpty), [`Suicide`](Refusal::Suicide), [`Ko`](Refusal::Ko), [`FillEye`](Refusal::FillEye), `Ko` for a superko.
    pub fn check_point(&self, point: impl Into<Point>) -> Result<(), Refusal> {
        let Point { row, column } = point.into();
        accepted(calls::check_point(&self.state, self.history.bytes(), row, column))
    }

    /// The same by other flags. Refused besides, before all these: [`BadFlags`](Refusal::BadFlags).
    pub fn check_point_by(&self, flags: Flags, point: impl Into<Point>) -> Result<(), Refusal> {
        let Point { row, column } = point.into();
        accepted(calls::check_point_by(&self.state, self.history.bytes(), flags.byte(), row, column))
    }

    /// The points that [`check_point`](Game::check_point) accepts.
    pub fn legals(&self) -> Result<Points, Refusal> {
        self.list(|buffer| calls::legals(&self.state, self.history.bytes(), buffer))
    }

    /// The points that [`check_point_by`](Game::check_point_by) accepts by these flags. Refused: [`BadFlags`](Refusal::BadFlags).
    pub fn legals_by(&self, flags: Flags) -> Result<Points, Refusal> {
        self.list(|buffer| calls::legals_by(&self.state, self.history.bytes(), flags.byte(), buffer))
    }

    /// The empty points of the board.
    pub fn empty_points(&self) -> Result<Points, Refusal> {
        self.list(|buffer| calls::empty_points(&self.state, buffer))
    }

    /// A copy of the board.
    pub fn board(&self) -> Result<Board, Refusal> {
        let shown = raw::samtrekhu_board_of(*self.state);
        accepted(shown.answer)?;
        Ok(Board::from_raw(shown.board))
    }

    /// Whose turn it is, the prisoners, and all else that is not on the board.
    pub fn facts(&self) -> Result<Facts, Refusal> {
        let facts = raw::samtrekhu_facts_of(*self.state);
        accepted(facts.answer)?;
        let ko = match facts.ko {
            raw::NO_POINT => None,
            index => Some(Point::at(index.into(), facts.width)),
        };
        Ok(Facts {
            height: facts.height,
            width: facts.width,
            flags: Flags::from_byte(facts.flags),
            turn: Player::from_number(facts.turn).ok_or(Refusal::BadColour)?,
            passes: facts.passes,
            outcome: Player::from_number(facts.outcome),
            over: facts.over,
            ko,
            handicap: facts.handicap,
            accepted: facts.accepted,
            prisoners: Prisoners { black: facts.prisoners.black, white: facts.prisoners.white },
            records: facts.records,
        })
    }

    /// Whether a stone of the player to move would capture. This and the tests below answer no where a stone stands, and are refused as
    /// [`OffBoard`](Refusal::OffBoard) beyond the board.
    pub fn will_capture(&self, point: impl Into<Point>) -> Result<bool, Refusal> {
        let Point { row, column } = point.into();
        holds(raw::samtrekhu_will_capture(*self.state, row, column))
    }

    /// Whether a stone of the player to move would be a suicide, forbidden or not.
    pub fn is_suicide_at(&self, point: impl Into<Point>) -> Result<bool, Refusal> {
        let Point { row, column } = point.into();
        holds(raw::samtrekhu_is_suicide_at(*self.state, row, column))
    }

    /// Whether the ko test holds at a point.
    pub fn is_ko_at(&self, point: impl Into<Point>) -> Result<bool, Refusal> {
        let Point { row, column } = point.into();
        holds(raw::samtrekhu_is_ko_at(*self.state, row, column))
    }

    /// Whether a point is an eye of the player to move.
    pub fn is_eye_at(&self, point: impl Into<Point>) -> Result<bool, Refusal> {
        let Point { row, column } = point.into();
        holds(raw::samtrekhu_is_eye_at(*self.state, row, column))
    }

    /// Whether the superko test holds at a point: more than two boards are recorded, a stone of the player to move would capture, and the ko test holds or the
    /// board after it is recorded.
    pub fn is_superko_at(&self, point: impl Into<Point>) -> Result<bool, Refusal> {
        let Point { row, column } = point.into();
        holds(calls::is_superko_at(&self.state, self.history.bytes(), row, column))
    }

    fn list(&self, call: impl FnOnce(&mut [u16]) -> raw::Listed) -> Result<Points, Refusal> {
        Points::listed(self.state.board.width, call)
    }
}

/// A few of its numbers, judged or not.
impl<H> fmt::Debug for Game<H> {
    fn fmt(&self, out: &mut fmt::Formatter<'_>) -> fmt::Result {
        let raw::Game { board: raw::Board { height, width, .. }, accepted, .. } = &*self.state;
        out.debug_struct("Game").field("height", height).field("width", width).field("accepted", accepted).finish_non_exhaustive()
    }
}
