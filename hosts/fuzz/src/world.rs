//! What lies between the calls of one input: a few games, boards and histories. Each cell is done and its call is checked.

use crate::complaint::{ensure, Checked, Complaint};
use crate::desk::{Asked, Change, Desk, Done};
use crate::doctor;
use crate::input::{Cell, Step};
use crate::kinds::{Kind, KINDS};
use crate::meaning::{aimed, asked, colours, flags, history_of, moves, near, places, sizes, spots};
use crate::memory::{boxed, Side};
use crate::model;
use crate::slips::Slip;
use plain::board::{BLACK, EMPTY, WHITE};
use plain::Game as Referee;
use plain::Reason;
use samtrekhu::raw::{answers, kinds, Board, Facts, Game, Move, Tally, MAX_AREA, MAX_STONES, NO_POINT, RECORD_BYTES};

pub const SEATS: usize = 3;
const HISTORY: usize = 1_000;
/// The answers are below this number.
const ANSWERS: usize = 19;
/// A full comparison by single points costs a call a point; on large boards it is done now and then.
const SMALL: usize = 81;

struct Seat {
    game: Box<Game>,
    /// The state comes from calls alone, so that it must be true.
    pure: bool,
    /// The plain referee beside a game that was played by calls alone from its beginning.
    referee: Option<Box<Referee>>,
    /// What was here before it was changed by hand.
    before: Option<Box<Seat>>,
}

impl Seat {
    fn new(game: Box<Game>, pure: bool, referee: Option<Box<Referee>>) -> Seat {
        Seat { game, pure, referee, before: None }
    }

    /// The game to be changed by hand.
    fn doctored(&mut self) -> &mut Game {
        if self.before.is_none() {
            self.before = Some(Box::new(Seat::new(boxed(&*self.game), self.pure, self.referee.take())));
        }
        (self.pure, self.referee) = (false, None);
        &mut self.game
    }
}

struct Shelf {
    board: Box<Board>,
    pure: bool,
}

pub struct World {
    pub desk: Desk,
    seats: Vec<Seat>,
    shelves: Vec<Shelf>,
    histories: Vec<Vec<u8>>,
    fresh_game: Box<Game>,
    fresh_board: Box<Board>,
    /// How often each kind gave each answer.
    pub counts: Vec<[u64; ANSWERS]>,
}

impl World {
    pub fn new(slip: Slip) -> Checked<World> {
        let mut desk = Desk::new(slip);
        let made = desk.new_game(5, 5, 0)?;
        let placed = desk.new_board(5, 5)?;
        Ok(World {
            desk,
            seats: Vec::new(),
            shelves: Vec::new(),
            histories: Vec::new(),
            fresh_game: boxed(&made.game),
            fresh_board: boxed(&placed.board),
            counts: vec![[0; ANSWERS]; KINDS.len()],
        })
    }

    pub fn calls(&self) -> u64 {
        self.counts.iter().flatten().sum()
    }

    /// Every input begins with the same games and boards.
    pub fn reset(&mut self) {
        let (game, board) = (&self.fresh_game, &self.fresh_board);
        let seat = |_| Seat::new(boxed(&**game), true, Some(model::referee_alone(game)));
        self.seats = (0..SEATS).map(seat).collect();
        self.shelves = (0..SEATS).map(|_| Shelf { board: boxed(&**board), pure: true }).collect();
        self.histories = vec![vec![0; HISTORY]; SEATS];
    }

    pub fn play(&mut self, cells: &[Cell]) -> Checked {
        self.reset();
        cells.iter().try_for_each(|cell| self.step(cell))
    }

    fn step(&mut self, cell: &Cell) -> Checked {
        self.desk.side = match cell.side & 3 {
            0 | 1 => Side::End,
            2 => Side::Start,
            _ => Side::Middle,
        };
        self.desk.null = cell.side & 4 != 0;
        let at = cell.seat as usize % SEATS;
        match cell.step() {
            Step::Call(kind) => {
                self.call(kind, cell)?;
                self.heal(at, cell)?;
            }
            Step::DoctorGame => {
                let length = self.histories[history_of(cell)].len();
                doctor::game(self.seats[at].doctored(), length, cell);
            }
            Step::DoctorBoard if cell.seat & 0x80 == 0 => doctor::board(&mut self.seats[at].doctored().board, cell),
            Step::DoctorBoard => {
                doctor::board(&mut self.shelves[at].board, cell);
                self.shelves[at].pure = false;
            }
            Step::DoctorHistory => doctor::history(&mut self.histories[history_of(cell)], &self.seats[at].game.board, cell),
            Step::Lend => {
                let most = self.desk.most_history();
                // around a multiple of a record's bytes
                let records = match cell.extra {
                    0..200 => cell.extra as usize % 16,
                    _ => cell.row as usize,
                };
                let length = (records * RECORD_BYTES + cell.length as usize % 5).saturating_sub(2);
                let length = if cell.length > 220 { cell.row as usize } else { length };
                self.histories[history_of(cell)].resize(length.min(most), cell.value);
            }
            Step::Copy => {
                let to = cell.extra as usize % SEATS;
                if cell.extra & 4 == 0 {
                    let seat = &self.seats[at];
                    self.seats[to] = Seat::new(boxed(&*seat.game), seat.pure, seat.referee.clone());
                } else {
                    let seat = &self.seats[at];
                    self.shelves[to] = Shelf { board: boxed(&seat.game.board), pure: seat.pure };
                }
            }
            Step::Found => {
                let game = doctor::found(&self.fresh_game, &self.shelves[at].board, cell);
                self.seats[at] = Seat::new(game, false, None);
            }
        }
        Ok(())
    }

    /// A damaged game goes back to what it was, so that one edit does not spoil all calls that follow.
    fn heal(&mut self, at: usize, cell: &Cell) -> Checked {
        let seat = &mut self.seats[at];
        if cell.side & 0x20 == 0 {
            if let Some(before) = seat.before.take() {
                if !self.desk.is_true_game(&seat.game)? {
                    *seat = *before;
                }
            }
        }
        Ok(())
    }

    /// The answer is a number that the call may give, and the one that is due.
    fn answer(&mut self, kind: Kind, answer: u8, due: Option<u8>) -> Checked {
        ensure!(kind.answers().contains(&answer), "order", "{} answers {answer}, which is none of its numbers", kind.name());
        self.counts[kind as usize][answer as usize] += 1;
        ensure!(due.is_none_or(|due| due == answer), "answer", "{} answers {answer}, due is {due:?}", kind.name());
        Ok(())
    }

    fn call(&mut self, kind: Kind, cell: &Cell) -> Checked {
        match kind {
            Kind::NewBoard | Kind::FromColours => self.make_board(kind, cell),
            Kind::NewGame => self.make_game(cell),
            Kind::Handicap | Kind::Stone | Kind::Pass | Kind::Resign | Kind::Resume | Kind::Replay => self.change(kind, cell),
            Kind::CheckPoint | Kind::CheckPointBy | Kind::Legals | Kind::LegalsBy => self.check(kind, cell),
            Kind::FactsOf | Kind::IsTrueGame | Kind::IsTrueGameWith | Kind::EmptyPoints | Kind::BoardOf => self.ask_game(kind, cell),
            Kind::WillCapture | Kind::IsSuicideAt | Kind::IsKoAt | Kind::IsEyeAt | Kind::IsSuperkoAt => self.test_game(kind, cell),
            _ => self.ask_board(kind, cell),
        }
    }

    // ---- boards

    fn make_board(&mut self, kind: Kind, cell: &Cell) -> Checked {
        let (height, width) = sizes(cell);
        let area = height as usize * width as usize;
        let (placed, colours) = if kind == Kind::NewBoard {
            (self.desk.new_board(height, width)?, vec![EMPTY; area])
        } else {
            let length = near(area, cell.length, MAX_AREA + 40);
            let colours = colours(cell, height, width, length);
            (self.desk.from_colours(height, width, &colours)?, colours)
        };
        self.answer(kind, placed.answer, Some(model::placed(height, width, &colours)))?;
        ensure!(self.desk.is_true_board(&placed.board)?, "true", "the board of {} is not true", kind.name());
        let got = model::colours(&placed.board);
        if placed.answer == 0 {
            ensure!((got.height, got.width) == (height.into(), width.into()), "made", "{} made another size", kind.name());
            ensure!(got.colours == colours, "made", "{} made other colours", kind.name());
        } else {
            ensure!((got.height, got.width, got.colours[0]) == (1, 1, EMPTY), "made", "refused, {} made more than one empty point", kind.name());
        }
        self.shelves[cell.seat as usize % SEATS] = Shelf { board: boxed(&placed.board), pure: true };
        Ok(())
    }

    fn ask_board(&mut self, kind: Kind, cell: &Cell) -> Checked {
        let at = cell.seat as usize % SEATS;
        // the board of a game, or one that stands alone
        let (board, pure) = if cell.seat & 0x80 == 0 {
            (boxed(&self.seats[at].game.board), self.seats[at].pure)
        } else {
            (boxed(&*self.shelves[at].board), self.shelves[at].pure)
        };
        let is_true = self.desk.is_true_board(&board)?;
        ensure!(is_true || !pure, "true", "a board from calls alone is not true");
        let asked = asked(cell, &board, NO_POINT);
        let off = |row: u8, column: u8| row >= board.height || column >= board.width;
        let due = |places: Option<(usize, usize)>, has_point: bool| match () {
            _ if !is_true => answers::DAMAGED,
            _ if has_point && off(asked.row, asked.column) => answers::OFF_BOARD,
            _ if kind == Kind::ContainsLiberty && off(asked.other_row, asked.other_column) => answers::OFF_BOARD,
            _ if places.is_some_and(|(length, needed)| length < needed) => answers::BAD_LENGTH,
            _ if kind == Kind::GetCoordsByColor && asked.colour > WHITE => answers::BAD_COLOUR,
            _ => answers::ACCEPTED,
        };
        // what a refused question tells is not looked at, but for being nothing
        let colours = is_true.then(|| model::colours(&board));
        let told = |due: u8| colours.as_ref().filter(|_| due == 0);
        let point = asked.row as usize * board.width as usize + asked.column as usize;
        match kind {
            Kind::IsTrueBoard => self.answer(kind, is_true.into(), None),
            Kind::Size => {
                let (due, got) = (due(None, false), self.desk.size(&board));
                let want = told(due).map_or((0, 0), |_| (board.height, board.width));
                ensure!((got.height, got.width) == want, "size", "{got:?}");
                self.answer(kind, got.answer, Some(due))
            }
            Kind::ZobristHash => {
                let (due, got) = (due(None, false), self.desk.zobrist_hash(&board));
                ensure!(got.hash == told(due).map_or(0, |colours| colours.hash()), "hash", "{got:?}");
                self.answer(kind, got.answer, Some(due))
            }
            Kind::NumberOfStones => {
                let (due, got) = (due(None, false), self.desk.number_of_stones(&board)?);
                let want = told(due).map_or((0, 0), |colours| (model::stones(colours, BLACK), model::stones(colours, WHITE)));
                ensure!((got.black, got.white) == want, "stones", "{got:?}, not {want:?}");
                self.answer(kind, got.answer, Some(due))
            }
            Kind::NumberOfChains => {
                let (due, got) = (due(None, false), self.desk.number_of_chains(&board));
                let want = told(due).map_or(0, |colours| colours.chains(BLACK).len() + colours.chains(WHITE).len());
                ensure!(got.chains == want, "chains", "{got:?}, not {want}");
                self.answer(kind, got.answer, Some(due))
            }
            Kind::GetColor => {
                let (due, got) = (due(None, true), self.desk.get_color(&board, asked));
                ensure!(got.colour == told(due).map_or(EMPTY, |colours| colours.colours[point]), "colour", "{got:?}");
                self.answer(kind, got.answer, Some(due))
            }
            Kind::ChainAt => {
                let (due, got) = (due(None, true), self.desk.chain_at(&board, asked)?);
                let mut want = (false, EMPTY, 0, 0, false, 0);
                if let Some(colours) = told(due).filter(|colours| colours.colours[point] != EMPTY) {
                    let chain = colours.chain(point);
                    let liberties = chain.liberties.len();
                    want = (true, colours.colours[point], chain.stones.len(), liberties, liberties == 1, model::first(colours, point));
                }
                let shown = (got.present, got.colour, got.stones, got.liberties, got.atari, got.origin);
                ensure!(shown == want, "chain", "{shown:?}, not {want:?}");
                self.answer(kind, got.answer, Some(due))
            }
            Kind::HasLiberties | Kind::ContainsLiberty => {
                let (due, (answer, holds)) = (due(None, true), self.desk.board_test(kind, &board, asked)?);
                let want = told(due).is_some_and(|colours| {
                    if kind == Kind::HasLiberties {
                        return colours.neighbours(point).any(|next| colours.colours[next] == EMPTY);
                    }
                    let other = asked.other_row as usize * board.width as usize + asked.other_column as usize;
                    colours.colours[point] != EMPTY && colours.chain(point).liberties.contains(&other)
                });
                ensure!(holds == want, "test", "{} says {holds}", kind.name());
                self.answer(kind, answer, Some(due))
            }
            Kind::ToVec | Kind::PrettyString => {
                let (height, width) = (board.height as usize, board.width as usize);
                let needed = if kind == Kind::ToVec { height * width } else { height * (3 * width + 1) };
                let before: Vec<u8> = (0..near(needed, cell.length, self.desk.most_buffer())).map(|at| at as u8 ^ cell.extra).collect();
                let due = due(Some((before.len(), needed)), false);
                let want = match (kind, told(due)) {
                    (_, None) => Vec::new(),
                    (Kind::ToVec, Some(colours)) => colours.colours.clone(),
                    (_, Some(colours)) => model::picture(colours),
                };
                let (listed, after) = self.desk.board_bytes(kind, &board, &before)?;
                filled(kind, listed.count, &want, &before, &after)?;
                self.answer(kind, listed.number, Some(due))
            }
            _ => {
                let has_point = !matches!(kind, Kind::GetStones | Kind::GetCoordsByColor | Kind::GetEmptyCoords);
                let needed = board.height as usize * board.width as usize;
                let before = places(near(needed, cell.length, MAX_AREA + 40), cell);
                let due = due(Some((before.len(), needed)), has_point);
                let want = told(due).map_or(Vec::new(), |colours| model::listed(kind, colours, asked));
                let (listed, after) = self.desk.board_list(kind, &board, asked, &before)?;
                filled(kind, listed.count, &want, &before, &after)?;
                self.answer(kind, listed.number, Some(due))
            }
        }
    }

    // ---- games

    fn make_game(&mut self, cell: &Cell) -> Checked {
        let ((height, width), flags) = (sizes(cell), flags(cell.value));
        let (reason, referee) = Referee::new_game(height.into(), width.into(), flags.into(), 0, plain::slips::Slip::None);
        let made = self.desk.new_game(height, width, flags)?;
        self.answer(Kind::NewGame, made.answer, Some(reason.number()))?;
        let game = boxed(&made.game);
        self.keeps(&game)?;
        let difference = model::difference(&referee, &game);
        ensure!(difference.is_none(), "referee", "new_game: another {}", difference.unwrap_or_default());
        let none = Tally { black: 0, white: 0 };
        ensure!((game.put, game.held, game.handicap, game.records) == (none, none, 0, 0), "state", "new_game: something is counted");
        // an empty history is as good as any for a game without records
        self.seats[cell.seat as usize % SEATS] = Seat::new(game, true, Some(Box::new(referee)));
        Ok(())
    }

    /// What an accepted call leaves is true, and its stones add up.
    fn keeps(&mut self, game: &Game) -> Checked {
        ensure!(self.desk.is_true_game(game)?, "true", "the state left is not true");
        ensure!(self.desk.is_true_board(&game.board)?, "true", "the board left is not true");
        let colours = model::colours(&game.board);
        for (put, held, colour) in [(game.put.black, game.held.black, BLACK), (game.put.white, game.held.white, WHITE)] {
            let there = model::stones(&colours, colour);
            ensure!(put as usize == there + held as usize, "state", "{put} put, {there} there and {held} held");
        }
        let put = game.put.black as u64 + game.put.white as u64;
        ensure!(put == game.handicap as u64 + game.accepted as u64, "state", "{put} put, {} and {} accepted", game.handicap, game.accepted);
        Ok(())
    }

    /// Whether a state is true, alone and with a history of this length.
    fn truth(&mut self, at: usize, length: usize) -> Checked<(bool, bool)> {
        let seat = &self.seats[at];
        let (game, pure) = (boxed(&*seat.game), seat.pure);
        let alone = self.desk.is_true_game(&game)?;
        let with = self.desk.is_true_game_with(&game, length)?;
        ensure!(alone || !pure, "true", "a state from calls alone is not true");
        ensure!(with == (alone && game.records <= length / RECORD_BYTES), "answer", "is_true_game {alone}, is_true_game_with {length} bytes {with}");
        Ok((alone, with))
    }

    fn change(&mut self, kind: Kind, cell: &Cell) -> Checked {
        let at = cell.seat as usize % SEATS;
        let lent = history_of(cell);
        let game = boxed(&*self.seats[at].game);
        let history = self.histories[lent].clone();
        let (alone, with) = self.truth(at, history.len())?;
        let (spots, moves) = (spots(cell, &game.board), moves(cell, &game.board));
        let change = match kind {
            Kind::Handicap => Change::Handicap(&spots),
            Kind::Stone => {
                let (row, column) = aimed(cell, &game.board, game.ko);
                Change::Stone(row, column)
            }
            Kind::Pass => Change::Pass,
            Kind::Resign => Change::Resign(if cell.value < 250 { cell.value % 3 } else { cell.value }),
            Kind::Resume => Change::Resume,
            _ => Change::Replay(&moves),
        };
        let lends = matches!(change, Change::Stone(..) | Change::Replay(_));
        let is_true = if lends { with } else { alone };
        let referee = match (is_true, lends) {
            (false, _) => None,
            (true, true) => self.referee(at, &history),
            (true, false) => Some(self.seats[at].referee.clone().unwrap_or_else(|| model::referee_alone(&game))),
        };

        let done = self.desk.by_value(&game, &history, change)?;
        let placed = self.desk.in_place(&game, &history, change)?;
        let forms = [("answer", done.answer == placed.answer), ("entries", done.entries == placed.entries), ("state", done.game == placed.game)];
        for (what, same) in forms {
            ensure!(same, "forms", "{} by value and in place: another {what}", kind.name());
        }
        ensure!(done.history == placed.history, "forms", "{} by value and in place: another history", kind.name());

        let (due, referee) = match (change, is_true) {
            (_, false) => (Some(answers::DAMAGED), None),
            (Change::Replay(moves), true) => (self.entry_by_entry(&game, &history, moves, &done)?, referee.map(|known| replayed(known, moves))),
            (_, true) => {
                let due = match change {
                    Change::Stone(row, column) => Some(self.due_stone(&game, &history, row, column)?),
                    _ => None,
                };
                let after = referee.map(|mut known| (referee_does(&mut known, change), known));
                let (reason, known) = after.unzip();
                let by_referee = reason.map(Reason::number);
                ensure!(
                    due.is_none() || by_referee.is_none() || due == by_referee,
                    "answer",
                    "{}: the parts say {due:?}, the referee {by_referee:?}",
                    kind.name()
                );
                (by_referee.or(due), known)
            }
        };
        self.answer(kind, done.answer, due)?;
        self.answer(in_place(kind), placed.answer, due)?;

        if done.answer != 0 && kind != Kind::Replay || done.answer == answers::DAMAGED && done.entries == 0 {
            ensure!(done.game == game, "refused", "{} answers {} and gives another state", kind.name(), done.answer);
            ensure!(done.history == history, "refused", "{} answers {} and changes the history", kind.name(), done.answer);
            ensure!(done.entries == 0, "refused", "{} answers {} and counts {}", kind.name(), done.answer, done.entries);
        }
        if is_true {
            self.keeps(&done.game)?;
            ensure!(!lends || self.desk.is_true_game_with(&done.game, history.len())?, "true", "the records left have no room");
            changes(&game, &history, change, &done)?;
        }
        if let Some(known) = &referee {
            let difference = model::difference(known, &done.game);
            ensure!(difference.is_none(), "referee", "{}: another {}", kind.name(), difference.unwrap_or_default());
            ensure!(!lends || model::same_records(known, &done.game, &done.history), "referee", "{}: other records", kind.name());
        }
        self.histories[lent] = done.history;
        let seat = &self.seats[at];
        // a referee made from the state stands beside no game
        let beside = if is_true { referee.filter(|_| seat.referee.is_some()) } else { seat.referee.clone() };
        let to = if cell.seat & 0x60 == 0x60 { (at + 1) % SEATS } else { at };
        let before = if to == at { self.seats[at].before.take() } else { None };
        self.seats[to] = Seat { game: done.game, pure: self.seats[at].pure, referee: beside, before };
        Ok(())
    }

    /// The referee beside a game, if its records are still those of the history; else one made from the state, which is true.
    fn referee(&mut self, at: usize, history: &[u8]) -> Option<Box<Referee>> {
        let seat = &mut self.seats[at];
        if let Some(known) = &mut seat.referee {
            if model::same_records(known, &seat.game, history) {
                known.capacity = (history.len() / RECORD_BYTES) as u64;
                return Some(known.clone());
            }
            seat.referee = None;
        }
        model::referee(&seat.game, history)
    }

    /// The number due to a stone on a true state, from the check of the point and what is left beside it: 4, the check's, 10, 11.
    fn due_stone(&mut self, game: &Game, history: &[u8], row: u8, column: u8) -> Checked<u8> {
        let asked = Asked { row, column, flags: game.flags, ..Asked::default() };
        let check = self.desk.check(Kind::CheckPointBy, game, history, asked)?;
        Ok(if game.passes >= 2 {
            answers::GAME_PAUSED
        } else if check != 0 {
            check
        } else if game.accepted == MAX_STONES {
            answers::MOVE_LIMIT
        } else if !is_recorded(game, history) && game.records >= history.len() / RECORD_BYTES {
            answers::HISTORY_FULL
        } else {
            answers::ACCEPTED
        })
    }

    /// A replay does what its entries do one by one. Gives the number that is due.
    fn entry_by_entry(&mut self, game: &Game, history: &[u8], moves: &[Move], done: &Done) -> Checked<Option<u8>> {
        let mut now = Done { entries: 0, answer: 0, game: boxed(game), history: history.to_vec() };
        // a fault planted in a single call is for that call's own checks to notice
        let slip = std::mem::replace(&mut self.desk.slip, Slip::None);
        for entry in moves {
            let change = match entry.kind {
                kinds::STONE => Change::Stone(entry.row, entry.column),
                kinds::PASS => Change::Pass,
                kinds::RESIGN_BLACK => Change::Resign(BLACK),
                kinds::RESIGN_WHITE => Change::Resign(WHITE),
                kinds::RESUME => Change::Resume,
                _ => {
                    now.answer = answers::BAD_KIND;
                    break;
                }
            };
            let next = self.desk.by_value(&now.game, &now.history, change)?;
            (now.answer, now.game, now.history) = (next.answer, next.game, next.history);
            if now.answer != 0 {
                break;
            }
            now.entries += 1;
        }
        self.desk.slip = slip;
        ensure!(done.entries == now.entries, "replay", "{} entries accepted, one by one {}", done.entries, now.entries);
        ensure!(done.answer == now.answer, "replay", "answer {}, one by one {}", done.answer, now.answer);
        ensure!(done.game == now.game, "replay", "another state than one by one");
        ensure!(done.history == now.history, "replay", "another history than one by one");
        Ok(Some(now.answer))
    }

    fn check(&mut self, kind: Kind, cell: &Cell) -> Checked {
        let at = cell.seat as usize % SEATS;
        let history = self.histories[history_of(cell)].clone();
        let game = boxed(&*self.seats[at].game);
        let (_, is_true) = self.truth(at, history.len())?;
        let mut asked = asked(cell, &game.board, game.ko);
        let own = matches!(kind, Kind::CheckPoint | Kind::Legals);
        if own {
            asked.flags = game.flags;
        }
        let referee = if is_true { self.referee(at, &history) } else { None };
        if matches!(kind, Kind::CheckPoint | Kind::CheckPointBy) {
            let answer = self.desk.check(kind, &game, &history, asked)?;
            if own {
                let by = self.desk.check(Kind::CheckPointBy, &game, &history, asked)?;
                ensure!(answer == by, "answer", "check_point {answer}, check_point_by the game's flags {by}");
            }
            let due = if is_true {
                referee.map(|known| known.check(asked.row.into(), asked.column.into(), asked.flags.into()).number())
            } else {
                Some(answers::DAMAGED)
            };
            return self.answer(kind, answer, due);
        }
        let (height, width) = (game.board.height as usize, game.board.width as usize);
        let needed = height * width;
        let before = places(near(needed, cell.length, MAX_AREA + 40), cell);
        let due = match () {
            _ if !is_true => answers::DAMAGED,
            _ if asked.flags > 15 => answers::BAD_FLAGS,
            _ if before.len() < needed => answers::BAD_LENGTH,
            _ => answers::ACCEPTED,
        };
        let (listed, after) = self.desk.game_list(kind, &game, &history, asked, &before)?;
        self.answer(kind, listed.number, Some(due))?;
        if due != 0 {
            return filled(kind, listed.count, &[], &before, &after);
        }
        let stride = if needed <= SMALL || cell.extra < 32 { 1 } else { 7 };
        for point in (cell.extra as usize % stride..needed).step_by(stride) {
            let (row, column) = ((point / width) as u8, (point % width) as u8);
            let answer = self.desk.check(Kind::CheckPointBy, &game, &history, Asked { row, column, ..asked })?;
            let is_listed = after.get(..listed.count).is_some_and(|points| points.contains(&(point as u16)));
            ensure!(is_listed == (answer == 0), "legals", "({row}, {column}) is listed: {is_listed}, its check: {answer}");
        }
        if stride == 1 {
            if let Some(Ok(points)) = referee.map(|known| known.legals(asked.flags.into())) {
                let want: Vec<u16> = points.into_iter().map(|point| point as u16).collect();
                filled(kind, listed.count, &want, &before, &after)?;
            }
        }
        Ok(())
    }

    fn ask_game(&mut self, kind: Kind, cell: &Cell) -> Checked {
        let at = cell.seat as usize % SEATS;
        let length = self.histories[history_of(cell)].len();
        let (is_true, with) = self.truth(at, length)?;
        let game = boxed(&*self.seats[at].game);
        let due = if is_true { answers::ACCEPTED } else { answers::DAMAGED };
        match kind {
            Kind::IsTrueGame => self.answer(kind, is_true.into(), None),
            Kind::IsTrueGameWith => self.answer(kind, with.into(), None),
            Kind::FactsOf => {
                let facts = self.desk.facts_of(&game)?;
                let none = Tally { black: 0, white: 0 };
                #[rustfmt::skip]
                let refused = Facts {
                    answer: due, height: 0, width: 0, flags: 0, turn: 0, passes: 0, outcome: 0, over: false, ko: NO_POINT, handicap: 0, accepted: 0,
                    prisoners: none, records: 0,
                };
                let want = if is_true { model::facts(&game) } else { refused };
                ensure!(*facts == want, "facts", "{facts:?}, not {want:?}");
                self.answer(kind, facts.answer, Some(due))
            }
            Kind::BoardOf => {
                let shown = self.desk.board_of(&game)?;
                if is_true {
                    ensure!(shown.board == game.board, "board", "board_of gives another board");
                } else {
                    let one = self.desk.is_true_board(&shown.board)? && (shown.board.height, shown.board.width) == (1, 1);
                    ensure!(one && shown.board.hash == 0, "board", "refused, board_of gives more than one empty point");
                }
                self.shelves[at] = Shelf { board: boxed(&shown.board), pure: true };
                self.answer(kind, shown.answer, Some(due))
            }
            _ => {
                let needed = game.board.height as usize * game.board.width as usize;
                let before = places(near(needed, cell.length, MAX_AREA + 40), cell);
                let due = if is_true && before.len() < needed { answers::BAD_LENGTH } else { due };
                let want = if due == 0 { model::listed(kind, &model::colours(&game.board), Asked::default()) } else { Vec::new() };
                let (listed, after) = self.desk.game_list(kind, &game, &[], Asked::default(), &before)?;
                filled(kind, listed.count, &want, &before, &after)?;
                self.answer(kind, listed.number, Some(due))
            }
        }
    }

    fn test_game(&mut self, kind: Kind, cell: &Cell) -> Checked {
        let at = cell.seat as usize % SEATS;
        let history = self.histories[history_of(cell)].clone();
        let game = boxed(&*self.seats[at].game);
        let (alone, with) = self.truth(at, history.len())?;
        let needs_records = kind == Kind::IsSuperkoAt;
        let is_true = if needs_records { with } else { alone };
        let asked = asked(cell, &game.board, game.ko);
        let due = match () {
            _ if !is_true => answers::DAMAGED,
            _ if asked.row >= game.board.height || asked.column >= game.board.width => answers::OFF_BOARD,
            _ => answers::ACCEPTED,
        };
        let (answer, holds) = self.desk.game_test(kind, &game, &history, asked)?;
        self.answer(kind, answer, Some(due))?;
        if due != 0 {
            ensure!(!holds, "test", "refused, {} says yes", kind.name());
            return Ok(());
        }
        let point = asked.row as usize * game.board.width as usize + asked.column as usize;
        let known = if needs_records { self.referee(at, &history) } else { Some(model::referee_alone(&game)) };
        if let Some(known) = known {
            ensure!(holds == model::holds(kind, &known, point), "test", "{} says {holds}", kind.name());
        }
        Ok(())
    }
}

/// What the call does to the numbers that the referee does not keep, and to every byte of the history.
fn changes(game: &Game, history: &[u8], change: Change, done: &Done) -> Checked {
    let after = &done.game;
    let records = after.records;
    if let Change::Replay(_) = change {
        let (old, new) = (game.records * RECORD_BYTES, records * RECORD_BYTES);
        ensure!(records >= game.records && new <= history.len().max(old), "history", "{} records became {records}", game.records);
        ensure!(done.history.len() == history.len() && done.history[..old] == history[..old], "history", "a replay changed old records");
        ensure!(done.history[new.min(history.len())..] == history[new.min(history.len())..], "history", "a replay wrote behind its records");
        return Ok(());
    }
    if done.answer != 0 {
        return Ok(());
    }
    let mut bytes = history.to_vec();
    let mut want = (game.put, game.handicap, game.records);
    match change {
        Change::Handicap(spots) => {
            want.0.black += spots.len() as u32;
            want.1 = spots.len() as u16;
        }
        Change::Stone(..) => {
            if model::player(game.turn) == BLACK {
                want.0.black += 1;
            } else {
                want.0.white += 1;
            }
            if !is_recorded(game, history) {
                bytes[game.records * RECORD_BYTES..][..RECORD_BYTES].copy_from_slice(&model::colours(&game.board).record());
                want.2 += 1;
            }
        }
        _ => {}
    }
    ensure!(
        (after.put, after.handicap, records) == want,
        "state",
        "put, handicap and records are {:?}, not {want:?}",
        (after.put, after.handicap, records)
    );
    ensure!(done.history == bytes, "history", "other bytes than the one record that is due");
    Ok(())
}

fn is_recorded(game: &Game, history: &[u8]) -> bool {
    let present = model::colours(&game.board).record();
    history.chunks_exact(RECORD_BYTES).take(game.records).any(|record| record == present)
}

fn referee_does(referee: &mut Referee, change: Change) -> Reason {
    match change {
        Change::Handicap(spots) => {
            let points: Vec<(u64, u64)> = spots.iter().map(|spot| (u64::from(spot / 256), u64::from(spot % 256))).collect();
            referee.handicap(&points)
        }
        Change::Stone(row, column) => referee.stone(row.into(), column.into()),
        Change::Pass => referee.pass(),
        Change::Resign(named) => referee.resign(model::player(named)),
        Change::Resume => referee.resume(),
        Change::Replay(_) => Reason::Accepted,
    }
}

/// The referee after the entries of a replay, up to the first that it refuses.
fn replayed(mut referee: Box<Referee>, moves: &[Move]) -> Box<Referee> {
    for entry in moves {
        let reason = match entry.kind {
            kinds::STONE => referee.stone(entry.row.into(), entry.column.into()),
            kinds::PASS => referee.pass(),
            kinds::RESIGN_BLACK => referee.resign(BLACK),
            kinds::RESIGN_WHITE => referee.resign(WHITE),
            kinds::RESUME => referee.resume(),
            _ => break,
        };
        if reason != Reason::Accepted {
            break;
        }
    }
    referee
}

/// The points from the front, the rest as it was.
fn filled<T: PartialEq + Copy + std::fmt::Debug>(kind: Kind, count: usize, want: &[T], before: &[T], after: &[T]) -> Result<(), Complaint> {
    ensure!(count == want.len(), "buffer", "{} counts {count}, due is {}", kind.name(), want.len());
    ensure!(after.len() == before.len() && after[..count] == *want, "buffer", "{} fills in {:?}, due is {want:?}", kind.name(), &after[..count]);
    ensure!(after[count..] == before[count..], "buffer", "{} wrote behind what it counts", kind.name());
    Ok(())
}

fn in_place(kind: Kind) -> Kind {
    match kind {
        Kind::Handicap => Kind::HandicapInPlace,
        Kind::Stone => Kind::StoneInPlace,
        Kind::Pass => Kind::PassInPlace,
        Kind::Resign => Kind::ResignInPlace,
        Kind::Resume => Kind::ResumeInPlace,
        _ => Kind::ReplayInPlace,
    }
}
