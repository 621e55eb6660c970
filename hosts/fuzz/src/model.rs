//! What the calls should say, from the colours alone: by the plain referee's board and game.

use crate::desk::Asked;
use crate::kinds::Kind;
use plain::board::{Board as Colours, BLACK, EMPTY, WHITE};
use plain::slips::Slip;
use plain::{Game as Referee, Reason};
use samtrekhu::raw::{self, Board, Facts, Game, RECORD_BYTES};
use std::collections::HashSet;

/// The colours of a true board.
pub fn colours(board: &Board) -> Colours {
    let mut colours = Colours::empty(board.height as usize, board.width as usize);
    for (point, colour) in colours.colours.iter_mut().enumerate() {
        let owner = board.owners[point] as usize;
        *colour = if owner < board.chains.len() { board.chains[owner].colour } else { EMPTY };
    }
    colours
}

/// Every byte names a player.
pub fn player(byte: u8) -> u8 {
    if byte == WHITE {
        WHITE
    } else {
        BLACK
    }
}

pub fn outcome(byte: u8) -> u8 {
    if byte == BLACK || byte == WHITE {
        byte
    } else {
        EMPTY
    }
}

pub fn ko(point: u16) -> Option<usize> {
    (point != raw::NO_POINT).then_some(point as usize)
}

/// The plain referee in a true state, without records.
pub fn referee_alone(game: &Game) -> Box<Referee> {
    let board = &game.board;
    let mut referee = Box::new(Referee::empty(board.height as u64, board.width as u64, game.flags as u64, 0, Slip::None));
    referee.board = colours(board);
    referee.turn = player(game.turn);
    referee.passes = game.passes as u64;
    referee.white_removed = game.held.white as u64;
    referee.black_removed = game.held.black as u64;
    referee.ko = ko(game.ko);
    referee.outcome = outcome(game.outcome);
    referee.accepted = game.accepted as u32;
    referee.begun = game.begun != 0;
    referee
}

/// The plain referee in a true state. It keeps its records as a set: none where two records are equal.
pub fn referee(game: &Game, history: &[u8]) -> Option<Box<Referee>> {
    let mut referee = referee_alone(game);
    referee.capacity = (history.len() / RECORD_BYTES) as u64;
    referee.records = records(game, history)?;
    Some(referee)
}

fn records(game: &Game, history: &[u8]) -> Option<HashSet<[u8; RECORD_BYTES]>> {
    let records: HashSet<[u8; RECORD_BYTES]> =
        history.chunks_exact(RECORD_BYTES).take(game.records).map(|record| record.try_into().expect("a hundred bytes")).collect();
    (records.len() == game.records).then_some(records)
}

/// What tells a state from the referee's own.
pub fn difference(referee: &Referee, game: &Game) -> Option<&'static str> {
    let pairs = [
        ("colours", referee.board == colours(&game.board)),
        ("flags", referee.flags == game.flags as u64),
        ("turn", referee.turn == player(game.turn)),
        ("passes", referee.passes == game.passes as u64),
        ("White prisoners", referee.white_removed == game.held.white as u64),
        ("Black prisoners", referee.black_removed == game.held.black as u64),
        ("ko point", referee.ko == ko(game.ko)),
        ("outcome", referee.outcome == outcome(game.outcome)),
        ("accepted stones", referee.accepted == game.accepted as u32),
        ("mark of a begun game", referee.begun == (game.begun != 0)),
    ];
    pairs.into_iter().find(|&(_, same)| !same).map(|(name, _)| name)
}

/// Whether the referee has exactly the records of this history.
pub fn same_records(referee: &Referee, game: &Game, history: &[u8]) -> bool {
    records(game, history).is_some_and(|records| records == referee.records)
}

/// The points of a list, ascending. The point that is asked about is on the board.
pub fn listed(kind: Kind, board: &Colours, asked: Asked) -> Vec<u16> {
    let point = asked.row as usize * board.width + asked.column as usize;
    let where_colour = |holds: &dyn Fn(u8) -> bool| (0..board.area()).filter(|&at| holds(board.colours[at])).collect::<Vec<usize>>();
    let beside = |holds: &dyn Fn(u8) -> bool| board.neighbours(point).filter(|&at| holds(board.colours[at])).collect::<Vec<usize>>();
    let is_stone = |colour| colour != EMPTY;
    let mut points = match kind {
        Kind::GetStones => where_colour(&is_stone),
        Kind::GetCoordsByColor => where_colour(&|colour| colour == asked.colour),
        Kind::GetEmptyCoords | Kind::EmptyPoints => where_colour(&|colour| colour == EMPTY),
        Kind::ChainStones | Kind::ChainLiberties if board.colours[point] == EMPTY => Vec::new(),
        Kind::ChainStones => board.chain(point).stones,
        Kind::ChainLiberties => board.chain(point).liberties,
        Kind::GetConnectedPoints => beside(&|_| true),
        Kind::GetConnectedStones => beside(&is_stone),
        Kind::GetLiberties => beside(&|colour| colour == EMPTY),
        _ => beside(&is_stone).into_iter().map(|at| first(board, at)).collect(),
    };
    points.sort();
    points.dedup();
    points.into_iter().map(|point| point as u16).collect()
}

/// The least point of the chain at a stone.
pub fn first(board: &Colours, point: usize) -> usize {
    board.chain(point).stones.into_iter().min().unwrap_or(point)
}

/// One sign a point, a newline a row.
pub fn picture(board: &Colours) -> Vec<u8> {
    let (bottom, right) = (board.height - 1, board.width - 1);
    let mut text = String::new();
    for row in 0..=bottom {
        for column in 0..=right {
            text.push(match board.colours[row * board.width + column] {
                BLACK => '●',
                WHITE => '○',
                _ if (row, column) == (0, 0) => '┏',
                _ if (row, column) == (0, right) => '┓',
                _ if (row, column) == (bottom, 0) => '┗',
                _ if (row, column) == (bottom, right) => '┛',
                _ if row == 0 => '┯',
                _ if row == bottom => '┷',
                _ if column == 0 => '┠',
                _ if column == right => '┨',
                _ => '┼',
            });
        }
        text.push('\n');
    }
    text.into_bytes()
}

/// Facts of a true state.
pub fn facts(game: &Game) -> Facts {
    let outcome = outcome(game.outcome);
    Facts {
        answer: 0,
        height: game.board.height,
        width: game.board.width,
        flags: game.flags,
        turn: player(game.turn),
        passes: game.passes,
        outcome,
        over: outcome != EMPTY || game.passes >= 2,
        ko: game.ko,
        handicap: game.handicap,
        accepted: game.accepted,
        prisoners: game.held,
        records: game.records,
    }
}

/// A yes or no about an empty point, for the player to move.
pub fn holds(kind: Kind, referee: &Referee, point: usize) -> bool {
    let board = &referee.board;
    board.colours[point] == EMPTY
        && match kind {
            Kind::WillCapture => board.neighbours(point).any(|at| board.colours[at] == referee.enemy() && board.chain(at).liberties.len() == 1),
            Kind::IsSuicideAt => referee.suicide(point),
            Kind::IsKoAt => referee.ko_holds(point),
            Kind::IsEyeAt => referee.eye(point) != Reason::Accepted,
            _ => referee.superko(point) != Reason::Accepted,
        }
}

/// How many stones of a colour are on the board.
pub fn stones(board: &Colours, colour: u8) -> usize {
    board.colours.iter().filter(|&&at| at == colour).count()
}

/// The number of a board from colours.
pub fn placed(height: u8, width: u8, colours: &[u8]) -> u8 {
    let fits = |side| (1..=raw::MAX_SIDE).contains(&side);
    if !fits(height) || !fits(width) {
        return raw::answers::BAD_SIZE;
    }
    if colours.len() != height as usize * width as usize {
        return raw::answers::BAD_LENGTH;
    }
    if colours.iter().any(|&colour| colour > WHITE) {
        return raw::answers::BAD_COLOUR;
    }
    let board = Colours { height: height as usize, width: width as usize, colours: colours.to_vec() };
    if board.dead(BLACK) || board.dead(WHITE) {
        raw::answers::NO_LIBERTY
    } else {
        raw::answers::ACCEPTED
    }
}
