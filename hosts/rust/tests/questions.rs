//! What is asked of boards and games, beside a plain look at the colours.

#[path = "../examples/random/mod.rs"]
mod random;

use random::Random;
use samtrekhu::Colour::{self, Black, Empty, White};
use samtrekhu::{Board, Chain, Facts, Flags, Game, Move, Player, Point, Prisoners, Refusal, Stones};
use std::collections::BTreeSet;

/// The colours of a board, looked at point by point.
struct Plain {
    height: u8,
    width: u8,
    colours: Vec<Colour>,
}

impl Plain {
    fn of(board: &Board) -> Plain {
        let (height, width) = board.size().unwrap();
        Plain { height, width, colours: board.to_vec().unwrap() }
    }

    fn points(&self) -> impl Iterator<Item = Point> + '_ {
        (0..self.height).flat_map(|row| (0..self.width).map(move |column| Point::new(row, column)))
    }

    fn colour(&self, point: Point) -> Colour {
        self.colours[usize::from(point.row) * usize::from(self.width) + usize::from(point.column)]
    }

    fn beside(&self, point: Point) -> Vec<Point> {
        self.points().filter(|other| point.row.abs_diff(other.row) + point.column.abs_diff(other.column) == 1).collect()
    }

    /// The stones that are connected with the one on this point, in order.
    fn chain(&self, point: Point) -> BTreeSet<Point> {
        let mut chain = BTreeSet::from([point]);
        loop {
            let more = chain.iter().flat_map(|&stone| self.beside(stone)).filter(|&other| self.colour(other) == self.colour(point));
            let more = more.chain(chain.iter().copied()).collect::<BTreeSet<_>>();
            if more == chain {
                return chain;
            }
            chain = more;
        }
    }

    fn liberties(&self, chain: &BTreeSet<Point>) -> BTreeSet<Point> {
        chain.iter().flat_map(|&stone| self.beside(stone)).filter(|&point| self.colour(point) == Empty).collect()
    }

    fn coloured(&self, colour: Colour) -> Vec<Point> {
        self.points().filter(|&point| self.colour(point) == colour).collect()
    }
}

fn list(points: Result<samtrekhu::Points, Refusal>) -> Vec<Point> {
    let points = points.unwrap();
    let length = points.len();
    let list = points.collect::<Vec<_>>();
    assert_eq!(list.len(), length);
    assert!(list.is_sorted());
    list
}

/// Every question of a board, at every point.
fn ask_board(board: &Board) {
    let plain = Plain::of(board);
    let [black, white] = [Black, White].map(|colour| plain.coloured(colour));
    assert!(board.is_true());
    assert_eq!(board.number_of_stones(), Ok(Stones { black: black.len(), white: white.len() }));
    for (colour, points) in [(Black, &black), (White, &white), (Empty, &plain.coloured(Empty))] {
        assert_eq!(list(board.get_coords_by_color(colour)), *points);
    }
    assert_eq!(list(board.get_empty_coords()), plain.coloured(Empty));
    assert_eq!(list(board.get_stones()), plain.points().filter(|&point| plain.colour(point) != Empty).collect::<Vec<_>>());
    let mut origins = BTreeSet::new();
    for point in plain.points() {
        let beside = plain.beside(point);
        let occupied = |&other: &Point| plain.colour(other) != Empty;
        assert_eq!(board.get_color(point), Ok(plain.colour(point)));
        assert_eq!(board.has_liberties(point), Ok(!beside.iter().all(occupied)));
        assert_eq!(list(board.get_connected_points(point)), beside);
        assert_eq!(list(board.get_connected_stones(point)), beside.iter().copied().filter(occupied).collect::<Vec<_>>());
        assert_eq!(list(board.get_liberties(point)), beside.iter().copied().filter(|other| !occupied(other)).collect::<Vec<_>>());
        let chains_beside = beside.iter().filter(|other| occupied(other)).map(|&other| *plain.chain(other).first().unwrap());
        assert_eq!(list(board.get_connected_groups(point)), chains_beside.collect::<BTreeSet<_>>().into_iter().collect::<Vec<_>>());
        let player = match plain.colour(point) {
            Empty => {
                assert_eq!(board.chain_at(point), Ok(None));
                assert_eq!(list(board.chain_stones(point)), []);
                assert_eq!(list(board.chain_liberties(point)), []);
                assert_eq!(board.contains_liberty(point, point), Ok(false));
                continue;
            }
            Black => Player::Black,
            White => Player::White,
        };
        let chain = plain.chain(point);
        let liberties = plain.liberties(&chain);
        let origin = *chain.first().unwrap();
        origins.insert(origin);
        let expected = Chain { player, stones: chain.len(), liberties: liberties.len(), atari: liberties.len() == 1, origin };
        assert_eq!(board.chain_at(point), Ok(Some(expected)));
        assert!(list(board.chain_stones(point)).into_iter().eq(chain));
        assert!(plain.points().all(|other| board.contains_liberty(point, other) == Ok(liberties.contains(&other))));
        assert!(list(board.chain_liberties(point)).into_iter().eq(liberties));
    }
    assert_eq!(board.number_of_chains(), Ok(origins.len()));
    let (height, width) = board.size().unwrap();
    let again = Board::from_colours(height, width, &plain.colours).unwrap();
    assert_eq!(again.zobrist_hash(), board.zobrist_hash());
    let picture = board.pretty_string().unwrap();
    assert_eq!(picture.lines().count(), usize::from(plain.height));
    for (line, row) in picture.lines().zip(plain.colours.chunks(plain.width.into())) {
        assert!(line.chars().zip(row).all(|(sign, &colour)| (sign == '●', sign == '○') == (colour == Black, colour == White)));
        assert_eq!(line.chars().count(), row.len());
    }
}

/// Every question of a game, at every point.
fn ask_game(game: &Game) {
    let plain = Plain::of(&game.board().unwrap());
    let facts = game.facts().unwrap();
    assert!(game.is_true());
    assert_eq!((facts.height, facts.width), (plain.height, plain.width));
    assert_eq!(list(game.empty_points()), plain.coloured(Empty));
    for byte in 0..16 {
        let flags = Flags::from_byte(byte);
        let legals = plain.points().filter(|&point| game.check_point_by(flags, point).is_ok()).collect::<Vec<_>>();
        assert_eq!(list(game.legals_by(flags)), legals);
        if flags == facts.flags {
            assert_eq!(list(game.legals()), legals);
        }
    }
    for point in plain.points() {
        let empty = plain.colour(point) == Empty;
        let tests = [game.is_suicide_at(point), game.is_ko_at(point), game.is_eye_at(point), game.is_superko_at(point)].map(Result::unwrap);
        let expected = match tests {
            _ if !empty => Err(Refusal::PointNotEmpty),
            [true, ..] => Err(Refusal::Suicide),
            [_, true, ..] => Err(Refusal::Ko),
            [_, _, true, _] => Err(Refusal::FillEye),
            [.., true] => Err(Refusal::Ko),
            _ => Ok(()),
        };
        assert_eq!(game.check_point_by(Flags::ALL, point), expected);
        assert_eq!(game.check_point(point), game.check_point_by(facts.flags, point));
        let enemy = Colour::from(facts.turn.other());
        let capture = |&other: &Point| plain.colour(other) == enemy && plain.liberties(&plain.chain(other)).len() == 1;
        assert_eq!(game.will_capture(point), Ok(empty && plain.beside(point).iter().any(capture)));
        let mut next = game.clone();
        let (before, taken) = (facts.prisoners, next.stone(point).map(|()| next.facts().unwrap().prisoners));
        if let Ok(Prisoners { black, white }) = taken {
            let (own, other) = match facts.turn {
                Player::Black => (black - before.black, white - before.white),
                Player::White => (white - before.white, black - before.black),
            };
            assert_eq!(other > 0, game.will_capture(point).unwrap());
            assert_eq!(own > 0, game.is_suicide_at(point).unwrap());
        }
    }
}

#[test]
fn random_games_are_as_they_look() {
    let mut random = Random(2_463_534_242);
    for (height, width, flags) in [(1, 1, 0), (1, 2, 8), (2, 2, 1), (3, 4, 0), (4, 3, 9), (5, 5, 11), (5, 5, 15), (1, 19, 2)] {
        let mut game = Game::new(height, width, Flags::from_byte(flags)).unwrap();
        for turn in 0..60 {
            let _ = game.stone((random.below(height), random.below(width)));
            if turn % 10 == 0 {
                let _ = game.pass();
            }
            if turn % 4 == 0 {
                ask_board(&game.board().unwrap());
                ask_game(&game);
            }
        }
    }
}

#[test]
fn beyond_the_board_every_question_is_refused() {
    let game = Game::new(2, 3, Flags::NONE).unwrap();
    let board = game.board().unwrap();
    let no = Refusal::OffBoard;
    for point in [(2, 0), (0, 3), (255, 255), (19, 0)].map(Point::from) {
        assert_eq!(board.get_color(point), Err(no));
        assert_eq!(board.has_liberties(point), Err(no));
        assert_eq!(board.chain_at(point), Err(no));
        assert_eq!(board.contains_liberty(point, (0, 0)), Err(no));
        assert_eq!(board.contains_liberty((0, 0), point), Err(no));
        assert_eq!(board.chain_stones(point).unwrap_err(), no);
        assert_eq!(board.chain_liberties(point).unwrap_err(), no);
        assert_eq!(board.get_connected_points(point).unwrap_err(), no);
        assert_eq!(board.get_connected_stones(point).unwrap_err(), no);
        assert_eq!(board.get_liberties(point).unwrap_err(), no);
        assert_eq!(board.get_connected_groups(point).unwrap_err(), no);
        assert_eq!(game.check_point(point), Err(no));
        assert_eq!(game.check_point_by(Flags::ALL, point), Err(no));
        assert_eq!(game.will_capture(point), Err(no));
        assert_eq!(game.is_suicide_at(point), Err(no));
        assert_eq!(game.is_ko_at(point), Err(no));
        assert_eq!(game.is_eye_at(point), Err(no));
        assert_eq!(game.is_superko_at(point), Err(no));
    }
    for byte in 16..=255 {
        assert_eq!(game.check_point_by(Flags::from_byte(byte), (9, 9)), Err(Refusal::BadFlags));
        assert_eq!(game.legals_by(Flags::from_byte(byte)).unwrap_err(), Refusal::BadFlags);
    }
}

#[test]
fn facts_follow_the_moves() {
    let mut game = Game::new(3, 4, Flags::KO).unwrap();
    let mut facts = Facts {
        height: 3,
        width: 4,
        flags: Flags::KO,
        turn: Player::Black,
        passes: 0,
        outcome: None,
        over: false,
        ko: None,
        handicap: 0,
        accepted: 0,
        prisoners: Prisoners { black: 0, white: 0 },
        records: 0,
    };
    assert_eq!(game.facts(), Ok(facts));
    game.handicap(&[Point::new(0, 1), Point::new(1, 0)]).unwrap();
    (facts.turn, facts.handicap) = (Player::White, 2);
    assert_eq!(game.facts(), Ok(facts));
    game.replay(&[Move::stone(0, 0)]).unwrap_or_else(|stopped| panic!("{stopped}"));
    (facts.turn, facts.accepted, facts.records, facts.prisoners.white) = (Player::Black, 1, 1, 1);
    assert_eq!(game.facts(), Ok(facts));
    game.replay(&[Move::Pass, Move::Pass]).unwrap();
    (facts.passes, facts.over) = (2, true);
    assert_eq!(game.facts(), Ok(facts));
    game.replay(&[Move::Resume, Move::Resign(Player::White)]).unwrap();
    (facts.passes, facts.outcome) = (0, Some(Player::White));
    assert_eq!(game.facts(), Ok(facts));
    game.replay(&[Move::stone(2, 3), Move::stone(1, 1), Move::stone(2, 2), Move::stone(0, 2), Move::Pass]).unwrap();
    game.stone((0, 0)).expect("White takes (0, 1)");
    // White's suicide had left the board that was recorded before it
    (facts.accepted, facts.records, facts.prisoners.black, facts.ko) = (6, 5, 1, Some(Point::new(0, 1)));
    assert_eq!(game.facts(), Ok(facts));
}

#[test]
fn every_size_is_a_board_or_refused() {
    for (height, width) in (0..=255).flat_map(|height| [0, 1, 2, 18, 19, 20, 255].map(|width| (height, width))) {
        let good = (1..=19).contains(&height) && (1..=19).contains(&width);
        let area = usize::from(height) * usize::from(width);
        let size = if good { Ok((height, width)) } else { Err(Refusal::BadSize) };
        assert_eq!(Board::new(height, width).and_then(|board| board.size()), size);
        assert_eq!(Game::new(height, width, Flags::ALL).and_then(|game| game.facts()).map(|facts| (facts.height, facts.width)), size);
        if good {
            for length in [0, area - 1, area, area + 1] {
                let board = Board::from_bytes(height, width, &vec![0; length]);
                assert_eq!(board.map(|_| ()), if length == area { Ok(()) } else { Err(Refusal::BadLength) });
            }
        }
    }
    for flags in 16..=255 {
        assert_eq!(Game::new(9, 9, Flags::from_byte(flags)).unwrap_err(), Refusal::BadFlags);
    }
}
