//! The bare calls at the edges of what is lent: no bytes at all, and buffers a little too short or too long.

use samtrekhu::raw::*;
use std::ptr::{null, null_mut};

const FILL: u8 = 0xA5;
const FILLED: u16 = 0xA5A5;

fn game() -> Game {
    let mut game = samtrekhu_new_game(5, 4, flags::KO).game;
    let mut history = [0; 500];
    for (row, column) in [(0, 1), (4, 3), (1, 0), (4, 2)] {
        assert_eq!(unsafe { samtrekhu_stone_in_place(&mut game, history.as_mut_ptr(), history.len(), row, column) }, answers::ACCEPTED);
    }
    game
}

#[test]
fn nothing_may_be_lent_by_a_null_pointer() {
    let (fresh, game) = (samtrekhu_new_game(5, 4, 0).game, game());
    let board = game.board;
    let mut copy = fresh;
    unsafe {
        assert_eq!(samtrekhu_from_colours(5, 4, null(), 0).answer, answers::BAD_LENGTH);
        assert_eq!(samtrekhu_stone(fresh, null_mut(), 0, 0, 0).answer, answers::HISTORY_FULL);
        assert_eq!(samtrekhu_stone_in_place(&mut copy, null_mut(), 0, 0, 0), answers::HISTORY_FULL);
        assert!(copy == fresh);
        assert_eq!(samtrekhu_check_point(fresh, null(), 0, 0, 0), answers::ACCEPTED);
        assert_eq!(samtrekhu_check_point_by(fresh, null(), 0, flags::MAX, 0, 0), answers::ACCEPTED);
        assert!(!samtrekhu_is_superko_at(fresh, null(), 0, 0, 0).holds);
        assert_eq!(samtrekhu_handicap(fresh, null(), 0).answer, answers::ACCEPTED);
        assert_eq!(samtrekhu_handicap_in_place(&mut copy, null(), 0), answers::ACCEPTED);
        assert_eq!(copy.turn, colours::WHITE);
        let replayed = samtrekhu_replay(fresh, null_mut(), 0, null(), 0);
        assert_eq!((replayed.entries, replayed.answer), (0, answers::ACCEPTED));
        assert_eq!(samtrekhu_replay_in_place(&mut copy, null_mut(), 0, null(), 0), ReplayedInPlace { entries: 0, answer: answers::ACCEPTED });
        let short = Listed { number: answers::BAD_LENGTH, count: 0 };
        assert_eq!(samtrekhu_legals(fresh, null(), 0, null_mut(), 0), short);
        assert_eq!(samtrekhu_legals_by(fresh, null(), 0, flags::KO, null_mut(), 0), short);
        assert_eq!(samtrekhu_empty_points(fresh, null_mut(), 0), short);
        assert_eq!(samtrekhu_get_stones(board, null_mut(), 0), short);
        assert_eq!(samtrekhu_get_coords_by_color(board, 0, null_mut(), 0), short);
        assert_eq!(samtrekhu_get_empty_coords(board, null_mut(), 0), short);
        assert_eq!(samtrekhu_chain_stones(board, 0, 0, null_mut(), 0), short);
        assert_eq!(samtrekhu_chain_liberties(board, 0, 0, null_mut(), 0), short);
        assert_eq!(samtrekhu_get_connected_points(board, 0, 0, null_mut(), 0), short);
        assert_eq!(samtrekhu_get_connected_stones(board, 0, 0, null_mut(), 0), short);
        assert_eq!(samtrekhu_get_liberties(board, 0, 0, null_mut(), 0), short);
        assert_eq!(samtrekhu_get_connected_groups(board, 0, 0, null_mut(), 0), short);
        assert_eq!(samtrekhu_to_vec(board, null_mut(), 0), short);
        assert_eq!(samtrekhu_pretty_string(board, null_mut(), 0), short);
    }
}

/// A list of points into buffers of every length near the area: refused and untouched below it, and beyond the list never touched.
fn lists(area: usize, expected: usize, call: impl Fn(*mut u16, usize) -> Listed) {
    for places in [0, 1, area - 1, area, area + 1, MAX_AREA, MAX_AREA + 1] {
        let mut buffer = vec![FILLED; places + 1];
        let Listed { number, count } = call(buffer.as_mut_ptr(), places);
        if places < area {
            assert_eq!((number, count), (answers::BAD_LENGTH, 0));
        } else {
            assert_eq!((number, count), (answers::ACCEPTED, expected));
        }
        assert!(buffer[..count].is_sorted() && buffer[..count].iter().all(|&point| usize::from(point) < area));
        assert!(buffer[count..].iter().all(|&place| place == FILLED));
    }
}

#[test]
fn lists_need_a_place_for_each_point_and_touch_no_other() {
    let game = game();
    let (board, area) = (game.board, 20);
    let history = [0; 400];
    let (at, length) = (history.as_ptr(), history.len());
    unsafe {
        lists(area, 16, |buffer, places| samtrekhu_legals(game, at, length, buffer, places));
        lists(area, 16, |buffer, places| samtrekhu_legals_by(game, at, length, 0, buffer, places));
        lists(area, 16, |buffer, places| samtrekhu_empty_points(game, buffer, places));
        lists(area, 4, |buffer, places| samtrekhu_get_stones(board, buffer, places));
        lists(area, 2, |buffer, places| samtrekhu_get_coords_by_color(board, colours::WHITE, buffer, places));
        lists(area, 16, |buffer, places| samtrekhu_get_empty_coords(board, buffer, places));
        lists(area, 2, |buffer, places| samtrekhu_chain_stones(board, 4, 3, buffer, places));
        lists(area, 3, |buffer, places| samtrekhu_chain_liberties(board, 4, 3, buffer, places));
        lists(area, 2, |buffer, places| samtrekhu_get_connected_points(board, 0, 0, buffer, places));
        lists(area, 2, |buffer, places| samtrekhu_get_connected_stones(board, 0, 0, buffer, places));
        lists(area, 0, |buffer, places| samtrekhu_get_liberties(board, 0, 0, buffer, places));
        lists(area, 2, |buffer, places| samtrekhu_get_connected_groups(board, 0, 0, buffer, places));
    }
}

#[test]
fn a_colour_that_is_none_is_refused_after_a_short_buffer() {
    let board = game().board;
    let mut buffer = [FILLED; 20];
    for colour in 3..=255 {
        let [long, short] = [20, 19].map(|places| unsafe { samtrekhu_get_coords_by_color(board, colour, buffer.as_mut_ptr(), places) }.number);
        assert_eq!((long, short), (answers::BAD_COLOUR, answers::BAD_LENGTH));
    }
    assert_eq!(buffer, [FILLED; 20]);
}

#[test]
fn bytes_of_a_board_need_room_and_touch_no_other() {
    let board = game().board;
    let picture = 5 * (3 * 4 + 1);
    for (wanted, call) in [(20, samtrekhu_to_vec as unsafe extern "C" fn(Board, *mut u8, usize) -> Listed), (picture, samtrekhu_pretty_string)] {
        for length in [0, 1, wanted - 1, wanted, wanted + 1, PICTURE_BYTES] {
            let mut buffer = vec![FILL; length + 1];
            let Listed { number, count } = unsafe { call(board, buffer.as_mut_ptr(), length) };
            let expected = if length < wanted { (answers::BAD_LENGTH, 0) } else { (answers::ACCEPTED, wanted) };
            assert_eq!((number, count), expected);
            assert!(buffer[count..].iter().all(|&byte| byte == FILL));
        }
    }
}

/// What is given by value and what is done in place are the same.
#[test]
fn in_place_is_by_value() {
    let start = game();
    let history = [0; 500];
    let moves = [Move { kind: kinds::STONE, row: 2, column: 2 }, Move { kind: kinds::RESUME, row: 9, column: 9 }];
    let check = |answered: Answered, call: &dyn Fn(&mut Game) -> u8| {
        let mut game = start;
        assert_eq!(call(&mut game), answered.answer);
        assert!(game == answered.game);
    };
    unsafe {
        let (mut one, mut two) = (history, history);
        let stone = samtrekhu_stone(start, one.as_mut_ptr(), one.len(), 2, 2);
        let mut game = start;
        assert_eq!(samtrekhu_stone_in_place(&mut game, two.as_mut_ptr(), two.len(), 2, 2), stone.answer);
        assert!(game == stone.game && one == two && one != history);
        let (mut one, mut two) = (history, history);
        let replayed = samtrekhu_replay(start, one.as_mut_ptr(), one.len(), moves.as_ptr(), moves.len());
        let mut game = start;
        let in_place = samtrekhu_replay_in_place(&mut game, two.as_mut_ptr(), two.len(), moves.as_ptr(), moves.len());
        assert_eq!((in_place.entries, in_place.answer), (replayed.entries, replayed.answer));
        assert!(game == replayed.game && one == two && one != history);
        check(samtrekhu_handicap(start, [0, 1].as_ptr(), 2), &|game| samtrekhu_handicap_in_place(game, [0, 1].as_ptr(), 2));
    }
    check(samtrekhu_pass(start), &|game| samtrekhu_pass_in_place(game));
    check(samtrekhu_resign(start, 2), &|game| samtrekhu_resign_in_place(game, 2));
    check(samtrekhu_resume(start), &|game| samtrekhu_resume_in_place(game));
}
