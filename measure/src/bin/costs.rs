//! What a call costs beside time: its deepest stack, and how often it copies a board or more.

use measure::stack;
use measure::HISTORY_BYTES;
use random::Random;
use samtrekhu::raw::*;
use std::ffi::c_void;
use std::hint::black_box;
use std::sync::atomic::{AtomicUsize, Ordering::Relaxed};

static COPIES: AtomicUsize = AtomicUsize::new(0);

/// Nothing but a board, a game or a result is as long as this.
const LONG: usize = 16_384;

extern "C" {
    fn __real_memcpy(to: *mut c_void, from: *const c_void, bytes: usize) -> *mut c_void;
}

/// The linker puts this where memcpy is called.
#[no_mangle]
unsafe extern "C" fn __wrap_memcpy(to: *mut c_void, from: *const c_void, bytes: usize) -> *mut c_void {
    COPIES.fetch_add(usize::from(bytes >= LONG), Relaxed);
    __real_memcpy(to, from, bytes)
}

#[derive(Clone, Copy)]
struct Cost {
    stack: usize,
    /// the fewest and the most copies of an accepted call, the caller's own not among them
    copies: (usize, usize),
}

impl Cost {
    fn see(&mut self, idle: usize, call: &mut dyn FnMut() -> u8) {
        let mut answer = 0;
        let before = COPIES.load(Relaxed);
        let touched = stack::touched(&mut || answer = call());
        let copies = COPIES.load(Relaxed) - before;
        self.stack = self.stack.max(touched - idle);
        if answer == 0 {
            self.copies = (self.copies.0.min(copies), self.copies.1.max(copies));
        }
    }
}

/// What the calls are asked about, and the room that they are lent.
struct Asked {
    fresh: Game,
    game: Game,
    /// copies of the two, for the calls that change a game where it stands
    fresh_again: Game,
    game_again: Game,
    flags: u8,
    row: u8,
    column: u8,
    history: Vec<u8>,
    points: Vec<u16>,
    bytes: Vec<u8>,
    colours: Vec<u8>,
}

const SPOTS: [u16; 4] = [3 * 256 + 3, 15 * 256 + 15, 3 * 256 + 15, 15 * 256 + 3];

type Call = (&'static str, fn(&mut Asked) -> u8);

/// Every call of the border: it answers a number, 0 where it is accepted.
fn calls() -> Vec<Call> {
    macro_rules! call {
        ($name:literal, |$asked:ident| $does:expr) => {
            ($name, |$asked: &mut Asked| {
                #[allow(unused_unsafe)]
                unsafe {
                    $does
                }
            })
        };
    }
    vec![
        call!("new_board", |_a| black_box(&samtrekhu_new_board(MAX_SIDE, MAX_SIDE)).answer),
        call!("from_colours", |a| black_box(&samtrekhu_from_colours(MAX_SIDE, MAX_SIDE, a.colours.as_ptr(), a.colours.len())).answer),
        call!("is_true_board", |a| u8::from(!samtrekhu_is_true_board(a.game.board))),
        call!("size", |a| samtrekhu_size(a.game.board).answer),
        call!("zobrist_hash", |a| samtrekhu_zobrist_hash(a.game.board).answer),
        call!("number_of_stones", |a| samtrekhu_number_of_stones(a.game.board).answer),
        call!("number_of_chains", |a| samtrekhu_number_of_chains(a.game.board).answer),
        call!("get_color", |a| samtrekhu_get_color(a.game.board, a.row, a.column).answer),
        call!("has_liberties", |a| samtrekhu_has_liberties(a.game.board, a.row, a.column).answer),
        call!("chain_at", |a| samtrekhu_chain_at(a.game.board, a.row, a.column).answer),
        call!("contains_liberty", |a| samtrekhu_contains_liberty(a.game.board, a.row, a.column, a.column, a.row).answer),
        call!("get_stones", |a| samtrekhu_get_stones(a.game.board, a.points.as_mut_ptr(), a.points.len()).number),
        call!("get_coords_by_color", |a| samtrekhu_get_coords_by_color(a.game.board, 1, a.points.as_mut_ptr(), a.points.len()).number),
        call!("get_empty_coords", |a| samtrekhu_get_empty_coords(a.game.board, a.points.as_mut_ptr(), a.points.len()).number),
        call!("chain_stones", |a| samtrekhu_chain_stones(a.game.board, a.row, a.column, a.points.as_mut_ptr(), a.points.len()).number),
        call!("chain_liberties", |a| samtrekhu_chain_liberties(a.game.board, a.row, a.column, a.points.as_mut_ptr(), a.points.len()).number),
        call!("get_connected_points", |a| samtrekhu_get_connected_points(a.game.board, a.row, a.column, a.points.as_mut_ptr(), a.points.len())
            .number),
        call!("get_connected_stones", |a| samtrekhu_get_connected_stones(a.game.board, a.row, a.column, a.points.as_mut_ptr(), a.points.len())
            .number),
        call!("get_liberties", |a| samtrekhu_get_liberties(a.game.board, a.row, a.column, a.points.as_mut_ptr(), a.points.len()).number),
        call!("get_connected_groups", |a| samtrekhu_get_connected_groups(a.game.board, a.row, a.column, a.points.as_mut_ptr(), a.points.len())
            .number),
        call!("to_vec", |a| samtrekhu_to_vec(a.game.board, a.bytes.as_mut_ptr(), a.bytes.len()).number),
        call!("pretty_string", |a| samtrekhu_pretty_string(a.game.board, a.bytes.as_mut_ptr(), a.bytes.len()).number),
        call!("new_game", |a| black_box(&samtrekhu_new_game(MAX_SIDE, MAX_SIDE, a.flags)).answer),
        call!("handicap", |a| black_box(&samtrekhu_handicap(a.fresh, SPOTS.as_ptr(), SPOTS.len())).answer),
        call!("stone", |a| black_box(&samtrekhu_stone(a.game, a.history.as_mut_ptr(), a.history.len(), a.row, a.column)).answer),
        call!("pass", |a| black_box(&samtrekhu_pass(a.game)).answer),
        call!("resign", |a| black_box(&samtrekhu_resign(a.game, 1)).answer),
        call!("resume", |a| black_box(&samtrekhu_resume(a.game)).answer),
        call!("replay of one stone", |a| {
            let one = Move { kind: kinds::STONE, row: a.row, column: a.column };
            black_box(&samtrekhu_replay(a.game, a.history.as_mut_ptr(), a.history.len(), &one, 1)).answer
        }),
        call!("check_point", |a| samtrekhu_check_point(a.game, a.history.as_ptr(), a.history.len(), a.row, a.column)),
        call!("check_point_by", |a| samtrekhu_check_point_by(a.game, a.history.as_ptr(), a.history.len(), a.flags, a.row, a.column)),
        call!("legals", |a| samtrekhu_legals(a.game, a.history.as_ptr(), a.history.len(), a.points.as_mut_ptr(), a.points.len()).number),
        call!("legals_by", |a| samtrekhu_legals_by(a.game, a.history.as_ptr(), a.history.len(), a.flags, a.points.as_mut_ptr(), a.points.len())
            .number),
        call!("facts_of", |a| samtrekhu_facts_of(a.game).answer),
        call!("is_true_game", |a| u8::from(!samtrekhu_is_true_game(a.game))),
        call!("is_true_game_with", |a| u8::from(!samtrekhu_is_true_game_with(a.game, a.history.len()))),
        call!("empty_points", |a| samtrekhu_empty_points(a.game, a.points.as_mut_ptr(), a.points.len()).number),
        call!("board_of", |a| black_box(&samtrekhu_board_of(a.game)).answer),
        call!("will_capture", |a| samtrekhu_will_capture(a.game, a.row, a.column).answer),
        call!("is_suicide_at", |a| samtrekhu_is_suicide_at(a.game, a.row, a.column).answer),
        call!("is_ko_at", |a| samtrekhu_is_ko_at(a.game, a.row, a.column).answer),
        call!("is_eye_at", |a| samtrekhu_is_eye_at(a.game, a.row, a.column).answer),
        call!("is_superko_at", |a| samtrekhu_is_superko_at(a.game, a.history.as_ptr(), a.history.len(), a.row, a.column).answer),
        call!("pass_in_place", |a| samtrekhu_pass_in_place(&mut a.game_again)),
        call!("resign_in_place", |a| samtrekhu_resign_in_place(&mut a.game_again, 1)),
        call!("resume_in_place", |a| samtrekhu_resume_in_place(&mut a.game_again)),
        call!("handicap_in_place", |a| samtrekhu_handicap_in_place(&mut a.fresh_again, SPOTS.as_ptr(), SPOTS.len())),
        call!("replay_in_place of one stone", |a| {
            let one = Move { kind: kinds::STONE, row: a.row, column: a.column };
            samtrekhu_replay_in_place(&mut a.game_again, a.history.as_mut_ptr(), a.history.len(), &one, 1).answer
        }),
        // last, since it changes the game that the next round asks about
        call!("stone_in_place", |a| samtrekhu_stone_in_place(&mut a.game, a.history.as_mut_ptr(), a.history.len(), a.row, a.column)),
    ]
}

fn main() {
    let calls = calls();
    let mut costs = vec![Cost { stack: 0, copies: (usize::MAX, 0) }; calls.len()];
    let idle = stack::touched(&mut || ());
    let mut random = Random::new(3, 0);
    for flags in [0, 3, 15] {
        let fresh = samtrekhu_new_game(MAX_SIDE, MAX_SIDE, flags).game;
        let mut asked = Box::new(Asked {
            fresh,
            game: fresh,
            fresh_again: fresh,
            game_again: fresh,
            flags,
            row: 0,
            column: 0,
            history: vec![0; HISTORY_BYTES],
            points: vec![0; MAX_AREA],
            bytes: vec![0; PICTURE_BYTES],
            colours: vec![0; MAX_AREA],
        });
        for _ in 0..400 {
            (asked.row, asked.column) = (random.below(MAX_SIDE.into()) as u8, random.below(MAX_SIDE.into()) as u8);
            let game = asked.game;
            unsafe { samtrekhu_to_vec(game.board, asked.colours.as_mut_ptr(), MAX_AREA) };
            for (cost, (_, call)) in costs.iter_mut().zip(&calls) {
                (asked.fresh_again, asked.game_again) = (asked.fresh, asked.game);
                cost.see(idle, &mut || call(&mut asked));
            }
        }
    }
    println!("1,200 positions of 19×19: the deepest stack, with what is passed and got by value, and the copies of a board or more when accepted");
    for ((name, _), Cost { stack, copies }) in calls.iter().zip(&costs) {
        println!("  {name:<28} {stack:>9} bytes   {} to {}", copies.0, copies.1);
    }
    let deepest = costs.iter().map(|cost| cost.stack).max().unwrap_or(0);
    println!("  the deepest                  {deepest:>9} bytes");
}
