//! The library held against the judge: its verdicts, and what its other calls do with a state.

use crate::calls::{Call, Desk, Gives, Judges};
use crate::judge::Judge;
use samtrekhu::raw::*;

/// The judge's word on the board alone, the game, and the game with its history.
pub struct Verdict {
    pub board: bool,
    pub game: bool,
    pub with: bool,
}

impl Verdict {
    pub fn of(judge: &Judge, game: &Game, lent: usize) -> Verdict {
        Verdict { board: judge.board(&game.board), game: judge.game(game), with: judge.with(game, lent) }
    }

    pub fn on(&self, call: &Call) -> bool {
        match call.judges {
            Judges::Board => self.board,
            Judges::Game => self.game,
            Judges::WithHistory => self.with,
        }
    }

    /// What the library says otherwise.
    #[inline(never)]
    pub fn differs(&self, game: &Game, lent: usize) -> Option<String> {
        let differ = |what: &str, ours: bool, theirs: bool| (ours != theirs).then(|| format!("{what}: the library says {theirs}, the judge {ours}"));
        differ("true board", self.board, samtrekhu_is_true_board(game.board))
            .or_else(|| differ("true game", self.game, samtrekhu_is_true_game(*game)))
            .or_else(|| differ("true game with its history", self.with, samtrekhu_is_true_game_with(*game, lent)))
    }
}

/// Makes a call, and says what is wrong with what it did.
pub fn wrong(call: &Call, desk: &mut Desk, verdict: &Verdict, judge: &Judge) -> Option<String> {
    let answer = (call.make)(desk);
    if (answer == answers::DAMAGED) == verdict.on(call) {
        return Some(format!("answers {answer} where the judge says {}", verdict.on(call)));
    }
    let refused = answer != answers::ACCEPTED;
    // a replay keeps what its accepted entries did
    let as_it_was = if call.gives == Gives::Entries { answer == answers::DAMAGED } else { refused };
    if call.gives != Gives::Answer {
        if as_it_was && desk.back != desk.given {
            return Some(format!("answers {answer} and hands back another state"));
        }
        let is_true = if call.judges == Judges::WithHistory { judge.with(&desk.back, desk.history.length) } else { judge.game(&desk.back) };
        if !as_it_was && !is_true {
            return Some(format!("answers {answer} and hands back a state that is not true"));
        }
    }
    if (as_it_was || call.gives == Gives::Answer) && !desk.history.untouched() {
        return Some(format!("answers {answer} and changes the history"));
    }
    if refused && !(desk.list.untouched() && desk.bytes.untouched()) {
        return Some(format!("answers {answer} and changes a lent buffer"));
    }
    // "Bytes beyond the capacity never change"
    let records = desk.history.length / RECORD_BYTES * RECORD_BYTES;
    if !(desk.history.same_beyond(records) && desk.list.same_beyond(desk.list.length) && desk.bytes.same_beyond(desk.bytes.length)) {
        return Some(format!("answers {answer} and changes bytes beyond what was lent"));
    }
    None
}

#[cfg(test)]
mod tests {
    //! Calls that do wrong are noticed, each for what it does.
    use super::*;
    use crate::play::fresh;
    use random::Random;

    /// What is said of this call on a new game, damaged or not, and 250 bytes of history of which 200 can be used.
    fn said(damaged: bool, judges: Judges, gives: Gives, make: fn(&mut Desk) -> u8) -> String {
        let mut desk = Desk::new(1);
        desk.given = fresh(3, 3, 0);
        if damaged {
            desk.given.board.hash = 1;
        }
        desk.back = desk.given.clone();
        desk.lend(&[7; 300], 250, &mut Random::new(1, 0));
        let verdict = Verdict::of(&Judge::new(), &desk.given, 250);
        assert_eq!(verdict.differs(&desk.given, 250), None);
        wrong(&Call { name: "", judges, gives, make }, &mut desk, &verdict, &Judge::new()).unwrap_or_default()
    }

    #[test]
    fn right_calls_pass() {
        for judges in [Judges::Board, Judges::Game, Judges::WithHistory] {
            for gives in [Gives::Answer, Gives::State, Gives::Entries] {
                assert_eq!(said(true, judges, gives, |_| 3), "");
                assert_eq!(said(false, judges, gives, |_| 0), "");
                assert_eq!(said(false, judges, gives, |_| 5), "");
            }
        }
    }

    #[test]
    fn wrong_answers_are_noticed() {
        assert_eq!(said(true, Judges::Game, Gives::Answer, |_| 0), "answers 0 where the judge says false");
        assert_eq!(said(true, Judges::Board, Gives::Answer, |_| 5), "answers 5 where the judge says false");
        assert_eq!(said(false, Judges::WithHistory, Gives::Answer, |_| 3), "answers 3 where the judge says true");
    }

    #[test]
    fn wrong_states_are_noticed() {
        fn turns<const ANSWER: u8>(desk: &mut Desk) -> u8 {
            desk.back.turn ^= 1;
            ANSWER
        }
        fn damages<const ANSWER: u8>(desk: &mut Desk) -> u8 {
            desk.back.board.next[360] += 1;
            desk.back.passes = 3;
            ANSWER
        }
        assert_eq!(said(true, Judges::Game, Gives::State, turns::<3>), "answers 3 and hands back another state");
        assert_eq!(said(true, Judges::Game, Gives::Entries, turns::<3>), "answers 3 and hands back another state");
        assert_eq!(said(false, Judges::Game, Gives::State, turns::<5>), "answers 5 and hands back another state");
        assert_eq!(said(false, Judges::Game, Gives::Entries, turns::<5>), "");
        assert_eq!(said(false, Judges::Game, Gives::State, damages::<0>), "answers 0 and hands back a state that is not true");
        assert_eq!(said(false, Judges::Game, Gives::Entries, damages::<5>), "answers 5 and hands back a state that is not true");
    }

    #[test]
    fn wrong_writes_are_noticed() {
        fn history<const AT: isize, const ANSWER: u8>(desk: &mut Desk) -> u8 {
            unsafe { *desk.history.at().offset(AT) ^= 1 };
            ANSWER
        }
        fn list<const AT: isize, const ANSWER: u8>(desk: &mut Desk) -> u8 {
            desk.list.length = 9;
            unsafe { *desk.list.at().offset(AT) ^= 1 };
            ANSWER
        }
        fn bytes<const AT: isize, const ANSWER: u8>(desk: &mut Desk) -> u8 {
            desk.bytes.length = 9;
            unsafe { *desk.bytes.at().offset(AT) ^= 1 };
            ANSWER
        }
        let beyond = "answers 0 and changes bytes beyond what was lent";
        assert_eq!(said(true, Judges::Game, Gives::State, history::<0, 3>), "answers 3 and changes the history");
        assert_eq!(said(true, Judges::WithHistory, Gives::Entries, history::<199, 3>), "answers 3 and changes the history");
        assert_eq!(said(false, Judges::WithHistory, Gives::Answer, history::<0, 0>), "answers 0 and changes the history");
        assert_eq!(said(false, Judges::WithHistory, Gives::State, history::<199, 0>), "");
        assert_eq!(said(false, Judges::WithHistory, Gives::State, history::<200, 0>), beyond);
        assert_eq!(said(false, Judges::WithHistory, Gives::State, history::<299, 0>), beyond);
        assert_eq!(said(false, Judges::WithHistory, Gives::State, history::<-1, 0>), beyond);
        assert_eq!(said(false, Judges::Game, Gives::Answer, list::<8, 0>), "");
        assert_eq!(said(false, Judges::Game, Gives::Answer, list::<9, 0>), beyond);
        assert_eq!(said(false, Judges::Game, Gives::Answer, bytes::<-1, 0>), beyond);
        assert_eq!(said(true, Judges::Game, Gives::Answer, list::<0, 3>), "answers 3 and changes a lent buffer");
        assert_eq!(said(false, Judges::Board, Gives::Answer, bytes::<0, 14>), "answers 14 and changes a lent buffer");
    }
}
