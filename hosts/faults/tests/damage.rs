//! The run notices: each clause of the judge is needed, and what is free is left true.

use faults::damage::{free, KINDS};
use faults::judge::{Clause, Judge, CLAUSES};
use faults::run::{run, shrunk, Plan};

fn plan(clauses: &[Clause]) -> Plan {
    Plan { judge: Judge::without(clauses), calls: false, ..Plan::new(20_000, 2) }
}

fn kind(name: &str) -> usize {
    KINDS.iter().position(|kind| kind.name == name).expect("one of the kinds")
}

#[test]
fn the_whole_judge_agrees() {
    let found = run(&plan(&[])).err().map(|found| found.text());
    assert_eq!(found, None);
}

#[test]
fn a_judge_without_a_clause_is_noticed() {
    for &clause in CLAUSES {
        // a game not begun of which nothing was put has an empty board by its sums, so that the clause on its board refuses nothing
        // until the one on its sums is left out too
        let (others, kinds): (&[Clause], _) = match clause {
            Clause::UnbegunBoard => (&[Clause::UnbegunPut], Some(vec![kind("not begun, with stones and their sums")])),
            _ => (&[], None),
        };
        let weak = Plan { kinds, ..plan(&[&[clause], others].concat()) };
        let found = run(&weak).err().unwrap_or_else(|| panic!("{clause:?} is not missed"));
        assert!(found.what.contains("the library says false, the judge true"), "{clause:?}: {}", found.what);
        // it is this clause that refuses the state
        let judge = Judge::without(others);
        assert!(!judge.with(&found.game, found.lent), "{clause:?}: {}", found.text());
    }
}

#[test]
fn a_difference_is_shown_on_a_small_board() {
    let points = |clause| {
        let weak = plan(&[clause]);
        let found = run(&weak).err().expect("a difference");
        let (height, width) = shrunk(&weak, found).sides;
        height * width
    };
    assert!(points(Clause::Hash) <= 2);
    // two stones side by side with a liberty each
    assert!((4..=6).contains(&points(Clause::Largest)));
}

#[test]
fn what_is_free_stays_true() {
    for kind in free::KINDS {
        let at = self::kind(kind.name);
        let table = run(&Plan { kinds: Some(vec![at]), ..Plan::new(300, 3) }).unwrap_or_else(|found| panic!("{}", found.text()));
        let row = table.kinds[at];
        assert_eq!((row.tried, row.true_boards, row.true_games), (300, 300, 300), "{}", kind.name);
    }
}
