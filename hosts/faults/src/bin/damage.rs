//! Damages states in many ways and compares the library's verdict with the independent judge's. `damage [--states N] [--seed N]`

use faults::calls::CALLS;
use faults::damage::KINDS;
use faults::run::{run, shrunk, Plan, Row, Table};
use std::process::ExitCode;
use std::time::Instant;

const STEP: usize = 100_000;

fn line(name: &str, row: &Row) {
    let damaged = row.tried - row.true_games;
    println!("{name:<56} {:>9} {:>11} {:>10} {:>13} {damaged:>9}", row.tried, row.true_boards, row.true_games, row.true_with);
}

fn print(table: &Table) {
    println!("{:<56} {:>9} {:>11} {:>10} {:>13} {:>9}", "kind of damage", "tried", "true board", "true game", "with history", "damaged");
    let mut total = Row::default();
    let several = [("two of these at once", &table.several[0]), ("three of these at once", &table.several[1])];
    for (name, row) in KINDS.iter().map(|kind| kind.name).zip(&table.kinds).chain(several) {
        line(name, row);
        total.tried += row.tried;
        total.true_boards += row.true_boards;
        total.true_games += row.true_games;
        total.true_with += row.true_with;
    }
    line("in all", &total);
    println!();
    println!("{:<56} {:>9} {:>11}", "call", "true", "damaged");
    for (call, [damaged, is_true]) in CALLS.iter().zip(&table.calls) {
        println!("{:<56} {is_true:>9} {damaged:>11}", call.name);
    }
}

fn plan() -> Option<Plan> {
    let mut plan = Plan::new(1_000_000, 1);
    let mut words = std::env::args().skip(1);
    while let Some(word) = words.next() {
        let number = words.next()?.parse().ok()?;
        match word.as_str() {
            "--states" => plan.states = number as usize,
            "--seed" => plan.seed = number,
            _ => return None,
        }
    }
    plan.progress = |done| {
        if done % STEP == 0 {
            eprintln!("{done} states");
        }
    };
    Some(plan)
}

fn main() -> ExitCode {
    let Some(plan) = plan() else {
        eprintln!("damage [--states N] [--seed N]");
        return ExitCode::from(2);
    };
    let start = Instant::now();
    match run(&plan) {
        Ok(table) => {
            print(&table);
            println!();
            let [small, middle, nine, large, largest] = table.sizes;
            println!("boards of up to 16 points: {small}, up to 80: {middle}, 81: {nine}, up to 360: {large}, 361: {largest}");
            println!("{} states, seed {}, no disagreement, {:.1} s", plan.states, plan.seed, start.elapsed().as_secs_f64());
            ExitCode::SUCCESS
        }
        Err(found) => {
            let small = shrunk(&plan, found);
            println!("seed {}: {}", plan.seed, small.text());
            ExitCode::FAILURE
        }
    }
}
