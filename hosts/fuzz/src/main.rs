//! A fuzz program over sequences of border calls, guided by the coverage of the static library: see `hosts/fuzz/run`.

mod complaint;
mod cover;
mod desk;
mod doctor;
mod input;
mod kinds;
mod meaning;
mod memory;
mod model;
mod mutate;
mod parent;
mod report;
mod run;
mod slips;
mod world;

use run::Plan;
use slips::Slip;
use std::path::{Path, PathBuf};
use std::process::ExitCode;

const USAGE: &str = "fuzz [--seconds N | --calls N] [--seed N] [--report] [--slip NAME] | --slips [--seed N] | --replay FILE [--slip NAME]";

fn main() -> ExitCode {
    let words: Vec<String> = std::env::args().skip(1).collect();
    let mut plan = Plan { seed: 1, seconds: None, calls: None, slip: Slip::None, report: false, quiet: false, current: PathBuf::new() };
    let (mut child, mut again, mut slips) = (false, None, false);
    let mut left = words.iter();
    while let Some(word) = left.next() {
        let mut next = || left.next().cloned().unwrap_or_default();
        let known = match word.as_str() {
            "--seconds" => next().parse().map(|seconds| plan.seconds = Some(seconds)).is_ok(),
            "--calls" => next().parse().map(|calls| plan.calls = Some(calls)).is_ok(),
            "--seed" => next().parse().map(|seed| plan.seed = seed).is_ok(),
            "--slip" => slips::named(&next()).map(|slip| plan.slip = slip).is_some(),
            "--report" => {
                plan.report = true;
                true
            }
            "--quiet" => {
                plan.quiet = true;
                true
            }
            "--slips" => {
                slips = true;
                true
            }
            "--child" => {
                (child, plan.current) = (true, next().into());
                true
            }
            "--replay" => {
                again = Some(next());
                true
            }
            _ => false,
        };
        if !known {
            eprintln!("{USAGE}");
            return ExitCode::from(2);
        }
    }
    if cover::edges() == 0 {
        eprintln!("fuzz: the library has no counters; hosts/fuzz/build makes one that has");
        return ExitCode::from(2);
    }
    if plan.seconds.is_none() && plan.calls.is_none() {
        plan.seconds = Some(60);
    }
    let folder = Path::new(env!("CARGO_MANIFEST_DIR")).join("../../target/fuzz");
    let well = match (again, child, slips) {
        (Some(file), ..) => on_small_stack(move || replay(&file, plan.slip)),
        (_, true, _) => on_small_stack(move || {
            let complaint = run::run(&plan);
            complaint.is_none_or(tell)
        }),
        (_, _, true) => parent::notice(plan.seed, &folder),
        _ => parent::watch(&words, plan.slip, &folder),
    };
    if well {
        ExitCode::SUCCESS
    } else {
        ExitCode::FAILURE
    }
}

/// All calls are made on a thread with the stack that the papers promise to be enough.
fn on_small_stack(work: impl FnOnce() -> bool + Send + 'static) -> bool {
    let thread = std::thread::Builder::new().stack_size(desk::STACK).spawn(work).expect("a thread");
    thread.join().unwrap_or(false)
}

fn tell(complaint: complaint::Complaint) -> bool {
    println!("{}{}: {}", parent::COMPLAINT, complaint.check, complaint.detail);
    false
}

/// Plays one input and shows its cells.
fn replay(file: &str, slip: Slip) -> bool {
    let bytes = std::fs::read(file).expect("the input's file");
    let cells = input::cells(&bytes);
    for cell in &cells {
        println!("{:?} {cell:?}", cell.step());
    }
    match world::World::new(slip).and_then(|mut world| world.play(&cells)) {
        Ok(()) => {
            println!("nothing to complain of");
            true
        }
        Err(complaint) => tell(complaint),
    }
}
