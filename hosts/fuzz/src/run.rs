//! The loop: an input is changed, played, and kept if it went a new way through the library.

use crate::complaint::Complaint;
use crate::cover;
use crate::input;
use crate::kinds::KINDS;
use crate::mutate;
use crate::report;
use crate::slips::Slip;
use crate::world::World;
use random::Random;
use std::fs::File;
use std::os::unix::fs::FileExt;
use std::path::PathBuf;
use std::time::{Duration, Instant};

pub struct Plan {
    pub seed: u64,
    pub seconds: Option<u64>,
    pub calls: Option<u64>,
    pub slip: Slip,
    pub report: bool,
    pub quiet: bool,
    /// Where the input stands that is being played, for whoever finds this process dead.
    pub current: PathBuf,
}

/// How many inputs are made from nothing before one is changed.
const FIRST: u64 = 64;

/// Gives the complaint that ended it, if there was one. The input then stands in the plan's file.
pub fn run(plan: &Plan) -> Option<Complaint> {
    fuzz(plan).err()
}

fn fuzz(plan: &Plan) -> Result<(), Complaint> {
    let file = File::create(&plan.current).expect("the file of the current input");
    let mut random = Random::new(plan.seed, 0);
    let mut world = World::new(plan.slip)?;
    let mut corpus: Vec<Vec<u8>> = Vec::new();
    let (mut inputs, start) = (0u64, Instant::now());
    let mut told = start;
    loop {
        let elapsed = start.elapsed();
        let over =
            plan.seconds.is_some_and(|seconds| elapsed >= Duration::from_secs(seconds)) || plan.calls.is_some_and(|calls| world.calls() >= calls);
        if !plan.quiet && (over || told.elapsed() >= Duration::from_secs(5)) {
            told = Instant::now();
            let seen = &world.desk.seen;
            let (calls, edges) = (world.calls(), cover::edges());
            println!(
                "{:>4} s  {inputs} inputs  {calls} calls  {} of {edges} edges  {} with their counts  {} inputs kept",
                elapsed.as_secs(),
                seen.edges,
                seen.features,
                corpus.len()
            );
        }
        if over {
            break;
        }
        // now and then a new one, or one that goes on where a kept one ends
        let bytes = match random.below(8) {
            _ if inputs < FIRST => mutate::first(&mut random),
            0 => mutate::first(&mut random),
            1 | 2 => mutate::longer(&corpus[pick(&corpus, &mut random)], &mut random),
            _ => {
                let input = pick(&corpus, &mut random);
                mutate::mutate(&corpus[input], &corpus[random.below(corpus.len())], &mut random)
            }
        };
        file.set_len(bytes.len() as u64).and_then(|()| file.write_all_at(&bytes, 0)).expect("the file of the current input");
        world.desk.fresh = false;
        world.play(&input::cells(&bytes))?;
        inputs += 1;
        if world.desk.fresh {
            corpus.push(bytes);
        }
    }
    if !plan.quiet {
        summary(&world);
    }
    if plan.report {
        report::uncovered(&world.desk.seen);
    }
    Ok(())
}

/// New ways are mostly found near the last ones: every other time one of the last few.
fn pick(corpus: &[Vec<u8>], random: &mut Random) -> usize {
    let near = corpus.len().min(24);
    if random.below(2) == 0 {
        corpus.len() - 1 - random.below(near)
    } else {
        random.below(corpus.len())
    }
}

fn summary(world: &World) {
    println!("calls by kind, and by answer (of is_true_*: 0 no, 1 yes)");
    for (kind, counts) in KINDS.iter().zip(&world.counts) {
        let answers: Vec<String> =
            counts.iter().enumerate().filter(|(_, count)| **count > 0).map(|(answer, count)| format!("{answer}: {count}")).collect();
        println!("  {:<20} {:>8}   {}", kind.name(), counts.iter().sum::<u64>(), answers.join("  "));
    }
    println!("{} calls, and {} more to check them", world.calls(), world.desk.calls.saturating_sub(world.calls()));
}
