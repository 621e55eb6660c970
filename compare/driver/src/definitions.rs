//! A crate of specs for the prover: games with what the crate and the plain referee answered, one statement a game.

use crate::antt::{self, Said};
use crate::call::Call;
use crate::generate::{self, Scope, Step};
use crate::program::Program;
use crate::sample;
use plain::Reason;
use random::Random;
use std::collections::BTreeMap;
use std::path::Path;

const LINES: &str = include_str!("../antt/Lines.antt.in");
const HEAD: &str = include_str!("../antt/Games.antt.in");
const UNFOLDING: &str = include_str!("../antt/unfolding.in");
/// Small boards have at most so many rows and columns; of so many games there those are kept that show something new.
const SIDE: usize = 5;
const LOOKED_AT: u64 = 4000;
/// The most calls of a random game there. The history is a list to the prover, so that a long game costs more than two short ones.
const LONGEST: usize = 24;
/// The calls of a game on 9×9.
const LARGE_CALLS: usize = 30;
/// Games in a file.
const TOGETHER: usize = 10;
/// The most history bytes that a game is lent: the prover has them as a list.
const MOST_LENT: u128 = 2500;

/// A game with its answers, in the order of its calls.
struct Told {
    title: String,
    calls: Vec<Call>,
    said: Vec<Said>,
    /// Whether the crate answered.
    by_the_crate: bool,
    as_a_replay: bool,
}

pub struct Wanted<'a> {
    pub oracle: Program,
    pub plain: Program,
    pub folder: &'a Path,
    pub calls: usize,
    pub large: usize,
    pub seed: u64,
}

/// Writes the games, and beside them a folder in which each place of an answer is wrong once.
pub fn write(wanted: &Wanted) -> std::io::Result<()> {
    let (kept, shown) = sample::keep(wanted.seed, LOOKED_AT, SIDE);
    let mut games: Vec<Told> = kept
        .into_iter()
        .map(|game| ask(wanted, format!("seed {}, game {}, cut down", wanted.seed, game.number), game.calls, !game.beyond_the_crate, false))
        .collect();
    tell(&format!("games up to {SIDE}×{SIDE} that show something new each, {} kinds in all", shown.len()), &games);
    let mut random: Vec<Told> = Vec::new();
    while sum(&random, |_| true) < wanted.calls {
        random.push(small(wanted, random.len() as u64));
    }
    tell(&format!("other games up to {SIDE}×{SIDE}"), &random);
    let large: Vec<Told> = (0..wanted.large).map(|number| large(wanted, number as u64)).collect();
    tell("games on 9×9", &large);
    games.extend(random);
    games.extend(large);
    let statements = games.iter().enumerate().map(|(number, game)| statement(&format!("game{number}"), game, None));
    folder(wanted.folder, &statements.collect::<Vec<_>>())?;
    // A short game, once for each place in which its last answer can be wrong.
    let short = games.iter().filter(|game| !game.as_a_replay && game.calls.len() > 5).min_by_key(|game| game.calls.len());
    let statements = short.iter().flat_map(|game| (0..Said::PLACES).map(|place| statement(&format!("wrong{place}"), game, Some(place))));
    let name = wanted.folder.file_name().and_then(|name| name.to_str()).unwrap_or("definitions");
    folder(&wanted.folder.with_file_name(format!("{name}_wrong")), &statements.collect::<Vec<_>>())
}

fn sum(games: &[Told], test: impl Fn(&Told) -> bool) -> usize {
    games.iter().filter(|game| test(game)).map(|game| game.calls.len()).sum()
}

/// Prints how many calls there are, who answered them, and how often each number was answered.
fn tell(title: &str, games: &[Told]) {
    let mut numbers: BTreeMap<u64, usize> = BTreeMap::new();
    games.iter().flat_map(|game| &game.said).for_each(|said| *numbers.entry(said.number).or_default() += 1);
    let numbers: Vec<String> = numbers.iter().map(|(number, count)| format!("{number}: {count}")).collect();
    println!(
        "{title}: {} games, {} calls ({} answered by the crate, the others by the plain referee; {} in replays)",
        games.len(),
        sum(games, |_| true),
        sum(games, |game| game.by_the_crate),
        sum(games, |game| game.as_a_replay)
    );
    println!("  {}", numbers.join("  "));
}

/// A random game on a board up to 5×5: three of four within what the crate answers, two of five told as a replay.
fn small(wanted: &Wanted, number: u64) -> Told {
    let mut random = Random::new(wanted.seed, LOOKED_AT + number);
    let beyond_the_crate = random.percent(25);
    let (height, width) = (random.between(1, SIDE), random.between(1, SIDE));
    let width = if beyond_the_crate { width } else { height };
    let scope = Scope { beyond_the_crate, legal_lists: true, flags: None };
    let most = (4 * height * width).clamp(8, LONGEST);
    let steps = generate::game(&mut random, scope, height, width);
    let as_a_replay = random.percent(40);
    let calls = if as_a_replay { entries(steps, most) } else { steps.into_iter().map(|step| step.call).take(most).collect() };
    ask(wanted, format!("seed {}, game {}", wanted.seed, LOOKED_AT + number), calls, !beyond_the_crate, as_a_replay)
}

/// The new game and what is an entry of a replay, up to the last refusal and without those before it.
fn entries(steps: Vec<Step>, most: usize) -> Vec<Call> {
    let mut steps = steps.into_iter();
    let first = steps.next().expect("a new game");
    let mut steps: Vec<Step> = steps.take_while(|step| !matches!(step.call, Call::New(..) | Call::Handicap(..))).take(most).collect();
    steps.retain(|step| antt::entry(&step.call).is_some());
    let last = steps.iter().rposition(|step| step.reason != Reason::Accepted);
    let accepted = steps
        .into_iter()
        .enumerate()
        .filter(|(place, step)| step.reason == Reason::Accepted && last.is_none_or(|last| *place < last) || Some(*place) == last);
    std::iter::once(first.call).chain(accepted.map(|(_, step)| step.call)).collect()
}

/// On 9×9: the next game that captures soon.
fn large(wanted: &Wanted, number: u64) -> Told {
    let scope = Scope { beyond_the_crate: false, legal_lists: false, flags: None };
    let found = (number * 1000..).find_map(|place| {
        let mut steps = generate::game(&mut Random::new(wanted.seed, place), scope, 9, 9);
        steps.truncate(LARGE_CALLS);
        let captures = steps.iter().filter(|step| !step.taken.0.is_empty()).count();
        (captures > 1).then_some((place, steps))
    });
    let (place, steps) = found.expect("there is always another game");
    ask(wanted, format!("9×9, seed {}, game {place}", wanted.seed), steps.into_iter().map(|step| step.call).collect(), true, false)
}

/// A game's calls with their answers; where the crate can be asked, it and the plain referee must agree.
fn ask(wanted: &Wanted, title: String, mut calls: Vec<Call>, by_the_crate: bool, as_a_replay: bool) -> Told {
    for call in &mut calls {
        if let Call::New(_, _, _, bytes) = call {
            *bytes = bytes.filter(|&bytes| bytes <= MOST_LENT);
        }
    }
    let text: String = calls.iter().map(|call| format!("{call}\nstate\n")).collect();
    let answers = |program: &Program| -> Vec<Said> {
        let answers = program.answers(text.as_bytes());
        let said = calls.iter().enumerate().map(|(place, call)| Said::read(call, &answers.at(2 * place), &answers.at(2 * place + 1)));
        said.map(|said| said.unwrap_or_else(|| stop(&format!("{} does not answer {title}", program.name)))).collect()
    };
    let said = answers(&wanted.plain);
    if by_the_crate && said != answers(&wanted.oracle) {
        stop(&format!("{} and {} differ on {title}", wanted.oracle.name, wanted.plain.name));
    }
    Told { title, calls, said, by_the_crate, as_a_replay }
}

fn stop(why: &str) -> ! {
    eprintln!("{why}");
    std::process::exit(1);
}

/// A game as a list of lines and the statement that all of them hold; its last answer is wrong at a place if one is given.
fn statement(name: &str, game: &Told, wrong: Option<usize>) -> String {
    // The crate's history has no limit: where no length is named, there is room for all records and one more.
    let records = game.said.iter().map(|said| said.records).max().unwrap_or(0);
    let lent = 100 * (u128::from(records) + 1);
    let mut lines: Vec<String> = Vec::new();
    let mut push = |call: String, said: &Said| lines.push(format!("line {call} {}", said.text()));
    if game.as_a_replay {
        push(antt::call(&game.calls[0], lent), &game.said[0]);
        let entries = game.calls.iter().filter_map(antt::entry);
        let last = game.said.last().expect("an answer");
        let accepted = game.said.iter().skip(1).filter(|said| said.number == 0).count() as u64;
        push(format!("(replays {})", antt::list(entries)), &Said { listed: vec![accepted], ..last.clone() });
    } else {
        for (place, (call, said)) in game.calls.iter().zip(&game.said).enumerate() {
            let spoiled = wrong.filter(|_| place + 1 == game.calls.len()).map(|wrong| said.spoiled(wrong));
            push(antt::call(call, lent), spoiled.as_ref().unwrap_or(said));
        }
    }
    let unfolding = UNFOLDING.trim_end().replacen("unfolding", &format!("unfolding {name}"), 1);
    format!(
        "\n-- {}\nunfoldable pub {name} : List Line\n{name} =\n    {}\n    ∷ []\n\npub {name}-computes : held {name} ≡ {}\n{unfolding}\n{name}-computes = refl\n",
        game.title,
        lines.join("\n    ∷ "),
        lines.len()
    )
}

/// A crate folder: no code, the definition of agreement, and the games, some in a file.
fn folder(folder: &Path, statements: &[String]) -> std::io::Result<()> {
    let name = folder.file_name().and_then(|name| name.to_str()).unwrap_or("definitions");
    let specs = folder.join("specs");
    std::fs::create_dir_all(folder.join("src"))?;
    std::fs::create_dir_all(&specs)?;
    std::fs::write(folder.join("src/lib.rt"), "// Only specs: games for the prover to compute.\n")?;
    std::fs::write(specs.join("Lines.antt"), LINES)?;
    let mut modules = "-- Games for the prover to compute.\npub mod Lines\n".to_string();
    for (place, games) in statements.chunks(TOGETHER).enumerate() {
        modules.push_str(&format!("pub mod Games{place}\n"));
        let text = HEAD.replace("NAME", name) + &games.concat();
        std::fs::write(specs.join(format!("Games{place}.antt")), text)?;
    }
    std::fs::write(specs.join("Lib.antt"), modules)
}
