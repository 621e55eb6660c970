//! Runs the examples and reads what they print.

use std::path::PathBuf;
use std::process::Command;

/// `cargo test` builds the examples beside the folder of this test.
fn run(example: &str, arguments: &[&str]) -> String {
    let test = std::env::current_exe().expect("this program");
    let program: PathBuf = test.parent().and_then(|deps| deps.parent()).expect("cargo's folder").join("examples").join(example);
    let output = Command::new(&program).args(arguments).output().unwrap_or_else(|error| panic!("{}: {error}", program.display()));
    assert!(output.status.success(), "{example}: {}", String::from_utf8_lossy(&output.stderr));
    String::from_utf8(output.stdout).expect("text")
}

#[test]
fn referee() {
    let expected = "\
Black, stone (0, 1): accepted
White, stone (0, 2): accepted
Black, stone (1, 0): accepted
White, stone (1, 1): accepted
Black, stone (4, 5): OffBoard (5). There is no such point on this board.
Black, stone (4, 1): accepted
White, stone (0, 0): accepted
Black, stone (0, 1): Ko (8). It is a ko: a stone was just taken there, or an earlier board would come back.
Black, stone (3, 0): accepted
White, stone (4, 0): Suicide (7). The stone would have no liberty, and suicide is forbidden in this game.
White, stone (0, 0): PointNotEmpty (6). A stone is there already.
White, stone (0, 1): accepted
Black, pass: accepted
White, pass: accepted
Black, stone (2, 2): GamePaused (4). Two passes stand; the game must be resumed first.
Black, resume: accepted
Black, stone (2, 2): accepted
White, resign Black: accepted
○○○┯┓
●○┼┼┨
┠┼●┼┨
●┼┼┼┨
┗●┷┷┛
prisoners: 1 Black, 0 White
the outcome names Black
";
    assert_eq!(run("referee", &[]), expected);
}

/// What the server prints, without time and memory, which differ from run to run.
fn served(games: &str, each: &str) -> Vec<String> {
    run("server", &[games, each]).lines().take_while(|line| !line.starts_with("took")).map(String::from).collect()
}

#[test]
fn server() {
    let lines = served("40", "600");
    assert_eq!(lines, served("40", "600"), "two runs are the same");
    assert_ne!(lines, served("40", "601"));
    let (first, rest) = lines.split_first().unwrap();
    assert_eq!(first, "40 games, 600 calls on each: 24000 calls");
    let (answers, last) = rest.split_at(rest.len() - 2);
    let answers = answers.iter().map(|line| line.trim().split_once(' ').expect("a count and a name")).collect::<Vec<_>>();
    assert_eq!(answers.iter().map(|(count, _)| count.parse::<usize>().unwrap()).sum::<usize>(), 24_000);
    let names = ["accepted", "GamePaused", "OffBoard", "PointNotEmpty", "Suicide", "Ko", "FillEye", "NotAtStart"];
    assert!(answers.iter().map(|(_, name)| *name).eq(names), "every refusal that a client can meet is met");
    // no stone is lost or made up
    let numbers = last[0].split(' ').filter_map(|word| word.parse::<usize>().ok()).collect::<Vec<_>>();
    assert!(numbers.len() == 3 && numbers[0] == numbers[1] + numbers[2] && numbers[2] > 0, "{}", last[0]);
}
