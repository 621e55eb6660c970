//! The process that watches: the fuzzing is done in a child, whose death is reported with the input that it played, made small.

use crate::input::{self, Cell};
use crate::slips::{Slip, SLIPS};
use std::fs;
use std::os::unix::process::ExitStatusExt;
use std::path::{Path, PathBuf};
use std::process::{Command, ExitStatus, Stdio};

/// What became of a child. A complaint and a panic leave their words on its output.
#[derive(Clone, PartialEq, Eq, Debug)]
pub enum Outcome {
    Fine,
    Complaint(String),
    Signal(i32),
    Other(i32),
}

/// The word before a complaint's name.
pub const COMPLAINT: &str = "complaint: ";

fn outcome(status: ExitStatus, said: &str) -> Outcome {
    let check = said.lines().rev().find_map(|line| line.strip_prefix(COMPLAINT)).and_then(|rest| rest.split(':').next());
    match (status.code(), status.signal(), check) {
        (Some(0), ..) => Outcome::Fine,
        (_, Some(signal), _) => Outcome::Signal(signal),
        (_, _, Some(check)) => Outcome::Complaint(check.to_string()),
        (code, ..) => Outcome::Other(code.unwrap_or(-1)),
    }
}

fn me() -> Command {
    Command::new(std::env::current_exe().expect("the program's own path"))
}

fn slip_words(slip: Slip) -> Vec<String> {
    if slip == Slip::None {
        Vec::new()
    } else {
        vec!["--slip".into(), format!("{slip:?}")]
    }
}

/// Plays an input in a process of its own.
fn replay(file: &Path, slip: Slip) -> Outcome {
    let said = me().arg("--replay").arg(file).args(slip_words(slip)).stderr(Stdio::null()).output().expect("a child");
    outcome(said.status, &String::from_utf8_lossy(&said.stdout))
}

/// Watches a child that fuzzes; true if all was well.
pub fn watch(words: &[String], slip: Slip, folder: &Path) -> bool {
    let current = folder.join(format!("current-{}", std::process::id()));
    let status = me().arg("--child").arg(&current).args(words).status().expect("a child");
    let bytes = fs::read(&current).unwrap_or_default();
    let _ = fs::remove_file(&current);
    if status.success() {
        println!("crashes 0, complaints 0");
        return true;
    }
    println!("the child ended with {status}; its input is made smaller");
    let failed = folder.join(format!("failed-{}", std::process::id()));
    fs::write(&failed, &bytes).expect("the failing input's file");
    let small = shrink(&bytes, slip, folder);
    fs::write(&failed, &small).expect("the failing input's file");
    let said = me().arg("--replay").arg(&failed).args(slip_words(slip)).output().expect("a child");
    print!("{}{}", String::from_utf8_lossy(&said.stdout), String::from_utf8_lossy(&said.stderr));
    println!("it ends with {}; play it again with: fuzz --replay {}", said.status, failed.display());
    false
}

const MOST_TRIALS: usize = 600;

/// The same failure with fewer cells, shorter lists and more zeros.
fn shrink(bytes: &[u8], slip: Slip, folder: &Path) -> Vec<u8> {
    let file: PathBuf = folder.join(format!("trial-{}", std::process::id()));
    let mut trials = 0;
    let mut ends = |cells: &[Cell]| {
        trials += 1;
        fs::write(&file, input::bytes(cells)).expect("the trial's file");
        if trials > MOST_TRIALS {
            return Outcome::Fine;
        }
        replay(&file, slip)
    };
    let mut cells = input::cells(bytes);
    let want = ends(&cells);
    if want == Outcome::Fine {
        println!("played alone it does not fail");
        let _ = fs::remove_file(&file);
        return bytes.to_vec();
    }
    let mut length = cells.len().next_power_of_two();
    while length > 0 {
        let mut from = 0;
        while from < cells.len() {
            let mut fewer = cells.clone();
            fewer.drain(from..(from + length).min(cells.len()));
            if ends(&fewer) == want {
                cells = fewer;
            } else {
                from += length;
            }
        }
        length /= 2;
    }
    for at in 0..cells.len() {
        let simpler: [fn(&mut Cell); 8] = [
            |cell| cell.rest.clear(),
            |cell| cell.rest.truncate(cell.rest.len() / 2),
            |cell| cell.seat = 0,
            |cell| cell.side = 0,
            |cell| cell.length = 0,
            |cell| (cell.row, cell.column) = (0, 0),
            |cell| cell.value = 0,
            |cell| cell.extra = 0,
        ];
        for change in simpler {
            let mut other = cells.clone();
            change(&mut other[at]);
            if other != cells && ends(&other) == want {
                cells = other;
            }
        }
    }
    let _ = fs::remove_file(&file);
    input::bytes(&cells)
}

const SLIP_CALLS: u64 = 60_000;

/// Plants each fault in turn; true if each was noticed by its own check.
pub fn notice(seed: u64, folder: &Path) -> bool {
    let mut noticed = 0;
    for &slip in SLIPS {
        let current = folder.join(format!("slip-{}", std::process::id()));
        let said = me()
            .arg("--child")
            .arg(&current)
            .args(["--quiet", "--calls", &SLIP_CALLS.to_string(), "--seed", &seed.to_string()])
            .args(slip_words(slip))
            .stderr(Stdio::null())
            .output()
            .expect("a child");
        let text = String::from_utf8_lossy(&said.stdout).into_owned();
        let ended = outcome(said.status, &text);
        let again = replay(&current, slip);
        let _ = fs::remove_file(&current);
        let check = match &ended {
            Outcome::Complaint(check) => check,
            Outcome::Signal(_) => "signal",
            _ => "",
        };
        // and the input that is left shows the same once more
        let well = slip.checks().contains(&check) && again == ended;
        noticed += usize::from(well);
        let told = text.lines().last().map_or(format!("{ended:?}"), |line| line.trim_start_matches(COMPLAINT).chars().take(100).collect());
        println!("{:<11} {:<20} {told}", if well { "noticed" } else { "NOT NOTICED" }, format!("{slip:?}"));
    }
    println!("{noticed} of {} planted faults noticed", SLIPS.len());
    noticed == SLIPS.len()
}
