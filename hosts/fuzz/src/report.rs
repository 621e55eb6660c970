//! Which functions of the library still have edges that no call took.

use crate::cover::{self, Seen};
use std::fs;
use std::process::Command;

pub fn uncovered(seen: &Seen) {
    let places = cover::places();
    let begins: Vec<usize> = (0..places.len()).filter(|&at| places[at].begins & 1 == 1).collect();
    let names = names();
    println!("edges not taken, by function");
    for (at, &from) in begins.iter().enumerate() {
        let end = begins.get(at + 1).copied().unwrap_or(places.len());
        let left: Vec<usize> = (from..end).filter(|&edge| !seen.covers(edge)).collect();
        if !left.is_empty() {
            let begin = places[from].address;
            let offsets: Vec<String> = left.iter().map(|&edge| format!("+{:x}", places[edge].address - begin)).collect();
            let name = names.iter().find(|(address, _)| *address == begin).map_or("?", |(_, name)| name);
            println!("  {:<40} {:>4} of {:<4} {}", name, left.len(), end - from, offsets.join(" "));
        }
    }
}

/// The program's own symbols, at the addresses where they are now.
fn names() -> Vec<(usize, String)> {
    let (Ok(program), Ok(maps)) = (std::env::current_exe(), fs::read_to_string("/proc/self/maps")) else {
        return Vec::new();
    };
    let first = maps.lines().find(|line| line.ends_with(&*program.to_string_lossy())).and_then(|line| line.split('-').next());
    let base = first.and_then(|hex| usize::from_str_radix(hex, 16).ok()).unwrap_or(0);
    let Ok(said) = Command::new("nm").arg(&program).output() else {
        return Vec::new();
    };
    let symbol = |line: &str| {
        let mut words = line.split_whitespace();
        let address = usize::from_str_radix(words.next()?, 16).ok()?;
        Some((base + address, words.nth(1)?.to_string()))
    };
    String::from_utf8_lossy(&said.stdout).lines().filter_map(symbol).collect()
}
