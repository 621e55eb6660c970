//! New inputs from old ones: bytes changed anywhere, and whole cells.

use crate::input::{self, Cell, MOST_CELLS, MOST_REST};
use random::Random;

const LIKELY: [u8; 12] = [0, 1, 2, 3, 15, 16, 99, 100, 127, 128, 254, 255];

/// An input from nothing.
pub fn first(random: &mut Random) -> Vec<u8> {
    longer(&[], random)
}

/// An input with more cells at its end. Where there is no room its front is left out.
pub fn longer(input: &[u8], random: &mut Random) -> Vec<u8> {
    let mut cells = input::cells(input);
    cells.extend((0..1 + random.below(24)).map(|_| Cell::random(random)));
    input::bytes(&cells[cells.len().saturating_sub(MOST_CELLS)..])
}

pub fn mutate(input: &[u8], other: &[u8], random: &mut Random) -> Vec<u8> {
    let mut cells = input::cells(input);
    for _ in 0..1 << random.below(4) {
        if random.below(4) == 0 {
            let mut bytes = input::bytes(&cells);
            change_bytes(&mut bytes, other, random);
            cells = input::cells(&bytes);
        } else {
            change_cells(&mut cells, other, random);
        }
        cells.truncate(MOST_CELLS);
    }
    input::bytes(&cells)
}

/// A place and a length within `length`, which is not 0.
fn piece(length: usize, most: usize, random: &mut Random) -> (usize, usize) {
    let from = random.below(length);
    (from, 1 + random.below((length - from).min(most)))
}

fn change_bytes(bytes: &mut Vec<u8>, other: &[u8], random: &mut Random) {
    if bytes.is_empty() {
        bytes.push(random.byte());
    }
    let at = random.below(bytes.len());
    match random.below(8) {
        0 => bytes[at] ^= 1 << random.below(8),
        1 => bytes[at] = LIKELY[random.below(LIKELY.len())],
        2 => bytes[at] = bytes[at].wrapping_add(1 + random.byte() % 8),
        3 => bytes[at] = bytes[at].wrapping_sub(1 + random.byte() % 8),
        4 => {
            let (from, length) = piece(bytes.len(), 16, random);
            bytes.drain(from..from + length);
        }
        5 => {
            let new: Vec<u8> = (0..1 + random.below(16)).map(|_| random.byte()).collect();
            bytes.splice(at..at, new);
        }
        6 => {
            let (from, length) = piece(bytes.len(), 32, random);
            let again = bytes[from..from + length].to_vec();
            bytes.splice(at..at, again);
        }
        _ if !other.is_empty() => {
            let (from, length) = piece(other.len(), 32, random);
            let end = (at + length).min(bytes.len());
            bytes.splice(at..end, other[from..from + length].iter().copied());
        }
        _ => bytes[at] = random.byte(),
    }
}

fn change_cells(cells: &mut Vec<Cell>, other: &[u8], random: &mut Random) {
    if cells.is_empty() {
        cells.push(Cell::random(random));
    }
    let at = random.below(cells.len());
    match random.below(12) {
        0 | 1 => cells.insert(random.below(cells.len() + 1), Cell::random(random)),
        2 => cells.push(Cell::random(random)),
        3 => {
            let (from, length) = piece(cells.len(), 6, random);
            cells.drain(from..from + length);
        }
        4 => {
            let (from, length) = piece(cells.len(), 6, random);
            let again = cells[from..from + length].to_vec();
            cells.splice(at..at, again);
        }
        5 => {
            let with = random.below(cells.len());
            cells.swap(at, with);
        }
        6 => {
            let others = input::cells(other);
            if !others.is_empty() {
                let (from, length) = piece(others.len(), 24, random);
                cells.splice(at..at, others[from..from + length].iter().cloned());
            }
        }
        7 => {
            // one front, another end
            let others = input::cells(other);
            cells.truncate(at);
            cells.extend(others.into_iter().skip(at));
        }
        8 => cells[at].step = Cell::random(random).step,
        9 => {
            cells[at].row = random.byte();
            cells[at].column = random.byte();
        }
        10 => match random.below(5) {
            0 => cells[at].seat = random.byte(),
            1 => cells[at].side = random.byte(),
            2 => cells[at].length = random.byte(),
            3 => cells[at].value = random.byte(),
            _ => cells[at].extra = random.byte(),
        },
        _ => {
            // what follows a cell, made longer or shorter or changed in one place
            let rest = &mut cells[at].rest;
            match random.below(3) {
                0 => (0..1 + random.below(24)).for_each(|_| rest.push(random.byte())),
                1 => rest.truncate(random.below(rest.len() + 1)),
                _ if !rest.is_empty() => {
                    let place = random.below(rest.len());
                    rest[place] = random.byte();
                }
                _ => {}
            }
            rest.truncate(MOST_REST);
        }
    }
}
