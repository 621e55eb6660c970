//! A board is the colours of its points; everything else is found by looking.

pub use lines::{BLACK, EMPTY, WHITE};

#[derive(Clone, PartialEq, Eq)]
pub struct Board {
    pub height: usize,
    pub width: usize,
    pub colours: Vec<u8>,
}

/// The stones of one colour that hang together, and the empty points beside them.
pub struct Chain {
    pub stones: Vec<usize>,
    pub liberties: Vec<usize>,
}

impl Board {
    pub fn empty(height: usize, width: usize) -> Board {
        Board { height, width, colours: vec![EMPTY; height * width] }
    }

    pub fn area(&self) -> usize {
        self.height * self.width
    }

    /// The index of an on-board point.
    pub fn point(&self, row: u64, column: u64) -> Option<usize> {
        (row < self.height as u64 && column < self.width as u64).then(|| row as usize * self.width + column as usize)
    }

    pub fn row_column(&self, point: usize) -> (u64, u64) {
        ((point / self.width) as u64, (point % self.width) as u64)
    }

    fn beside(&self, point: usize, down: i64, right: i64) -> Option<usize> {
        let (row, column) = self.row_column(point);
        self.point(row.checked_add_signed(down)?, column.checked_add_signed(right)?)
    }

    pub fn neighbours(&self, point: usize) -> impl Iterator<Item = usize> + '_ {
        [(1, 0), (-1, 0), (0, 1), (0, -1)].into_iter().filter_map(move |(down, right)| self.beside(point, down, right))
    }

    /// The diagonal points in the order of the eye test; none for one off the board.
    pub fn corners(&self, point: usize) -> [Option<usize>; 4] {
        [(1, 1), (-1, -1), (1, -1), (-1, 1)].map(|(down, right)| self.beside(point, down, right))
    }

    pub fn own_or_off_corners(&self, point: usize, own: u8) -> usize {
        self.corners(point).iter().filter(|corner| corner.is_none_or(|corner| self.colours[corner] == own)).count()
    }

    /// The chain at a stone, by flood fill.
    pub fn chain(&self, start: usize) -> Chain {
        let mut seen = [false; 361];
        let mut chain = Chain { stones: vec![start], liberties: Vec::new() };
        seen[start] = true;
        let mut done = 0;
        while done < chain.stones.len() {
            for next in self.neighbours(chain.stones[done]) {
                if seen[next] {
                    continue;
                }
                if self.colours[next] == self.colours[start] {
                    seen[next] = true;
                    chain.stones.push(next);
                } else if self.colours[next] == EMPTY {
                    seen[next] = true;
                    chain.liberties.push(next);
                }
            }
            done += 1;
        }
        chain
    }

    /// Every chain of that colour.
    pub fn chains(&self, colour: u8) -> Vec<Chain> {
        let mut seen = [false; 361];
        let mut chains = Vec::new();
        for point in 0..self.area() {
            if self.colours[point] == colour && !seen[point] {
                let chain = self.chain(point);
                chain.stones.iter().for_each(|&stone| seen[stone] = true);
                chains.push(chain);
            }
        }
        chains
    }

    /// Whether a chain of that colour has no liberty.
    pub fn dead(&self, colour: u8) -> bool {
        self.chains(colour).iter().any(|chain| chain.liberties.is_empty())
    }

    /// Empties every chain of that colour that has no liberty, and tells which.
    pub fn clear(&mut self, colour: u8) -> Vec<Vec<usize>> {
        let chains = self.chains(colour);
        let dead: Vec<Vec<usize>> = chains.into_iter().filter(|chain| chain.liberties.is_empty()).map(|chain| chain.stones).collect();
        dead.iter().flatten().for_each(|&stone| self.colours[stone] = EMPTY);
        dead
    }

    /// The hundred bytes of the present board: its hash, its colours, a zero.
    pub fn record(&self) -> [u8; 100] {
        let mut record = [0; 100];
        record[..8].copy_from_slice(&self.hash().to_le_bytes());
        for (point, &colour) in self.colours.iter().enumerate() {
            record[8 + point / 4] |= colour << (2 * (point % 4));
        }
        record
    }

    /// The exclusive or of the table's entries, 2p for Black and 2p + 1 for White.
    pub fn hash(&self) -> u64 {
        let mut entry: u64 = 1442695040888963407;
        let mut hash = 0;
        for &colour in &self.colours {
            for stone in [BLACK, WHITE] {
                if colour == stone {
                    hash ^= entry;
                }
                entry = entry.wrapping_mul(6364136223846793005).wrapping_add(1442695040888963407);
            }
        }
        hash
    }
}
