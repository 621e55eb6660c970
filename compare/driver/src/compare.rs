//! The same lines through both programs: after every call the state is asked for, and where lists are wanted the legal list; the answers must be equal.

use crate::program::Program;

pub struct Pair {
    pub left: Program,
    pub right: Program,
}

/// The first place where the two part: the game, the call in it, and what each said.
#[derive(Clone)]
pub struct Difference {
    pub game: usize,
    pub call: usize,
    /// The question after the call whose answer differs; none where it is the call's own.
    pub after: Option<String>,
    pub left: String,
    pub right: String,
}

/// The flags that a line starts a game by.
fn flags_of(line: &str) -> Option<u8> {
    let flags = line.strip_prefix("new ")?.split(' ').nth(2)?.parse().ok();
    flags.filter(|&flags| flags < 16)
}

/// Each call of a game with the questions after it: the state, and the legal list by the flags of the game.
fn asked(game: &[String], lists: bool) -> Vec<Vec<String>> {
    let mut flags = 0;
    let with_questions = |line: &String| {
        flags = flags_of(line).unwrap_or(flags);
        let list = lists.then(|| format!("legals {flags}"));
        [line.clone(), "state".to_string()].into_iter().chain(list).collect()
    };
    game.iter().map(with_questions).collect()
}

/// What is said in words after `?` is free.
fn same(left: &str, right: &str) -> bool {
    left == right || left.starts_with('?') && right.starts_with('?')
}

impl Difference {
    /// One side has no answer to give: not a question of rules.
    pub fn is_beyond(&self) -> bool {
        self.left.starts_with('?') || self.right.starts_with('?')
    }
}

impl Pair {
    /// Plays the games through both. Gives the left answers to the calls, game by game, or the first difference.
    pub fn play(&self, games: &[&[String]], lists: bool) -> Result<Vec<Vec<String>>, Difference> {
        let games: Vec<Vec<Vec<String>>> = games.iter().map(|game| asked(game, lists)).collect();
        let mut text = Vec::new();
        for line in games.iter().flatten().flatten() {
            text.extend_from_slice(line.as_bytes());
            text.push(b'\n');
        }
        let (left, right) = std::thread::scope(|scope| {
            let left = scope.spawn(|| self.left.answers(&text));
            let right = self.right.answers(&text);
            (left.join().expect("the left program's answers"), right)
        });
        let mut at = 0;
        let mut answers = Vec::new();
        for (game, calls) in games.iter().enumerate() {
            let mut given = Vec::new();
            for (call, lines) in calls.iter().enumerate() {
                for (place, line) in lines.iter().enumerate() {
                    let (left, right) = (left.at(at), right.at(at));
                    at += 1;
                    if !same(&left, &right) {
                        return Err(Difference { game, call, after: (place > 0).then(|| line.clone()), left, right });
                    }
                    if place == 0 {
                        given.push(left);
                    }
                }
            }
            answers.push(given);
        }
        // A program that says more than it was asked is wrong too.
        let (left, right) = (left.at(at), right.at(at));
        if same(&left, &right) || left.starts_with("no answer") && right.starts_with("no answer") {
            return Ok(answers);
        }
        let last = games.len() - 1;
        Err(Difference { game: last, call: games[last].len() - 1, after: Some("# the end".to_string()), left, right })
    }

    /// The first difference in one game.
    pub fn difference(&self, game: &[String], lists: bool) -> Option<Difference> {
        self.play(&[game], lists).err()
    }
}
