//! The programs that are compared: each is started on some lines and its answers are read back, one a line.

use std::io::{Read, Write};
use std::process::{Command, Stdio};

pub struct Program {
    pub name: String,
    words: Vec<String>,
}

/// The lines that a program wrote, and how it ended.
pub struct Answers {
    lines: Vec<Vec<u8>>,
    ended: String,
}

impl Answers {
    pub fn at(&self, line: usize) -> String {
        self.lines.get(line).map_or_else(|| format!("no answer, {}", self.ended), |bytes| String::from_utf8_lossy(bytes).into_owned())
    }
}

impl Program {
    /// A command with its words, set apart by spaces; its name is the file's, with the words.
    pub fn new(command: &str) -> Program {
        let words: Vec<String> = command.split_whitespace().map(str::to_string).collect();
        let file = words.first().map_or("", String::as_str);
        let name = std::iter::once(file.rsplit('/').next().unwrap_or(file)).chain(words.iter().skip(1).map(String::as_str));
        Program { name: name.collect::<Vec<_>>().join(" "), words }
    }

    pub fn answers(&self, text: &[u8]) -> Answers {
        let started = Command::new(&self.words[0]).args(&self.words[1..]).stdin(Stdio::piped()).stdout(Stdio::piped()).stderr(Stdio::null()).spawn();
        let mut child = started.unwrap_or_else(|error| {
            eprintln!("cannot start {}: {error}", self.words[0]);
            std::process::exit(2);
        });
        let mut input = child.stdin.take().expect("a pipe");
        let mut output = Vec::new();
        std::thread::scope(|scope| {
            // A program that ends early closes its input; its missing answers tell.
            scope.spawn(move || input.write_all(text).unwrap_or(()));
            child.stdout.take().expect("a pipe").read_to_end(&mut output).expect("a program's answers");
        });
        let status = child.wait().expect("a program's end");
        let mut lines: Vec<Vec<u8>> = output.split(|&byte| byte == b'\n').map(<[u8]>::to_vec).collect();
        // What stands after the last line end is no answer.
        lines.pop();
        Answers { lines, ended: format!("the program ended: {status}") }
    }
}
