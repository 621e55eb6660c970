//! Lines of every kind, most of them no calls.

use random::Random;

/// Set apart by bars; one is empty.
const SOME: &str = "|#|# a word|#stone 0 0|foo|stone|stone 0|stone 0 0|stone 0 0 0|stone a 0|stone 0 b|stone -1 0|stone +1 0|stone 1,0|stone 1.0 0\
    |stone 0x1 0|stones 0 0|Stone 0 0|stone 00 000|stone 1 1|stone 2 2|new|new 3|new 3 3|new 3 3 0|new 3 3 0 500 1|new 3 3 x|new -3 3 0|new 5 4 16\
    |new 20 4 0|new 4 5 15 1000|handicap|handicap 0|handicap 0 0|handicap 0 0 1|handicap x|handicap 0 0 0 0|pass|pass 0|passes|pas|resign|resign b\
    |resign w|resign x|resign B|resign b b|resume|resume 1|check|check 0 0|check 0 0 0|check 0 0 0 0|check 0 0 16|legals|legals 0|legals 99\
    |legals 0 0|render|render 1|state 0| |\t| # no comment|stone\t1\t1|  stone   1 \t 2  | pass";

/// Lengths around the longest line, and far beyond it.
const LENGTHS: [usize; 8] = [20, 40, 1000, 8180, 8192, 8193, 9000, 70_000];

pub fn lines(random: &mut Random) -> Vec<String> {
    let some: Vec<&str> = SOME.split('|').collect();
    let mut lines = vec!["new 3 3 0".to_string()];
    for _ in 0..60 {
        let length = *random.of(&LENGTHS);
        let mut line = match random.below(12) {
            0 => format!("#{}", "x".repeat(length - 1)),
            1 => format!("stone 0 {}", "1".repeat(length - 8)),
            2 => format!("stone 0 {}1", "0".repeat(length - 9)),
            3 => format!("handicap{}", " 0 1".repeat(length / 4)),
            4 => format!("legals {}", "9".repeat(length - 7)),
            5 => format!("new {0} {0} 0 {0}", "9".repeat(length / 4)),
            6 => format!("new 3 3 0 {}", *random.of(&[0u128, 100, 1_048_575, 1_048_576, 1_048_577, 1 << 32, 1 << 64, 1 << 100])),
            _ => random.of(&some).to_string(),
        };
        if random.percent(20) {
            line.push('\r');
        }
        lines.push(line);
    }
    lines
}
