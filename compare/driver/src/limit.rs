//! Games of 65,535 stones on boards of one row: what comes before the stone limit, and what it comes before.

const STONES: usize = 65_535;

pub fn games() -> Vec<Vec<String>> {
    let lines = |text: &str| text.split(", ").map(str::to_string).collect::<Vec<_>>();
    // On one row a stone on either side of a lone white stone in the middle is a suicide: the board stays.
    let suicides = |start: &str, count: usize| {
        let mut game = lines(start);
        (0..count).for_each(|turn| game.extend(lines(if turn % 2 == 0 { "stone 0 0, pass" } else { "stone 0 2, pass" })));
        game
    };
    // A handicap is not counted; then the two take each other for ever.
    let mut taking = lines("new 1 2 0, handicap 0 0");
    taking.extend((0..STONES).map(|turn| format!("stone 0 {}", (turn + 1) % 2)));
    taking.extend(lines("stone 0 0, stone 0 1, stone 0 2, check 0 0 0, check 0 1 0, legals 0, handicap, pass, stone 0 0, stone 0 1, pass, stone 0 0, resume, stone 0 0, resign b"));
    // The last stone makes a board that has no record and no room: the limit comes first.
    let mut full = suicides("new 1 3 0 300, stone 0 0, stone 0 1", STONES - 3);
    full.extend(lines("pass, resume, stone 0 0, stone 0 2, legals 0, pass, stone 0 2, stone 0 1"));
    // The last stone leaves a ko point: ko comes before the limit.
    let mut ko = suicides("new 1 3 1, stone 0 0, stone 0 1, pass, pass, resume", STONES - 5);
    ko.extend(lines("pass, resume, stone 0 0, stone 0 2, stone 0 1, stone 0 2, stone 0 0, pass, stone 0 0"));
    // Eyes come before the limit.
    let mut eye = suicides("new 1 3 4, stone 0 0, stone 0 1", STONES - 2);
    eye.pop();
    eye.extend(lines("stone 0 0, stone 0 1, stone 0 2, pass, stone 0 0, stone 0 2"));
    // The next stone would make a board that has a record: superko comes before the limit.
    let mut superko = suicides("new 1 3 8, stone 0 0, stone 0 1", STONES - 4);
    superko.extend(lines("pass, resume, stone 0 0, stone 0 2, stone 0 1, stone 0 0"));
    vec![taking, full, ko, eye, superko]
}
