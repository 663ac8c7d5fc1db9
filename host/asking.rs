//! One request put to the two peers and to the archive, with lent buffers that have guard words
//! on both sides, so that a word written where none may be is seen.

use crate::archive;
use crate::peer::composed;
use crate::peer::definition::Reading;
use crate::rng::Rng;

/// The four requests; `len` is the length of the lent slice.
#[derive(Clone, Copy, Debug)]
pub enum Request {
    Judge,
    Order { len: usize },
    Transition { k: usize, len: usize },
    Assignments { k: usize, len: usize },
}

pub enum Speaker<'a> {
    Definition(&'a Reading),
    Composed,
    Archive,
}

impl Speaker<'_> {
    pub fn name(&self) -> &'static str {
        match self {
            Speaker::Definition(_) => "peer by definition",
            Speaker::Composed => "composed peer",
            Speaker::Archive => "archive",
        }
    }
}

/// The answer word and the whole buffer afterwards, guard words included. The transition request
/// fills bytes, the order and assignments requests fill words.
#[derive(Clone, PartialEq)]
pub struct Answer {
    pub word: u64,
    pub words: Vec<u16>,
    pub bytes: Vec<u8>,
}

/// Guard words, or bytes, on each side of a lent slice.
pub const GUARD: usize = 8;

/// A buffer for a request before it is asked; the same `filling` gives the same buffer.
pub fn blank(request: Request, filling: u64) -> Answer {
    let mut rng = Rng::new(filling);
    let mut words = Vec::new();
    let mut bytes = Vec::new();
    match request {
        Request::Judge => {}
        Request::Order { len } | Request::Assignments { len, .. } => {
            words.resize_with(len + 2 * GUARD, || rng.next() as u16);
        }
        Request::Transition { len, .. } => {
            bytes.resize_with(len + 2 * GUARD, || rng.next() as u8);
        }
    }
    Answer {
        word: 0,
        words,
        bytes,
    }
}

/// Asks one speaker about the table.
pub fn ask(speaker: &Speaker, table: &[u16], request: Request, filling: u64) -> Answer {
    let mut answer = blank(request, filling);
    let Answer { words, bytes, .. } = &mut answer;
    answer.word = match request {
        Request::Judge => judge(speaker, table),
        Request::Order { len } => order(speaker, table, &mut words[GUARD..][..len]),
        Request::Transition { k, len } => transition(speaker, table, k, &mut bytes[GUARD..][..len]),
        Request::Assignments { k, len } => {
            assignments(speaker, table, k, &mut words[GUARD..][..len])
        }
    };
    answer
}

fn judge(speaker: &Speaker, table: &[u16]) -> u64 {
    match speaker {
        Speaker::Definition(reading) => archive::judge_word(reading.judge()),
        Speaker::Composed => archive::judge_word(composed::judge(table)),
        Speaker::Archive => archive::judge(table),
    }
}

fn order(speaker: &Speaker, table: &[u16], out: &mut [u16]) -> u64 {
    match speaker {
        Speaker::Definition(reading) => archive::filled_word(reading.order(out)),
        Speaker::Composed => archive::filled_word(composed::order(table, out)),
        Speaker::Archive => archive::order(table, out),
    }
}

fn transition(speaker: &Speaker, table: &[u16], k: usize, out: &mut [u8]) -> u64 {
    match speaker {
        Speaker::Definition(reading) => archive::filled_word(reading.transition(k, out)),
        Speaker::Composed => archive::filled_word(composed::transition(table, k, out)),
        Speaker::Archive => archive::transition(table, k, out),
    }
}

fn assignments(speaker: &Speaker, table: &[u16], k: usize, out: &mut [u16]) -> u64 {
    match speaker {
        Speaker::Definition(reading) => archive::filled_word(reading.assignments(k, out)),
        Speaker::Composed => archive::filled_word(composed::assignments(table, k, out)),
        Speaker::Archive => archive::assignments(table, k, out),
    }
}

/// What is asked of a table: all four requests, with transition numbers below the count and
/// beyond it, and lent slices of the right length, longer and too short. Up to `most_k`
/// transitions are asked, all of them if there are no more; with 0 only one, and none beyond.
/// Of a table without transitions number 0 is asked, which is beyond its count.
pub fn requests(rng: &mut Rng, table: &[u16], most_k: usize) -> Vec<Request> {
    let mut asked = vec![Request::Judge];
    let Ok(counts) = composed::judge(table) else {
        // No count passes the table's length, so that length is room enough for anything.
        let short = rng.below(20);
        let len = rng.pick(&[short, table.len()]);
        let k = rng.pick(&[0, 1, 65_536, usize::MAX]);
        asked.push(Request::Order { len });
        asked.push(Request::Transition { k, len });
        asked.push(Request::Assignments { k, len });
        return asked;
    };
    let len = length(rng, counts.chosen);
    asked.push(Request::Order { len });
    let count = counts.transitions;
    let mut numbers: Vec<usize> = (0..count.min(most_k)).collect();
    if most_k == 0 {
        numbers.push(rng.below(count.max(1)));
    } else {
        if count > most_k {
            numbers.fill_with(|| rng.below(count));
            numbers.extend([0, count - 1]);
        }
        numbers.push(count);
        numbers.push(rng.pick(&[count + 1, 65_536, 1 << 32, usize::MAX]));
    }
    for k in numbers {
        let len = length(rng, counts.rows);
        asked.push(Request::Transition { k, len });
        let len = length(rng, counts.variables);
        asked.push(Request::Assignments { k, len });
    }
    asked
}

/// A length for a lent slice: exact, longer or too short.
fn length(rng: &mut Rng, needed: usize) -> usize {
    match rng.below(6) {
        0 => rng.below(needed.max(1)),
        1 => needed - needed.min(1),
        2 | 3 => needed + rng.between(1, 9),
        _ => needed,
    }
}

/// The refusal number in an answer, 0 for accepted.
pub fn number(word: u64) -> u8 {
    (word >> 56) as u8
}

/// An answer word for people to read; the judge request has its own layout.
fn spoken(word: u64, of_judge: bool) -> String {
    let (number, place) = (number(word), word & 0xFFFF_FFFF);
    if number != 0 {
        return format!("refused {number} {place} ({word:#018x})");
    }
    if !of_judge {
        return format!("filled {word}");
    }
    let field = |from: u32, bits: u32| word >> from & ((1 << bits) - 1);
    let (v, n, s) = (field(42, 11), field(29, 13), field(16, 13));
    format!("accepted {v} {n} {s} {} ({word:#018x})", field(0, 16))
}

/// A request and the answers to it, for people to read.
pub fn dispute(table: &[u16], request: Request, answers: &[(&str, &Answer)]) -> String {
    let of_judge = matches!(request, Request::Judge);
    let words: Vec<String> = table.iter().map(u16::to_string).collect();
    let mut lines = vec![
        format!("disagreement on {request:?}"),
        format!("table of {} words: {}", words.len(), words.join(" ")),
        format!("buffers are shown with {GUARD} guards on each side"),
    ];
    for (name, answer) in answers {
        lines.push(format!("{name}: {}", spoken(answer.word, of_judge)));
        if !answer.words.is_empty() {
            lines.push(format!("{name}, words: {:?}", answer.words));
        }
        if !answer.bytes.is_empty() {
            lines.push(format!("{name}, bytes: {:?}", answer.bytes));
        }
    }
    lines.join("\n")
}
