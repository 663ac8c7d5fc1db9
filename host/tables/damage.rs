//! Damaged tables: a sound table with one to three faults put in.

use super::Table;
use crate::rng::Rng;

/// The positions of the four count words, as far as the words reach.
fn counts_at(words: &[u16]) -> Vec<usize> {
    let mut found = Vec::new();
    let mut at = 0;
    for width in [1, 1, 4, 1] {
        if at >= words.len() {
            break;
        }
        found.push(at);
        at += 1 + words[at] as usize * width;
    }
    found
}

/// A sound table's words with faults. Some are only cut short: their remaining words stay behind
/// the slice that is shown.
pub fn damaged(rng: &mut Rng, words: &[u16]) -> Table {
    let mut words = words.to_vec();
    let faults = rng.pick(&[0, 1, 1, 1, 1, 1, 2, 2, 3]);
    for _ in 0..faults {
        let counts = counts_at(&words);
        if counts.len() < 4 {
            any_word(rng, &mut words);
            continue;
        }
        match rng.below(20) {
            0 | 1 => any_word(rng, &mut words),
            2 => drop(words.remove(rng.below(words.len()))),
            3 => insert(rng, &mut words),
            4 | 5 => count(rng, &mut words, &counts),
            6 => words.extend((0..rng.between(1, 3)).map(|i| i as u16)),
            7..=11 => row_word(rng, &mut words, counts[2]),
            12 | 13 => whole_row(rng, &mut words, counts[2]),
            14 => name(rng, &mut words),
            15 | 16 => read(rng, &mut words, counts[1]),
            _ => strategy(rng, &mut words, counts[3]),
        }
    }
    let mut table = Table::whole(words);
    if faults == 0 || rng.chance(5) {
        table.shown = rng.below(table.shown + 1);
    }
    table
}

/// A value near the old one, near a limit, or any.
fn value(rng: &mut Rng, old: u16) -> u16 {
    match rng.below(8) {
        0 => old.wrapping_add(1),
        1 => old.wrapping_sub(1),
        2 => 0,
        3 => rng.pick(&[1_024, 1_025, 4_096, 4_097, 8_192, 8_193]),
        4 => old ^ (1 << rng.below(16)),
        5 => u16::MAX,
        _ => rng.below(9) as u16,
    }
}

fn any_word(rng: &mut Rng, words: &mut [u16]) {
    if !words.is_empty() {
        let at = rng.below(words.len());
        words[at] = value(rng, words[at]);
    }
}

fn insert(rng: &mut Rng, words: &mut Vec<u16>) {
    let at = rng.below(words.len() + 1);
    let new = rng.below(9) as u16;
    words.insert(at, new);
}

fn count(rng: &mut Rng, words: &mut [u16], counts: &[usize]) {
    let at = rng.pick(counts);
    words[at] = match rng.below(4) {
        0 => words[at].wrapping_add(1),
        1 => words[at].wrapping_sub(1),
        _ => value(rng, words[at]),
    };
}

/// One word of one row, sometimes taken from another row.
fn row_word(rng: &mut Rng, words: &mut [u16], rows_at: usize) {
    let rows = words[rows_at] as usize;
    if rows == 0 || rows_at + 4 * rows >= words.len() {
        return;
    }
    let field = rng.below(4);
    let word = |row: usize| rows_at + 1 + 4 * row + field;
    let at = word(rng.below(rows));
    words[at] = match rng.below(3) {
        0 => words[word(rng.below(rows))],
        _ => value(rng, words[at]),
    };
}

/// A row removed, doubled or swapped with another, N kept right.
fn whole_row(rng: &mut Rng, words: &mut Vec<u16>, rows_at: usize) {
    let rows = words[rows_at] as usize;
    if rows < 2 || rows_at + 4 * rows >= words.len() {
        return;
    }
    let start = |row: usize| rows_at + 1 + 4 * row;
    let (one, two) = (start(rng.below(rows)), start(rng.below(rows)));
    match rng.below(3) {
        0 => {
            words.drain(one..one + 4);
            words[rows_at] -= 1;
        }
        1 => {
            let copy = words[one..one + 4].to_vec();
            words.splice(two..two, copy);
            words[rows_at] += 1;
        }
        _ => (0..4).for_each(|i| words.swap(one + i, two + i)),
    }
}

fn name(rng: &mut Rng, words: &mut [u16]) {
    let names = words[0] as usize;
    if names < 2 || names >= words.len() {
        return;
    }
    let at = rng.between(2, names);
    words[at] = match rng.below(3) {
        0 => words[at - 1],
        1 => words[at - 1].wrapping_sub(1),
        _ => words[at - 1].wrapping_add(1),
    };
}

/// A read changed, swapped with its neighbour, added or removed, R kept right.
fn read(rng: &mut Rng, words: &mut Vec<u16>, reads_at: usize) {
    let reads = words[reads_at] as usize;
    let variables = words[0];
    if reads_at + reads >= words.len() {
        return;
    }
    let at = reads_at + 1 + rng.below(reads.max(1));
    match rng.below(6) {
        0 if reads > 0 => words[at] = variables,
        1 if reads > 0 => words[at] = variables.wrapping_sub(1),
        2 if reads > 1 && at > reads_at + 1 => words.swap(at, at - 1),
        3 if reads > 1 && at > reads_at + 1 => words[at] = words[at - 1],
        4 if reads > 0 => {
            words.remove(at);
            words[reads_at] -= 1;
        }
        _ => {
            words.insert(
                reads_at + 1 + reads,
                rng.below(variables.max(1) as usize) as u16,
            );
            words[reads_at] += 1;
        }
    }
}

/// A chosen label changed, swapped, added or removed, S kept right.
fn strategy(rng: &mut Rng, words: &mut Vec<u16>, chosen_at: usize) {
    let chosen = words[chosen_at] as usize;
    let last = chosen_at + chosen;
    if last >= words.len() {
        return;
    }
    let label = rng.below(30) as u16;
    if chosen == 0 {
        words.insert(chosen_at + 1, label);
        words[chosen_at] += 1;
        return;
    }
    let at = rng.between(chosen_at + 1, last);
    match rng.below(6) {
        0 => words[at] = words[at].wrapping_add(1),
        1 => words[at] = label,
        2 => words[at] = words[last],
        3 if at < last => words.swap(at, last),
        4 => {
            words.remove(at);
            words[chosen_at] -= 1;
        }
        _ => {
            let place = (at..=last).find(|&i| words[i] >= label).unwrap_or(last + 1);
            words.insert(place, label);
            words[chosen_at] += 1;
        }
    }
}
