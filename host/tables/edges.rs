//! More cases with typed answers: both sides of each check's edge, one table for each.

use super::cases::{accepted, p, refused, single, Case};
use super::Formula::{And, False, Or};
use super::{exists, idle, if_else, set, test, wrapped, write, write_with};

/// All of them.
pub fn edges() -> Vec<Case> {
    let mut cases = cut_short();
    cases.extend(counts_and_entries());
    cases.extend(rows());
    cases.extend(small_rows());
    cases.extend(reads());
    cases.extend(order_of_checks());
    cases.extend(strategies());
    cases.extend(faulty_strategies());
    cases.extend(orders());
    cases.extend(rings());
    cases
}

/// P with word `position` changed.
fn changed(position: usize, value: u16) -> Vec<u16> {
    let mut words = p(&[1, 4, 6]);
    words[position] = value;
    words
}

/// P with word `field` (kind, arg, end, from) of row `label` changed.
fn row_changed(label: usize, field: usize, value: u16) -> Vec<u16> {
    changed(6 + 4 * label + field, value)
}

/// P cut after each number of words.
fn cut_short() -> Vec<Case> {
    let whole = p(&[1, 4, 6]);
    let cut = |len: usize| refused(&format!("P cut at {len}"), whole[..len].to_vec(), 1, len);
    (0..whole.len()).map(cut).collect()
}

fn counts_and_entries() -> Vec<Case> {
    let edits: [(&str, usize, u16, u8, usize); 23] = [
        ("V 0", 0, 0, 2, 0),
        ("V 1,024, absent", 0, 1_024, 1, 42),
        ("V 1,025", 0, 1_025, 2, 0),
        ("V 65,535", 0, 65_535, 2, 0),
        ("R 8,192, absent", 3, 8_192, 1, 42),
        ("R 8,193", 3, 8_193, 2, 3),
        ("N 0", 5, 0, 2, 5),
        ("N 4,096, absent", 5, 4_096, 1, 42),
        ("N 4,097", 5, 4_097, 2, 5),
        ("N one more, which takes in section 4", 5, 9, 6, 0),
        ("N two more", 5, 10, 1, 42),
        ("N one less", 5, 7, 6, 0),
        ("S 4,096, absent", 38, 4_096, 1, 42),
        ("S 4,097", 38, 4_097, 2, 38),
        ("S one more", 38, 4, 1, 42),
        ("S one less", 38, 2, 3, 41),
        ("name equal", 2, 40, 4, 2),
        ("name lower", 2, 39, 4, 2),
        ("read V", 4, 2, 5, 4),
        ("read of its own variable", 4, 1, 13, 4),
        ("chosen twice", 40, 1, 9, 1),
        ("chosen descends", 41, 3, 9, 2),
        ("chosen N", 41, 8, 9, 2),
    ];
    let refusal = |&(name, position, value, number, place): &(&str, usize, u16, u8, usize)| {
        refused(name, changed(position, value), number, place)
    };
    edits.iter().map(refusal).collect()
}

const KIND: usize = 0;
const ARG: usize = 1;
const END: usize = 2;
const FROM: usize = 3;

/// Rows of P with one word changed: the row, the word, its new value and the label charged.
const ROW_EDITS: [(usize, usize, u16, usize); 28] = [
    (3, KIND, 7, 3),
    (3, KIND, 65_535, 3),
    (1, KIND, 7, 1),
    (5, KIND, 7, 4),
    (5, KIND, 0, 4),
    (2, KIND, 0, 1),
    (3, KIND, 1, 3),
    (0, KIND, 5, 0),
    (0, ARG, 0, 0),
    (0, ARG, 1, 0),
    (0, ARG, 3, 0),
    (0, ARG, 65_535, 0),
    (1, ARG, 2, 1),
    (5, ARG, 0, 6),
    (5, ARG, 2, 5),
    (7, ARG, 1, 7),
    (7, ARG, 65_535, 7),
    (0, END, 7, 0),
    (0, END, 9, 0),
    (1, END, 2, 0),
    (1, END, 4, 0),
    (2, END, 2, 1),
    (4, END, 8, 3),
    (6, END, 9, 3),
    (7, END, 7, 6),
    (0, FROM, 1, 0),
    (6, FROM, 0, 6),
    (7, FROM, 65_535, 7),
];

fn rows() -> Vec<Case> {
    let refusal = |&(label, field, value, place): &(usize, usize, u16, usize)| {
        let name = format!("row {label}, word {field} made {value}");
        refused(&name, row_changed(label, field, value), 6, place)
    };
    ROW_EDITS.iter().map(refusal).collect()
}

/// A table of two variables with the reads and rows given and nothing chosen.
fn typed(reads: &[u16], rows: &[[u16; 4]]) -> Vec<u16> {
    let mut words = vec![2, 5, 6, reads.len() as u16];
    words.extend(reads);
    words.push(rows.len() as u16);
    words.extend(rows.iter().flatten());
    words.push(0);
    words
}

/// Rows typed in full, refused with 6 at row 0 unless it says otherwise.
fn small_rows() -> Vec<Case> {
    let guard = [[5, 0, 4, 0], [1, 0, 2, 0], [2, 0, 4, 0], [1, 0, 4, 0]];
    let exists_of_none = [[5, 0, 2, 0], [1, 0, 2, 0]];
    let with = |label: usize, row: [u16; 4]| {
        let mut rows = guard;
        rows[label] = row;
        typed(&[], &rows)
    };
    let at_row_0 = [
        ("kind 7 in place of FALSE", typed(&[], &[[7, 0, 1, 0]])),
        ("FALSE with an arg", typed(&[], &[[0, 1, 1, 0]])),
        ("FALSE with a from", typed(&[], &[[0, 0, 1, 1]])),
        ("FALSE that ends early", typed(&[], &[[0, 0, 0, 0]])),
        ("candidate without a star", typed(&[], &[[2, 0, 1, 0]])),
        ("conjunction of nothing", typed(&[], &[[3, 0, 1, 0]])),
        ("exists of a star alone", typed(&[], &exists_of_none)),
        ("exists with an arg", with(0, [5, 1, 4, 0])),
        ("IF with one arm", with(0, [6, 0, 4, 0])),
        ("exists over FALSE", with(1, [0, 0, 2, 0])),
    ];
    let mut cases: Vec<Case> = at_row_0
        .into_iter()
        .map(|(name, words)| refused(name, words, 6, 0))
        .collect();
    cases.push(refused("FALSE alone", typed(&[], &[[0, 0, 1, 0]]), 11, 0));
    cases.push(refused("a sound exists", typed(&[], &guard), 11, 0));
    cases
}

/// The reads of two stars that take two and one.
fn reads() -> Vec<Case> {
    let stars = [[3, 2, 3, 0], [1, 2, 2, 0], [1, 1, 3, 2]];
    vec![
        refused("ascent anew in each star", typed(&[0, 1, 0], &stars), 11, 0),
        refused("reads equal", typed(&[1, 1, 0], &stars), 6, 1),
        refused("reads descend", typed(&[1, 0, 0], &stars), 6, 1),
        refused("a read short", typed(&[0, 1], &stars), 6, 2),
        refused("a read left over", typed(&[0, 1, 0, 0], &stars), 7, 3),
        refused("all reads left over", typed(&[0, 1], &[[0, 0, 1, 0]]), 7, 0),
    ]
}

/// Tables with two faults: the earlier check shows.
fn order_of_checks() -> Vec<Case> {
    let both = |first: (usize, u16), second: (usize, u16)| {
        let mut words = p(&[1, 4, 6]);
        words[first.0] = first.1;
        words[second.0] = second.1;
        words
    };
    let mut extended = p(&[1, 4, 9]);
    extended.push(0);
    let mut longer = p(&[1, 4, 6]);
    longer.push(1);
    let mut leftover = p(&[1, 4, 9]);
    leftover.splice(3..5, [2, 0, 0]);
    let deep_and_loose = {
        let mut words = write(1, &wrapped(64, set(0, &[])));
        words.splice(2..3, [1, 0]);
        words
    };
    let mut deep_and_high = write_with(1, &wrapped(63, set(0, &[])), &[65]);
    deep_and_high.push(7);
    vec![
        refused("3 alone", longer, 3, 42),
        refused("9 before 3", extended, 9, 2),
        refused("7 before 9", leftover, 7, 1),
        refused("7 before 8", deep_and_loose, 7, 0),
        refused("8 before 9", deep_and_high, 8, 64),
        refused("1 before 4", both((2, 3), (0, 50)), 1, 42),
        refused("4 before 2", both((2, 3), (3, 9_000)), 4, 2),
        refused("5 before 6", both((4, 2), (6, 9)), 5, 4),
        refused("6 before a bad S", both((6, 9), (38, 5_000)), 6, 0),
        refused("1 before 9", both((39, 9), (38, 5)), 1, 42),
        refused("the lower row", both((6 + 4 * 3, 9), (6 + 4 * 6, 9)), 6, 3),
    ]
}

/// Accepted strategies, their transitions and their kept labels.
fn strategies() -> Vec<Case> {
    let with_false = And(vec![set(0, &[]), Or(vec![False, test(&[])])]);
    let pairs = And(vec![Or(vec![set(0, &[]); 2]), Or(vec![set(1, &[]); 2])]);
    let idle_reader = And(vec![idle(0, &[0]), set(0, &[]), test(&[0])]);
    let (with_false, pairs) = (write(1, &with_false), write(2, &pairs));
    let first_slowest: [(usize, &[u16], &[u16]); 4] = [
        (0, &[2, 7], &[2, 7]),
        (1, &[2, 9], &[2, 9]),
        (2, &[4, 7], &[4, 7]),
        (3, &[4, 9], &[4, 9]),
    ];
    let idle_reader = write(1, &idle_reader);
    vec![
        single("x' in s", write(1, &set(0, &[])), [1, 2, 1, 1], &[0], &[0]),
        single("FALSE kept", with_false, [1, 6, 1, 1], &[1], &[1, 4, 5]),
        single("idle readers", idle_reader, [1, 6, 1, 1], &[3], &[1, 3, 5]),
        accepted("pairs", pairs, [2, 11, 4, 4], &[2, 4, 7, 9], &first_slowest),
    ]
}

/// Strategies with one fault or two: the earlier check shows.
fn faulty_strategies() -> Vec<Case> {
    let none_and_two = And(vec![set(0, &[]), set(0, &[])]);
    let second_twice = And(vec![set(0, &[]), set(1, &[]), set(2, &[]), set(1, &[])]);
    let ring_and_two = And(vec![set(0, &[0]), set(1, &[]), set(1, &[])]);
    let ring_and_none = And(vec![set(0, &[0]), set(2, &[])]);
    let mut ring_and_many = vec![Or(vec![set(0, &[]), set(0, &[0])])];
    ring_and_many.extend((1..17).map(|variable| Or(vec![set(variable, &[]); 2])));
    let test_chosen = write_with(2, &And(vec![set(0, &[]), test(&[])]), &[1, 3]);
    let star_chosen = write_with(2, &ring_and_two, &[1, 3, 5, 6]);
    vec![
        refused("10 before 11", test_chosen, 10, 3),
        refused("10 before 12 and 13", star_chosen, 10, 6),
        refused("11 before 12", write(2, &none_and_two), 11, 1),
        refused("11 before 13", write(3, &ring_and_none), 11, 1),
        refused("12 at the lowest variable", write(3, &second_twice), 12, 1),
        refused("12 before 13", write(2, &ring_and_two), 12, 1),
        refused("13 before 14", write(17, &And(ring_and_many)), 13, 4),
    ]
}

/// Orders that differ from the labels' own.
fn orders() -> Vec<Case> {
    let back = And(vec![set(0, &[1]), set(1, &[2]), set(2, &[])]);
    let outside = And(vec![exists(&[1], set(0, &[])), Or(vec![set(1, &[]); 2])]);
    let later: [(usize, &[u16], &[u16]); 2] = [(0, &[6, 3], &[3, 6]), (1, &[8, 3], &[3, 8])];
    let (back, outside) = (write(3, &back), write(2, &outside));
    vec![
        single("a chain", back, [3, 7, 3, 1], &[5, 3, 1], &[1, 3, 5]),
        accepted("a guard", outside, [2, 10, 3, 2], &[6, 8, 3], &later),
        arms("arms forwards", [&[], &[0], &[], &[1]], [2, 4, 7, 9]),
        arms("arms backwards", [&[1], &[], &[0], &[]], [4, 2, 9, 7]),
    ]
}

/// Two arms, the first with x and then y, the second with y and then x, and the reads of the
/// four candidates in turn. The arms' labels share no branch, so each arm has its own order.
fn arms(name: &str, reads: [&[usize]; 4], order: [u16; 4]) -> Case {
    let first = And(vec![set(0, reads[0]), set(1, reads[1])]);
    let second = And(vec![set(1, reads[2]), set(0, reads[3])]);
    let words = write(2, &Or(vec![first, second]));
    let transitions: [(usize, &[u16], &[u16]); 2] =
        [(0, &order[..2], &[2, 4]), (1, &order[2..], &[7, 9])];
    accepted(name, words, [2, 11, 4, 2], &order, &transitions)
}

/// Rings, and labels that hang on them.
fn rings() -> Vec<Case> {
    let hanging = And(vec![set(0, &[1]), set(1, &[2]), set(2, &[1])]);
    let twice_removed = And(vec![set(0, &[3]), set(1, &[2]), set(2, &[1]), set(3, &[2])]);
    let before_and_after = [set(0, &[1]), set(1, &[2]), set(2, &[1])];
    let second_ring = [set(3, &[0, 4]), set(4, &[3])];
    let between = And([&before_and_after[..], &second_ring[..]].concat());
    let guard = if_else(&[0], set(0, &[]), set(0, &[]));
    vec![
        refused("a label hangs on a ring", write(3, &hanging), 13, 3),
        refused("two labels hang on a ring", write(4, &twice_removed), 13, 3),
        refused("a label between two rings", write(5, &between), 13, 3),
        refused("an IF reads what its arms choose", write(1, &guard), 13, 2),
    ]
}
