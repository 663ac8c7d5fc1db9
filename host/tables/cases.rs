//! Document 01's cases, starred and unstarred, with their answers typed in.

use super::Formula::{And, False, Or};
use super::{exists, if_else, named, set, test, wrapped, write, write_with, Formula, Named};

/// What a table must give. Order, assignments and kept labels are those of document 01's
/// requests; a case may leave out transitions when there are many.
pub enum Expected {
    Refused {
        number: u8,
        place: usize,
    },
    Accepted {
        counts: [usize; 4],
        order: Vec<u16>,
        transitions: Vec<Expectation>,
    },
}

/// Transition `k`: its chosen labels in reported order and its kept labels.
pub struct Expectation {
    pub k: usize,
    pub assign: Vec<u16>,
    pub keep: Vec<u16>,
}

pub struct Case {
    pub table: Named,
    pub expected: Expected,
}

pub fn refused(name: &str, words: Vec<u16>, number: u8, place: usize) -> Case {
    Case {
        table: named(name, words),
        expected: Expected::Refused { number, place },
    }
}

/// An accepted case; each transition is its number, its chosen labels and its kept labels.
pub fn accepted(
    name: &str,
    words: Vec<u16>,
    counts: [usize; 4],
    order: &[u16],
    transitions: &[(usize, &[u16], &[u16])],
) -> Case {
    let one = |&(k, assign, keep): &(usize, &[u16], &[u16])| Expectation {
        k,
        assign: assign.to_vec(),
        keep: keep.to_vec(),
    };
    let transitions = transitions.iter().map(one).collect();
    let expected = Expected::Accepted {
        counts,
        order: order.to_vec(),
        transitions,
    };
    Case {
        table: named(name, words),
        expected,
    }
}

/// An accepted case with one transition, whose assignments are then the whole order.
pub fn single(
    name: &str,
    words: Vec<u16>,
    counts: [usize; 4],
    order: &[u16],
    keep: &[u16],
) -> Case {
    accepted(name, words, counts, order, &[(0, order, keep)])
}

/// The words of P, the table of document 01's listing, without its strategy.
const P: [u16; 38] = [
    2, 40, 300, // variables
    1, 0, // reads
    8, // rows
    3, 2, 8, 0, //
    2, 0, 3, 0, //
    1, 0, 3, 0, //
    4, 2, 8, 0, //
    2, 1, 6, 0, //
    1, 1, 6, 0, //
    2, 1, 8, 1, //
    1, 0, 8, 1, //
];

/// P with the strategy given.
pub fn p(strategy: &[u16]) -> Vec<u16> {
    let mut words = P.to_vec();
    words.push(strategy.len() as u16);
    words.extend(strategy);
    words
}

const X: usize = 0;
const Y: usize = 1;

fn four_variables() -> Formula {
    let (a, b, c, d) = (0, 1, 2, 3);
    And(vec![
        Or(vec![
            And(vec![set(a, &[d]), set(c, &[])]),
            And(vec![set(c, &[b]), set(a, &[])]),
        ]),
        Or(vec![
            And(vec![set(b, &[a]), set(d, &[])]),
            And(vec![set(d, &[c]), set(b, &[])]),
        ]),
    ])
}

/// The cases marked with a star.
pub fn starred() -> Vec<Case> {
    let mut cases = starred_accepted();
    cases.extend(starred_refused());
    cases
}

fn twice() -> Formula {
    And(vec![set(X, &[]), set(X, &[])])
}

fn starred_accepted() -> Vec<Case> {
    let class = And(vec![set(X, &[]), Or(vec![test(&[]), test(&[X])])]);
    let either = if_else(&[], set(X, &[]), set(X, &[]));
    let (twice, class) = (write_with(1, &twice(), &[1]), write_with(1, &class, &[1]));
    let either = write_with(1, &either, &[2, 4]);
    let listing: [(usize, &[u16], &[u16]); 2] = [(0, &[1, 4], &[1, 4]), (1, &[1, 6], &[1, 6])];
    let arms: [(usize, &[u16], &[u16]); 2] = [(0, &[2], &[2]), (1, &[4], &[4])];
    vec![
        accepted("P", p(&[1, 4, 6]), [2, 8, 3, 2], &[1, 4, 6], &listing),
        single("x' in s and x' in s", twice, [1, 5, 1, 1], &[1], &[1, 3]),
        single(
            "x' in s and (s or s(x))",
            class,
            [1, 6, 1, 1],
            &[1],
            &[1, 4, 5],
        ),
        accepted("IF", either, [1, 6, 2, 2], &[2, 4], &arms),
    ]
}

fn starred_refused() -> Vec<Case> {
    let ring = And(vec![set(X, &[Y]), set(Y, &[X])]);
    let ring = write_with(2, &ring, &[1, 3]);
    let or_false = write_with(1, &Or(vec![set(X, &[]), False]), &[1]);
    let guard = write_with(1, &exists(&[X], set(X, &[])), &[2]);
    let four = write_with(4, &four_variables(), &[3, 5, 8, 10, 14, 16, 19, 21]);
    let both = write_with(1, &twice(), &[1, 3]);
    vec![
        refused("P with 1 4", p(&[1, 4]), 11, 1),
        refused("P with 1 2 4 6", p(&[1, 2, 4, 6]), 10, 2),
        refused("x' in s(x)", write_with(1, &set(X, &[X]), &[0]), 13, 0),
        refused("x' in s(y) and y' in s(x)", ring, 13, 1),
        refused("x' in s and x' in s, both chosen", both, 12, 0),
        refused("x' in s or FALSE", or_false, 11, 0),
        refused("exists in s(x): x' in s", guard, 13, 2),
        refused("four variables", four, 13, 3),
        refused("no words", Vec::new(), 1, 0),
    ]
}

/// As many disjunctions of chosen candidates as there are sizes, one variable each.
fn disjunctions(sizes: &[usize]) -> Vec<u16> {
    let one = |(variable, &size): (usize, &usize)| Or(vec![set(variable, &[]); size]);
    write(
        sizes.len(),
        &And(sizes.iter().enumerate().map(one).collect()),
    )
}

/// The cases without a star.
pub fn unstarred() -> Vec<Case> {
    let wide = And((0..257).map(|variable| set(variable, &[])).collect());
    let odd: Vec<u16> = (0..257).map(|i| 2 * i + 1).collect();
    let all = write_with(257, &wide, &odd);
    let last_out = write_with(257, &wide, &odd[..256]);
    let round = |count: usize| write_with(1, &wrapped(count, set(X, &[])), &[count as u16]);
    vec![
        single("257 variables", all, [257, 515, 257, 1], &odd, &odd),
        refused("257 variables, the last left out", last_out, 11, 256),
        most_transitions(),
        refused("sixteen disjunctions of two", disjunctions(&[2; 16]), 14, 0),
        single("62 conjunctions", round(62), [1, 64, 1, 1], &[62], &[62]),
        refused("63 conjunctions", round(63), 8, 64),
    ]
}

/// Four disjunctions of 3, 5, 17 and 257; their candidates start at labels 2, 9, 20 and 55.
fn most_transitions() -> Case {
    let words = disjunctions(&[3, 5, 17, 257]);
    let candidates = |first: u16, size: u16| (0..size).map(move |i| first + 2 * i);
    let mut order: Vec<u16> = candidates(2, 3).chain(candidates(9, 5)).collect();
    order.extend(candidates(20, 17).chain(candidates(55, 257)));
    let some: [(usize, &[u16], &[u16]); 5] = [
        (0, &[2, 9, 20, 55], &[2, 9, 20, 55]),
        (1, &[2, 9, 20, 57], &[2, 9, 20, 57]),
        (257, &[2, 9, 22, 55], &[2, 9, 22, 55]),
        (21_845, &[4, 9, 20, 55], &[4, 9, 20, 55]),
        (65_534, &[6, 17, 52, 567], &[6, 17, 52, 567]),
    ];
    accepted(
        "65,535 transitions",
        words,
        [4, 569, 282, 65_535],
        &order,
        &some,
    )
}
