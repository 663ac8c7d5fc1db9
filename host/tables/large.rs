//! Tables of full size: up to 1,024 variables, 8,192 reads, 4,096 rows, depth 64 and 65,535
//! transitions. Each has a name for the benchmark.

use super::random::{self, Shape};
use super::Formula::{And, Or};
use super::{exists, if_else, named, set, test, write, Formula, Named};
use crate::rng::Rng;

/// A conjunction of the children, filled up with tests to the number of rows.
pub fn filled(mut children: Vec<Formula>, rows: usize) -> Formula {
    let used = 1 + children.iter().map(Formula::rows).sum::<usize>();
    children.extend(vec![test(&[]); rows.saturating_sub(used)]);
    And(children)
}

/// Chosen candidates for the variables `from..to`, each with the reads that `reads` gives.
pub fn chosen(from: usize, to: usize, reads: impl Fn(usize) -> Vec<usize>) -> Vec<Formula> {
    (from..to)
        .map(|variable| set(variable, &reads(variable)))
        .collect()
}

pub fn no_reads(_: usize) -> Vec<usize> {
    Vec::new()
}

pub fn full_size() -> Vec<Named> {
    let back = |v: usize| (v + 1..(v + 9).min(1_024)).collect();
    let forth = |v: usize| (v.saturating_sub(8)..v).collect();
    vec![
        named(
            "1,024 variables, 8 reads each, forwards",
            conjunction(forth),
        ),
        named(
            "1,024 variables, 8 reads each, backwards",
            conjunction(back),
        ),
        named("65,535 transitions", most_transitions()),
        named("two arms in opposite orders", opposite_arms()),
        named("IF ladder of 60 steps", ladder()),
        named("31 guards that each read the level above", guard_levels()),
        named("8,192 reads in 8 tests", all_reads()),
        named(
            "600 IF rows",
            write(600, &And((0..600).map(either).collect())),
        ),
        named("15 IF rows, 32,768 transitions", some_ifs(15)),
        named("16 IF rows, 65,536 transitions", some_ifs(16)),
        named("62 actions", actions(62, 30)),
        named("many branches in one class", one_class()),
    ]
}

fn conjunction(reads: impl Fn(usize) -> Vec<usize>) -> Vec<u16> {
    write(1_024, &filled(chosen(0, 1_024, reads), 4_096))
}

fn most_transitions() -> Vec<u16> {
    let sizes = [3, 5, 17, 257];
    let choice = |v: usize| Or(vec![set(v, &[]); sizes[v]]);
    let mut children: Vec<Formula> = (0..4).map(choice).collect();
    children.extend(chosen(4, 1_024, |v| {
        vec![v % 4, v - 1].split_off((v < 8) as usize)
    }));
    write(1_024, &filled(children, 4_096))
}

fn opposite_arms() -> Vec<u16> {
    let forth = And(chosen(0, 1_000, |v| (v.saturating_sub(1)..v).collect()));
    let back = And(chosen(0, 1_000, |v| (v + 1..(v + 2).min(1_000)).collect()));
    write(1_000, &Or(vec![forth, back]))
}

fn ladder() -> Vec<u16> {
    let arm = || And(chosen(0, 16, |v| (0..v).collect()));
    let step = |inner: Formula, _: usize| if_else(&[], arm(), inner);
    write(16, &(0..60).fold(arm(), step))
}

/// Guard `d` reads the variables that level `d - 1` chooses.
fn guard_levels() -> Vec<u16> {
    let mut inner = None;
    for level in (0..31).rev() {
        let mut children = chosen(33 * level, 33 * level + 33, no_reads);
        children.extend(inner);
        let above: Vec<usize> = (33 * usize::max(level, 1) - 33..33 * level).collect();
        inner = Some(exists(&above, And(children)));
    }
    write(1_023, &inner.unwrap_or(Formula::False))
}

fn all_reads() -> Vec<u16> {
    let all: Vec<usize> = (0..1_024).collect();
    let mut children = chosen(0, 1_024, no_reads);
    children.extend(vec![test(&all); 8]);
    write(1_024, &filled(children, 4_096))
}

fn either(variable: usize) -> Formula {
    if_else(&[], set(variable, &[]), set(variable, &[]))
}

fn some_ifs(count: usize) -> Vec<u16> {
    let mut children: Vec<Formula> = (0..count).map(either).collect();
    children.extend(chosen(count, 1_024, |v| vec![v % count]));
    write(1_024, &filled(children, 4_096))
}

/// One disjunction of `count` actions, each with all variables, a guard and a few tests.
fn actions(count: usize, variables: usize) -> Vec<u16> {
    let action = |_| {
        let inner = And(chosen(1, variables, |v| vec![v / 2]));
        And(vec![test(&[]), set(0, &[]), exists(&[0], inner)])
    };
    write(variables, &Or((0..count).map(action).collect()))
}

fn one_class() -> Vec<u16> {
    let mut children = chosen(0, 500, |v| (v.saturating_sub(3)..v).collect());
    children.extend(vec![Or(vec![test(&[0]), test(&[]), Formula::False]); 700]);
    write(500, &filled(children, 4_096))
}

/// Large random tables, most of them right.
pub fn random_large(rng: &mut Rng) -> Vec<u16> {
    let variables = rng.pick(&[20, 50, 120, 300, 600, 900]);
    let rows = rng.between(2_000, 4_000);
    let ways = rng.pick(&[1, 50, 2_000, 30_000, 200_000]);
    let stray = rng.pick(&[0, 0, 0, 0, 0, 1]);
    let rerank = rng.pick(&[0, 0, 0, 0, 50]);
    let shape = Shape {
        variables,
        rows,
        levels: 64,
        ways,
        stray,
        rerank,
    };
    loop {
        let words = random::table(rng, &shape, 15);
        let words_of_rows = 4 * words[2 + variables + words[1 + variables] as usize] as usize;
        if (4 * 800..=4 * 4_096).contains(&words_of_rows) {
            return words;
        }
    }
}
