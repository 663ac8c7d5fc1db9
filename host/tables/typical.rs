//! Tables of the size that specifications in use have: 300 variables, 2,400 rows, about 400
//! chosen labels, in several shapes.

use super::large::{chosen, filled};
use super::random::{self, Shape};
use super::Formula::{And, Or};
use super::{exists, idle, if_else, named, set, test, write, Formula, Named};
use crate::rng::Rng;

const VARIABLES: usize = 300;
const ROWS: usize = 2_400;

pub fn typical() -> Vec<Named> {
    vec![
        named("typical, two actions", actions(2, 100)),
        named("typical, eleven actions", actions(11, 10)),
        named("typical, three choices of 34", choices(3, 34)),
        named("typical, ten levels of guards", guards()),
        named("typical, IF rows", ifs()),
        named("typical, random", random_shape()),
    ]
}

/// The three variables below.
fn below(variable: usize) -> Vec<usize> {
    (variable.saturating_sub(3)..variable).collect()
}

/// Tests and candidates that are not chosen, each with a few reads.
fn conditions(count: usize) -> Vec<Formula> {
    let one = |i: usize| match i % 4 {
        0 => idle(i % VARIABLES, &[i % 7, 100 + i % 150]),
        1 => Or(vec![test(&[i % VARIABLES]), test(&[])]),
        _ => test(&[i % 90, 90 + i % 200]),
    };
    (0..count).map(one).collect()
}

fn finished(mut children: Vec<Formula>) -> Vec<u16> {
    children.extend(conditions(500));
    write(VARIABLES, &filled(children, ROWS))
}

/// `count` actions over the last `width` variables, the others chosen in common.
fn actions(count: usize, width: usize) -> Vec<u16> {
    let mut children = chosen(0, VARIABLES - width, below);
    let action = |_| {
        let mut parts = conditions(4);
        parts.extend(chosen(VARIABLES - width, VARIABLES, below));
        And(parts)
    };
    children.push(Or((0..count).map(action).collect()));
    finished(children)
}

/// `count` variables with `width` candidates each, on which the others rest.
fn choices(count: usize, width: usize) -> Vec<u16> {
    let mut children: Vec<Formula> = (0..count)
        .map(|variable| Or(vec![set(variable, &[]); width]))
        .collect();
    children.extend(chosen(count, VARIABLES, below));
    finished(children)
}

/// Guards that read the level above them, and one choice for each level.
fn guards() -> Vec<u16> {
    let mut inner = None;
    for level in (0..10).rev() {
        let from = 30 * level;
        let mut children = conditions(8);
        children.extend(chosen(from + 1, from + 30, |v| vec![v - 1]));
        children.push(Or(vec![set(from, &[]); if level < 3 { 34 } else { 1 }]));
        children.extend(inner);
        let above: Vec<usize> = (from.saturating_sub(5)..from).collect();
        inner = Some(exists(&above, And(children)));
    }
    finished(inner.into_iter().collect())
}

/// Seven IF rows whose arms choose 14 variables each.
fn ifs() -> Vec<u16> {
    let mut children = chosen(0, 202, below);
    for i in 0..7 {
        let from = 202 + 14 * i;
        let arm = || And(chosen(from, from + 14, below));
        children.push(if_else(&[i], arm(), arm()));
    }
    finished(children)
}

/// The first random table of about the wanted size.
fn random_shape() -> Vec<u16> {
    let shape = Shape {
        variables: VARIABLES,
        rows: 3_100,
        levels: 64,
        ways: 8,
        stray: 0,
        rerank: 0,
    };
    let mut rng = Rng::new(11);
    loop {
        let words = random::table(&mut rng, &shape, 0);
        let rows_at = 2 + VARIABLES + words[1 + VARIABLES] as usize;
        let rows = words[rows_at] as usize;
        let chosen = words[rows_at + 1 + 4 * rows] as usize;
        if (2_200..2_600).contains(&rows) && (370..450).contains(&chosen) {
            return words;
        }
    }
}
