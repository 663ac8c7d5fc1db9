//! Tables with a wanted number of transitions, most of them close to 65,535.

use super::Formula::{And, Or};
use super::{if_else, set, write, Formula};
use crate::rng::Rng;

/// A table whose number of transitions lies on both sides of the most allowed.
pub fn near_the_most(rng: &mut Rng) -> Vec<u16> {
    let variables = rng.between(2, 6);
    let near = rng.between(60_000, 71_000);
    let count = rng.pick(&[65_534, 65_535, 65_536, 65_537, near]);
    let all: Vec<usize> = (0..variables).collect();
    write(variables, &with_keys(rng, &all, count))
}

/// A formula with exactly `count` keys that chooses each of the variables on each branch. A
/// product of two parts gives most of them, a second arm the remainder.
fn with_keys(rng: &mut Rng, variables: &[usize], count: usize) -> Formula {
    let (first, rest) = (variables[0], &variables[1..]);
    if rest.is_empty() {
        return one_variable(rng, first, count);
    }
    let even = (count as f64).powf(1.0 / variables.len() as f64) as usize;
    let factor = rng
        .between(even.max(2) / 2, even.max(1) * 2)
        .clamp(1, count);
    let mut parts = vec![
        one_variable(rng, first, factor),
        with_keys(rng, rest, count / factor),
    ];
    rng.shuffle(&mut parts);
    let product = And(parts);
    if count % factor == 0 {
        return product;
    }
    let mut arms = vec![product, with_keys(rng, variables, count % factor)];
    rng.shuffle(&mut arms);
    Or(arms)
}

/// `count` chosen candidates of one variable, one of them on each branch. Now and then a
/// candidate reads the variable below, which is ranked lower.
fn one_variable(rng: &mut Rng, variable: usize, count: usize) -> Formula {
    let candidate = |rng: &mut Rng| match rng.chance(5) {
        true => set(
            variable,
            &(variable.saturating_sub(1)..variable).collect::<Vec<_>>(),
        ),
        false => set(variable, &[]),
    };
    match (count, rng.below(4)) {
        (1, _) => candidate(rng),
        (4.., 0) => {
            let part = rng.between(1, count - 1);
            let yes = one_variable(rng, variable, part);
            if_else(&[], yes, one_variable(rng, variable, count - part))
        }
        _ => Or((0..count).map(|_| candidate(rng)).collect()),
    }
}
