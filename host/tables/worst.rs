//! Tables that are hard on the order: many pairs to look at, long chains, many rings, and labels
//! that no order can place although they are on no ring.

use super::large::{chosen, filled, no_reads};
use super::Formula::{And, Or};
use super::{exists, if_else, named, set, write, Formula, Named};

pub fn worst() -> Vec<Named> {
    let mut tables = crowded();
    tables.extend(apart());
    tables.extend(chains());
    tables.extend(rings());
    tables.extend(hangers());
    tables
}

/// `count` guards, each of which reads `reads`, around a formula.
fn guarded(count: usize, reads: &[usize], formula: Formula) -> Formula {
    (0..count).fold(formula, |inner, _| exists(reads, inner))
}

/// One variable with very many labels, no two on one branch, that all the others rest on.
fn crowded() -> Vec<Named> {
    let many = |count: usize| Or(vec![set(0, &[]); count]);
    let readers = |to: usize| And(chosen(1, to, |_| vec![0]));
    let guards = |to: usize| guarded(60, &[0], And(chosen(1, to, no_reads)));
    let ladder = (0..55).fold(set(1, &[0]), |no, _| {
        if_else(&[0], guarded(4, &[0], set(1, &[0])), no)
    });
    vec![
        named(
            "1,000 labels, then 60 guards",
            write(901, &And(vec![many(1_000), guards(901)])),
        ),
        named(
            "60 guards, then 1,000 labels",
            write(901, &And(vec![guards(901), many(1_000)])),
        ),
        named(
            "1,000 labels, 1,000 readers",
            write(1_001, &And(vec![many(1_000), readers(1_001)])),
        ),
        named(
            "1,000 readers, 1,000 labels",
            write(1_001, &And(vec![readers(1_001), many(1_000)])),
        ),
        named(
            "257 labels, 255 that read them",
            write(2, &And(vec![Or(vec![set(1, &[0]); 255]), many(257)])),
        ),
        named(
            "1,000 labels, 56 IF guards",
            write(2, &And(vec![ladder, many(1_000)])),
        ),
        named("59 guards of 138 reads", long_guards()),
    ]
}

/// Guards whose reads, taken together, are nearly as many as a table can have, around nearly as
/// many chosen labels as it can have.
fn long_guards() -> Vec<u16> {
    let read: Vec<usize> = (0..138).collect();
    let mut inside = chosen(138, 1_023, no_reads);
    inside.push(Or(vec![set(1_023, &[]); 900]));
    let mut children = vec![guarded(59, &read, And(inside))];
    children.extend(chosen(0, 138, no_reads));
    write(1_024, &And(children))
}

/// Arms in which a variable is read whose other labels all lie in other arms.
fn apart() -> Vec<Named> {
    let arms = |count: usize, guards: usize| {
        let arm = And(vec![guarded(guards, &[0], set(1, &[])), set(0, &[])]);
        write(2, &Or(vec![arm; count]))
    };
    let copy = |i: usize| four_variables(4 * i, i == 89);
    vec![
        named("500 arms of one guard", arms(500, 1)),
        named("160 arms of ten guards", arms(160, 10)),
        named("32 arms of 60 guards", arms(32, 60)),
        named(
            "the four-variable case 90 times",
            write(360, &And((0..90).map(copy).collect())),
        ),
    ]
}

/// Document 01's four-variable case on the variables from `a` on, or the same without the first
/// candidate's read, which leaves no ring.
fn four_variables(a: usize, ring: bool) -> Formula {
    let (b, c, d) = (a + 1, a + 2, a + 3);
    let first = if ring { set(a, &[d]) } else { set(a, &[]) };
    let left = [
        And(vec![first, set(c, &[])]),
        And(vec![set(c, &[b]), set(a, &[])]),
    ];
    let right = [
        And(vec![set(b, &[a]), set(d, &[])]),
        And(vec![set(d, &[c]), set(b, &[])]),
    ];
    And(vec![Or(left.to_vec()), Or(right.to_vec())])
}

fn chains() -> Vec<Named> {
    let back = |v: usize| (v + 1..(v + 2).min(1_024)).collect();
    let pair = |v: usize| {
        let next: Vec<usize> = (v + 1..(v + 2).min(680)).collect();
        Or(vec![set(v, &next), set(v, &next)])
    };
    vec![
        named(
            "a chain of 1,024 backwards",
            write(1_024, &And(chosen(0, 1_024, back))),
        ),
        named(
            "a chain of 680 pairs",
            write(680, &And((0..680).map(pair).collect())),
        ),
        named(
            "29 levels of guards, outermost last",
            write(1_015, &levels(29, 35)),
        ),
        named("a chain down 62 conjunctions", write(992, &down(62, 16))),
    ]
}

/// Conjunctions one inside the other, each with `width` candidates before the next; every
/// candidate reads the variable after its own, so the order goes from the innermost outwards.
fn down(count: usize, width: usize) -> Formula {
    let mut inner = None;
    for level in (0..count).rev() {
        let from = width * level;
        let mut children = chosen(from, from + width, |v| {
            (v + 1..(v + 2).min(count * width)).collect()
        });
        children.extend(inner);
        inner = Some(And(children));
    }
    inner.unwrap_or(Formula::False)
}

/// Each level's guard reads what the level around it chooses; inner levels come first, so the
/// labels are placed from the last to the first, each after all of the outer levels.
fn levels(count: usize, width: usize) -> Formula {
    let mut inner = None;
    for level in (0..count).rev() {
        let from = width * level;
        let mut children: Vec<Formula> = inner.into_iter().collect();
        children.extend(chosen(from, from + width, no_reads));
        let above: Vec<usize> = (from.saturating_sub(width)..from).collect();
        inner = Some(exists(&above, And(children)));
    }
    inner.unwrap_or(Formula::False)
}

fn rings() -> Vec<Named> {
    let all: Vec<usize> = (0..1_000).collect();
    let half: Vec<usize> = (0..500).collect();
    let giant = chosen(0, 1_024, |v| vec![(v + 1) % 1_024]);
    let twos = chosen(0, 1_024, |v| vec![v ^ 1]);
    let itself = exists(&all, And(chosen(0, 1_000, no_reads)));
    let lower = exists(&half, And(chosen(500, 1_000, no_reads)));
    let mut upper = chosen(0, 499, no_reads);
    upper.push(set(499, &[999]));
    let last_two = And(vec![lower, And(upper)]);
    vec![
        named("one ring of 1,024", write(1_024, &And(giant))),
        named("512 rings of two", write(1_024, &filled(twos, 4_096))),
        named("a guard that reads all it holds", write(1_000, &itself)),
        named(
            "half rests on half, one ring at the end",
            write(1_000, &last_two),
        ),
    ]
}

/// Labels that hang on a ring or lie between two, lower than any label on a ring.
fn hangers() -> Vec<Named> {
    let hanging = chosen(0, 1_024, |v| vec![if v < 1_023 { v + 1 } else { 1_022 }]);
    let between = chosen(0, 1_004, |v| match v {
        1_000 | 1_002 => vec![v + 1],
        1_001 => vec![1_000],
        1_003 => vec![0, 1_002],
        _ => vec![v + 1],
    });
    let fan = chosen(0, 1_002, |v| match v {
        1_000 => vec![1_001],
        1_001 => vec![1_000],
        _ => vec![1_000, 1_001],
    });
    vec![
        named("1,022 labels hang on a ring", write(1_024, &And(hanging))),
        named(
            "1,000 labels between two rings",
            write(1_004, &And(between)),
        ),
        named(
            "1,000 labels on one ring, side by side",
            write(1_002, &And(fan)),
        ),
    ]
}
