//! More cases with typed answers: counts, labels, variables and reads at the limits of a table.

use super::cases::{accepted, refused, single, Case};
use super::large::{chosen, filled, no_reads};
use super::Formula::{And, Or};
use super::{exists, set, test, wrapped, write, write_with, Formula};

/// All of them.
pub fn extremes() -> Vec<Case> {
    let mut cases = full_counts();
    cases.extend(wide_reads());
    cases.extend(last_variable());
    cases.extend(most_chosen());
    cases.extend(last_read());
    cases
}

/// Eight tests that take 8,192 reads.
fn all_reads() -> Vec<Formula> {
    let all: Vec<usize> = (0..1_024).collect();
    vec![test(&all); 8]
}

/// The longest table, every count at its most: 29,700 words. All labels are chosen, the root too,
/// which is no candidate.
pub fn longest_refused() -> Vec<u16> {
    let labels: Vec<u16> = (0..4_096).collect();
    write_with(1_024, &filled(all_reads(), 4_096), &labels)
}

/// The longest accepted table, 27,651 words: 1,024 variables, 8,192 reads, 4,096 rows and 2,047
/// chosen labels. Variables 1 to 1,022 read the one before, the arms of the last the first ones.
pub fn longest_accepted() -> Vec<u16> {
    let mut children = chosen(0, 1_023, |v| (v.saturating_sub(1)..v).collect());
    let arm = |i: usize| {
        let reads: Vec<usize> = (0..7 + (i < 2) as usize).collect();
        set(1_023, &reads)
    };
    children.push(Or((0..1_024).map(arm).collect()));
    write(1_024, &And(children))
}

/// Every count at its limit, and depth at its limit.
fn full_counts() -> Vec<Case> {
    let readers = filled(all_reads(), 4_096);
    let wide = filled(chosen(0, 1_024, no_reads), 4_096);
    let odd: Vec<u16> = (0..1_024).map(|i| 2 * i + 1).collect();
    let keep: Vec<u16> = odd.iter().copied().chain(2_049..4_096).collect();
    let counts = [1_024, 4_096, 1_024, 1];
    let deep = |count: usize, formula: Formula| write(1, &wrapped(count, formula));
    let deep_guard = deep(63, exists(&[], test(&[])));
    vec![
        refused("29,700 words", longest_refused(), 10, 0),
        refused("nothing chosen", write(1_024, &readers), 11, 0),
        single("1,024 variables", write(1_024, &wide), counts, &odd, &keep),
        refused("a test at depth 64", deep(63, test(&[])), 11, 0),
        refused("a test at depth 65", deep(64, test(&[])), 8, 64),
        refused("a guard at depth 65", deep_guard, 8, 64),
    ]
}

/// 300 variables, of which the first reads number 256 and number 299 reads number 43: positions
/// that a byte can't hold apart from 0 and 43.
fn wide_reads() -> Vec<Case> {
    let reads = |variable: usize| match variable {
        0 => vec![256],
        299 => vec![43],
        _ => Vec::new(),
    };
    let wide = And(chosen(0, 300, reads));
    let odd: Vec<u16> = (0..300).map(|i| 2 * i + 1).collect();
    let mut order: Vec<u16> = odd[1..=256].to_vec();
    order.push(1);
    order.extend(&odd[257..]);
    let name = "reads beyond a byte";
    let counts = [300, 601, 300, 1];
    vec![single(name, write(300, &wide), counts, &order, &odd)]
}

/// The labels of `count` candidates that follow each other, the first at label `first`.
fn candidates(first: u16, count: u16) -> impl Iterator<Item = u16> {
    (0..count).map(move |i| first + 2 * i)
}

/// Variable 1,023 of 1,024 is the only one at fault.
fn last_variable() -> Vec<Case> {
    let all = And(chosen(0, 1_024, no_reads));
    let but_last: Vec<u16> = candidates(1, 1_023).collect();
    let with = |last: Formula| {
        let mut children = chosen(0, 1_023, no_reads);
        children.push(last);
        write(1_024, &And(children))
    };
    let left_out = write_with(1_024, &all, &but_last);
    let on_one_branch = with(Or(vec![set(1_023, &[]), test(&[])]));
    let twice = with(And(vec![set(1_023, &[]), set(1_023, &[])]));
    vec![
        refused("variable 1,023 left out", left_out, 11, 1_023),
        refused("variable 1,023 on one branch", on_one_branch, 11, 1_023),
        refused("variable 1,023 twice", twice, 12, 1_023),
    ]
}

/// 1,024 variables in 4,096 rows: `first` for variable 0, candidates of the next 1,022, and 1,024
/// arms for the last variable, `last` at their end. All 2,047 candidates are chosen.
fn crowd(first: Formula, last: Formula) -> Vec<u16> {
    let mut children = vec![first];
    children.extend(chosen(1, 1_023, no_reads));
    let mut arms = vec![set(1_023, &[]); 1_023];
    arms.push(last);
    children.push(Or(arms));
    write(1_024, &And(children))
}

/// 2,047 chosen labels: more than that no accepted table has.
fn most_chosen() -> Vec<Case> {
    let single_variable = write(1, &Or(vec![set(0, &[]); 2_047]));
    let of_one: Vec<u16> = candidates(1, 2_047).collect();
    let ends: [(usize, &[u16], &[u16]); 2] = [(0, &[1], &[1]), (2_046, &[4_093], &[4_093])];
    let common: Vec<u16> = candidates(3, 1_022).collect();
    let arms: Vec<u16> = candidates(2_048, 1_024).collect();
    let ascending = [&[1], &common[..], &arms[..]].concat();
    let first_last = [&common[..], &arms[..], &[1]].concat();
    let last_arm = [&[1], &common[..], &[4_094]].concat();
    let last_arm_first_last = [&common[..], &[4_094, 1]].concat();
    let counts = [1_024, 4_096, 2_047, 1_024];
    let longest = longest_accepted();
    let waiting = crowd(set(0, &[1_023]), set(1_023, &[]));
    let ring = crowd(set(0, &[1_023]), set(1_023, &[0]));
    let of_longest: [(usize, &[u16], &[u16]); 1] = [(1_023, &last_arm, &last_arm)];
    let of_waiting: [(usize, &[u16], &[u16]); 1] = [(1_023, &last_arm_first_last, &last_arm)];
    vec![
        accepted(
            "2,047 chosen, one variable",
            single_variable,
            [1, 4_095, 2_047, 2_047],
            &of_one,
            &ends,
        ),
        accepted("27,651 words", longest, counts, &ascending, &of_longest),
        accepted(
            "the first waits for the last",
            waiting,
            counts,
            &first_last,
            &of_waiting,
        ),
        refused("first and last wait for each other", ring, 13, 1),
    ]
}

/// Eight tests that take all reads but `left`, and then `children`.
fn after_reads(left: usize, mut children: Vec<Formula>) -> Vec<u16> {
    let all: Vec<usize> = (0..1_024).collect();
    let mut tests = vec![test(&all); 7];
    tests.push(test(&all[left..]));
    tests.append(&mut children);
    write(1_024, &And(tests))
}

/// Read 8,191 of 8,192, the last that a table can have, decides the order.
fn last_read() -> Vec<Case> {
    let mut waiting = vec![set(0, &[1_023])];
    waiting.extend(chosen(1, 1_024, no_reads));
    let mut order: Vec<u16> = candidates(11, 1_023).collect();
    order.push(9);
    let keep: Vec<u16> = (1..9).chain(candidates(9, 1_024)).collect();
    let mut ring = vec![set(1_023, &[0]), set(0, &[1_023])];
    ring.extend(chosen(1, 1_023, no_reads));
    let (waiting, ring) = (after_reads(1, waiting), after_reads(2, ring));
    let counts = [1_024, 2_057, 1_024, 1];
    vec![
        single(
            "label 9 waits by read 8,191",
            waiting,
            counts,
            &order,
            &keep,
        ),
        refused("a ring by reads 8,190 and 8,191", ring, 13, 9),
    ]
}
