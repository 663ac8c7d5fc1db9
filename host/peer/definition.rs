//! The peer's first way: the definitions of document 01 and of the paper, word for word.
//!
//! Branches are listed as sets of labels, frozen sets are the least solution of the paper's
//! Table 1, "before" is looked up on every branch, cycles come from the transitive closure, and
//! a transition's kept labels are the union of its class.

mod check;

use crate::peer::{refuse, Counts, Refusal, MOST_TRANSITIONS};
use check::{check, Table};
use std::collections::{BTreeMap, BTreeSet};

/// A branch: its labels, ascending.
type Branch = Vec<usize>;

struct Transition {
    key: Vec<usize>,
    kept: BTreeSet<usize>,
}

struct Accepted {
    variables: usize,
    rows: usize,
    order: Vec<usize>,
    transitions: Vec<Transition>,
}

/// One table, judged once; the four requests read from it.
pub struct Reading(Result<Accepted, Refusal>);

impl Reading {
    /// Judges the table. None if it has more than `most_branches` branches, too many to list.
    pub fn of(words: &[u16], most_branches: usize) -> Option<Reading> {
        let table = match check(words) {
            Ok(table) => table,
            Err(refusal) => return Some(Reading(Err(refusal))),
        };
        if let Some(&label) = table
            .strategy
            .iter()
            .find(|&&label| table.rows[label].kind != 2)
        {
            return Some(Reading(refuse(10, label)));
        }
        if table.branch_count(0) > most_branches {
            return None;
        }
        Some(Reading(judge(&table)))
    }

    pub fn judge(&self) -> Result<Counts, Refusal> {
        let accepted = self.0.as_ref().map_err(|refusal| *refusal)?;
        Ok(Counts {
            variables: accepted.variables,
            rows: accepted.rows,
            chosen: accepted.order.len(),
            transitions: accepted.transitions.len(),
        })
    }

    pub fn order(&self, out: &mut [u16]) -> Result<usize, Refusal> {
        let accepted = self.0.as_ref().map_err(|refusal| *refusal)?;
        fill(&accepted.order, out)
    }

    pub fn transition(&self, k: usize, out: &mut [u8]) -> Result<usize, Refusal> {
        let (accepted, transition) = self.transition_asked(k)?;
        if out.len() < accepted.rows {
            return refuse(16, accepted.rows);
        }
        for (label, mark) in out[..accepted.rows].iter_mut().enumerate() {
            *mark = transition.kept.contains(&label) as u8;
        }
        Ok(accepted.rows)
    }

    pub fn assignments(&self, k: usize, out: &mut [u16]) -> Result<usize, Refusal> {
        let (accepted, transition) = self.transition_asked(k)?;
        let in_key = |label: &usize| transition.key.contains(label);
        let chosen: Vec<usize> = accepted.order.iter().copied().filter(in_key).collect();
        fill(&chosen, out)
    }

    /// Refusals 15 and 18.
    fn transition_asked(&self, k: usize) -> Result<(&Accepted, &Transition), Refusal> {
        let accepted = self.0.as_ref().map_err(|refusal| *refusal)?;
        let Some(transition) = accepted.transitions.get(k) else {
            return refuse(15, accepted.transitions.len());
        };
        if transition.key.len() != accepted.variables {
            return refuse(18, k);
        }
        Ok((accepted, transition))
    }
}

/// Fills the first words of `out` with the labels, or refuses with 16 and writes nothing.
fn fill(labels: &[usize], out: &mut [u16]) -> Result<usize, Refusal> {
    if out.len() < labels.len() {
        return refuse(16, labels.len());
    }
    for (place, &label) in out.iter_mut().zip(labels) {
        *place = label as u16;
    }
    Ok(labels.len())
}

/// Refusals 11 to 14 of a table whose chosen labels are all candidates.
fn judge(table: &Table) -> Result<Accepted, Refusal> {
    let branches = table.branches(0);
    table.minimal_covering(&branches)?;
    let before = before(table, &branches);
    if let Some(index) = lowest_on_a_cycle(&before) {
        return refuse(13, table.strategy[index]);
    }
    let order = reported_order(&before);
    let mut classes: BTreeMap<Vec<usize>, BTreeSet<usize>> = BTreeMap::new();
    for branch in &branches {
        classes.entry(table.key(branch)).or_default().extend(branch);
    }
    if classes.len() > MOST_TRANSITIONS {
        return refuse(14, 0);
    }
    let transition = |(key, kept)| Transition { key, kept };
    Ok(Accepted {
        variables: table.variables,
        rows: table.rows.len(),
        order: order.iter().map(|&index| table.strategy[index]).collect(),
        transitions: classes.into_iter().map(transition).collect(),
    })
}

impl Table {
    /// How many branches a row has, counted only to know whether they can be listed.
    fn branch_count(&self, label: usize) -> usize {
        let counts = |from: usize| -> Vec<usize> {
            self.children(label)[from..]
                .iter()
                .map(|&child| self.branch_count(child))
                .collect()
        };
        match self.rows[label].kind {
            0..=2 => 1,
            3 => counts(0).into_iter().fold(1, usize::saturating_mul),
            4 => counts(0).into_iter().fold(0, usize::saturating_add),
            _ => counts(1).into_iter().fold(0, usize::saturating_add),
        }
    }

    /// The branches of a row.
    fn branches(&self, label: usize) -> Vec<Branch> {
        let children = self.children(label);
        let of_any = |rows: &[usize]| rows.iter().flat_map(|&row| self.branches(row)).collect();
        match self.rows[label].kind {
            0..=2 => vec![vec![label]],
            3 => children.iter().fold(vec![Vec::new()], |joined, &child| {
                let added = self.branches(child);
                joined
                    .iter()
                    .flat_map(|one| added.iter().map(|two| join(one, two)))
                    .collect()
            }),
            4 => of_any(&children),
            _ => of_any(&children[1..]),
        }
    }

    /// Definition 2, counted on every branch: refusals 11 and 12.
    fn minimal_covering(&self, branches: &[Branch]) -> Result<(), Refusal> {
        let counted = |variable: usize, wrong: fn(usize) -> bool| {
            branches
                .iter()
                .any(|branch| wrong(self.chosen_on(branch, variable)))
        };
        if let Some(variable) = (0..self.variables).find(|&v| counted(v, |count| count == 0)) {
            return refuse(11, variable);
        }
        if let Some(variable) = (0..self.variables).find(|&v| counted(v, |count| count >= 2)) {
            return refuse(12, variable);
        }
        Ok(())
    }

    fn is_chosen(&self, label: usize) -> bool {
        self.strategy.binary_search(&label).is_ok()
    }

    /// How many chosen labels for the variable the branch holds.
    fn chosen_on(&self, branch: &Branch, variable: usize) -> usize {
        let counts = |label: &&usize| {
            let row = &self.rows[**label];
            row.kind == 2 && row.arg == variable && self.is_chosen(**label)
        };
        branch.iter().filter(counts).count()
    }

    /// The key of a branch: its chosen labels, ascending.
    fn key(&self, branch: &Branch) -> Vec<usize> {
        branch
            .iter()
            .copied()
            .filter(|&label| self.is_chosen(label))
            .collect()
    }

    /// The frozen set of every label: the least solution of Table 1, reached from the reads of
    /// each star by adding what a constraint still lacks until none lacks anything.
    fn frozen(&self) -> Vec<BTreeSet<usize>> {
        let reads = |row: &check::Row| match row.kind {
            1 => self.reads[row.from..row.from + row.arg]
                .iter()
                .copied()
                .collect(),
            _ => BTreeSet::new(),
        };
        let mut frozen: Vec<BTreeSet<usize>> = self.rows.iter().map(reads).collect();
        let inclusions = self.inclusions();
        let mut changed = true;
        while changed {
            changed = false;
            for &(small, large) in &inclusions {
                let lacking: Vec<usize> =
                    frozen[small].difference(&frozen[large]).copied().collect();
                changed |= !lacking.is_empty();
                frozen[large].extend(lacking);
            }
        }
        frozen
    }

    /// Table 1's inclusions as pairs of labels, the smaller set first; an equation is two.
    fn inclusions(&self) -> Vec<(usize, usize)> {
        let mut pairs = Vec::new();
        for label in 0..self.rows.len() {
            let children = self.children(label);
            match self.rows[label].kind {
                2 => pairs.extend([(label, children[0]), (children[0], label)]),
                3 | 4 => pairs.extend(children.iter().map(|&child| (label, child))),
                5 | 6 => {
                    pairs.push((label, children[0]));
                    pairs.extend(children[1..].iter().map(|&child| (children[0], child)));
                }
                _ => {}
            }
        }
        pairs
    }
}

fn join(one: &Branch, two: &Branch) -> Branch {
    let labels: BTreeSet<usize> = one.iter().chain(two).copied().collect();
    labels.into_iter().collect()
}

/// "Before" among the chosen labels, by their index in the strategy: `before[j]` holds each i
/// whose variable is frozen at j and which some branch holds together with j.
fn before(table: &Table, branches: &[Branch]) -> Vec<Vec<bool>> {
    let frozen = table.frozen();
    let together = |i: usize, j: usize| {
        let holds = |branch: &Branch, label| branch.binary_search(&label).is_ok();
        branches
            .iter()
            .any(|branch| holds(branch, i) && holds(branch, j))
    };
    let of = |j: usize| {
        let comes = |&i: &usize| frozen[j].contains(&table.rows[i].arg) && together(i, j);
        table.strategy.iter().map(comes).collect()
    };
    table.strategy.iter().map(|&j| of(j)).collect()
}

/// The lowest index that reaches itself in the transitive closure of "before".
fn lowest_on_a_cycle(before: &[Vec<bool>]) -> Option<usize> {
    let mut reaches = before.to_vec();
    for middle in 0..reaches.len() {
        let through = reaches[middle].clone();
        for row in reaches.iter_mut().filter(|row| row[middle]) {
            for (place, &further) in row.iter_mut().zip(&through) {
                *place |= further;
            }
        }
    }
    (0..reaches.len()).find(|&i| reaches[i][i])
}

/// At each step the lowest index left that has no unplaced one before it.
fn reported_order(before: &[Vec<bool>]) -> Vec<usize> {
    let mut left: Vec<usize> = (0..before.len()).collect();
    let mut order = Vec::new();
    while !left.is_empty() {
        let free = |&j: &usize| left.iter().all(|&i| !before[j][i]);
        let next = left
            .iter()
            .position(free)
            .expect("no cycle, so some label is free");
        order.push(left.remove(next));
    }
    order
}
