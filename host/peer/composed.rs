//! The peer's second way: the same answers from the structure of the formula, for tables of any
//! size. No branch is ever listed.

mod check;
mod cover;
mod order;

use crate::peer::{refuse, Counts, Refusal, MOST_TRANSITIONS};
use check::{Table, AND, CANDIDATE, IF, OR};
use cover::ByVariable;
use order::Before;

/// A judged table: the reported order and for each row the number of distinct keys.
pub struct Judged<'a> {
    table: Table<'a>,
    chosen_below: Vec<u16>,
    pub order: Vec<u16>,
    keys: Vec<u32>,
}

pub fn judge(words: &[u16]) -> Result<Counts, Refusal> {
    Ok(judged(words)?.counts())
}

pub fn order(words: &[u16], out: &mut [u16]) -> Result<usize, Refusal> {
    let judged = judged(words)?;
    let needed = judged.order.len();
    let Some(place) = out.get_mut(..needed) else {
        return refuse(16, needed);
    };
    place.copy_from_slice(&judged.order);
    Ok(needed)
}

pub fn transition(words: &[u16], k: usize, out: &mut [u8]) -> Result<usize, Refusal> {
    let judged = judged(words)?;
    let kept = judged.kept(k)?;
    let Some(place) = out.get_mut(..kept.len()) else {
        return refuse(16, kept.len());
    };
    place.copy_from_slice(&kept);
    Ok(kept.len())
}

pub fn assignments(words: &[u16], k: usize, out: &mut [u16]) -> Result<usize, Refusal> {
    let judged = judged(words)?;
    let assigned = judged.assigned(&judged.kept(k)?);
    let Some(place) = out.get_mut(..assigned.len()) else {
        return refuse(16, assigned.len());
    };
    place.copy_from_slice(&assigned);
    Ok(assigned.len())
}

/// Refusals 1 to 14.
pub fn judged(words: &[u16]) -> Result<Judged<'_>, Refusal> {
    let table = check::table(words)?;
    let is_candidate = |label: u16| table.rows[label as usize].kind == CANDIDATE;
    if let Some(&label) = table.strategy.iter().find(|&&label| !is_candidate(label)) {
        return refuse(10, label as usize);
    }
    let by_variable = ByVariable::of(&table);
    cover::check(&table, &by_variable)?;
    let chosen_below = chosen_below(&table);
    let order = match Before::of(&table, &by_variable, &chosen_below).order() {
        Ok(order) => order
            .iter()
            .map(|&index| table.strategy[index as usize])
            .collect(),
        Err(index) => return refuse(13, table.strategy[index] as usize),
    };
    let mut keys = vec![0; table.rows.len()];
    count_keys(&table, &chosen_below, 0, &mut keys);
    if keys[0] as usize > MOST_TRANSITIONS {
        return refuse(14, 0);
    }
    Ok(Judged {
        table,
        chosen_below,
        order,
        keys,
    })
}

/// For each label, and for N, the number of chosen labels below it.
fn chosen_below(table: &Table) -> Vec<u16> {
    let mut below = Vec::with_capacity(table.rows.len() + 1);
    let mut seen = 0;
    for label in 0..=table.rows.len() {
        below.push(seen as u16);
        seen += (table.strategy.get(seen) == Some(&(label as u16))) as usize;
    }
    below
}

/// The number of distinct keys of a row's branches, held at one more than the most allowed.
/// Arms of a covered formula have either no key but the empty one, or none that is empty; the
/// keys of different arms then share no label, so they are all distinct.
fn count_keys(table: &Table, chosen_below: &[u16], label: usize, keys: &mut [u32]) -> u32 {
    let row = &table.rows[label];
    let any_chosen = chosen_below[label] < chosen_below[row.end as usize];
    let (mut count, join): (u64, fn(u64, u64) -> u64) = match row.kind {
        OR | IF => (0, |sum, more| sum + more),
        _ => (1, |product, more| product * more),
    };
    for child in table.expressions(label) {
        let of_child = count_keys(table, chosen_below, child, keys);
        count = join(count, of_child as u64).min(MOST_TRANSITIONS as u64 + 1);
    }
    keys[label] = if any_chosen { count as u32 } else { 1 };
    keys[label]
}

impl Judged<'_> {
    pub fn counts(&self) -> Counts {
        Counts {
            variables: self.table.variables,
            rows: self.table.rows.len(),
            chosen: self.table.strategy.len(),
            transitions: self.keys[0] as usize,
        }
    }

    /// The marks of transition k, or refusal 15 or 18.
    pub fn kept(&self, k: usize) -> Result<Vec<u8>, Refusal> {
        let count = self.keys[0] as usize;
        if k >= count {
            return refuse(15, count);
        }
        let mut kept = vec![0; self.table.rows.len()];
        self.keep(0, k as u32, &mut kept);
        if self.assigned(&kept).len() != self.table.variables {
            return refuse(18, k);
        }
        Ok(kept)
    }

    /// The chosen labels among those kept, in reported order.
    pub fn assigned(&self, kept: &[u8]) -> Vec<u16> {
        let is_kept = |label: &u16| kept[*label as usize] == 1;
        self.order.iter().copied().filter(is_kept).collect()
    }

    /// Marks the leaves that key number `k` of a row keeps. A conjunction's first child counts
    /// slowest, so the numbers of its children are remainders from the last child back. Of a
    /// choice with chosen labels one arm holds the key; without, all arms are of the class.
    fn keep(&self, label: usize, k: u32, kept: &mut [u8]) {
        let row = &self.table.rows[label];
        let any_chosen = self.chosen_below[label] < self.chosen_below[row.end as usize];
        let mut left = k;
        match row.kind {
            0..=2 => kept[label] = 1,
            AND => {
                let children: Vec<usize> = self.table.expressions(label).collect();
                for &child in children.iter().rev() {
                    self.keep(child, left % self.keys[child], kept);
                    left /= self.keys[child];
                }
            }
            OR | IF if any_chosen => {
                for child in self.table.expressions(label) {
                    if left < self.keys[child] {
                        return self.keep(child, left, kept);
                    }
                    left -= self.keys[child];
                }
            }
            _ => self
                .table
                .expressions(label)
                .for_each(|child| self.keep(child, k, kept)),
        }
    }
}
