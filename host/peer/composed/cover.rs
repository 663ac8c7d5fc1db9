//! Refusals 11 and 12: one chosen label for each variable on each branch, asked of the
//! structure and only of the rows above a variable's chosen labels.

use super::check::{Table, AND, EXISTS, IF, OR};
use crate::peer::{refuse, Refusal};

/// The chosen labels in one list, sorted by variable and then by label.
pub struct ByVariable {
    labels: Vec<u16>,
    starts: Vec<usize>,
}

impl ByVariable {
    pub fn of(table: &Table) -> ByVariable {
        let variable = |label: u16| table.rows[label as usize].arg as usize;
        let mut starts = vec![0; table.variables + 1];
        for &label in table.strategy {
            starts[variable(label) + 1] += 1;
        }
        for i in 0..table.variables {
            starts[i + 1] += starts[i];
        }
        let mut next = starts.clone();
        let mut labels = vec![0; table.strategy.len()];
        for &label in table.strategy {
            labels[next[variable(label)]] = label;
            next[variable(label)] += 1;
        }
        ByVariable { labels, starts }
    }

    pub fn labels(&self, variable: usize) -> &[u16] {
        &self.labels[self.starts[variable]..self.starts[variable + 1]]
    }
}

pub fn check(table: &Table, chosen: &ByVariable) -> Result<(), Refusal> {
    let mut marks = Marks {
        seen: vec![0; table.rows.len()],
        arms: vec![0; table.rows.len()],
    };
    for variable in 0..table.variables {
        let mut labels = chosen.labels(variable).iter();
        let stamp = variable as u32 + 1;
        if !labels.any(|&label| marks.covers_all(table, label as usize, stamp)) {
            return refuse(11, variable);
        }
    }
    for variable in 0..table.variables {
        let mut pairs = chosen.labels(variable).windows(2);
        if pairs.any(|pair| share_a_branch(table, pair[0], pair[1])) {
            return refuse(12, variable);
        }
    }
    Ok(())
}

/// For the variable whose stamp a row bears: conjunctions already covered, and for disjunctions
/// and IF rows the number of arms covered.
struct Marks {
    seen: Vec<u32>,
    arms: Vec<u16>,
}

impl Marks {
    /// Carries the cover of one label upwards as far as it goes; true if it reaches row 0. A
    /// conjunction is covered by any child, a disjunction or IF only by all its arms.
    fn covers_all(&mut self, table: &Table, label: usize, stamp: u32) -> bool {
        let mut at = label;
        while at != 0 {
            at = table.rows[at].parent as usize;
            let row = &table.rows[at];
            if row.kind == EXISTS {
                continue;
            }
            let fresh = self.seen[at] != stamp;
            self.seen[at] = stamp;
            if row.kind == AND {
                if !fresh {
                    return false;
                }
                continue;
            }
            self.arms[at] = if fresh { 1 } else { self.arms[at] + 1 };
            let all = if row.kind == OR { row.arg } else { 2 };
            debug_assert!(row.kind == OR || row.kind == IF);
            if self.arms[at] < all {
                return false;
            }
        }
        true
    }
}

/// Two leaves share a branch if the lowest row that holds both is a conjunction. Asking
/// neighbours in a sorted list is enough: the lowest row that holds two labels of the list is
/// also that of some two neighbours between them.
fn share_a_branch(table: &Table, low: u16, high: u16) -> bool {
    let mut at = low as usize;
    while table.rows[at].end <= high {
        at = table.rows[at].parent as usize;
    }
    table.rows[at].kind == AND
}
