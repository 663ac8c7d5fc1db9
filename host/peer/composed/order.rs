//! Refusal 13 and the reported order. "Before" is one row of bits for each chosen label, built
//! in one walk down the formula; chosen labels go by their index in the strategy.

use super::check::{Table, AND, CANDIDATE, EXISTS, IF};
use super::cover::ByVariable;
use std::cmp::Reverse;
use std::collections::BinaryHeap;

const NONE: u16 = u16::MAX;

/// For each chosen label the bits of the chosen labels before it, `width` words to a row.
pub struct Before {
    rows: Vec<u64>,
    width: usize,
    count: usize,
}

/// The walk that fills the rows. `shared` holds the chosen labels outside the current row that
/// share a branch with what is inside; `frozen` is a stack, its last row the chosen labels whose
/// variable a guard around the current row reads.
struct Walk<'a> {
    table: &'a Table<'a>,
    chosen_below: &'a [u16],
    of_variable: Vec<u64>,
    shared: Vec<u64>,
    frozen: Vec<u64>,
    before: Before,
}

impl Before {
    /// `chosen_below[label]` is the number of chosen labels below `label`.
    pub fn of(table: &Table, chosen: &ByVariable, chosen_below: &[u16]) -> Before {
        let count = table.strategy.len();
        let width = count.div_ceil(64);
        let mut of_variable = vec![0; table.variables * width];
        for variable in 0..table.variables {
            let bits = &mut of_variable[variable * width..][..width];
            for &label in chosen.labels(variable) {
                set(bits, chosen_below[label as usize] as usize);
            }
        }
        let mut walk = Walk {
            table,
            chosen_below,
            of_variable,
            shared: vec![0; width],
            frozen: vec![0; width],
            before: Before {
                rows: vec![0; count * width],
                width,
                count,
            },
        };
        walk.row(0);
        walk.before
    }

    fn row(&self, index: usize) -> &[u64] {
        &self.rows[index * self.width..][..self.width]
    }

    /// The reported order by index, or the lowest index on a cycle.
    pub fn order(&self) -> Result<Vec<u16>, usize> {
        let mut queue = Queue::of(self);
        let mut order = Vec::with_capacity(self.count);
        while let Some(Reverse(next)) = queue.free.pop() {
            order.push(next);
            queue.place(self, next as usize);
        }
        if order.len() == self.count {
            return Ok(order);
        }
        Err(Cycles::lowest(self, &queue.unplaced))
    }
}

impl Walk<'_> {
    fn row(&mut self, label: usize) {
        let end = self.table.rows[label].end as usize;
        if self.chosen_below[label] == self.chosen_below[end] {
            return;
        }
        match self.table.rows[label].kind {
            CANDIDATE => self.candidate(label),
            AND => self.conjunction(label),
            EXISTS | IF => {
                let top = self.frozen.len() - self.before.width;
                self.frozen.extend_from_within(top..);
                self.freeze(label + 1);
                self.arms(label);
                self.frozen.truncate(top + self.before.width);
            }
            _ => self.arms(label),
        }
    }

    fn arms(&mut self, label: usize) {
        let table = self.table;
        table.expressions(label).for_each(|child| self.row(child));
    }

    /// Inside one child all chosen labels of the other children share a branch with it.
    fn conjunction(&mut self, label: usize) {
        let table = self.table;
        self.share(label, true);
        for child in table.expressions(label) {
            self.share(child, false);
            self.row(child);
            self.share(child, true);
        }
        self.share(label, false);
    }

    /// Adds the chosen labels of a subtree to `shared`, or takes them away.
    fn share(&mut self, label: usize, add: bool) {
        let end = self.table.rows[label].end as usize;
        let (mut from, to) = (
            self.chosen_below[label] as usize,
            self.chosen_below[end] as usize,
        );
        while from < to {
            let bits = (to - from).min(64 - from % 64);
            let mask = (u64::MAX >> (64 - bits)) << (from % 64);
            let word = &mut self.shared[from / 64];
            *word = if add { *word | mask } else { *word & !mask };
            from += bits;
        }
    }

    /// Adds to the last row of `frozen` the chosen labels of the variables that a star reads.
    fn freeze(&mut self, star: usize) {
        let width = self.before.width;
        let top = self.frozen.len() - width;
        for &variable in self.table.star_reads(star) {
            let bits = &self.of_variable[variable as usize * width..][..width];
            for (word, more) in self.frozen[top..].iter_mut().zip(bits) {
                *word |= more;
            }
        }
    }

    /// A chosen candidate: its own star is frozen too, and it shares a branch with itself.
    fn candidate(&mut self, label: usize) {
        let width = self.before.width;
        let top = self.frozen.len() - width;
        self.frozen.extend_from_within(top..);
        self.freeze(label + 1);
        let index = self.chosen_below[label] as usize;
        set(&mut self.shared, index);
        let own = &mut self.before.rows[index * width..][..width];
        for (i, word) in own.iter_mut().enumerate() {
            *word = self.frozen[top + width + i] & self.shared[i];
        }
        self.shared[index / 64] &= !(1 << (index % 64));
        self.frozen.truncate(top + width);
    }
}

fn set(bits: &mut [u64], index: usize) {
    bits[index / 64] |= 1 << (index % 64);
}

/// Indexes not yet placed. Each either is free or waits for one unplaced index before it; those
/// that wait for the same one are linked in a list.
struct Queue {
    free: BinaryHeap<Reverse<u16>>,
    unplaced: Vec<u64>,
    first_waiting: Vec<u16>,
    next_waiting: Vec<u16>,
    spread: u64,
}

impl Queue {
    fn of(before: &Before) -> Queue {
        let mut queue = Queue {
            free: BinaryHeap::new(),
            unplaced: vec![0; before.width],
            first_waiting: vec![NONE; before.count],
            next_waiting: vec![NONE; before.count],
            spread: 1,
        };
        (0..before.count).for_each(|index| set(&mut queue.unplaced, index));
        (0..before.count).for_each(|index| queue.wait(before, index));
        queue
    }

    fn place(&mut self, before: &Before, index: usize) {
        self.unplaced[index / 64] &= !(1 << (index % 64));
        let mut waiting = std::mem::replace(&mut self.first_waiting[index], NONE);
        while waiting != NONE {
            let after = self.next_waiting[waiting as usize];
            self.wait(before, waiting as usize);
            waiting = after;
        }
    }

    /// Finds an unplaced index before this one to wait for, or frees it. Which of several it is
    /// doesn't change the order; one picked at random leaves few to wait for afterwards.
    fn wait(&mut self, before: &Before, index: usize) {
        let row = before.row(index);
        self.spread = self
            .spread
            .wrapping_mul(0x5851_F42D_4C95_7F2D)
            .wrapping_add(1);
        let start = (self.spread >> 33) as usize % before.width;
        for at in (start..before.width).chain(0..start) {
            let left = row[at] & self.unplaced[at];
            if left != 0 {
                let turn = (self.spread >> 58) as u32;
                let bit = (left.rotate_right(turn).trailing_zeros() + turn) % 64;
                let blocker = at * 64 + bit as usize;
                self.next_waiting[index] = self.first_waiting[blocker];
                self.first_waiting[blocker] = index as u16;
                return;
            }
        }
        self.free.push(Reverse(index as u16));
    }
}

/// Strongly connected components of "before" among the unplaced indexes (Tarjan). A component
/// of two or more, or an index before itself, is a cycle.
struct Cycles<'a> {
    before: &'a Before,
    unplaced: &'a [u64],
    number: Vec<u16>,
    low: Vec<u16>,
    open: Vec<bool>,
    stack: Vec<u16>,
    numbered: u16,
    lowest: usize,
}

impl Cycles<'_> {
    fn lowest(before: &Before, unplaced: &[u64]) -> usize {
        let mut cycles = Cycles {
            before,
            unplaced,
            number: vec![NONE; before.count],
            low: vec![NONE; before.count],
            open: vec![false; before.count],
            stack: Vec::new(),
            numbered: 0,
            lowest: usize::MAX,
        };
        for index in 0..before.count {
            let placed = unplaced[index / 64] >> (index % 64) & 1 == 0;
            if !placed && cycles.number[index] == NONE {
                cycles.visit(index);
            }
        }
        cycles.lowest
    }

    fn visit(&mut self, index: usize) {
        let row = self.before.row(index);
        self.number[index] = self.numbered;
        self.low[index] = self.numbered;
        self.numbered += 1;
        self.open[index] = true;
        self.stack.push(index as u16);
        for (at, &word) in row.iter().enumerate() {
            let mut left = word & self.unplaced[at];
            while left != 0 {
                let next = at * 64 + left.trailing_zeros() as usize;
                left &= left - 1;
                if self.number[next] == NONE {
                    self.visit(next);
                    self.low[index] = self.low[index].min(self.low[next]);
                } else if self.open[next] {
                    self.low[index] = self.low[index].min(self.number[next]);
                }
            }
        }
        if self.low[index] == self.number[index] {
            let itself = row[index / 64] >> (index % 64) & 1 == 1;
            self.close(index, itself);
        }
    }

    /// Takes a finished component off the stack.
    fn close(&mut self, root: usize, root_before_itself: bool) {
        let start = self
            .stack
            .iter()
            .rposition(|&index| index as usize == root)
            .unwrap_or(0);
        let on_cycle = self.stack.len() - start > 1 || root_before_itself;
        for &index in &self.stack[start..] {
            self.open[index as usize] = false;
            if on_cycle {
                self.lowest = self.lowest.min(index as usize);
            }
        }
        self.stack.truncate(start);
    }
}
