//! The words as a table: sections 1 to 4, each rule of document 01 asked by itself.
//!
//! Every rule for a row is a question about one label and the words as they stand, so the lowest
//! label at fault is found by asking all labels from 0 on.

use crate::peer::{
    refuse, Refusal, MOST_CHOSEN, MOST_DEPTH, MOST_READS, MOST_ROWS, MOST_VARIABLES,
};

pub struct Row {
    pub kind: usize,
    pub arg: usize,
    pub end: usize,
    pub from: usize,
}

pub struct Table {
    pub variables: usize,
    pub reads: Vec<usize>,
    pub rows: Vec<Row>,
    pub strategy: Vec<usize>,
}

/// Refusals 1 to 9 and 3, in document 01's order.
pub fn check(words: &[u16]) -> Result<Table, Refusal> {
    let (names, after_names) = section(words, 0, 1, MOST_VARIABLES, 1)?;
    if let Some(i) = (1..names.len()).find(|&i| names[i] <= names[i - 1]) {
        return refuse(4, 1 + i);
    }
    let variables = names.len();

    let (reads, after_reads) = section(words, after_names, 0, MOST_READS, 1)?;
    if let Some(i) = (0..reads.len()).find(|&i| reads[i] >= variables) {
        return refuse(5, after_names + 1 + i);
    }

    let (row_words, after_rows) = section(words, after_reads, 1, MOST_ROWS, 4)?;
    let mut table = Table {
        variables,
        reads,
        rows: row_words.chunks(4).map(Row::of).collect(),
        strategy: Vec::new(),
    };
    table.rows_are_sound()?;

    let (strategy, after_strategy) = section(words, after_rows, 0, MOST_CHOSEN, 1)?;
    let too_high = |i: usize| strategy[i] >= table.rows.len();
    let not_above = |i: usize| i > 0 && strategy[i] <= strategy[i - 1];
    if let Some(i) = (0..strategy.len()).find(|&i| too_high(i) || not_above(i)) {
        return refuse(9, i);
    }
    if words.len() > after_strategy {
        return refuse(3, after_strategy);
    }
    table.strategy = strategy;
    Ok(table)
}

impl Row {
    fn of(words: &[usize]) -> Row {
        Row {
            kind: words[0],
            arg: words[1],
            end: words[2],
            from: words[3],
        }
    }
}

/// One section: its count at position `at`, then that many entries of `width` words. Gives the
/// words of the entries and the position after them.
fn section(
    words: &[u16],
    at: usize,
    low: usize,
    high: usize,
    width: usize,
) -> Result<(Vec<usize>, usize), Refusal> {
    if at >= words.len() {
        return refuse(1, words.len());
    }
    let count = words[at] as usize;
    if count < low || count > high {
        return refuse(2, at);
    }
    let end = at + 1 + count * width;
    if end > words.len() {
        return refuse(1, words.len());
    }
    Ok((
        words[at + 1..end].iter().map(|&w| w as usize).collect(),
        end,
    ))
}

impl Table {
    /// Refusals 6, 7 and 8.
    fn rows_are_sound(&self) -> Result<(), Refusal> {
        for label in 0..self.rows.len() {
            if !(self.own_words(label) && self.own_reads(label) && self.own_children(label)) {
                return refuse(6, label);
            }
        }
        let taken = self.reads_taken_before(self.rows.len());
        if taken < self.reads.len() {
            return refuse(7, taken);
        }
        for label in 0..self.rows.len() {
            if self.depth(label) > MOST_DEPTH {
                return refuse(8, label);
            }
        }
        Ok(())
    }

    /// The row's kind, arg, end and from by themselves.
    fn own_words(&self, label: usize) -> bool {
        let row = &self.rows[label];
        let arg = match row.kind {
            0 | 5 | 6 => row.arg == 0,
            1 => true,
            2 => row.arg < self.variables,
            3 | 4 => row.arg >= 1,
            _ => return false,
        };
        let end = row.end <= self.rows.len() && (label != 0 || row.end == self.rows.len());
        arg && end && row.from == self.reads_taken_before(label)
    }

    fn reads_taken_before(&self, label: usize) -> usize {
        self.rows[..label]
            .iter()
            .filter(|row| row.kind == 1)
            .map(|row| row.arg)
            .sum()
    }

    /// A star's reads are there and strictly ascend.
    fn own_reads(&self, label: usize) -> bool {
        let row = &self.rows[label];
        if row.kind != 1 {
            return true;
        }
        let until = row.from + row.arg;
        until <= self.reads.len()
            && self.reads[row.from..until]
                .windows(2)
                .all(|pair| pair[0] < pair[1])
    }

    /// The number of children that a row's kind and arg ask for.
    fn children_asked(&self, label: usize) -> usize {
        match self.rows[label].kind {
            0 | 1 => 0,
            2 => 1,
            3 | 4 => self.rows[label].arg,
            5 => 2,
            _ => 3,
        }
    }

    /// The first child is a star where it must be, and the end words stepped from the next row on
    /// rise, stay within the row's end and meet it after the number of children asked.
    fn own_children(&self, label: usize) -> bool {
        let row = &self.rows[label];
        let needs_star = matches!(row.kind, 2 | 5 | 6);
        if needs_star && self.rows.get(label + 1).is_none_or(|child| child.kind != 1) {
            return false;
        }
        let mut at = label + 1;
        for _ in 0..self.children_asked(label) {
            let Some(child) = self.rows.get(at) else {
                return false;
            };
            if child.end <= at || child.end > row.end {
                return false;
            }
            at = child.end;
        }
        at == row.end
    }

    /// The children of a row of a sound table.
    pub fn children(&self, label: usize) -> Vec<usize> {
        let mut at = label + 1;
        let mut children = Vec::new();
        for _ in 0..self.children_asked(label) {
            children.push(at);
            at = self.rows[at].end;
        }
        children
    }

    /// The number of rows whose subtree holds this label, itself included.
    fn depth(&self, label: usize) -> usize {
        self.rows[..=label]
            .iter()
            .filter(|row| label < row.end)
            .count()
    }
}
