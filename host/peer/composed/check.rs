//! The words as a table in one pass over each section. Rows are taken in label order; a row's
//! children are stepped through once, which gives each child its parent and its depth.

use crate::peer::{
    refuse, Refusal, MOST_CHOSEN, MOST_DEPTH, MOST_READS, MOST_ROWS, MOST_VARIABLES,
};

pub const FALSE: u16 = 0;
pub const STAR: u16 = 1;
pub const CANDIDATE: u16 = 2;
pub const AND: u16 = 3;
pub const OR: u16 = 4;
pub const EXISTS: u16 = 5;
pub const IF: u16 = 6;

/// A row with its parent; row 0 names itself.
#[derive(Clone, Copy)]
pub struct Row {
    pub kind: u16,
    pub arg: u16,
    pub end: u16,
    pub from: u16,
    pub parent: u16,
    depth: u16,
}

pub struct Table<'a> {
    pub variables: usize,
    pub reads: &'a [u16],
    pub rows: Vec<Row>,
    pub strategy: &'a [u16],
}

/// The words not yet read and the length of the whole table.
struct Rest<'a> {
    words: &'a [u16],
    whole: usize,
}

impl<'a> Rest<'a> {
    fn position(&self) -> usize {
        self.whole - self.words.len()
    }

    /// Takes one section off the front: refusals 1 and 2.
    fn section(&mut self, low: usize, high: usize, width: usize) -> Result<&'a [u16], Refusal> {
        let Some((&count, entries)) = self.words.split_first() else {
            return refuse(1, self.whole);
        };
        if !(low..=high).contains(&(count as usize)) {
            return refuse(2, self.position());
        }
        let Some((body, rest)) = entries.split_at_checked(count as usize * width) else {
            return refuse(1, self.whole);
        };
        self.words = rest;
        Ok(body)
    }
}

pub fn table(words: &[u16]) -> Result<Table<'_>, Refusal> {
    let mut rest = Rest {
        words,
        whole: words.len(),
    };
    let names = rest.section(1, MOST_VARIABLES, 1)?;
    if let Some(i) = names.windows(2).position(|pair| pair[0] >= pair[1]) {
        return refuse(4, i + 2);
    }
    let first_read = rest.position() + 1;
    let reads = rest.section(0, MOST_READS, 1)?;
    if let Some(i) = reads.iter().position(|&read| read as usize >= names.len()) {
        return refuse(5, first_read + i);
    }
    let rows = rows(rest.section(1, MOST_ROWS, 4)?, reads, names.len())?;
    let strategy = rest.section(0, MOST_CHOSEN, 1)?;
    let mut lowest = 0;
    for (i, &label) in strategy.iter().enumerate() {
        if label as usize >= rows.len() || (label as usize) < lowest {
            return refuse(9, i);
        }
        lowest = label as usize + 1;
    }
    if !rest.words.is_empty() {
        return refuse(3, rest.position());
    }
    Ok(Table {
        variables: names.len(),
        reads,
        rows,
        strategy,
    })
}

/// Refusals 6, 7 and 8.
fn rows(words: &[u16], reads: &[u16], variables: usize) -> Result<Vec<Row>, Refusal> {
    let read_row = |w: &[u16]| Row {
        kind: w[0],
        arg: w[1],
        end: w[2],
        from: w[3],
        parent: 0,
        depth: 1,
    };
    let mut rows: Vec<Row> = words.chunks_exact(4).map(read_row).collect();
    let mut taken = 0;
    for label in 0..rows.len() {
        let row = rows[label];
        if row.from as usize != taken || !own_words(&rows, label, variables) {
            return refuse(6, label);
        }
        if row.kind == STAR {
            let own = reads.get(taken..taken + row.arg as usize);
            if !own.is_some_and(|own| own.windows(2).all(|pair| pair[0] < pair[1])) {
                return refuse(6, label);
            }
            taken += row.arg as usize;
        }
        if !step_children(&mut rows, label) {
            return refuse(6, label);
        }
    }
    if taken < reads.len() {
        return refuse(7, taken);
    }
    if let Some(label) = rows.iter().position(|row| row.depth as usize > MOST_DEPTH) {
        return refuse(8, label);
    }
    Ok(rows)
}

/// The row's kind, arg and end by themselves, and that its first child is a star if it must be.
fn own_words(rows: &[Row], label: usize, variables: usize) -> bool {
    let row = rows[label];
    let star_follows = || rows.get(label + 1).is_some_and(|child| child.kind == STAR);
    let by_kind = match row.kind {
        FALSE => row.arg == 0,
        STAR => true,
        CANDIDATE => (row.arg as usize) < variables && star_follows(),
        AND | OR => row.arg > 0,
        EXISTS | IF => row.arg == 0 && star_follows(),
        _ => false,
    };
    let end = row.end as usize;
    by_kind && end <= rows.len() && (label > 0 || end == rows.len())
}

/// Steps through the children by their end words; false if they don't fill the row exactly.
fn step_children(rows: &mut [Row], label: usize) -> bool {
    let Row {
        kind,
        arg,
        end,
        depth,
        ..
    } = rows[label];
    let asked = match kind {
        FALSE | STAR => 0,
        CANDIDATE => 1,
        AND | OR => arg,
        EXISTS => 2,
        _ => 3,
    };
    let mut at = label as u16 + 1;
    for _ in 0..asked {
        if at >= end {
            return false;
        }
        let child = &mut rows[at as usize];
        if child.end <= at || child.end > end {
            return false;
        }
        child.parent = label as u16;
        child.depth = depth + 1;
        at = child.end;
    }
    at == end
}

impl Table<'_> {
    /// The children that are expressions: all but stars in candidates and guard stars.
    pub fn expressions(&self, label: usize) -> Expressions<'_> {
        let first = match self.rows[label].kind {
            AND | OR => label + 1,
            EXISTS | IF => label + 2,
            _ => self.rows[label].end as usize,
        };
        Expressions {
            rows: &self.rows,
            at: first,
            end: self.rows[label].end as usize,
        }
    }

    /// The reads of a star.
    pub fn star_reads(&self, label: usize) -> &[u16] {
        let row = &self.rows[label];
        &self.reads[row.from as usize..][..row.arg as usize]
    }
}

pub struct Expressions<'a> {
    rows: &'a [Row],
    at: usize,
    end: usize,
}

impl Iterator for Expressions<'_> {
    type Item = usize;

    fn next(&mut self) -> Option<usize> {
        let here = self.at;
        if here >= self.end {
            return None;
        }
        self.at = self.rows[here].end as usize;
        Some(here)
    }
}
