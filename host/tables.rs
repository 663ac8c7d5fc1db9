//! Tables for the comparison: a small formula type, its writer, and the generators.

pub mod cases;
pub mod damage;
pub mod edges;
pub mod extremes;
pub mod large;
pub mod many;
pub mod random;
pub mod typical;
pub mod worst;

/// A formula as document 001 has it; reads are variable positions, ascending.
#[derive(Clone)]
pub enum Formula {
    False,
    Test(Vec<u16>),
    Candidate {
        variable: u16,
        reads: Vec<u16>,
        chosen: bool,
    },
    And(Vec<Formula>),
    Or(Vec<Formula>),
    Exists(Vec<u16>, Box<Formula>),
    If(Vec<u16>, Box<Formula>, Box<Formula>),
}

use Formula::{And, Candidate, Exists, False, If, Or, Test};

/// A table to be asked about: the first `shown` of the words. What follows them lies behind the
/// lent slice and must not count. Random tables have no title.
#[derive(Clone)]
pub struct Table {
    pub words: Vec<u16>,
    pub shown: usize,
    pub title: String,
}

impl Table {
    pub fn whole(words: Vec<u16>) -> Table {
        let shown = words.len();
        Table {
            words,
            shown,
            title: String::new(),
        }
    }

    pub fn titled(named: &Named) -> Table {
        Table {
            title: format!(" ({})", named.name),
            ..Table::whole(named.words.clone())
        }
    }

    pub fn shown(&self) -> &[u16] {
        &self.words[..self.shown]
    }
}

/// A table with a name to tell it by.
pub struct Named {
    pub name: String,
    pub words: Vec<u16>,
}

pub fn named(name: &str, words: Vec<u16>) -> Named {
    Named {
        name: name.to_string(),
        words,
    }
}

/// A chosen candidate.
pub fn set(variable: usize, reads: &[usize]) -> Formula {
    Candidate {
        variable: variable as u16,
        reads: narrow(reads),
        chosen: true,
    }
}

/// A candidate that is not chosen.
pub fn idle(variable: usize, reads: &[usize]) -> Formula {
    Candidate {
        variable: variable as u16,
        reads: narrow(reads),
        chosen: false,
    }
}

pub fn test(reads: &[usize]) -> Formula {
    Test(narrow(reads))
}

pub fn exists(reads: &[usize], inner: Formula) -> Formula {
    Exists(narrow(reads), Box::new(inner))
}

pub fn if_else(reads: &[usize], yes: Formula, no: Formula) -> Formula {
    If(narrow(reads), Box::new(yes), Box::new(no))
}

fn narrow(numbers: &[usize]) -> Vec<u16> {
    numbers.iter().map(|&number| number as u16).collect()
}

/// The formula inside `count` conjunctions of one child.
pub fn wrapped(count: usize, formula: Formula) -> Formula {
    (0..count).fold(formula, |inner, _| And(vec![inner]))
}

impl Formula {
    /// The number of rows that the formula takes.
    pub fn rows(&self) -> usize {
        match self {
            False | Test(_) => 1,
            Candidate { .. } => 2,
            And(children) | Or(children) => 1 + children.iter().map(Formula::rows).sum::<usize>(),
            Exists(_, inner) => 2 + inner.rows(),
            If(_, yes, no) => 2 + yes.rows() + no.rows(),
        }
    }
}

/// The rows under work: reads taken, rows written and labels chosen so far.
#[derive(Default)]
struct Writer {
    reads: Vec<u16>,
    rows: Vec<[u16; 4]>,
    chosen: Vec<u16>,
}

impl Writer {
    /// Writes a row, what `children` writes after it, and then the row's end.
    fn row(&mut self, kind: u16, arg: usize, children: impl FnOnce(&mut Writer)) {
        let label = self.rows.len();
        self.rows
            .push([kind, arg as u16, 0, self.reads.len() as u16]);
        children(self);
        self.rows[label][2] = self.rows.len() as u16;
    }

    fn star(&mut self, reads: &[u16]) {
        self.row(1, reads.len(), |_| {});
        self.reads.extend(reads);
    }

    fn formula(&mut self, formula: &Formula) {
        let all = |children: &[Formula], writer: &mut Writer| {
            children.iter().for_each(|child| writer.formula(child));
        };
        match formula {
            False => self.row(0, 0, |_| {}),
            Test(reads) => self.star(reads),
            Candidate {
                variable,
                reads,
                chosen,
            } => {
                if *chosen {
                    self.chosen.push(self.rows.len() as u16);
                }
                self.row(2, *variable as usize, |writer| writer.star(reads));
            }
            And(children) => self.row(3, children.len(), |writer| all(children, writer)),
            Or(children) => self.row(4, children.len(), |writer| all(children, writer)),
            Exists(reads, inner) => self.row(5, 0, |writer| {
                writer.star(reads);
                writer.formula(inner);
            }),
            If(reads, yes, no) => self.row(6, 0, |writer| {
                writer.star(reads);
                writer.formula(yes);
                writer.formula(no);
            }),
        }
    }
}

/// The words of a table: the names, the formula, and a strategy of the candidates marked as
/// chosen, or the one given.
pub fn write_named(names: &[u16], formula: &Formula, strategy: Option<&[u16]>) -> Vec<u16> {
    let mut writer = Writer::default();
    writer.formula(formula);
    let strategy = strategy.unwrap_or(&writer.chosen);
    let mut words = Vec::new();
    let mut section = |count: usize, body: &mut dyn Iterator<Item = u16>| {
        words.push(count as u16);
        words.extend(body);
    };
    section(names.len(), &mut names.iter().copied());
    section(writer.reads.len(), &mut writer.reads.iter().copied());
    section(
        writer.rows.len(),
        &mut writer.rows.iter().flatten().copied(),
    );
    section(strategy.len(), &mut strategy.iter().copied());
    words
}

/// The words of a table whose variables have the names 3, 10, 17 and so on.
pub fn write(variables: usize, formula: &Formula) -> Vec<u16> {
    write_named(&names(variables), formula, None)
}

/// The same with a given strategy.
pub fn write_with(variables: usize, formula: &Formula, strategy: &[u16]) -> Vec<u16> {
    write_named(&names(variables), formula, Some(strategy))
}

fn names(variables: usize) -> Vec<u16> {
    (0..variables).map(|i| (3 + 7 * i) as u16).collect()
}
