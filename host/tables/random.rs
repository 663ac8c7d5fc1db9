//! Random well-formed tables. A formula is built so that each branch chooses one candidate for
//! each variable; reads mostly follow a ranking of the variables, so that an order often exists.
//! A part of the tables then gets another strategy.

use super::Formula::{And, Candidate, Exists, False, If, Or, Test};
use super::{write_named, Formula};
use crate::rng::Rng;

/// Bounds for one table. `rows` and `ways` (the number of keys) are aims, not promises.
pub struct Shape {
    pub variables: usize,
    pub rows: usize,
    pub levels: usize,
    pub ways: usize,
    /// How many of 100 stars read without regard to the ranking.
    pub stray: usize,
    /// How many of 100 choices rank the variables anew in each arm.
    pub rerank: usize,
}

/// `ways` of this size stands for any number of keys.
const ANY: usize = 1 << 40;

/// The keys allowed to each of `count` arms.
fn summand(ways: usize, count: usize) -> usize {
    if ways == ANY {
        return ANY;
    }
    (ways / count).max(1)
}

/// A small table, for the peer that lists branches.
pub fn small(rng: &mut Rng) -> Vec<u16> {
    let variables = rng.pick(&[1, 1, 2, 2, 2, 3, 3, 4, 5]);
    let rows = rng.between(2, 40);
    let stray = rng.pick(&[0, 0, 3, 10, 30]);
    let rerank = rng.pick(&[0, 20, 60]);
    let shape = Shape {
        variables,
        rows,
        levels: 64,
        ways: ANY,
        stray,
        rerank,
    };
    table(rng, &shape, 25)
}

/// A table with more variables, rows and branches than a small one.
pub fn medium(rng: &mut Rng) -> Vec<u16> {
    let variables = rng.between(3, 9);
    let rows = rng.between(40, 160);
    let stray = rng.pick(&[0, 0, 2, 5]);
    let rerank = rng.pick(&[0, 20, 60]);
    let ways = rng.pick(&[1, 4, 20, 100, 400]);
    let shape = Shape {
        variables,
        rows,
        levels: 64,
        ways,
        stray,
        rerank,
    };
    table(rng, &shape, 20)
}

/// A table whose deepest rows lie on both sides of depth 64.
pub fn deep(rng: &mut Rng) -> Vec<u16> {
    let variables = rng.between(1, 3);
    let shape = Shape {
        variables,
        rows: 12,
        levels: 64,
        ways: ANY,
        stray: 3,
        rerank: 20,
    };
    let mut maker = Maker::new(rng, &shape);
    let all: Vec<usize> = (0..variables).collect();
    let mut formula = maker.covering(&all, 12, ANY, 64);
    let wanted = maker.rng.between(62, 66);
    while depth(&formula) < wanted {
        formula = maker.around(formula, &all);
    }
    let names = names(maker.rng, variables);
    write_named(&names, &formula, None)
}

/// A table of the given shape; `meddled` of 100 get another strategy.
pub fn table(rng: &mut Rng, shape: &Shape, meddled: usize) -> Vec<u16> {
    let names = names(rng, shape.variables);
    let meddle = rng.chance(meddled);
    let all: Vec<usize> = (0..shape.variables).collect();
    let mut maker = Maker::new(rng, shape);
    let mut formula = maker.covering(&all, shape.rows, shape.ways, shape.levels);
    if meddle {
        match rng.below(3) {
            0 => turn_one(rng, &mut formula),
            1 => choose_anew(rng, &mut formula, 50),
            _ => choose_anew(rng, &mut formula, 85),
        }
    }
    write_named(&names, &formula, None)
}

/// Name numbers, ascending with random gaps.
fn names(rng: &mut Rng, variables: usize) -> Vec<u16> {
    let mut name = rng.below(100);
    let mut next = || {
        let here = name as u16;
        name += 1 + rng.below(60);
        here
    };
    (0..variables).map(|_| next()).collect()
}

fn depth(formula: &Formula) -> usize {
    1 + match formula {
        False | Test(_) => 0,
        Candidate { .. } => 1,
        And(children) | Or(children) => children.iter().map(depth).max().unwrap_or(0),
        Exists(_, inner) => depth(inner),
        If(_, yes, no) => depth(yes).max(depth(no)),
    }
}

/// Every candidate of the formula, in label order.
fn for_candidates(formula: &mut Formula, visit: &mut dyn FnMut(&mut bool)) {
    match formula {
        False | Test(_) => {}
        Candidate { chosen, .. } => visit(chosen),
        And(children) | Or(children) => {
            children
                .iter_mut()
                .for_each(|child| for_candidates(child, visit));
        }
        Exists(_, inner) => for_candidates(inner, visit),
        If(_, yes, no) => {
            for_candidates(yes, visit);
            for_candidates(no, visit);
        }
    }
}

/// Chooses one more candidate or one fewer.
fn turn_one(rng: &mut Rng, formula: &mut Formula) {
    let mut count = 0;
    for_candidates(formula, &mut |_| count += 1);
    let turned = rng.below(count.max(1));
    let mut at = 0;
    for_candidates(formula, &mut |chosen| {
        *chosen ^= at == turned;
        at += 1;
    });
}

/// Chooses each candidate anew, `percent` of 100.
fn choose_anew(rng: &mut Rng, formula: &mut Formula, percent: usize) {
    for_candidates(formula, &mut |chosen| *chosen = rng.chance(percent));
}

pub struct Maker<'a> {
    rng: &'a mut Rng,
    /// The variables by rank; a star reads variables of a lower rank than those it stands over.
    by_rank: Vec<usize>,
    stray: usize,
    rerank: usize,
    reads_left: usize,
}

impl<'a> Maker<'a> {
    pub fn new(rng: &'a mut Rng, shape: &Shape) -> Maker<'a> {
        let mut by_rank: Vec<usize> = (0..shape.variables).collect();
        rng.shuffle(&mut by_rank);
        let (stray, rerank) = (shape.stray, shape.rerank);
        Maker {
            rng,
            by_rank,
            stray,
            rerank,
            reads_left: crate::peer::MOST_READS,
        }
    }

    /// A formula with one chosen candidate on each branch for each variable of `cover` and no
    /// other chosen one.
    pub fn covering(
        &mut self,
        cover: &[usize],
        room: usize,
        ways: usize,
        levels: usize,
    ) -> Formula {
        if room <= 2 * cover.len() + 2 || levels < 5 {
            return self.plain(cover);
        }
        let levels = levels - 1;
        let may_choose = ways >= 2 || cover.is_empty();
        match self.rng.below(100) {
            0..=27 if may_choose => self.disjunction(cover, room - 1, ways, levels),
            28..=41 if may_choose && room > 4 => {
                let reads = self.reads(cover);
                let (room, ways) = ((room - 2) / 2, summand(ways, 2));
                let yes = self.arm(cover, room, ways, levels);
                If(
                    reads,
                    Box::new(yes),
                    Box::new(self.arm(cover, room, ways, levels)),
                )
            }
            42..=54 => {
                let reads = self.reads(cover);
                Exists(
                    reads,
                    Box::new(self.covering(cover, room - 2, ways, levels)),
                )
            }
            55..=57 => self.plain(cover),
            _ => self.conjunction(cover, room - 1, ways, levels),
        }
    }

    /// A leaf, or a conjunction of one candidate for each variable.
    fn plain(&mut self, cover: &[usize]) -> Formula {
        match cover {
            [] => self.filler(),
            [variable] => self.chosen(*variable),
            _ => {
                let mut order = cover.to_vec();
                self.rng.shuffle(&mut order);
                And(order
                    .iter()
                    .map(|&variable| self.chosen(variable))
                    .collect())
            }
        }
    }

    fn chosen(&mut self, variable: usize) -> Formula {
        Candidate {
            variable: variable as u16,
            reads: self.reads(&[variable]),
            chosen: true,
        }
    }

    /// A leaf that chooses nothing.
    fn filler(&mut self) -> Formula {
        let reads = self.reads(&[]);
        match self.rng.below(100) {
            0..=19 => False,
            20..=59 => Test(reads),
            _ => {
                let variable = self.rng.pick(&self.by_rank) as u16;
                Candidate {
                    variable,
                    reads,
                    chosen: false,
                }
            }
        }
    }

    /// Each variable goes to one child; the keys are shared out as factors.
    fn conjunction(&mut self, cover: &[usize], room: usize, ways: usize, levels: usize) -> Formula {
        let count = self.rng.between(1, 4);
        let mut parts = vec![Vec::new(); count];
        for &variable in cover {
            parts[self.rng.below(count)].push(variable);
        }
        let mut left = ways;
        let mut children = Vec::new();
        for part in &parts {
            let share = match left {
                ANY => ANY,
                _ => self.rng.pick(&[1, left.isqrt().max(1), left]),
            };
            left = if left == ANY { ANY } else { left / share };
            let rows = (room * (part.len() + 1)) / (cover.len() + count);
            children.push(self.covering(part, rows, share, levels));
        }
        And(children)
    }

    /// Each arm covers all; the keys are shared out as summands.
    fn disjunction(&mut self, cover: &[usize], room: usize, ways: usize, levels: usize) -> Formula {
        let mut count = self.rng.pick(&[1, 2, 2, 2, 3, 3, 4]);
        if !cover.is_empty() {
            count = count.min(ways.max(1));
        }
        let share = summand(ways, count);
        Or((0..count)
            .map(|_| self.arm(cover, room / count, share, levels))
            .collect())
    }

    /// One arm of a choice, sometimes under a ranking of its own.
    fn arm(&mut self, cover: &[usize], room: usize, ways: usize, levels: usize) -> Formula {
        if !self.rng.chance(self.rerank) {
            return self.covering(cover, room, ways, levels);
        }
        let outer = self.by_rank.clone();
        self.rng.shuffle(&mut self.by_rank);
        let formula = self.covering(cover, room, ways, levels);
        self.by_rank = outer;
        formula
    }

    /// The reads of a star that stands over `cover`; one that stands over nothing reads any.
    fn reads(&mut self, cover: &[usize]) -> Vec<u16> {
        let ranked = !cover.is_empty() && !self.rng.chance(self.stray);
        let lowest = self
            .by_rank
            .iter()
            .position(|variable| cover.contains(variable));
        let allowed = if ranked {
            lowest.unwrap_or(0)
        } else {
            self.by_rank.len()
        };
        let wanted = self.rng.pick(&[0, 0, 1, 1, 2, 3]).min(self.reads_left);
        let mut reads = Vec::new();
        for _ in 0..wanted.min(allowed) {
            reads.push(self.by_rank[self.rng.below(allowed)] as u16);
        }
        reads.sort();
        reads.dedup();
        self.reads_left -= reads.len();
        reads
    }

    /// One more row around a formula that covers `all`.
    fn around(&mut self, formula: Formula, all: &[usize]) -> Formula {
        match self.rng.below(6) {
            0 => And(vec![formula]),
            1 => Or(vec![formula]),
            2 => And(vec![self.filler(), formula]),
            3 => Or(vec![formula, self.plain(all)]),
            4 => If(Vec::new(), Box::new(self.plain(all)), Box::new(formula)),
            _ => Exists(Vec::new(), Box::new(formula)),
        }
    }
}
