//! Compares the archive with the two peers, table by table and word by word.
//!
//! Without arguments it takes about a minute; `--long` compares many more tables. `--times`
//! writes the seconds of each group to standard error, `--trace` each table before it is asked
//! about, which shows the one at which an archive breaks off. The seed is fixed, and what is
//! compared is decided by counts, so every run compares the same. The last line is
//! `compare: N tables agree` with exit status 0, where every refusal from 1 to 16 was met too;
//! otherwise the first disagreement is shown and the exit status is 1.

mod archive;
mod asking;
mod met;
mod peer;
mod rng;
mod tables;
mod typed;

use asking::{ask, dispute, number, requests, Request, Speaker};
use met::Met;
use peer::definition::Reading;
use rng::Rng;
use std::process::ExitCode;
use std::time::Instant;
use tables::cases::{self, Case};
use tables::{damage, edges, extremes, large, many, random, typical, worst, Named, Table};

/// What a group of tables gave: the answers to the judge request, and those to the other requests.
#[derive(Default)]
struct Tally {
    tables: u64,
    listed: u64,
    requests: u64,
    judged: Met,
    others: Met,
}

impl Tally {
    fn note(&mut self, request: Request, word: u64) {
        self.requests += 1;
        match request {
            Request::Judge => self.judged.note(number(word)),
            _ => self.others.note(number(word)),
        }
    }

    fn line(&self, name: &str) -> String {
        let (accepted, judged) = (self.judged.count(0), &self.judged);
        let (too_high, too_short) = (self.others.count(15), self.others.count(16));
        format!(
            "{name}: {} tables ({} by definition too), {} requests; accepted {accepted}; \
             refused{judged}; 15:{too_high} 16:{too_short}",
            self.tables, self.listed, self.requests
        )
    }

    fn add(&mut self, other: &Tally) {
        self.tables += other.tables;
        self.listed += other.listed;
        self.requests += other.requests;
        self.judged.add(&other.judged);
        self.others.add(&other.others);
    }
}

/// How closely a group looks at each table.
#[derive(Clone, Copy)]
struct Care {
    /// Tables with more branches are not given to the peer by definition.
    most_branches: usize,
    /// How many transitions are asked for, about.
    most_k: usize,
}

/// Puts the same requests to all speakers and compares their answers.
fn compare(table: &Table, care: Care, rng: &mut Rng, tally: &mut Tally) -> Result<(), String> {
    let before = table.words.clone();
    let shown = table.shown();
    let reading = Reading::of(shown, care.most_branches);
    tally.tables += 1;
    tally.listed += reading.is_some() as u64;
    for request in requests(rng, shown, care.most_k) {
        let filling = rng.next();
        let archive = ask(&Speaker::Archive, shown, request, filling);
        tally.note(request, archive.word);
        let peers = reading
            .iter()
            .map(Speaker::Definition)
            .chain([Speaker::Composed]);
        for peer in peers {
            let said = ask(&peer, shown, request, filling);
            if said != archive {
                let answers = [(peer.name(), &said), ("archive", &archive)];
                return Err(dispute(shown, request, &answers));
            }
        }
    }
    if table.words != before {
        return Err(format!("the table's words were changed: {before:?}"));
    }
    Ok(())
}

struct Run {
    total: Tally,
    times: bool,
    trace: bool,
    groups: u64,
}

impl Run {
    /// Compares `count` tables, the i-th made by `make`, and prints the group's line.
    fn group(
        &mut self,
        name: &str,
        count: usize,
        care: Care,
        mut make: impl FnMut(&mut Rng, usize) -> Table,
    ) -> Result<(), String> {
        self.groups += 1;
        let start = Instant::now();
        let mut rng = Rng::new(0x6E6F_6374 + self.groups);
        let mut tally = Tally::default();
        for i in 0..count {
            let table = make(&mut rng, i);
            let title = format!("{name}, table {i}{}", table.title);
            if self.trace {
                eprintln!("{title}: {:?}", table.shown());
            }
            compare(&table, care, &mut rng, &mut tally)
                .map_err(|text| format!("{title}: {text}"))?;
        }
        println!("{}", tally.line(name));
        if self.times {
            eprintln!("{name}: {:.1} s", start.elapsed().as_secs_f64());
        }
        self.total.add(&tally);
        Ok(())
    }

    /// A group of given tables.
    fn given(&mut self, name: &str, care: Care, tables: &[Named]) -> Result<(), String> {
        self.group(name, tables.len(), care, |_, i| Table::titled(&tables[i]))
    }

    /// A group of tables whose answers are typed in: all speakers are asked for these, and then
    /// for more, the peer by definition where a table has at most `most_branches`.
    fn cases(&mut self, name: &str, most_branches: usize, cases: Vec<Case>) -> Result<(), String> {
        for case in &cases {
            if self.trace {
                eprintln!("{name}, typed: {} {:?}", case.table.name, case.table.words);
            }
            typed::check_case(case)?;
        }
        let care = Care {
            most_branches,
            most_k: 8,
        };
        let tables: Vec<Named> = cases.into_iter().map(|case| case.table).collect();
        self.given(name, care, &tables)
    }

    /// All groups; `times` multiplies the counts of random tables.
    fn all(&mut self, times: usize) -> Result<(), String> {
        let any = typed::MOST_BRANCHES;
        self.cases("starred cases of document 01", any, cases::starred())?;
        self.cases("other cases of document 01", any, cases::unstarred())?;
        self.cases("edges", any, edges::edges())?;
        self.cases("extremes", 1_000, extremes::extremes())?;
        self.listed(times)?;
        self.unlisted(times)
    }

    /// Random tables for the archive and both peers.
    fn listed(&mut self, times: usize) -> Result<(), String> {
        let care = |most_k: usize| Care {
            most_branches: 20_000,
            most_k,
        };
        self.group("small random", 110_000 * times, care(10), |rng, _| {
            Table::whole(random::small(rng))
        })?;
        self.group("medium random", 5_000 * times, care(8), |rng, _| {
            Table::whole(random::medium(rng))
        })?;
        self.group("deep random", 2_000 * times, care(4), |rng, _| {
            Table::whole(random::deep(rng))
        })?;
        self.group("damaged", 60_000 * times, care(3), |rng, i| {
            let words = match i % 16 {
                0 | 1 => random::medium(rng),
                2 => random::deep(rng),
                _ => random::small(rng),
            };
            damage::damaged(rng, &words)
        })
    }

    /// Large tables for the archive and the composed peer.
    fn unlisted(&mut self, times: usize) -> Result<(), String> {
        let care = |most_k: usize| Care {
            most_branches: 0,
            most_k,
        };
        self.group("near 65,535 transitions", 200 * times, care(4), |rng, _| {
            Table::whole(many::near_the_most(rng))
        })?;
        self.given("typical", care(8), &typical::typical())?;
        let full = large::full_size();
        self.given("full size", care(2), &full)?;
        self.given("worst for the order", care(0), &worst::worst())?;
        self.group("large random", 40 * times, care(3), |rng, _| {
            Table::whole(large::random_large(rng))
        })?;
        self.group("large damaged", 150 * times, care(2), |rng, i| {
            damage::damaged(rng, &full[i % full.len()].words)
        })
    }

    /// Every refusal that the judge request can give was met, and of the other requests 15 and 16.
    fn all_refusals_met(&self) -> Result<(), String> {
        self.total.judged.has_all(1..=14)?;
        self.total.others.has_all([15, 16])
    }
}

fn main() -> ExitCode {
    let given = |name: &str| std::env::args().any(|argument| argument == name);
    let (times, trace) = (given("--times"), given("--trace"));
    let mut run = Run {
        total: Tally::default(),
        times,
        trace,
        groups: 0,
    };
    let outcome = run.all(if given("--long") { 10 } else { 1 });
    match outcome.and_then(|()| run.all_refusals_met()) {
        Ok(()) => {
            println!("{}", run.total.line("all"));
            println!("compare: refusals 1 to 16 were met");
            println!("compare: {} tables agree", run.total.tables);
            ExitCode::SUCCESS
        }
        Err(text) => {
            println!("{text}");
            println!("compare: failed");
            ExitCode::FAILURE
        }
    }
}
