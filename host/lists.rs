//! Compares what the lister prints with the listing that a peer prints by itself, byte for byte.
//!
//!     lists LISTER SCRATCH TABLE...
//!
//! SCRATCH is a file that holds the bytes that the lister is given. Each TABLE is an example
//! NAME.table, and what is stored in NAME.listing must be what the peer prints, too. The last line
//! is `lists: N files listed alike` with exit status 0; otherwise the first difference is shown and
//! the exit status is 1.

mod listing;
#[allow(dead_code)] // The comparison uses all of these files, this program a part.
mod met;
#[allow(dead_code)]
mod peer;
mod pieces;
#[allow(dead_code)]
mod rng;
#[allow(dead_code)]
mod tables;

use listing::{listing, MOST_BYTES};
use met::Met;
use rng::Rng;
use std::fs::{self, File};
use std::path::Path;
use std::process::{Command, ExitCode, Output};
use tables::cases::{self, Case};
use tables::extremes::{extremes, longest_accepted, longest_refused};
use tables::Formula::{And, Or};
use tables::{damage, edges, large, many, random, set, test, typical, worst, write, Named};

/// The words of a table as a file has them.
fn bytes_of(words: &[u16]) -> Vec<u8> {
    words.iter().flat_map(|word| word.to_le_bytes()).collect()
}

/// The first place where what the lister said is not what the peer said.
fn difference(said: &[u8], wanted: &[u8]) -> Option<String> {
    if said == wanted {
        return None;
    }
    let same = said.iter().zip(wanted).take_while(|(a, b)| a == b).count();
    let line = 1 + wanted[..same].iter().filter(|&&byte| byte == b'\n').count();
    let near = |text: &[u8]| {
        let part = &text[same.saturating_sub(30)..text.len().min(same + 30)];
        String::from_utf8_lossy(part).into_owned()
    };
    Some(format!(
        "byte {same}, in line {line}: lister {:?}, peer {:?}; {} and {} bytes in all",
        near(said),
        near(wanted),
        said.len(),
        wanted.len()
    ))
}

struct Run {
    lister: String,
    scratch: String,
    files: u64,
    longest_in: usize,
    longest_out: usize,
    met: Met,
}

impl Run {
    /// Lists bytes that stand in a file.
    fn file(&mut self, title: &str, bytes: &[u8]) -> Result<(), String> {
        let failed = |error| format!("{title}: {error}");
        fs::write(&self.scratch, bytes).map_err(failed)?;
        let input = File::open(&self.scratch).map_err(failed)?;
        let output = Command::new(&self.lister).stdin(input).output();
        self.note(title, bytes, output.map_err(failed)?)
    }

    /// Lists bytes that come through a pipe, so many at a time.
    fn in_pieces(&mut self, title: &str, bytes: &[u8], size: usize) -> Result<(), String> {
        let title = format!("{title}, {size} bytes at a time");
        let output = pieces::fed(&self.lister, bytes, size);
        let output = output.map_err(|error| format!("{title}: {error}"))?;
        self.note(&title, bytes, output)
    }

    /// Holds what the lister printed to the peer's listing. It writes nothing on standard error.
    fn note(&mut self, title: &str, bytes: &[u8], output: Output) -> Result<(), String> {
        let wanted = listing(bytes);
        if let Some(text) = difference(&output.stdout, wanted.as_bytes()) {
            return Err(format!("{title}: {text}"));
        }
        if !output.status.success() || !output.stderr.is_empty() {
            let said = String::from_utf8_lossy(&output.stderr);
            return Err(format!(
                "{title}: {}, standard error {said:?}",
                output.status
            ));
        }
        let refused = wanted.strip_prefix("refused ");
        let number = refused.and_then(|rest| rest.split(' ').next()?.parse().ok());
        self.met.note(number.unwrap_or(0));
        self.files += 1;
        self.longest_in = self.longest_in.max(bytes.len());
        self.longest_out = self.longest_out.max(wanted.len());
        Ok(())
    }

    fn table(&mut self, table: &Named) -> Result<(), String> {
        self.file(&table.name, &bytes_of(&table.words))
    }

    /// An example; its stored listing is the peer's.
    fn example(&mut self, path: &str) -> Result<(), String> {
        let stored = Path::new(path).with_extension("listing");
        let read = |path: &Path| fs::read(path).map_err(|e| format!("{}: {e}", path.display()));
        let bytes = read(Path::new(path))?;
        let listed = listing(&bytes);
        if let Some(text) = difference(&read(&stored)?, listed.as_bytes()) {
            let text = text.replace("lister", "stored");
            return Err(format!("{}: {text}", stored.display()));
        }
        self.file(path, &bytes)
    }

    /// The tables of the comparison whose answers are typed in, document 01's 65,535 transitions
    /// among them, and the large ones whose listings have at most some megabytes.
    fn given(&mut self) -> Result<(), String> {
        let cases = [
            cases::starred(),
            cases::unstarred(),
            edges::edges(),
            extremes(),
        ];
        for Case { table, .. } in cases.iter().flatten() {
            self.table(table)?;
        }
        let large = [typical::typical(), large::full_size(), worst::worst()];
        for table in large.iter().flatten() {
            let labels = peer::composed::judge(&table.words)
                .map_or(0, |counts| counts.transitions * counts.rows);
            if labels < 2_500_000 {
                self.table(table)?;
            }
        }
        Ok(())
    }

    /// The longest tables: 29,700 words, which only a refused one has, and 27,651, the most that an
    /// accepted one has. What is at their ends decides.
    fn longest(&mut self) -> Result<(), String> {
        let refused = longest_refused();
        let mut descends = refused.clone();
        descends[29_699] = 4_094;
        let one_more = [&refused[..], &[0]].concat();
        self.wanted("refused 9 4095\n", &descends)?;
        self.wanted("refused 3 29700\n", &one_more)?;
        self.wanted("refused 1 29699\n", &refused[..29_699])?;
        self.wanted("refused 10 0\n", &refused)?;
        let accepted = longest_accepted();
        self.wanted("accepted 1024 4096 2047 1024\n", &accepted)?;
        self.in_pieces("27,651 words", &bytes_of(&accepted), 4_097)?;
        self.in_pieces("27,651 words", &bytes_of(&accepted), 999)
    }

    /// Lists a table whose first line is typed in.
    fn wanted(&mut self, first: &str, words: &[u16]) -> Result<(), String> {
        let title = format!("{} words: {}", words.len(), first.trim_end());
        let bytes = bytes_of(words);
        if !listing(&bytes).starts_with(first) {
            return Err(format!("{title}: the peer says otherwise"));
        }
        self.file(&title, &bytes)
    }

    /// Files at the most bytes that count: a table and zeros after it, and zeros alone.
    fn long_files(&mut self) -> Result<(), String> {
        for start in [
            bytes_of(&longest_accepted()),
            bytes_of(&cases::p(&[1, 4, 6])),
            Vec::new(),
        ] {
            for len in [
                MOST_BYTES - 2,
                MOST_BYTES - 1,
                MOST_BYTES,
                MOST_BYTES + 1,
                MOST_BYTES + 2,
                1_000_001,
            ] {
                let mut bytes = start.clone();
                bytes.resize(len, 0);
                let title = format!("a table of {} bytes in a file of {len}", start.len());
                self.file(&title, &bytes)?;
                self.in_pieces(&title, &bytes, 8_191)?;
            }
        }
        Ok(())
    }

    /// Listings whose lengths lie on both sides of whole buffers, which have 65,536 bytes, and
    /// every number of lines that the first three buffers can take.
    fn long_listings(&mut self) -> Result<(), String> {
        for (len, arms, common, tests) in LENGTHS {
            let bytes = bytes_of(&with_lines(arms, common, tests));
            if listing(&bytes).len() != len {
                return Err(format!("the listing has not {len} bytes"));
            }
            self.file(&format!("a listing of {len} bytes"), &bytes)?;
        }
        for lines in 1..=64 {
            let bytes = bytes_of(&with_lines(lines, 1, 700));
            self.file(&format!("{lines} lines of about 3,000 bytes"), &bytes)?;
        }
        Ok(())
    }

    /// Random tables, damaged ones, cut ones, and bytes that are no table.
    fn random(&mut self) -> Result<(), String> {
        let mut rng = Rng::new(0x6C69_7374);
        for i in 0..400 {
            let sound = match i % 4 {
                0 => random::medium(&mut rng),
                _ => random::small(&mut rng),
            };
            let words = match i % 4 {
                0 | 1 => sound,
                _ => damage::damaged(&mut rng, &sound).shown().to_vec(),
            };
            let mut bytes = bytes_of(&words);
            if i % 8 == 7 {
                bytes.truncate(rng.below(bytes.len() + 1));
            }
            self.file(&format!("random {i}: {words:?}"), &bytes)?;
        }
        for i in 0..40 {
            let bytes: Vec<u8> = (0..rng.below(200)).map(|_| rng.below(4) as u8).collect();
            self.in_pieces(&format!("bytes {i}: {bytes:?}"), &bytes, rng.between(1, 9))?;
        }
        for i in 0..6 {
            let words = many::near_the_most(&mut rng);
            self.file(&format!("near 65,535 transitions {i}"), &bytes_of(&words))?;
        }
        let bytes = bytes_of(&cases::p(&[1, 4, 6]));
        self.in_pieces("P", &bytes, 1)
    }

    /// Every refusal that the lister can give was met, and accepted tables were.
    fn all_met(&self) -> Result<(), String> {
        self.met.has_all((0..=14).chain([17]))
    }
}

/// Listings of these lengths: bytes, and the arms, common variables and tests of `with_lines`.
const LENGTHS: [(usize, usize, usize, usize); 7] = [
    (65_535, 19, 6, 859),
    (65_536, 22, 5, 742),
    (65_537, 21, 4, 780),
    (131_071, 47, 8, 676),
    (131_072, 43, 1, 757),
    (131_073, 44, 10, 721),
    (196_608, 42, 0, 1_117),
];

/// A table with a line for each of the arms; every line has the common variables and the tests.
fn with_lines(arms: usize, common: usize, tests: usize) -> Vec<u16> {
    let mut children = vec![Or(vec![set(0, &[]); arms])];
    children.extend((1..=common).map(|variable| set(variable, &[])));
    children.extend(vec![test(&[]); tests]);
    write(1 + common, &And(children))
}

fn main() -> ExitCode {
    let arguments: Vec<String> = std::env::args().skip(1).collect();
    let [lister, scratch, examples @ ..] = &arguments[..] else {
        eprintln!("usage: lists LISTER SCRATCH TABLE...");
        return ExitCode::from(2);
    };
    let mut run = Run {
        lister: lister.clone(),
        scratch: scratch.clone(),
        files: 0,
        longest_in: 0,
        longest_out: 0,
        met: Met::default(),
    };
    let outcome = examples
        .iter()
        .try_for_each(|path| run.example(path))
        .and_then(|()| run.given())
        .and_then(|()| run.longest())
        .and_then(|()| run.long_files())
        .and_then(|()| run.long_listings())
        .and_then(|()| run.random())
        .and_then(|()| run.all_met());
    if let Err(text) = outcome {
        println!("{text}");
        println!("lists: failed");
        return ExitCode::FAILURE;
    }
    println!(
        "lists: {} examples; the longest file has {} bytes, the longest listing {}",
        examples.len(),
        run.longest_in,
        run.longest_out
    );
    println!("lists: accepted, 1 to 14 and 17 were met");
    println!("lists: {} files listed alike", run.files);
    ExitCode::SUCCESS
}
