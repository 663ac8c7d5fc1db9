//! Times the archive beside the composed peer: the same requests on the same tables, on the same
//! machine and in one run. Prints a Markdown table of microseconds per call, the median of
//! several samples, and the ratio of the two.

mod archive;
#[allow(dead_code)] // The comparison uses all of the peer, this program only one of its ways.
mod peer;
#[allow(dead_code)] // As above, for the tables.
mod rng;
#[allow(dead_code)]
mod tables;

use peer::{composed, Counts};
use std::process::ExitCode;
use std::time::Instant;
use tables::{large, typical, worst, Named};

/// A sample lasts at least this long, so that the clock's steps don't show, and little longer,
/// so that most samples are not interrupted.
const SAMPLE_SECONDS: f64 = 0.0005;

/// Seconds per call over one sample.
fn sample(calls: usize, call: &mut dyn FnMut() -> u64) -> f64 {
    let start = Instant::now();
    for _ in 0..calls {
        std::hint::black_box(call());
    }
    start.elapsed().as_secs_f64() / calls as f64
}

fn median(mut samples: Vec<f64>) -> f64 {
    samples.sort_by(f64::total_cmp);
    samples[samples.len() / 2]
}

/// One line of the table: both sides' medians, sampled in turns. Slow calls get fewer samples.
fn line(
    title: &str,
    request: &str,
    archive: &mut dyn FnMut() -> u64,
    peer: &mut dyn FnMut() -> u64,
) -> Result<(), String> {
    let (said, expected) = (archive(), peer());
    if said != expected {
        return Err(format!(
            "{title}, {request}: archive {said:#x}, peer {expected:#x}"
        ));
    }
    let calls = |once: f64| (SAMPLE_SECONDS / once.max(1e-9)).ceil() as usize;
    let (first, first_peer) = (sample(1, archive), sample(1, peer));
    let rounds = if first > 0.02 { 3 } else { 31 };
    let mut samples = (Vec::new(), Vec::new());
    for _ in 0..rounds {
        samples.0.push(sample(calls(first), archive));
        samples.1.push(sample(calls(first_peer), peer));
    }
    let (ours, theirs) = (median(samples.0) * 1e6, median(samples.1) * 1e6);
    println!(
        "| {title} | {request} | {ours:.1} | {theirs:.1} | {:.2} |",
        ours / theirs
    );
    Ok(())
}

/// The other requests on an accepted table, with a transition from the middle of the numbers.
fn accepted(title: &str, words: &[u16], counts: Counts) -> Result<(), String> {
    let k = counts.transitions / 2;
    let mut ours = vec![0; counts.chosen];
    let mut theirs = ours.clone();
    line(
        title,
        "order",
        &mut || archive::order(words, &mut ours),
        &mut || archive::filled_word(composed::order(words, &mut theirs)),
    )?;
    let mut our_marks = vec![0; counts.rows];
    let mut their_marks = our_marks.clone();
    line(
        title,
        "transition",
        &mut || archive::transition(words, k, &mut our_marks),
        &mut || archive::filled_word(composed::transition(words, k, &mut their_marks)),
    )?;
    let same = ours == theirs && our_marks == their_marks;
    line(
        title,
        "assignments",
        &mut || archive::assignments(words, k, &mut ours),
        &mut || archive::filled_word(composed::assignments(words, k, &mut theirs)),
    )?;
    if !same || ours != theirs {
        return Err(format!(
            "{title}: the archive and the peer fill differently"
        ));
    }
    Ok(())
}

/// All lines of one table; a refused one is only judged.
fn table(table: &Named) -> Result<(), String> {
    let words = &table.words;
    let judged = composed::judge(words);
    let v = words[0] as usize;
    let r = words[1 + v] as usize;
    let n = words[2 + v + r] as usize;
    let s = words[3 + v + r + 4 * n];
    let outcome = match judged {
        Ok(counts) if counts.transitions == 1 => "1 transition".to_string(),
        Ok(counts) => format!("{} transitions", counts.transitions),
        Err(refusal) => format!("refused {} at {}", refusal.number, refusal.place),
    };
    let title = format!("{} | {v}, {r}, {n}, {s} | {outcome}", table.name);
    line(&title, "judge", &mut || archive::judge(words), &mut || {
        archive::judge_word(composed::judge(words))
    })?;
    judged.map_or(Ok(()), |counts| accepted(&title, words, counts))
}

fn main() -> ExitCode {
    println!(
        "| Table | V, R, N, S | Outcome | Request | Archive, µs | Peer, µs | Archive / peer |"
    );
    println!("|---|---|---|---|---:|---:|---:|");
    let groups = [typical::typical(), large::full_size(), worst::worst()];
    match groups.iter().flatten().try_for_each(table) {
        Ok(()) => ExitCode::SUCCESS,
        Err(text) => {
            println!("{text}");
            ExitCode::FAILURE
        }
    }
}
