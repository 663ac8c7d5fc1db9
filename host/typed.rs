//! Cases whose answers are typed in, asked of the two peers and of the archive.

use crate::archive;
use crate::asking::{ask, blank, dispute, Answer, Request, Speaker, GUARD};
use crate::peer::definition::Reading;
use crate::peer::{Counts, Refusal};
use crate::tables::cases::{Case, Expectation, Expected};

/// Enough branches for every case; the largest has 65,536.
pub const MOST_BRANCHES: usize = 70_000;

/// The same buffers for every speaker.
const FILLING: u64 = 1;

/// Asks all speakers for a case's typed answers.
pub fn check_case(case: &Case) -> Result<(), String> {
    let words = &case.table.words;
    let reading = Reading::of(words, MOST_BRANCHES);
    let definition = reading.iter().map(Speaker::Definition);
    for speaker in definition.chain([Speaker::Composed, Speaker::Archive]) {
        for (request, typed) in expected(case) {
            let said = ask(&speaker, words, request, FILLING);
            if said != typed {
                let answers = [("typed in", &typed), (speaker.name(), &said)];
                return Err(format!(
                    "{}: {}",
                    case.table.name,
                    dispute(words, request, &answers)
                ));
            }
        }
    }
    Ok(())
}

/// The requests of a case with their whole answers.
fn expected(case: &Case) -> Vec<(Request, Answer)> {
    match &case.expected {
        Expected::Refused { number, place } => {
            let asked = [
                Request::Judge,
                Request::Order { len: 3 },
                Request::Transition { k: 0, len: 9 },
                Request::Assignments { k: 7, len: 0 },
            ];
            asked
                .map(|request| refused(request, *number, *place))
                .to_vec()
        }
        Expected::Accepted {
            counts,
            order,
            transitions,
        } => {
            let mut asked = judge_and_order(counts, order);
            asked.extend(
                transitions
                    .iter()
                    .flat_map(|expected| transition(counts, expected)),
            );
            asked
        }
    }
}

/// A refusal leaves the buffer as it was.
fn refused(request: Request, number: u8, place: usize) -> (Request, Answer) {
    let word = archive::filled_word(Err(Refusal { number, place }));
    (
        request,
        Answer {
            word,
            ..blank(request, FILLING)
        },
    )
}

/// Words filled from the start of the lent slice on.
fn words(request: Request, values: &[u16]) -> (Request, Answer) {
    let mut answer = blank(request, FILLING);
    answer.word = values.len() as u64;
    answer.words[GUARD..][..values.len()].copy_from_slice(values);
    (request, answer)
}

fn judge_and_order(counts: &[usize; 4], order: &[u16]) -> Vec<(Request, Answer)> {
    let [variables, rows, chosen, transitions] = *counts;
    let judged = archive::judge_word(Ok(Counts {
        variables,
        rows,
        chosen,
        transitions,
    }));
    let mut judge = blank(Request::Judge, FILLING);
    judge.word = judged;
    let mut asked = vec![(Request::Judge, judge)];
    asked.extend([chosen, chosen + 2].map(|len| words(Request::Order { len }, order)));
    // Nothing is too short for an empty order, and without transitions 15 comes before 16.
    if let Some(len) = chosen.checked_sub(1) {
        asked.push(refused(Request::Order { len }, 16, chosen));
    }
    if transitions > 0 {
        let (k, len) = (0, rows - 1);
        asked.push(refused(Request::Transition { k, len }, 16, rows));
        let len = variables - 1;
        asked.push(refused(Request::Assignments { k, len }, 16, variables));
    }
    for len in [0, rows] {
        let k = transitions;
        asked.push(refused(Request::Transition { k, len }, 15, k));
        asked.push(refused(Request::Assignments { k, len }, 15, k));
    }
    asked
}

/// One transition's marks and assignments.
fn transition(counts: &[usize; 4], expected: &Expectation) -> [(Request, Answer); 2] {
    let [variables, rows, ..] = *counts;
    let k = expected.k;
    let request = Request::Transition { k, len: rows + 3 };
    let mut marks = Answer {
        word: rows as u64,
        ..blank(request, FILLING)
    };
    for (label, mark) in marks.bytes[GUARD..][..rows].iter_mut().enumerate() {
        *mark = expected.keep.contains(&(label as u16)) as u8;
    }
    let len = variables + 1;
    [
        (request, marks),
        words(Request::Assignments { k, len }, &expected.assign),
    ]
}
