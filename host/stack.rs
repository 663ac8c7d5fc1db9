//! How much stack a call of the archive takes, and that the header's figure is at least twice as much.
//!
//! No proof bounds the stack, so it is measured. Each request about the deepest, largest and hardest tables of the comparison runs on
//! a thread whose stack is memory of ours filled with a pattern; the lowest byte that has changed says how far down the call went.
//! The last line names the most. The exit status is 0 where `NOCTURENC_STACK_BYTES` of include/nocturenc.h is at least twice that.

#[allow(dead_code)] // The comparison uses all of these files, this program a part.
mod archive;
#[allow(dead_code)]
mod peer;
#[allow(dead_code)]
mod rng;
#[allow(dead_code)]
mod tables;

use peer::composed;
use rng::Rng;
use std::ffi::c_void;
use std::process::ExitCode;
use tables::Formula::{self, And, Or};
use tables::{
    cases, damage, edges, exists, extremes, if_else, large, named, random, set, typical, worst,
    write, Named,
};

/// The figure that the header states.
fn stated() -> Option<usize> {
    let text = include_str!("../include/nocturenc.h");
    let line = text
        .lines()
        .find_map(|line| line.strip_prefix("#define NOCTURENC_STACK_BYTES "))?;
    line.trim().parse().ok()
}

/// A thread with its stack in memory of the caller's, as POSIX has it.
mod posix {
    use std::ffi::{c_int, c_ulong, c_void};

    /// `pthread_attr_t` of Linux on x86-64 has 56 bytes.
    #[repr(C, align(16))]
    pub struct Attributes(pub [u8; 64]);

    extern "C" {
        pub fn pthread_attr_init(attributes: *mut Attributes) -> c_int;
        pub fn pthread_attr_setstack(
            attributes: *mut Attributes,
            lowest: *mut c_void,
            size: usize,
        ) -> c_int;
        pub fn pthread_create(
            thread: *mut c_ulong,
            attributes: *const Attributes,
            start: extern "C" fn(*mut c_void) -> *mut c_void,
            argument: *mut c_void,
        ) -> c_int;
        pub fn pthread_join(thread: c_ulong, result: *mut *mut c_void) -> c_int;
    }
}

/// One request, with room for any answer.
struct Call<'a> {
    table: &'a [u16],
    request: &'static str,
    k: usize,
    words: Vec<u16>,
    bytes: Vec<u8>,
    /// An address in the frame that makes the call.
    start: usize,
}

extern "C" fn make(argument: *mut c_void) -> *mut c_void {
    // SAFETY: `depth` hands over a call that lives until the thread has ended, and does not touch it before.
    let call = unsafe { &mut *(argument as *mut Call) };
    let here = 0u8;
    call.start = std::ptr::from_ref(std::hint::black_box(&here)) as usize;
    let answer = match call.request {
        "judge" => archive::judge(call.table),
        "order" => archive::order(call.table, &mut call.words),
        "transition" => archive::transition(call.table, call.k, &mut call.bytes),
        _ => archive::assignments(call.table, call.k, &mut call.words),
    };
    std::hint::black_box(answer);
    std::ptr::null_mut()
}

/// No table makes a call write a row of these.
const PATTERN: u128 = 0xA5C3_96E1_5A3C_691E_A5C3_96E1_5A3C_691E;

/// How far below its caller's frame a call went, in bytes.
fn depth(stack: &mut [u128], call: &mut Call) -> Result<usize, String> {
    stack.fill(PATTERN);
    let lowest = stack.as_mut_ptr() as *mut c_void;
    let size = std::mem::size_of_val(stack);
    let mut attributes = posix::Attributes([0; 64]);
    let (mut thread, mut result) = (0, std::ptr::null_mut());
    // SAFETY: the stack and the call outlive the thread, which is joined here.
    let failed = unsafe {
        posix::pthread_attr_init(&mut attributes) != 0
            || posix::pthread_attr_setstack(&mut attributes, lowest, size) != 0
            || posix::pthread_create(&mut thread, &attributes, make, (call as *mut Call).cast())
                != 0
            || posix::pthread_join(thread, &mut result) != 0
    };
    let untouched = stack.iter().take_while(|&&word| word == PATTERN).count() * 16;
    match (failed, untouched) {
        (true, _) => Err("no thread could be had".to_string()),
        (_, 0) => Err("the whole stack was used".to_string()),
        _ => Ok(call.start - (lowest as usize + untouched)),
    }
}

/// As deep as a table can be, by each kind of row.
fn deepest() -> Vec<Named> {
    let around = |name: &str, wrap: fn(Formula) -> Formula| {
        let formula = (0..62).fold(set(0, &[]), |inner, _| wrap(inner));
        named(&format!("62 times {name}"), write(1, &formula))
    };
    vec![
        around("a conjunction", |inner| And(vec![inner])),
        around("a second disjunct", |inner| Or(vec![set(0, &[]), inner])),
        around("exists", |inner| exists(&[], inner)),
        around("THEN", |inner| if_else(&[], inner, set(0, &[]))),
        around("ELSE", |inner| if_else(&[], set(0, &[]), inner)),
    ]
}

/// The tables that are asked about.
fn all_tables() -> Vec<Named> {
    let mut rng = Rng::new(0x7374_6163);
    let mut all = deepest();
    for cases in [
        cases::starred(),
        cases::unstarred(),
        edges::edges(),
        extremes::extremes(),
    ] {
        all.extend(cases.into_iter().map(|case| case.table));
    }
    all.extend(typical::typical());
    all.extend(large::full_size());
    all.extend(worst::worst());
    for i in 0..200 {
        let words = random::deep(&mut rng);
        let damaged = damage::damaged(&mut rng, &words);
        all.push(named(&format!("deep {i}"), words));
        all.push(named(
            &format!("deep {i}, damaged"),
            damaged.shown().to_vec(),
        ));
    }
    all
}

/// The most that any request about any table took, and the request's name. The last transition is asked for, or number 0 of none.
fn most(stack: &mut [u128]) -> Result<(usize, String, usize), String> {
    let (mut most, mut by, mut calls) = (0, String::new(), 0);
    for table in all_tables() {
        let last =
            composed::judge(&table.words).map_or(0, |counts| counts.transitions.saturating_sub(1));
        for request in ["judge", "order", "transition", "assignments"] {
            let (words, bytes) = (vec![0; peer::MOST_CHOSEN], vec![0; peer::MOST_ROWS]);
            let mut call = Call {
                table: &table.words,
                request,
                k: last,
                words,
                bytes,
                start: 0,
            };
            let took = depth(stack, &mut call)?;
            calls += 1;
            if took > most {
                (most, by) = (took, format!("{request}, {}", table.name));
            }
        }
    }
    Ok((most, by, calls))
}

fn main() -> ExitCode {
    let Some(stated) = stated() else {
        println!("stack: include/nocturenc.h states no NOCTURENC_STACK_BYTES");
        return ExitCode::FAILURE;
    };
    // Four times as much is lent, so that a call that needs more than is stated is seen and not cut off.
    let mut stack = vec![PATTERN; 4 * stated / 16];
    match most(&mut stack) {
        Ok((most, by, calls)) => {
            println!(
                "stack: {calls} calls took at most {most} bytes ({by}); the header states {stated}"
            );
            ExitCode::from((2 * most > stated) as u8)
        }
        Err(text) => {
            println!("stack: {text}");
            ExitCode::FAILURE
        }
    }
}
