// SPDX-License-Identifier: Apache-2.0 OR MIT
//! How much stack the proved functions need on the files of the benchmark. The
//! stack below a call is painted before it, and afterwards the paint tells how
//! deep the call went.

use bench::files::{samples, Sample};
use std::hint::black_box;
use std::process::{Command, Stdio};
use zevdrak::{contract_into, listing_into, verdict, COVERS, LISTING, RECORDS};

/// The most stack that the verdicts on all entries by one call may need.
const CONTRACT_LIMIT: usize = 96 * 1024;

/// The stack of a thread in which is measured: more than is painted.
const MEASURED_STACK: usize = 1024 * 1024;
/// How many words are painted, and with what.
const PAINTED: usize = 64 * 1024;
const PAINT: usize = 0xA5A5_A5A5_A5A5_A5A5;
/// What stays unpainted, for the functions that paint.
const GAP: usize = 4096;

/// The bytes of stack that some work needs, from this function's frame on.
#[inline(never)]
fn stack_of(work: impl FnOnce()) -> usize {
    let here = black_box(0usize);
    let frame = std::ptr::from_ref(&here).addr();
    let top = (frame - GAP) / size_of::<usize>() * size_of::<usize>();
    let place = |word: usize| std::ptr::with_exposed_provenance_mut::<usize>(top - 8 * word);
    // The words stand in this thread's stack, below what any function uses now.
    (0..PAINTED).for_each(|word| unsafe { place(word).write_volatile(PAINT) });
    work();
    let is_painted = |word: &usize| unsafe { place(*word).read_volatile() == PAINT };
    let untouched = (0..PAINTED).rev().take_while(is_painted).count();
    assert!(0 < untouched, "more is needed than is painted");
    frame - top + 8 * (PAINTED - untouched)
}

/// A function that is measured, on each file as often as it has entries.
#[derive(Clone, Copy, Debug, PartialEq)]
enum Function {
    Contract,
    Verdict,
    Listing,
}

/// The stack that a function needs on a file: the most of all its entries. What
/// it writes does not stand in that stack.
fn needed(function: Function, file: &[u8]) -> usize {
    let mut records = Box::new([0; RECORDS]);
    let mut covers = [0; COVERS];
    let mut lines = vec![0; LISTING];
    match function {
        Function::Contract => stack_of(|| {
            black_box(contract_into(black_box(file), &mut records));
        }),
        Function::Listing => stack_of(|| {
            black_box(listing_into(black_box(file), &mut lines));
        }),
        Function::Verdict => {
            let entries = contract_into(file, &mut records).1.count();
            let of_entry = |entry| {
                stack_of(|| {
                    black_box(verdict(black_box(file), entry, &mut covers));
                })
            };
            (0..entries).map(of_entry).max().unwrap_or(0)
        }
    }
}

/// Runs some work in a thread of its own.
fn on_a_stack<T: Send + 'static>(size: usize, work: impl FnOnce() -> T + Send + 'static) -> T {
    let thread = std::thread::Builder::new().stack_size(size).spawn(work);
    thread.unwrap().join().unwrap()
}

/// The file on which a function needs the most stack, and how much.
fn deepest(function: Function) -> (usize, Sample) {
    on_a_stack(MEASURED_STACK, move || {
        let measured = |sample: Sample| (needed(function, &sample.file()), sample);
        let all = samples().into_iter().map(measured);
        let (bytes, sample) = all
            .max_by_key(|(bytes, _)| *bytes)
            .expect("there are files");
        println!("{function:?}: {bytes} bytes on \"{}\"", sample.name);
        (bytes, sample)
    })
}

#[test]
fn contract() {
    let (bytes, sample) = deepest(Function::Contract);
    assert!(
        bytes < CONTRACT_LIMIT,
        "{bytes} bytes on \"{}\"",
        sample.name
    );
}

#[test]
fn verdict_and_listing() {
    deepest(Function::Verdict);
    deepest(Function::Listing);
}

/// What a thread needs beside the work.
const BESIDE: usize = 8 * 1024;

/// The measure is right: with a little more stack than is measured the call
/// returns, and with a little less the process ends.
#[test]
fn a_smaller_stack_is_too_small() {
    let (bytes, sample) = deepest(Function::Contract);
    assert!(survives(&sample, bytes + BESIDE));
    assert!(!survives(&sample, bytes - BESIDE));
}

/// Whether a process of its own, which calls the function in a thread with so
/// much stack, ends well.
fn survives(sample: &Sample, stack: usize) -> bool {
    let program = std::env::current_exe().expect("this program has a path");
    let ended = Command::new(program)
        .args(["--exact", "on_a_small_stack", "--ignored"])
        .env("SAMPLE", sample.name)
        .env("STACK", stack.to_string())
        .stdout(Stdio::null())
        .stderr(Stdio::null())
        .status();
    ended.expect("this program can be started again").success()
}

/// What the processes of the test above run.
#[test]
#[ignore = "it runs in a process of its own, and may end it"]
fn on_a_small_stack() {
    let asked = |name| std::env::var(name).expect("the test above says it");
    let (name, stack) = (asked("SAMPLE"), asked("STACK"));
    let named = samples().into_iter().find(|sample| sample.name == name);
    let file = named.expect("there is such a file").file();
    on_a_stack(stack.parse().expect("it is a number"), move || {
        black_box(contract_into(&file, &mut Box::new([0; RECORDS])));
    });
}
