// SPDX-License-Identifier: Apache-2.0 OR MIT
//! Times ways to answer every entry of a file, on typical, large and hostile
//! files.
//!
//! Each time is taken in a process of its own, so that a file that takes too
//! long can be given up.

pub mod files;

use files::Sample;
use model_file::decode;
use oracle::{accepts, Model};
use std::hint::black_box;
use std::path::Path;
use std::process::{Child, Command, ExitCode, Stdio};
use std::time::{Duration, Instant};

/// A way to answer every entry of a file, and the time it takes.
pub struct Measure {
    pub name: &'static str,
    pub time: fn(&[u8]) -> Duration,
}

/// The original on a tree that is built already.
pub const READY_TREE: Measure = Measure {
    name: "ready tree",
    time: on_a_ready_tree,
};

/// The original from the bytes of the file.
pub const FROM_BYTES: Measure = Measure {
    name: "from bytes",
    time: from_bytes,
};

fn on_a_ready_tree(file: &[u8]) -> Duration {
    let contract = decode(file).expect("the samples are model files");
    let model = Model::build(&contract);
    repeated(|| accepted(&model))
}

fn from_bytes(file: &[u8]) -> Duration {
    repeated(|| {
        let contract = decode(black_box(file)).expect("the samples are model files");
        accepted(&Model::build(&contract))
    })
}

/// The number of accepted entries.
fn accepted(model: &Model) -> usize {
    let accepted = |entry: &&&_| accepts(black_box(model), black_box(entry));
    model.entries.iter().filter(accepted).count()
}

/// The time of one run: the best of the means over a fiftieth of a second, or
/// over one run where that takes longer, in a fifth of a second. The best, since
/// whatever else the machine does only adds to a time.
pub fn repeated(mut run: impl FnMut() -> usize) -> Duration {
    let start = Instant::now();
    let mut best = mean(&mut run);
    while start.elapsed() < Duration::from_millis(200) {
        best = best.min(mean(&mut run));
    }
    best
}

fn mean(run: &mut impl FnMut() -> usize) -> Duration {
    let start = Instant::now();
    let mut runs = 0;
    while runs == 0 || start.elapsed() < Duration::from_millis(20) {
        black_box(run());
        runs += 1;
    }
    start.elapsed() / runs
}

const USAGE: &str = "usage: [--limit SECONDS]   the table; a time above the limit (60) is given up
       --write FOLDER     write the files instead";

/// The program: a table with a column for each measure; every column after the
/// first also gets its ratio to the first.
pub fn run(measures: &[Measure]) -> ExitCode {
    let arguments: Vec<String> = std::env::args().skip(1).collect();
    match arguments.iter().map(String::as_str).collect::<Vec<_>>()[..] {
        [] => table(measures, Duration::from_secs(60)),
        ["--limit", seconds] => match seconds.parse() {
            Ok(seconds) => table(measures, Duration::from_secs(seconds)),
            Err(_) => return usage(),
        },
        ["--write", folder] => write(Path::new(folder)),
        ["--one", sample, measure] => one(measures, sample, measure),
        _ => return usage(),
    }
    ExitCode::SUCCESS
}

fn usage() -> ExitCode {
    eprintln!("{USAGE}");
    ExitCode::from(2)
}

fn table(measures: &[Measure], limit: Duration) {
    print!("{:36} {:>6} {:>8}", "file", "bytes", "entries");
    for measure in measures {
        print!(" {:>12}", measure.name);
    }
    println!();
    for sample in files::samples() {
        let file = sample.file();
        let contract = decode(&file).expect("the samples are model files");
        let entries = Model::build(&contract).entries.len();
        print!("{:36} {:>6} {entries:>8}", sample.name, file.len());
        row(measures, &sample, limit);
        println!();
    }
}

/// How often each time is taken that is short beside the limit. The measures
/// take turns, so that a spell in which the machine is slow does not fall on one
/// of them alone.
const TURNS: u32 = 10;

/// The times of one file, and their ratios to the first.
fn row(measures: &[Measure], sample: &Sample, limit: Duration) {
    let times = best_times(measures, sample, limit);
    let first = times.iter().flatten().next().map(Duration::as_secs_f64);
    for (place, time) in times.iter().enumerate() {
        match (time, first) {
            (Some(time), Some(first)) if place > 0 => {
                print!(" {:>12} {:>5.2}", shown(*time), time.as_secs_f64() / first)
            }
            (Some(time), _) => print!(" {:>12}", shown(*time)),
            (None, _) => print!(" {:>12}", format!("> {} s", limit.as_secs())),
        }
    }
}

/// The best time of each measure; nothing where one takes too long.
fn best_times(measures: &[Measure], sample: &Sample, limit: Duration) -> Vec<Option<Duration>> {
    let timed = |measure: &Measure| in_a_process(sample.name, measure.name, limit);
    let mut best: Vec<Option<Duration>> = measures.iter().map(timed).collect();
    for _ in 1..TURNS {
        for (measure, best) in measures.iter().zip(&mut best) {
            if best.is_some_and(|time| time < limit / TURNS) {
                *best = (*best).min(timed(measure));
            }
        }
    }
    best
}

fn shown(time: Duration) -> String {
    match time.as_nanos() {
        nanoseconds @ 0..=99_999 => format!("{nanoseconds} ns"),
        nanoseconds => format!("{:.3} ms", nanoseconds as f64 / 1e6),
    }
}

/// The time of a measure on a sample, or nothing if it takes too long.
fn in_a_process(sample: &str, measure: &str, limit: Duration) -> Option<Duration> {
    let program = std::env::current_exe().expect("this program has a path");
    let child = Command::new(program)
        .args(["--one", sample, measure])
        .stdout(Stdio::piped())
        .spawn()
        .expect("this program can be started again");
    let output = ended(child, limit)?
        .wait_with_output()
        .expect("it has ended");
    let text = String::from_utf8(output.stdout).expect("it prints a number");
    let nanoseconds = text.trim().parse().expect("it prints a number");
    Some(Duration::from_nanos(nanoseconds))
}

/// The process when it has ended; nothing if it was given up.
fn ended(mut child: Child, limit: Duration) -> Option<Child> {
    let start = Instant::now();
    while child.try_wait().expect("it was started").is_none() {
        if start.elapsed() > limit {
            child.kill().expect("it was started");
            child.wait().expect("it was started");
            return None;
        }
        std::thread::sleep(Duration::from_millis(5));
    }
    Some(child)
}

/// One time, in nanoseconds: what the processes of the table print.
fn one(measures: &[Measure], sample: &str, measure: &str) {
    let samples = files::samples();
    let sample = samples.iter().find(|s| s.name == sample);
    let measure = measures.iter().find(|m| m.name == measure);
    let (Some(sample), Some(measure)) = (sample, measure) else {
        panic!("no such sample or measure");
    };
    println!("{}", (measure.time)(&sample.file()).as_nanos());
}

fn write(folder: &Path) {
    for sample in files::samples() {
        let path = folder.join(sample.name.replace(", ", "-").replace(' ', "-"));
        std::fs::write(&path, sample.file())
            .unwrap_or_else(|why| panic!("{} cannot be written: {why}", path.display()));
    }
}
