// Runs the built program, crates/validator/out/validator, and compares its whole output: on the jobs of tests/jobs with
// their outputs, on every damage of one byte of the job of case P1, on random jobs and an article with the answers of
// the reference, on the jobs that look slow with these and with what is known by construction, and at the limits of the
// input. Each run has the stack of a common shell and a time limit. Each single comparison is one test. The last line
// printed is `N passed, M failed`. Run at the top of the repository.

#[allow(dead_code)]
#[path = "../bench/article.rs"]
mod article;
#[path = "../bench/compact.rs"]
mod compact;
#[path = "support/job_files.rs"]
mod job_files;
#[path = "reference/job_maker.rs"]
mod job_maker;
#[allow(dead_code)]
#[path = "reference/schema_maker.rs"]
mod maker;
#[path = "support/program.rs"]
mod program;
#[path = "reference/check.rs"]
mod reference;
#[allow(dead_code)]
#[path = "../bench/slow.rs"]
mod slow;
#[path = "support/tally.rs"]
mod tally;
#[path = "support/wrong_jobs.rs"]
mod wrong_jobs;

use job_files::job_files;
use job_maker::{large_job, small_job};
use maker::Rng;
use program::{run, run_in_pieces, PROGRAM};
use reference::check;
use reference::job::{self, MAX_FILE};
use std::cell::Cell;
use std::collections::BTreeMap;
use std::fs;
use std::path::Path;
use tally::Tally;
use wrong_jobs::spoiled;

const FAILED: &str = "target/tests/check_failed";

/// Compares the program's output on a file with the expected one; keeps the file where they differ.
fn compare(y: &mut Tally, what: &str, file: &[u8], expected: String) {
    let name: String = what.chars().map(|c| if c.is_alphanumeric() { c } else { '_' }).collect();
    if !y.same(what, run(file), Ok(expected)) {
        fs::create_dir_all(FAILED).ok();
        fs::write(format!("{FAILED}/{name}.job"), file).ok();
    }
}

// Jobs of the repository.

/// The cases of FORMAT, "Cases", that a job can show, each by the beginning of its names. P9 is about classes alone.
const CASES: [&str; 20] = [
    "p1.",
    "p2_",
    "p3_",
    "p4_",
    "p5_",
    "p6_",
    "p7_",
    "p8_",
    "p10_",
    "p11_",
    "p12_",
    "p13_",
    "children_63_",
    "children_64_",
    "schema_rows_512_",
    "schema_rows_513_",
    "start_not_allowed_",
    "habit_first_definition_",
    "habit_text_takes_",
    "habit_space_between_",
];

fn named_jobs(y: &mut Tally) {
    let jobs = job_files(y);
    for case in CASES {
        let there = jobs.iter().any(|job| job.name.starts_with(&format!("tests/jobs/{case}")));
        y.same(&format!("a job for {case}"), there, true);
    }
    for job in jobs {
        compare(y, &job.name, &job.file, job.output);
    }
}

/// Each byte of the job of case P1 changed, left out and doubled, and each beginning of it.
fn every_byte(y: &mut Tally) {
    let text = fs::read("tests/jobs/p1.job").unwrap_or_default();
    y.same("the job of case P1 is there", text.is_empty(), false);
    for k in 0..text.len() {
        let (before, after) = text.split_at(k);
        let (byte, rest) = (after[0], &after[1..]);
        let files = [
            ("changed", [before, &[byte ^ 1], rest].concat()),
            ("left_out", [before, rest].concat()),
            ("doubled", [before, &[byte, byte], rest].concat()),
            ("the_end", before.to_vec()),
        ];
        for (how, file) in files {
            compare(y, &format!("p1 byte {k} {how}"), &file, check(&file));
        }
    }
}

// Random jobs.

/// A file. Of twenty in a row four are valid, six are so or near it, two are large and valid, two are unlike their
/// schema, and six are spoiled: in their text, or with a fault of a code that comes round.
fn random_file(r: &Rng, number: usize) -> Vec<u8> {
    let small = |sort: usize| loop {
        if let Some(job) = small_job(r, sort) {
            return job;
        }
    };
    let code = 1 + (number / 20 % 10) as u64;
    let job = match number % 20 {
        0..=3 => small(1),
        4..=6 => small(2),
        7..=9 => small(3),
        10..=11 => large_job(r).0,
        12..=13 => small(0),
        14..=16 => return spoiled(r, small(1), None),
        _ => return spoiled(r, small(2), Some(code)),
    };
    job::write(&job).into_bytes()
}

fn random_jobs(y: &mut Tally, r: &Rng, number: usize) {
    let mut seen: BTreeMap<String, usize> = BTreeMap::new();
    for k in 0..number {
        let file = random_file(r, k);
        let expected = check(&file);
        let kind = expected.split([',', '\n']).next().unwrap_or_default().to_string();
        *seen.entry(kind).or_default() += 1;
        compare(y, &format!("random {k}"), &file, expected);
    }
    println!("random jobs: {seen:?}");
    for code in [1, 2, 3, 4, 5, 6, 7, 8, 9, 10, 13] {
        let times = seen.get(&format!("refusal={code}")).copied().unwrap_or_default();
        y.same(&format!("code {code} comes about fifty times or more"), times >= 50, true);
    }
    for answer in ["valid=yes", "valid=no"] {
        let times = seen.get(answer).copied().unwrap_or_default();
        y.same(&format!("{answer} comes about in a quarter or more"), times * 4 >= number, true);
    }
}

// Large and slow ones, and the limits of the input.

fn slow_jobs(y: &mut Tally) {
    for slow in slow::slow_jobs() {
        let file = job::write(&slow.job).into_bytes();
        let expected = check(&file);
        let begins = &expected[..expected.len().min(slow.begins.len())];
        y.same(&format!("{} by construction", slow.name), begins, &slow.begins);
        compare(y, &format!("slow {}", slow.name), &file, expected);
    }
}

fn article_job(y: &mut Tally) {
    let file = job::write(&article::article().job).into_bytes();
    let expected = check(&file);
    y.same("the article is valid", expected.starts_with("valid=yes\n"), true);
    for size in [1_000, 4_096, 50_000] {
        y.same("the article in pieces", run_in_pieces(&file, size), Ok(expected.clone()));
    }
    compare(y, "the article", &file, expected);
}

/// Inputs of the length that is read, longer ones, and none. Jobs of that length are among those of tests/jobs.
fn input_limits(y: &mut Tally) {
    for length in [0, MAX_FILE - 1, MAX_FILE, MAX_FILE + 1, 2 * MAX_FILE, 2 * MAX_FILE + 1, 3_000_000] {
        let line = if length > MAX_FILE { 0 } else { 1 };
        compare(y, &format!("{length} bytes"), &vec![b'x'; length], format!("refusal=13,{line}\n"));
    }
}

fn main() {
    let mut y = Tally::default();
    if !y.same("the program is built", Path::new(PROGRAM).exists(), true) {
        y.end();
    }
    let r = Rng(Cell::new(0xD1B5_4A32_D192_ED03));
    named_jobs(&mut y);
    input_limits(&mut y);
    article_job(&mut y);
    every_byte(&mut y);
    random_jobs(&mut y, &r, 6_000);
    slow_jobs(&mut y);
    y.end();
}
