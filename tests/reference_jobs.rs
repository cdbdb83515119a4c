// Runs every job of tests/jobs through the reference for the whole program and compares with the output beside it; on
// random jobs compares matching by derivatives with a search over the inference rules, and documents made along a
// schema with the answer valid. Each single comparison is one test. The last line printed is `N passed, M failed`.
// Run at the top of the repository.

#[path = "support/job_files.rs"]
mod job_files;
#[path = "reference/job_maker.rs"]
mod job_maker;
#[allow(dead_code)]
#[path = "reference/schema_maker.rs"]
mod maker;
#[path = "reference/check.rs"]
mod reference;
#[path = "support/tally.rs"]
mod tally;

use job_files::job_files;
use job_maker::{large_job, small_job};
use maker::Rng;
use reference::brute::by_search;
use reference::job::{self, Job};
use reference::matching::{by_derivatives, Whitespace};
use reference::{answer, check};
use std::cell::Cell;
use tally::Tally;

fn named_jobs(y: &mut Tally) {
    for job in job_files(y) {
        y.same(&job.name, check(&job.file), job.output);
    }
}

fn has_list(job: &Job) -> bool {
    job.schema.chunks(3).any(|row| row[0] == 6)
}

/// Derivatives, with whitespace by the rules and left out, against the search.
fn small_jobs(y: &mut Tally, r: &Rng, number: usize) {
    let (mut valid, mut pairs, mut rows, mut lists, mut done) = (0, 0, 0, 0, 0);
    while done < number {
        let Some(job) = small_job(r, done % 4) else { continue };
        done += 1;
        let expected = by_search(&job);
        valid += usize::from(expected.valid);
        pairs += expected.pairs.len();
        rows += job.instance.len() / 5;
        lists += usize::from(has_list(&job));
        let text = job::write(&job);
        y.same(&text, &by_derivatives(&job, Whitespace::ByRule), &expected);
        y.same(&text, &by_derivatives(&job, Whitespace::LeftOut), &expected);
        y.same(&text, check(text.as_bytes()), answer(&expected));
    }
    println!("small jobs: {number}, valid {valid}, with lists {lists}, rows {rows}, pairs {pairs}");
    y.same("a third or more are valid, a third or more not", (number / 3..=2 * number / 3).contains(&valid), true);
    y.same("a third or more have a list", lists >= number / 3, true);
}

/// A document made along a definition matches it, also a wide one.
fn large_jobs(y: &mut Tally, r: &Rng, number: usize) {
    let (mut rows, mut lists) = (0, 0);
    for _ in 0..number {
        let (job, definition) = large_job(r);
        rows += job.instance.len() / 5;
        lists += usize::from(has_list(&job));
        let matches = by_derivatives(&job, Whitespace::LeftOut);
        y.same(&job::write(&job), matches.pairs.contains(&(0, definition)), true);
    }
    println!("large jobs: {number}, with lists {lists}, rows {rows}");
    y.same("a third or more have a list", lists >= number / 3, true);
}

fn main() {
    let mut y = Tally::default();
    let r = Rng(Cell::new(0x9E37_79B9_7F4A_7C15));
    named_jobs(&mut y);
    small_jobs(&mut y, &r, 4_000);
    large_jobs(&mut y, &r, 300);
    y.end();
}
