//! The whole program `check`, independent of the proved one: from a job file to what is printed.

#[allow(dead_code)]
#[path = "brute.rs"]
pub mod brute;
#[allow(dead_code)]
#[path = "calls.rs"]
pub mod calls;
#[path = "instance.rs"]
pub mod instance;
#[allow(dead_code)]
#[path = "job.rs"]
pub mod job;
#[allow(dead_code)]
#[path = "matching.rs"]
pub mod matching;
#[allow(dead_code)]
#[path = "schema.rs"]
pub mod schema;

use job::Job;
use matching::{by_derivatives, Matches, Whitespace};
#[allow(unused_imports)]
pub use schema::{Answer, Input, NONE};

/// The words that `check` lends to the match list.
const ROOM: usize = 16_384;

/// The first fault of codes 1 to 10, as code and place.
pub fn fault(job: &Job) -> Option<Answer> {
    calls::fault(&calls::input(job))
}

pub fn answer(matches: &Matches) -> String {
    let valid = if matches.valid { "yes" } else { "no" };
    let pairs: String = matches.pairs.iter().map(|(element, row)| format!("pair={element},{row}\n")).collect();
    format!("valid={valid}\npairs={}\n{pairs}", matches.pairs.len())
}

/// What `check` prints for a file.
pub fn check(file: &[u8]) -> String {
    let refusal = |code: u64, place: u64| format!("refusal={code},{place}\n");
    let job = match job::read(file) {
        Err(line) => return refusal(13, line as u64),
        Ok(job) => job,
    };
    if let Some((code, place)) = fault(&job) {
        return refusal(code, place);
    }
    let matches = by_derivatives(&job, Whitespace::LeftOut);
    match 2 * matches.pairs.len() > ROOM {
        true => refusal(12, 0),
        false => answer(&matches),
    }
}
