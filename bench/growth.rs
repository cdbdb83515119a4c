//! Jobs of one shape that grow, to see how cost grows with them.

use super::article::{article_with, REFERENCES, SECTIONS};
use super::reference::{self, job, job::Job};
use super::slow::{begins, loose, repeat_nested, NODES};

pub struct Step {
    pub what: String,
    pub job: Job,
    /// How the answer begins.
    pub begins: String,
}

fn step(what: String, job: Job, pairs: usize) -> Step {
    Step { what, job, begins: begins(true, pairs) }
}

/// Some sections and references of the article, the front whole; its answer is that of the reference.
fn part(sections: usize) -> Step {
    let references = (REFERENCES * sections).div_ceil(SECTIONS).max(1);
    let job = article_with(sections, references).job;
    let answer = reference::check(job::write(&job).as_bytes());
    let what = format!("the article with {sections} of {SECTIONS} sections, {references} of {REFERENCES} references");
    Step { what, job, begins: answer.lines().take(2).map(|line| line.to_string() + "\n").collect() }
}

/// Each shape from its smallest step to its largest.
pub fn growth() -> Vec<Step> {
    let article = [0, 1, 2, SECTIONS].into_iter().map(part);
    let repeats = |what: String, depth: usize, width: usize| step(what, repeat_nested(depth, width), width + 1);
    let deep = |depth: usize| repeats(format!("63 children below {depth} oneOrMore"), depth, 63);
    let wide = |width: usize| repeats(format!("{width} children below 500 oneOrMore"), 500, width);
    let tree = |width: usize| {
        let what = format!("a tree of 1,024 elements, {width} children each, against 100 optional repeats");
        step(what, loose(width), NODES)
    };
    let widths = [8, 16, 32, 63];
    let smallest = repeats("one child below one oneOrMore".to_string(), 1, 1);
    let shapes = article.chain(widths.map(wide)).chain([62, 125, 250, 500].map(deep)).chain(widths.map(tree));
    [smallest].into_iter().chain(shapes).collect()
}
