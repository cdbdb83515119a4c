//! Spoils jobs: each of codes 1 to 10 and 13 comes about, at many places.

use super::maker::{damage, grow, rows_of, Rng};
use super::reference::fault;
use super::reference::job::{self, Job};

/// The strings break their rule.
fn strings(r: &Rng, job: &mut Job) {
    let k = r.below(job.strings.len());
    match r.below(4) {
        0 => job.strings.push(job.strings[k].clone()),
        1 => job.strings.insert(k, vec![]),
        2 => job.strings[0] = b"x".to_vec(),
        _ => job.strings.truncate(r.below(2)),
    }
}

/// Rows changed, or a schema that was made with some slips.
fn schema(r: &Rng, job: &mut Job) {
    if r.below(3) == 0 {
        let grown = grow(r);
        let more = job.strings.len()..grown.ends.len();
        job.strings.extend(more.map(|k| format!("string {k}").into_bytes()));
        job.schema = grown.schema;
        return;
    }
    let mut rows = rows_of(&job.schema);
    damage(r, &mut rows);
    job.schema = rows.concat();
}

/// Words or the order of rows changed, or an element made too wide.
fn instance(r: &Rng, job: &mut Job) {
    let words = &mut job.instance;
    let rows = words.len() / 5;
    let (row, other) = (5 * r.below(rows), 5 * r.below(rows));
    match r.below(8) {
        0 => {
            let parent = words[5 * (rows - 1) + 1].min(rows as u32 - 1);
            words.extend((0..64).flat_map(|_| [1, parent, 0, 1, 0]));
        }
        1 => (0..5).for_each(|k| words.swap(row + k, other + k)),
        2 => drop(words.drain(row..row + 5)),
        3 => {
            let copy: Vec<u32> = words[row..row + 5].to_vec();
            words.splice(other..other, copy);
        }
        _ => {
            let word = row + r.below(5);
            let old = words[word];
            let near = [old ^ 1, old.wrapping_add(1), old.wrapping_sub(1), r.below(rows) as u32];
            words[word] = r.pick(&[near[0], near[1], near[2], near[3], 0, u32::MAX, job.strings.len() as u32]);
        }
    }
}

/// Some bytes of the text changed, left out or put in.
fn text(r: &Rng, text: &mut Vec<u8>) {
    let bytes = b"\n,-=0123456789abcdefrngsx +\r\0\xff";
    for _ in 0..1 + r.below(3) {
        let k = r.below(text.len());
        match r.below(4) {
            0 => text[k] = r.pick(bytes),
            1 => drop(text.remove(k)),
            2 => text.insert(k, r.pick(bytes)),
            _ if r.below(4) == 0 => text.truncate(k + 1),
            _ => text[k] ^= 1,
        }
    }
}

/// So many times a table is spoiled anew to bring a code about.
const TRIES: usize = 2_000;

/// The job with some fault of a code from 1 to 10, if tries bring it about.
pub fn with_code(r: &Rng, job: &Job, code: u64) -> Option<Job> {
    (0..TRIES).find_map(|_| {
        let mut job = job.clone();
        match code {
            1 => strings(r, &mut job),
            2..=8 => schema(r, &mut job),
            _ => instance(r, &mut job),
        }
        (fault(&job).map(|(found, _)| found) == Some(code)).then_some(job)
    })
}

/// A file with some fault of a code from 1 to 10, or one whose text is spoiled in some bytes.
pub fn spoiled(r: &Rng, job: Job, code: Option<u64>) -> Vec<u8> {
    let Some(code) = code else {
        let mut file = job::write(&job).into_bytes();
        text(r, &mut file);
        return file;
    };
    job::write(&with_code(r, &job, code).unwrap_or(job)).into_bytes()
}
