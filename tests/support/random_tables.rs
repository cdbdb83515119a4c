//! Random tables, most of which no job file can hold: strings whose ends or numbers are wrong, tables of broken
//! lengths, of too many rows or of none, words past every limit.

use super::job_maker::small_job;
use super::maker::Rng;
use super::reference::calls::input;
use super::reference::{Input, NONE};
use super::wrong_jobs::with_code;

/// The tables of a job that has a fault of a code from 1 to 10, or that passes, for another number.
fn of_a_job(r: &Rng, code: u64) -> Input {
    let job = loop {
        if let Some(job) = small_job(r, r.below(4)) {
            break job;
        }
    };
    let spoiled = if (1..=10).contains(&code) { with_code(r, &job, code) } else { None };
    input(&spoiled.unwrap_or(job))
}

/// A word that is wrong in most places, near a limit or far beyond it.
fn word(r: &Rng) -> u32 {
    let far = (r.below(1 << 16) << 16 | r.below(1 << 16)) as u32;
    r.pick(&[0, 1, 2, 3, 16, 63, 256, 511, 512, 1_023, 1_024, 16_384, 65_536, 1 << 31, NONE - 1, NONE, far])
}

/// Ends that no file can hold, and too many bytes or strings.
fn strings(r: &Rng, t: &mut Input) {
    let (k, length) = (r.below(t.ends.len()), t.bytes.len() as u32);
    match r.below(7) {
        0 => t.ends.clear(),
        1 => t.bytes.truncate(r.below(t.bytes.len())),
        2 => t.bytes.resize(16_384 + r.below(3), b'z'),
        3 => t.ends.resize(511 + r.below(4), length),
        4 => t.ends.push(word(r)),
        _ if t.ends.is_empty() => {}
        5 => t.ends[k] = word(r),
        _ => t.ends[k] = t.ends[k].saturating_add(r.below(5) as u32).saturating_sub(2),
    }
}

/// A table of another length: empty, broken by some words, or near its limit in rows.
fn resize(r: &Rng, table: &mut Vec<u32>, words: usize, most: usize) {
    match r.below(4) {
        0 => table.clear(),
        1 => table.truncate(table.len().saturating_sub(1 + r.below(words - 1))),
        2 => table.extend((0..1 + r.below(words - 1)).map(|_| word(r))),
        _ => {
            let row: Vec<u32> = table.iter().copied().take(words).collect();
            let rows = most + r.below(3) - 1;
            let length = rows * words + r.below(2) * r.below(words);
            table.extend(row.iter().cycle().take(length.saturating_sub(table.len())));
        }
    }
}

fn damage(r: &Rng, t: &mut Input) {
    match r.below(6) {
        0 | 1 => strings(r, t),
        2 => resize(r, &mut t.schema, 3, 512),
        3 => resize(r, &mut t.instance, 5, 1_024),
        _ => {
            let table = if r.below(2) == 0 { &mut t.schema } else { &mut t.instance };
            let at = r.below(table.len());
            table.iter_mut().skip(at).take(1).for_each(|changed| *changed = word(r));
        }
    }
}

/// So many times seven tables. Of sixteen jobs in a row six pass, and one has each code from 1 to 10; the tables of
/// each are taken as they are, and with one damage or several, anew each time.
pub fn random_tables(r: &Rng, jobs: u64) -> impl Iterator<Item = Input> + '_ {
    (0..jobs).flat_map(|k| {
        let t = of_a_job(r, k % 16);
        [0, 1, 1, 1, 1, 2, 3].map(|damages| {
            let mut t = t.clone();
            (0..damages).for_each(|_| damage(r, &mut t));
            t
        })
    })
}
