//! What each call of the library answers on any tables, and what its outputs then hold to their ends, by the reference.
//! The calls on a schema alone are in `schema`, and what a report says is in `check`.

use super::job::{self, Job, MAX_FILE};
use super::matching::{by_derivatives, Whitespace};
use super::{instance, schema, Answer, Input};

pub fn input(job: &Job) -> Input {
    Input { bytes: job.bytes(), ends: job.ends(), schema: job.schema.clone(), instance: job.instance.clone() }
}

/// The text of string k of a table that keeps its rule.
fn text(t: &Input, k: usize) -> &[u8] {
    let start = if k == 0 { 0 } else { t.ends[k - 1] };
    &t.bytes[start as usize..t.ends[k] as usize]
}

/// The job of tables whose strings keep their rule.
pub fn job(t: &Input) -> Job {
    let strings = (0..t.ends.len()).map(|k| text(t, k).to_vec()).collect();
    Job { strings, schema: t.schema.clone(), instance: t.instance.clone() }
}

/// The first fault of codes 1 to 10.
pub fn fault(t: &Input) -> Option<Answer> {
    match schema::verdict(t) {
        (0, _) => instance::fault(t.ends.len(), &t.instance).map(|(code, row)| (code, row as u64)),
        refused => Some(refused),
    }
}

/// A run with zeros after it, in an output of so many words; nothing where it does not fit.
fn laid<T: Clone + Default>(run: &[T], room: usize) -> Option<Vec<T>> {
    let mut output = run.to_vec();
    output.resize(room, T::default());
    (run.len() <= room).then_some(output)
}

/// A text handed over in an output of so many bytes, with its length as the answer.
pub fn handed(text: &[u8], room: usize) -> (Answer, Vec<u8>) {
    match laid(text, room) {
        Some(output) => ((0, text.len() as u64), output),
        None => ((12, 0), vec![0; room]),
    }
}

/// The bytes that the work buffer needs for tables that pass: none where the schema has no list.
fn work_needed(t: &Input) -> usize {
    let length = |node: &[u32]| match *node {
        [2, _, _, _, string] | [3, _, string, ..] => text(t, string as usize).len(),
        _ => 0,
    };
    let longest = t.instance.chunks(5).map(length).max().unwrap_or(0);
    match t.schema.chunks(3).any(|row| row[0] == 6) {
        true => 3 * longest + 3,
        false => 0,
    }
}

/// What matching says of tables, worked out once for outputs of all lengths.
pub struct Matched {
    refused: Option<Answer>,
    words: Vec<u32>,
    valid: bool,
    needed: usize,
}

impl Matched {
    pub fn of(t: &Input) -> Matched {
        let refused = fault(t);
        if refused.is_some() {
            return Matched { refused, words: vec![], valid: false, needed: 0 };
        }
        let matches = by_derivatives(&job(t), Whitespace::LeftOut);
        let words = matches.pairs.iter().flat_map(|&(element, definition)| [element, definition]).collect();
        Matched { refused, words, valid: matches.valid, needed: work_needed(t) }
    }
    /// The words that the list needs, and the bytes that the work buffer does.
    pub fn needs(&self) -> (usize, usize) {
        (self.words.len(), self.needed)
    }
    /// The verdict, and the work buffer of so many bytes.
    pub fn verdict(&self, work: usize) -> (Answer, Vec<u8>) {
        let answer = match self.refused {
            Some(refused) => refused,
            None if work < self.needed => (12, 0),
            None => (0, u64::from(self.valid)),
        };
        (answer, vec![0; work])
    }
    /// The match list in a list of so many words, and the work buffer of so many bytes.
    pub fn match_list(&self, list: usize, work: usize) -> (Answer, (Vec<u32>, Vec<u8>)) {
        let refused = self.refused.or((work < self.needed).then_some((12, 0)));
        let (answer, list) = match (refused, laid(&self.words, list)) {
            (Some(refused), _) => (refused, vec![0; list]),
            (None, None) => ((12, 0), vec![0; list]),
            (None, Some(laid)) => ((0, self.words.len() as u64 + u64::from(self.valid)), laid),
        };
        (answer, (list, vec![0; work]))
    }
}

/// The text of a string, in an output of so many bytes.
pub fn string_text(t: &Input, k: u32, room: usize) -> (Answer, Vec<u8>) {
    let there = schema::string_fault(&t.bytes, &t.ends).is_none() && (k as usize) < t.ends.len();
    handed(if there { text(t, k as usize) } else { b"" }, room)
}

/// The outputs of the reader: bytes, ends, schema, instance, counts.
pub type Read = (Vec<u8>, Vec<u32>, Vec<u32>, Vec<u32>, Vec<u32>);

/// The tables of a file, in outputs of so many bytes and words.
pub fn read_job(file: &[u8], room: [usize; 5]) -> (Answer, Read) {
    let [b, e, s, i, c] = room;
    let refused = |answer: Answer| (answer, (vec![0; b], vec![0; e], vec![0; s], vec![0; i], vec![0; c]));
    let t = match job::read(file) {
        Err(line) => return refused((13, line as u64)),
        Ok(job) => input(&job),
    };
    let counts = [t.bytes.len(), t.ends.len(), t.schema.len() / 3, t.instance.len() / 5].map(|n| n as u32);
    let held =
        || Some((laid(&t.bytes, b)?, laid(&t.ends, e)?, laid(&t.schema, s)?, laid(&t.instance, i)?, laid(&counts, c)?));
    held().map_or_else(|| refused((12, 0)), |held| ((0, 0), held))
}

/// The file of tables, in an output of so many bytes.
pub fn write_job(t: &Input, room: usize) -> (Answer, Vec<u8>) {
    let wrong = |words: usize, row: usize, rows: usize| words % row != 0 || words / row > rows;
    let refused = match schema::string_fault(&t.bytes, &t.ends) {
        Some(place) => Some((1, place as u64)),
        None if wrong(t.schema.len(), 3, 512) => Some((2, 0)),
        None if wrong(t.instance.len(), 5, 1_024) => Some((9, 0)),
        None => None,
    };
    if let Some(refused) = refused {
        return (refused, vec![0; room]);
    }
    let file = job::write(&job(t)).into_bytes();
    match file.len() > MAX_FILE {
        true => ((12, 0), vec![0; room]),
        false => handed(&file, room),
    }
}
