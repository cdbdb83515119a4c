//! Compares every call on some tables with the reference, in outputs of many lengths, and counts which codes it gave.

use super::calls;
use super::maker::Rng;
use super::reference::calls::{self as expected, Matched};
use super::reference::job::MAX_FILE;
use super::reference::{check, schema, Answer, Input, NONE};
use super::tally::Tally;
use std::collections::BTreeMap;
use std::fmt::Debug;

/// Nothing, the lengths about n, and one that is longer.
fn about(n: usize) -> Vec<usize> {
    let mut lengths = vec![0, n.saturating_sub(1), n, n + 1, n + 9];
    lengths.dedup();
    lengths
}

/// Bytes that are enough for any work buffer.
const WORK: usize = 49_155;

pub struct EveryCall<'a> {
    pub y: &'a mut Tally,
    pub r: &'a Rng,
    /// How often each call gave each code.
    seen: BTreeMap<(&'static str, u64), usize>,
}

impl<'a> EveryCall<'a> {
    pub fn new(y: &'a mut Tally, r: &'a Rng) -> EveryCall<'a> {
        EveryCall { y, r, seen: BTreeMap::new() }
    }

    /// The answer of a call, with its outputs to their ends.
    fn same<O: PartialEq + Debug>(
        &mut self,
        call: &'static str,
        input: &dyn Debug,
        got: (Answer, O),
        wanted: (Answer, O),
    ) {
        *self.seen.entry((call, wanted.0 .0)).or_default() += 1;
        self.y.same(format_args!("{call}, {input:?}"), got, wanted);
    }

    /// Each code that a call gives came about so many times, and no other.
    pub fn codes(self, least: usize, wanted: &[(&str, &[u64])]) {
        for (call, codes) in wanted {
            let seen: Vec<_> = self.seen.iter().filter(|((name, _), _)| name == call).collect();
            let found: Vec<u64> =
                seen.iter().filter(|(_, &times)| times >= least).map(|((_, code), _)| *code).collect();
            println!("{call}: {:?}", seen.iter().map(|((_, code), times)| (code, times)).collect::<Vec<_>>());
            self.y.same(format_args!("the codes of {call}"), &found[..], codes);
        }
    }

    pub fn tables(&mut self, t: &Input) {
        self.schema(t);
        self.matching(t);
        self.strings(t);
        self.file(t);
    }

    fn schema(&mut self, t: &Input) {
        self.same("schema_verdict", t, (calls::schema_verdict(t), ()), (schema::verdict(t), ()));
        let (rows, r) = (t.schema.len() / 3, self.r);
        let is_class = |row: &usize| (16..=19).contains(&t.schema[3 * row]);
        let classes: Vec<u32> = (0..rows).filter(is_class).map(|row| row as u32).collect();
        let class = || match r.below(8) {
            0 => r.pick(&[0, r.below(rows + 2) as u32, NONE]),
            _ => classes.get(r.below(classes.len())).copied().unwrap_or(0),
        };
        let number = || r.pick(&[0, 1, 2, r.below(t.ends.len() + 2) as u32, NONE]);
        let (asked, name) = (class(), (number(), number()));
        let pair = (class(), class());
        for room in 0..4 {
            let wanted = schema::name_in_class(t, asked, name, room);
            self.same("name_in_class", &(asked, name, t), calls::name_in_class(t, asked, name, room), wanted);
            let wanted = schema::least_common_name(t, pair, room);
            self.same("least_common_name", &(pair, t), calls::least_common_name(t, pair, room), wanted);
        }
    }

    fn matching(&mut self, t: &Input) {
        let matched = Matched::of(t);
        let (list, work) = matched.needs();
        for work in about(work).into_iter().chain([WORK]) {
            self.same("verdict", &(work, t), calls::verdict(t, work), matched.verdict(work));
        }
        let lists = about(list).into_iter().map(|list| (list, WORK));
        let works = about(work).into_iter().map(|work| (list, work));
        let both = [(list.saturating_sub(1), work.saturating_sub(1)), (list, work)];
        for (list, work) in lists.chain(works).chain(both) {
            let wanted = matched.match_list(list, work);
            self.same("match_list", &(list, work, t), calls::match_list(t, list, work), wanted);
        }
    }

    fn strings(&mut self, t: &Input) {
        let n = t.ends.len();
        let k = self.r.pick(&[0, 1, self.r.below(n), self.r.below(n), self.r.below(n), n, NONE as usize]) as u32;
        let ((_, length), _) = expected::string_text(t, k, t.bytes.len());
        for room in about(length as usize) {
            let wanted = expected::string_text(t, k, room);
            self.same("string_text", &(k, room, t), calls::string_text(t, k, room), wanted);
        }
    }

    /// The file, and where it is written the tables that it reads as and its report.
    fn file(&mut self, t: &Input) {
        let ((code, length), mut file) = expected::write_job(t, MAX_FILE);
        file.truncate(length as usize);
        for room in about(file.len()) {
            self.same("write_job", &(room, t), calls::write_job(t, room), expected::write_job(t, room));
        }
        if code == 0 {
            self.round_trip(t, &file);
            self.report(&file);
        }
    }

    /// A file, in outputs that just fit its tables and in which one is one too short or one longer.
    pub fn read(&mut self, file: &[u8], exact: [usize; 5]) {
        let mut rooms = vec![exact];
        for k in 0..5 {
            let longer = [0, 1, 2, 3, 4].map(|i| exact[i] + usize::from(i == k));
            let shorter = [0, 1, 2, 3, 4].map(|i| exact[i].saturating_sub(usize::from(i == k)));
            rooms.extend([longer, shorter]);
        }
        for room in rooms {
            let wanted = expected::read_job(file, room);
            self.same("read_job", &(room, file.escape_ascii()), calls::read_job(file, room), wanted);
        }
    }

    fn round_trip(&mut self, t: &Input, file: &[u8]) {
        let exact = [t.bytes.len(), t.ends.len(), t.schema.len(), t.instance.len(), 4];
        let (answer, (bytes, ends, schema, instance, _)) = calls::read_job(file, exact);
        let back = Input { bytes, ends, schema, instance };
        self.y.same(format_args!("round trip, {t:?}"), (answer, &back), ((0, 0), t));
        self.read(file, exact);
    }

    pub fn report(&mut self, file: &[u8]) {
        let text = check(file);
        for room in about(text.len()) {
            let wanted = expected::handed(text.as_bytes(), room);
            self.same("report", &(room, file.escape_ascii()), calls::report(file, room), wanted);
        }
    }
}
