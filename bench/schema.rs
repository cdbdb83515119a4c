// How long the schema verdict takes on the largest schemas of each shape that is slow in some checker: lines of a
// Markdown table. bench/run builds it with the crate of bindings/rust and runs it.

use farshavan::{schema_verdict, Strings};
use std::time::Instant;

struct Schema(Vec<u32>);

impl Schema {
    fn row(&mut self, kind: u32, a: u32, b: u32) -> u32 {
        self.0.extend_from_slice(&[kind, a, b]);
        (self.0.len() / 3 - 1) as u32
    }

    /// A choice of so many names from one number on, in namespaces of their own or in one.
    fn names(&mut self, from: u32, count: u32, apart: bool) -> u32 {
        let namespace = |k: u32| if apart { k } else { 0 };
        let mut class = self.row(18, namespace(from), from);
        for k in from + 1..from + count {
            let name = self.row(18, namespace(k), k);
            class = self.row(19, class, name);
        }
        class
    }

    fn attribute(&mut self, class: u32) -> u32 {
        let text = self.row(3, 0, 0);
        self.row(7, class, text)
    }

    /// The pattern as that of a definition, and a start.
    fn finished(mut self, pattern: u32) -> Vec<u32> {
        let name = self.row(18, 0, 1);
        self.row(20, name, pattern);
        let start = self.row(2, 0, 0);
        self.row(21, start, 0);
        self.0
    }
}

/// An empty string and 511 others that share all but their last two bytes.
fn strings(shared: usize) -> (Vec<u8>, Vec<u32>) {
    let (mut bytes, mut ends) = (vec![], vec![0]);
    for k in 1..512u32 {
        bytes.resize(bytes.len() + shared, b'a');
        bytes.extend_from_slice(&[(k % 256) as u8, (k / 256) as u8]);
        ends.push(bytes.len() as u32);
    }
    (bytes, ends)
}

fn report(name: &str, shared: usize, schema: &[u32]) {
    let (bytes, ends) = strings(shared);
    let strings = Strings { bytes: &bytes, ends: &ends };
    let timed = || {
        let began = Instant::now();
        let verdict = schema_verdict(strings, schema);
        (began.elapsed(), verdict)
    };
    let runs: Vec<_> = (0..5).map(|_| timed()).collect();
    let (best, verdict) = runs.into_iter().min_by_key(|run| run.0).expect("five runs");
    assert_eq!(verdict, Ok(()), "{name} is a schema that passes");
    println!("| {name} | {} | {:.2} |", schema.len() / 3, best.as_secs_f64() * 1e3);
}

fn two_classes(apart: bool) -> Vec<u32> {
    let mut s = Schema(vec![]);
    let first = s.names(1, 125, apart);
    let first = s.attribute(first);
    let second = s.names(201, 125, apart);
    let second = s.attribute(second);
    let group = s.row(11, first, second);
    s.finished(group)
}

fn attributes(kind: u32) -> Vec<u32> {
    let mut s = Schema(vec![]);
    let mut all = None;
    for k in 1..127 {
        let class = s.row(18, 0, k);
        let one = s.attribute(class);
        all = Some(all.map_or(one, |rest| s.row(kind, rest, one)));
    }
    s.finished(all.unwrap())
}

fn refs() -> Vec<u32> {
    let mut s = Schema(vec![]);
    let definitions: Vec<u32> = (0..100)
        .map(|k| {
            let (name, empty) = (s.row(18, k, k + 1), s.row(1, 0, 0));
            s.row(20, name, empty)
        })
        .collect();
    let mut all = None;
    for d in definitions {
        let one = s.row(8, d, 0);
        all = Some(all.map_or(one, |rest| s.row(12, rest, one)));
    }
    s.finished(all.unwrap())
}

fn chain() -> Vec<u32> {
    let mut s = Schema(vec![]);
    let mut p = s.row(3, 0, 0);
    for _ in 0..507 {
        p = s.row(9, p, 0);
    }
    s.finished(p)
}

fn main() {
    report("two attribute classes of 125 names in a group, all numbers distinct", 0, &two_classes(true));
    report("the same in one namespace", 0, &two_classes(false));
    report("group of 126 attributes", 0, &attributes(11));
    report("interleave of 126 attributes", 0, &attributes(12));
    report("interleave of 100 refs", 0, &refs());
    report("oneOrMore 507 deep", 0, &chain());
    report("512 strings that share all but their last bytes", 30, &[2, 0, 0, 21, 0, 0]);
}
