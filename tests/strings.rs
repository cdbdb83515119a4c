// Compares what the library says of tables of strings with a reference written from the rules: code 1 by the schema
// verdict on a schema that passes with any strings, and the texts of strings. Each single comparison is one test.
// The last line printed is `N passed, M failed`.

#[allow(dead_code)]
#[path = "support/calls.rs"]
mod calls;
#[allow(dead_code)]
#[path = "reference/schema_maker.rs"]
mod maker;
#[allow(dead_code)]
#[path = "reference/check.rs"]
mod reference;
#[path = "support/tally.rs"]
mod tally;

use maker::Rng;
use reference::schema::string_fault;
use reference::{calls as expected, Answer, Input};
use std::cell::Cell;
use std::collections::HashSet;
use tally::Tally;

const MAX: u32 = 4_294_967_295;
/// Nothing is at fault, and code 1 at a place.
const FINE: Answer = (0, 0);
const fn at(place: u64) -> Answer {
    (1, place)
}

/// A table of strings with a schema that passes.
fn table(bytes: &[u8], ends: &[u32]) -> Input {
    Input { bytes: bytes.to_vec(), ends: ends.to_vec(), schema: vec![2, 0, 0, 21, 0, 0], instance: vec![] }
}

/// The table of a list of strings, one after another.
fn table_of(list: &[Vec<u8>]) -> Input {
    let mut t = table(b"", &[]);
    for s in list {
        t.bytes.extend(s);
        t.ends.push(t.bytes.len() as u32);
    }
    t
}

fn check(y: &mut Tally, name: &str, t: &Input, expected: Answer) {
    y.same(format_args!("{name}, {t:?}"), calls::schema_verdict(t), expected);
}

/// The answer and the whole output, which has room for so much.
fn text(y: &mut Tally, name: &str, t: &Input, k: u32, answer: Answer, out: &[u8]) {
    let got = calls::string_text(t, k, out.len());
    y.same(format_args!("{name}, text {k}, room {}, {t:?}", out.len()), got, (answer, out.to_vec()));
}

// 1. Named cases; all expected values are literals.

#[rustfmt::skip]
fn named_tables(y: &mut Tally) {
    let cases: [(&str, &[(&[u8], &[u32], Answer)]); 14] = [
        ("zero strings", &[(b"", &[], at(0)), (b"ab", &[], at(0))]),
        ("one string", &[(b"", &[0], FINE), (b"a", &[1], at(0)), (b"a", &[0], at(0))]),
        ("valid", &[(b"a", &[0, 1], FINE), (b"aaaabb", &[0, 1, 3, 5, 6], FINE), (b"\0\0\0", &[0, 2, 3], FINE)]),
        ("string 0 not empty", &[(b"ab", &[1, 2], at(0)), (b"ab", &[2, 2], at(0))]),
        ("fall", &[(b"abc", &[0, 2, 1, 3], at(2)), (b"abc", &[0, 2, 0, 3], at(2)),
            (b"ab", &[0, 2, 1], at(2)), (b"abc", &[0, 1, 9, 3], at(3)), (b"a", &[0, 9, 9, 1], at(3))]),
        ("wrong last end", &[(b"abc", &[0, 1, 2], at(2)), (b"abc", &[0, 1, 4], at(2)),
            (b"ab", &[0, 9, 9], at(2))]),
        ("equal strings", &[(b"abab", &[0, 2, 4], at(2)), (b"abcab", &[0, 2, 3, 5], at(3)),
            (b"aaa", &[0, 1, 2, 3], at(2)), (b"abba", &[0, 1, 2, 3, 4], at(3))]),
        ("second empty string", &[(b"ab", &[0, 1, 1, 2], at(2)), (b"a", &[0, 0, 1], at(1)),
            (b"a", &[0, 1, 1], at(2)), (b"", &[0, 0], at(1))]),
        ("string 0 not empty and more", &[(b"abc", &[1, 3, 2], at(0)), (b"aa", &[1, 2], at(0))]),
        ("fall and more", &[(b"abcd", &[0, 3, 2, 4, 1], at(2)), (b"abcd", &[0, 3, 2, 5], at(2))]),
        ("equal, wrong last end", &[(b"aab", &[0, 1, 2, 4], at(3)), (b"aab", &[0, 0, 1, 2], at(3))]),
        ("equal, then a fall", &[(b"aabc", &[0, 1, 2, 1, 4], at(3))]),
        ("end 2^32 - 1", &[(b"ab", &[MAX], at(0)), (b"", &[MAX, 0], at(0)), (b"", &[0, MAX], at(1)),
            (b"ab", &[0, 1, MAX], at(2)), (b"ab", &[0, MAX, 2], at(2)), (b"a", &[0, 1, MAX, 1], at(3)),
            (b"ab", &[0, MAX, MAX], at(2)), (b"ab", &[0, MAX, MAX - 1, MAX], at(2))]),
        ("end past 2^16", &[(b"ab", &[0, 1, 65_538], at(2)), (b"ab", &[0, 65_537, 2], at(2))]),
    ];
    for (name, tables) in cases {
        for (bytes, ends, expected) in tables {
            check(y, name, &table(bytes, ends), *expected);
        }
    }
}

/// At the limits and past them.
#[rustfmt::skip]
fn limits(y: &mut Tally) {
    // n strings, each its number in two bytes, but string k is s.
    let count = |n: u16, k: usize, s: &[u8]| {
        let mut list: Vec<_> = (0..n).map(|k| k.to_be_bytes().to_vec()).collect();
        list[0].clear();
        list[k] = s.to_vec();
        table_of(&list)
    };
    check(y, "512 strings", &count(512, 0, &[]), FINE);
    check(y, "513 strings", &count(513, 0, &[]), at(0));
    check(y, "512 strings, the last equal", &count(512, 511, &[0, 1]), at(511));
    check(y, "512 strings, equal at 256", &count(512, 256, &[0, 255]), at(256));
    check(y, "65537 strings", &table(b"", &[0; 65_537]), at(0));
    text(y, "512 strings", &count(512, 0, &[]), 511, (0, 2), b"\x01\xFF\0");
    text(y, "513 strings", &count(513, 0, &[]), 1, FINE, b"\0\0\0");

    let large = |n: usize, ends: &[u32]| table(&vec![b'x'; n], ends);
    check(y, "16384 bytes", &large(16_384, &[0, 16_384]), FINE);
    check(y, "16384 bytes, equal halves", &large(16_384, &[0, 8_192, 16_384]), at(2));
    check(y, "16384 bytes, last end 16385", &large(16_384, &[0, 16_385]), at(1));
    check(y, "16385 bytes", &large(16_385, &[0, 16_385]), at(0));
    check(y, "16385 bytes, last end 16384", &large(16_385, &[0, 16_384]), at(0));
    check(y, "65537 bytes, last end 1", &large(65_537, &[0, 1]), at(0));
    text(y, "16384 bytes", &large(16_384, &[0, 16_384]), 1, (0, 16_384), &[b'x'; 16_384]);
    text(y, "16385 bytes", &large(16_385, &[0, 16_385]), 1, FINE, &[0; 20]);

    // 511 strings of 31 or 32 bytes that share all but the last.
    let mut alike = vec![vec![]];
    alike.extend((0..=255).map(|c| [vec![b'x'; 30], vec![c]].concat()));
    alike.extend((0..=254).map(|c| [vec![b'x'; 31], vec![c]].concat()));
    check(y, "512 strings alike", &table_of(&alike), FINE);
    let (t, out) = (table_of(&alike), b"xxxxxxxxxxxxxxxxxxxxxxxxxxxxxxx\xFE\0");
    text(y, "512 strings alike", &t, 511, (0, 32), out);
    alike[511] = alike[256].clone();
    check(y, "512 strings alike, the last equal", &table_of(&alike), at(511));
}

#[rustfmt::skip]
fn named_texts(y: &mut Tally) {
    let small = table(b"abcdef", &[0, 1, 3, 6]);
    let cases: [(u32, Answer, &[u8]); 17] = [
        (0, (0, 0), b"\0\0\0\0"), (1, (0, 1), b"a\0\0\0"), (2, (0, 2), b"bc\0\0"), (3, (0, 3), b"def\0"),
        (3, (0, 3), b"def"), (3, (12, 0), b"\0\0"), (3, (12, 0), b"\0"), (3, (12, 0), b""), (1, (12, 0), b""),
        (0, (0, 0), b""), (4, (0, 0), b""), (3, (0, 3), b"def\0\0\0\0\0\0\0\0\0"), (4, (0, 0), b"\0\0\0\0"),
        (5, (0, 0), b"\0\0"), (257, (0, 0), b"\0\0"), (65_537, (0, 0), b"\0\0"), (MAX, (0, 0), b"\0\0\0\0"),
    ];
    for (k, answer, out) in cases {
        text(y, "text of a small table", &small, k, answer, out);
    }
    let faults: [&[u32]; 7] = [
        &[0, 1, 3, 5], &[0, 1, 3, 7], &[0, 3, 1, 6], &[0, 3, 6], &[0, 3, 3, 6], &[1, 3, 6], &[],
    ];
    for t in faults.map(|ends| table(b"abcabc", ends)) {
        for k in [0, 1, 2, 3, 4, MAX] {
            text(y, "text of a table with a fault", &t, k, FINE, b"\0\0\0");
        }
    }
}

// 2. Random tables.

/// A list of n strings, distinct, the first empty, of at most 16,384 bytes in all.
fn make_list(r: &Rng, n: usize) -> Vec<Vec<u8>> {
    let letters: Vec<u8> = (0..=r.pick(&[1, 255])).collect();
    let most = (16_384 / n).min(r.pick(&[12, 16_384]));
    let mut list = vec![vec![]];
    let mut seen = HashSet::from([vec![]]);
    while list.len() < n {
        // An earlier string but for its last byte, or nothing; then one or more random bytes.
        let mut s = list[r.below(list.len())].clone();
        s.truncate(s.len().saturating_sub(1) * r.below(2));
        let more = r.pick(&[1, 1 + r.below(most)]);
        s.extend((0..more).map(|_| r.pick(&letters)));
        s.truncate(most);
        if seen.insert(s.clone()) {
            list.push(s);
        }
    }
    if n > 1 && r.below(4) == 0 {
        // The last string, now the longest, fills the bytes to the limit or nearly.
        let others = list[..n - 1].concat().len();
        list[n - 1].resize(16_384 - others - r.below(3), b'z');
    }
    list
}

/// Damages a table in one of ten ways; answers the place of the fault, if it is alone.
#[rustfmt::skip]
fn damage(r: &Rng, kind: usize, t: &mut Input) -> u64 {
    let n = t.ends.len();
    if n < 3 {
        return 0;
    }
    let (ends, last, total) = (&mut t.ends, n - 1, t.bytes.len() as u32);
    let k = 1 + r.below(n - 2);
    let past = r.pick(&[1, 2, 256, 65_536, MAX]);
    let between = |a: u32, b: u32| a + r.below(b.saturating_sub(a) as usize) as u32;
    match kind {
        0 => { *t = table_of(&make_list(r, 513 + r.below(2) * r.below(60))); 0 }
        1 => {
            t.bytes.resize(16_385 + r.below(2) * r.below(600), b'z');
            ends[last] = t.bytes.len() as u32;
            0
        }
        2 => { ends.remove(0); 0 }
        3 => { ends[k] = ends[k - 1]; k as u64 }
        4 => {
            // Of two strings the shorter is copied, so that the bytes stay within the limit.
            let j = k + 1 + r.below(last - k);
            let mut list = expected::job(t).strings;
            let (from, to) = if list[k].len() < list[j].len() { (k, j) } else { (j, k) };
            list[to] = list[from].clone();
            *t = table_of(&list);
            j as u64
        }
        5 => { ends[k + 1] = between(0, ends[k]); k as u64 + 1 }
        6 => { ends[k] = ends[k + 1].saturating_add(past); k as u64 + 1 }
        7 => { ends[last] = between(ends[last - 1], ends[last]); last as u64 }
        8 => { ends[r.pick(&[k, last])..].fill(total.saturating_add(past)); last as u64 }
        _ => { ends.clear(); 0 }
    }
}

/// 900 valid tables; then each kind of damage alone and with each kind, 25 times.
fn random_tables(y: &mut Tally, r: &Rng) {
    for round in 0..3_650 {
        let mut kinds = vec![round % 10, round / 10 % 11];
        kinds.retain(|&kind| round >= 900 && kind < 10);
        kinds.sort();
        let n = if round < 900 { 1 } else { 3 } + r.below(r.pick(&[4, 30, 600]));
        let mut t = table_of(&make_list(r, n.min(512)));
        let mut known = FINE;
        for &kind in &kinds {
            known = at(damage(r, kind, &mut t));
        }
        // The place is known where nothing or one thing is damaged; the reference knows it always.
        let name = format!("random table, damage {kinds:?}");
        if kinds.len() < 2 {
            check(y, &name, &t, known);
        }
        check(y, &name, &t, string_fault(&t.bytes, &t.ends).map_or(FINE, |place| at(place as u64)));
        let n = t.ends.len();
        let (inside, outside) = (r.below(n), n + 2 + r.below(1_000));
        for k in [0, 1, inside, n.max(1) - 1, n, n + 1, outside, MAX as usize].map(|k| k as u32) {
            let ((_, length), _) = expected::string_text(&t, k, 16_384);
            let length = length as usize;
            let room = r.pick(&[0, length / 2, length.max(1) - 1, length, length + 1, r.below(40)]);
            let (answer, out) = expected::string_text(&t, k, room);
            text(y, &name, &t, k, answer, &out);
        }
    }
}

fn main() {
    let mut y = Tally::default();
    let r = Rng(Cell::new(0x9E37_79B9_7F4A_7C15));
    named_tables(&mut y);
    limits(&mut y);
    named_texts(&mut y);
    random_tables(&mut y, &r);
    y.end();
}
