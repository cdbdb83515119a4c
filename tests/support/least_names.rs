//! The least name that two classes hold: pairs with the answers as literals; against the reference and against the
//! names made from the numbers in the rows, all pairs of small classes and random ones of up to 40 rows; and the
//! verdicts that rest on whether there is such a name.

use super::calls;
use super::class_rows::{all_classes, classes_of, enough, shuffled};
use super::maker::{expand, over, read, rows_of, Rng, Row};
use super::reference::{schema, Answer, Input, NONE};
use super::schema_cases::{at, PASSES};
use super::tally::Tally;
use std::collections::BTreeSet;

type Name = (u32, u32);
type Pair = (u32, u32);

/// The answer and the whole output, which has room for so many words.
pub fn least(y: &mut Tally, what: &str, s: &Input, pair: Pair, answer: Answer, out: &[u32]) {
    let got = calls::least_common_name(s, pair, out.len());
    let what = format_args!("{what}, least common name of {pair:?}, room {}, {s:?}", out.len());
    y.same(what, got, (answer, out.to_vec()));
}

/// The answer in both orders, in outputs of no word to four.
fn in_rooms(y: &mut Tally, what: &str, s: &Input, (one, other): Pair, name: Option<Name>) {
    for (pair, room) in [(one, other), (other, one)].iter().flat_map(|pair| (0..=4).map(move |room| (*pair, room))) {
        let (answer, out) = match (name, room) {
            (None, _) => ((0, 0), [0; 4]),
            (_, 0 | 1) => ((12, 0), [0; 4]),
            (Some((n, l)), _) => ((0, 1), [n, l, 0, 0]),
        };
        least(y, what, s, pair, answer, &out[..room]);
    }
}

/// The text of a schema with these classes, each marked.
fn with(classes: &[&str]) -> String {
    let elements: String = classes.iter().map(|class| format!("element !{class} none ")).collect();
    elements + "start none"
}

/// A schema over no more strings than its classes need.
fn over_least(schema: Vec<u32>) -> Input {
    let largest = rows_of(&schema).into_iter().flat_map(numbers).flatten().max();
    over(largest.map_or(1, |largest| largest as u16 + 1), schema)
}

// 1. Named cases.

/// Two classes and the least name in both, that of P9 first.
#[rustfmt::skip]
const COMMON: &[(&str, &str, Name)] = &[
    ("*- 0:1", "0:*", (0, 2)), ("*", "*", (0, 1)), ("*- 0:1", "*", (0, 2)), ("0:1", "0:1", (0, 1)),
    // One fresh namespace for both: each class alone has a smaller one, which the other shuts out.
    ("*- 0:*", "*- 1:*", (2, 1)), ("*- / 0:* 2:*", "*- 1:*", (3, 1)), ("*- / 0:* 3:*", "*- 1:*", (2, 1)),
    ("*- / 4:* / 2:* 0:*", "*- / 3:* / 5:* 1:*", (6, 1)), ("*- / 0:* 5:1", "*- / 1:* 2:*", (3, 1)),
    // And one fresh local name.
    ("0:*- 0:1", "0:*- 0:2", (0, 3)), ("0:*- / 0:1 0:3", "*- 0:2", (0, 4)), ("*- / 0:1 0:4", "*- 0:2", (0, 3)),
    ("1:*- / 1:3 1:1", "1:*- / 1:4 1:2", (1, 5)), ("*- / 0:1 1:1", "*- / 0:2 0:3", (0, 4)),
    // A fresh namespace: past all others, between them, before them.
    ("*- 0:*", "*", (1, 1)), ("*- / 0:* 1:*", "*", (2, 1)), ("*- / / 0:* 1:* / 2:* 3:*", "*", (4, 1)),
    ("*- / 0:* 2:*", "*", (1, 1)), ("*- / / 3:* 0:* 1:*", "*- 0:1", (2, 1)), ("*- / 1:* 2:*", "*", (0, 1)),
    ("*- / 0:* 1:1", "*- 1:*", (2, 1)), ("*- / 0:* 1:2", "*- / 1:* 0:3", (2, 1)), ("/ *- 0:* 0:3", "*- 0:3", (1, 1)),
    ("*- / 0:*- 0:1 1:*", "*- 0:1", (2, 1)), ("*- / 0:*- 0:2 0:*- 0:3", "*", (1, 1)),
    ("*- / 0:* 1:1", "*- / 1:* 0:1", (2, 1)),
    // A fresh local name: past all others, between them, before them.
    ("0:*- / 0:1 / 0:2 0:3", "0:*", (0, 4)), ("*- / 0:1 / 0:2 0:3", "*", (0, 4)), ("3:*", "*- 3:1", (3, 2)),
    ("0:*- / 0:1 0:3", "*", (0, 2)), ("0:*- / 0:2 0:3", "*", (0, 1)), ("1:*- 1:1", "*- 1:2", (1, 3)),
    ("*- / 0:* / 2:* 3:*", "*- / 1:1 1:2", (1, 3)), ("*- / 0:* 1:1", "*", (1, 2)), ("1:*- 0:1", "1:*", (1, 1)),
    // Excepts of excepts; for the most part no other row has the local name.
    ("*- 0:*- 0:3", "0:*", (0, 3)), ("*- 0:*- 0:3", "*", (0, 3)), ("*- 0:*- / 0:3 0:2", "*", (0, 2)),
    ("*- / 0:* 1:*- 1:3", "*", (1, 3)), ("*- / 0:* 1:*- 1:3", "*- 1:3", (2, 1)), ("*- 0:*- 0:1", "*- 0:1", (1, 1)),
    ("*- / 0:*- 0:2 0:*- / 0:3 0:2", "*", (0, 2)), ("1:*- 1:2", "*- 1:*- / 1:2 1:3", (1, 3)),
    ("*- 0:*- 1:3", "*", (1, 1)), ("*- 2:*- 2:4", "2:*- / 2:1 2:3", (2, 4)), ("1:*", "*- 1:*- 1:3", (1, 3)),
    // A local name that stands beside other namespaces alone.
    ("*- / 0:2 1:1", "*", (0, 1)), ("*- / 0:1 1:2", "*", (0, 2)), ("0:*- 0:1", "*- 1:2", (0, 2)),
    ("2:*- / 2:1 2:3", "*- / 0:2 1:4", (2, 2)), ("2:*- / 2:1 2:2", "*- / 0:4 1:3", (2, 3)), ("0:*- 1:1", "*", (0, 1)),
    ("*- / 0:* 1:2", "*- 0:1", (1, 1)), ("/ 1:*- 1:1 0:2", "*- / 0:2 2:2", (1, 2)), ("0:*- 0:1", "/ 0:* 3:2", (0, 2)),
    // Not in the first namespace that both have rows for.
    ("/ 0:1 1:3", "/ 0:2 1:3", (1, 3)), ("/ 0:1 / 1:1 2:2", "/ 0:2 / 1:2 2:2", (2, 2)), ("*- 0:1", "/ 0:1 1:1", (1, 1)),
    ("/ 0:*- 0:1 1:*", "/ 0:1 1:2", (1, 2)), ("/ 0:3 1:1", "*- 0:3", (1, 1)), ("*- 0:*- 0:2", "/ 0:1 2:1", (2, 1)),
    // By namespace first, in whatever order the rows are.
    ("/ 1:1 0:3", "*", (0, 3)), ("/ 2:1 / 1:2 0:3", "/ 1:2 / 0:3 2:1", (0, 3)), ("/ 2:3 / 1:3 1:2", "*", (1, 2)),
    ("/ 2:1 1:3", "/ 1:3 2:1", (1, 3)), ("/ 1:* 0:3", "/ 0:* 1:1", (0, 3)), ("/ 0:3 / 0:1 0:2", "/ 0:2 0:3", (0, 2)),
    // A name, or a namespace, with each sort of class.
    ("3:1", "3:*", (3, 1)), ("3:3", "*", (3, 3)), ("1:2", "1:*", (1, 2)), ("1:2", "*", (1, 2)),
    ("1:2", "1:*- 2:2", (1, 2)), ("1:2", "1:*- 1:1", (1, 2)), ("/ 0:2 0:2", "0:2", (0, 2)),
    ("1:2", "*- 1:*- 1:2", (1, 2)), ("1:2", "*- / 1:1 2:2", (1, 2)), ("1:2", "/ 2:1 1:2", (1, 2)),
    ("1:2", "/ 2:2 / 1:1 1:*- 1:1", (1, 2)), ("1:2", "/ *- 1:2 1:2", (1, 2)), ("0:*", "0:*", (0, 1)),
    ("2:*", "2:*- 2:1", (2, 2)), ("2:*- 2:1", "2:*- / 2:2 2:3", (2, 4)), ("2:*", "/ 0:* 2:3", (2, 3)),
    ("2:*", "/ 3:* *- 2:1", (2, 2)), ("0:*", "*- 0:*- / 0:3 0:2", (0, 2)),
    // Up to the last string.
    ("511:511", "*", (511, 511)), ("511:511", "511:*", (511, 511)), ("*- 511:511", "511:*", (511, 1)),
    ("511:*- 511:1", "*", (511, 2)), ("0:511", "0:*- 0:510", (0, 511)), ("*- 0:*", "/ 511:511 0:510", (511, 511)),
    ("/ 255:511 511:256", "/ 511:256 511:511", (511, 256)), ("*- / 0:* 511:*", "*- / 1:1 511:1", (1, 2)),
    ("*- 0:*- 0:511", "*- / 0:256 0:255", (0, 511)), ("/ 256:1 0:257", "*- 0:257", (256, 1)),
];

/// Two classes without a name in both.
#[rustfmt::skip]
const APART: &[(&str, &str)] = &[
    ("0:1", "0:2"), ("0:1", "1:1"), ("1:2", "2:1"), ("1:2", "2:*"), ("1:2", "1:*- 1:2"), ("1:2", "*- 1:2"),
    ("1:2", "*- 1:*"), ("1:2", "/ 2:1 1:1"), ("1:2", "/ 1:*- 1:2 *- 1:*"), ("1:2", "*- 1:*- / 1:1 2:2"),
    ("/ 0:1 1:2", "/ 0:2 1:1"), ("/ 0:1 / 1:2 2:3", "/ 0:3 / 1:1 2:2"), ("/ 0:1 0:2", "0:*- / 0:2 0:1"),
    ("0:*", "1:*"), ("0:*- 0:2", "0:2"), ("1:*- 2:1", "2:*- 1:1"), ("0:*", "*- 0:*"), ("*- 0:*", "0:*- 0:1"),
    ("0:*", "*- / 0:*- 0:1 0:1"), ("0:*", "*- / 0:*- 0:2 0:*- 0:3"), ("*- 0:*- 0:2", "0:*- 0:2"),
    ("/ 0:* 1:*", "*- / 1:* 0:*"), ("/ 0:*- 0:1 1:2", "*- / 1:2 0:*- 0:1"), ("/ 0:* 1:1", "/ 1:*- 1:1 2:*"),
    ("510:511", "511:510"), ("511:511", "255:511"), ("511:511", "511:255"), ("256:*", "0:*"), ("0:256", "*- 0:256"),
];

/// A class with two of its rows marked, or one to be asked with itself; and the least name in both, or none.
#[rustfmt::skip]
const WITHIN: &[(&str, Option<Name>)] = &[
    ("!*", Some((0, 1))), ("!3:2", Some((3, 2))), ("!*- 0:*", Some((1, 1))), ("!*- / 0:* 1:1", Some((1, 2))),
    ("!0:*- 0:1", Some((0, 2))), ("!/ 3:1 2:3", Some((2, 3))), ("!*- 0:*- 0:2", Some((0, 2))),
    ("!*- / 0:*- 0:2 0:2", Some((1, 1))), ("!*- / 0:1 1:2", Some((0, 2))), ("*- !0:*- / 0:1 0:2", Some((0, 3))),
    // An except, and what is in it.
    ("!*- !0:1", None), ("!*- !0:*", None), ("!*- !0:*- 0:2", None), ("*- !0:*- !0:2", None), ("!0:*- !0:1", None),
    ("!0:*- !1:1", None), ("!*- / !0:1 0:2", None), ("!*- / 0:*- 0:2 !0:2", None), ("!*- 0:*- !0:2", Some((0, 2))),
    ("!*- / 1:* 0:*- !0:1", Some((0, 1))), ("*- !/ 1:* !0:2", Some((0, 2))), ("!*- 0:*- / 0:1 !0:2", Some((0, 2))),
    // A member of a choice, and what is in it.
    ("!/ 0:1 !0:2", Some((0, 2))), ("!/ !1:1 0:2", Some((1, 1))), ("!/ 0:1 / !1:* 0:3", Some((1, 1))),
    ("!/ !*- 0:1 0:1", Some((0, 2))), ("!/ *- !0:1 0:1", Some((0, 1))), ("!/ *- !0:1 0:2", None),
    // Two members, and what is in them.
    ("/ !*- 0:* !*- 1:*", Some((2, 1))), ("/ !*- 0:1 !0:1", None), ("/ *- !0:1 *- !0:1", Some((0, 1))),
    ("*- / !0:*- 0:1 !0:*- 0:2", Some((0, 3))), ("/ !0:*- 0:1 *- !0:*- 0:2", Some((0, 3))),
    // As many rows as a schema may have, with as many numbers as they may have.
    ("!*- (/ 0 253 #:*)", Some((254, 1))), ("!0:*- (/ 1 254 0:#)", Some((0, 255))), ("!*- !(/ 1 254 #:#)", None),
    ("!511:*- (/ 1 254 #:#)", Some((511, 1))), ("!/ (/ 2 254 #:#) !255:1", Some((255, 1))),
];

pub fn named(y: &mut Tally) {
    let common = COMMON.iter().map(|&(one, other, name)| (one, other, Some(name)));
    for (one, other, name) in common.chain(APART.iter().map(|&(one, other)| (one, other, None))) {
        let (schema, marks) = read(&with(&[one, other]));
        in_rooms(y, one, &over_least(schema), (marks[0], marks[1]), name);
        let (schema, marks) = read(&format!("element 2:* none element / 0:4 5:* none {}", with(&[one, other])));
        in_rooms(y, one, &over(512, schema), (marks[0], marks[1]), name);
        verdicts(y, &[one, other], name.is_some());
    }
    for ((class, name), right) in WITHIN.iter().flat_map(|case| [(case, true), (case, false)]) {
        let text = expand(&format!("element {class} none start none"), right).replace("! ", "!");
        let (schema, marks) = read(&text);
        in_rooms(y, class, &over_least(schema), (marks[0], marks[marks.len() - 1]), *name);
    }
}

/// The first class on one side and the others on the other: of attributes in a group and in an interleave, where a name
/// in common has code 7, and of elements in an interleave, where it has code 8.
fn verdicts(y: &mut Tally, classes: &[&str], common: bool) {
    let elements: String = classes.iter().map(|class| format!("element {class} none ")).collect();
    let attributes: Vec<String> = classes.iter().map(|class| format!("+ @ {class} text")).collect();
    let refs: Vec<String> = (1..=classes.len()).map(|k| format!("${k}")).collect();
    for (code, join, items) in [(7, ",", &attributes), (7, "&", &attributes), (8, "&", &refs)] {
        let (first, others) = (&items[0], "| ".repeat(items.len() - 2) + &items[1..].join(" "));
        for sides in [format!("{first} {others}"), format!("{others} {first}")] {
            let (schema, marks) = read(&format!("element 0:1 !{join} {sides} {elements} start none"));
            let (s, expected) = (over_least(schema), if common { at(code, marks[0]) } else { PASSES });
            y.same(format_args!("verdict on {classes:?}, {s:?}"), calls::schema_verdict(&s), expected);
        }
    }
}

// 2. Against the reference and the made names.

/// The namespace and the local name that a row has.
fn numbers(row: Row) -> [Option<u32>; 2] {
    match row {
        [17, n, _] => [Some(n), None],
        [18, n, l] => [Some(n), Some(l)],
        _ => [None, None],
    }
}

/// All rows of a class, those in excepts too.
fn rows_in(rows: &[Row], class: u32) -> Vec<Row> {
    let children = match rows[class as usize] {
        [16, a, _] => vec![a],
        [17, _, b] => vec![b],
        [19, a, b] => vec![a, b],
        _ => vec![],
    };
    let children = children.into_iter().filter(|&child| child != NONE);
    children.flat_map(|child| rows_in(rows, child)).chain([rows[class as usize]]).collect()
}

/// The least number that no row has: of namespaces from 0 for 0, of local names from 1 for 1.
fn fresh(rows: &[Row], which: usize) -> u32 {
    let has = |number: u32| rows.iter().any(|&row| numbers(row)[which] == Some(number));
    (which as u32..).find(|&number| !has(number)).expect("a number")
}

fn holds(rows: &[Row], class: u32, name: Name) -> bool {
    let except = |row: u32| row != NONE && holds(rows, row, name);
    match rows[class as usize] {
        [16, a, _] => !except(a),
        [17, n, b] => n == name.0 && !except(b),
        [18, n, l] => (n, l) == name,
        [_, a, b] => holds(rows, a, name) || holds(rows, b, name),
    }
}

/// The made names of two classes, in their order. A name is made of a namespace that a row of either class has, or of
/// the one that is fresh for both together, and of a local name likewise.
pub fn made_names(rows: &[Row], (one, other): Pair) -> Vec<Name> {
    let all = [rows_in(rows, one), rows_in(rows, other)].concat();
    let [namespaces, locals] = [0, 1].map(|which| {
        let had = all.iter().filter_map(|&row| numbers(row)[which]);
        had.chain([fresh(&all, which)]).collect::<BTreeSet<u32>>()
    });
    namespaces.iter().flat_map(|&n| locals.iter().map(move |&l| (n, l))).collect()
}

/// The first made name that both classes hold.
fn least_made(rows: &[Row], (one, other): Pair) -> Option<Name> {
    let both = |&name: &Name| holds(rows, one, name) && holds(rows, other, name);
    made_names(rows, (one, other)).into_iter().find(both)
}

/// Sorts of answers, each of which comes about often.
const SORTS: [&str; 6] = [
    "no name",
    "a name that a row has",
    "a namespace of a row, and a local name that rows of other namespaces alone have",
    "a namespace of a row, and the fresh local name",
    "the fresh namespace",
    "a fresh number that is the fresh one of neither class alone",
];

/// Asks for a pair in both orders; the made names have the answer, and so has the reference, where it is not too slow.
fn agree(y: &mut Tally, seen: &mut [usize; 6], s: &Input, (one, other): Pair) {
    let rows = rows_of(&s.schema);
    let name = least_made(&rows, (one, other));
    let (found, out) = (name.is_some(), name.map_or([0, 0], |(n, l)| [n, l]));
    let answer = (0, u64::from(found));
    [(one, other), (other, one)].iter().for_each(|&pair| least(y, "made names", s, pair, answer, &out));
    if s.ends.len() <= 16 {
        let expected = schema::least_common_name(s, (one, other), 2);
        y.same(format_args!("made names of {one} and {other}, {s:?}"), (answer, out.to_vec()), expected);
    }
    let classes = [one, other].map(|class| rows_in(&rows, class));
    let all = classes.concat();
    let [n, l] = [0, 1].map(|which| found && out[which] == fresh(&all, which));
    let beside = all.iter().any(|&row| numbers(row) == out.map(Some));
    let neither = |which: usize| classes.iter().all(|rows| fresh(rows, which) != out[which]);
    let sorts = [!found, beside, found && !n && !l && !beside, !n && l, n, n && neither(0) || l && neither(1)];
    seen.iter_mut().zip(sorts).for_each(|(count, sort)| *count += usize::from(sort));
}

/// All pairs of classes of up to so many rows over so many numbers.
pub fn small(y: &mut Tally) {
    let mut seen = [0; 6];
    for (numbers, rows, others) in [(3, 3, 3), (3, 4, 2), (2, 4, 4), (2, 5, 2)] {
        let classes = |most: usize| (1..=most).flat_map(move |rows| all_classes(rows, 2, numbers));
        let others: Vec<String> = classes(others).collect();
        for (one, other) in classes(rows).flat_map(|one| others.iter().map(move |other| (one.clone(), other))) {
            let (schema, marks) = read(&with(&[&one, other]));
            agree(y, &mut seen, &over_least(schema), (marks[0], marks[1]));
        }
    }
    enough(y, "small pairs", SORTS, seen);
}

/// Numbers from this one on, in runs with gaps between.
fn runs(r: &Rng, first: u32) -> Vec<u32> {
    let last = first + r.pick(&[0, 1, 2, 3, 5, 8]);
    let far = if first < 500 && r.below(4) == 0 { runs(r, first + 250) } else { vec![] };
    (first..=last).filter(|&number| number == last || r.below(6) > 0).chain(far).collect()
}

/// A choice of the items, nested anyhow.
fn nested(r: &Rng, items: &[String]) -> String {
    if items.len() == 1 {
        return items[0].clone();
    }
    let (one, other) = items.split_at(r.pick(&[1, items.len() - 1, 1 + r.below(items.len() - 1)]));
    format!("/ {} {}", nested(r, one), nested(r, other))
}

/// Members of a class, in any order: for most of the namespaces an nsName, with or without an except, or names.
fn members(r: &Rng, [namespaces, locals]: &[Vec<u32>; 2]) -> Vec<String> {
    let mut all = vec![];
    for &own in namespaces.iter().filter(|_| r.below(6) > 0) {
        let n = || if r.below(9) == 0 { r.pick(namespaces) } else { own };
        let names = locals.iter().filter(|_| r.below(6) > 0).map(|l| format!("{}:{l}", n()));
        match (r.below(4), names.collect::<Vec<String>>()) {
            (0, names) => all.extend(names),
            (1, names) if !names.is_empty() => all.push(format!("{own}:*- {}", nested(r, &names))),
            _ => all.push(format!("{own}:*")),
        }
    }
    all.sort_by_cached_key(|_| r.below(1_000));
    all.extend(all.is_empty().then(|| "0:1".to_string()));
    all
}

/// Often the others hold what the first does not, or a little more, or the excepts of two are parts of one list.
fn random_classes(r: &Rng) -> [String; 3] {
    let numbers = [runs(r, 0), runs(r, 1)];
    let list = || nested(r, &members(r, &numbers));
    let class = || match r.below(6) {
        0 | 1 => list(),
        2 => format!("/ *- {} {}", list(), list()),
        _ => format!("*- {}", list()),
    };
    let some = members(r, &numbers);
    let (one, other) = some.split_at(some.len() / 2);
    let except = |items: &[String]| format!("*- {}", nested(r, items));
    match r.below(3) {
        0 if some.len() > 1 => [nested(r, &some), except(&some[r.below(2)..]), except(&some)],
        1 if some.len() > 1 => [except(one), except(other), class()],
        _ => [class(), class(), class()],
    }
}

/// Three classes of up to 40 rows in one schema, with their rows mixed, and some of the rows that lie in them.
pub fn random(y: &mut Tally, r: &Rng) {
    let (mut seen, mut met, short) = ([0; 6], [0; 2], |class: &String| class.split(' ').count() <= 40);
    for classes in (0..4_000).map(|_| random_classes(r)).filter(|classes| classes.iter().all(short)) {
        let [one, other, third] = &classes;
        let (schema, marks) = read(&with(&[one, other, third]));
        let rows = rows_of(&schema);
        let meet = [1, 2].iter().any(|&k| least_made(&rows, (marks[0], marks[k])).is_some());
        verdicts(y, &[one, other, third], meet);
        met[usize::from(meet)] += 1;
        let s = over_least(shuffled(r, &rows).concat());
        let (rows, some) = (rows_of(&s.schema), classes_of(&s));
        let own: Vec<u32> = rows.iter().filter(|row| row[0] == 20).map(|row| row[1]).collect();
        let some = [0; 4].map(|_| (r.pick(&some), r.pick(&some)));
        for pair in [(own[0], own[1]), (own[0], own[2]), (own[1], own[2])].into_iter().chain(some) {
            agree(y, &mut seen, &s, pair);
        }
    }
    enough(y, "random pairs", SORTS, seen);
    enough(y, "random verdicts", ["no name on both sides", "a name on both sides"], met);
}
