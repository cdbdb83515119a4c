//! Which row says whether a class holds a name: classes with the answers as literals; against the reference, all small
//! classes with their rows in every order, and random ones of up to 40 rows.

use super::calls;
use super::maker::{expand, over, read, renumber, rows_of, Rng, Row};
use super::reference::{schema, Answer, Input, NONE};
use super::schema_cases::{at, PASSES};
use super::tally::Tally;

type Name = (u32, u32);

/// The answer and the whole output, which has room for so many words.
pub fn member(y: &mut Tally, what: &str, s: &Input, class: u32, (n, l): Name, answer: Answer, out: &[u32]) {
    let got = calls::name_in_class(s, class, (n, l), out.len());
    let what = format_args!("{what}, name {n}:{l} in class {class}, room {}, {s:?}", out.len());
    y.same(what, got, (answer, out.to_vec()));
}

/// The answer in outputs of no word to three.
fn in_rooms(y: &mut Tally, what: &str, s: &Input, class: u32, name: Name, (yes, row): (u64, u32)) {
    member(y, what, s, class, name, (12, 0), &[]);
    (1..=3).for_each(|room| member(y, what, s, class, name, (0, yes), &[row, 0, 0][..room]));
}

/// The rows that are classes.
pub fn classes_of(s: &Input) -> Vec<u32> {
    let rows = rows_of(&s.schema);
    (0..rows.len() as u32).filter(|&row| (16..=19).contains(&rows[row as usize][0])).collect()
}

// 1. Named cases.

/// A class, with a mark at the row that says so where there is one; 1 or 0; and names with this answer.
#[rustfmt::skip]
const MARKED: &[(&str, u64, &[Name])] = &[
    // One row alone.
    ("!*", 1, &[(0, 1), (9, 1), (1, 9), (NONE, NONE), (65_536, 65_536)]), ("*", 0, &[(0, 0), (3, 0), (NONE, 0)]),
    ("!2:*", 1, &[(2, 1), (2, 9), (2, NONE)]), ("!0:*", 1, &[(0, 1), (0, NONE)]), ("!1:2", 1, &[(1, 2)]),
    ("2:*", 0, &[(2, 0), (1, 1), (0, 2), (258, 1), (65_538, 1), (NONE, 2)]),
    ("0:*", 0, &[(0, 0), (1, 0), (1, 1), (256, 1), (NONE, 1)]),
    ("1:2", 0, &[(2, 1), (1, 1), (0, 2), (1, 0), (1, 258), (257, 2), (1, 65_538)]),
    // An except, which is named as a whole where it is a choice.
    ("!*- 1:2", 1, &[(1, 1), (2, 2), (0, 2), (257, 2), (1, 258), (1, NONE)]), ("*- !1:2", 0, &[(1, 2)]),
    ("*- 1:2", 0, &[(1, 0), (0, 0)]), ("!*- 1:*", 1, &[(0, 1), (2, 1)]), ("*- !1:*", 0, &[(1, 1), (1, NONE)]),
    ("!1:*- 1:2", 1, &[(1, 1), (1, 3)]), ("1:*- !1:2", 0, &[(1, 2)]), ("1:*- 1:2", 0, &[(0, 1), (1, 0), (2, 2)]),
    ("!2:*- / 2:1 1:2", 1, &[(2, 2), (2, 3), (2, 257)]), ("2:*- !/ 2:1 1:2", 0, &[(2, 1)]),
    ("!*- / 0:* 1:1", 1, &[(1, 2), (2, 1), (NONE, 1)]), ("*- !/ 0:* 1:1", 0, &[(0, 1), (0, NONE), (1, 1)]),
    ("*- / 0:* 1:1", 0, &[(1, 0)]), ("*- !/ 0:1 / 0:2 0:3", 0, &[(0, 1), (0, 2), (0, 3)]),
    ("0:*- !/ / 0:1 0:2 0:3", 0, &[(0, 1), (0, 2), (0, 3)]),
    // An nsName of another namespace, whose except holds the name.
    ("2:*- / 2:1 1:2", 0, &[(1, 2), (1, 1), (2, 0)]), ("1:*- 0:2", 0, &[(0, 2), (0, 1)]),
    ("/ 1:*- 0:2 2:*- / 0:2 1:2", 0, &[(0, 2), (0, 1)]), ("/ 1:*- 0:2 *- !0:2", 0, &[(0, 2)]),
    ("/ 1:*- 0:2 0:*- !0:2", 0, &[(0, 2)]), ("/ 1:*- 0:2 / 0:1 0:*- !/ 0:3 0:2", 0, &[(0, 2), (0, 3)]),
    // An except in an except.
    ("!*- 0:*- / 0:2 0:3", 1, &[(0, 2), (0, 3), (1, 1), (NONE, 1)]),
    ("*- !0:*- / 0:2 0:3", 0, &[(0, 1), (0, 4), (0, NONE)]), ("*- 0:*- / 0:2 0:3", 0, &[(1, 0)]),
    ("!*- / 1:1 0:*- 0:1", 1, &[(0, 1), (1, 2)]), ("*- !/ 1:1 0:*- 0:1", 0, &[(1, 1), (0, 2)]),
    ("*- !/ 0:1 0:*- 0:1", 0, &[(0, 1), (0, 2)]), ("/ *- 0:*- 0:1 !0:2", 1, &[(0, 2)]),
    ("/ !*- 0:*- 0:1 0:1", 1, &[(0, 1), (1, 1)]), ("/ 0:1 *- !0:*- 0:1", 0, &[(0, 2)]),
    // Choices.
    ("/ !1:2 / 2:1 0:*", 1, &[(1, 2)]), ("/ 1:2 / !2:1 0:*", 1, &[(2, 1)]),
    ("/ 1:2 / 2:1 !0:*", 1, &[(0, 1), (0, 9)]), ("/ 1:2 / 2:1 0:*", 0, &[(1, 1), (2, 2), (3, 1), (0, 0)]),
    ("/ !0:1 0:1", 1, &[(0, 1)]), ("/ !* 0:1", 1, &[(0, 1), (0, 2)]), ("/ !0:1 *", 1, &[(0, 1)]),
    ("/ 0:1 !*", 1, &[(0, 2), (1, 1)]), ("/ 0:1 / !0:2 0:*", 1, &[(0, 2)]), ("/ !0:1 / 0:2 0:*", 1, &[(0, 1)]),
    ("/ / 0:1 !0:2 0:*", 1, &[(0, 2)]), ("/ !0:* / 0:1 *", 1, &[(0, 1), (0, 2)]), ("/ / 1:1 !* 0:*", 1, &[(0, 1)]),
    // A row whose except holds the name, beside one that holds it.
    ("/ *- 0:1 !0:1", 1, &[(0, 1)]), ("/ !*- 0:1 0:2", 1, &[(0, 2)]), ("/ 0:*- 0:1 !*", 1, &[(0, 1)]),
    ("/ 0:*- 0:1 / 0:*- 0:1 !0:*- 0:2", 1, &[(0, 1)]), ("/ !0:*- 0:1 / 0:*- 0:1 0:*- 0:3", 1, &[(0, 2)]),
    // Two rows whose excepts hold the name.
    ("/ *- !0:1 0:*- 0:1", 0, &[(0, 1)]), ("/ 0:*- !/ 0:1 0:2 *- 0:1", 0, &[(0, 1)]),
    ("/ 0:*- !0:2 / 0:3 *- 0:2", 0, &[(0, 2)]), ("/ !3:*- 3:1 *- 3:*", 1, &[(3, 2)]),
    ("/ 3:*- 3:1 !*- 3:*", 1, &[(0, 1), (4, 1)]), ("/ 3:*- !3:1 *- 3:*", 0, &[(3, 1)]),
    ("/ 3:*- 3:1 *- 3:*", 0, &[(3, 0)]),
];

/// The rows of a class, and what some of them say of names: the row asked, the name, 1 or 0, and the row that says so.
#[rustfmt::skip]
const BY_ROWS: &[(&[Row], &[(u32, Name, u64, u32)])] = &[
    // The second member of a choice has the smaller row.
    (&[[18, 0, 1], [16, NONE, 0], [19, 1, 0]],
        &[(2, (0, 1), 1, 0), (2, (0, 2), 1, 1), (1, (0, 1), 1, 1), (0, (0, 1), 1, 0), (0, (0, 2), 0, NONE)]),
    (&[[16, NONE, 0], [18, 0, 1], [19, 1, 0]], &[(2, (0, 1), 1, 0), (2, (0, 2), 1, 0), (1, (0, 1), 1, 1)]),
    // / / 0:1 0:* 0:2
    (&[[18, 0, 2], [17, 0, NONE], [18, 0, 1], [19, 2, 1], [19, 3, 0]],
        &[(4, (0, 2), 1, 0), (4, (0, 1), 1, 1), (4, (0, 3), 1, 1), (4, (1, 1), 0, NONE), (3, (0, 2), 1, 1)]),
    // / *- 0:1 0:*- 0:1
    (&[[18, 0, 1], [18, 0, 1], [17, 0, 0], [16, 1, 0], [19, 3, 2]],
        &[(4, (0, 1), 0, 0), (4, (1, 1), 1, 3), (4, (0, 2), 1, 2), (3, (0, 1), 0, 1), (2, (0, 1), 0, 0),
        (2, (1, 1), 0, NONE), (1, (0, 1), 1, 1), (0, (0, 1), 1, 0)]),
    // / 0:*- / 0:2 0:1 *- 0:1: the smallest row of all stands inside an except.
    (&[[18, 0, 1], [18, 0, 2], [18, 0, 1], [16, 2, 0], [19, 1, 0], [17, 0, 4], [19, 5, 3]],
        &[(6, (0, 1), 0, 2), (6, (0, 2), 1, 3), (5, (0, 1), 0, 4), (5, (0, 2), 0, 4), (5, (1, 2), 0, NONE),
        (4, (0, 1), 1, 0), (4, (0, 2), 1, 1), (3, (0, 1), 0, 2)]),
    // / *- 0:1 0:1
    (&[[18, 0, 1], [16, 0, 0], [18, 0, 1], [19, 1, 2]], &[(3, (0, 1), 1, 2), (3, (0, 2), 1, 1), (1, (0, 1), 0, 0)]),
    // / 1:*- 0:1 *- 0:1: the first is of another namespace.
    (&[[18, 0, 1], [17, 1, 0], [18, 0, 1], [16, 2, 0], [19, 1, 3]],
        &[(4, (0, 1), 0, 2), (1, (0, 1), 0, NONE), (1, (1, 1), 1, 1), (4, (1, 1), 1, 1), (3, (0, 1), 0, 2)]),
    // *- 0:*- 0:1, and the except asked by itself.
    (&[[18, 0, 1], [17, 0, 0], [16, 1, 0]],
        &[(2, (0, 1), 1, 2), (2, (0, 2), 0, 1), (2, (1, 1), 1, 2), (1, (0, 1), 0, 0), (1, (0, 2), 1, 1),
        (1, (1, 1), 0, NONE), (0, (0, 1), 1, 0), (0, (0, 2), 0, NONE)]),
    // *- / 0:1 0:*- / 0:1 0:2
    (&[[18, 0, 1], [18, 0, 2], [18, 0, 1], [19, 2, 1], [17, 0, 3], [19, 0, 4], [16, 5, 0]],
        &[(6, (0, 1), 0, 5), (6, (0, 2), 1, 6), (6, (0, 3), 0, 5), (6, (1, 1), 1, 6), (5, (0, 1), 1, 0),
        (5, (0, 2), 0, 3), (5, (0, 3), 1, 4), (5, (1, 1), 0, NONE), (4, (0, 1), 0, 3), (4, (0, 3), 1, 4),
        (3, (0, 1), 1, 2), (3, (0, 2), 1, 1)]),
];

/// A schema over n strings that begins with the rows of a class, the class itself last.
fn with_class(n: u16, class: &[Row]) -> Input {
    let rest = class.len() as u32;
    over(n, [class, &[[2, 0, 0], [20, rest - 1, rest], [2, 0, 0], [21, rest + 2, 0]]].concat().concat())
}

pub fn named(y: &mut Tally) {
    for (text, yes, names) in MARKED {
        let (rows, marks) = read(text);
        let (s, class) = (with_class(4, &rows_of(&rows)), rows.len() as u32 / 3 - 1);
        let row = marks.first().copied().unwrap_or(NONE);
        names.iter().for_each(|&name| in_rooms(y, text, &s, class, name, (*yes, row)));
        without_local(y, &s);
    }
    for (rows, answers) in BY_ROWS {
        let s = with_class(4, rows);
        answers.iter().for_each(|&(class, name, yes, row)| in_rooms(y, "by rows", &s, class, name, (yes, row)));
        without_local(y, &s);
    }
}

/// No class holds a name with local name 0, and none shuts it out.
fn without_local(y: &mut Tally, s: &Input) {
    for (class, n) in classes_of(s).iter().flat_map(|class| [0, 1, 2, 3, NONE].map(|n| (*class, n))) {
        member(y, "local 0", s, class, (n, 0), (0, 0), &[NONE, 0]);
    }
}

/// After a refusal the output is zero, whatever the answer would have been: codes 1 to 8, and 11.
pub fn refused(y: &mut Tally) {
    let good = || over(4, read("element *- 0:1 none start none").0);
    let (mut strings, mut rows) = (good(), good());
    strings.ends[3] = 5;
    *rows.schema.last_mut().unwrap() = 1;
    let mut faults = vec![(strings, at(1, 3)), (rows, at(2, 5))];
    for (code, body) in [
        (3, "+ !none"),
        (4, "none element *- !* none"),
        (5, "@ 0:1 !$0"),
        (6, "!+ data"),
        (7, "!@ * text"),
        (8, "!& text text"),
    ] {
        let (schema, marks) = read(&format!("element *- 0:1 {body} start none"));
        faults.push((over(4, schema), at(code, marks[0])));
    }
    for (s, expected) in faults {
        (0..=s.schema.len() as u32 / 3).chain([NONE]).for_each(|class| all_refused(y, &s, class, expected));
    }
    (2..=6).chain([NONE]).for_each(|class| all_refused(y, &good(), class, at(11, class)));
}

fn all_refused(y: &mut Tally, s: &Input, class: u32, expected: Answer) {
    for (local, room) in (0..=2).flat_map(|local| (0..=3).map(move |room| (local, room))) {
        member(y, "refused", s, class, (0, local), expected, &[0; 3][..room]);
    }
}

/// A choice of 250 names says so by their rows, and a class with it as its except by the choice.
pub fn large(y: &mut Tally) {
    for right in [true, false] {
        let choice = rows_of(&read(&expand("(/ 1 250 0:#)", right)).0);
        let except = choice.len() as u32 - 1;
        let own = |k: u32| choice.iter().position(|row| *row == [18, 0, k]).expect("a name") as u32;
        let with = |outer: Row| with_class(512, &[&choice[..], &[outer]].concat());
        let (s, any, ns) = (with_class(512, &choice), with([16, except, 0]), with([17, 0, except]));
        for k in 1..=250 {
            member(y, "large", &s, except, (0, k), (0, 1), &[own(k), 0]);
            for (s, yes, row) in [(&any, 1, except + 1), (&ns, 0, NONE)] {
                member(y, "large", s, except + 1, (0, k), (0, 0), &[except, 0]);
                member(y, "large", s, except + 1, (k, 1), (0, yes), &[row, 0]);
            }
        }
    }
}

// 2. Against the reference.

/// Sorts of answers, each of which comes about often.
const SORTS: [&str; 7] = [
    "yes by the first row that holds the name",
    "yes by another",
    "no by the first except that holds the name",
    "no by another",
    "no by a choice",
    "no by no row",
    "no, and an nsName of another namespace has the name in its except",
];

/// The first row from the left that holds a name, in a class that does, by which rows hold it.
fn first_row(rows: &[Row], held: &[bool], class: u32) -> u32 {
    match rows[class as usize] {
        [19, a, b] => first_row(rows, held, if held[a as usize] { a } else { b }),
        _ => class,
    }
}

/// All excepts that hold a name, from the left, each with whether it is of the name's namespace.
fn excepts(rows: &[Row], held: &[bool], class: u32, namespace: u32) -> Vec<(u32, bool)> {
    match rows[class as usize] {
        [19, a, b] => [a, b].iter().flat_map(|&member| excepts(rows, held, member, namespace)).collect(),
        [16, a, _] if a != NONE && held[a as usize] => vec![(a, true)],
        [17, n, b] if b != NONE && held[b as usize] => vec![(b, n == namespace)],
        _ => vec![],
    }
}

/// Asks every class of a schema for every name over some numbers.
fn every_name(y: &mut Tally, seen: &mut [usize; 7], s: &Input, namespaces: &[u32], locals: &[u32]) {
    y.same(format_args!("the schema passes, {s:?}"), calls::schema_verdict(s), PASSES);
    let (mut reference, rows) = (schema::check(s).expect("a schema that passes"), rows_of(&s.schema));
    for (n, l) in namespaces.iter().flat_map(|n| locals.iter().map(move |l| (*n, *l))) {
        let mut held = vec![false; rows.len()];
        for class in classes_of(s) {
            let (yes, row) = reference.name_in_class(class, (n, l)).expect("a class");
            held[class as usize] = yes;
            member(y, "every name", s, class, (n, l), (0, u64::from(yes)), &[row, 0]);
            let shut = excepts(&rows, &held, class, n);
            let first = shut.iter().find(|(_, own)| *own).map_or(NONE, |except| except.0);
            let sorts = [
                yes && row == first_row(&rows, &held, class),
                yes && row != first_row(&rows, &held, class),
                !yes && row != NONE && row == first,
                !yes && row != first,
                !yes && row != NONE && rows[row as usize][0] == 19,
                !yes && row == NONE,
                !yes && shut.iter().any(|(_, own)| !own),
            ];
            seen.iter_mut().zip(sorts).for_each(|(count, sort)| *count += usize::from(sort));
        }
    }
}

/// The rows without a number whose children have one.
fn free(rows: &[Row], numbers: &[u32]) -> Vec<usize> {
    let numbered = |row: u32| row == NONE || numbers[row as usize] != NONE;
    let ready = |row: Row| match row {
        [16, a, _] => numbered(a),
        [17, _, b] => numbered(b),
        [19 | 20, a, b] => numbered(a) && numbered(b),
        _ => true,
    };
    (0..rows.len()).filter(|&k| numbers[k] == NONE && ready(rows[k])).collect()
}

/// The rows in the order of their numbers.
fn in_order(rows: &[Row], numbers: &[u32]) -> Vec<Row> {
    let mut ordered = vec![[0; 3]; rows.len()];
    rows.iter().zip(numbers).for_each(|(row, number)| ordered[*number as usize] = *row);
    renumber(&mut ordered, |row| numbers[row as usize]);
    ordered
}

/// Every order of rows with children before their parents.
fn every_order(rows: &[Row]) -> Vec<Vec<Row>> {
    let mut all = vec![vec![NONE; rows.len()]];
    for next in 0..rows.len() as u32 {
        let with = |numbers: &Vec<u32>, k: usize| {
            let mut numbers = numbers.clone();
            numbers[k] = next;
            numbers
        };
        all = all.iter().flat_map(|some| free(rows, some).into_iter().map(move |k| with(some, k))).collect();
    }
    all.iter().map(|numbers| in_order(rows, numbers)).collect()
}

/// All classes of so many rows over so many namespaces and as many local names: of names alone for 0, with nsName for
/// 1, with anyName too for 2.
pub fn all_classes(rows: usize, wild: usize, numbers: usize) -> Vec<String> {
    let spaces = (0..numbers).map(|n| (format!("{n}:*"), 0));
    let outer: Vec<_> = spaces.chain([("*".to_string(), 1)]).take([0, numbers, numbers + 1][wild]).collect();
    if rows == 1 {
        let names = (0..numbers).flat_map(|n| (1..=numbers).map(move |l| format!("{n}:{l}")));
        return names.chain(outer.into_iter().map(|(class, _)| class)).collect();
    }
    let mut all: Vec<String> = vec![];
    for (outer, inner) in outer {
        all.extend(all_classes(rows - 1, inner, numbers).iter().map(|class| format!("{outer}- {class}")));
    }
    for (k, one) in (1..rows - 1).flat_map(|k| all_classes(k, wild, numbers).into_iter().map(move |one| (k, one))) {
        all.extend(all_classes(rows - 1 - k, wild, numbers).iter().map(|other| format!("/ {one} {other}")));
    }
    all
}

/// All classes of up to five rows, with their rows in every order.
pub fn small(y: &mut Tally) {
    let mut seen = [0; 7];
    for class in (1..=5).flat_map(|rows| all_classes(rows, 2, 2)) {
        for rows in every_order(&rows_of(&read(&class).0)) {
            every_name(y, &mut seen, &with_class(3, &rows), &[0, 1, 2], &[0, 1, 2, 3]);
        }
    }
    enough(y, "small classes", SORTS, seen);
}

/// A random class of at most so many rows over so many namespaces, of names alone and so on as above. Excepts have the
/// smaller local names for the most part, so that names are often shut out by several.
fn random_class(r: &Rng, rows: usize, wild: usize, namespaces: usize) -> String {
    let class = |rows: usize, wild: usize| random_class(r, rows, wild, namespaces);
    let (n, k) = (r.below(namespaces), 1 + r.below(rows.saturating_sub(2)));
    let l = r.pick(&[[1, 1, 2], [1, 2, 3], [2, 3, 3]][wild]);
    match rows {
        2.. if wild > 0 && r.below(rows) < 2 => match r.below(wild) {
            0 => format!("{n}:*- {}", class(rows - 1, 0)),
            _ => format!("*- {}", class(rows - 1, 1)),
        },
        3.. => format!("/ {} {}", class(k, wild), class(rows - 1 - k, wild)),
        _ if wild > 0 && r.below(12) == 0 => format!("{n}:*"),
        _ if wild > 1 && r.below(24) == 0 => "*".to_string(),
        _ => format!("{n}:{l}"),
    }
}

/// The rows of a schema in a random order, children before their parents and start last.
pub fn shuffled(r: &Rng, rows: &[Row]) -> Vec<Row> {
    let last = rows.len() - 1;
    let mut numbers = vec![NONE; last];
    for next in 0..last as u32 {
        let row = r.pick(&free(&rows[..last], &numbers));
        numbers[row] = next;
    }
    numbers.push(last as u32);
    in_order(rows, &numbers)
}

/// Two random classes, the first of up to 40 rows, with the rows of both mixed.
pub fn random(y: &mut Tally, r: &Rng) {
    let mut seen = [0; 7];
    for rows in (1..=40).flat_map(|rows| [rows; 15]) {
        let namespaces = 1 + r.below(3);
        let [one, other] = [rows, r.below(7)].map(|rows| random_class(r, rows, 2, namespaces));
        let schema = rows_of(&read(&format!("element {one} none element {other} none start none")).0);
        every_name(y, &mut seen, &over(4, shuffled(r, &schema).concat()), &[0, 1, 2, 9], &[0, 1, 2, 3, 9]);
    }
    enough(y, "random classes", SORTS, seen);
}

pub fn enough<const N: usize>(y: &mut Tally, what: &str, sorts: [&str; N], seen: [usize; N]) {
    println!("{what}:");
    sorts.iter().zip(seen).for_each(|(sort, count)| println!("    {sort}: {count}"));
    y.same(format_args!("100 of each sort of answer, {what}, {seen:?}"), seen.iter().all(|&count| count >= 100), true);
}
