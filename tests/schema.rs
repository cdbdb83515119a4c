// Compares the proved checker of schemas and name classes with a reference written from the rules.
// Each single comparison is one test. The last line printed is `N passed, M failed`.

#[allow(dead_code)]
#[path = "support/calls.rs"]
mod calls;
#[path = "support/clashes.rs"]
mod clashes;
#[path = "support/class_rows.rs"]
mod class_rows;
#[path = "support/least_names.rs"]
mod least_names;
#[allow(dead_code)]
#[path = "reference/schema_maker.rs"]
mod maker;
#[allow(dead_code)]
#[path = "reference/check.rs"]
mod reference;
#[path = "support/schema_cases.rs"]
mod schema_cases;
#[path = "support/tally.rs"]
mod tally;

use class_rows::member;
use least_names::least;
use maker::{damage, expand, grow, over, read, rows_of, Rng, Row};
use reference::{schema, Answer, Input, NONE};
use schema_cases::*;
use std::cell::Cell;
use std::time::{Duration, Instant};
use tally::Tally;

/// What a large schema may take, with room for a busy machine; it takes some milliseconds.
const LIMIT: Duration = Duration::from_secs(5);

/// The verdict; where it is a fault, both questions about classes answer it too.
fn verdict(y: &mut Tally, name: &str, s: &Input, expected: Answer) {
    y.same(format_args!("{name}, verdict, {s:?}"), calls::schema_verdict(s), expected);
    if expected != PASSES {
        member(y, name, s, NONE, (0, 1), expected, &[0; 3]);
        least(y, name, s, (0, NONE), expected, &[0; 3]);
    }
}

/// A schema in the notation, over n strings. A fault is at the row marked.
fn notation(y: &mut Tally, name: &str, n: u16, code: u64, text: &str) {
    let (schema, marks) = read(text);
    assert_eq!(marks.len(), (code > 0) as usize, "{name}: {text}");
    let expected = marks.first().map_or(PASSES, |&row| at(code, row));
    verdict(y, &format!("{name}, {text:.200}"), &over(n, schema), expected);
}

// 1. Named cases; all expected values are literals or marks.

/// A schema with the rows given at 3 and after. Before them a class, a pattern and an element that
/// uses both; after them an element that uses the last of them, and rows of every sort.
#[rustfmt::skip]
fn around(rows: &[Row]) -> Input {
    let mut all = [&[[18, 0, 1], [3, 0, 0], [20, 0, 1]], rows].concat();
    let x = all.len() as u32 - 1;
    match all[x as usize][0] {
        16..=19 => all.extend([[3, 0, 0], [20, x, x + 1]]),
        20 | 21 => {}
        _ => all.extend([[18, 0, 1], [20, x + 1, x]]),
    }
    let n = all.len() as u32;
    all.extend([[18, 0, 1], [3, 0, 0], [20, n, n + 1], [8, 2, 0], [21, n + 3, 0]]);
    over(4, all.concat())
}

fn named_rows(y: &mut Tally) {
    for (values, list) in HOLES {
        for (value, rows) in values.iter().flat_map(|v| list.iter().map(move |rows| (*v, *rows))) {
            let filled: Vec<_> = rows.iter().map(|r| r.map(|w| if w == H { value } else { w })).collect();
            let name = format!("bad value {value} in {rows:?}");
            verdict(y, &name, &around(&filled), at(2, rows.len() as u32 + 2));
        }
    }
    for (name, expected, list) in ROWS {
        list.iter().for_each(|rows| verdict(y, name, &around(rows), expected));
    }
    for text in [
        "!start none start none",
        "!start none element 0:1 empty",
        "!element 0:1 empty",
        "!none",
        "!*",
        "!none start none",
        "!0:1 start none",
        "element 0:1 none !* start $0",
        "element 0:1 none !$0 start $0",
    ] {
        notation(y, "start and parents", 4, 2, text);
    }
    for (expected, list) in WORDS {
        list.iter().for_each(|words| verdict(y, "words", &over(4, words.to_vec()), expected));
    }
}

/// Counts of strings and of words, and strings at fault with schemas that have faults and with none.
fn named_counts(y: &mut Tally) {
    let small = || read("element 3:3 none start $0").0;
    for (n, expected) in [(1, at(2, 0)), (3, at(2, 0)), (4, PASSES), (512, PASSES), (513, at(1, 0))] {
        verdict(y, &format!("{n} strings"), &over(n, small()), expected);
    }
    for (body, n, more, expected) in [
        ("none", 169, 0, PASSES),
        ("none", 169, 1, at(2, 0)),
        ("none", 169, 2, at(2, 0)),
        ("+ text", 169, 0, at(2, 0)),
        ("none", 21_999, 0, at(2, 0)),
    ] {
        let definitions = "element 1:2 none ".repeat(n);
        let mut schema = read(&format!("element 0:1 {body} {definitions} start none")).0;
        schema.extend(vec![0; more]);
        verdict(y, &format!("{} words", schema.len()), &over(4, schema), expected);
    }
    for (bytes, ends, place) in STRINGS {
        for schema in [small(), vec![2, 0, 0, 21, 0, 0], vec![], vec![2], read("start + none").0] {
            let (bytes, ends) = (bytes.to_vec(), ends.to_vec());
            verdict(y, "strings at fault", &Input { bytes, ends, schema, instance: vec![] }, at(1, place));
        }
    }
}

#[rustfmt::skip]
fn named_rules(y: &mut Tally) {
    let more = "element 1:1 none element 1:2 @ 0:2 text element / 0:3 1:1 data element 1:* text start none";
    for (name, code, outer, inner) in BODIES {
        for (outer, inner) in outer.split(';').flat_map(|o| inner.split(';').map(move |i| (o, i))) {
            notation(y, name, 4, *code, &format!("element 0:1 {} {more}", outer.replace('_', inner)));
        }
    }
    let definitions = "element 0:1 @ 0:1 text element 0:2 $0";
    for outer in ["_", "| $0 _", "| _ $0", "| $0 | $0 _", "| | _ $0 $0"] {
        for (code, list) in [(0, "$0; $1; | $0 $1"),
            (3, "| !none $0; | $0 !none; | $0 !empty; + !none; , !empty $0; list !none; list | data !empty"),
            (5, "!text; !data; !token; !value; !, $0 $1; !& $0 $1; !+ $0; @ 0:1 !text; @ 0:1 !value;
            @ 0:1 !$0; data- !value; + , $1 !text; | $1 !data; | !empty $0; list !data; list !value;
            list !empty; list !text; list !$0; list + !data; list , !data data; list | !empty data;
            list list !data; list @ 0:1 !value; list data- !value; + list !data")] {
            for inner in list.split(';') {
                notation(y, "start", 4, code, &format!("{definitions} start {}", outer.replace('_', inner)));
            }
        }
    }
    notation(y, "start", 4, 0, &format!("{definitions} start none"));
    notation(y, "start", 4, 5, &format!("{definitions} start !empty"));

    // The least code is given, whatever the places are.
    let faults = [(3, "+ !none"), (3, "list !none"), (4, "text element *- !* text"), (5, "@ 0:1 !$1"),
        (5, "list !text"), (6, "!+ data"), (6, "!+ list data"), (7, "!@ * text"),
        (7, "!, @ 0:1 text @ 0:1 text"), (8, "!& text text"), (8, "!& $0 $0")];
    for ((k, a), (j, b)) in faults.iter().flat_map(|a| faults.iter().map(move |b| (a, b))) {
        let plain = [a, b].map(|text| text.replace('!', ""));
        let (a, b) = if k <= j { (*a, &plain[1][..]) } else { (&plain[0][..], *b) };
        let text = format!("element 0:1 {a} element 0:3 {b} start none");
        notation(y, "two faults", 4, *k.min(j), &text);
        let mut s = over(4, read(&text).0);
        *s.schema.last_mut().unwrap() = 1;
        verdict(y, "a bad field too", &s, at(2, s.schema.len() as u32 / 3 - 1));
        s.ends[3] = 5;
        verdict(y, "a bad string too", &s, at(1, 3));
    }
}

/// Rows of every sort; those that are classes, each with its least name and the row that holds it.
fn rows_of_every_sort(y: &mut Tally) {
    let text = "element / 0:1 *- 0:2 | @ 0:3 data- value , + text $0 element 1:* & text @ 0:1 empty";
    let s = over(4, read(&format!("{text} element 2:2 none start | $0 $1")).0);
    verdict(y, "rows of every sort", &s, PASSES);
    let classes = [
        (0, (0, 1), 0),
        (1, (0, 2), 1),
        (2, (0, 1), 2),
        (3, (0, 1), 0),
        (4, (0, 3), 4),
        (14, (1, 1), 14),
        (16, (0, 1), 16),
        (21, (2, 2), 21),
    ];
    for row in (0..30).chain([256, 270, 512, 65_536, 65_550, 2_147_483_648, NONE - 1, NONE]) {
        if let Some(&(_, (n, l), holds)) = classes.iter().find(|class| class.0 == row) {
            least(y, "class and itself", &s, (row, row), (0, 1), &[n, l, 0]);
            member(y, "class", &s, row, (n, l), (0, 1), &[holds, 0, 0]);
            member(y, "class", &s, row, (n, 0), (0, 0), &[NONE, 0, 0]);
            continue;
        }
        member(y, "no class", &s, row, (0, 1), at(11, row), &[0; 3]);
        for (pair, place) in [((row, 0), row), ((14, row), row), ((row, NONE), row), ((5, row), 5)] {
            least(y, "no class", &s, pair, at(11, place), &[0; 3]);
        }
    }
}

// 2. Random schemas.

/// Compares verdicts; for a schema that passes, answers about its rows too. Gives the code.
fn compare(y: &mut Tally, r: &Rng, name: &str, s: &Input) -> usize {
    let (expected, rows) = (schema::verdict(s), rows_of(&s.schema));
    verdict(y, name, s, expected);
    if expected != PASSES {
        return expected.0 as usize;
    }
    // Class rows for the most part, and numbers of strings for the most part.
    let is_class = |row: &usize| (16..=19).contains(&rows[*row][0]);
    let mut some: Vec<_> = (0..rows.len()).filter(is_class).collect();
    some.extend([0, 0].map(|_| r.below(rows.len() + 3)));
    let numbers = [0, 1, 2, r.below(s.ends.len() + 2) as u32, 65_537, NONE];
    for _ in 0..6 {
        let (k, j) = (r.pick(&some) as u32, r.pick(&some) as u32);
        let asked = (r.pick(&numbers), r.pick(&numbers));
        let (answer, out) = schema::name_in_class(s, k, asked, r.below(4));
        member(y, name, s, k, asked, answer, &out);
        let (answer, out) = schema::least_common_name(s, (k, j), r.below(5));
        least(y, name, s, (k, j), answer, &out);
    }
    0
}

fn random_schemas(y: &mut Tally, r: &Rng) {
    let mut total = [0; 9];
    for (kind, count) in [("grown", 8_000), ("damaged", 8_000)] {
        let mut codes = [0; 9];
        for _ in 0..count {
            let mut s = grow(r);
            while kind == "damaged" && schema::verdict(&s) != PASSES {
                s = grow(r);
            }
            if kind == "damaged" {
                let mut rows = rows_of(&s.schema);
                (0..=r.below(3)).for_each(|_| damage(r, &mut rows));
                s.schema = rows.concat();
                match r.below(80) {
                    0 => s.schema.truncate(rows.len() * 3 - 1 - r.below(2)),
                    1 => s.ends[r.below(2)] = r.below(20) as u32,
                    _ => {}
                }
            }
            codes[compare(y, r, &format!("{kind} schema"), &s)] += 1;
        }
        let (pass, faults) = (codes[0], &codes[1..]);
        println!("{count} {kind} schemas: {pass} pass, codes 1 to 8: {faults:?}");
        let enough = pass >= count / 5;
        y.same(format_args!("a fifth pass, {kind}"), enough, true);
        (0..9).for_each(|code| total[code] += codes[code]);
    }
    let enough = total[2..].iter().all(|&count| count >= 50);
    y.same(format_args!("50 of each code, {total:?}"), enough, true);
}

// 3. Large schemas, without the reference.

fn large_schemas(y: &mut Tally) {
    for right in [true, false] {
        for &(code, body) in LARGE {
            let began = Instant::now();
            notation(y, "large", 512, code, &expand(&format!("element 0:1 {body} start $0"), right));
            y.same(format_args!("large, in time, {body}"), began.elapsed() < LIMIT, true);
        }
        for (one, other, name) in LARGE_CLASSES {
            let text = format!("element !{one} none element !{other} none start none");
            let (schema, marks) = read(&expand(&text, right).replace("! ", "!"));
            let (s, found) = (over(512, schema), (0, name.is_some() as u64));
            for (k, j) in [(marks[0], marks[1]), (marks[1], marks[0])] {
                least(y, "large classes", &s, (k, j), found, &name.unwrap_or([0, 0]));
                member(y, "large class", &s, k, (1, 0), (0, 0), &[NONE, 0]);
            }
        }
    }
}

fn main() {
    let mut y = Tally::default();
    let r = Rng(Cell::new(0x9E37_79B9_7F4A_7C15));
    named_rows(&mut y);
    named_counts(&mut y);
    named_rules(&mut y);
    least_names::named(&mut y);
    clashes::page(&mut y);
    rows_of_every_sort(&mut y);
    class_rows::named(&mut y);
    class_rows::refused(&mut y);
    random_schemas(&mut y, &r);
    class_rows::small(&mut y);
    class_rows::random(&mut y, &r);
    least_names::small(&mut y);
    least_names::random(&mut y, &r);
    large_schemas(&mut y);
    class_rows::large(&mut y);
    y.end();
}
