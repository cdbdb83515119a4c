// Compares codes 9 and 10, as the verdict gives them with a schema that passes, with a reference that looks at every
// row and every pair. Each single comparison is one test. The last line printed is `N passed, M failed`.

#[allow(dead_code)]
#[path = "support/calls.rs"]
mod calls;
#[allow(dead_code)]
#[path = "reference/schema_maker.rs"]
mod maker;
#[allow(dead_code)]
#[path = "reference/check.rs"]
mod reference;
#[path = "support/tally.rs"]
mod tally;

use maker::{over, Rng};
use reference::{Answer, Input};
use std::cell::Cell;
use tally::Tally;

const NONE: u32 = u32::MAX;
const STRINGS: usize = 12;

type Node = [u32; 5];

/// The verdict by a schema whose start is notAllowed, so that nothing is valid: 0 and 0 where nothing is refused.
fn verdict(words: &[u32]) -> Answer {
    let schema = over(STRINGS as u16, vec![2, 0, 0, 21, 0, 0]);
    calls::verdict(&Input { instance: words.to_vec(), ..schema }, 0).0
}

fn fields_right([kind, _, a, b, c]: Node) -> bool {
    let string = |x: u32| (x as usize) < STRINGS;
    match kind {
        1 => string(a) && string(b) && b != 0 && c == 0,
        2 => string(a) && string(b) && b != 0 && string(c),
        3 => string(a) && a != 0 && b == 0 && c == 0,
        _ => false,
    }
}

/// The nearest element of a row with all its ancestors, nearest first.
fn open_path(t: &[Node], r: usize) -> Vec<u32> {
    let mut path = vec![];
    let mut e = if t[r][0] == 1 { r as u32 } else { t[r][1] };
    while e != NONE && (e as usize) < t.len() && path.len() <= t.len() {
        path.push(e);
        e = t[e as usize][1];
    }
    path
}

fn wrong(t: &[Node], r: usize) -> bool {
    let [kind, parent, a, b, _] = t[r];
    let sibling = |q: &usize| t[*q][1] == parent;
    let child = |q: &usize| t[*q][1] == parent && t[*q][0] != 2;
    let placed = match r {
        0 => kind == 1 && parent == NONE,
        _ => parent != NONE && open_path(t, r - 1).contains(&parent),
    };
    let late = kind == 2 && (0..r).any(|q| child(&q));
    let twin = |q: usize| sibling(&q) && t[q][0] == 2 && t[q][2] == a && t[q][3] == b;
    let same = kind == 2 && (0..r).any(twin);
    let adjacent = kind == 3 && (0..r).filter(child).last().is_some_and(|q| t[q][0] == 3);
    !fields_right(t[r]) || !placed || late || same || adjacent
}

fn expected_nodes(words: &[u32]) -> Answer {
    let count = words.len() / 5;
    if words.len() % 5 != 0 || count == 0 || count > 1024 {
        return (9, 0);
    }
    let t: Vec<Node> = words.chunks(5).map(|w| w.try_into().unwrap()).collect();
    let first = (0..count).find(|&r| wrong(&t, r));
    first.map_or((0, 0), |r| (9, r as u64))
}

fn expected_width(words: &[u32]) -> Answer {
    let t: Vec<&[u32]> = words.chunks_exact(5).collect();
    let wide = |e: usize| {
        let of = |f: fn(u32) -> bool| {
            let held = |w: &&&[u32]| w[1] == e as u32 && f(w[0]);
            t.iter().filter(held).count()
        };
        t[e][0] == 1 && (of(|k| k == 2) > 63 || of(|k| k == 1 || k == 3) > 63)
    };
    let first = (0..t.len()).find(|&e| wide(e));
    first.map_or((0, 0), |e| (10, e as u64))
}

/// Any fault of code 9 comes before all of code 10.
fn expected(words: &[u32]) -> Answer {
    match expected_nodes(words) {
        (0, _) => expected_width(words),
        refused => refused,
    }
}

/// A document that keeps the rule, but for the width. Of so many rows one has any open element as its parent, and the
/// others have the root or its child.
fn grow(g: &Rng, rows: usize, any: usize) -> Vec<Node> {
    let mut t: Vec<Node> = vec![[1, NONE, 0, 1, 0]];
    while t.len() < rows {
        let path = open_path(&t, t.len() - 1);
        let parent = match g.below(any) {
            0 => path[g.below(path.len())],
            _ => path[path.len() - 1 - g.below(path.len().min(2))],
        };
        let (a, b) = (g.below(STRINGS) as u32, 1 + g.below(STRINGS - 1) as u32);
        t.push(match g.below(4) {
            0 | 1 => [1, parent, a, b, 0],
            2 => [2, parent, a, b, g.below(STRINGS) as u32],
            _ => [3, parent, b, 0, 0],
        });
        if wrong(&t, t.len() - 1) {
            t.pop();
        }
    }
    t
}

fn same(y: &mut Tally, name: &str, words: &[u32], expected: Answer) {
    y.same(format_args!("{name}: {words:?}"), verdict(words), expected);
}

fn named(y: &mut Tally, name: &str, t: &[Node], expected: Answer) {
    same(y, name, &t.concat(), expected);
}

#[rustfmt::skip]
fn named_cases(y: &mut Tally) {
    let root: Node = [1, NONE, 0, 1, 0];
    named(y, "root alone", &[root], (0, 0));
    named(y, "no row", &[], (9, 0));
    same(y, "broken length", &[1, NONE, 0, 1], (9, 0));
    named(y, "root with parent", &[[1, 0, 0, 1, 0]], (9, 0));
    named(y, "root is text", &[[3, NONE, 1, 0, 0]], (9, 0));
    named(y, "second root", &[root, root], (9, 1));
    named(y, "kind 0", &[root, [0, 0, 0, 1, 0]], (9, 1));
    named(y, "kind 4", &[root, [4, 0, 0, 1, 0]], (9, 1));
    named(y, "local 0", &[root, [1, 0, 0, 0, 0]], (9, 1));
    named(y, "namespace past the strings", &[root, [1, 0, 12, 1, 0]], (9, 1));
    named(y, "largest string", &[root, [2, 0, 11, 11, 11]], (0, 0));
    named(y, "element with a string", &[root, [1, 0, 0, 1, 1]], (9, 1));
    named(y, "empty text", &[root, [3, 0, 0, 0, 0]], (9, 1));
    named(y, "text with a word", &[root, [3, 0, 1, 0, 1]], (9, 1));
    named(y, "parent itself", &[root, [1, 1, 0, 1, 0]], (9, 1));
    named(y, "parent later", &[root, [1, 2, 0, 1, 0], [1, 0, 0, 1, 0]], (9, 1));
    named(y, "parent is text", &[root, [3, 0, 1, 0, 0], [1, 1, 0, 1, 0]], (9, 2));
    named(y, "parent is attribute", &[root, [2, 0, 0, 1, 0], [1, 1, 0, 1, 0]], (9, 2));
    named(y, "parent closed", &[root, [1, 0, 0, 1, 0], [1, 0, 0, 1, 0], [3, 1, 1, 0, 0]], (9, 3));
    named(y, "back to an ancestor", &[root, [1, 0, 0, 1, 0], [1, 1, 0, 1, 0], [1, 0, 0, 1, 0]], (0, 0));
    named(y, "attribute after text", &[root, [3, 0, 1, 0, 0], [2, 0, 0, 1, 0]], (9, 2));
    named(y, "attribute after element", &[root, [1, 0, 0, 1, 0], [2, 0, 0, 1, 0]], (9, 2));
    named(y, "same name", &[root, [2, 0, 0, 1, 0], [2, 0, 0, 1, 1]], (9, 2));
    named(y, "same name, third", &[root, [2, 0, 0, 1, 0], [2, 0, 0, 2, 0], [2, 0, 0, 1, 1]], (9, 3));
    named(y, "other namespace", &[root, [2, 0, 0, 1, 0], [2, 0, 1, 1, 0]], (0, 0));
    named(y, "same name elsewhere", &[root, [2, 0, 0, 1, 0], [1, 0, 0, 1, 0], [2, 2, 0, 1, 0]], (0, 0));
    named(y, "text after text", &[root, [3, 0, 1, 0, 0], [3, 0, 2, 0, 0]], (9, 2));
    named(y, "element between texts", &[root, [3, 0, 1, 0, 0], [1, 0, 0, 1, 0], [3, 0, 1, 0, 0]], (0, 0));
    named(y, "text inside between",
        &[root, [3, 0, 1, 0, 0], [1, 0, 0, 1, 0], [3, 2, 1, 0, 0], [3, 0, 1, 0, 0]], (0, 0));
    named(y, "the first of two faults", &[root, [1, 0, 0, 0, 0], [4, 0, 0, 0, 0]], (9, 1));
}

fn limits(y: &mut Tally) {
    let root: Node = [1, NONE, 0, 1, 0];
    // So many rows after the root, each the child of the row before or all children of the root.
    for (count, deep, wide) in [(1023u32, (0, 0), (10, 0)), (1024, (9, 0), (9, 0))] {
        let rows = |parent: fn(u32) -> u32| (0..count).map(move |k| [1, parent(k), 0, 1, 0]);
        named(y, "1,024 rows and one more, deep", &[root].into_iter().chain(rows(|k| k)).collect::<Vec<_>>(), deep);
        named(y, "1,024 rows and one more, wide", &[root].into_iter().chain(rows(|_| 0)).collect::<Vec<_>>(), wide);
    }
    // 63 and 64 attributes, elements, and elements and texts in turn, of the element at row 1.
    for (count, answer) in [(63u32, (0, 0)), (64, (10, 1))] {
        for shape in 0..3 {
            let mut t = vec![root, [1, 0, 0, 1, 0]];
            t.extend((0..count).map(|k| match (shape, k % 2) {
                (0, _) => [2, 1, k % 8, 1 + k / 8, 0],
                (1, _) | (2, 0) => [1, 1, 0, 1, 0],
                _ => [3, 1, 1, 0, 0],
            }));
            named(y, "width", &t, answer);
        }
    }
}

/// Documents that keep the rule but for some that are too wide, and each of them with some words changed.
fn random_documents(y: &mut Tally, g: &Rng) {
    let mut codes = [0; 11];
    for round in 0..6_000 {
        let (most, any) = if round % 20 == 0 { (300, g.pick(&[1, 8, 50])) } else { (30, 1) };
        let mut words = grow(g, 1 + g.below(most), any).concat();
        let rows = words.len() / 5;
        let wide = expected_width(&words);
        same(y, "grown", &words, wide);
        for _ in 0..1 + g.below(3) {
            let at = g.below(words.len());
            words[at] = g.pick(&[0, 1, 2, 3, 4, 11, 12, NONE, g.below(rows + 1) as u32]);
        }
        if g.below(20) == 0 {
            words.pop();
        }
        let damaged = expected(&words);
        same(y, "damaged", &words, damaged);
        codes[wide.0 as usize] += 1;
        codes[damaged.0 as usize] += 1;
    }
    println!("documents by code: {codes:?}");
    y.same("damage is seen often", codes[9] >= 3_000 && codes[10] >= 100 && codes[0] >= 6_000, true);
}

fn main() {
    let mut y = Tally::default();
    named_cases(&mut y);
    limits(&mut y);
    random_documents(&mut y, &Rng(Cell::new(0x9E37_79B9_7F4A_7C15)));
    y.end();
}
