// Makes schemas: from a notation, and at random.

use super::reference::{Input, NONE};
use std::cell::Cell;

pub type Row = [u32; 3];

/// A schema over n strings: string 0 is empty, and each other is its number in two bytes.
#[rustfmt::skip]
pub fn over(n: u16, schema: Vec<u32>) -> Input {
    let bytes = (1..n).flat_map(u16::to_be_bytes).collect();
    Input { bytes, ends: (0..n as u32).map(|k| 2 * k).collect(), schema, instance: vec![] }
}

// The notation: a row and then its children, with `!` for a mark. `none` is notAllowed, `data-` has
// an except, `@` is an attribute, `$k` a ref to definition k; `+`, `|`, `,` and `&` are oneOrMore,
// choice, group and interleave. Of classes, `*` is anyName, `n:*` nsName, `n:l` a name, `/` a choice;
// `*-` and `n:*-` have an except.

/// In place of a child.
const C: u32 = 88_888;
#[rustfmt::skip]
const WORDS: [(&str, Row); 18] = [
    ("empty", [1, 0, 0]), ("none", [2, 0, 0]), ("text", [3, 0, 0]), ("data", [4, 0, NONE]),
    ("token", [4, 1, NONE]), ("data-", [4, 0, C]), ("value", [5, 1, 1]), ("list", [6, C, 0]), ("@", [7, C, C]),
    ("+", [9, C, 0]), ("|", [10, C, C]), (",", [11, C, C]), ("&", [12, C, C]), ("*", [16, NONE, 0]),
    ("*-", [16, C, 0]), ("/", [19, C, C]), ("element", [20, C, C]), ("start", [21, C, 0]),
];

struct Reader<'a>(std::str::SplitWhitespace<'a>, Vec<Row>, Vec<u32>);

impl Reader<'_> {
    #[rustfmt::skip]
    fn row(&mut self) -> Option<u32> {
        let marked = self.0.next()?;
        let word = marked.trim_start_matches('!');
        let number = |word: &str| word.parse().expect("a number");
        let known = WORDS.iter().find(|known| known.0 == word);
        let row = match (known, word.split_once(':')) {
            (Some(known), _) => known.1,
            (_, Some((n, "*"))) => [17, number(n), NONE],
            (_, Some((n, "*-"))) => [17, number(n), C],
            (_, Some((n, l))) => [18, number(n), number(l)],
            _ => [8, number(&word[1..]), 0],
        };
        let mut child = || self.row().expect("a child");
        let row = row.map(|word| if word == C { child() } else { word });
        self.1.push(row);
        let place = self.1.len() as u32 - 1;
        self.2.extend((marked != word).then_some(place));
        Some(place)
    }
}
/// The words of a schema and the rows marked.
pub fn read(text: &str) -> (Vec<u32>, Vec<u32>) {
    let mut reader = Reader(text.split_whitespace(), vec![], vec![]);
    while reader.row().is_some() {}
    let Reader(_, mut rows, marks) = reader;
    let elements: Vec<_> = (0..rows.len()).filter(|&k| rows[k][0] == 20).collect();
    for row in rows.iter_mut().filter(|row| row[0] == 8) {
        row[1] = elements[row[1] as usize] as u32;
    }
    (rows.concat(), marks)
}

/// Writes out `(kind from to item)`: items with numbers for `#`, joined two by two, nested on the
/// right or on the left; for the kind `.` only one after another.
pub fn expand(text: &str, right: bool) -> String {
    let mut out = String::new();
    for (k, part) in text.split(['(', ')']).enumerate() {
        if k % 2 == 0 {
            out += part;
            continue;
        }
        let words: Vec<_> = part.splitn(4, ' ').collect();
        let [from, to] = [1, 2].map(|k| words[k].parse::<u32>().expect("a number"));
        let items = (from..=to).map(|k| words[3].replace('#', &k.to_string()));
        let (items, kind): (Vec<_>, _) = (items.collect(), format!(" {} ", words[0]));
        let last = items.len() - 1;
        out += &match words[0] {
            "." => items.join(" "),
            _ if right => kind.clone() + &items[..last].join(&kind) + " " + &items[last],
            _ => kind.repeat(last) + &items.join(" "),
        };
    }
    out
}

/// A linear congruential generator.
pub struct Rng(pub Cell<u64>);

impl Rng {
    pub fn below(&self, n: usize) -> usize {
        let x = self.0.get().wrapping_mul(6_364_136_223_846_793_005);
        self.0.set(x.wrapping_add(1_442_695_040_888_963_407));
        (self.0.get() >> 33) as usize % n.max(1)
    }
    pub fn pick<T: Copy>(&self, from: &[T]) -> T {
        from[self.below(from.len())]
    }
}

/// All that may stand in a pattern, by letters.
const ALL: &str = "t$dvl@n";

/// Grows schemas in the notation. Of 1,000 choices some ignore the rules.
struct Grow<'a> {
    r: &'a Rng,
    strings: usize,
    definitions: usize,
    slips: usize,
}

#[rustfmt::skip]
impl Grow<'_> {
    fn slip(&self, times: usize) -> bool {
        self.r.below(1_000) < self.slips * times
    }
    /// A class: of names alone for 0, with nsName for 1, with anyName too for 2.
    fn class(&self, wild: usize, size: usize) -> String {
        let (r, wild, half) = (self.r, if self.slip(3) { 2 } else { wild }, size / 2);
        let (n, l) = (r.below(self.strings.min(3)), 1 + r.below(self.strings - 1));
        let except = size > 1 && r.below(3) > 0;
        match r.below(3 + wild) {
            2 if size > 1 => format!("/ {} {}", self.class(wild, half), self.class(wild, half)),
            3 if except => format!("{n}:*- {}", self.class(0, half)),
            3 => format!("{n}:*"),
            4 if except => format!("*- {}", self.class(1, half)),
            4 => "*".to_string(),
            _ => format!("{n}:{l}"),
        }
    }
    /// A pattern of tokens, for the inside of a list.
    fn tokens(&self, size: usize) -> String {
        let (r, half) = (self.r, size / 2);
        if self.slip(2) {
            return match r.below(4) {
                which @ 0..=1 => ["none", "empty"][which].to_string(),
                _ => self.pattern(ALL, size.min(5)),
            };
        }
        match r.below(if size > 2 { 12 } else { 4 }) {
            0 | 1 => "value".to_string(),
            2 => r.pick(&["data", "token"]).to_string(),
            3 => format!("data- {}", self.pattern("dv", half)),
            4..=6 => format!(", {} {}", self.tokens(half), self.tokens(half)),
            7 | 8 => format!("+ {}", self.tokens(size - 1)),
            9 => format!("| empty {}", self.tokens(half)),
            _ => format!("| {} {}", self.tokens(half), self.tokens(half)),
        }
    }
    /// A pattern. What may stand in it: t text, $ refs, d data, v values, l lists, @ attributes, n groups,
    /// interleaves and oneOrMore; r is for below oneOrMore.
    fn pattern(&self, may: &str, size: usize) -> String {
        let (r, half, all) = (self.r, size / 2, ALL);
        if self.slip(1) {
            return match r.below(3) {
                0 => self.pattern(all, size),
                which => ["none", "empty"][which - 1].to_string(),
            };
        }
        let has = |letter: char| may.contains(letter);
        let without = |letters: &str| may.replace(|letter| letters.contains(letter), "");
        let mut kinds: Vec<char> = without("nr").chars().collect();
        if size > 2 && r.below(5) > 0 {
            let joins = if has('$') || has('@') && !has('r') { "+||,,&&" } else { "+||,," };
            let some = has('t') || has('$') || has('@') && !has('r');
            kinds = if has('n') && some { joins } else { "|" }.chars().collect();
        }
        let simple = if self.slip(4) { "" } else { "dvl" };
        match *kinds.get(r.below(kinds.len())).unwrap_or(&'t') {
            '$' => format!("${}", r.below(self.definitions)),
            'd' if self.slip(4) => format!("data- {}", self.pattern(all, 4)),
            'd' if r.below(3) == 0 => format!("data- {}", self.pattern("dv", half)),
            'd' => "data".to_string(),
            'v' => "value".to_string(),
            'l' if r.below(8) == 0 => "list empty".to_string(),
            'l' => format!("list {}", self.tokens(half.max(1 + r.below(8)))),
            '@' => {
                let wild = if r.below(3) == 0 { 2 } else { 0 };
                let plus = if wild > 0 && !has('r') { "+" } else { "" };
                let mixed = if self.slip(4) { "tdvln" } else { "tn" };
                let content = self.pattern(r.pick(&[mixed, "dv", "dvl"]), half.max(r.below(4)));
                let content = if r.below(6) == 0 { "empty" } else { &content };
                format!("{plus} @ {} {content}", self.class(wild, 4))
            }
            '+' => format!("+ {}", self.pattern(&(without(simple) + "r"), size - 1)),
            '|' if has('n') && r.below(4) == 0 => format!("| empty {}", self.pattern(may, half)),
            '|' => format!("| {} {}", self.pattern(may, half), self.pattern(may, half)),
            join @ (',' | '&') => {
                let never = if has('r') && !self.slip(2) { "@" } else { "" };
                let apart = join == '&' && has('$') && r.below(6) > 0;
                let (t, refs) = if apart { ("t", "$") } else { ("", "") };
                let side = |a: &str, b: &str| self.pattern(&without(&[a, b, never].concat()), half);
                let mut sides = [side(t, ""), side(refs, simple)];
                sides.rotate_left(r.below(2));
                format!("{join} {}", sides.join(" "))
            }
            _ => "text".to_string(),
        }
    }
}

pub fn rows_of(words: &[u32]) -> Vec<Row> {
    let rows = words.chunks_exact(3);
    rows.map(|row| [row[0], row[1], row[2]]).collect()
}
/// Changes all fields that name a row.
pub fn renumber(rows: &mut [Row], new: impl Fn(u32) -> u32) {
    for [kind, a, b] in rows {
        if matches!(kind, 6..=12 | 16 | 19..=21) && *a != NONE {
            *a = new(*a);
        }
        if matches!(kind, 4 | 7 | 10..=12 | 17 | 19 | 20) && *b != NONE {
            *b = new(*b);
        }
    }
}
/// Lets the fields that name one of two rows name the other.
fn exchange(rows: &mut [Row], k: usize, j: usize) {
    let (k, j) = (k as u32, j as u32);
    renumber(rows, |row| match row {
        _ if row == k => j,
        _ if row == j => k,
        _ => row,
    });
}

/// A schema of at most 40 rows.
#[rustfmt::skip]
pub fn grow(r: &Rng) -> Input {
    let (strings, definitions) = (r.pick(&[2, 3, 4, 6, 9]), 1 + r.below(6));
    let g = Grow { r, strings, definitions, slips: r.pick(&[0, 0, 20, 50]) };
    let mut text = String::new();
    for _ in 0..definitions {
        let class = g.class(r.pick(&[0, 0, 1, 2]), 3);
        let content = g.pattern(r.pick(&["t$@n", "t$@n", "dv@n", "dvl@n", "l@n"]), 1 + r.below(36 / definitions));
        let content = r.pick(&["none", "empty", &content, &content, &content, &content]);
        text += &format!("element {class} {content} ");
    }
    let start = g.pattern("$", r.below(5));
    let mut rows = rows_of(&read(&format!("{text} start {}", r.pick(&["none", &start, &start, &start]))).0);
    if rows.len() > 40 {
        return grow(r);
    }
    for row in rows.iter_mut().filter(|row| row[0] == 5) {
        *row = [5, r.below(2) as u32, r.below(strings) as u32];
    }
    // Half of the schemas get another order, with children still before their parents.
    for _ in 0..r.pick(&[0, 300]) {
        let k = r.below(rows.len() - 2);
        let [kind, a, b] = rows[k + 1];
        if kind == 8 || a != k as u32 && b != k as u32 {
            exchange(&mut rows, k, k + 1);
            rows.swap(k, k + 1);
        }
    }
    over(strings as u16, rows.concat())
}

/// Changes one word, or one row, or the order of rows, or which rows there are.
#[rustfmt::skip]
pub fn damage(r: &Rng, rows: &mut Vec<Row>) {
    let (n, word) = (rows.len(), r.below(3));
    let (k, j, row, moved) = (r.below(n), r.below(n), r.below(n) as u32, r.below(2) as u32);
    let old = rows[k];
    match r.below(12) {
        0 => rows[k][word] = r.pick(&[row, r.below(23) as u32, old[word] ^ 1]),
        1 => rows[k][word] = r.pick(&[0, 1, 2, NONE, old[word] ^ 256, old[word] ^ 65_536]),
        2 => rows.swap(k, j),
        3 => exchange(rows, k, j),
        4 => {
            rows.remove(k);
            renumber(rows, |row| if row > k as u32 { row - moved } else { row });
        }
        5 => {
            renumber(rows, |row| if row >= j as u32 { row + moved } else { row });
            rows.insert(j, old);
        }
        // Another row of the same shape.
        _ => rows[k] = match old {
            [1..=3 | 5, ..] | [4, _, NONE] => {
                r.pick(&[[1, 0, 0], [2, 0, 0], [3, 0, 0], [4, 1, NONE], [5, 0, 1]])
            }
            [16, NONE, _] | [17, _, NONE] | [18, ..] => {
                r.pick(&[[16, NONE, 0], [17, 0, NONE], [18, 0, 1], [18, 1, 1]])
            }
            [8, ..] if rows[row as usize][0] == 20 => [8, row, 0],
            [6 | 9, a, _] => r.pick(&[[6, a, 0], [9, a, 0]]),
            [10..=12, a, b] => r.pick(&[[10, a, b], [11, b, a], [12, a, b]]),
            _ => old,
        },
    }
}
