// Whitespace and the equality of `string` and `token` values, seen through the match list and compared with the
// reference, which splits texts at whitespace: a job has each of some texts as what an element holds and as a value of
// a definition, so that one call compares each with each. Each single comparison is one test. The last line printed is
// `N passed, M failed`.

#[allow(dead_code)]
#[path = "reference/schema_maker.rs"]
mod maker;
#[allow(dead_code)]
#[path = "reference/check.rs"]
mod reference;
#[path = "support/tally.rs"]
mod tally;

use farshavan::{datatype, kind, limit, node, Job, NONE};
use maker::Rng;
use reference::matching::{is_white, split};
use std::cell::Cell;
use std::collections::{BTreeSet, HashMap};
use tally::Tally;

type Text = Vec<u8>;

/// How an element holds a text, and so what stands around the pattern of its definition.
#[derive(Clone, Copy, Debug, PartialEq)]
enum Held {
    AsText,
    AsAttribute,
}

/// The patterns that texts are held against: empty, for whitespace, and values.
#[derive(Clone, Copy, Debug, PartialEq)]
enum Pattern {
    Empty,
    Value(u32, usize),
}

// Jobs.

/// A job over some texts. String 1 is the name of every element and attribute.
struct Maker {
    job: Job,
    numbers: HashMap<Text, u32>,
}

impl Maker {
    fn new() -> Maker {
        let mut maker = Maker { job: Job::default(), numbers: HashMap::new() };
        maker.string(b"");
        maker.string(b"name");
        maker
    }
    fn string(&mut self, text: &[u8]) -> u32 {
        if let Some(&known) = self.numbers.get(text) {
            return known;
        }
        self.job.bytes.extend(text);
        self.job.ends.push(self.job.bytes.len() as u32);
        let number = self.numbers.len() as u32;
        self.numbers.insert(text.to_vec(), number);
        number
    }
    fn row(&mut self, kind: u32, a: u32, b: u32) -> u32 {
        self.job.schema.extend([kind, a, b]);
        (self.job.schema.len() / limit::SCHEMA_WORDS) as u32 - 1
    }
    fn node(&mut self, node: [u32; 5]) -> u32 {
        self.job.instance.extend(node);
        (self.job.instance.len() / limit::INSTANCE_WORDS) as u32 - 1
    }
    /// A definition with the pattern; its row.
    fn definition(&mut self, held: Held, pattern: Pattern, texts: &[Text]) -> u32 {
        let class = self.row(kind::ANY_NAME, NONE, 0);
        let mut content = match pattern {
            Pattern::Empty => self.row(kind::EMPTY, 0, 0),
            Pattern::Value(datatype, k) => {
                let string = self.string(&texts[k]);
                self.row(kind::VALUE, datatype, string)
            }
        };
        if held == Held::AsAttribute {
            let name = self.row(kind::NAME, 0, 1);
            content = self.row(kind::ATTRIBUTE, name, content);
        }
        self.row(kind::ELEMENT, class, content)
    }
    /// An element with the text; its row.
    fn element(&mut self, held: Held, parent: u32, text: &[u8]) -> u32 {
        let string = self.string(text);
        let element = self.node([node::ELEMENT, parent, 0, 1, 0]);
        match held {
            Held::AsAttribute => drop(self.node([node::ATTRIBUTE, element, 0, 1, string])),
            Held::AsText if string == 0 => {}
            Held::AsText => drop(self.node([node::TEXT, element, string, 0, 0])),
        }
        element
    }
}

/// Which patterns each text matches, as pairs of their positions. Few enough of both for one job.
fn matched(held: Held, patterns: &[Pattern], texts: &[Text]) -> BTreeSet<(usize, usize)> {
    let mut maker = Maker::new();
    let definitions: Vec<u32> = patterns.iter().map(|&pattern| maker.definition(held, pattern, texts)).collect();
    let start = maker.row(kind::NOT_ALLOWED, 0, 0);
    maker.row(kind::START, start, 0);
    let root = maker.node([node::ELEMENT, NONE, 0, 1, 0]);
    let mut elements = vec![];
    for some in texts.chunks(limit::WIDTH) {
        let parent = maker.node([node::ELEMENT, root, 0, 1, 0]);
        elements.extend(some.iter().map(|text| maker.element(held, parent, text)));
    }
    let found = farshavan::match_list(maker.job.tables()).expect("tables that pass");
    let position = |rows: &[u32], row: u32| rows.binary_search(&row).expect("the row of a text or a pattern");
    let pair = |pair: &farshavan::Pair| (position(&definitions, pair.definition), position(&elements, pair.element));
    found.pairs.iter().map(pair).collect()
}

/// Which texts are whitespace, and which values, by datatype and position, are equal to which texts.
#[derive(Default)]
struct Answers {
    white: BTreeSet<usize>,
    equal: BTreeSet<(u32, usize, usize)>,
}

fn each_with_each(held: Held, texts: &[Text]) -> Answers {
    let rows = if held == Held::AsText { 3 } else { 5 };
    let values = [datatype::STRING, datatype::TOKEN].map(|d| (0..texts.len()).map(move |k| Pattern::Value(d, k)));
    let patterns: Vec<Pattern> = [Pattern::Empty].into_iter().chain(values.into_iter().flatten()).collect();
    let mut answers = Answers::default();
    for some in patterns.chunks((limit::SCHEMA_ROWS - 2) / rows) {
        for (pattern, text) in matched(held, some, texts) {
            match some[pattern] {
                Pattern::Empty => drop(answers.white.insert(text)),
                Pattern::Value(datatype, value) => drop(answers.equal.insert((datatype, value, text))),
            }
        }
    }
    answers
}

// Comparisons.

/// Compares each text with each, held both ways, and gives the answers.
fn compare(y: &mut Tally, name: &str, texts: &[Text]) -> [Answers; 2] {
    [Held::AsText, Held::AsAttribute].map(|held| {
        let answers = each_with_each(held, texts);
        for (j, text) in texts.iter().enumerate() {
            let x = text.escape_ascii();
            let white = text.iter().all(is_white);
            y.same(format_args!("{name}, {held:?}: whitespace \"{x}\""), answers.white.contains(&j), white);
            for (k, value) in texts.iter().enumerate() {
                let v = value.escape_ascii();
                for (d, expected) in [(datatype::STRING, value == text), (datatype::TOKEN, split(value) == split(text))]
                {
                    let got = answers.equal.contains(&(d, k, j));
                    y.same(format_args!("{name}, {held:?}, datatype {d}: \"{v}\" and \"{x}\""), got, expected);
                }
            }
        }
        answers
    })
}

// 1. Named cases; all expected values are literals.

/// Two texts, and whether they are equal as tokens; no two are equal as strings.
#[rustfmt::skip]
const CASES: [(&[u8], &[u8], bool); 34] = [
    (b"a b", b"  a   b ", true), (b" ", b"", true), (b" \t\n", b"\n", true), (b"a", b"\na", true),
    (b"a\tb", b"a\nb", true), (b"\ta\n", b"a", true), (b"a\t\n b", b"a b", true),
    (b"\r", b" \r\n", true), (b"a", b"a   ", true), (b"a ", b"a\t\n", true),
    (b"a\rb", b"a b", true), (b"a\r", b"a", true), (b"\ra", b"a", true), (b"\r", b"", true),
    (b"a b  c", b"a  b c", true), (b"a", b"b", false), (b"a", b"", false), (b"a", b"A", false),
    (b"a\x0Bb", b"a b", false), (b"a\x0B", b"a", false), (b"\x0C", b"", false), (b"\x0Ca", b"a", false),
    (b"a\rb", b"ab", false), (b"a\xA0", b"a", false),
    (b"ab", b"a b", false), (b"a", b"a a", false), (b"a ", b"a b", false), (b"aa", b"a", false),
    (b"a b", b"a c", false), (b"a bc", b"ab c", false), (b"a b", b"b a", false),
    (b"a\0b", b"a\0c", false), (b"\0", b"", false), (b"\xE9", b"i", false),
];
const WHITE: [&[u8]; 8] = [b"", b" ", b"\t", b"\n", b"\r", b"\r\n", b"  \r", b" \t\n "];
const NOT_WHITE: [&[u8]; 9] = [b"\x0B", b"\x0C", b"\r\x0C", b"a", b" a", b"a ", b" a ", b"\0", b"\xC2\xA0"];

fn named_texts(y: &mut Tally) {
    let pairs = CASES.iter().flat_map(|(a, b, _)| [*a, *b]);
    let texts: BTreeSet<&[u8]> = pairs.chain(WHITE).chain(NOT_WHITE).collect();
    let texts: Vec<Text> = texts.into_iter().map(<[u8]>::to_vec).collect();
    let at = |text: &[u8]| texts.iter().position(|known| known == text).expect("one of the texts");
    for answers in compare(y, "named texts", &texts) {
        let equal = |d, a, b| [answers.equal.contains(&(d, at(a), at(b))), answers.equal.contains(&(d, at(b), at(a)))];
        for (a, b, token) in CASES {
            let what = format!("\"{}\" and \"{}\"", a.escape_ascii(), b.escape_ascii());
            y.same(format_args!("token, {what}"), equal(datatype::TOKEN, a, b), [token; 2]);
            y.same(format_args!("string, {what}"), equal(datatype::STRING, a, b), [false; 2]);
        }
        for (list, white) in [(&WHITE[..], true), (&NOT_WHITE, false)] {
            for text in list {
                let what = format!("whitespace \"{}\"", text.escape_ascii());
                y.same(what, answers.white.contains(&at(text)), white);
            }
        }
    }
}

/// Each byte alone, between two others and after another: which are whitespace, and which of the others are so equal to
/// `a b` and to `a`.
fn each_byte(y: &mut Tally) {
    let bytes: Vec<u8> = (0..=255).collect();
    for some in bytes.chunks(64) {
        let around = |c: &u8| [vec![*c], vec![b'a', *c, b'b'], vec![b'a', *c]];
        let texts: Vec<Text> =
            [b"a b".to_vec(), b"a".to_vec()].into_iter().chain(some.iter().flat_map(around)).collect();
        for answers in compare(y, "each byte", &texts) {
            for (k, c) in some.iter().enumerate() {
                let white = [9, 10, 13, 32].contains(c);
                let equal = |d, a, b| answers.equal.contains(&(d, a, 2 + 3 * k + b));
                y.same(format_args!("byte {c} is whitespace"), answers.white.contains(&(2 + 3 * k)), white);
                let tokens = [equal(datatype::TOKEN, 0, 1), equal(datatype::TOKEN, 1, 2)];
                y.same(format_args!("byte {c} in tokens"), tokens, [white; 2]);
                let strings = [equal(datatype::STRING, 0, 1), equal(datatype::STRING, 1, 2)];
                y.same(format_args!("byte {c} in strings"), strings, [*c == 32, false]);
            }
        }
    }
}

/// All texts of length 0 to 4 over four letters.
fn short_texts(y: &mut Tally) {
    let mut all: Vec<Text> = vec![vec![]];
    for k in 0..85 {
        all.extend([b'a', b' ', b'\r', b'\x0C'].map(|c| [&all[k][..], &[c]].concat()));
    }
    compare(y, "all short texts", &all);
}

// 2. Random texts.

fn bytes(r: &Rng, length: usize, from: &[u8]) -> Text {
    (0..length).map(|_| r.pick(from)).collect()
}

/// Lays out words with runs of whitespace between them, and perhaps before and after.
fn lay_out(r: &Rng, words: &[Text], run: usize) -> Text {
    let gap = |least: usize| bytes(r, least + r.below(run), b" \t\n\r");
    let pieces = words.iter().flat_map(|word| [gap(1), word.clone()]);
    let middle: Vec<Text> = pieces.skip(1).collect();
    [gap(0), middle.concat(), gap(0)].concat()
}

fn make_words(r: &Rng, count: usize, most: usize) -> Vec<Text> {
    (0..count).map(|_| bytes(r, 1 + r.below(most), b"aab\x0C")).collect()
}

/// Texts of the same words, one of them with one byte more, and two of any bytes.
fn some_texts(r: &Rng) -> [Text; 6] {
    let letters = b"ab \t\n\r\x0B";
    let words = make_words(r, r.below(4), 2);
    let [a, b, c] = [1, 2, 3].map(|run| lay_out(r, &words, run));
    let mut d = b.clone();
    d.insert(r.below(b.len() + 1), r.pick(letters));
    [a, b, c, d, bytes(r, r.below(13), letters), bytes(r, r.below(13), letters)]
}

fn random_texts(y: &mut Tally, r: &Rng) {
    for _ in 0..200 {
        let texts: Vec<Text> = (0..10).flat_map(|_| some_texts(r)).collect();
        for answers in compare(y, "random texts", &texts) {
            let tokens = |a: usize, b: usize| answers.equal.contains(&(datatype::TOKEN, a, b));
            let same_words = (0..10).all(|k| tokens(6 * k, 6 * k + 1) && tokens(6 * k + 1, 6 * k + 2));
            y.same("texts of the same words are equal tokens", same_words, true);
        }
    }
}

/// Long texts that differ only at the end, and whether they are equal as tokens.
#[rustfmt::skip]
const TAILS: [(&[u8], &[u8], bool); 10] = [
    (b"", b"", true), (b"", b" \t\n ", true), (b" a", b"\t\n a ", true), (b"a", b"b", false),
    (b"", b"a", false), (b"a", b"a\x0B", false), (b" a", b"a", false), (b" a", b" a a", false),
    (b" a b", b" a ab", false), (b"a", b"a\r", true),
];

fn long_texts(y: &mut Tally, r: &Rng) {
    for round in 0..20 {
        let words = make_words(r, 100 + 15 * round, 12);
        let [one, other] = [1, 5].map(|run| [&lay_out(r, &words, run)[..], b" a"].concat());
        for (p, q, token) in TAILS {
            let texts = [[&one, p].concat(), [&one, q].concat(), [&other, q].concat()];
            for answers in compare(y, "long texts", &texts) {
                let equal = [1, 2].map(|k| answers.equal.contains(&(datatype::TOKEN, 0, k)));
                y.same(format_args!("long texts, {p:?} and {q:?} last"), equal, [token; 2]);
            }
        }
        let blank = bytes(r, 1_000 + 300 * round, b" \t\n\r");
        let texts = [blank.clone(), [&blank[..], b"\x0C"].concat(), vec![]];
        for answers in compare(y, "long whitespace", &texts) {
            y.same("long whitespace, and #xC last", answers.white, BTreeSet::from([0, 2]));
        }
    }
}

fn main() {
    let mut y = Tally::default();
    let r = Rng(Cell::new(0x9E37_79B9_7F4A_7C15));
    named_texts(&mut y);
    each_byte(&mut y);
    short_texts(&mut y);
    random_texts(&mut y, &r);
    long_texts(&mut y, &r);
    y.end();
}
