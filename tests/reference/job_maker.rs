// Makes jobs at random: a schema that passes, and a document that is made from it, near it or unlike it.

use super::maker::{grow, read, rows_of, Rng, Row};
use super::reference::brute::is_small;
use super::reference::instance::{self, Node};
use super::reference::job::Job;
use super::reference::matching::{is_white, Tables};
use super::reference::{fault, NONE};
use std::cell::{Cell, RefCell};

/// What strings are made from: whitespace, words that only `token` finds equal, and the controls beside whitespace.
#[rustfmt::skip]
const TEXTS: [&str; 18] = [
    " ", "a", " a", "a b", "  a \t b ", "\t\n", "no", " no ", "x", "\r", "a\rb", "\n", "b", "a a\n", "x\tno x",
    "\rno\r\n", "\x0C", "a\x0Bb",
];
/// What stands between two tokens, and what may stand around them.
const BETWEEN: [&str; 7] = [" ", " ", "\n", "\t", "\r", "  ", " \r\n\t "];
const AROUND: [&str; 7] = ["", "", "", " ", "\n", "\r", "\t  "];

/// A part of an element's content, in document order.
#[derive(Clone, Copy)]
enum Item {
    Attribute(u32, u32, u32),
    Text(u32),
    Element(u32),
}

struct Limits {
    rows: usize,
    depth: usize,
    repeats: usize,
}
const SMALL: Limits = Limits { rows: 14, depth: 3, repeats: 3 };
const LARGE: Limits = Limits { rows: 1000, depth: 6, repeats: 63 };

/// Makes a document along a schema.
struct Along<'a> {
    r: &'a Rng,
    limits: &'a Limits,
    tables: Tables,
    /// The strings of the job, and those that are made for its lists.
    strings: RefCell<Vec<Vec<u8>>>,
    nodes: Vec<Node>,
    /// Patterns taken so far; nested oneOrMore would take too many.
    taken: Cell<usize>,
}

impl Along<'_> {
    /// The number of strings of the job.
    fn given(&self) -> u32 {
        self.tables.tokens.len() as u32
    }
    fn string(&self) -> u32 {
        1 + self.r.below(self.given() as usize - 1) as u32
    }
    fn is_white(&self, string: u32) -> bool {
        self.strings.borrow()[string as usize].iter().all(is_white)
    }
    fn white(&self) -> Option<u32> {
        let white: Vec<u32> = (1..self.given()).filter(|&s| self.is_white(s)).collect();
        (!white.is_empty()).then(|| self.r.pick(&white))
    }
    /// A name of the class.
    fn name(&self, class: u32) -> Option<(u32, u32)> {
        let n = self.given();
        let names: Vec<(u32, u32)> = (0..n).flat_map(|ns| (1..n).map(move |local| (ns, local))).collect();
        let names: Vec<_> = names.into_iter().filter(|&name| self.tables.holds(class, name)).collect();
        (!names.is_empty()).then(|| self.r.pick(&names))
    }
    /// Counts a pattern; nothing where there were too many.
    fn take(&self) -> Option<()> {
        self.taken.set(self.taken.get() + 1);
        (self.taken.get() <= 10 * self.limits.rows).then_some(())
    }
    /// Tokens that match a pattern, but for those of a data with an except.
    fn tokens(&self, pattern: u32) -> Option<Vec<u32>> {
        let (r, tables) = (self.r, &self.tables);
        self.take()?;
        Some(match tables.row(pattern) {
            [1, ..] => vec![],
            [4, ..] => {
                let known: Vec<u32> = tables.tokens.concat();
                vec![r.pick(known.get(..).filter(|known| !known.is_empty())?)]
            }
            [5, datatype, string] => match tables.tokens[string as usize][..] {
                [token] if datatype == 1 || token == string => vec![token],
                _ => return None,
            },
            [9, a, _] => {
                let times = 1 + r.below(self.limits.repeats);
                (0..times).map(|_| self.tokens(a)).collect::<Option<Vec<_>>>()?.concat()
            }
            [10, a, b] => self.tokens(r.pick(&[a, b]))?,
            [11, a, b] => [self.tokens(a)?, self.tokens(b)?].concat(),
            _ => return None,
        })
    }
    /// A string of these tokens, if there is room for it.
    fn joined(&self, tokens: &[u32]) -> Option<u32> {
        let tokens: Vec<&[u8]> = tokens.iter().map(|&token| &self.tables.strings[token as usize][..]).collect();
        numbered(&mut self.strings.borrow_mut(), spaced(self.r, &tokens))
    }
    /// What matches a pattern, but for the strings of a data with an except.
    fn items(&self, pattern: u32) -> Option<Vec<Item>> {
        let r = self.r;
        self.take()?;
        Some(match self.tables.row(pattern) {
            [1, ..] => vec![],
            [3, ..] => [Item::Text(self.string())][..r.below(2)].to_vec(),
            [4, ..] => vec![Item::Text(self.string())],
            [5, _, string] => vec![Item::Text(string)],
            [6, tokens, _] => vec![Item::Text(self.joined(&self.tokens(tokens)?)?)],
            [7, class, content] => {
                let (namespace, local) = self.name(class)?;
                let value = match self.items(content)?.first() {
                    Some(Item::Text(string)) => *string,
                    _ => r.pick(&[Some(0), self.white()]).unwrap_or(0),
                };
                vec![Item::Attribute(namespace, local, value)]
            }
            [8, definition, _] => vec![Item::Element(definition)],
            [9, a, _] => {
                let times = 1 + r.below(self.limits.repeats);
                (0..times).map(|_| self.items(a)).collect::<Option<Vec<_>>>()?.concat()
            }
            [10, a, b] => self.items(r.pick(&[a, b]))?,
            [11, a, b] => [self.items(a)?, self.items(b)?].concat(),
            [12, a, b] => self.mixed(self.items(a)?, self.items(b)?),
            _ => return None,
        })
    }
    fn mixed(&self, one: Vec<Item>, other: Vec<Item>) -> Vec<Item> {
        let (mut one, mut other) = (one.into_iter().peekable(), other.into_iter().peekable());
        let mut all = vec![];
        while one.peek().is_some() || other.peek().is_some() {
            all.extend(if self.r.below(2) == 0 { one.next() } else { other.next() });
        }
        all
    }
    /// The children, with whitespace beside elements, no text beside a text and none that is empty.
    fn children(&self, items: &[Item]) -> Vec<Item> {
        let mut children = vec![];
        let has_elements = items.iter().any(|item| matches!(item, Item::Element(_)));
        let space = |children: &mut Vec<Item>| match self.white() {
            Some(white) if has_elements && self.r.below(4) == 0 => children.push(Item::Text(white)),
            _ => {}
        };
        for &item in items {
            match item {
                Item::Text(string) if string != 0 => children.push(item),
                Item::Element(_) => {
                    space(&mut children);
                    children.push(item);
                    space(&mut children);
                }
                _ => {}
            }
        }
        // Of adjacent texts one that is not whitespace stays: only text takes it.
        let white = |item: &Item| matches!(item, Item::Text(string) if self.is_white(*string));
        let mut apart: Vec<Item> = vec![];
        for item in children {
            match (apart.last(), item) {
                (Some(Item::Text(_)), Item::Text(_)) if white(&item) => {}
                (Some(last @ Item::Text(_)), Item::Text(_)) if white(last) => *apart.last_mut().unwrap() = item,
                (Some(Item::Text(_)), Item::Text(_)) => {}
                _ => apart.push(item),
            }
        }
        apart
    }
    fn element(&mut self, definition: u32, parent: u32, depth: usize) -> Option<()> {
        let [_, class, content] = self.tables.row(definition);
        let (namespace, local) = self.name(class)?;
        let row = self.nodes.len() as u32;
        if depth > self.limits.depth || self.nodes.len() >= self.limits.rows {
            return None;
        }
        self.nodes.push([1, parent, namespace, local, 0]);
        let items = self.items(content)?;
        let mut names = vec![];
        for item in &items {
            match *item {
                Item::Attribute(namespace, local, value) if !names.contains(&(namespace, local)) => {
                    names.push((namespace, local));
                    self.nodes.push([2, row, namespace, local, value]);
                }
                _ => {}
            }
        }
        for item in self.children(&items) {
            match item {
                Item::Element(child) => self.element(child, row, depth + 1)?,
                Item::Text(string) => self.nodes.push([3, row, string, 0, 0]),
                Item::Attribute(..) => {}
            }
        }
        Some(())
    }
}

/// Tokens with whitespace between them and some around them.
fn spaced(r: &Rng, tokens: &[&[u8]]) -> Vec<u8> {
    let mut text = r.pick(&AROUND).as_bytes().to_vec();
    for (k, token) in tokens.iter().enumerate() {
        text.extend(if k > 0 { r.pick(&BETWEEN) } else { "" }.bytes());
        text.extend(*token);
    }
    text.extend(r.pick(&AROUND).bytes());
    text
}

/// The number of a string, which is added where it is new; nothing where the strings are full.
fn numbered(strings: &mut Vec<Vec<u8>>, text: Vec<u8>) -> Option<u32> {
    if let Some(known) = strings.iter().position(|string| *string == text) {
        return Some(known as u32);
    }
    let bytes: usize = strings.iter().map(Vec::len).sum();
    if strings.len() == 512 || bytes + text.len() > 16_384 {
        return None;
    }
    strings.push(text);
    Some(strings.len() as u32 - 1)
}

/// A schema that passes, with strings of its own.
fn schema(r: &Rng) -> Job {
    loop {
        let input = grow(r);
        let mut texts = TEXTS.to_vec();
        let mut strings = vec![vec![]];
        while strings.len() < input.ends.len() {
            strings.push(texts.swap_remove(r.below(texts.len())).as_bytes().to_vec());
        }
        let job = Job { strings, schema: input.schema, instance: vec![1, NONE, 0, 1, 0] };
        // Few that have nothing valid.
        let rows = rows_of(&job.schema);
        let nothing_valid = rows.last().is_some_and(|start| rows.get(start[1] as usize).is_some_and(|row| row[0] == 2));
        if fault(&job).is_none() && (!nothing_valid || r.below(8) == 0) {
            return job;
        }
    }
}

/// A pattern over the definitions 1 to 3 and attributes, in the notation of schemas.
fn content(r: &Rng, depth: usize) -> String {
    let part = || content(r, depth - 1);
    match r.below(if depth == 0 { 6 } else { 16 }) {
        k @ 0..=2 => format!("${}", k + 1),
        3 => "text".to_string(),
        4 => r.pick(&["@ 0:1 text", "@ 0:2 value", "@ / 0:2 0:3 empty"]).to_string(),
        5 => r.pick(&["$1", "$2", "+ @ * text", "+ @ 0:* text"]).to_string(),
        6..=8 => format!(", {} {}", part(), part()),
        9..=11 => format!("& {} {}", part(), part()),
        12 | 13 => format!("+ {}", part()),
        14 => format!("| empty {}", part()),
        _ => format!("| {} {}", part(), part()),
    }
}

/// A schema of one definition with much content over three small ones, two of which share a name.
fn one_content(r: &Rng) -> Job {
    loop {
        let small = "element 0:2 empty element 0:3 | empty $1 element / 0:2 0:1 text";
        let (schema, _) = read(&format!("element 0:1 {} {small} start $0", content(r, 4)));
        let texts = [" ", "a", r.pick(&[" a ", "\t", "b"])].map(|text| text.as_bytes().to_vec());
        let strings = [vec![vec![]], texts.to_vec()].concat();
        let job = Job { strings, schema, instance: vec![1, NONE, 0, 1, 0] };
        if fault(&job).is_none() {
            return job;
        }
    }
}

/// An element with any attributes and children of the names above.
fn one_element(r: &Rng) -> Vec<u32> {
    let mut words = vec![1, NONE, 0, 1, 0];
    for local in 1..=3 {
        if r.below(4) == 0 {
            words.extend([2, 0, 0, local, r.below(4) as u32]);
        }
    }
    for _ in 0..r.below(6) {
        let text = 1 + r.pick(&[0, 0, 0, 1, 2]);
        let node: Node = r.pick(&[[1, 0, 0, 2, 0], [1, 0, 0, 3, 0], [3, 0, text, 0, 0]]);
        words.extend(node);
        if instance::fault(4, &words).is_some() {
            words.truncate(words.len() - 5);
        }
    }
    words
}

/// A pattern of tokens, in the notation of schemas.
fn tokens(r: &Rng, depth: usize) -> String {
    let part = || tokens(r, depth - 1);
    match r.below(if depth == 0 { 5 } else { 14 }) {
        0..=2 => "value".to_string(),
        3 => "token".to_string(),
        4 => r.pick(&["data- value", "data- | value value", "data- data- value"]).to_string(),
        5..=7 => format!(", {} {}", part(), part()),
        8..=10 => format!("+ {}", part()),
        11 => format!("| empty {}", part()),
        _ => format!("| {} {}", part(), part()),
    }
}

/// Strings for lists: three names, values of one token and others.
const VALUES: [&str; 8] = ["a", "b", "c", " a ", "b\r", "a b", " ", "a\x0Cb"];

/// A schema of lists: three definitions, of one name but for some, and a root that holds any of them.
fn lists(r: &Rng) -> Job {
    let list = || match r.below(12) {
        0 => "list empty".to_string(),
        _ => format!("list {}", tokens(r, 1 + r.below(3))),
    };
    let content = || match r.below(10) {
        0..=2 => list(),
        3 => format!("| $1 {}", list()),
        4 => format!(", @ 0:3 {} {}", list(), list()),
        5 => format!("& {} | empty @ 0:3 {}", list(), list()),
        6 => format!("| {} | {} value", list(), list()),
        7 => format!("| data- value {}", list()),
        8 => format!("+ | @ 0:3 {} @ 0:* text", list()),
        _ => format!("| empty {}", list()),
    };
    loop {
        let (first, second, third) = (content(), content(), content());
        let definitions = format!("element 0:2 {first} element 0:2 {second} element / 0:2 0:3 {third}");
        let (schema, _) = read(&format!("element 0:1 | empty + | $1 | $2 $3 {definitions} start $0"));
        let mut rows = rows_of(&schema);
        for row in rows.iter_mut().filter(|row| row[0] == 5) {
            *row = [5, r.below(2) as u32, r.pick(&[1, 1, 2, 2, 3, 4, 5, 6, 7, 8, 0])];
        }
        let strings = [""].iter().chain(&VALUES).map(|text| text.as_bytes().to_vec()).collect();
        let job = Job { strings, schema: rows.concat(), instance: vec![1, NONE, 0, 1, 0] };
        if fault(&job).is_none() {
            return job;
        }
    }
}

/// A root with children whose texts and attributes hold some tokens.
fn token_texts(r: &Rng, strings: &mut Vec<Vec<u8>>) -> Vec<u32> {
    let mut string = || {
        let tokens: Vec<&[u8]> = (0..r.below(6)).map(|_| r.pick(&["a", "b", "c", "d", "a\x0Cb"]).as_bytes()).collect();
        numbered(strings, spaced(r, &tokens)).unwrap_or(0)
    };
    let mut words = vec![1, NONE, 0, 1, 0];
    for _ in 0..1 + r.below(5) {
        let row = words.len() as u32 / 5;
        words.extend([1, 0, 0, r.pick(&[2, 2, 3]), 0]);
        if r.below(3) == 0 {
            words.extend([2, row, 0, 3, string()]);
        }
        match string() {
            0 => {}
            text => words.extend([3, row, text, 0, 0]),
        }
    }
    words
}

/// A document along a definition that start names, or along any if it names none; and that definition. What strings the
/// document needs are added to those of the job.
fn along(r: &Rng, job: &mut Job, limits: &Limits) -> Option<u32> {
    let tables = Tables::of(job);
    let mut refs = vec![];
    let mut open = vec![tables.schema.len() as u32 - 1];
    while let Some(row) = open.pop() {
        match tables.row(row) {
            [8, definition, _] => refs.push(definition),
            [10, a, b] => open.extend([a, b]),
            [21, a, _] => open.push(a),
            _ => {}
        }
    }
    let refs = if refs.is_empty() { tables.definitions() } else { refs };
    let strings = RefCell::new(job.strings.clone());
    let mut along = Along { r, limits, tables, strings, nodes: vec![], taken: Cell::new(0) };
    let root = r.pick(&refs);
    along.element(root, NONE, 0)?;
    job.instance = along.nodes.concat();
    job.strings = along.strings.into_inner();
    Some(root)
}

/// A document that has nothing of the schema but its strings.
fn unlike(r: &Rng, strings: usize, rows: usize) -> Vec<u32> {
    let mut words = vec![1, NONE, r.below(2.min(strings)) as u32, 1 + r.below(strings - 1) as u32, 0];
    for row in 1..1 + r.below(rows) {
        let (parent, a) = (r.below(row) as u32, r.below(strings) as u32);
        let (b, c) = (1 + r.below(strings - 1) as u32, r.below(strings) as u32);
        let node: Node = r.pick(&[[1, parent, a.min(2), b, 0], [2, parent, a.min(2), b, c], [3, parent, b, 0, 0]]);
        words.extend(node);
        if instance::fault(strings, &words).is_some() {
            words.truncate(words.len() - 5);
        }
    }
    words
}

/// Changes some names and strings, or takes rows away.
pub fn damage(r: &Rng, strings: usize, words: &mut Vec<u32>) {
    let node = 5 * r.below(words.len() / 5);
    if r.below(3) == 0 && node > 0 && !words.chunks(5).any(|w| w[1] == (node / 5) as u32) {
        words.drain(node..node + 5);
        for parent in words.iter_mut().skip(1).step_by(5) {
            *parent -= u32::from(*parent != NONE && *parent > (node / 5) as u32);
        }
        return;
    }
    words[node + 2 + r.below(3)] = r.below(strings) as u32;
}

/// Whether some data has an except.
fn has_except(job: &Job) -> bool {
    rows_of(&job.schema).iter().any(|row: &Row| row[0] == 4 && row[2] != NONE)
}

/// Three sorts of schemas, each with documents that have no more of it than names and strings.
type Maker = (fn(&Rng) -> Job, fn(&Rng, &mut Job) -> Vec<u32>);
const MAKERS: [Maker; 3] = [
    (one_content, |r, _| one_element(r)),
    (schema, |r, job| unlike(r, job.strings.len(), 12)),
    (lists, |r, job| token_texts(r, &mut job.strings)),
];

/// A schema with a small document: along it, along it and damaged, or unlike it.
pub fn small_job(r: &Rng, sort: usize) -> Option<Job> {
    let (make, unlike_it) = r.pick(&MAKERS);
    let mut job = make(r);
    match sort {
        0 => job.instance = unlike_it(r, &mut job),
        _ => drop(along(r, &mut job, &SMALL)?),
    }
    let strings = job.strings.len();
    for _ in 0..[0, 0, 1, 2][sort] {
        damage(r, strings, &mut job.instance);
    }
    let few = job.instance.len() < 5 * 4 && r.below(20) > 0;
    (!few && instance::fault(strings, &job.instance).is_none() && is_small(&job)).then_some(job)
}

/// A schema with a document along one of its definitions, which is given too, of 16 rows or more.
pub fn large_job(r: &Rng) -> (Job, u32) {
    loop {
        let mut job = r.pick(&[schema, schema, lists])(r);
        let Some(definition) = along(r, &mut job, &LARGE) else { continue };
        let wrong = instance::fault(job.strings.len(), &job.instance).is_some();
        if !has_except(&job) && !wrong && job.instance.len() >= 5 * 16 {
            return (job, definition);
        }
    }
}
