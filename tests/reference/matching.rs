//! Matching by derivatives: what is left of a pattern after an attribute, a string or an element. For jobs that pass
//! codes 1 to 10.

use super::instance::{nodes, Node};
use super::job::Job;
use std::collections::{BTreeSet, HashMap};

pub const NONE: u32 = u32::MAX;

// Tables, names and strings.

/// A child of an element or a token of a string: the number of a string, or the row of an element.
#[derive(Clone, Copy, Debug, PartialEq, Eq, Hash)]
pub enum Member {
    Text(u32),
    Element(u32),
}

/// The rows of a job, with the tokens of each string and the attributes and children of each element.
pub struct Tables {
    /// The strings of the job, and then the tokens that are none of them.
    pub strings: Vec<Vec<u8>>,
    /// For each string of the job its tokens, by their numbers among the strings above.
    pub tokens: Vec<Vec<u32>>,
    pub schema: Vec<[u32; 3]>,
    pub nodes: Vec<Node>,
    pub attributes: Vec<Vec<u32>>,
    pub members: Vec<Vec<Member>>,
}

impl Tables {
    pub fn of(job: &Job) -> Tables {
        let nodes = nodes(&job.instance);
        let schema = job.schema.chunks(3).map(|row| [row[0], row[1], row[2]]).collect();
        let (mut attributes, mut members) = (vec![vec![]; nodes.len()], vec![vec![]; nodes.len()]);
        for (row, &[kind, parent, string, ..]) in nodes.iter().enumerate().skip(1) {
            match kind {
                1 => members[parent as usize].push(Member::Element(row as u32)),
                2 => attributes[parent as usize].push(row as u32),
                _ => members[parent as usize].push(Member::Text(string)),
            }
        }
        let (strings, tokens) = with_tokens(&job.strings);
        Tables { strings, tokens, schema, nodes, attributes, members }
    }

    pub fn row(&self, row: u32) -> [u32; 3] {
        self.schema[row as usize]
    }
    pub fn elements(&self) -> Vec<u32> {
        (0..self.nodes.len()).filter(|&row| self.nodes[row][0] == 1).map(|row| row as u32).collect()
    }
    pub fn definitions(&self) -> Vec<u32> {
        (0..self.schema.len()).filter(|&row| self.schema[row][0] == 20).map(|row| row as u32).collect()
    }
    /// Whether the name of an element or attribute is in a class.
    pub fn named(&self, node: u32, class: u32) -> bool {
        let [_, _, namespace, local, _] = self.nodes[node as usize];
        self.holds(class, (namespace, local))
    }
    pub fn holds(&self, class: u32, name: (u32, u32)) -> bool {
        match self.row(class) {
            [16, except, _] => except == NONE || !self.holds(except, name),
            [17, namespace, except] => namespace == name.0 && (except == NONE || !self.holds(except, name)),
            [18, namespace, local] => (namespace, local) == name,
            [_, a, b] => self.holds(a, name) || self.holds(b, name),
        }
    }
    pub fn is_white(&self, string: u32) -> bool {
        self.strings[string as usize].iter().all(is_white)
    }
    /// Equality as `string` for 0, as `token` for 1. No two of the strings have the same bytes.
    pub fn equal(&self, datatype: u32, one: u32, other: u32) -> bool {
        let tokens = |string: u32| split(&self.strings[string as usize]);
        one == other || datatype == 1 && tokens(one) == tokens(other)
    }
}

/// Whether a byte is a whitespace character of the standard, 3.9.
pub fn is_white(byte: &u8) -> bool {
    matches!(byte, b' ' | b'\t' | b'\n' | b'\r')
}

/// The tokens of a text, which whitespace separates.
pub fn split(text: &[u8]) -> Vec<&[u8]> {
    text.split(is_white).filter(|token| !token.is_empty()).collect()
}

/// The strings with the tokens that are none of them after them, and the tokens of each string by number.
fn with_tokens(strings: &[Vec<u8>]) -> (Vec<Vec<u8>>, Vec<Vec<u32>>) {
    let mut all = strings.to_vec();
    let mut numbers: HashMap<Vec<u8>, u32> = all.iter().cloned().zip(0..).collect();
    let mut number = |token: &[u8]| {
        let new = all.len() as u32;
        let number = *numbers.entry(token.to_vec()).or_insert(new);
        all.extend((number == new).then(|| token.to_vec()));
        number
    };
    let tokens = strings.iter().map(|string| split(string).into_iter().map(&mut number).collect()).collect();
    (all, tokens)
}

/// The pairs of element row and definition row in order, and whether the document is valid.
#[derive(Clone, Debug, PartialEq, Eq)]
pub struct Matches {
    pub valid: bool,
    pub pairs: Vec<(u32, u32)>,
}

/// What becomes of strings of whitespace among elements: each is taken as `ws1` or `ws2` of rule (element), or all
/// are left out beforehand. The second is right because each stands beside an element, whose ref can take it, and
/// because data, value and list share no content with elements; it keeps the number of patterns small.
#[derive(Clone, Copy, PartialEq, Eq)]
pub enum Whitespace {
    ByRule,
    LeftOut,
}

pub fn by_derivatives(job: &Job, whitespace: Whitespace) -> Matches {
    let tables = &Tables::of(job);
    let mut engine = Derivatives {
        tables,
        whitespace,
        patterns: vec![],
        numbers: HashMap::new(),
        nullable: vec![],
        known: HashMap::new(),
        built: HashMap::new(),
        matched: BTreeSet::new(),
    };
    // Children have larger rows, so they come first.
    for &element in tables.elements().iter().rev() {
        for definition in tables.definitions() {
            if engine.element_matches(element, definition) {
                engine.matched.insert((element, definition));
            }
        }
    }
    let start = engine.build(tables.schema.len() as u32 - 1);
    let after = engine.after(start, Step::Member(Member::Element(0)));
    Matches { valid: engine.nullable[after], pairs: engine.matched.into_iter().collect() }
}

// Patterns, each one kept once.

/// The number of a pattern.
type P = usize;

#[derive(Clone, Debug, PartialEq, Eq, Hash)]
enum Pattern {
    NotAllowed,
    Empty,
    Text,
    /// A data, value, list or attribute row.
    Row(u32),
    /// A ref to a definition, and whether `ws1` is taken.
    Ref(u32, bool),
    /// `ws2` may come.
    AfterElement,
    OneOrMore(P),
    Choice(BTreeSet<P>),
    Group(P, P),
    Interleave(P, P),
}
use Pattern::*;

/// The row of an attribute, or a member of a sequence.
#[derive(Clone, Copy, PartialEq, Eq, Hash)]
enum Step {
    Attribute(u32),
    Member(Member),
}

struct Derivatives<'a> {
    tables: &'a Tables,
    whitespace: Whitespace,
    patterns: Vec<Pattern>,
    numbers: HashMap<Pattern, P>,
    /// Whether a pattern matches no attributes and the empty sequence.
    nullable: Vec<bool>,
    known: HashMap<(P, Step), P>,
    built: HashMap<u32, P>,
    matched: BTreeSet<(u32, u32)>,
}

impl Derivatives<'_> {
    fn keep(&mut self, pattern: Pattern) -> P {
        if let Some(&p) = self.numbers.get(&pattern) {
            return p;
        }
        let nullable = match &pattern {
            Empty | Text | AfterElement => true,
            OneOrMore(p) => self.nullable[*p],
            Choice(parts) => parts.iter().any(|&p| self.nullable[p]),
            Group(a, b) | Interleave(a, b) => self.nullable[*a] && self.nullable[*b],
            NotAllowed | Row(_) | Ref(..) => false,
        };
        self.nullable.push(nullable);
        self.patterns.push(pattern.clone());
        self.numbers.insert(pattern, self.patterns.len() - 1);
        self.patterns.len() - 1
    }
    /// A choice of choices is one choice, without notAllowed.
    fn choice(&mut self, of: impl IntoIterator<Item = P>) -> P {
        let mut parts = BTreeSet::new();
        for p in of {
            match &self.patterns[p] {
                NotAllowed => {}
                Choice(more) => parts.extend(more),
                _ => parts.extend([p]),
            }
        }
        match parts.len() {
            0 => self.keep(NotAllowed),
            1 => parts.into_iter().next().unwrap(),
            _ => self.keep(Choice(parts)),
        }
    }
    /// Groups are nested on the right.
    fn group(&mut self, a: P, b: P) -> P {
        match (&self.patterns[a], &self.patterns[b]) {
            (NotAllowed, _) | (_, Empty) => a,
            (_, NotAllowed) | (Empty, _) => b,
            (&Group(first, second), _) => {
                let rest = self.group(second, b);
                self.group(first, rest)
            }
            _ => self.keep(Group(a, b)),
        }
    }
    fn interleave(&mut self, a: P, b: P) -> P {
        match (&self.patterns[a], &self.patterns[b]) {
            (NotAllowed, _) | (_, Empty) => a,
            (_, NotAllowed) | (Empty, _) => b,
            _ => self.keep(Interleave(a.min(b), a.max(b))),
        }
    }
    /// A repeated repeat is one.
    fn one_or_more(&mut self, a: P) -> P {
        match &self.patterns[a] {
            OneOrMore(_) | NotAllowed | Empty => a,
            _ => self.keep(OneOrMore(a)),
        }
    }
    fn build(&mut self, row: u32) -> P {
        if let Some(&p) = self.built.get(&row) {
            return p;
        }
        let p = match self.tables.row(row) {
            [1, ..] => self.keep(Empty),
            [2, ..] => self.keep(NotAllowed),
            [3, ..] => self.keep(Text),
            [8, definition, _] => self.keep(Ref(definition, false)),
            [9, a, _] => {
                let a = self.build(a);
                self.one_or_more(a)
            }
            [kind @ 10..=12, a, b] => {
                let (a, b) = (self.build(a), self.build(b));
                match kind {
                    10 => self.choice([a, b]),
                    11 => self.group(a, b),
                    _ => self.interleave(a, b),
                }
            }
            [20, _, b] => self.build(b),
            [21, a, _] => self.build(a),
            _ => self.keep(Row(row)),
        };
        self.built.insert(row, p);
        p
    }

    // Derivatives.

    fn after(&mut self, p: P, step: Step) -> P {
        if let Some(&q) = self.known.get(&(p, step)) {
            return q;
        }
        let q = match self.patterns[p].clone() {
            OneOrMore(a) => {
                let (first, empty) = (self.after(a, step), self.keep(Empty));
                let more = self.choice([p, empty]);
                self.group(first, more)
            }
            Choice(parts) => {
                let parts: Vec<P> = parts.into_iter().map(|a| self.after(a, step)).collect();
                self.choice(parts)
            }
            Group(a, b) => self.after_group(a, b, step),
            Interleave(a, b) => {
                let (one, other) = (self.after(a, step), self.after(b, step));
                let (one, other) = (self.interleave(one, b), self.interleave(a, other));
                self.choice([one, other])
            }
            leaf => {
                let leaf = self.after_leaf(leaf, step);
                self.keep(leaf)
            }
        };
        self.known.insert((p, step), q);
        q
    }
    /// An attribute may go to either part, a member to the second only where the first needs no more.
    fn after_group(&mut self, a: P, b: P, step: Step) -> P {
        let first = self.after(a, step);
        let first = self.group(first, b);
        match step {
            Step::Attribute(_) => {
                let second = self.after(b, step);
                let second = self.group(a, second);
                self.choice([first, second])
            }
            Step::Member(_) if self.nullable[a] => {
                let second = self.after(b, step);
                self.choice([first, second])
            }
            Step::Member(_) => first,
        }
    }
    fn after_leaf(&mut self, leaf: Pattern, step: Step) -> Pattern {
        let by_rule = self.whitespace == Whitespace::ByRule;
        let empty_if = |holds: bool| if holds { Empty } else { NotAllowed };
        match (leaf, step) {
            (Row(row), Step::Attribute(node)) => empty_if(self.attribute_matches(node, row)),
            (Row(row), Step::Member(Member::Text(string))) => empty_if(self.string_matches(string, row)),
            (Text, Step::Member(Member::Text(_))) => Text,
            (Ref(definition, false), Step::Member(Member::Text(string))) if self.tables.is_white(string) => {
                Ref(definition, true)
            }
            (AfterElement, Step::Member(Member::Text(string))) => empty_if(self.tables.is_white(string)),
            (Ref(definition, _), Step::Member(Member::Element(element))) => {
                match self.matched.contains(&(element, definition)) {
                    true if by_rule => AfterElement,
                    matched => empty_if(matched),
                }
            }
            _ => NotAllowed,
        }
    }
    fn string_matches(&mut self, string: u32, row: u32) -> bool {
        match self.tables.row(row) {
            [4, _, NONE] => true,
            [4, _, except] => {
                let p = self.build(except);
                let left = self.after(p, Step::Member(Member::Text(string)));
                !self.nullable[left]
            }
            [5, datatype, value] => self.tables.equal(datatype, string, value),
            [6, tokens, _] => {
                let p = self.build(tokens);
                let tables = self.tables;
                let each = tables.tokens[string as usize].iter();
                let left = each.fold(p, |p, &token| self.after(p, Step::Member(Member::Text(token))));
                self.nullable[left]
            }
            _ => false,
        }
    }
    fn attribute_matches(&mut self, node: u32, row: u32) -> bool {
        let [kind, class, content] = self.tables.row(row);
        if kind != 7 || !self.tables.named(node, class) {
            return false;
        }
        let p = self.build(content);
        self.weakly(p, &[Member::Text(self.tables.nodes[node as usize][4])])
    }
    /// Weak matching, once the attributes are taken.
    fn weakly(&mut self, p: P, members: &[Member]) -> bool {
        let all = members.iter().fold(p, |p, &member| self.after(p, Step::Member(member)));
        let no_string = match members {
            [] => true,
            [Member::Text(string)] => self.tables.is_white(*string),
            _ => false,
        };
        let empty_string = self.after(p, Step::Member(Member::Text(0)));
        self.nullable[all] || no_string && self.nullable[p] || members.is_empty() && self.nullable[empty_string]
    }
    fn element_matches(&mut self, element: u32, definition: u32) -> bool {
        let [_, class, content] = self.tables.row(definition);
        if !self.tables.named(element, class) {
            return false;
        }
        let mut members = self.tables.members[element as usize].clone();
        let has_elements = members.iter().any(|member| matches!(member, Member::Element(_)));
        if self.whitespace == Whitespace::LeftOut && has_elements {
            members.retain(|member| !matches!(member, Member::Text(string) if self.tables.is_white(*string)));
        }
        let p = self.build(content);
        let attributes = &self.tables.attributes[element as usize];
        let p = attributes.iter().fold(p, |p, &node| self.after(p, Step::Attribute(node)));
        self.weakly(p, &members)
    }
}
