//! Matching by a search over the inference rules of clause 9 as they stand: all splits of attributes and children, all
//! interleavings. For elements with few attributes and children, of jobs that pass codes 1 to 10.

use super::job::Job;
use super::matching::{Matches, Member, Tables, NONE};
use std::collections::{BTreeSet, HashMap};

/// The widest element that is searched, by its children and attributes, and the longest list.
pub const WIDEST: (usize, usize) = (5, 3);
const TOKENS: usize = 10;

pub fn is_small(job: &Job) -> bool {
    let tables = Tables::of(job);
    let few = |parts: &[usize], most: usize| parts.iter().all(|&n| n <= most);
    let members: Vec<usize> = tables.members.iter().map(Vec::len).collect();
    let attributes: Vec<usize> = tables.attributes.iter().map(Vec::len).collect();
    let tokens: Vec<usize> = tables.tokens.iter().map(Vec::len).collect();
    few(&members, WIDEST.0) && few(&attributes, WIDEST.1) && few(&tokens, TOKENS)
}

pub fn by_search(job: &Job) -> Matches {
    let tables = &Tables::of(job);
    let mut proved = BTreeSet::new();
    for &element in tables.elements().iter().rev() {
        for definition in tables.definitions() {
            if element_matches(tables, &proved, element, definition) {
                proved.insert((element, definition));
            }
        }
    }
    let start = tables.schema[tables.schema.len() - 1][1];
    let valid = Goal::new(tables, &proved, &[], vec![Member::Element(0)]).holds(start, 0, 1);
    Matches { valid, pairs: proved.into_iter().collect() }
}

type Pairs = BTreeSet<(u32, u32)>;

/// Rule (element), but for the whitespace around it.
fn element_matches(tables: &Tables, proved: &Pairs, element: u32, definition: u32) -> bool {
    let [_, class, content] = tables.row(definition);
    let members = tables.members[element as usize].clone();
    tables.named(element, class) && weakly(tables, proved, &tables.attributes[element as usize], members, content)
}

/// Rules (weak match 1) to (weak match 3).
fn weakly(tables: &Tables, proved: &Pairs, attributes: &[u32], members: Vec<Member>, pattern: u32) -> bool {
    let matches = |members: Vec<Member>| {
        let mut goal = Goal::new(tables, proved, attributes, members);
        let (a, m) = (all(attributes.len()), all(goal.members.len()));
        goal.holds(pattern, a, m)
    };
    let ws = match members[..] {
        [] => true,
        [Member::Text(string)] => tables.is_white(string),
        _ => false,
    };
    let none = members.is_empty();
    matches(members) || ws && matches(vec![]) || none && matches(vec![Member::Text(0)])
}

/// The set of the first n.
fn all(n: usize) -> u32 {
    (1 << n) - 1
}

fn subsets(set: u32) -> impl Iterator<Item = u32> {
    (0..=set).filter(move |part| part & !set == 0)
}

/// All pairs of sets with this union.
fn unions(set: u32) -> impl Iterator<Item = (u32, u32)> {
    subsets(set).flat_map(move |one| subsets(one).map(move |both| (one, set & !one | both)))
}

/// Attributes and a sequence; goals speak of sets of the attributes and of subsequences, each a set of bits.
struct Goal<'a> {
    tables: &'a Tables,
    proved: &'a Pairs,
    attributes: &'a [u32],
    members: Vec<Member>,
    known: HashMap<(u32, u32, u32), bool>,
}

impl<'a> Goal<'a> {
    fn new(tables: &'a Tables, proved: &'a Pairs, attributes: &'a [u32], members: Vec<Member>) -> Goal<'a> {
        Goal { tables, proved, attributes, members, known: HashMap::new() }
    }
    fn sequence(&self, m: u32) -> Vec<Member> {
        (0..self.members.len()).filter(|k| m >> k & 1 == 1).map(|k| self.members[k]).collect()
    }
    /// All ways to write the sequence as one after another.
    fn cuts(&self, m: u32) -> impl Iterator<Item = (u32, u32)> {
        (0..=self.members.len()).map(move |k| (m & all(k), m & !all(k)))
    }
    fn holds(&mut self, pattern: u32, a: u32, m: u32) -> bool {
        if let Some(&known) = self.known.get(&(pattern, a, m)) {
            return known;
        }
        let holds = self.by_a_rule(pattern, a, m);
        self.known.insert((pattern, a, m), holds);
        holds
    }
    fn both(&mut self, one: (u32, u32, u32), other: (u32, u32, u32)) -> bool {
        self.holds(one.0, one.1, one.2) && self.holds(other.0, other.1, other.2)
    }
    fn by_a_rule(&mut self, pattern: u32, a: u32, m: u32) -> bool {
        match self.tables.row(pattern) {
            [10, p1, p2] => self.holds(p1, a, m) || self.holds(p2, a, m),
            [11, p1, p2] => {
                unions(a).any(|(a1, a2)| self.cuts(m).any(|(m1, m2)| self.both((p1, a1, m1), (p2, a2, m2))))
            }
            [12, p1, p2] => unions(a).any(|(a1, a2)| subsets(m).any(|m1| self.both((p1, a1, m1), (p2, a2, m & !m1)))),
            [9, p, _] => self.holds(p, a, m) || self.one_and_more(pattern, p, a, m),
            [7, class, p] => m == 0 && self.attribute(class, p, a),
            row => a == 0 && self.without_attributes(pattern, row, m),
        }
    }
    /// Rule (oneOrMore 2). A step that takes nothing leaves the goal itself, so no least proof has it.
    fn one_and_more(&mut self, pattern: u32, p: u32, a: u32, m: u32) -> bool {
        subsets(a).any(|a1| {
            let rest = a & !a1;
            self.cuts(m).any(|(m1, m2)| (rest, m2) != (a, m) && self.both((p, a1, m1), (pattern, rest, m2)))
        })
    }
    /// Rule (attribute).
    fn attribute(&self, class: u32, p: u32, a: u32) -> bool {
        let of: Vec<u32> = (0..self.attributes.len()).filter(|k| a >> k & 1 == 1).map(|k| self.attributes[k]).collect();
        let [node] = of[..] else { return false };
        let value = self.tables.nodes[node as usize][4];
        self.tables.named(node, class) && weakly(self.tables, self.proved, &[], vec![Member::Text(value)], p)
    }
    /// Rule (list): the tokens as a sequence of strings, with no attributes.
    fn list(&self, string: u32, pattern: u32) -> bool {
        let tokens = &self.tables.tokens[string as usize];
        let tokens: Vec<Member> = tokens.iter().map(|&token| Member::Text(token)).collect();
        let m = all(tokens.len());
        Goal::new(self.tables, self.proved, &[], tokens).holds(pattern, 0, m)
    }
    /// The rules of empty, text, data, value, list and ref, for an empty set of attributes.
    fn without_attributes(&mut self, pattern: u32, row: [u32; 3], m: u32) -> bool {
        let (tables, proved) = (self.tables, self.proved);
        let ws = |string: u32| tables.is_white(string);
        match (row, &self.sequence(m)[..]) {
            ([1, ..], sequence) => sequence.is_empty(),
            ([3, ..], []) => true,
            ([3, ..], [.., Member::Text(_)]) => {
                let last = 31 - m.leading_zeros();
                self.holds(pattern, 0, m & !(1 << last))
            }
            ([4, _, except], [Member::Text(_)]) => except == NONE || !self.holds(except, 0, m),
            ([5, datatype, value], [Member::Text(string)]) => tables.equal(datatype, *string, value),
            ([6, p, _], [Member::Text(string)]) => self.list(*string, p),
            ([8, definition, _], sequence) => {
                let element = match *sequence {
                    [Member::Element(e)] => e,
                    [Member::Text(s), Member::Element(e)] | [Member::Element(e), Member::Text(s)] if ws(s) => e,
                    [Member::Text(s), Member::Element(e), Member::Text(t)] if ws(s) && ws(t) => e,
                    _ => return false,
                };
                proved.contains(&(element, definition))
            }
            _ => false,
        }
    }
}
