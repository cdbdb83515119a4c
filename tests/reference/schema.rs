// The rules of schemas and name classes, written plainly: each row has the list of all rows above
// it, and the names of a class are listed one by one. For small schemas only.

use std::collections::{BTreeSet, HashSet};
use std::fmt::{Debug, Formatter, Result as Written};

/// The word that stands for no except, and for no row in an answer.
pub const NONE: u32 = 4_294_967_295;

macro_rules! kinds {
    ($($kind:ident $number:literal),*) => { $(const $kind: u32 = $number;)* };
}
kinds! { EMPTY 1, NOT_ALLOWED 2, TEXT 3, DATA 4, VALUE 5, LIST 6, ATTRIBUTE 7, REF 8, ONE_OR_MORE 9 }
kinds! { CHOICE 10, GROUP 11, INTERLEAVE 12, ANY_NAME 16, NS_NAME 17, NAME 18, CLASS_CHOICE 19, ELEMENT 20, START 21 }

/// What a call answers: the code and place of a refusal, or 0 and the answer.
pub type Answer = (u64, u64);

/// The tables that a call takes, which need keep no rule.
#[derive(Clone, Default, PartialEq)]
pub struct Input {
    pub bytes: Vec<u8>,
    pub ends: Vec<u32>,
    pub schema: Vec<u32>,
    pub instance: Vec<u32>,
}

impl Debug for Input {
    fn fmt(&self, f: &mut Formatter) -> Written {
        let (rows, nodes): (Vec<_>, Vec<_>) = (self.schema.chunks(3).collect(), self.instance.chunks(5).collect());
        let bytes = self.bytes.escape_ascii();
        write!(f, "rows {rows:?}, nodes {nodes:?}, ends {:?}, bytes \"{bytes}\"", self.ends)
    }
}

// The three functions.

/// 0 for a schema that passes.
pub fn verdict(input: &Input) -> Answer {
    check(input).err().unwrap_or((0, 0))
}

/// 1 where the name is in the class, else 0; and the output for the row that says so, of so many words.
pub fn name_in_class(input: &Input, class: u32, name: (u32, u32), room: usize) -> (Answer, Vec<u32>) {
    match check(input).and_then(|mut schema| schema.name_in_class(class, name)) {
        Err(refused) => (refused, vec![0; room]),
        Ok(_) if room == 0 => ((12, 0), vec![]),
        Ok((yes, row)) => ((0, u64::from(yes)), [vec![row], vec![0; room - 1]].concat()),
    }
}

/// 1 where the classes have a name in common, else 0; and the output for it, of so many words.
pub fn least_common_name(input: &Input, (first, second): (u32, u32), room: usize) -> (Answer, Vec<u32>) {
    let common = || {
        let schema = check(input)?;
        let (first, second) = (schema.class(first)?, schema.class(second)?);
        Ok(&schema.names(first) & &schema.names(second))
    };
    let mut name = vec![0; room];
    let answer = match common() {
        Err(refused) => refused,
        Ok(common) => match common.first() {
            None => (0, 0),
            Some(_) if room < 2 => (12, 0),
            Some(&(namespace, local)) => {
                name[..2].copy_from_slice(&[namespace, local]);
                (0, 1)
            }
        },
    };
    (answer, name)
}

fn fault(code: u64, place: usize) -> Answer {
    (code, place as u64)
}

/// The first string at fault.
pub fn string_fault(bytes: &[u8], ends: &[u32]) -> Option<usize> {
    let n = ends.len();
    if n == 0 || n > 512 || bytes.len() > 16_384 {
        return Some(0);
    }
    let wrong = |k: &usize| match *k {
        0 if ends[0] != 0 => true,
        k if k > 0 && ends[k] < ends[k - 1] => true,
        k => k == n - 1 && ends[k] as usize != bytes.len(),
    };
    // String 0 is empty, so an empty string after it is its equal.
    let mut seen = HashSet::from([&bytes[..0]]);
    let mut seen_before = |k: &usize| !seen.insert(&bytes[ends[k - 1] as usize..ends[*k] as usize]);
    (0..n).find(wrong).or_else(|| (1..n).find(&mut seen_before))
}

/// Codes 1 to 8.
#[rustfmt::skip]
pub fn check(input: &Input) -> Result<Schema, Answer> {
    if let Some(place) = string_fault(&input.bytes, &input.ends) {
        return Err(fault(1, place));
    }
    let (strings, n) = (input.ends.len() as u32, input.schema.len() / 3);
    if input.schema.len() % 3 != 0 || n == 0 || n > 512 {
        return Err(fault(2, 0));
    }
    let rows = input.schema.chunks(3).map(|row| [row[0], row[1], row[2]]).collect();
    let mut schema = Schema { rows, strings, above: vec![], grid: BTreeSet::new() };
    let uses = schema.uses();
    if let Some(row) = (0..n).find(|&row| schema.row_is_bad(row, &uses)) {
        return Err(fault(2, row));
    }
    schema.above = (0..n).map(|row| schema.path(row, &uses)).collect();
    schema.grid = schema.numbers();
    for code in 3..=8 {
        if let Some(row) = (0..n).find(|&row| schema.breaks(code, row)) {
            return Err(fault(code, row));
        }
    }
    Ok(schema)
}

/// What a field of a row may hold.
#[rustfmt::skip]
enum Field { Zero, Datatype, Number, Local, Element, Pattern, Class, PatternOrNone, ClassOrNone }
use Field::*;

/// The two fields of a kind; nothing for a bad kind.
fn fields(kind: u32) -> Option<[Field; 2]> {
    Some(match kind {
        EMPTY | NOT_ALLOWED | TEXT => [Zero, Zero],
        DATA => [Datatype, PatternOrNone],
        VALUE => [Datatype, Number],
        ATTRIBUTE => [Class, Pattern],
        REF => [Element, Zero],
        LIST | ONE_OR_MORE => [Pattern, Zero],
        CHOICE | GROUP | INTERLEAVE => [Pattern, Pattern],
        ANY_NAME => [ClassOrNone, Zero],
        NS_NAME => [Number, ClassOrNone],
        NAME => [Number, Local],
        CLASS_CHOICE => [Class, Class],
        ELEMENT => [Class, Pattern],
        START => [Pattern, Zero],
        _ => return None,
    })
}

/// A row used as a child, its parent, and the field of the parent that names it.
type Use = (usize, usize, usize);

pub struct Schema {
    rows: Vec<[u32; 3]>,
    strings: u32,
    /// For each row all rows above it, the nearest first, each with its kind and the field that leads down from there.
    above: Vec<Vec<(usize, u32, usize)>>,
    /// The numbers that names are listed over.
    grid: BTreeSet<u32>,
}

impl Schema {
    fn kind(&self, row: usize) -> u32 {
        self.rows[row][0]
    }
    /// A row asked for, or code 11.
    fn class(&self, row: u32) -> Result<usize, Answer> {
        match self.rows.get(row as usize) {
            Some([16..=19, ..]) => Ok(row as usize),
            _ => Err(fault(11, row as usize)),
        }
    }

    // Code 2.

    /// Whether the value may stand in the field of the row, and whether it names a child there.
    fn field(&self, row: usize, field: &Field, value: u32) -> (bool, bool) {
        let named = self.rows.get(value as usize).map_or(0, |named| named[0]);
        let smaller = (value as usize) < row;
        let pattern = smaller && (1..=12).contains(&named);
        let class = smaller && (16..=19).contains(&named);
        match field {
            Zero => (value == 0, false),
            Datatype => (value <= 1, false),
            Number => (value < self.strings, false),
            Local => (value != 0 && value < self.strings, false),
            Element => (named == ELEMENT, false),
            Pattern => (pattern, pattern),
            Class => (class, class),
            PatternOrNone => (pattern || value == NONE, pattern),
            ClassOrNone => (class || value == NONE, class),
        }
    }
    /// One use for each good field that names a child.
    fn uses(&self) -> Vec<Use> {
        let mut uses = vec![];
        for (parent, row) in self.rows.iter().enumerate() {
            for (k, field) in fields(row[0]).iter().flatten().enumerate() {
                if self.field(parent, field, row[k + 1]).1 {
                    uses.push((row[k + 1] as usize, parent, k));
                }
            }
        }
        uses
    }
    fn row_is_bad(&self, row: usize, uses: &[Use]) -> bool {
        let [kind, a, b] = self.rows[row];
        let Some([field_a, field_b]) = fields(kind) else {
            return true;
        };
        let good = self.field(row, &field_a, a).0 && self.field(row, &field_b, b).0;
        let parents = uses.iter().filter(|(child, ..)| *child == row).count();
        let wanted = usize::from(kind != ELEMENT && kind != START);
        let last = row == self.rows.len() - 1;
        !good || parents != wanted || last != (kind == START)
    }
    /// What is above a row, up to its definition or start.
    fn path(&self, row: usize, uses: &[Use]) -> Vec<(usize, u32, usize)> {
        let (mut path, mut here) = (vec![], row);
        while let Some(&(_, parent, field)) = uses.iter().find(|(child, ..)| *child == here) {
            path.push((parent, self.kind(parent), field));
            here = parent;
        }
        path
    }

    /// Whether a row of this kind is above a row, with this field leading down.
    fn is_below(&self, row: usize, kind: u32, field: usize) -> bool {
        self.above[row].iter().any(|&(_, above, down)| (above, down) == (kind, field))
    }

    // Codes 3 to 8.

    fn breaks(&self, code: u64, row: usize) -> bool {
        match code {
            3 => self.out_of_place(row),
            4 => self.bad_in_except(row),
            5 => self.prohibited(row),
            6 => self.not_groupable(row),
            7 => self.attributes_clash(row) || self.wild_attribute(row),
            _ => self.interleave_clash(row),
        }
    }
    fn out_of_place(&self, row: usize) -> bool {
        match (self.kind(row), self.above[row].first()) {
            (NOT_ALLOWED, parent) => !matches!(parent, Some((_, ELEMENT | START, _))),
            (EMPTY, Some((_, ELEMENT | START | ATTRIBUTE | DATA | LIST, _) | (_, CHOICE, 0))) => false,
            (kind, _) => kind == EMPTY,
        }
    }
    fn bad_in_except(&self, row: usize) -> bool {
        match self.kind(row) {
            ANY_NAME => self.is_below(row, ANY_NAME, 0) || self.is_below(row, NS_NAME, 1),
            NS_NAME => self.is_below(row, NS_NAME, 1),
            _ => false,
        }
    }
    #[rustfmt::skip]
    fn prohibited(&self, row: usize) -> bool {
        let kind = self.kind(row);
        let kinds: Vec<u32> = self.above[row].iter().map(|&(_, kind, _)| kind).collect();
        let joins = |k: usize| kinds[k] == GROUP || kinds[k] == INTERLEAVE;
        let repeated = |k: usize| joins(k) && kinds[k + 1..].contains(&ONE_OR_MORE);
        let never: [(bool, &[u32]); 5] = [
            (kinds.contains(&ATTRIBUTE), &[REF, ATTRIBUTE]),
            ((0..kinds.len()).any(repeated), &[ATTRIBUTE]),
            (kinds.contains(&LIST), &[LIST, REF, ATTRIBUTE, TEXT, INTERLEAVE]),
            (self.is_below(row, DATA, 1),
                &[ATTRIBUTE, REF, TEXT, LIST, GROUP, INTERLEAVE, ONE_OR_MORE, EMPTY]),
            (kinds.contains(&START),
                &[ATTRIBUTE, DATA, VALUE, TEXT, LIST, GROUP, INTERLEAVE, ONE_OR_MORE, EMPTY]),
        ];
        never.iter().any(|(below, kinds)| *below && kinds.contains(&kind))
    }

    /// A pattern and all that is reached from it through choice, group, interleave and oneOrMore.
    fn reached(&self, row: u32) -> Vec<usize> {
        let (mut reached, mut open) = (vec![], vec![row]);
        while let Some(row) = open.pop() {
            reached.push(row as usize);
            match self.rows[row as usize] {
                [CHOICE | GROUP | INTERLEAVE, a, b] => open.extend([a, b]),
                [ONE_OR_MORE, a, _] => open.push(a),
                _ => {}
            }
        }
        reached
    }
    /// The content type of a pattern, the largest of all reached: empty 0, complex 1, simple 2.
    fn content(&self, row: u32) -> u32 {
        let own = |row| match self.kind(row) {
            TEXT | REF => 1,
            DATA | VALUE | LIST => 2,
            _ => 0,
        };
        self.reached(row).into_iter().map(own).max().unwrap()
    }
    /// Within a list no pattern needs a content type.
    fn not_groupable(&self, row: usize) -> bool {
        let [kind, a, b] = self.rows[row];
        let (one, other) = match kind {
            _ if self.is_below(row, LIST, 0) => return false,
            GROUP | INTERLEAVE => (self.content(a), self.content(b)),
            ONE_OR_MORE => (self.content(a), self.content(a)),
            _ => return false,
        };
        !(one == 0 || other == 0 || one == 1 && other == 1)
    }
    /// The names of all attributes, or of all elements referred to, on one side.
    fn side(&self, side: u32, kind: u32) -> BTreeSet<(u32, u32)> {
        let mut names = BTreeSet::new();
        for row in self.reached(side) {
            let class = match self.rows[row] {
                [found, ..] if found != kind => continue,
                [REF, element, _] => self.rows[element as usize][1],
                [_, class, _] => class,
            };
            names.extend(self.names(class as usize));
        }
        names
    }
    fn sides_meet(&self, row: usize, kind: u32) -> bool {
        let [_, a, b] = self.rows[row];
        !self.side(a, kind).is_disjoint(&self.side(b, kind))
    }
    fn attributes_clash(&self, row: usize) -> bool {
        matches!(self.kind(row), GROUP | INTERLEAVE) && self.sides_meet(row, ATTRIBUTE)
    }
    /// An attribute with anyName or nsName in its class, and no oneOrMore above it.
    fn wild_attribute(&self, row: usize) -> bool {
        let [kind, class, _] = self.rows[row];
        kind == ATTRIBUTE && self.is_wild(class) && !self.is_below(row, ONE_OR_MORE, 0)
    }
    fn is_wild(&self, class: u32) -> bool {
        match self.rows[class as usize] {
            [CLASS_CHOICE, a, b] => self.is_wild(a) || self.is_wild(b),
            [kind, ..] => kind != NAME,
        }
    }
    fn interleave_clash(&self, row: usize) -> bool {
        let [kind, a, b] = self.rows[row];
        let text = |side| self.reached(side).iter().any(|&row| self.kind(row) == TEXT);
        kind == INTERLEAVE && (text(a) && text(b) || self.sides_meet(row, REF))
    }

    // Names.

    /// Whether a class holds a name, and the row that says so, or NONE.
    pub fn name_in_class(&mut self, class: u32, name: (u32, u32)) -> Result<(bool, u32), Answer> {
        // Whether one name is in a class does not rest on another.
        self.grid = BTreeSet::from([name.0, name.1]);
        let class = self.class(class)?;
        let holds = |row: &u32| *row != NONE && self.names(*row as usize).contains(&name);
        let rows = self.below_no_except(class).into_iter();
        if holds(&(class as u32)) {
            let leaves = rows.filter(|&row| self.kind(row) != CLASS_CHOICE).map(|row| row as u32);
            return Ok((true, leaves.filter(holds).min().expect("a row that holds the name")));
        }
        let except = |row: usize| match self.rows[row] {
            [ANY_NAME, except, _] => Some(except),
            [NS_NAME, namespace, except] if namespace == name.0 => Some(except),
            _ => None,
        };
        Ok((false, rows.filter_map(except).filter(holds).min().unwrap_or(NONE)))
    }
    /// The rows that lie in a class below no except: no row on the way up to the class is the except of its parent.
    fn below_no_except(&self, class: usize) -> Vec<usize> {
        let lies = |&row: &usize| match self.above[row].iter().position(|&(above, ..)| above == class) {
            Some(end) => !self.above[row][..=end].iter().any(|up| matches!(up, (_, ANY_NAME, 0) | (_, NS_NAME, 1))),
            None => row == class,
        };
        (0..=class).filter(lies).collect()
    }
    /// All numbers from 0 to one past the largest in a class. The one past stands for all others.
    fn numbers(&self) -> BTreeSet<u32> {
        let largest = |row: &[u32; 3]| match *row {
            [NAME, namespace, local] => namespace.max(local),
            [NS_NAME, namespace, _] => namespace,
            _ => 0,
        };
        (0..=self.rows.iter().map(largest).max().unwrap() + 1).collect()
    }
    /// The names of a class, of all those with numbers on the grid.
    fn names(&self, class: usize) -> BTreeSet<(u32, u32)> {
        let except = |row| match row {
            NONE => BTreeSet::new(),
            _ => self.names(row as usize),
        };
        let locals = || self.grid.iter().filter(|&&local| local != 0);
        let within = |namespace: u32| locals().map(move |&local| (namespace, local));
        match self.rows[class] {
            [ANY_NAME, a, _] => {
                let all: BTreeSet<_> = self.grid.iter().flat_map(|&n| within(n)).collect();
                &all - &except(a)
            }
            [NS_NAME, a, b] => &within(a).collect() - &except(b),
            [NAME, a, b] => BTreeSet::from([(a, b)]),
            [_, a, b] => &self.names(a as usize) | &self.names(b as usize),
        }
    }
}
