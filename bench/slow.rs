//! Jobs that look slow. Each is accepted, is at some limit and multiplies what some validator does once for each row,
//! element, child, attribute, name or byte. What is right for them is known by construction.

use super::maker::{expand, over, read};
use super::reference::job::Job;
use std::collections::BTreeSet;

const NONE: u32 = u32::MAX;
pub const NODES: usize = 1024;
/// The pairs that the program has room for.
const ROOM: usize = 8192;

pub struct Slow {
    pub name: &'static str,
    pub what: &'static str,
    pub job: Job,
    /// How the answer begins: whether the document is valid and the number of pairs, or the refusal.
    pub begins: String,
}

/// How the answer begins where it has so many pairs.
pub fn begins(valid: bool, pairs: usize) -> String {
    match (pairs > ROOM, valid) {
        (true, _) => "refusal=12,0\n".to_string(),
        (_, true) => format!("valid=yes\npairs={pairs}\n"),
        (_, false) => format!("valid=no\npairs={pairs}\n"),
    }
}

fn slow(name: &'static str, job: Job, valid: bool, pairs: usize, what: &'static str) -> Slow {
    Slow { name, what, job, begins: begins(valid, pairs) }
}

// Documents.

/// So many elements named 0:1, each with so many element children as long as there are any left.
fn tree(width: usize, elements: usize) -> Vec<u32> {
    let mut words = vec![];
    // Numbered by levels: the children of k begin at k * width + 1.
    let mut open = vec![(0, NONE)];
    while let Some((k, parent)) = open.pop() {
        let row = words.len() as u32 / 5;
        words.extend([1, parent, 0, 1, 0]);
        let children = k * width + 1..(k * width + 1 + width).min(elements);
        open.extend(children.rev().map(|child| (child, row)));
    }
    words
}

/// The same elements with a text between two that follow each other.
fn with_texts(elements: &[u32], string: u32) -> Vec<u32> {
    let (mut rows, mut words): (Vec<u32>, Vec<u32>) = (vec![], vec![]);
    for node in elements.chunks(5) {
        let parent = if node[1] == NONE { NONE } else { rows[node[1] as usize] };
        let after_parent = words.len() as u32 / 5 == parent.wrapping_add(1);
        if !after_parent {
            words.extend([3, parent, string, 0, 0]);
        }
        rows.push(words.len() as u32 / 5);
        words.extend([1, parent, node[2], node[3], 0]);
    }
    words
}

fn attributes_of(row: u32, locals: &[u32], string: u32) -> Vec<u32> {
    locals.iter().flat_map(|&local| [2, row, 0, local, string]).collect()
}

/// A root 0:1 and fifteen children of its name, each with attributes of these 63 names, all with string 2.
fn sixteen_with(locals: &[u32]) -> Vec<u32> {
    let parent = |k: u32| if k == 0 { NONE } else { 0 };
    let element = |k: u32| [vec![1, parent(k), 0, 1, 0], attributes_of(64 * k, locals, 2)].concat();
    (0..16).flat_map(element).collect()
}

/// A root 0:1 with attributes of these names, all with string 1, and then empty elements of these names.
fn flat(attributes: &[u32], elements: &[u32]) -> Vec<u32> {
    let children = elements.iter().flat_map(|&local| [1, 0, 0, local, 0]).collect();
    [vec![1, NONE, 0, 1, 0], attributes_of(0, attributes, 1), children].concat()
}

/// So many numbers from one on, in reverse.
fn back(from: u32, count: u32) -> Vec<u32> {
    (from..from + count).rev().collect()
}

/// A job over strings of two bytes each, string 0 empty, with a schema in the notation.
fn job(strings: u16, schema: &str, right: bool, instance: Vec<u32>) -> Job {
    let input = over(strings, read(&expand(schema, right)).0);
    let ends = [&[0], &input.ends[..]].concat();
    let text = |k: usize| input.bytes[ends[k] as usize..ends[k + 1] as usize].to_vec();
    Job { strings: (0..strings as usize).map(text).collect(), schema: input.schema, instance }
}

/// A job over an empty string and these.
fn job_over(strings: Vec<Vec<u8>>, schema: &str, right: bool, instance: Vec<u32>) -> Job {
    Job { strings: [vec![vec![]], strings].concat(), ..job(2, schema, right, instance) }
}

/// A root 0:1 with one text.
fn one_text(string: u32) -> Vec<u32> {
    vec![1, NONE, 0, 1, 0, 3, 0, string, 0, 0]
}

// One wide element.

/// A root 0:1 whose content is given, with so many children that refer to $1.
fn one_parent(children: usize, content: &str, right: bool) -> Job {
    let schema = format!("element 0:1 {content} element 0:2 empty start $0");
    job(3, &schema, right, flat(&[], &vec![2; children]))
}

/// So many children below so many oneOrMore: one pair for each element.
pub fn repeat_nested(depth: usize, children: usize) -> Job {
    one_parent(children, &("+ ".repeat(depth) + "$1"), true)
}

fn nested() -> Vec<Slow> {
    let of = one_parent;
    let choices = "+ (| 1 250 $1)";
    let groups = "(, 1 62 , $1 , text , text text)";
    let optional = "(, 1 100 | empty + $1)";
    let both = "+ , | empty $1 ".repeat(100) + "$1";
    vec![
        slow("repeat_nested", repeat_nested(500, 63), true, 64, "oneOrMore 500 deep, 63 children"),
        slow("choice_left", of(63, choices, false), true, 64, "250 choices nested left, 63 children"),
        slow("choice_right", of(63, choices, true), true, 64, "250 choices nested right, 63 children"),
        slow("group_left", of(62, groups, false), true, 63, "247 groups nested left, 62 children"),
        slow("group_right", of(62, groups, true), true, 63, "247 groups nested right, 62 children"),
        slow("optional_left", of(63, optional, false), true, 64, "100 optional repeats grouped left, 63 children"),
        slow("optional_right", of(63, optional, true), true, 64, "100 optional repeats grouped right, 63 children"),
        slow("repeat_of_groups", of(63, &both, true), true, 64, "oneOrMore around each of 100 groups, 63 children"),
    ]
}

/// Interleaves of the elements 2, 3, .. in reverse order.
fn interleaved() -> Vec<Slow> {
    let of = |n: u32, item: &str, right: bool, children: &[u32]| {
        let definitions = expand(&format!("(. 2 {} element 0:# empty)", n + 1), true);
        let schema = format!("element 0:1 (& 1 {n} {item}) {definitions} start $0");
        job(n as u16 + 2, &schema, right, flat(&[], children))
    };
    let twice = [back(2, 31), back(2, 31)].concat();
    let missing = &back(2, 60)[..59];
    let (left, right) = (of(60, "$#", false, &back(2, 60)), of(60, "$#", true, &back(2, 60)));
    let optional = of(70, "| empty $#", true, &back(2, 63));
    let repeats = of(31, "+ $#", false, &twice);
    vec![
        slow("interleave_left", left, true, 61, "60-fold interleave nested left, in reverse"),
        slow("interleave_right", right, true, 61, "60-fold interleave nested right, in reverse"),
        slow("interleave_missing", of(60, "$#", true, missing), false, 59, "the same, one child missing"),
        slow("interleave_optional", optional, true, 64, "70-fold interleave of optional elements, 63 there"),
        slow("interleave_repeats", repeats, true, 63, "31-fold interleave of oneOrMore, each twice"),
        slow("interleave_100", of(100, "$#", true, &back(2, 63)), false, 63, "100-fold interleave, 63 there"),
    ]
}

fn attributes() -> Vec<Slow> {
    let of = |strings: u16, content: &str, right: bool, from: u32| {
        job(strings, &format!("element 0:1 {content} start $0"), right, flat(&back(from, 63), &[]))
    };
    let repeats = "+ ".repeat(500) + "@ * text";
    let any = "+ @ * text";
    let (all, some) = ("(, 1 126 @ 0:# text)", "(, 1 63 @ 0:# text)");
    let (group, interleave) = ("(, 1 84 | empty @ 0:# text)", "(& 1 84 | empty @ 0:# text)");
    let class = "+ @ (/ 1 249 0:#) text";
    vec![
        slow("attributes_any", of(64, any, true, 1), true, 1, "63 attributes below oneOrMore of attribute anyName"),
        slow("attributes_repeats", of(64, &repeats, true, 1), true, 1, "the same below 500 oneOrMore"),
        slow("attributes_126", of(512, all, true, 64), false, 0, "group of 126 attributes over 512 strings, 63 there"),
        slow("attributes_63", of(512, some, false, 1), true, 1, "group of 63 attributes over 512 strings, in reverse"),
        slow("attributes_group", of(512, group, true, 22), true, 1, "group of 84 optional attributes, 63 there"),
        slow("attributes_interleave", of(512, interleave, false, 22), true, 1, "the same as interleave, nested left"),
        slow("attributes_class", of(512, class, true, 187), true, 1, "63 attributes, the last names of a class of 249"),
    ]
}

// A thousand elements.

/// Each element matches each definition; and none matches any.
fn all_definitions() -> Vec<Slow> {
    let of = |n: u32, width: usize| {
        let next = |k: u32| (k + 1) % n;
        let definitions: String = (0..n).map(|k| format!("element * | empty + (| 1 28 ${}) ", next(k))).collect();
        job(2, &(definitions + "start $0"), true, tree(width, NODES))
    };
    let many = job(2, "(. 1 84 element * | empty + $0) start $0", true, tree(63, NODES));
    let none = job(2, "(. 1 169 element * value) start $0", true, tree(63, NODES));
    let room = 8 * NODES;
    vec![
        slow("all_match_wide", of(8, 63), true, room, "1,024 elements match each of 8 definitions, 63 children each"),
        slow("all_match_narrow", of(8, 2), true, room, "the same, 2 children each"),
        slow("all_match_deep", of(8, 1), true, room, "the same, one child each"),
        slow("all_match_84", many, true, 84 * NODES, "1,024 elements match each of 84 definitions, 63 children each"),
        slow("none_match", none, false, 0, "1,024 elements match none of 169 definitions"),
    ]
}

/// A job whose one definition is for all elements.
fn for_all(content: &str, instance: Vec<u32>) -> Job {
    job(3, &format!("element * {content} start $0"), true, instance)
}

/// A tree of 1,024 elements of this width against 100 optional repeats: one pair for each element.
pub fn loose(width: usize) -> Job {
    for_all("(, 1 100 | empty + $0)", tree(width, NODES))
}

/// One definition of about 500 rows for all elements.
fn one_definition() -> Vec<Slow> {
    let of = for_all;
    let (wide, deep) = (|| tree(63, NODES), || tree(1, NODES));
    let repeats = "+ ".repeat(500) + "| text $0";
    let missing = |content: &str| of(&format!(", @ 0:2 text {content}"), wide());
    let texts = "| $0 (, 1 250 text)";
    let both = "+ , | empty $0 ".repeat(100) + "text";
    let mixed = with_texts(&tree(31, 520), 1);
    vec![
        slow("repeats_wide", of(&repeats, wide()), true, NODES, "1,024 elements, oneOrMore 500 deep, 63 children each"),
        slow("repeats_deep", of(&repeats, deep()), true, NODES, "the same, one child each"),
        slow("repeats_missing", missing(&repeats), false, 0, "the same, 63 children each, an attribute missing"),
        slow("texts_deep", of(texts, deep()), true, NODES, "1,024 elements, 249 groups of text, one child each"),
        slow("texts_missing", missing("(, 1 249 text)"), false, 0, "the same, 63 children each, an attribute missing"),
        slow("loose_wide", loose(63), true, NODES, "1,024 elements, 100 optional repeats grouped, 63 children"),
        slow("loose_deep", loose(1), true, NODES, "the same, one child each"),
        slow("groups_wide", of(&both, wide()), true, NODES, "1,024 elements, oneOrMore around 100 groups, 63 children"),
        slow("groups_mixed", of(&both, mixed), true, 520, "520 elements against these, texts between 31 children each"),
    ]
}

/// 125 refs to a definition whose class has the name at its end.
fn names() -> Vec<Slow> {
    let of = |class: &str, right: bool| {
        job(127, &format!("element {class} | empty + (| 1 125 $0) start $0"), right, tree(63, NODES))
    };
    let (last, except) = ("/ (/ 2 125 0:#) 0:1", "*- (/ 2 126 0:#)");
    vec![
        slow("class_left", of(last, false), true, NODES, "1,024 elements, 125 refs, the last of 125 names nested left"),
        slow("class_right", of(last, true), true, NODES, "the same nested right"),
        slow("class_except", of(except, true), true, NODES, "the same, anyName except 125 others"),
    ]
}

/// 63 attributes and 63 children at eight elements.
fn wide() -> Slow {
    let schema = "element * , (, 1 63 | empty @ 0:# text) | empty + (| 1 60 $0) start $0";
    let locals: Vec<u32> = (1..64).collect();
    let mut words = flat(&locals, &[]);
    for k in 0..63 {
        let row = words.len() as u32 / 5;
        words.extend([1, 0, 0, 1, 0]);
        if k < 7 {
            words.extend(attributes_of(row, &locals, 1));
            words.extend((0..63).flat_map(|_| [1, row, 0, 1, 0]));
        }
    }
    slow("wide", job(64, schema, true, words), true, 505, "eight elements with 63 attributes and 63 children")
}

// Strings, and schemas alone.

fn texts() -> Vec<Slow> {
    let pair = |k: u16| [b'a' + (k / 26) as u8, b'a' + (k % 26) as u8].to_vec();
    let with = |strings: Vec<Vec<u8>>, schema: &str, instance: Vec<u32>| job_over(strings, schema, true, instance);
    let spaces = [vec![[vec![b' '; 15_300], vec![b'x']].concat()], (0..508).map(pair).collect()].concat();
    let long = |word: &str, end: &str| (word.repeat(2_700) + end).into_bytes();
    let words = [vec![long("a ", "x"), long("a  ", "y")], (0..62).map(pair).collect()].concat();
    let locals: Vec<u32> = (1..64).collect();
    let values = "element * + @ * (| 1 250 value) start $0";
    let values = with(words, values, sixteen_with(&locals));
    let alike = (1..512u16).map(|k| [vec![b'a'; 30], k.to_be_bytes().to_vec()].concat()).collect();
    let spaces = with(spaces, "element * (| 1 252 value) start $0", one_text(1));
    let alike = with(alike, "element * text start $0", one_text(1));
    vec![
        slow("token_spaces", spaces, true, 1, "252 token values of 15,300 spaces and a letter, 508 other strings"),
        slow("token_words", values, false, 0, "1,008 attributes of 8,101 bytes, 250 values unlike in the last byte"),
        slow("strings_alike", alike, true, 1, "511 strings that share 30 of 32 bytes"),
    ]
}

/// Lists: the only value is `a`, which is string 1, and the text is string 2.
fn lists() -> Vec<Slow> {
    let of = |content: &str, right: bool, text: String| {
        job_over(vec![b"a".to_vec(), text.into_bytes()], &format!("element * {content} start $0"), right, one_text(2))
    };
    let (full, last) = (|| "a ".repeat(8_000), || "a ".repeat(7_999) + "b");
    let repeats = format!("list {}value", "+ ".repeat(250));
    let choices = "list + | (| 1 160 data- token) value";
    let optional = "list (, 1 100 | empty + value)";
    let groups = format!("list {}value", "+ , | empty value ".repeat(100));
    let starts = format!("list {}value", "+ , value | empty ".repeat(100));
    let runs = "list + (, 1 250 value)";
    let excepts = format!("list + {}value", "data- ".repeat(500));
    let many = "(| 1 125 list + value)";
    vec![
        slow("list_repeats", of(&repeats, true, full()), true, 1, "a list of oneOrMore 250 deep, 8,000 tokens"),
        slow("list_repeats_last", of(&repeats, true, last()), false, 0, "the same, another last token"),
        slow("list_choice_left", of(choices, false, full()), true, 1, "list of 160 choices nested left, 8,000 tokens"),
        slow("list_choice_right", of(choices, true, full()), true, 1, "the same nested right"),
        slow("list_optional_left", of(optional, false, full()), true, 1, "100 optional repeats grouped left, as many"),
        slow("list_optional_right", of(optional, true, last()), false, 0, "the same grouped right, another last token"),
        slow("list_groups", of(&groups, true, full()), true, 1, "oneOrMore around 100 nested groups, 8,000 tokens"),
        slow("list_groups_last", of(&groups, true, last()), false, 0, "the same, another last token"),
        slow("list_starts", of(&starts, true, full()), true, 1, "the same, the rest of each group may be absent"),
        slow("list_runs", of(runs, true, full()), true, 1, "a list of runs of 250, 8,000 tokens"),
        slow("list_runs_left", of(runs, false, full() + "a"), false, 0, "the same grouped left, one token too many"),
        slow("list_excepts", of(&excepts, true, full()), true, 1, "a list of data with excepts 500 deep, 8,000 tokens"),
        slow("list_many", of(many, true, last()), false, 0, "125 lists, 8,000 tokens, the last is no value"),
    ]
}

/// A tree of so many elements named 0:1, each leaf with the text that its number gives.
fn leaf_texts(elements: usize, string: impl Fn(u32) -> u32) -> Vec<u32> {
    let tree = tree(63, elements);
    let inner: BTreeSet<u32> = tree.chunks(5).map(|node| node[1]).collect();
    let (mut rows, mut words): (Vec<u32>, Vec<u32>) = (vec![], vec![]);
    for (node, k) in tree.chunks(5).zip(0..) {
        let row = words.len() as u32 / 5;
        let parent = if node[1] == NONE { NONE } else { rows[node[1] as usize] };
        rows.push(row);
        words.extend([1, parent, 0, 1, 0]);
        if !inner.contains(&k) {
            words.extend([3, row, string(k), 0, 0]);
        }
    }
    words
}

/// Lists in many elements and attributes, and values that are long but for their tokens.
fn list_texts() -> Vec<Slow> {
    let deep = "+ ".repeat(240);
    let text = || vec![b"a".to_vec(), "a ".repeat(8_000).into_bytes()];
    let elements = format!("element * | + $0 list {deep}value start $0");
    let elements = job_over(text(), &elements, true, leaf_texts(500, |_| 2));
    let pair = |k: u16| [b'a' + (k / 26) as u8, b'a' + (k % 26) as u8].to_vec();
    let apart = (0..508).map(|k| [b"a ".repeat(14), pair(k)].concat());
    let apart = [b"a".to_vec()].into_iter().chain(apart).collect();
    let lists = "element * | + $0 (| 1 124 list + value) start $0";
    let apart = job_over(apart, lists, true, leaf_texts(511, |k| 2 + k % 508));
    let locals: Vec<u32> = (3..66).collect();
    let attributes = format!("element * , + @ * list {deep}value | empty + $0 start $0");
    let names = (0..63).map(pair);
    let strings = text().into_iter().chain(names).collect();
    let attributes = job_over(strings, &attributes, true, sixteen_with(&locals));
    let blanks = |token: &str| vec![(" ".repeat(8_000) + "a").into_bytes(), token.repeat(4_000).into_bytes()];
    let equal = job_over(blanks("a "), "element * list + (| 1 250 value) start $0", true, one_text(2));
    let unequal = job_over(blanks("b "), "element * list + | (| 1 249 value) token start $0", false, one_text(2));
    vec![
        slow("list_elements", elements, true, 500, "492 elements with one text of 8,000 tokens, oneOrMore 240 deep"),
        slow("list_attributes", attributes, true, 16, "1,008 attributes with one value of 8,000 tokens, the same"),
        slow("list_strings", apart, false, 0, "502 elements, each with a text of its own, 124 lists"),
        slow("list_blanks", equal, true, 1, "250 values of 8,000 blanks and a letter, 4,000 tokens"),
        slow("list_blanks_other", unequal, true, 1, "the same, each token is another"),
    ]
}

// Two definitions with so many names each, all numbers distinct, and what refers to them.
fn two_definitions(content: &str, names: u32) -> Job {
    let last = 2 * names;
    let classes = format!("element (/ 1 {names} #:#) empty element (/ {} {last} #:#) empty", names + 1);
    job(last as u16 + 1, &format!("element 0:1 {content} {classes} start $0"), true, flat(&[], &[]))
}

fn schemas() -> Vec<Slow> {
    let text = vec![1, NONE, 0, 1, 0, 3, 0, 1, 0, 0];
    let excepts = job(2, &format!("element * {}data start $0", "data- ".repeat(504)), true, text);
    let refs = two_definitions("& (| 1 50 $1) (| 1 50 $2)", 73);
    let again = two_definitions("(| 1 32 & $1 $2)", 94);
    let attributes = "element 0:1 , @ (/ 1 125 #:#) text @ (/ 126 250 #:#) text start $0";
    let attributes = job(251, attributes, true, flat(&[], &[]));
    let many = job(167, "element 0:1 (, 1 83 @ / 0:# #:1 text) start $0", true, flat(&[], &[]));
    let any = "element 0:1 , + @ *- (/ 0 124 #:*) text + @ (/ 0 124 #:*) text start $0";
    let any = job(125, any, true, flat(&[], &[]));
    vec![
        slow("except_nested", excepts, true, 1, "data with excepts 504 deep"),
        slow("two_classes", attributes, false, 0, "two attributes of 125 names each in a group, all numbers distinct"),
        slow("two_classes_any", any, false, 0, "anyName except 125 namespaces beside the names of these"),
        slow("many_classes", many, false, 0, "group of 83 attributes of two names each"),
        slow("two_classes_refs", refs, false, 0, "an interleave of 50 refs each to two definitions of 73 names"),
        slow("interleaves_again", again, false, 0, "32 interleaves of the same two definitions of 94 names"),
    ]
}

pub fn slow_jobs() -> Vec<Slow> {
    let elements = [nested(), interleaved(), attributes(), all_definitions(), one_definition(), names()];
    let strings = [texts(), lists(), list_texts(), schemas()];
    elements.into_iter().chain(strings).flatten().chain([wide()]).collect()
}
