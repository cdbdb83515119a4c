//! docs/CLASHES.md: its rows are those of the job that it names, its table has all made names in order with what the
//! library says of each, and its answer is the library's.

use super::calls;
use super::least_names::made_names;
use super::maker::{rows_of, Row};
use super::reference::{job, Input, NONE};
use super::tally::Tally;
use std::fs;

const PAGE: &str = "docs/CLASHES.md";
const JOB: &str = "tests/jobs/attribute_classes_clash.job";

fn number(word: &str) -> u32 {
    if word == "-" {
        NONE
    } else {
        word.parse().expect("a number")
    }
}

fn row(text: &str) -> Row {
    let words: Vec<u32> = text.trim_start_matches("row=").split(',').map(number).collect();
    [words[0], words[1], words[2]]
}

/// A cell of the table, as `no: 5`: the answer and the row.
fn said(cell: &str) -> (u64, u32) {
    let (answer, row) = cell.split_once(": ").expect("an answer and a row");
    (u64::from(answer == "yes"), number(row))
}

pub fn page(y: &mut Tally) {
    let text = fs::read_to_string(PAGE).unwrap_or_default();
    let job = job::read(&fs::read(JOB).unwrap_or_default()).expect("a job");
    let mut s = Input { bytes: job.bytes(), ends: job.ends(), schema: job.schema, instance: vec![] };
    y.same(format_args!("{PAGE} names {JOB}"), text.contains(JOB), true);
    y.same("refused with 7 at row 10", calls::schema_verdict(&s), (7, 10));

    let rows = rows_of(&s.schema);
    for line in text.lines().filter(|line| line.starts_with("row=")) {
        let words: Vec<&str> = line.split_whitespace().collect();
        y.same(format_args!("{PAGE}, {line}"), row(words[0]), rows[number(words[1]) as usize]);
    }
    let choice = text.split('`').rfind(|code| code.starts_with("row=")).expect("a row in the text");
    s.schema[30..33].copy_from_slice(&row(choice));
    y.same("passes with the choice", calls::schema_verdict(&s), (0, 0));

    let mut table = text.lines().filter_map(|line| line.strip_prefix("| ")?.strip_suffix(" |"));
    let head: Vec<&str> = table.next().expect("a table").split(" | ").collect();
    let class = |k: usize| number(head[k].trim_start_matches("class "));
    let mut names = vec![];
    for cells in table.map(|line| line.split(" | ").collect::<Vec<&str>>()) {
        let (n, l) = cells[0].split_once(',').expect("a name");
        names.push((number(n), number(l)));
        for k in [1, 2] {
            let (answer, row) = said(cells[k]);
            let got = calls::name_in_class(&s, class(k), names[names.len() - 1], 1);
            y.same(format_args!("{PAGE}, {cells:?}"), got, ((0, answer), vec![row]));
        }
    }
    y.same("the made names", &names, &made_names(&rows, (class(1), class(2))));
    let (_, answer) = text.split_once("the least common name, ").expect("an answer");
    let (n, l) = answer.split_once(". ").expect("a sentence").0.split_once(',').expect("a name");
    let got = calls::least_common_name(&s, (class(1), class(2)), 2);
    y.same("the least common name", got, ((0, 1), vec![number(n), number(l)]));
}
