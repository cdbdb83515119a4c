// The calls of the library in outputs that are full of other values before: codes, places and every output to its end,
// at the lengths where an output is too short, just long enough and longer. Compared with literals for the first job of
// tests/jobs and a few others, and with the reference for all of them and for random tables, most of which no job file
// can hold. Each single comparison is one test. The last line printed is `N passed, M failed`. Run at the top of the
// repository.

#[path = "support/calls.rs"]
mod calls;
#[path = "support/every_call.rs"]
mod every_call;
#[allow(dead_code)]
#[path = "support/job_files.rs"]
mod job_files;
#[allow(dead_code)]
#[path = "reference/job_maker.rs"]
mod job_maker;
#[allow(dead_code)]
#[path = "reference/schema_maker.rs"]
mod maker;
#[path = "support/random_tables.rs"]
mod random_tables;
#[allow(dead_code)]
#[path = "reference/check.rs"]
mod reference;
#[path = "support/tally.rs"]
mod tally;
#[allow(dead_code)]
#[path = "support/wrong_jobs.rs"]
mod wrong_jobs;

use every_call::EveryCall;
use job_files::job_files;
use maker::{over, read, Rng};
use random_tables::random_tables;
use reference::calls::input;
use reference::{job, Answer, Input, NONE};
use std::cell::Cell;
use std::fs;
use tally::Tally;

const SHORT: Answer = (12, 0);

// Literals.

/// The job of `FORMAT, "Job file"`.
fn first_case(y: &mut Tally) {
    let file = fs::read("tests/jobs/p1.job").unwrap_or_default();
    let room = [10, 6, 45, 25, 4];
    let (answer, (bytes, ends, schema, instance, counts)) = calls::read_job(&file, room);
    y.same("the counts", (answer, counts), ((0, 0), vec![10, 6, 15, 5]));
    let t = Input { bytes, ends, schema, instance };
    y.same("the schema passes", calls::schema_verdict(&t), (0, 0));
    y.same("a name in a class", calls::name_in_class(&t, 10, (0, 3), 2), ((0, 1), vec![10, 0]));
    y.same("a name not in it", calls::name_in_class(&t, 10, (0, 1), 2), ((0, 0), vec![NONE, 0]));
    y.same("a row into nothing", calls::name_in_class(&t, 10, (0, 3), 0), (SHORT, vec![]));
    y.same("valid", calls::verdict(&t, 3), ((0, 1), vec![0; 3]));
    y.same("the strings", calls::string_text(&t, 1, 4), ((0, 3), b"art\0".to_vec()));
    let list = [0, 6, 3, 9, 3, 12, 0, 0];
    for words in 0..=8 {
        let wanted = if words < 6 { (SHORT, vec![0; words]) } else { ((0, 7), list[..words].to_vec()) };
        let (answer, (list, work)) = calls::match_list(&t, words, 5);
        y.same(format_args!("{words} words for the list"), (answer, list), wanted);
        y.same("the work buffer", work, vec![0; 5]);
    }
    y.same("the file", calls::write_job(&t, file.len()), ((0, file.len() as u64), file.clone()));
    let text = "valid=yes\npairs=3\npair=0,6\npair=3,9\npair=3,12\n";
    y.same("the report", calls::report(&file, text.len()), ((0, text.len() as u64), text.as_bytes().to_vec()));
    y.same("the report, one byte less", calls::report(&file, text.len() - 1), (SHORT, vec![0; text.len() - 1]));
}

/// A root whose longest attribute value or text has five bytes, by a schema with a list or with data in its place: 18
/// bytes of work with the list, and none without.
fn work_buffer(y: &mut Tally) {
    for (pattern, needed) in [("list + token", 18), ("token", 0)] {
        let (schema, _) = read(&format!("element 0:1 , @ 0:1 {pattern} {pattern} start $0"));
        for (attribute, text) in [(b"a b c", &b"ab"[..]), (b"ab cd", b"a")] {
            for (value, content) in [(&attribute[..], text), (text, attribute)] {
                let mut t = over(1, schema.clone());
                for string in [b"name", value, content] {
                    t.bytes.extend(string);
                    t.ends.push(t.bytes.len() as u32);
                }
                t.instance = vec![1, NONE, 0, 1, 0, 2, 0, 0, 1, 2, 3, 0, 3, 0, 0];
                in_work_buffers(y, &t, needed);
            }
        }
    }
}

/// A valid job of one pair, in work buffers of all lengths up to some.
fn in_work_buffers(y: &mut Tally, t: &Input, needed: usize) {
    for work in 0..24 {
        let short = work < needed;
        let verdict = if short { SHORT } else { (0, 1) };
        y.same(format_args!("verdict, {work} bytes of work, {t:?}"), calls::verdict(t, work), (verdict, vec![0; work]));
        for list in 0..4 {
            let fits = !short && list >= 2;
            let answer = if fits { (0, 3) } else { SHORT };
            // After the one definition stand start and the ref below it.
            let definition = t.schema.len() as u32 / 3 - 3;
            let words = if fits { [0, definition, 0, 0] } else { [0; 4] }[..list].to_vec();
            let what = format_args!("{list} words and {work} bytes of work, {t:?}");
            y.same(what, calls::match_list(t, list, work), (answer, (words, vec![0; work])));
        }
    }
}

/// No table at all, and outputs of no length.
fn nothing(y: &mut Tally) {
    let none = Input::default();
    y.same("schema_verdict", calls::schema_verdict(&none), (1, 0));
    y.same("name_in_class", calls::name_in_class(&none, 0, (0, 1), 0), ((1, 0), vec![]));
    y.same("least_common_name", calls::least_common_name(&none, (0, 0), 0), ((1, 0), vec![]));
    y.same("verdict", calls::verdict(&none, 0), ((1, 0), vec![]));
    y.same("match_list", calls::match_list(&none, 0, 0), ((1, 0), (vec![], vec![])));
    y.same("string_text", calls::string_text(&none, 0, 0), ((0, 0), vec![]));
    y.same("read_job", calls::read_job(b"", [0; 5]).0, (13, 1));
    y.same("write_job", calls::write_job(&none, 0), ((1, 0), vec![]));
    y.same("report", calls::report(b"", 0), (SHORT, vec![]));
    y.same("report", calls::report(b"", 13), ((0, 13), b"refusal=13,1\n".to_vec()));
}

// All jobs, and random tables.

/// The codes that each call can give on tables, and on the files of those that have one.
const CODES: [(&str, &[u64]); 9] = [
    ("schema_verdict", &[0, 1, 2, 3, 4, 5, 6, 7, 8]),
    ("name_in_class", &[0, 1, 2, 3, 4, 5, 6, 7, 8, 11, 12]),
    ("least_common_name", &[0, 1, 2, 3, 4, 5, 6, 7, 8, 11, 12]),
    ("verdict", &[0, 1, 2, 3, 4, 5, 6, 7, 8, 9, 10, 12]),
    ("match_list", &[0, 1, 2, 3, 4, 5, 6, 7, 8, 9, 10, 12]),
    ("string_text", &[0, 12]),
    ("read_job", &[0, 12, 13]),
    ("write_job", &[0, 1, 2, 9, 12]),
    ("report", &[0, 12]),
];

fn every_call(y: &mut Tally, r: &Rng) {
    let jobs = job_files(y);
    let mut calls = EveryCall::new(y, r);
    for job in jobs {
        match job::read(&job.file) {
            Ok(job) => calls.tables(&input(&job)),
            Err(_) => {
                calls.read(&job.file, [9, 9, 9, 9, 4]);
                calls.report(&job.file);
            }
        }
    }
    random_tables(r, 1_200).for_each(|t| calls.tables(&t));
    calls.codes(50, &CODES);
}

fn main() {
    let mut y = Tally::default();
    first_case(&mut y);
    work_buffer(&mut y);
    nothing(&mut y);
    every_call(&mut y, &Rng(Cell::new(0x9E37_79B9_7F4A_7C15)));
    y.end();
}
