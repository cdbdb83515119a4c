//! The calls that make their own outputs, on jobs of the repository.

use farshavan::lent::{self, JobOutputs};
use farshavan::*;
use std::thread;

const FIRST: &[u8] = include_bytes!("../../../tests/jobs/p1.job");
const FIRST_OUTPUT: &str = include_str!("../../../tests/jobs/p1.out");
const MANY_PAIRS: &[u8] = include_bytes!("../../../tests/jobs/pairs_8193_refused.job");
const LIST: &[u8] = include_bytes!("../../../tests/jobs/list_choice_first.job");

fn first() -> Job {
    read_job(FIRST).expect("the first job reads")
}

fn refused<T>(code: Code, place: u32) -> Result<T, Refusal> {
    Err(Refusal { code, place })
}

#[test]
fn the_first_job_matches() {
    let job = first();
    let pairs = [(0, 6), (3, 9), (3, 12)].map(|(element, definition)| Pair { element, definition });
    assert_eq!(match_list(job.tables()), Ok(MatchList { pairs: pairs.to_vec(), validity: Validity::Valid }));
    assert_eq!(verdict(job.tables()), Ok(Validity::Valid));
    assert_eq!(report(FIRST), FIRST_OUTPUT);
}

#[test]
fn an_instance_that_is_not_valid() {
    let mut job = first();
    job.instance[3] = 3;
    assert_eq!(verdict(job.tables()), Ok(Validity::NotValid));
    assert_eq!(match_list(job.tables()).map(|found| found.validity), Ok(Validity::NotValid));
}

#[test]
fn a_job_is_written_as_it_was_read() {
    assert_eq!(write_job(first().tables()), Ok(FIRST.to_vec()));
}

#[test]
fn texts_of_strings() {
    let job = first();
    let texts = [0, 1, 2, 5, 6, NONE].map(|string| string_text(job.strings(), string));
    assert_eq!(texts, [&b""[..], b"art", b"id", b" ", b"", b""]);
    assert_eq!(string_text(Strings { bytes: b"ab", ends: &[0, 1] }, 1), b"");
}

#[test]
fn names_and_classes() {
    let job = first();
    let name = |local: u32| Name { namespace: 0, local };
    assert_eq!(schema_verdict(job.strings(), &job.schema), Ok(()));
    assert_eq!(name_in_class(job.strings(), &job.schema, 10, name(3)), Ok(Membership::Yes { row: 10 }));
    assert_eq!(name_in_class(job.strings(), &job.schema, 10, name(2)), Ok(Membership::No { except: None }));
    assert_eq!(name_in_class(job.strings(), &job.schema, 2, name(1)), refused(Code::NotAClass, 2));
    assert_eq!(least_common_name(job.strings(), &job.schema, 7, 10), Ok(Some(name(3))));
    assert_eq!(least_common_name(job.strings(), &job.schema, 0, 7), Ok(None));
    assert_eq!(least_common_name(job.strings(), &job.schema, 0, 2), refused(Code::NotAClass, 2));
}

/// Row 3 is the choice of the name b, at row 2, and of any name but a, at row 1.
#[test]
fn the_row_that_says_whether_a_name_is_in_a_class() {
    let strings = Strings { bytes: b"ab", ends: &[0, 1, 2] };
    let class = [[kind::NAME, 0, 1], [kind::ANY_NAME, 0, 0], [kind::NAME, 0, 2], [kind::NAME_CHOICE, 2, 1]];
    let rest = [[kind::NOT_ALLOWED, 0, 0], [kind::ELEMENT, 3, 4], [kind::NOT_ALLOWED, 0, 0], [kind::START, 6, 0]];
    let schema = [class.concat(), rest.concat()].concat();
    let name = |local: u32| Name { namespace: 0, local };
    let asked = |class: u32, local: u32| name_in_class(strings, &schema, class, name(local));
    assert_eq!(asked(3, 2), Ok(Membership::Yes { row: 1 }));
    assert_eq!(asked(3, 1), Ok(Membership::No { except: Some(0) }));
    assert_eq!(asked(2, 1), Ok(Membership::No { except: None }));
    let mut row = [7; 3];
    assert_eq!(lent::name_in_class(strings, &schema, 3, name(2), &mut row), Ok(Membership::Yes { row: 1 }));
    assert_eq!(row, [1, 0, 0]);
    assert_eq!(lent::name_in_class(strings, &schema, 3, name(0), &mut row), Ok(Membership::No { except: None }));
    assert_eq!(row, [NONE, 0, 0]);
    assert_eq!(lent::name_in_class(strings, &schema, 4, name(2), &mut row), refused(Code::NotAClass, 4));
    assert_eq!(row, [0; 3]);
    assert_eq!(lent::name_in_class(strings, &schema, 3, name(2), &mut []), refused(Code::Output, 0));
}

#[test]
fn refusals() {
    let mut job = first();
    job.instance[0] = 9;
    assert_eq!(verdict(job.tables()), refused(Code::Instance, 0));
    job.schema[0] = 0;
    assert_eq!(match_list(job.tables()), refused(Code::Schema, 0));
    job.ends[5] = 0;
    assert_eq!(write_job(job.tables()), refused(Code::Strings, 5));
    assert_eq!(read_job(&FIRST[1..]), refused(Code::JobFile, 1));
    let refusal = Refusal { code: Code::JobFile, place: 1 };
    assert_eq!(refusal.to_string(), "refused by code 13 at 1: the job file is wrong");
}

#[test]
fn codes_by_number() {
    assert!(Code::ALL.iter().zip(1..).all(|(&code, number)| code as u32 == number));
}

#[test]
fn more_pairs_than_the_program_lends_words_for() {
    let job = read_job(MANY_PAIRS).expect("the job reads");
    assert_eq!(report(MANY_PAIRS), "refusal=12,0\n");
    assert_eq!(match_list(job.tables()).map(|found| found.pairs.len()), Ok(8_193));
}

#[test]
fn work_for_lists_is_lent() {
    let job = read_job(LIST).expect("the job reads");
    assert_eq!(verdict(job.tables()), Ok(Validity::Valid));
    assert_eq!(lent::verdict(job.tables(), &mut [7; 5]), refused(Code::Output, 0));
}

#[test]
fn lent_outputs_are_zero_after_a_refusal() {
    let (mut list, mut work) = ([7; 5], [7; 4]);
    assert_eq!(lent::match_list(first().tables(), &mut list, &mut work), refused(Code::Output, 0));
    assert_eq!((list, work), ([0; 5], [0; 4]));
    let (mut bytes, mut ends, mut schema, mut instance, mut counts) = ([7; 10], [7; 6], [7; 45], [7; 25], [7; 3]);
    let outputs = JobOutputs {
        bytes: &mut bytes,
        ends: &mut ends,
        schema: &mut schema,
        instance: &mut instance,
        counts: &mut counts,
    };
    assert_eq!(lent::read_job(FIRST, outputs), refused(Code::Output, 0));
    assert_eq!((bytes, ends, schema, instance, counts), ([0; 10], [0; 6], [0; 45], [0; 25], [0; 3]));
}

#[test]
fn several_threads_at_once() {
    let answers = [0; 8].map(|_| thread::spawn(|| report(FIRST))).map(|thread| thread.join().expect("no panic"));
    assert!(answers.iter().all(|answer| answer == FIRST_OUTPUT));
}
