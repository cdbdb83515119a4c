//! The calls with outputs that are made here and are long enough.

use crate::lent::{self, JobOutputs};
use crate::{kind, limit, node, Job, MatchList, Membership, Name, Refusal, Strings, Tables, Validity};

/// Whether the name class at a row holds a name, and which row says so: codes 1 to 8, and 11 where the row asked for is
/// no name class.
pub fn name_in_class(strings: Strings, schema: &[u32], class: u32, name: Name) -> Result<Membership, Refusal> {
    lent::name_in_class(strings, schema, class, name, &mut [0])
}

/// The least name, by namespace and then by local name, that the name classes at two rows have in common: codes 1 to 8,
/// and 11 at the first row that is no name class.
pub fn least_common_name(strings: Strings, schema: &[u32], first: u32, second: u32) -> Result<Option<Name>, Refusal> {
    lent::least_common_name(strings, schema, first, second, &mut [0; 2])
}

/// Whether the instance is valid: codes 1 to 10.
pub fn verdict(tables: Tables) -> Result<Validity, Refusal> {
    lent::verdict(tables, &mut vec![0; limit::WORK])
}

/// Every pair of an element and a definition that it matches, and whether the instance is valid: codes 1 to 10.
pub fn match_list(tables: Tables) -> Result<MatchList, Refusal> {
    let (mut list, mut work) = (vec![0; 2 * most_pairs(tables)], vec![0; limit::WORK]);
    let matches = lent::match_list(tables, &mut list, &mut work)?;
    Ok(MatchList { pairs: matches.pairs().collect(), validity: matches.validity() })
}

/// The elements times the definitions, of tables within their limits.
fn most_pairs(tables: Tables) -> usize {
    let (nodes, rows) = (tables.instance.chunks(limit::INSTANCE_WORDS), tables.schema.chunks(limit::SCHEMA_WORDS));
    let elements = nodes.take(limit::INSTANCE_ROWS).filter(|row| row[0] == node::ELEMENT).count();
    let definitions = rows.take(limit::SCHEMA_ROWS).filter(|row| row[0] == kind::ELEMENT).count();
    elements * definitions
}

/// The text of a string: nothing where the strings break their rule or have no such string.
pub fn string_text(strings: Strings, string: u32) -> Vec<u8> {
    let mut text = vec![0; strings.bytes.len()];
    let length = lent::string_text(strings, string, &mut text).expect("no text is longer than all bytes");
    text.truncate(length);
    text
}

/// The tables of a job file, which are not judged: 13 at the first wrong line.
pub fn read_job(file: &[u8]) -> Result<Job, Refusal> {
    let mut job = Job {
        bytes: vec![0; limit::BYTES],
        ends: vec![0; limit::STRINGS],
        schema: vec![0; limit::SCHEMA_ROWS * limit::SCHEMA_WORDS],
        instance: vec![0; limit::INSTANCE_ROWS * limit::INSTANCE_WORDS],
    };
    let outputs = JobOutputs {
        bytes: &mut job.bytes,
        ends: &mut job.ends,
        schema: &mut job.schema,
        instance: &mut job.instance,
        counts: &mut [0; 4],
    };
    let counts = lent::read_job(file, outputs)?;
    job.bytes.truncate(counts.bytes);
    job.ends.truncate(counts.strings);
    job.schema.truncate(counts.schema_rows * limit::SCHEMA_WORDS);
    job.instance.truncate(counts.instance_rows * limit::INSTANCE_WORDS);
    Ok(job)
}

/// The job file of tables: code 1 with its place; 2 and 9 at 0 for too many rows or words that are no whole rows; 12
/// for a text of more than [`limit::FILE`] bytes.
pub fn write_job(tables: Tables) -> Result<Vec<u8>, Refusal> {
    let mut file = vec![0; limit::FILE];
    let length = lent::write_job(tables, &mut file)?;
    file.truncate(length);
    Ok(file)
}

/// What the program `check` prints for a job file. A refusal of the job is a line of it.
pub fn report(file: &[u8]) -> String {
    let mut text = vec![0; limit::REPORT];
    let length = lent::report(file, &mut text).expect("the report of every file fits");
    text.truncate(length);
    String::from_utf8(text).expect("a report is ASCII")
}
