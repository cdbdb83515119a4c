//! The calls as C has them: every output is lent, nothing is allocated.
//!
//! What an output held before has no effect. After a refusal every output is zero throughout; otherwise it is zero past
//! what is used. An output too short for what it is to hold is refused by [`Code::Output`](crate::Code::Output) at 0.

use crate::library;
use crate::refusal::answer;
use crate::{Counts, Membership, Name, Pair, Refusal, Strings, Tables, Validity, NONE};

/// Whether the schema keeps the simple form and its restrictions: codes 1 to 8.
pub fn schema_verdict(strings: Strings, schema: &[u32]) -> Result<(), Refusal> {
    answer(library::schema_verdict(strings, schema)).map(|_| ())
}

/// Whether the name class at a row holds a name, and which row says so. That row is in the first word of `row`, too,
/// and [`NONE`] is there where no row says so. Codes 1 to 8, 11 where the row asked for is no name class, and 12 where
/// no word is lent.
pub fn name_in_class(
    strings: Strings,
    schema: &[u32],
    class: u32,
    name: Name,
    row: &mut [u32],
) -> Result<Membership, Refusal> {
    let yes = answer(library::name_in_class(strings, schema, class, name, row))?;
    Ok(match (yes, row[0]) {
        (1, row) => Membership::Yes { row },
        (_, except) => Membership::No { except: (except != NONE).then_some(except) },
    })
}

/// The least name, by namespace and then by local name, that the name classes at two rows have in common. Its two words
/// are in `name`, too. Codes 1 to 8, 11 at the first row that is no name class, and 12 where there is a name and fewer
/// than two words are lent.
pub fn least_common_name(
    strings: Strings,
    schema: &[u32],
    first: u32,
    second: u32,
    name: &mut [u32],
) -> Result<Option<Name>, Refusal> {
    let found = answer(library::least_common_name(strings, schema, first, second, name))?;
    Ok((found == 1).then(|| Name { namespace: name[0], local: name[1] }))
}

/// Whether the instance is valid: codes 1 to 10, and 12 for the work buffer.
///
/// Where the schema has a list row, `work` has three bytes more than three times the length of the longest attribute
/// value or text of the instance; otherwise any length will do. [`limit::WORK`](crate::limit::WORK) bytes always
/// suffice. It is left zero.
pub fn verdict(tables: Tables, work: &mut [u8]) -> Result<Validity, Refusal> {
    answer(library::verdict(tables, work)).map(validity)
}

/// The match list, in `list`: codes 1 to 10, and 12 where the pairs have more words than it, or for the work buffer,
/// which is as for [`verdict`].
pub fn match_list<'l>(tables: Tables, list: &'l mut [u32], work: &mut [u8]) -> Result<Matches<'l>, Refusal> {
    let found = answer(library::match_list(tables, list, work))?;
    Ok(Matches { words: &list[..(found & !1) as usize], validity: validity(found & 1) })
}

/// The length of the text of a string, which is copied to `text`: 0 also where the strings break their rule or have no
/// such string. Code 12 alone.
pub fn string_text(strings: Strings, string: u32, text: &mut [u8]) -> Result<usize, Refusal> {
    answer(library::string_text(strings, string, text)).map(|length| length as usize)
}

/// The tables of a job file: 13 at the first wrong line, then 12.
pub fn read_job(file: &[u8], outputs: JobOutputs) -> Result<Counts, Refusal> {
    let JobOutputs { bytes, ends, schema, instance, counts } = outputs;
    answer(library::read_job(file, bytes, ends, schema, instance, counts))?;
    let count = |k: usize| counts[k] as usize;
    Ok(Counts { bytes: count(0), strings: count(1), schema_rows: count(2), instance_rows: count(3) })
}

/// The length of the job file of tables, which is written to `file`: code 1 with its place; 2 and 9 at 0 for too many
/// rows or words that are no whole rows; then 12, also for a text of more than
/// [`limit::FILE`](crate::limit::FILE) bytes.
pub fn write_job(tables: Tables, file: &mut [u8]) -> Result<usize, Refusal> {
    answer(library::write_job(tables, file)).map(|length| length as usize)
}

/// The length of what the program `check` prints for a job file, which is written to `text`: code 12 alone.
/// [`limit::REPORT`](crate::limit::REPORT) bytes suffice for every file.
pub fn report(file: &[u8], text: &mut [u8]) -> Result<usize, Refusal> {
    answer(library::report(file, text)).map(|length| length as usize)
}

fn validity(answer: u32) -> Validity {
    match answer {
        1 => Validity::Valid,
        _ => Validity::NotValid,
    }
}

/// A match list that stands in a lent list.
#[derive(Clone, Copy, Debug, PartialEq, Eq)]
pub struct Matches<'l> {
    words: &'l [u32],
    validity: Validity,
}

impl<'l> Matches<'l> {
    /// Whether the instance is valid.
    pub fn validity(&self) -> Validity {
        self.validity
    }

    /// The words of the list that are used, two a pair.
    pub fn words(&self) -> &'l [u32] {
        self.words
    }

    /// The pairs, by rising element rows and then by rising definition rows.
    pub fn pairs(&self) -> impl ExactSizeIterator<Item = Pair> + 'l {
        self.words.chunks_exact(2).map(|pair| Pair { element: pair[0], definition: pair[1] })
    }
}

/// The outputs of [`read_job`]: a table each, and four words for the counts. [`limit`](crate::limit) has the lengths
/// that suffice for every file.
#[derive(Debug)]
pub struct JobOutputs<'o> {
    /// The bytes of the strings.
    pub bytes: &'o mut [u8],
    /// One end a string.
    pub ends: &'o mut [u32],
    /// Three words a row.
    pub schema: &'o mut [u32],
    /// Five words a row.
    pub instance: &'o mut [u32],
    /// The numbers of bytes, strings, schema rows and instance rows.
    pub counts: &'o mut [u32],
}
