//! Refusals: a code, and a place in the table or file that it speaks of.

use std::error::Error;
use std::fmt;

/// Why a call refuses its input, in the order in which codes are tried; `read_job` tries the last before the one above
/// it.
#[derive(Clone, Copy, Debug, PartialEq, Eq, PartialOrd, Ord, Hash)]
#[repr(u32)]
pub enum Code {
    /// The strings break their rule.
    Strings = 1,
    /// Schema rows break their rule.
    Schema = 2,
    /// Empty or notAllowed is out of place.
    Places = 3,
    /// AnyName or nsName stands where an except has no place for it.
    NameClasses = 4,
    /// A pattern stands on a prohibited path.
    Paths = 5,
    /// String sequences: content types that do not go together.
    Sequences = 6,
    /// A restriction on attributes is broken.
    Attributes = 7,
    /// A restriction on interleave is broken.
    Interleaves = 8,
    /// Instance rows break their rule.
    Instance = 9,
    /// An element has too many attributes or children.
    Width = 10,
    /// The row that a question is about is no name class.
    NotAClass = 11,
    /// An output is too short.
    Output = 12,
    /// The text of a job file is wrong at a line.
    JobFile = 13,
}

impl Code {
    /// All codes, from 1 on.
    pub const ALL: [Code; 13] = [
        Code::Strings,
        Code::Schema,
        Code::Places,
        Code::NameClasses,
        Code::Paths,
        Code::Sequences,
        Code::Attributes,
        Code::Interleaves,
        Code::Instance,
        Code::Width,
        Code::NotAClass,
        Code::Output,
        Code::JobFile,
    ];

    /// What the code says.
    pub fn meaning(self) -> &'static str {
        match self {
            Code::Strings => "the strings break their rule",
            Code::Schema => "schema rows break their rule",
            Code::Places => "empty or notAllowed is out of place",
            Code::NameClasses => "a name class may not stand in an except",
            Code::Paths => "a prohibited path",
            Code::Sequences => "content types that do not go together",
            Code::Attributes => "a restriction on attributes is broken",
            Code::Interleaves => "a restriction on interleave is broken",
            Code::Instance => "instance rows break their rule",
            Code::Width => "an element has too many attributes or children",
            Code::NotAClass => "the row is not a name class",
            Code::Output => "an output is too short",
            Code::JobFile => "the job file is wrong",
        }
    }
}

/// A refusal: the code, and the smallest place at which it holds. The place is a string, a row or a line by the code, 0
/// where the fault is of a whole table.
#[derive(Clone, Copy, Debug, PartialEq, Eq, Hash)]
pub struct Refusal {
    /// Why.
    pub code: Code,
    /// Where.
    pub place: u32,
}

impl fmt::Display for Refusal {
    fn fmt(&self, f: &mut fmt::Formatter<'_>) -> fmt::Result {
        write!(f, "refused by code {} at {}: {}", self.code as u32, self.place, self.code.meaning())
    }
}

impl Error for Refusal {}

/// What a number that the library returned says: the refusal, or the answer.
pub(crate) fn answer(returned: u64) -> Result<u32, Refusal> {
    let (code, low) = ((returned >> 32) as usize, returned as u32);
    match code.checked_sub(1) {
        None => Ok(low),
        Some(k) => Err(Refusal { code: Code::ALL[k], place: low }),
    }
}
