//! What calls take and give: tables, names, rows, pairs, counts.

/// A table of strings: string k runs from the end before its own, 0 for string 0, to its own.
#[derive(Clone, Copy, Debug, PartialEq, Eq)]
pub struct Strings<'a> {
    /// The bytes of all strings, one after another.
    pub bytes: &'a [u8],
    /// One end a string.
    pub ends: &'a [u32],
}

/// The tables of a schema and an instance, with the strings of both.
#[derive(Clone, Copy, Debug, PartialEq, Eq)]
pub struct Tables<'a> {
    /// The strings.
    pub strings: Strings<'a>,
    /// The schema, three words a row: kind, a, b.
    pub schema: &'a [u32],
    /// The instance, five words a row: kind, parent, a, b, c.
    pub instance: &'a [u32],
}

/// The tables of a job, owned.
#[derive(Clone, Debug, Default, PartialEq, Eq)]
pub struct Job {
    /// The bytes of all strings, one after another.
    pub bytes: Vec<u8>,
    /// One end a string.
    pub ends: Vec<u32>,
    /// The schema, three words a row.
    pub schema: Vec<u32>,
    /// The instance, five words a row.
    pub instance: Vec<u32>,
}

impl Job {
    /// The strings, borrowed.
    pub fn strings(&self) -> Strings<'_> {
        Strings { bytes: &self.bytes, ends: &self.ends }
    }

    /// All tables, borrowed.
    pub fn tables(&self) -> Tables<'_> {
        Tables { strings: self.strings(), schema: &self.schema, instance: &self.instance }
    }
}

/// A name: two numbers of strings. Namespace 0 is absent, and no class holds a name with local name 0.
#[derive(Clone, Copy, Debug, PartialEq, Eq, PartialOrd, Ord, Hash)]
pub struct Name {
    /// The namespace.
    pub namespace: u32,
    /// The local name.
    pub local: u32,
}

/// Whether a name class holds a name, and which row says so. Only excepts within the class asked for count.
#[derive(Clone, Copy, Debug, PartialEq, Eq, Hash)]
pub enum Membership {
    /// It holds the name.
    Yes {
        /// The smallest row of an anyName, an nsName or a name that lies in the class below no except and, taken with
        /// its own except, holds the name.
        row: u32,
    },
    /// It does not.
    No {
        /// The smallest except class that holds the name, under an anyName or an nsName of the name's namespace that
        /// lies in the class below no except; `None` where there is none.
        except: Option<u32>,
    },
}

/// Whether an instance is valid by a schema.
#[derive(Clone, Copy, Debug, PartialEq, Eq, Hash)]
pub enum Validity {
    /// The root matches the start.
    Valid,
    /// It does not.
    NotValid,
}

/// An element and a definition that it matches.
#[derive(Clone, Copy, Debug, PartialEq, Eq, PartialOrd, Ord, Hash)]
pub struct Pair {
    /// The row of the element in the instance.
    pub element: u32,
    /// The row of the definition in the schema.
    pub definition: u32,
}

/// A match list, owned.
#[derive(Clone, Debug, PartialEq, Eq)]
pub struct MatchList {
    /// Every pair of an element and a definition that it matches, by rising element rows and then by rising definition
    /// rows.
    pub pairs: Vec<Pair>,
    /// Whether the instance is valid.
    pub validity: Validity,
}

/// How much a job file holds.
#[derive(Clone, Copy, Debug, PartialEq, Eq)]
pub struct Counts {
    /// Bytes of strings.
    pub bytes: usize,
    /// Strings.
    pub strings: usize,
    /// Rows of the schema.
    pub schema_rows: usize,
    /// Rows of the instance.
    pub instance_rows: usize,
}
