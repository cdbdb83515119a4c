//! The numbers of the tables.

/// The word for no except in a schema row, no parent in an instance row, no row in an answer; `-` in a job file.
pub const NONE: u32 = u32::MAX;

/// The kinds of schema rows. A field that is not named is 0.
pub mod kind {
    /// Empty.
    pub const EMPTY: u32 = 1;
    /// NotAllowed.
    pub const NOT_ALLOWED: u32 = 2;
    /// Text.
    pub const TEXT: u32 = 3;
    /// Data: a datatype, and the pattern of its except or [`NONE`](crate::NONE).
    pub const DATA: u32 = 4;
    /// Value: a datatype and a string.
    pub const VALUE: u32 = 5;
    /// List: a pattern.
    pub const LIST: u32 = 6;
    /// Attribute: a name class and a pattern.
    pub const ATTRIBUTE: u32 = 7;
    /// Ref: the row of an element.
    pub const REF: u32 = 8;
    /// OneOrMore: a pattern.
    pub const ONE_OR_MORE: u32 = 9;
    /// Choice: two patterns.
    pub const CHOICE: u32 = 10;
    /// Group: two patterns.
    pub const GROUP: u32 = 11;
    /// Interleave: two patterns.
    pub const INTERLEAVE: u32 = 12;
    /// AnyName: the class of its except or [`NONE`](crate::NONE).
    pub const ANY_NAME: u32 = 16;
    /// NsName: a namespace, and the class of its except or [`NONE`](crate::NONE).
    pub const NS_NAME: u32 = 17;
    /// Name: a namespace and a local name, which is not 0.
    pub const NAME: u32 = 18;
    /// Choice of name classes: two of them.
    pub const NAME_CHOICE: u32 = 19;
    /// Element, a definition: a name class and a pattern.
    pub const ELEMENT: u32 = 20;
    /// Start, the last row: a pattern.
    pub const START: u32 = 21;
}

/// The datatypes of data and value.
pub mod datatype {
    /// Equality of bytes.
    pub const STRING: u32 = 0;
    /// Equality once whitespace is normalized.
    pub const TOKEN: u32 = 1;
}

/// The kinds of instance rows. A field that is not named is 0.
pub mod node {
    /// An element: namespace and local name.
    pub const ELEMENT: u32 = 1;
    /// An attribute: namespace, local name and string.
    pub const ATTRIBUTE: u32 = 2;
    /// A text: a string.
    pub const TEXT: u32 = 3;
}

/// What tables and files may have, and what suffices for outputs.
pub mod limit {
    /// Strings of a table.
    pub const STRINGS: usize = 512;
    /// Bytes of all strings.
    pub const BYTES: usize = 16_384;
    /// Rows of a schema.
    pub const SCHEMA_ROWS: usize = 512;
    /// Rows of an instance.
    pub const INSTANCE_ROWS: usize = 1_024;
    /// Words of a schema row.
    pub const SCHEMA_WORDS: usize = 3;
    /// Words of an instance row.
    pub const INSTANCE_WORDS: usize = 5;
    /// Attributes of an element, and children of an element.
    pub const WIDTH: usize = 63;
    /// Bytes of a job file.
    pub const FILE: usize = 65_536;
    /// Bytes that suffice as work buffer for all tables.
    pub const WORK: usize = 49_155;
    /// Bytes that suffice for the report of every file.
    pub const REPORT: usize = 131_072;
}
