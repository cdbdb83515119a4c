//! Safe calls of Farshavan, a verified RELAX NG validator (ISO/IEC 19757-2).
//!
//! A schema in simple form and an instance are tables of words over one table of strings; `docs/FORMAT.md` of the
//! repository says what they hold and when a call refuses them. Any tables may be lent: what breaks a rule is refused
//! with a [`Code`] and a place. The functions here make their outputs themselves; those of [`lent`] write into slices
//! of the caller and allocate nothing.
//!
//! Nothing is kept between calls, so that calls from several threads need no lock. A stack of 2 MiB, which the standard
//! library gives to a thread, is enough for each: that is measured, not proved.
//!
//! ```
//! use farshavan::{kind, match_list, node, Pair, Refusal, Strings, Tables, Validity, NONE};
//!
//! # fn main() -> Result<(), Refusal> {
//! // The strings are "", "a" and "x".
//! let strings = Strings { bytes: b"ax", ends: &[0, 1, 2] };
//! // start = a, a = element a { text }
//! let schema = [
//!     [kind::NAME, 0, 1],
//!     [kind::TEXT, 0, 0],
//!     [kind::ELEMENT, 0, 1],
//!     [kind::REF, 2, 0],
//!     [kind::START, 3, 0],
//! ];
//! // <a>x</a>
//! let instance = [[node::ELEMENT, NONE, 0, 1, 0], [node::TEXT, 0, 2, 0, 0]];
//! let tables = Tables { strings, schema: &schema.concat(), instance: &instance.concat() };
//! let found = match_list(tables)?;
//! assert_eq!(found.validity, Validity::Valid);
//! assert_eq!(found.pairs, [Pair { element: 0, definition: 2 }]);
//! # Ok(())
//! # }
//! ```

#![deny(missing_docs)]

mod constants;
pub mod lent;
mod library;
mod owned;
mod refusal;
mod tables;

pub use constants::{datatype, kind, limit, node, NONE};
pub use lent::schema_verdict;
pub use owned::{least_common_name, match_list, name_in_class, read_job, report, string_text, verdict, write_job};
pub use refusal::{Code, Refusal};
pub use tables::{Counts, Job, MatchList, Membership, Name, Pair, Strings, Tables, Validity};
