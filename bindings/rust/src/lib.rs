//! The symbols of the modules of a graph, by symq's proved library.
//!
//! ```
//! let graph = br#"{"modules":[{"specifier":"file:///a.ts","kind":"external"}]}"#;
//! assert_eq!(symq::answer(graph, b"[\"module\",\"file:///a.ts\"]\n")?, b"null\n");
//! # Ok::<(), symq::Stop>(())
//! ```
//!
//! A graph is the text of `docs/GRAPH.md`, a line one of the queries of `docs/QUERIES.md`. With the feature `json`, `typed` has both as types.

mod calls;
mod error;
#[cfg(feature = "json")]
pub mod typed;

pub use calls::{answer, strict_answer, Session};
#[cfg(feature = "json")]
pub use calls::{answer_values, strict_answer_values};
#[cfg(feature = "json")]
pub use error::Error;
pub use error::Stop;
