//! A plain Rust version of what documents 01 and 02 ask: the refusals, the findings and the routes, as functions over
//! lent slices. It is written to be read beside them and the Rust (oxc_semantic 0.157.0), not to be fast,
//! and shares no text with the proved version or with the judge that compiles the crate's own text.

pub mod calls;
pub mod classes;
pub mod code_length;
pub mod findings;
pub mod machine;
pub mod marks;
pub mod reader;
pub mod refusals;
pub mod rename;
pub mod routes;
pub mod shorten;
pub mod supers;
pub mod tables;

pub use calls::{check, code_refusal, needed_code, route, shared, walk, Refusal, Route};
pub use code_length::code_length;
pub use findings::{findings, Finding};
pub use refusals::{input_refusal, InputRefusal};
pub use rename::rename;
pub use shorten::{run, shorten};
pub use tables::Tables;
