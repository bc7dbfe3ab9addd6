//! A stand-in for the module's root.

mod builder;
mod table;

pub use builder::ClassTableBuilder;
pub use table::{ClassTable, Element};
