//! Safe calls of Velkunshe's proved static library.
//!
//! A rule comes as tables of numbers (see [`Rule`]); [`Builder`] makes them from nodes by name. [`check`] gives its early errors; [`code`]
//! makes the flat code of one of its units (the program, a function, an arrow or a static block), and [`route`] lists the statements that the
//! unit comes to on a list of answers. [`findings`], [`code_of`] and [`route_of`] give the same in vectors. [`shared`] says how much two
//! routes of one unit share. [`walk`] gives a route by a second engine, which makes no code. [`renamed`] gives a rule with short labels.
//! [`Marks`] has routes that are stopped and taken up again. [`shorten`] makes a code shorter and [`run`] runs one, whoever wrote it.
//! Whatever the tables, the codes and the answers hold, a call ends and does nothing undefined, and its answer
//! is the one that is proved; nothing here asks for `unsafe`.
//!
//! The static library `libvelkunshe.a` is linked, which Velkunshe's `tools/setup velkunshe` proves and builds. The environment variable
//! `VELKUNSHE_LIB` may name it; else it is looked for beside this package's `Cargo.toml`, in the repository's `target/staticlib`, and by
//! pkg-config, which `tools/install PREFIX` tells of it. x86-64 Linux only.
//!
//! # Errors, memory and stack
//!
//! A call on slices answers a [`Refusal`]. A call that makes vectors answers an [`Error`]: a refusal, an answer that is longer than a limit, or
//! no memory. Vectors grow by `try_reserve`, so that a lack of memory is an error and no abort. A rule of some bytes can have a route that
//! fills the memory: [`route_of`] and the like make one of at most [`ROUTE_LIMIT`] entries, and [`route_within`] and [`walk_within`] take
//! another limit.
//!
//! The library asks for no memory of its own. It needs stack, at most [`STACK`] bytes: the main thread and a thread that Rust makes have more,
//! unless they are asked for less. For a rule of at most 1,024 nodes and 1,024 scopes 128 KB are enough.
//!
//! Codes, contexts, ends, reasons of refusals and kinds of node are enums that may grow: a number that this version does not know is
//! `Unknown`, with that number. Each has its [`number`](Code::number), and says in words what it is.
//!
//! # Check a rule
//!
//! The tables of `a: { continue a; }`, a `continue` to a label that no loop has:
//!
//! ```
//! use velkunshe::{check, findings, Code, Context, Finding, Reason, Rule};
//!
//! let rule = Rule {
//!     source_type: 0,
//!     async_bodies: false,
//!     nodes: &[
//!         // kind, parent, role, span, scope, flags, extra, name
//!         0, 0, 0, 0, 18, 0, 0, 0, 0, 0, // Program
//!         6, 0, 3, 0, 18, 0, 0, 0, 0, 0, // Labeled
//!         33, 1, 6, 0, 1, 0, 0, 0, 0, 1, // its label
//!         5, 1, 3, 3, 18, 0, 0, 0, 0, 0, // Block
//!         19, 3, 3, 5, 16, 1, 0, 0, 0, 0, // Continue
//!         33, 4, 6, 14, 15, 1, 0, 0, 0, 1, // its label
//!     ],
//!     scopes: &[0, 2, 0, 0, 0, 3],
//!     source: b"a: { continue a; }",
//!     names: b"a",
//! };
//!
//! let found = findings(&rule).unwrap();
//! assert_eq!(found[0].code.number(), 22);
//! assert_eq!(found[0].code.to_string(), "`continue` names a label that is on no loop");
//! assert_eq!(found, [Finding {
//!     code: Code::InvalidLabelNonIteration,
//!     node: 4,
//!     first: (0, 1),
//!     second: (14, 15),
//!     context: Context::None,
//! }]);
//!
//! // The same into a slice of one's own, which may be too short:
//! let mut numbers = [0; 7];
//! assert_eq!(check(&rule, &mut numbers), Ok(1));
//! assert_eq!(numbers, [22, 4, 0, 1, 14, 15, 0]);
//! let refusal = check(&rule, &mut numbers[..6]).unwrap_err();
//! assert_eq!((refusal.reason, refusal.needed), (Reason::FindingsSlice, Some(7)));
//! assert_eq!(refusal.to_string(), "refusal 10 at 0: the findings slice is too short (length needed: 7)");
//! ```
//!
//! # Check a rule and show its route
//!
//! `while (t) { if (s) break; x; }`. The `while` and the `if` each take an answer, 0 for no.
//!
//! ```
//! use velkunshe::{findings, route_of, End, Rule};
//!
//! let source = b"while (t) { if (s) break; x; }";
//! let rule = Rule {
//!     source_type: 0,
//!     async_bodies: false,
//!     nodes: &[
//!         0, 0, 0, 0, 30, 0, 0, 0, 0, 0, // 0 Program
//!         10, 0, 3, 0, 30, 0, 0, 0, 0, 0, // 1 While
//!         32, 1, 0, 7, 8, 0, 0, 0, 0, 1, // 2 t
//!         5, 1, 3, 10, 30, 1, 0, 0, 0, 0, // 3 Block
//!         12, 3, 3, 12, 25, 1, 0, 0, 0, 0, // 4 If
//!         32, 4, 0, 16, 17, 1, 0, 0, 1, 1, // 5 s
//!         18, 4, 3, 19, 25, 1, 0, 0, 0, 0, // 6 Break
//!         22, 3, 3, 26, 28, 1, 0, 0, 0, 0, // 7 x;
//!     ],
//!     scopes: &[0, 2, 0, 0, 0, 3],
//!     source,
//!     names: b"ts",
//! };
//! assert!(findings(&rule).unwrap().is_empty());
//!
//! // Once around, then out by the break.
//! let route = route_of(&rule, 0, &[1, 0, 1, 1]).unwrap();
//! assert_eq!(route.nodes, [1, 4, 7, 1, 4, 6]);
//! assert_eq!((route.end, route.taken), (End::FellThrough, 4));
//!
//! let shown: Vec<&str> = route.nodes.iter().map(|&n| rule.text(n)).collect();
//! assert_eq!(shown[2], "x;");
//! assert_eq!(shown[5], "break;");
//!
//! // No answer is left for the second turn.
//! let route = route_of(&rule, 0, &[1, 0]).unwrap();
//! assert_eq!((route.nodes, route.end), (vec![1, 4, 7], End::AnswersSpent));
//! ```

#![warn(missing_docs)]

/// A call of the library on a rule, whose arguments come first in each.
macro_rules! on_rule {
    ($call:ident, $rule:expr, $($more:expr),* $(,)?) => {
        $crate::ffi::$call(
            $rule.source_type,
            u32::from($rule.async_bodies),
            $rule.nodes.as_ptr(),
            $rule.nodes.len(),
            $rule.scopes.as_ptr(),
            $rule.scopes.len(),
            $rule.source.as_ptr(),
            $rule.source.len(),
            $rule.names.as_ptr(),
            $rule.names.len(),
            $($more),*
        )
    };
}

mod builder;
mod check;
mod error;
mod ffi;
mod marks;
mod numbers;
mod rename;
mod room;
mod route;
mod rule;
mod run;
mod shared;
mod shorten;
mod walk;

pub use builder::{BuildError, Builder, Node, NodeId, ScopeId};
pub use check::{check, findings, Finding};
pub use error::{Error, Refusal};
pub use marks::{Marks, Slices, Stop, MARKS};
pub use numbers::{extras, Code, Context, End, Flags, Kind, Reason, Role, ScopeFlags, SourceType};
pub use rename::{rename, renamed, Renamed};
pub use route::{code, code_of, route, route_of, route_within, Route, Shown, ROUTE_LIMIT};
pub use rule::Rule;
pub use run::{run, run_of, run_within};
pub use shared::{shared, shared_of};
pub use shorten::{shorten, shortened, Shorter};
pub use walk::{walk, walk_of, walk_within};

/// How many numbers a node takes in [`Rule::nodes`].
pub const NODE: usize = 10;
/// How many numbers a scope takes in [`Rule::scopes`].
pub const SCOPE: usize = 3;
/// How many numbers a finding takes in the slice that [`check`] writes.
pub const FINDING: usize = 7;
/// The most numbers that a node of a unit gives to its code: a code slice with so many for each node of the tree is long enough. [`code`] with
/// an empty slice says how long it must be.
pub const CODE: usize = 10;
/// The most bytes of stack that a call of the library needs.
pub const STACK: usize = 954_368;
