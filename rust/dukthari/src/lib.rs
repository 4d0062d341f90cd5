//! Dukthari for Rust: a storage shelf's mesh with its failed nodes, as a [`Map`]. Which transfers may go and by which way, which nodes are
//! useless or can't be reached, how these clump together, and the state of nodes that tell each other their marks ([`Field`]).
//!
//! ```
//! use dukthari::{Map, Refusal};
//!
//! let map: Map = "
//! .....
//! ..#..
//! .#...
//! .....
//! .....
//! ".parse()?;
//! let route = map.route(0, 24)?;
//! assert_eq!(route.nodes(), [0, 1, 2, 3, 4, 9, 14, 19, 24]);
//! assert_eq!(map.route(6, 24), Err(Refusal::NoPath));
//! assert_eq!(map.marks(0)?.of(6).map(|mark| mark.is_useless()), Some(true));
//! # Ok::<(), Box<dyn std::error::Error>>(())
//! ```
//!
//! A node (x, y, z) has the number x + w × (y + h × z). Directions are 0 for +X, 1 for −X, 2 +Y, 3 −Y, 4 +Z, 5 −Z. In an orientation, 0 to
//! 7, X runs down if bit 0 is set, Y if bit 1, Z if bit 2. A number outside its range is refused, never an error of the program.
//!
//! What a call does is proved of the Rattle source. This crate is not: it declares the C functions and takes their answers apart, and
//! `rust/compare` holds it to an independent search program. [`Sizes`] has every call with slices that the caller lends, and [`answers`] and
//! [`calls`] have them as they come, field by field.
//!
//! The archive must be there first: `make` at the top of the tree makes it, target/staticlib/libdukthari.a on x86-64 and
//! target/native/libdukthari.a elsewhere. `DUKTHARI_LIB_DIR` names another folder that has it, by its full path.
#![deny(missing_docs, unsafe_code)]

pub mod answers;
#[allow(unsafe_code)]
pub mod calls;
mod drawing;
mod field;
mod map;
mod marks;
mod refusal;
mod route;
mod sizes;

pub use drawing::{BadDrawing, Flaw};
pub use field::{Field, Word};
pub use map::Map;
pub use marks::{Component, Components, Mark, Marks, NodeMarks};
pub use refusal::Refusal;
pub use route::{Nodes, Reached, Route, Verdict};
pub use sizes::{Place, Sizes};
