//! An independent search program. It answers the calls of the library from the words of the scope paper alone, by listing everything and
//! trying each: slow, plain, and with no idea in common with the library, so that the two agree only where both are right.
//!
//! Each call takes what the C call takes, changes what is lent to it, and returns the fields of the answer.

pub mod audit;
pub mod components;
pub mod field;
pub mod listing;
pub mod map;
pub mod mapfile;
pub mod marks;
pub mod mesh;
pub mod report;
pub mod routes;
