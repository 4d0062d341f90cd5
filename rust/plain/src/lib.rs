//! The calls of the library as one would write them in plain Rust, with speed in mind and with the same checks: the yardstick for
//! `rust/measure`. Nothing here is proved; `rust/compare` holds it to the search program.

mod components;
mod field;
mod mapfile;
mod marks;
mod places;
mod routes;

pub use components::{components, Component};
pub use field::{fresh, hear, outstanding, sound};
pub use mapfile::{read_map, write_map};
pub use marks::marks;
pub use places::{number, place, step};
pub use routes::{reached, route, verdict, Verdict};

/// A refusal's number, and the first bad cell where it is 4.
#[derive(Clone, Copy, Debug, PartialEq, Eq)]
pub struct Refused {
    pub number: u32,
    pub bad: u32,
}

#[derive(Clone, Copy)]
pub(crate) struct Sizes {
    w: usize,
    h: usize,
    d: usize,
}

fn refused<T>(number: u32) -> Result<T, Refused> {
    Err(Refused { number, bad: 0 })
}

impl Sizes {
    fn checked([w, h, d]: [u32; 3]) -> Result<Sizes, Refused> {
        if (2..=16).contains(&w) && (2..=16).contains(&h) && (1..=16).contains(&d) {
            Ok(Sizes { w: w as usize, h: h as usize, d: d as usize })
        } else {
            refused(1)
        }
    }

    fn nodes(self) -> usize {
        self.w * self.h * self.d
    }

    fn place(self, node: usize) -> [usize; 3] {
        [node % self.w, node / self.w % self.h, node / self.w / self.h]
    }
}

fn check_map(size: [u32; 3], cells: &[u8]) -> Result<Sizes, Refused> {
    let sizes = Sizes::checked(size)?;
    if cells.len() != sizes.nodes() {
        return refused(2);
    }
    match cells.iter().position(|&cell| cell > 1) {
        Some(node) => Err(Refused { number: 4, bad: node as u32 }),
        None => Ok(sizes),
    }
}

fn check_orientation(orientation: u32) -> Result<(), Refused> {
    if orientation > 7 {
        return refused(5);
    }
    Ok(())
}
