//! Sizes and places, and every call with the caller's own slices.
use crate::{calls, Component, Refusal, Verdict};
use std::fmt;

/// The sizes of a mesh. Any numbers may be asked: a call refuses those outside 2 to 16, 2 to 16 and 1 to 16.
///
/// Its methods are the calls themselves, with slices that the caller lends: nothing is allocated. [`Map`](crate::Map) owns its cells and is
/// easier to use.
///
/// ```
/// use dukthari::{Place, Refusal, Sizes};
///
/// let mesh = Sizes { w: 5, h: 5, d: 1 };
/// assert_eq!(mesh.number(Place { x: 2, y: 1, z: 0 }), Ok(7));
/// assert_eq!(mesh.step(Place { x: 4, y: 0, z: 0 }, 2), Ok(Some(Place { x: 4, y: 1, z: 0 })));
/// assert_eq!(mesh.step(Place { x: 4, y: 0, z: 0 }, 0), Ok(None)); // the mesh ends there
/// assert_eq!(mesh.number(Place { x: 5, y: 0, z: 0 }), Err(Refusal::BadNumber));
/// ```
#[derive(Clone, Copy, Debug, PartialEq, Eq, Hash)]
pub struct Sizes {
    /// The width: how many places there are along X.
    pub w: u32,
    /// The height: along Y.
    pub h: u32,
    /// The depth: along Z; 1 in a flat mesh.
    pub d: u32,
}

/// Where a node is. Any numbers may be asked: a call refuses a place outside the mesh.
///
/// ```
/// use dukthari::{Place, Sizes};
///
/// assert_eq!(Place { x: 4, y: 1, z: 0 }.to_string(), "(4, 1, 0)");
/// assert_eq!(Sizes { w: 5, h: 4, d: 3 }.to_string(), "5 x 4 x 3");
/// ```
#[derive(Clone, Copy, Debug, PartialEq, Eq, Hash)]
pub struct Place {
    /// Its place along X, from 0.
    pub x: u32,
    /// Along Y.
    pub y: u32,
    /// Along Z.
    pub z: u32,
}

impl fmt::Display for Sizes {
    fn fmt(&self, f: &mut fmt::Formatter<'_>) -> fmt::Result {
        write!(f, "{} x {} x {}", self.w, self.h, self.d)
    }
}

impl fmt::Display for Place {
    fn fmt(&self, f: &mut fmt::Formatter<'_>) -> fmt::Result {
        write!(f, "({}, {}, {})", self.x, self.y, self.z)
    }
}

impl Sizes {
    /// How many nodes the mesh has. Refusal: 1.
    pub fn nodes(self) -> Result<usize, Refusal> {
        self.place(0)?;
        Ok((self.w * self.h * self.d) as usize)
    }

    /// The number of the node at a place. Refusals: 1, 5.
    pub fn number(self, at: Place) -> Result<u32, Refusal> {
        calls::number(self, at).result()
    }

    /// The place of a node. Refusals: 1, 5.
    pub fn place(self, node: u32) -> Result<Place, Refusal> {
        calls::place(self, node).result()
    }

    /// The next place in a direction, 0 to 5 for +X, -X, +Y, -Y, +Z, -Z; `None` where the mesh ends. Refusals: 1, 5.
    pub fn step(self, from: Place, direction: u32) -> Result<Option<Place>, Refusal> {
        calls::step(self, from, direction).result()
    }

    /// The mark byte of each node, written to the front of `out`: 0 none, 1 faulty, 2 useless, 4 can't-reach, 6 both. Refusals: 1, 2, 4, 5, 3.
    pub fn marks(self, orientation: u32, cells: &[u8], out: &mut [u8]) -> Result<(), Refusal> {
        calls::marks(self, orientation, cells, out).result()
    }

    /// The number of components; for each node the number of its component, 0 for a safe one, to the front of `table`, and a record for
    /// each component to the front of `row`. Refusals: 1, 2, 4, 5, 3.
    pub fn components(self, orientation: u32, cells: &[u8], table: &mut [u16], row: &mut [Component]) -> Result<usize, Refusal> {
        calls::components(self, orientation, cells, table, row).result()
    }

    /// Whether a path leads from start to end: its hops, and in which directions one begins. Refusals: 1, 2, 4, 5, 9, 10.
    pub fn verdict(self, start: u32, end: u32, cells: &[u8]) -> Result<Verdict, Refusal> {
        calls::verdict(self, start, end, cells).result()
    }

    /// The nodes of the path that takes the lowest offered direction at each node, to the front of `out`; how many they are, at most 46.
    /// Refusals: 1, 2, 4, 5, 9, 10, 3.
    pub fn route(self, start: u32, end: u32, cells: &[u8], out: &mut [u16]) -> Result<usize, Refusal> {
        calls::route(self, start, end, cells, out).result()
    }

    /// For each node 1 where a path towards the end leads from the start to it, else 0, to the front of `out`; how many are 1.
    /// Refusals: 1, 2, 4, 5, 9, 3.
    pub fn reached(self, start: u32, end: u32, cells: &[u8], out: &mut [u8]) -> Result<usize, Refusal> {
        calls::reached(self, start, end, cells, out).result()
    }

    /// The fresh state of a map, which fills `state`: seven bytes for each node. Refusals: 1, 2, 4, 5.
    pub fn fresh(self, orientation: u32, cells: &[u8], state: &mut [u8]) -> Result<(), Refusal> {
        calls::fresh(self, orientation, cells, state).result()
    }

    /// Whether a state is sound. Refusals: 1, 2, 5, 6.
    pub fn sound(self, orientation: u32, state: &[u8]) -> Result<(), Refusal> {
        calls::sound(self, orientation, state).result()
    }

    /// How many words are outstanding; at 0 the state is settled. Refusals: 1, 2, 5, 6.
    pub fn outstanding(self, orientation: u32, state: &[u8]) -> Result<usize, Refusal> {
        calls::outstanding(self, orientation, state).result()
    }

    /// A node hears a word, 0, 2, 4 or 6, from its neighbour in a direction. Refusals: 1, 2, 5, 6, 7, 8.
    pub fn hear(self, orientation: u32, listener: u32, direction: u32, word: u32, state: &mut [u8]) -> Result<(), Refusal> {
        calls::hear(self, orientation, listener, direction, word, state).result()
    }

    /// The sizes of the map in a file, whose cells go to the front of `cells`. Refusals: 11, 1, 11, 3, 4.
    pub fn read_map(file: &[u8], cells: &mut [u8]) -> Result<Sizes, Refusal> {
        calls::read_map(file, cells).result()
    }

    /// The file of a map, to the front of `out`; its length. Refusals: 1, 2, 4, 3.
    pub fn write_map(self, cells: &[u8], out: &mut [u8]) -> Result<usize, Refusal> {
        calls::write_map(self, cells, out).result()
    }
}
