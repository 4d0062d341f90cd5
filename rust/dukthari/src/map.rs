//! A map that owns its sizes and cells.
use crate::{Component, Components, Marks, Place, Reached, Refusal, Route, Sizes, Verdict};

/// The longest map file without notes: 4,096 cells and the trailer.
const FILE: usize = 4096 + 12;

/// A mesh and which of its nodes are faulty. Its sizes are in range and each node has a good cell, so that its calls are refused for their
/// own arguments alone.
///
/// It is made from cells ([`Map::new`]), from a mesh that works ([`Map::working`]), from a map file ([`Map::from_file`]) or from a text
/// drawing (`parse`). [`Map::to_file`] and `to_string` are the ways back.
///
/// ```
/// use dukthari::{Map, Place, Sizes};
///
/// let mut map = Map::working(Sizes { w: 3, h: 2, d: 2 })?;
/// map.fail(Place { x: 1, y: 0, z: 1 })?;
/// assert_eq!(map.to_string(), "...\n...\n\n.#.\n...\n");
/// assert_eq!(map.to_string().parse(), Ok(map));
/// # Ok::<(), dukthari::Refusal>(())
/// ```
#[derive(Clone, Debug, PartialEq, Eq, Hash)]
pub struct Map {
    sizes: Sizes,
    cells: Vec<u8>,
}

impl Map {
    /// A map of these cells, one byte for each node in node order: 0 works, 1 is faulty. Refusals: 1, 2, 4.
    pub fn new(sizes: Sizes, cells: Vec<u8>) -> Result<Map, Refusal> {
        sizes.write_map(&cells, &mut [0; FILE])?;
        Ok(Map { sizes, cells })
    }

    /// A mesh in which every node works. Refusal: 1.
    pub fn working(sizes: Sizes) -> Result<Map, Refusal> {
        Ok(Map { sizes, cells: vec![0; sizes.nodes()?] })
    }

    /// The map in a map file, with or without notes before the cells. Refusals: 11, 1, 11, 4.
    ///
    /// ```
    /// use dukthari::{Map, Refusal};
    ///
    /// let map = Map::from_file(b"a note\0\0\0\x01\x02\x02\x01\0\x10\0\0\0FLD1")?;
    /// assert_eq!(map.to_string(), "..\n.#\n");
    /// assert_eq!(map.to_file(), b"\0\0\0\x01\x02\x02\x01\0\x10\0\0\0FLD1");
    /// assert_eq!(Map::from_file(b"no map"), Err(Refusal::BadFile));
    /// # Ok::<(), Refusal>(())
    /// ```
    pub fn from_file(file: &[u8]) -> Result<Map, Refusal> {
        let mut cells = vec![0; FILE];
        let sizes = Sizes::read_map(file, &mut cells)?;
        cells.truncate(sizes.nodes()?);
        Ok(Map { sizes, cells })
    }

    /// The map's file, without notes: 12 bytes more than it has nodes.
    pub fn to_file(&self) -> Vec<u8> {
        let mut file = vec![0; FILE];
        let length = self.sizes.write_map(&self.cells, &mut file).expect("a map can be written");
        file.truncate(length);
        file
    }

    /// The mesh's sizes.
    pub fn sizes(&self) -> Sizes {
        self.sizes
    }

    /// One byte for each node, in node order: 0 works, 1 is faulty.
    pub fn cells(&self) -> &[u8] {
        &self.cells
    }

    /// The numbers of the faulty nodes, in rising order.
    pub fn faulty(&self) -> impl Iterator<Item = u32> + '_ {
        (0..).zip(&self.cells).filter(|(_, cell)| **cell != 0).map(|(node, _)| node)
    }

    /// Enters a node as faulty. A dead link is entered by both its ends. Refusal: 5.
    pub fn fail(&mut self, at: Place) -> Result<(), Refusal> {
        self.fail_node(self.sizes.number(at)?)
    }

    /// Enters the node of this number as faulty. Refusal: 5.
    pub fn fail_node(&mut self, node: u32) -> Result<(), Refusal> {
        self.enter(node, 1)
    }

    /// Enters a node as working. Refusal: 5.
    pub fn repair(&mut self, at: Place) -> Result<(), Refusal> {
        self.repair_node(self.sizes.number(at)?)
    }

    /// Enters the node of this number as working. Refusal: 5.
    ///
    /// ```
    /// let mut map: dukthari::Map = "..\n.#".parse()?;
    /// map.fail_node(1)?;
    /// map.repair_node(3)?;
    /// assert_eq!((map.is_faulty(1)?, map.is_faulty(3)?), (true, false));
    /// assert_eq!(map.fail_node(4), Err(dukthari::Refusal::BadNumber));
    /// # Ok::<(), Box<dyn std::error::Error>>(())
    /// ```
    pub fn repair_node(&mut self, node: u32) -> Result<(), Refusal> {
        self.enter(node, 0)
    }

    fn enter(&mut self, node: u32, cell: u8) -> Result<(), Refusal> {
        *self.cells.get_mut(node as usize).ok_or(Refusal::BadNumber)? = cell;
        Ok(())
    }

    /// Whether the node of this number is faulty. Refusal: 5.
    pub fn is_faulty(&self, node: u32) -> Result<bool, Refusal> {
        self.cells.get(node as usize).map(|cell| *cell != 0).ok_or(Refusal::BadNumber)
    }

    /// The mark of each node in an orientation. Refusal: 5.
    ///
    /// ```
    /// let map: dukthari::Map = ".#.\n#.#\n.#.".parse()?;
    /// assert_eq!(map.marks(0)?.bytes(), [2, 1, 0, 1, 6, 1, 0, 1, 4]);
    /// # Ok::<(), Box<dyn std::error::Error>>(())
    /// ```
    pub fn marks(&self, orientation: u32) -> Result<Marks, Refusal> {
        let mut bytes = vec![0; self.cells.len()];
        self.sizes.marks(orientation, &self.cells, &mut bytes)?;
        Ok(Marks { bytes })
    }

    /// The components of the unsafe nodes in an orientation. Refusal: 5.
    ///
    /// ```
    /// let map: dukthari::Map = ".....\n..#..\n.#...\n.....\n.....".parse()?;
    /// let components = map.components(0)?;
    /// assert_eq!(components.records().len(), 1);
    /// assert_eq!(components.records()[0].count, 4);
    /// assert_eq!((components.of(6), components.of(8)), (Some(1), None));
    /// # Ok::<(), Box<dyn std::error::Error>>(())
    /// ```
    pub fn components(&self, orientation: u32) -> Result<Components, Refusal> {
        let mut table = vec![0; self.cells.len()];
        let mut records = vec![Component::default(); self.cells.len()];
        let count = self.sizes.components(orientation, &self.cells, &mut table, &mut records)?;
        records.truncate(count);
        Ok(Components { table, records })
    }

    /// May a transfer go from start to end by a path of the least length through working nodes? Refusals: 5, 9, 10.
    ///
    /// ```
    /// use dukthari::{Map, Refusal};
    ///
    /// let map: Map = ".....\n..#..\n.#...\n.....\n.....".parse()?;
    /// let verdict = map.verdict(0, 24)?;
    /// assert_eq!(verdict.hops, 8);
    /// assert_eq!(verdict.directions().collect::<Vec<_>>(), [0, 2]); // a path begins towards +X, and one towards +Y
    /// assert_eq!(map.verdict(0, 12), Err(Refusal::NoPath));
    /// # Ok::<(), Box<dyn std::error::Error>>(())
    /// ```
    pub fn verdict(&self, start: u32, end: u32) -> Result<Verdict, Refusal> {
        self.sizes.verdict(start, end, &self.cells)
    }

    /// The path from start to end that takes the lowest-numbered direction in which one begins, at each node. Refusals: 5, 9, 10.
    ///
    /// ```
    /// let map: dukthari::Map = "..#\n...\n#..".parse()?;
    /// let route = map.route(0, 8)?;
    /// for place in route.places() {
    ///     println!("{place}");
    /// }
    /// assert_eq!(route.iter().collect::<Vec<u32>>(), [0, 1, 4, 5, 8]);
    /// # Ok::<(), Box<dyn std::error::Error>>(())
    /// ```
    pub fn route(&self, start: u32, end: u32) -> Result<Route, Refusal> {
        let mut nodes = vec![0; Route::LONGEST];
        let count = self.sizes.route(start, end, &self.cells, &mut nodes)?;
        nodes.truncate(count);
        Ok(Route { sizes: self.sizes, nodes })
    }

    /// Which nodes paths towards the end reach from the start: where the end is not among them, they show that no path leads there, one step
    /// at a time. Refusals: 5, 9.
    ///
    /// ```
    /// let map: dukthari::Map = ".....\n..#..\n.#...\n.....\n.....".parse()?;
    /// let reached = map.reached(2, 17)?;
    /// assert_eq!((reached.has(2), reached.has(7), reached.has(17)), (true, false, false));
    /// assert_eq!(reached.count(), 1);
    /// # Ok::<(), Box<dyn std::error::Error>>(())
    /// ```
    pub fn reached(&self, start: u32, end: u32) -> Result<Reached, Refusal> {
        let mut bytes = vec![0; self.cells.len()];
        let count = self.sizes.reached(start, end, &self.cells, &mut bytes)?;
        Ok(Reached { bytes, count })
    }
}
