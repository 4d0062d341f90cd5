//! What a map says of a transfer.
use crate::{Place, Sizes};

/// The hops from start to end, and the directions in which a path begins: bit k for direction k.
#[derive(Clone, Copy, Debug, PartialEq, Eq, Hash)]
pub struct Verdict {
    /// How many steps a path has.
    pub hops: u32,
    /// Bit k is set when a path begins in direction k.
    pub offered: u32,
}

impl Verdict {
    /// The offered directions, in rising order: none at the end itself.
    pub fn directions(self) -> impl Iterator<Item = u32> {
        (0..6).filter(move |direction| self.offered >> direction & 1 == 1)
    }
}

/// A path from start to end, as a list of nodes.
///
/// ```
/// let map: dukthari::Map = "...\n.#.\n...".parse()?;
/// let route = map.route(0, 8)?;
/// assert_eq!(route.hops(), 4);
/// assert_eq!(route.directions().collect::<Vec<_>>(), [0, 0, 2, 2]);
/// for node in &route {
///     assert!(map.verdict(node, 8).is_ok());
/// }
/// # Ok::<(), Box<dyn std::error::Error>>(())
/// ```
#[derive(Clone, Debug, PartialEq, Eq, Hash)]
pub struct Route {
    pub(crate) sizes: Sizes,
    pub(crate) nodes: Vec<u16>,
}

impl Route {
    /// The most nodes that a route has: 45 hops, and the start.
    pub const LONGEST: usize = 46;

    /// The numbers of its nodes, from start to end: hops + 1 of them.
    pub fn nodes(&self) -> &[u16] {
        &self.nodes
    }

    /// How many steps it has.
    pub fn hops(&self) -> usize {
        self.nodes.len() - 1
    }

    /// Its nodes, from start to end or, by `rev`, back.
    pub fn iter(&self) -> Nodes<'_> {
        Nodes(self.nodes.iter())
    }

    /// The places of its nodes.
    pub fn places(&self) -> impl DoubleEndedIterator<Item = Place> + ExactSizeIterator + '_ {
        self.iter().map(move |node| self.sizes.place(node).expect("a route stays in its mesh"))
    }

    /// The direction of each hop.
    pub fn directions(&self) -> impl Iterator<Item = u32> + '_ {
        let leads = move |from: Place, to: Place| (0..6).find(|direction| self.sizes.step(from, *direction) == Ok(Some(to)));
        self.places().zip(self.places().skip(1)).map(move |(from, to)| leads(from, to).expect("each hop of a route is a step"))
    }
}

impl<'a> IntoIterator for &'a Route {
    type Item = u32;
    type IntoIter = Nodes<'a>;

    fn into_iter(self) -> Nodes<'a> {
        self.iter()
    }
}

/// The nodes of a [`Route`].
#[derive(Clone, Debug)]
pub struct Nodes<'a>(std::slice::Iter<'a, u16>);

impl Iterator for Nodes<'_> {
    type Item = u32;

    fn next(&mut self) -> Option<u32> {
        self.0.next().map(|node| u32::from(*node))
    }

    fn size_hint(&self) -> (usize, Option<usize>) {
        self.0.size_hint()
    }
}

impl DoubleEndedIterator for Nodes<'_> {
    fn next_back(&mut self) -> Option<u32> {
        self.0.next_back().map(|node| u32::from(*node))
    }
}

impl ExactSizeIterator for Nodes<'_> {}

/// The nodes that paths towards an end reach from a start.
#[derive(Clone, Debug, PartialEq, Eq, Hash)]
pub struct Reached {
    pub(crate) bytes: Vec<u8>,
    pub(crate) count: usize,
}

impl Reached {
    /// One byte for each node, in node order: 1 where it is reached, else 0.
    pub fn bytes(&self) -> &[u8] {
        &self.bytes
    }

    /// Whether a node is reached. One that the mesh does not have is not.
    pub fn has(&self, node: u32) -> bool {
        self.bytes.get(node as usize) == Some(&1)
    }

    /// How many nodes are reached.
    pub fn count(&self) -> usize {
        self.count
    }

    /// The numbers of the nodes that are reached, in rising order.
    ///
    /// ```
    /// let map: dukthari::Map = "...\n.#.\n...".parse()?;
    /// assert_eq!(map.reached(3, 5)?.iter().collect::<Vec<_>>(), [3]);
    /// # Ok::<(), Box<dyn std::error::Error>>(())
    /// ```
    pub fn iter(&self) -> impl Iterator<Item = u32> + '_ {
        (0..).zip(&self.bytes).filter(|(_, byte)| **byte == 1).map(|(node, _)| node)
    }
}
