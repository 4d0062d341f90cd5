//! The marks of a map, and the components of its unsafe nodes.

/// The mark of one node. A working node may hold both marks.
#[derive(Clone, Copy, Debug, PartialEq, Eq, Hash)]
pub struct Mark(pub(crate) u8);

impl Mark {
    /// 0 none, 1 faulty, 2 useless, 4 can't-reach, 6 both.
    pub fn byte(self) -> u8 {
        self.0
    }

    /// Works, and holds no mark.
    pub fn is_safe(self) -> bool {
        self.0 == 0
    }

    /// Does not work.
    pub fn is_faulty(self) -> bool {
        self.0 & 1 != 0
    }

    /// Nothing that enters can leave ahead: on every axis that counts the neighbour ahead is faulty or useless.
    pub fn is_useless(self) -> bool {
        self.0 & 2 != 0
    }

    /// Nothing can enter from behind: on every axis that counts the neighbour behind is faulty or can't be reached.
    pub fn is_cannot_reach(self) -> bool {
        self.0 & 4 != 0
    }
}

/// The mark of each node in one orientation.
#[derive(Clone, Debug, PartialEq, Eq, Hash)]
pub struct Marks {
    pub(crate) bytes: Vec<u8>,
}

impl Marks {
    /// The mark bytes, in node order.
    pub fn bytes(&self) -> &[u8] {
        &self.bytes
    }

    /// A node's mark, if the mesh has that node.
    pub fn of(&self, node: u32) -> Option<Mark> {
        self.bytes.get(node as usize).map(|byte| Mark(*byte))
    }

    /// Each node with its mark, in node order.
    pub fn iter(&self) -> NodeMarks<'_> {
        NodeMarks(self.bytes.iter().enumerate())
    }
}

/// ```
/// let map: dukthari::Map = "..\n.#".parse()?;
/// for (node, mark) in &map.marks(0)? {
///     assert_eq!(mark.is_faulty(), node == 3);
/// }
/// # Ok::<(), Box<dyn std::error::Error>>(())
/// ```
impl<'a> IntoIterator for &'a Marks {
    type Item = (u32, Mark);
    type IntoIter = NodeMarks<'a>;

    fn into_iter(self) -> NodeMarks<'a> {
        self.iter()
    }
}

/// Each node of [`Marks`] with its mark.
#[derive(Clone, Debug)]
pub struct NodeMarks<'a>(std::iter::Enumerate<std::slice::Iter<'a, u8>>);

impl Iterator for NodeMarks<'_> {
    type Item = (u32, Mark);

    fn next(&mut self) -> Option<(u32, Mark)> {
        self.0.next().map(|(node, byte)| (node as u32, Mark(*byte)))
    }

    fn size_hint(&self) -> (usize, Option<usize>) {
        self.0.size_hint()
    }
}

impl ExactSizeIterator for NodeMarks<'_> {}

/// A component: its number of nodes, and the least and the greatest x, y and z among them.
#[repr(C)]
#[derive(Clone, Copy, Debug, Default, PartialEq, Eq, Hash)]
pub struct Component {
    /// How many nodes it has.
    pub count: u16,
    /// The least x, y and z.
    pub least: [u8; 3],
    /// The greatest x, y and z.
    pub greatest: [u8; 3],
}

/// The components of the unsafe nodes in one orientation, numbered from 1 by their lowest node.
#[derive(Clone, Debug, PartialEq, Eq, Hash)]
pub struct Components {
    pub(crate) table: Vec<u16>,
    pub(crate) records: Vec<Component>,
}

impl Components {
    /// For each node the number of its component, 0 for a safe one, in node order.
    pub fn table(&self) -> &[u16] {
        &self.table
    }

    /// A record for each component: that of number i is at i − 1.
    pub fn records(&self) -> &[Component] {
        &self.records
    }

    /// The number of a node's component; `None` for a safe node, or one that the mesh does not have.
    pub fn of(&self, node: u32) -> Option<u16> {
        self.table.get(node as usize).copied().filter(|number| *number != 0)
    }
}
