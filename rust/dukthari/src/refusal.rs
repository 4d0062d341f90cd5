//! Why a call was refused.

/// The refusals, by their numbers 1 to 11. A refused call has changed nothing that was lent to it.
///
/// ```
/// use dukthari::{Map, Refusal, Sizes};
///
/// let refusal = Map::new(Sizes { w: 2, h: 2, d: 1 }, vec![0, 0, 7, 0]).unwrap_err();
/// assert_eq!(refusal, Refusal::BadCell { node: 2 });
/// assert_eq!(refusal.to_string(), "refused 4: a cell is neither 0 (works) nor 1 (faulty), the first at node 2");
/// ```
#[derive(Clone, Copy, Debug, PartialEq, Eq, Hash)]
pub enum Refusal {
    /// 1: width, height or depth outside its range
    BadSizes,
    /// 2: cells not exactly one for each node, or a state of the wrong length
    BadLength,
    /// 3: an output that was lent is too short
    NoRoom,
    /// 4: a byte that is no cell, with the number of the first such node
    BadCell {
        /// The node of the first bad cell.
        node: u32,
    },
    /// 5: an orientation, node, place, direction or word outside its range
    BadNumber,
    /// 6: the state is not sound for this orientation
    Unsound,
    /// 7: the listener is faulty, or the neighbour is absent or faulty
    NoPair,
    /// 8: the word holds a mark that the speaker lacks now
    NotHeld,
    /// 9: start or end of a route is faulty
    FaultyEnd,
    /// 10: no path
    NoPath,
    /// 11: the file's length, mark, zero byte or distance is wrong
    BadFile,
}

impl Refusal {
    /// The refusal's number, as the C calls return it.
    pub fn number(self) -> u32 {
        match self {
            Refusal::BadSizes => 1,
            Refusal::BadLength => 2,
            Refusal::NoRoom => 3,
            Refusal::BadCell { .. } => 4,
            Refusal::BadNumber => 5,
            Refusal::Unsound => 6,
            Refusal::NoPair => 7,
            Refusal::NotHeld => 8,
            Refusal::FaultyEnd => 9,
            Refusal::NoPath => 10,
            Refusal::BadFile => 11,
        }
    }

    /// What was wrong, in words.
    pub fn reason(self) -> &'static str {
        match self {
            Refusal::BadSizes => "width and height must be 2 to 16, depth 1 to 16",
            Refusal::BadLength => "the cells must be exactly one byte for each node, a state exactly seven",
            Refusal::NoRoom => "an output that was lent is shorter than what is to be written",
            Refusal::BadCell { .. } => "a cell is neither 0 (works) nor 1 (faulty)",
            Refusal::BadNumber => {
                "an orientation above 7, a node or place outside the mesh, a direction above 5, or a word that is not 0, 2, 4 or 6"
            }
            Refusal::Unsound => "the state is not sound for this orientation",
            Refusal::NoPair => "the listener is faulty, or its neighbour in that direction is absent or faulty",
            Refusal::NotHeld => "the word holds a mark that the speaker lacks now",
            Refusal::FaultyEnd => "the start or the end of the route is faulty",
            Refusal::NoPath => "no path: every way of the least length from start to end meets a faulty node",
            Refusal::BadFile => "no map file: its length, mark, zero byte or distance is wrong",
        }
    }
}

impl std::fmt::Display for Refusal {
    fn fmt(&self, f: &mut std::fmt::Formatter<'_>) -> std::fmt::Result {
        write!(f, "refused {}: {}", self.number(), self.reason())?;
        match self {
            Refusal::BadCell { node } => write!(f, ", the first at node {node}"),
            _ => Ok(()),
        }
    }
}

impl std::error::Error for Refusal {}

/// Granted, or the refusal of this number. A number that no call returns means that archive and wrapper are of different versions.
pub(crate) fn granted(number: u32, bad: u32) -> Result<(), Refusal> {
    Err(match number {
        0 => return Ok(()),
        1 => Refusal::BadSizes,
        2 => Refusal::BadLength,
        3 => Refusal::NoRoom,
        4 => Refusal::BadCell { node: bad },
        5 => Refusal::BadNumber,
        6 => Refusal::Unsound,
        7 => Refusal::NoPair,
        8 => Refusal::NotHeld,
        9 => Refusal::FaultyEnd,
        10 => Refusal::NoPath,
        11 => Refusal::BadFile,
        other => panic!("libdukthari.a answered refusal {other}, which this wrapper does not know"),
    })
}
