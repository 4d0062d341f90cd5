//! The nodes that tell each other their marks.
use crate::{Map, Mark, Marks, Refusal, Sizes};

/// The state of the talking nodes of a mesh in one orientation: for each node its own mark, and what it has heard from each neighbour. It is
/// always sound: it begins so, and hearing keeps it so.
///
/// ```
/// use dukthari::{Field, Map, Refusal};
///
/// let map: Map = "....\n..#.\n##..\n....".parse()?;
/// let mut field = Field::fresh(&map, 0)?;
/// assert_eq!(field.outstanding(), 4);
/// assert_eq!(field.hear(4, 0, 4), Err(Refusal::NotHeld));
/// field.hear(4, 0, 2)?; // node 4 hears from +X that its neighbour is useless
/// assert_eq!(field.own(4).map(|mark| mark.is_useless()), Some(true));
/// while !field.is_settled() {
///     for news in field.news() {
///         field.hear(news.listener, news.direction, news.word)?;
///     }
/// }
/// assert_eq!(field.marks(), map.marks(0)?);
/// # Ok::<(), Box<dyn std::error::Error>>(())
/// ```
#[derive(Clone, Debug, PartialEq, Eq, Hash)]
pub struct Field {
    sizes: Sizes,
    orientation: u32,
    state: Vec<u8>,
}

/// A word that a listener has yet to hear from its neighbour in a direction: 0, 2, 4 or 6.
#[derive(Clone, Copy, Debug, PartialEq, Eq, Hash)]
pub struct Word {
    /// The number of the node that is to hear it.
    pub listener: u32,
    /// Where the listener's neighbour, the speaker, is.
    pub direction: u32,
    /// The speaker's own byte: 0 no mark, 2 useless, 4 can't-reach, 6 both.
    pub word: u32,
}

impl Field {
    /// The state of a map in which nothing has been heard. Refusal: 5.
    pub fn fresh(map: &Map, orientation: u32) -> Result<Field, Refusal> {
        let mut state = vec![0; 7 * map.cells().len()];
        map.sizes().fresh(orientation, map.cells(), &mut state)?;
        Ok(Field { sizes: map.sizes(), orientation, state })
    }

    /// A state that was kept: seven bytes for each node, its own mark byte and then what it has heard from directions 0 to 5.
    /// Refusals: 1, 2, 5, 6.
    pub fn from_state(sizes: Sizes, orientation: u32, state: Vec<u8>) -> Result<Field, Refusal> {
        sizes.sound(orientation, &state)?;
        Ok(Field { sizes, orientation, state })
    }

    /// The bytes of the state, as [`Field::from_state`] takes them.
    pub fn state(&self) -> &[u8] {
        &self.state
    }

    /// The mesh's sizes.
    pub fn sizes(&self) -> Sizes {
        self.sizes
    }

    /// The orientation that its marks are for.
    pub fn orientation(&self) -> u32 {
        self.orientation
    }

    /// What a node knows of itself, if the mesh has that node.
    pub fn own(&self, node: u32) -> Option<Mark> {
        self.seven(node).map(|bytes| Mark(bytes[0]))
    }

    /// The byte that a node has heard from a direction: a word, 8 where no neighbour exists, 1 where it is faulty. A faulty node has heard 0.
    pub fn heard(&self, node: u32, direction: u32) -> Option<u8> {
        self.seven(node)?[1..].get(direction as usize).copied()
    }

    /// What each node knows of itself. Once the state is settled these are the marks of the map.
    pub fn marks(&self) -> Marks {
        Marks { bytes: self.state.chunks_exact(7).map(|bytes| bytes[0]).collect() }
    }

    /// How many words are outstanding: pairs of working neighbours in which the listener has not heard what the speaker now holds.
    pub fn outstanding(&self) -> usize {
        self.sizes.outstanding(self.orientation, &self.state).expect("a field's state stays sound")
    }

    /// Whether nothing is outstanding.
    pub fn is_settled(&self) -> bool {
        self.outstanding() == 0
    }

    /// The words that are outstanding, as the speakers hold them now. Of a faulty neighbour a node has heard 1, which is its own byte: no news.
    pub fn news(&self) -> Vec<Word> {
        let working = (0..).zip(self.state.chunks_exact(7)).filter(|(_, bytes)| bytes[0] != 1);
        let pairs =
            working.flat_map(|(listener, bytes)| (0..).zip(&bytes[1..]).map(move |(direction, heard)| (listener, direction, *heard)));
        let news = pairs.filter_map(|(listener, direction, heard)| {
            let word = self.speaker(listener, direction)?;
            (word != heard).then(|| Word { listener, direction, word: u32::from(word) })
        });
        news.collect()
    }

    /// A node hears a word from its neighbour in a direction. A late word takes nothing away. Refusals: 5, 7, 8.
    pub fn hear(&mut self, listener: u32, direction: u32, word: u32) -> Result<(), Refusal> {
        self.sizes.hear(self.orientation, listener, direction, word, &mut self.state)
    }

    fn seven(&self, node: u32) -> Option<&[u8]> {
        self.state.chunks_exact(7).nth(node as usize)
    }

    /// The own byte of a node's neighbour in a direction, if there is one.
    fn speaker(&self, node: u32, direction: u32) -> Option<u8> {
        let next = self.sizes.step(self.sizes.place(node).ok()?, direction).ok()??;
        self.own(self.sizes.number(next).ok()?).map(Mark::byte)
    }
}
