//! Maps of cubes, and states of them.
use dukthari::Sizes;
use std::fmt;

/// A mesh that is as wide as high as deep.
#[derive(Clone, Copy)]
pub struct Cube {
    pub side: u32,
}

impl Cube {
    pub fn size(self) -> [u32; 3] {
        [self.side; 3]
    }

    pub fn sizes(self) -> Sizes {
        Sizes { w: self.side, h: self.side, d: self.side }
    }

    pub fn nodes(self) -> usize {
        self.side.pow(3) as usize
    }

    fn node(self, [x, y, z]: [u32; 3]) -> u32 {
        x + self.side * (y + self.side * z)
    }
}

impl fmt::Display for Cube {
    fn fmt(&self, f: &mut fmt::Formatter) -> fmt::Result {
        write!(f, "{0} × {0} × {0}", self.side)
    }
}

/// Every place of a cube, in node order.
pub fn places(cube: Cube) -> Vec<[u32; 3]> {
    let by = cube.side;
    (0..cube.nodes() as u32).map(|node| [node % by, node / by % by, node / by / by]).collect()
}

/// Numbers that look random and are the same in each run.
pub struct Random(u64);

impl Random {
    pub fn new(seed: u64) -> Random {
        Random(seed)
    }

    pub fn below(&mut self, n: usize) -> usize {
        self.0 ^= self.0 << 13;
        self.0 ^= self.0 >> 7;
        self.0 ^= self.0 << 17;
        (self.0 % n as u64) as usize
    }
}

/// Some maps of which so many cells in a hundred are faulty.
pub fn maps(cube: Cube, percent: usize, count: usize) -> Vec<Vec<u8>> {
    let mut r = Random::new(0x1234_5678_9ABC_DEF1 + percent as u64);
    (0..count).map(|_| (0..cube.nodes()).map(|_| u8::from(r.below(100) < percent)).collect()).collect()
}

/// A start, an end, and a map on which a path joins them.
pub struct Pair {
    pub cells: Vec<u8>,
    pub start: u32,
    pub end: u32,
}

/// From corner to corner, each of the eight corners by turns.
pub fn corners(cube: Cube, percent: usize) -> Vec<Pair> {
    let mut pairs = Vec::new();
    for (i, cells) in maps(cube, percent, 400).into_iter().enumerate() {
        let last = cube.side - 1;
        let far = [0, 1, 2].map(|axis| if i >> axis & 1 == 0 { last } else { 0 });
        let (start, end) = (cube.node(far.map(|n| last - n)), cube.node(far));
        if pairs.len() < 16 && plain::verdict(cube.size(), start, end, &cells).is_ok() {
            pairs.push(Pair { cells, start, end });
        }
    }
    assert_eq!(pairs.len(), 16, "too few maps with a path at {percent} %");
    pairs
}

/// Ends that lie so many steps apart on each axis, anywhere on a map.
pub fn near(cube: Cube, percent: usize, [a, b, c]: [u32; 3]) -> Vec<Pair> {
    let mut r = Random::new(77);
    let mut pairs = Vec::new();
    for cells in maps(cube, percent, 16) {
        let (start, end) = loop {
            let start = [a, b, c].map(|n| r.below((cube.side - n) as usize) as u32);
            let (s, e) = (cube.node(start), cube.node([start[0] + a, start[1] + b, start[2] + c]));
            if plain::verdict(cube.size(), s, e, &cells).is_ok() {
                break (s, e);
            }
        };
        pairs.push(Pair { cells, start, end });
    }
    pairs
}

/// A settled state: each own byte is the mark, each word heard is the neighbour's own byte. With it the words that are heard once more.
pub struct Settled {
    pub orientation: u32,
    pub state: Vec<u8>,
    pub words: Vec<(u32, u32, u32)>,
}

pub fn settled(cube: Cube, percent: usize) -> Settled {
    let cells = maps(cube, percent, 1).remove(0);
    let orientation = 5;
    let mut marks = vec![0; cube.nodes()];
    plain::marks(cube.size(), orientation, &cells, &mut marks).unwrap();
    let mut state = Vec::new();
    let mut words = Vec::new();
    for node in 0..cube.nodes() {
        state.push(marks[node]);
        for direction in 0..6 {
            let heard = match neighbour(cube, node, direction) {
                _ if cells[node] == 1 => 0,
                None => 8,
                Some(q) => marks[q],
            };
            state.push(heard);
            if cells[node] == 0 && [0, 2, 4, 6].contains(&heard) {
                words.push((node as u32, direction as u32, heard.into()));
            }
        }
    }
    assert_eq!(plain::outstanding(cube.size(), orientation, &state), Ok(0));
    Settled { orientation, state, words }
}

pub fn neighbour(cube: Cube, node: usize, direction: usize) -> Option<usize> {
    let side = cube.side as usize;
    let by = [1, side, side * side][direction / 2];
    let at = node / by % side;
    if direction % 2 == 0 {
        (at + 1 < side).then(|| node + by)
    } else {
        (at > 0).then(|| node - by)
    }
}
