//! A map of working and faulty nodes, and the checks that come first in a call.
use crate::mesh::in_range;

/// "Directions: 0 is +X, 1 −X, 2 +Y, 3 −Y, 4 +Z, 5 −Z."
const STEPS: [[i32; 3]; 6] = [[1, 0, 0], [-1, 0, 0], [0, 1, 0], [0, -1, 0], [0, 0, 1], [0, 0, -1]];

/// A refusal's number, and for 4 "the node number of the first bad cell".
#[derive(Clone, Copy, Debug, PartialEq, Eq)]
pub struct Refused {
    pub number: u32,
    pub bad: u32,
}

pub fn refuse_if(cause: bool, number: u32) -> Result<(), Refused> {
    if cause {
        Err(Refused { number, bad: 0 })
    } else {
        Ok(())
    }
}

/// "A granted call returns number 0 with its values. A refusal returns its number and 0 for every value": refusal, bad
pub fn done(answer: Result<(), Refused>) -> [u32; 2] {
    match answer {
        Ok(()) => [0, 0],
        Err(r) => [r.number, r.bad],
    }
}

/// refusal, bad, count
pub fn counted(answer: Result<usize, Refused>) -> [u32; 3] {
    match answer {
        Ok(count) => [0, 0, count as u32],
        Err(r) => [r.number, r.bad, 0],
    }
}

/// A mesh with its places in node order, and which of them are faulty.
pub struct Map {
    size: [i32; 3],
    pub places: Vec<[i32; 3]>,
    pub faulty: Vec<bool>,
}

impl Map {
    /// The mesh of these sizes, with no faulty node. 1: "W, H or D outside its range".
    pub fn new(size: [u32; 3]) -> Result<Map, Refused> {
        refuse_if(!in_range(size), 1)?;
        let size = size.map(|n| n as i32);
        let mut places = Vec::new();
        for z in 0..size[2] {
            for y in 0..size[1] {
                for x in 0..size[0] {
                    places.push([x, y, z]);
                }
            }
        }
        let faulty = vec![false; places.len()];
        Ok(Map { size, places, faulty })
    }

    /// The map of these cells. 1; 2: "cells not exactly N bytes"; 4: "a cell above 1".
    pub fn checked(size: [u32; 3], cells: &[u8]) -> Result<Map, Refused> {
        let mut map = Map::new(size)?;
        refuse_if(cells.len() != map.nodes(), 2)?;
        for (node, cell) in cells.iter().enumerate() {
            if *cell > 1 {
                return Err(Refused { number: 4, bad: node as u32 });
            }
            map.faulty[node] = *cell == 1;
        }
        Ok(map)
    }

    pub fn nodes(&self) -> usize {
        self.places.len()
    }

    /// "Node (x, y, z) has number x + W × (y + H × z)", if it is in the mesh.
    pub fn node_at(&self, [x, y, z]: [i32; 3]) -> Option<usize> {
        let [w, h, d] = self.size;
        let inside = 0 <= x && x < w && 0 <= y && y < h && 0 <= z && z < d;
        inside.then(|| (x + w * (y + h * z)) as usize)
    }

    /// A node's neighbour in a direction, if there is one.
    pub fn neighbour(&self, node: usize, direction: usize) -> Option<usize> {
        let [x, y, z] = self.places[node];
        let [i, j, k] = STEPS[direction];
        self.node_at([x + i, y + j, z + k])
    }

    /// "An axis counts if its size is 2 or more."
    pub fn counted_axes(&self) -> impl Iterator<Item = usize> + '_ {
        (0..3).filter(|axis| self.size[*axis] >= 2)
    }
}

/// "Orientation 0 to 7: bit 0 set means X runs down, bit 1 Y, bit 2 Z. 'Ahead' is the running direction on an axis, 'behind' its opposite."
pub fn ahead(orientation: u32, axis: usize) -> usize {
    let runs_down = orientation >> axis & 1 == 1;
    2 * axis + usize::from(runs_down)
}

pub fn behind(orientation: u32, axis: usize) -> usize {
    let runs_down = orientation >> axis & 1 == 1;
    2 * axis + usize::from(!runs_down)
}
