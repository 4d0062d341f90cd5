//! "The two marks", by applying the rules to all nodes until nothing changes.
use crate::map::{ahead, behind, done, refuse_if, Map};

/// "Mark byte: 0 none, 1 faulty, 2 useless, 4 can't-reach, 6 both."
pub const FAULTY: u8 = 1;
pub const USELESS: u8 = 2;
pub const CANT_REACH: u8 = 4;

/// The marks that a working node gets where `read` tells the byte at its neighbour in each direction, if one exists. "A working node is
/// *useless* if on every counted axis its neighbour ahead exists and is faulty or useless. It is *can't-reach* if on every counted axis its
/// neighbour behind exists and is faulty or can't-reach."
pub fn rule(map: &Map, orientation: u32, read: impl Fn(usize) -> Option<u8>) -> u8 {
    let blocked = |direction: usize, mark: u8| read(direction).map_or(false, |byte| byte == FAULTY || byte & mark != 0);
    let useless = map.counted_axes().all(|axis| blocked(ahead(orientation, axis), USELESS));
    let cant_reach = map.counted_axes().all(|axis| blocked(behind(orientation, axis), CANT_REACH));
    (if useless { USELESS } else { 0 }) + (if cant_reach { CANT_REACH } else { 0 })
}

pub fn marks_of(map: &Map, orientation: u32) -> Vec<u8> {
    let mut bytes: Vec<u8> = map.faulty.iter().map(|faulty| if *faulty { FAULTY } else { 0 }).collect();
    loop {
        let mut changed = false;
        for node in 0..map.nodes() {
            if !map.faulty[node] {
                let byte = rule(map, orientation, |direction| map.neighbour(node, direction).map(|q| bytes[q]));
                changed |= byte != bytes[node];
                bytes[node] = byte;
            }
        }
        if !changed {
            return bytes;
        }
    }
}

/// refusal, bad. 1 2 4 5 3
pub fn marks(size: [u32; 3], orientation: u32, cells: &[u8], out: &mut [u8]) -> [u32; 2] {
    done((|| {
        let map = Map::checked(size, cells)?;
        refuse_if(orientation > 7, 5)?;
        refuse_if(out.len() < map.nodes(), 3)?;
        out[..map.nodes()].copy_from_slice(&marks_of(&map, orientation));
        Ok(())
    })())
}
