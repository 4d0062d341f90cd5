//! The text that the program `samplerun` prints for a map file: every unsafe node and every component in orientation 0.
use crate::components::{components, Component};
use crate::map::Map;
use crate::mapfile::read_map;
use crate::marks::marks;
use std::fmt::Write;

/// A line for each unsafe node, by node number, then a line for each component; nothing where the file is refused.
pub fn listing(file: &[u8]) -> String {
    let mut room = vec![0; 4096];
    let [refusal, _, w, h, d] = read_map(file, &mut room);
    let mut text = String::new();
    if refusal != 0 {
        return text;
    }
    let size = [w, h, d];
    let nodes = (w * h * d) as usize;
    let cells = &room[..nodes];
    let (mut bytes, mut table) = (vec![0; nodes], vec![0; nodes]);
    let mut row = vec![Component { count: 0, least: [0; 3], greatest: [0; 3] }; nodes];
    marks(size, 0, cells, &mut bytes);
    let [_, _, count] = components(size, 0, cells, &mut table, &mut row);
    let places = Map::checked(size, cells).unwrap().places;
    for node in (0..nodes).filter(|node| bytes[*node] != 0) {
        let [x, y, z] = places[node];
        writeln!(text, "place {x} {y} {z} mark {} component {}", bytes[node], table[node]).unwrap();
    }
    for (i, c) in row[..count as usize].iter().enumerate() {
        let ([x0, y0, z0], [x1, y1, z1]) = (c.least, c.greatest);
        writeln!(text, "component {} nodes {} from {x0} {y0} {z0} to {x1} {y1} {z1}", i + 1, c.count).unwrap();
    }
    text
}
