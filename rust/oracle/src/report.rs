//! The text that the program `meshreport` prints for a map file.
use crate::components::{components, Component};
use crate::mapfile::read_map;
use crate::marks::{marks, CANT_REACH, FAULTY, USELESS};
use std::fmt::Write;

/// "First line: sizes and count of faulty nodes. Then one line for each orientation (0 to 3 if flat, else 0 to 7): working nodes with the
/// useless mark, with the can't-reach mark, number of components. A refusal prints `refused` and its number, alone."
pub fn report(file: &[u8]) -> String {
    let mut room = vec![0; 4096];
    let [refusal, _, w, h, d] = read_map(file, &mut room);
    if refusal != 0 {
        return format!("refused {refusal}\n");
    }
    let cells = &room[..(w * h * d) as usize];
    let mut text = format!("mesh {w} {h} {d} faulty {}\n", cells.iter().filter(|cell| **cell == 1).count());
    for orientation in 0..if d == 1 { 4 } else { 8 } {
        let mut bytes = vec![0; cells.len()];
        marks([w, h, d], orientation, cells, &mut bytes);
        let with = |mark: u8| bytes.iter().filter(|byte| **byte != FAULTY && **byte & mark != 0).count();
        let mut row = vec![Component { count: 0, least: [0; 3], greatest: [0; 3] }; cells.len()];
        let [_, _, count] = components([w, h, d], orientation, cells, &mut vec![0; cells.len()], &mut row);
        let (useless, cannot_reach) = (with(USELESS), with(CANT_REACH));
        writeln!(text, "octant {orientation} useless {useless} cannot-reach {cannot_reach} components {count}").unwrap();
    }
    text
}
