//! "Components", by handing lower numbers on until nothing changes.
use crate::map::{counted, refuse_if, Map};
use crate::marks::marks_of;

/// "count of nodes, least and greatest coordinate on each axis"
#[repr(C)]
#[derive(Clone, Copy, Debug, PartialEq, Eq)]
pub struct Component {
    pub count: u16,
    pub least: [u8; 3],
    pub greatest: [u8; 3],
}

/// "Two unsafe nodes touch if their coordinates differ by 1 on one or two axes and by 0 on the others": the nodes at such places.
fn touching(map: &Map, node: usize) -> Vec<usize> {
    let [x, y, z] = map.places[node];
    let mut found = Vec::new();
    for i in -1..=1 {
        for j in -1..=1 {
            for k in -1..=1 {
                let by_one = [i, j, k].iter().filter(|difference| **difference != 0).count();
                if by_one == 1 || by_one == 2 {
                    found.extend(map.node_at([x + i, y + j, z + k]));
                }
            }
        }
    }
    found
}

/// For each unsafe node the lowest node of its component: at first itself, then the lowest of those that touch it, until nothing changes.
fn lowest(map: &Map, marks: &[u8]) -> Vec<Option<usize>> {
    let mut low: Vec<Option<usize>> = (0..map.nodes()).map(|node| (marks[node] != 0).then_some(node)).collect();
    let beside: Vec<Vec<usize>> = (0..map.nodes())
        .map(|node| match low[node] {
            Some(_) => touching(map, node).into_iter().filter(|q| marks[*q] != 0).collect(),
            None => Vec::new(),
        })
        .collect();
    loop {
        let mut changed = false;
        for node in 0..map.nodes() {
            for q in &beside[node] {
                if low[*q] < low[node] {
                    low[node] = low[*q];
                    changed = true;
                }
            }
        }
        if !changed {
            return low;
        }
    }
}

fn record(map: &Map, low: &[Option<usize>], lowest: usize) -> Component {
    let mut made = Component { count: 0, least: [u8::MAX; 3], greatest: [0; 3] };
    for node in (0..map.nodes()).filter(|node| low[*node] == Some(lowest)) {
        made.count += 1;
        for axis in 0..3 {
            let at = map.places[node][axis] as u8;
            made.least[axis] = made.least[axis].min(at);
            made.greatest[axis] = made.greatest[axis].max(at);
        }
    }
    made
}

/// refusal, bad, count. 1 2 4 5 3
pub fn components(size: [u32; 3], orientation: u32, cells: &[u8], table: &mut [u16], row: &mut [Component]) -> [u32; 3] {
    counted((|| {
        let map = Map::checked(size, cells)?;
        refuse_if(orientation > 7, 5)?;
        let low = lowest(&map, &marks_of(&map, orientation));
        // "Components are numbered from 1 by their lowest node number."
        let firsts: Vec<usize> = (0..map.nodes()).filter(|node| low[*node] == Some(*node)).collect();
        refuse_if(table.len() < map.nodes() || row.len() < firsts.len(), 3)?;
        for node in 0..map.nodes() {
            table[node] = low[node].map_or(0, |first| 1 + firsts.iter().position(|f| *f == first).unwrap() as u16);
        }
        for (i, first) in firsts.iter().enumerate() {
            row[i] = record(&map, &low, *first);
        }
        Ok(firsts.len())
    })())
}
