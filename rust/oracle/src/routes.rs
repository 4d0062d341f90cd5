//! "Routes", by plain search over lengths through working nodes, in every direction: a path is a walk as short as the differences allow.
use crate::map::{counted, refuse_if, Map, Refused};

/// The least number of hops from a node to each node through working nodes, as far as `most`.
fn lengths(map: &Map, from: usize, most: u32) -> Vec<Option<u32>> {
    let mut length = vec![None; map.nodes()];
    length[from] = Some(0);
    let mut last = vec![from];
    for hops in 1..=most {
        let mut found = Vec::new();
        for node in last {
            for q in (0..6).filter_map(|direction| map.neighbour(node, direction)) {
                if !map.faulty[q] && length[q].is_none() {
                    length[q] = Some(hops);
                    found.push(q);
                }
            }
        }
        last = found;
    }
    length
}

/// "the sum of the sizes of the differences"
fn hops(map: &Map, from: usize, to: usize) -> u32 {
    let (p, q) = (map.places[from], map.places[to]);
    (0..3).map(|axis| p[axis].abs_diff(q[axis])).sum()
}

/// Whether a path leads from one working node to another.
fn leads(map: &Map, from: usize, to: usize) -> bool {
    let wanted = hops(map, from, to);
    lengths(map, from, wanted)[to] == Some(wanted)
}

/// "a byte with bit k for direction k, set when a path to the end begins that way"
fn offered(map: &Map, at: usize, end: usize) -> u32 {
    let mut byte = 0;
    for direction in 0..6 {
        if let Some(q) = map.neighbour(at, direction) {
            if !map.faulty[q] && hops(map, q, end) + 1 == hops(map, at, end) && leads(map, q, end) {
                byte |= 1 << direction;
            }
        }
    }
    byte
}

/// The map, the start and the end. 1 2 4 5 9
fn asked(size: [u32; 3], start: u32, end: u32, cells: &[u8]) -> Result<(Map, usize, usize), Refused> {
    let map = Map::checked(size, cells)?;
    let (start, end) = (start as usize, end as usize);
    refuse_if(start >= map.nodes() || end >= map.nodes(), 5)?;
    refuse_if(map.faulty[start] || map.faulty[end], 9)?;
    Ok((map, start, end))
}

/// refusal, bad, hops, offered. 1 2 4 5 9 10
pub fn verdict(size: [u32; 3], start: u32, end: u32, cells: &[u8]) -> [u32; 4] {
    let answer = asked(size, start, end, cells).and_then(|(map, start, end)| {
        refuse_if(!leads(&map, start, end), 10)?;
        Ok((hops(&map, start, end), offered(&map, start, end)))
    });
    match answer {
        Ok((hops, offered)) => [0, 0, hops, offered],
        Err(r) => [r.number, r.bad, 0, 0],
    }
}

/// refusal, bad, count. 1 2 4 5 9 10 3
pub fn route(size: [u32; 3], start: u32, end: u32, cells: &[u8], out: &mut [u16]) -> [u32; 3] {
    counted((|| {
        let (map, start, end) = asked(size, start, end, cells)?;
        refuse_if(!leads(&map, start, end), 10)?;
        // "the path that takes the lowest-numbered offered direction at each node"
        let mut route = vec![start];
        let mut at = start;
        while at != end {
            let lowest = offered(&map, at, end).trailing_zeros() as usize;
            at = map.neighbour(at, lowest).unwrap();
            route.push(at);
        }
        refuse_if(out.len() < route.len(), 3)?;
        for (place, node) in out.iter_mut().zip(&route) {
            *place = *node as u16;
        }
        Ok(route.len())
    })())
}

/// refusal, bad, count. A node is reached if a path to the end may begin by a path to it: what it is from the start, and what is left to the
/// end, make up the hops from start to end. 1 2 4 5 9 3
pub fn reached(size: [u32; 3], start: u32, end: u32, cells: &[u8], out: &mut [u8]) -> [u32; 3] {
    counted((|| {
        let (map, start, end) = asked(size, start, end, cells)?;
        refuse_if(out.len() < map.nodes(), 3)?;
        let whole = hops(&map, start, end);
        let length = lengths(&map, start, whole);
        let mut count = 0;
        for node in 0..map.nodes() {
            let is = length[node].map_or(false, |so_far| so_far + hops(&map, node, end) == whole);
            out[node] = u8::from(is);
            count += usize::from(is);
        }
        Ok(count)
    })())
}
