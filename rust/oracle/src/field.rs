//! "The talking nodes", from the paper's sentences, byte by byte.
use crate::map::{counted, done, refuse_if, Map, Refused};
use crate::marks::{rule, FAULTY};

/// "heard is 8 where no neighbour exists"
const ABSENT: u8 = 8;

fn is_word(byte: u32) -> bool {
    [0, 2, 4, 6].contains(&byte)
}

/// "Node k's own mark byte is at 7 × k"
fn own(state: &[u8], node: usize) -> u8 {
    state[7 * node]
}

/// "the word it has heard from its neighbour in direction j is at 7 × k + 1 + j"
fn heard(state: &[u8], node: usize, direction: usize) -> u8 {
    state[7 * node + 1 + direction]
}

/// "what the mark rule gives when it reads the heard bytes in place of its neighbours (1 blocks for both marks, 8 blocks for neither)"
fn ruled(map: &Map, orientation: u32, state: &[u8], node: usize) -> u8 {
    rule(map, orientation, |direction| match heard(state, node, direction) {
        ABSENT => None,
        byte => Some(byte),
    })
}

/// The mesh, with the nodes faulty that the state says: "(own byte 1)". 1 2
fn told(size: [u32; 3], state: &[u8]) -> Result<Map, Refused> {
    let mut map = Map::new(size)?;
    refuse_if(state.len() != 7 * map.nodes(), 2)?;
    for node in 0..map.nodes() {
        map.faulty[node] = own(state, node) == FAULTY;
    }
    Ok(map)
}

fn is_sound(map: &Map, orientation: u32, state: &[u8]) -> bool {
    (0..map.nodes()).all(|node| {
        if map.faulty[node] {
            // "A faulty node has own byte 1 and six zeros."
            return (0..6).all(|direction| heard(state, node, direction) == 0);
        }
        let heard_right = |direction| {
            let byte = heard(state, node, direction);
            match map.neighbour(node, direction) {
                None => byte == ABSENT,
                Some(q) if map.faulty[q] => byte == FAULTY,
                // "each word heard holds no mark that the neighbour's own byte lacks"
                Some(q) => is_word(byte.into()) && byte & !own(state, q) == 0,
            }
        };
        (0..6).all(heard_right) && own(state, node) == ruled(map, orientation, state, node)
    })
}

/// A state that is sound. 1 2 5 6
fn checked(size: [u32; 3], orientation: u32, state: &[u8]) -> Result<Map, Refused> {
    let map = told(size, state)?;
    refuse_if(orientation > 7, 5)?;
    refuse_if(!is_sound(&map, orientation, state), 6)?;
    Ok(map)
}

/// refusal, bad. 1 2 4 5
pub fn fresh(size: [u32; 3], orientation: u32, cells: &[u8], state: &mut [u8]) -> [u32; 2] {
    done((|| {
        let room = 7 * Map::new(size)?.nodes();
        refuse_if(state.len() != room, 2)?;
        let map = Map::checked(size, cells)?;
        refuse_if(orientation > 7, 5)?;
        for node in 0..map.nodes() {
            for direction in 0..6 {
                state[7 * node + 1 + direction] = match map.neighbour(node, direction) {
                    _ if map.faulty[node] => 0,
                    None => ABSENT,
                    Some(q) if map.faulty[q] => FAULTY,
                    Some(_) => 0,
                };
            }
            state[7 * node] = if map.faulty[node] { FAULTY } else { ruled(&map, orientation, state, node) };
        }
        Ok(())
    })())
}

/// refusal, bad. 1 2 5 6
pub fn sound(size: [u32; 3], orientation: u32, state: &[u8]) -> [u32; 2] {
    done(checked(size, orientation, state).map(|_| ()))
}

/// refusal, bad, count. 1 2 5 6
pub fn outstanding(size: [u32; 3], orientation: u32, state: &[u8]) -> [u32; 3] {
    counted((|| {
        let map = checked(size, orientation, state)?;
        // "ordered pairs of a working listener and a working neighbour whose own byte differs from the word heard"
        let mut count = 0;
        for listener in (0..map.nodes()).filter(|node| !map.faulty[*node]) {
            for direction in 0..6 {
                if let Some(speaker) = map.neighbour(listener, direction) {
                    if !map.faulty[speaker] && own(state, speaker) != heard(state, listener, direction) {
                        count += 1;
                    }
                }
            }
        }
        Ok(count)
    })())
}

/// refusal, bad. 1 2 5 6 7 8
pub fn hear(size: [u32; 3], orientation: u32, listener: u32, direction: u32, word: u32, state: &mut [u8]) -> [u32; 2] {
    done((|| {
        let map = told(size, state)?;
        refuse_if(orientation > 7 || listener as usize >= map.nodes() || direction > 5 || !is_word(word), 5)?;
        refuse_if(!is_sound(&map, orientation, state), 6)?;
        let (node, direction, word) = (listener as usize, direction as usize, word as u8);
        let speaker = map.neighbour(node, direction).filter(|q| !map.faulty[*q] && !map.faulty[node]);
        refuse_if(speaker.is_none(), 7)?;
        refuse_if(word & !own(state, speaker.unwrap()) != 0, 8)?;
        // "Hearing a word adds its marks to the one heard byte and then sets that node's own byte by the rule."
        state[7 * node + 1 + direction] |= word;
        state[7 * node] = ruled(&map, orientation, state, node);
        Ok(())
    })())
}
