use crate::{check_map, check_orientation, refused, Refused, Sizes};

const FAULTY: u8 = 1;
const ABSENT: u8 = 8;

pub fn fresh(size: [u32; 3], orientation: u32, cells: &[u8], state: &mut [u8]) -> Result<(), Refused> {
    let sizes = check_state(size, state)?;
    check_map(size, cells)?;
    check_orientation(orientation)?;
    let rule = Rule::new(sizes, orientation);
    let links = Links::new(sizes);
    let mut node = 0;
    for z in 0..sizes.d {
        for y in 0..sizes.h {
            for x in 0..sizes.w {
                let bytes = &mut state[7 * node..7 * node + 7];
                if cells[node] == 1 {
                    bytes.copy_from_slice(&[FAULTY, 0, 0, 0, 0, 0, 0]);
                } else {
                    let there = links.there([x, y, z]);
                    for j in 0..6 {
                        bytes[1 + j] = if there[j] { cells[node.wrapping_add(links.step[j])] } else { ABSENT };
                    }
                    bytes[0] = rule.own(bytes);
                }
                node += 1;
            }
        }
    }
    Ok(())
}

pub fn sound(size: [u32; 3], orientation: u32, state: &[u8]) -> Result<(), Refused> {
    let sizes = check_state(size, state)?;
    check_orientation(orientation)?;
    scan(sizes, orientation, state)?;
    Ok(())
}

pub fn outstanding(size: [u32; 3], orientation: u32, state: &[u8]) -> Result<usize, Refused> {
    let sizes = check_state(size, state)?;
    check_orientation(orientation)?;
    scan(sizes, orientation, state)
}

pub fn hear(size: [u32; 3], orientation: u32, listener: u32, direction: u32, word: u32, state: &mut [u8]) -> Result<(), Refused> {
    let sizes = check_state(size, state)?;
    check_orientation(orientation)?;
    let (node, direction) = (listener as usize, direction as usize);
    if node >= sizes.nodes() || direction > 5 || word & !6 != 0 {
        return refused(5);
    }
    scan(sizes, orientation, state)?;
    let links = Links::new(sizes);
    if state[7 * node] == FAULTY || !links.there(sizes.place(node))[direction] {
        return refused(7);
    }
    let speaker = state[7 * node.wrapping_add(links.step[direction])];
    if speaker == FAULTY {
        return refused(7);
    }
    if word as u8 & !speaker != 0 {
        return refused(8);
    }
    let bytes = &mut state[7 * node..7 * node + 7];
    bytes[1 + direction] |= word as u8;
    bytes[0] = Rule::new(sizes, orientation).own(bytes);
    Ok(())
}

fn check_state(size: [u32; 3], state: &[u8]) -> Result<Sizes, Refused> {
    let sizes = Sizes::checked(size)?;
    if state.len() != 7 * sizes.nodes() {
        return refused(2);
    }
    Ok(sizes)
}

/// Refuses a state that is not sound, and counts the words outstanding in one that is.
#[inline(never)] // the same code for all three
fn scan(sizes: Sizes, orientation: u32, state: &[u8]) -> Result<usize, Refused> {
    let rule = Rule::new(sizes, orientation);
    let links = Links::new(sizes);
    let mut count = 0;
    let mut node = 0;
    for z in 0..sizes.d {
        for y in 0..sizes.h {
            for x in 0..sizes.w {
                let bytes = &state[7 * node..7 * node + 7];
                if bytes[0] == FAULTY {
                    if bytes[1..] != [0; 6] {
                        return refused(6);
                    }
                } else {
                    let there = links.there([x, y, z]);
                    for j in 0..6 {
                        let heard = bytes[1 + j];
                        let speaker = if there[j] { state[7 * node.wrapping_add(links.step[j])] } else { ABSENT };
                        let right = match speaker {
                            ABSENT | FAULTY => heard == speaker,
                            own => heard & !(own & 6) == 0,
                        };
                        if !right {
                            return refused(6);
                        }
                        count += usize::from(heard != speaker);
                    }
                    if bytes[0] != rule.own(bytes) {
                        return refused(6);
                    }
                }
                node += 1;
            }
        }
    }
    Ok(count)
}

/// The mark rule on the seven bytes of a node.
struct Rule {
    flat: bool,
    ahead: [usize; 3],
    behind: [usize; 3],
}

impl Rule {
    fn new(sizes: Sizes, orientation: u32) -> Rule {
        let down = [0, 1, 2].map(|axis| orientation as usize >> axis & 1);
        let heard = |flip: usize| [0, 1, 2].map(|axis| 1 + 2 * axis + (down[axis] ^ flip));
        Rule { flat: sizes.d == 1, ahead: heard(0), behind: heard(1) }
    }

    fn own(&self, bytes: &[u8]) -> u8 {
        let all =
            |[x, y, z]: [usize; 3], blocks: u8| bytes[x] & blocks != 0 && bytes[y] & blocks != 0 && (self.flat || bytes[z] & blocks != 0);
        2 * u8::from(all(self.ahead, 1 | 2)) + 4 * u8::from(all(self.behind, 1 | 4))
    }
}

/// The six links of a node: whether each is there, and by how much it changes the node's number.
struct Links {
    sizes: Sizes,
    step: [usize; 6],
}

impl Links {
    fn new(sizes: Sizes) -> Links {
        let (row, layer) = (sizes.w, sizes.w * sizes.h);
        Links { sizes, step: [1, 1_usize.wrapping_neg(), row, row.wrapping_neg(), layer, layer.wrapping_neg()] }
    }

    fn there(&self, [x, y, z]: [usize; 3]) -> [bool; 6] {
        let Sizes { w, h, d } = self.sizes;
        [x + 1 < w, x > 0, y + 1 < h, y > 0, z + 1 < d, z > 0]
    }
}
