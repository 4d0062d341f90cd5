use crate::{check_map, check_orientation, refused, Refused, Sizes};

const USELESS: u8 = 2;
const CANT_REACH: u8 = 4;

pub fn marks(size: [u32; 3], orientation: u32, cells: &[u8], out: &mut [u8]) -> Result<(), Refused> {
    let sizes = check_map(size, cells)?;
    check_orientation(orientation)?;
    match out.get_mut(..cells.len()) {
        Some(out) => mark(sizes, orientation, cells, out),
        None => return refused(3),
    }
    Ok(())
}

/// The marks of a map, as many as it has cells.
pub(crate) fn mark(sizes: Sizes, orientation: u32, cells: &[u8], out: &mut [u8]) {
    out.copy_from_slice(cells);
    sweep(sizes, orientation, USELESS, out);
    sweep(sizes, 7 - orientation, CANT_REACH, out);
}

/// Adds one mark, from the far end of each axis: what is ahead of a node is then known. At the far end itself nothing is marked.
fn sweep(Sizes { w, h, d }: Sizes, orientation: u32, mark: u8, out: &mut [u8]) {
    let [x_down, y_down, z_down] = [1, 2, 4].map(|bit| orientation & bit != 0);
    let step = |down: bool, by: usize| if down { by.wrapping_neg() } else { by };
    let (ahead_x, ahead_y, ahead_z) = (step(x_down, 1), step(y_down, w), step(z_down, w * h));
    let flat = d == 1;
    for c in usize::from(!flat)..d {
        let z = if z_down { c } else { d - 1 - c };
        for b in 1..h {
            let y = if y_down { b } else { h - 1 - b };
            for a in 1..w {
                let x = if x_down { a } else { w - 1 - a };
                let node = x + w * (y + h * z);
                let blocked = |ahead: usize| out[node.wrapping_add(ahead)] & (1 | mark) != 0;
                if out[node] != 1 && blocked(ahead_x) && blocked(ahead_y) && (flat || blocked(ahead_z)) {
                    out[node] |= mark;
                }
            }
        }
    }
}
