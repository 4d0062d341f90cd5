use super::{add, check_map, pack, refused, spread, Sizes};
use plain::Refused;

/// The rows of a mesh: that of y and z has number y + h * z.
type Rows = [u16; 256];

pub fn marks(size: [u32; 3], orientation: u32, cells: &[u8], out: &mut [u8]) -> Result<(), Refused> {
    let sizes = check_map(size, cells)?;
    if orientation > 7 {
        return refused(5);
    }
    let out = match out.get_mut(..cells.len()) {
        Some(out) => out,
        None => return refused(3),
    };
    out.copy_from_slice(cells);
    match sizes.w {
        16 => mark(Sizes { w: 16, ..sizes }, orientation, out), // of rows whose length is known no test is left
        _ => mark(sizes, orientation, out),
    }
    Ok(())
}

/// Adds the marks to the cells of a map.
#[inline(always)]
fn mark(sizes: Sizes, orientation: u32, map: &mut [u8]) {
    // what is ahead in one orientation is behind in the opposite one, and in one of the two X runs up
    let opposite = orientation & 1 != 0;
    let order = Order::new(sizes, if opposite { 7 - orientation } else { orientation });
    let mut behind = [0; 256];
    for (row, cells) in behind.iter_mut().zip(map.chunks_exact(sizes.w)) {
        *row = pack(cells, false);
    }
    if !order.may_mark(&behind) {
        return;
    }
    let mut ahead = behind;
    order.turn(&mut ahead);
    order.sweep([&mut behind, &mut ahead]);
    order.turn(&mut ahead);
    let (useless, cant_reach) = if opposite { (&behind, &ahead) } else { (&ahead, &behind) };
    for ((bytes, useless), cant_reach) in map.chunks_exact_mut(sizes.w).zip(useless).zip(cant_reach) {
        // where few nodes are faulty, few rows have marks
        if useless | cant_reach != 0 {
            add(bytes, |k| spread(*useless, false, k) << 1 | spread(*cant_reach, false, k) << 2);
        }
    }
}

/// Which way Y and Z run. X runs up.
struct Order {
    sizes: Sizes,
    y_down: bool,
    z_down: bool,
}

impl Order {
    fn new(sizes: Sizes, orientation: u32) -> Order {
        Order { sizes, y_down: orientation & 2 != 0, z_down: orientation & 4 != 0 }
    }

    /// Turns the mesh around, so that its last node comes first.
    fn turn(&self, rows: &mut Rows) {
        let rows = &mut rows[..self.sizes.h * self.sizes.d];
        rows.reverse();
        for row in rows {
            *row = row.reverse_bits();
        }
    }

    /// False if no working node has faulty neighbours on all axes, be it ahead or behind: then there are no marks. That the last row of a layer
    /// is no neighbour of the first row of the next is not asked.
    fn may_mark(&self, faulty: &Rows) -> bool {
        let Sizes { h, d, .. } = self.sizes;
        if d == 1 {
            return true;
        }
        let n = h * d - h;
        let (near, far) = if self.z_down { (&faulty[h..h + n], &faulty[..n]) } else { (&faulty[..n], &faulty[h..h + n]) };
        let (low, high) = if self.y_down { (1..n, 0..n - 1) } else { (0..n - 1, 1..n) };
        let near = near[low.clone()].iter().zip(&near[high.clone()]);
        let far = far[low].iter().zip(&far[high]);
        let mut any = 0;
        for ((near_low, near_high), (far_low, far_high)) in near.zip(far) {
            any |= !far_high & far_high << 1 & far_low & near_high;
            any |= !near_low & near_low >> 1 & near_high & far_low;
        }
        any != 0
    }

    /// Puts the nodes that are blocked behind in the place of the faulty ones, in two meshes at a time.
    fn sweep(&self, mut meshes: [&mut Rows; 2]) {
        let Sizes { h, d, .. } = self.sizes;
        // what blocks on Z: in a flat mesh everything
        let mut layer = [[if d == 1 { u16::MAX } else { 0 }; 2]; 16];
        for c in 0..d {
            let z = if self.z_down { d - 1 - c } else { c };
            let mut last = [0; 2];
            for (b, before) in layer[..h].iter_mut().enumerate() {
                let y = if self.y_down { h - 1 - b } else { b };
                for ((rows, last), before) in meshes.iter_mut().zip(&mut last).zip(before) {
                    let row = &mut rows[y + h * z];
                    let faulty = *row;
                    *row = blocked(faulty, *last, *before);
                    *last = faulty | *row;
                    *before = *last;
                }
            }
        }
    }
}

/// The working nodes of a row that are blocked behind, by what blocks in the rows before it on Y and Z.
fn blocked(faulty: u16, y: u16, z: u16) -> u16 {
    let may = y & z & !faulty;
    // the sum carries from next to a faulty node through all that may be blocked
    may & !may.wrapping_add(faulty << 1)
}
