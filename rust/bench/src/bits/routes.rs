use super::{add, check_map, pack, refused, spread, Sizes};
use plain::{Refused, Verdict};

/// The rows of a box: that after b steps along Y and c along Z stands at c, b.
type Rows = [[u16; 16]; 16];

pub fn verdict(size: [u32; 3], start: u32, end: u32, cells: &[u8]) -> Result<Verdict, Refused> {
    let way = Way::checked(size, end, start, cells)?;
    let mut seen = [[0; 16]; 16];
    way.flood(cells, &mut seen);
    let [a, b, c] = way.steps;
    let x = way.bit << a;
    if seen[c][b] & x == 0 {
        return refused(10);
    }
    let leads = [seen[c][b] & x >> 1 != 0, b > 0 && seen[c][b - 1] & x != 0, c > 0 && seen[c - 1][b] & x != 0];
    let offered = (0..3).map(|axis| u32::from(leads[axis]) << (2 * axis + usize::from(!way.down[axis]))).sum();
    Ok(Verdict { hops: (a + b + c) as u32, offered })
}

pub fn route(size: [u32; 3], start: u32, end: u32, cells: &[u8], out: &mut [u16]) -> Result<usize, Refused> {
    let way = Way::checked(size, end, start, cells)?;
    let mut seen = [[0; 16]; 16];
    way.flood(cells, &mut seen);
    let [a, mut b, mut c] = way.steps;
    let mut x = way.bit << a;
    if seen[c][b] & x == 0 {
        return refused(10);
    }
    let out = match out.get_mut(..a + b + c + 1) {
        Some(out) => out,
        None => return refused(3),
    };
    let mut node = start as usize;
    for place in out.iter_mut() {
        *place = node as u16;
        if seen[c][b] & x >> 1 != 0 {
            x >>= 1;
            node = node.wrapping_sub(way.step[0]);
        } else if b > 0 && seen[c][b - 1] & x != 0 {
            b -= 1;
            node = node.wrapping_sub(way.step[1]);
        } else if c > 0 {
            c -= 1;
            node = node.wrapping_sub(way.step[2]);
        }
    }
    Ok(out.len())
}

pub fn reached(size: [u32; 3], start: u32, end: u32, cells: &[u8], out: &mut [u8]) -> Result<usize, Refused> {
    let way = Way::checked(size, start, end, cells)?;
    let out = match out.get_mut(..cells.len()) {
        Some(out) => out,
        None => return refused(3),
    };
    let mut seen = [[0; 16]; 16];
    way.flood(cells, &mut seen);
    out.fill(0);
    let [_, ny, nz] = way.steps;
    let mut count = 0;
    for (c, layer) in seen[..=nz].iter().enumerate() {
        for (b, row) in layer[..=ny].iter().enumerate() {
            let at = way.row(b, c);
            add(&mut out[at..at + way.w], |k| spread(*row, way.down[0], k));
        }
        count += layer.iter().map(|row| row.count_ones() as u16).sum::<u16>();
    }
    Ok(count.into())
}

/// The box between two nodes, in steps from the first to the second. Where X runs down its rows are turned, so that a step on X is always to the
/// next higher bit.
struct Way {
    w: usize,
    /// Where the row of the first node begins.
    row: usize,
    /// The first node in its row.
    bit: u16,
    down: [bool; 3],
    /// On each axis how many steps, and by how much one changes the node's number.
    steps: [usize; 3],
    step: [usize; 3],
}

impl Way {
    fn checked(size: [u32; 3], from: u32, to: u32, cells: &[u8]) -> Result<Way, Refused> {
        let sizes = check_map(size, cells)?;
        let (from, to) = (from as usize, to as usize);
        if from >= cells.len() || to >= cells.len() {
            return refused(5);
        }
        if cells[from] == 1 || cells[to] == 1 {
            return refused(9);
        }
        Ok(Way::new(sizes, from, to))
    }

    fn new(sizes: Sizes, from: usize, to: usize) -> Way {
        let (first, last) = (sizes.place(from), sizes.place(to));
        let down = [0, 1, 2].map(|axis| first[axis] > last[axis]);
        let stride = [1, sizes.w, sizes.w * sizes.h];
        Way {
            w: sizes.w,
            row: from - first[0],
            bit: if down[0] { 1 << (15 - first[0]) } else { 1 << first[0] },
            down,
            steps: [0, 1, 2].map(|axis| first[axis].abs_diff(last[axis])),
            step: [0, 1, 2].map(|axis| if down[axis] { stride[axis].wrapping_neg() } else { stride[axis] }),
        }
    }

    /// Where the row after b and c steps begins.
    fn row(&self, b: usize, c: usize) -> usize {
        self.row.wrapping_add(b.wrapping_mul(self.step[1])).wrapping_add(c.wrapping_mul(self.step[2]))
    }

    /// The nodes of the box that steps through working nodes lead to, from the first node on, which works.
    fn flood(&self, cells: &[u8], seen: &mut Rows) {
        let [nx, ny, nz] = self.steps;
        let inside = (u16::MAX >> (15 - nx)) * self.bit;
        let mut layer = [0; 16];
        layer[0] = self.bit;
        for (c, rows) in seen[..=nz].iter_mut().enumerate() {
            let mut last = 0;
            for (b, (row, before)) in rows[..=ny].iter_mut().zip(&mut layer).enumerate() {
                let at = self.row(b, c);
                let closed = pack(&cells[at..at + self.w], self.down[0]) | !inside;
                last = entered(closed, last | *before);
                *before = last;
                *row = last;
            }
        }
    }
}

/// The open nodes of a row that steps lead to, from those before it on Y and Z.
fn entered(closed: u16, before: u16) -> u16 {
    let first = before & !closed;
    // the difference borrows from each of these through all that is open
    first | closed.wrapping_sub(first) & !closed
}
