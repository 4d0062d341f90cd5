use crate::{check_map, refused, Refused, Sizes};

#[derive(Clone, Copy, Debug, PartialEq, Eq)]
pub struct Verdict {
    pub hops: u32,
    pub offered: u32,
}

pub fn verdict(size: [u32; 3], start: u32, end: u32, cells: &[u8]) -> Result<Verdict, Refused> {
    let way = Way::checked(size, start, end, cells)?;
    let open = way.open(cells);
    if !open[0] {
        return refused(10);
    }
    Ok(Verdict { hops: way.hops() as u32, offered: way.offered(&open, [0; 3]) })
}

pub fn route(size: [u32; 3], start: u32, end: u32, cells: &[u8], out: &mut [u16]) -> Result<usize, Refused> {
    let way = Way::checked(size, start, end, cells)?;
    let open = way.open(cells);
    if !open[0] {
        return refused(10);
    }
    let out = match out.get_mut(..way.hops() + 1) {
        Some(out) => out,
        None => return refused(3),
    };
    let mut at = [0; 3];
    for node in out.iter_mut() {
        *node = way.node(at) as u16;
        if let Some(axis) = way.first_open(&open, at) {
            at[axis] += 1;
        }
    }
    Ok(out.len())
}

pub fn reached(size: [u32; 3], start: u32, end: u32, cells: &[u8], out: &mut [u8]) -> Result<usize, Refused> {
    let way = Way::checked(size, start, end, cells)?;
    let out = match out.get_mut(..cells.len()) {
        Some(out) => out,
        None => return refused(3),
    };
    out.fill(0);
    let mut count = 0;
    let [nx, ny, nz] = way.box_size();
    for z in 0..nz {
        for y in 0..ny {
            let first = way.node([0, y, z]);
            let mut behind = y == 0 && z == 0;
            for x in 0..nx {
                let node = first.wrapping_add(x.wrapping_mul(way.step[0]));
                let from = |axis: usize| out[node.wrapping_sub(way.step[axis])] == 1;
                let comes = behind | (y > 0 && from(1)) | (z > 0 && from(2));
                behind = comes & (cells[node] == 0);
                out[node] = u8::from(behind);
                count += usize::from(behind);
            }
        }
    }
    Ok(count)
}

/// A start and an end: how many steps on each axis, and by how much each changes the node's number. Places count from the start.
struct Way {
    start: usize,
    steps: [usize; 3],
    step: [usize; 3],
    direction: [u32; 3],
}

impl Way {
    fn checked(size: [u32; 3], start: u32, end: u32, cells: &[u8]) -> Result<Way, Refused> {
        let sizes = check_map(size, cells)?;
        let (start, end) = (start as usize, end as usize);
        if start >= cells.len() || end >= cells.len() {
            return refused(5);
        }
        if cells[start] == 1 || cells[end] == 1 {
            return refused(9);
        }
        Ok(Way::new(sizes, start, end))
    }

    fn new(sizes: Sizes, start: usize, end: usize) -> Way {
        let (from, to) = (sizes.place(start), sizes.place(end));
        let stride = [1, sizes.w, sizes.w * sizes.h];
        let mut way = Way { start, steps: [0; 3], step: stride, direction: [0, 2, 4] };
        for axis in 0..3 {
            if from[axis] <= to[axis] {
                way.steps[axis] = to[axis] - from[axis];
            } else {
                way.steps[axis] = from[axis] - to[axis];
                way.step[axis] = stride[axis].wrapping_neg();
                way.direction[axis] += 1;
            }
        }
        way
    }

    fn hops(&self) -> usize {
        self.steps.iter().sum()
    }

    fn box_size(&self) -> [usize; 3] {
        self.steps.map(|n| n + 1)
    }

    fn node(&self, at: [usize; 3]) -> usize {
        (0..3).fold(self.start, |node, axis| node.wrapping_add(at[axis].wrapping_mul(self.step[axis])))
    }

    fn index(&self, [x, y, z]: [usize; 3]) -> usize {
        let [nx, ny, _] = self.box_size();
        x + nx * (y + ny * z)
    }

    /// For each place of the box between start and end, whether a path leads from it to the end.
    fn open(&self, cells: &[u8]) -> Vec<bool> {
        let [nx, ny, nz] = self.box_size();
        let mut open = vec![false; nx * ny * nz];
        for z in (0..nz).rev() {
            for y in (0..ny).rev() {
                let (at, node) = (nx * (y + ny * z), self.node([0, y, z]));
                let mut ahead = y + 1 == ny && z + 1 == nz;
                for x in (0..nx).rev() {
                    let i = at + x;
                    let leads = ahead | (y + 1 < ny && open[i + nx]) | (z + 1 < nz && open[i + nx * ny]);
                    ahead = leads & (cells[node.wrapping_add(x.wrapping_mul(self.step[0]))] == 0);
                    open[i] = ahead;
                }
            }
        }
        open
    }

    fn leads(&self, open: &[bool], mut at: [usize; 3], axis: usize) -> bool {
        at[axis] += 1;
        at[axis] <= self.steps[axis] && open[self.index(at)]
    }

    fn offered(&self, open: &[bool], at: [usize; 3]) -> u32 {
        (0..3).filter(|&axis| self.leads(open, at, axis)).map(|axis| 1 << self.direction[axis]).sum()
    }

    /// The axis of the lowest offered direction.
    fn first_open(&self, open: &[bool], at: [usize; 3]) -> Option<usize> {
        (0..3).find(|&axis| self.leads(open, at, axis))
    }
}
