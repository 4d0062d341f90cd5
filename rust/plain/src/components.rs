use crate::marks::mark;
use crate::{check_map, check_orientation, refused, Refused, Sizes};

#[repr(C)]
#[derive(Clone, Copy, Debug, Default, PartialEq, Eq)]
pub struct Component {
    pub count: u16,
    pub least: [u8; 3],
    pub greatest: [u8; 3],
}

pub fn components(size: [u32; 3], orientation: u32, cells: &[u8], table: &mut [u16], row: &mut [Component]) -> Result<usize, Refused> {
    let sizes = check_map(size, cells)?;
    check_orientation(orientation)?;
    let table = match table.get_mut(..cells.len()) {
        Some(table) => table,
        None => return refused(3),
    };
    let mut marks = [0; 4096];
    let marks = &mut marks[..cells.len()];
    mark(sizes, orientation, cells, marks);
    let (numbers, records) = label(sizes, marks);
    match row.get_mut(..records.len()) {
        Some(row) => row.copy_from_slice(&records),
        None => return refused(3),
    }
    numbers.copy_to(sizes, table);
    Ok(records.len())
}

/// Numbers on a grid with a margin of one on each side, so that every node has all its neighbours.
struct Grid {
    row: usize,
    layer: usize,
    numbers: Vec<u16>,
}

/// An unsafe node that has no number yet.
const WAITING: u16 = u16::MAX;

impl Grid {
    fn of(Sizes { w, h, d }: Sizes, marks: &[u8]) -> Grid {
        let (row, layer) = (w + 2, (w + 2) * (h + 2));
        let mut numbers = vec![0; layer * (d + 2)];
        for (z, marks) in marks.chunks_exact(w * h).enumerate() {
            for (y, marks) in marks.chunks_exact(w).enumerate() {
                let at = layer * (z + 1) + row * (y + 1) + 1;
                for (number, &mark) in numbers[at..at + w].iter_mut().zip(marks) {
                    *number = if mark == 0 { 0 } else { WAITING };
                }
            }
        }
        Grid { row, layer, numbers }
    }

    fn copy_to(&self, Sizes { w, h, .. }: Sizes, table: &mut [u16]) {
        for (z, table) in table.chunks_exact_mut(w * h).enumerate() {
            for (y, table) in table.chunks_exact_mut(w).enumerate() {
                let at = self.layer * (z + 1) + self.row * (y + 1) + 1;
                table.copy_from_slice(&self.numbers[at..at + w]);
            }
        }
    }

    /// By how much the 18 touching places lie after a node, or before it.
    fn touching(&self) -> [usize; 18] {
        let (x, y, z) = (1, self.row, self.layer);
        let half = [x, y, z, y + x, y - x, z + x, z - x, z + y, z - y];
        let mut all = [0; 18];
        for (i, by) in half.iter().enumerate() {
            all[2 * i] = *by;
            all[2 * i + 1] = by.wrapping_neg();
        }
        all
    }

    fn place(&self, at: usize) -> [u8; 3] {
        [at % self.row - 1, at / self.row % (self.layer / self.row) - 1, at / self.layer - 1].map(|n| n as u8)
    }
}

fn label(sizes: Sizes, marks: &[u8]) -> (Grid, Vec<Component>) {
    let mut grid = Grid::of(sizes, marks);
    let touching = grid.touching();
    let mut records = Vec::new();
    let mut queue = Vec::new();
    for first in 0..grid.numbers.len() {
        if grid.numbers[first] != WAITING {
            continue;
        }
        let number = records.len() as u16 + 1;
        grid.numbers[first] = number;
        queue.push(first);
        let place = grid.place(first);
        let mut record = Component { count: 0, least: place, greatest: place };
        while let Some(at) = queue.pop() {
            record.count += 1;
            let place = grid.place(at);
            for (axis, n) in place.into_iter().enumerate() {
                record.least[axis] = record.least[axis].min(n);
                record.greatest[axis] = record.greatest[axis].max(n);
            }
            for by in touching {
                let next = at.wrapping_add(by);
                if grid.numbers[next] == WAITING {
                    grid.numbers[next] = number;
                    queue.push(next);
                }
            }
        }
        records.push(record);
    }
    (grid, records)
}
