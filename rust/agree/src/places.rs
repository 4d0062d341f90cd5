//! The calls on places: on every shape from 2 × 2 × 1 to 16 × 16 × 16, every place of the box that is one longer each way, every node and
//! one past, every direction and one past. Then sizes that are no sizes, in every position and combination. Then every argument by itself
//! with one bit added to a good value, so that a call that looks at too few bits is caught.
use crate::call::Call;
use crate::comparison::{Comparison, Tally};
use oracle::mesh::{self, Mesh};

/// Numbers at and past every limit, and such as look good in their lower 8 or 16 bits.
const SIZES: [u32; 12] = [0, 1, 2, 3, 16, 17, 255, 256 + 2, 65536, 65536 + 2, 1 << 31, u32::MAX];
const DIRECTIONS: [u32; 12] = [0, 1, 2, 3, 4, 5, 6, 7, 255, 256, 65536, u32::MAX];

impl Comparison {
    fn number(&mut self, [w, h, d]: [u32; 3], mesh: Option<&Mesh>, at: [u32; 3]) {
        let [x, y, z] = at;
        self.known(Call::Number, &[w, h, d, x, y, z], &mesh::number(mesh, at));
    }

    fn place(&mut self, [w, h, d]: [u32; 3], mesh: Option<&Mesh>, node: u32) {
        self.known(Call::Place, &[w, h, d, node], &mesh::place(mesh, node));
    }

    fn steps(&mut self, [w, h, d]: [u32; 3], mesh: Option<&Mesh>, at: [u32; 3], directions: &[u32]) {
        let [x, y, z] = at;
        for (&direction, search) in directions.iter().zip(mesh::steps(mesh, at, directions)) {
            self.known(Call::Step, &[w, h, d, x, y, z, direction], &search);
        }
    }

    /// Every node, place and direction of a shape, and one past each.
    fn shape(&mut self, size: [u32; 3]) {
        let mesh = Mesh::new(size);
        let mesh = mesh.as_ref();
        for node in 0..=size[0] * size[1] * size[2] {
            self.place(size, mesh, node);
        }
        for z in 0..=size[2] {
            for y in 0..=size[1] {
                for x in 0..=size[0] {
                    self.number(size, mesh, [x, y, z]);
                    self.steps(size, mesh, [x, y, z], &DIRECTIONS[..7]);
                }
            }
        }
    }

    /// Sizes of which any may be bad, with numbers of which any may be bad: the first cause must win.
    fn mixed(&mut self, size: [u32; 3]) {
        let mesh = Mesh::new(size);
        let mesh = mesh.as_ref();
        let nodes = mesh.map_or(4096, Mesh::nodes);
        for node in [0, nodes - 1, nodes, nodes + 1, 4095, 4096, 65536, 65536 + 1, 1 << 31, u32::MAX] {
            self.place(size, mesh, node);
        }
        let near = |n: u32| [0, 1, n.wrapping_sub(1), n, n.wrapping_add(1), 15, 16, 256, 65536, u32::MAX];
        for z in near(size[2]) {
            for y in near(size[1]) {
                for x in near(size[0]) {
                    self.number(size, mesh, [x, y, z]);
                    self.steps(size, mesh, [x, y, z], &DIRECTIONS);
                }
            }
        }
    }

    /// Good cases with one bit more in one argument.
    fn one_bit(&mut self, size: [u32; 3], at: [u32; 3], node: u32) {
        let mesh = Mesh::new(size);
        let mesh = mesh.as_ref();
        for bit in 0..32 {
            let more = |n: u32| n | 1 << bit;
            self.place(size, mesh, more(node));
            self.steps(size, mesh, at, &[0, 1, 2, 3, 4, 5].map(more));
            for axis in 0..3 {
                let (mut other, mut moved) = (size, at);
                other[axis] = more(size[axis]);
                moved[axis] = more(at[axis]);
                self.number(size, mesh, moved);
                self.steps(size, mesh, moved, &DIRECTIONS[..6]);
                let changed = Mesh::new(other);
                self.place(other, changed.as_ref(), node);
                self.number(other, changed.as_ref(), at);
                self.steps(other, changed.as_ref(), at, &DIRECTIONS[..6]);
            }
        }
    }
}

/// Every shape, one in `jobs` of them.
pub fn shapes(all: &mut Comparison, job: u32, jobs: u32) {
    for w in 2..=16 {
        for h in 2..=16 {
            for d in 1..=16 {
                if (w + h + d) % jobs == job {
                    all.shape([w, h, d]);
                }
            }
        }
    }
}

pub fn bad_numbers(all: &mut Comparison) {
    for w in SIZES {
        for h in SIZES {
            for d in SIZES {
                all.mixed([w, h, d]);
            }
        }
    }
    all.one_bit([2, 3, 1], [1, 2, 0], 5);
    all.one_bit([3, 5, 2], [0, 4, 1], 12);
    all.one_bit([5, 9, 7], [4, 0, 6], 270);
    all.one_bit([16, 16, 16], [0, 0, 0], 0);
}

pub fn expect(tallies: &[Tally]) {
    // 2 + .. + 16 = 135 and 1 + .. + 16 = 136: every node of every shape, each with six steps
    let every_node = 135 * 135 * 136;
    tallies[Call::Number as usize].expect(every_node, 100_000, &[1, 5]);
    tallies[Call::Place as usize].expect(every_node, 3_000, &[1, 5]);
    tallies[Call::Step as usize].expect(6 * every_node, 100_000, &[1, 5]);
}
