//! "Size and numbering", by a list of all places.

pub type Place = [u32; 3];

/// "Width W and height H are 2 to 16, depth D is 1 to 16."
const LEAST: [u32; 3] = [2, 2, 1];
const GREATEST: u32 = 16;

pub struct Mesh {
    size: [u32; 3],
    /// every place, z outermost, x innermost
    places: Vec<Place>,
    /// for each of them, the places at distance 1
    beside: Vec<Vec<Place>>,
}

/// Whether each size is in its range.
pub fn in_range(size: [u32; 3]) -> bool {
    (0..3).all(|axis| size[axis] >= LEAST[axis] && size[axis] <= GREATEST)
}

fn distance(p: Place, q: Place) -> u32 {
    p[0].abs_diff(q[0]) + p[1].abs_diff(q[1]) + p[2].abs_diff(q[2])
}

impl Mesh {
    /// The mesh of these sizes, or none where one is outside its range.
    pub fn new(size: [u32; 3]) -> Option<Mesh> {
        if !in_range(size) {
            return None;
        }
        let mut places = Vec::new();
        for z in 0..size[2] {
            for y in 0..size[1] {
                for x in 0..size[0] {
                    places.push([x, y, z]);
                }
            }
        }
        let beside = places.iter().map(|&p| places.iter().copied().filter(|&q| distance(p, q) == 1).collect()).collect();
        Some(Mesh { size, places, beside })
    }

    /// The number of nodes.
    pub fn nodes(&self) -> u32 {
        self.places.len() as u32
    }

    /// How many places stand before this one, if it is in the mesh.
    fn count_before(&self, place: Place) -> Option<usize> {
        self.places.iter().position(|&p| p == place)
    }

    /// The place whose number is `node`, by trying all: "Node (x, y, z) has number x + W × (y + H × z)."
    fn with_number(&self, node: u32) -> Option<Place> {
        let [w, h, _] = self.size;
        self.places.iter().copied().find(|[x, y, z]| x + w * (y + h * z) == node)
    }

    /// The place at distance 1 that lies in a direction: "0 is +X, 1 −X, 2 +Y, 3 −Y, 4 +Z, 5 −Z".
    fn towards(&self, at: usize, direction: u32) -> Option<Place> {
        let p = self.places[at];
        self.beside[at].iter().copied().find(|q| match direction {
            0 => q[0] > p[0],
            1 => q[0] < p[0],
            2 => q[1] > p[1],
            3 => q[1] < p[1],
            4 => q[2] > p[2],
            5 => q[2] < p[2],
            other => panic!("no direction {other}"),
        })
    }
}

/// The first cause that applies, of those that a call has, in the order in which they are checked; 0 if none does.
fn first_cause(causes: &[(u32, bool)]) -> u32 {
    causes.iter().find(|(_, applies)| *applies).map_or(0, |(number, _)| *number)
}

/// refusal, node
pub fn number(mesh: Option<&Mesh>, place: Place) -> [u32; 2] {
    let before = mesh.and_then(|m| m.count_before(place));
    match first_cause(&[(1, mesh.is_none()), (5, before.is_none())]) {
        0 => [0, before.unwrap() as u32],
        refusal => [refusal, 0],
    }
}

/// refusal, x, y, z
pub fn place(mesh: Option<&Mesh>, node: u32) -> [u32; 4] {
    let found = mesh.and_then(|m| m.with_number(node));
    match first_cause(&[(1, mesh.is_none()), (5, mesh.map_or(true, |m| node >= m.nodes()))]) {
        0 => {
            let [x, y, z] = found.unwrap();
            [0, x, y, z]
        }
        refusal => [refusal, 0, 0, 0],
    }
}

/// refusal, there, x, y, z: for each of some directions
pub fn steps(mesh: Option<&Mesh>, place: Place, directions: &[u32]) -> Vec<[u32; 5]> {
    let at = mesh.and_then(|m| m.count_before(place));
    let step = |&direction: &u32| match first_cause(&[(1, mesh.is_none()), (5, at.is_none()), (5, direction > 5)]) {
        0 => match mesh.unwrap().towards(at.unwrap(), direction) {
            Some([x, y, z]) => [0, 1, x, y, z],
            None => [0, 0, 0, 0, 0],
        },
        refusal => [refusal, 0, 0, 0, 0],
    };
    directions.iter().map(step).collect()
}

#[cfg(test)]
mod tests {
    use super::*;

    /// What the paper says of map P, 5 × 5 × 1: (2,1) and (1,2) are nodes 7 and 11, and routes go 0 1 2 3 4 9 .. and 24 23 .. 20 15 ..
    #[test]
    fn numbers_of_the_samples() {
        let mesh = Mesh::new([5, 5, 1]);
        let mesh = mesh.as_ref();
        assert_eq!(number(mesh, [2, 1, 0]), [0, 7]);
        assert_eq!(number(mesh, [1, 2, 0]), [0, 11]);
        assert_eq!(place(mesh, 24), [0, 4, 4, 0]);
        assert_eq!(place(mesh, 25), [5, 0, 0, 0]);
        assert_eq!(steps(mesh, [4, 0, 0], &[0, 2, 3, 4, 6]), [[0; 5], [0, 1, 4, 1, 0], [0; 5], [0; 5], [5, 0, 0, 0, 0]]);
    }
}
