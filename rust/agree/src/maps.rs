//! Random sizes, maps and buffers, and such as are to be refused.
use crate::random::Random;

pub type Size = [u32; 3];

pub fn nodes(size: Size) -> usize {
    size.iter().map(|n| *n as usize).product()
}

pub fn place(size: Size, node: usize) -> [usize; 3] {
    let [w, h, _] = size.map(|n| n as usize);
    [node % w, node / w % h, node / w / h]
}

/// Sizes of every kind, the small ones more often.
pub fn size(r: &mut Random) -> Size {
    let size = match r.below(8) {
        0..=3 => [r.between(2, 4), r.between(2, 4), r.between(1, 3)],
        4 => [r.between(2, 9), r.between(2, 9), 1],
        5 => [r.between(2, 6), r.between(2, 6), r.between(2, 6)],
        6 => {
            let mut thin = [2, 2, r.between(1, 16)];
            thin.swap(2, r.below(3));
            [thin[0].max(2), thin[1].max(2), thin[2]]
        }
        _ => [r.between(2, 16), r.between(2, 16), r.between(1, 2)],
    };
    size.map(|n| n as u32)
}

/// Sizes up to the greatest, which stands more often.
pub fn any_size(r: &mut Random) -> Size {
    [2, 2, 1].map(|least| if r.percent(30) { 16 } else { r.between(least, 16) as u32 })
}

/// Cells of every density from 0 to 100 %: scattered; in sheets across the mesh with holes in them, which make long chains of marks; and with
/// all coordinates even or all odd, which makes the most components.
pub fn cells(r: &mut Random, size: Size) -> Vec<u8> {
    let density = match r.below(4) {
        0 => r.pick(&[0, 1, 2, 5, 95, 98, 99, 100]),
        1 => r.between(0, 100),
        _ => r.between(0, 50),
    };
    let (kind, signs, apart, holes) = (r.below(12), r.below(8), r.between(2, 7), r.between(0, 15));
    let cell = |node| match kind {
        0..=2 => in_sheet(size, node, signs, apart) && !r.percent(holes) || r.percent(density / 10),
        3 => place(size, node).map(|n| n % 2).windows(2).all(|w| w[0] == w[1]) && !r.percent(holes),
        _ => r.percent(density),
    };
    (0..nodes(size)).map(cell).map(u8::from).collect()
}

/// Few faulty nodes, scattered, or sheets with many holes: long paths remain.
pub fn sparse(r: &mut Random, size: Size) -> Vec<u8> {
    let (density, sheets, signs, apart) = (r.between(0, 15), r.percent(40), r.below(8), r.between(3, 9));
    let cell = |node| if sheets { in_sheet(size, node, signs, apart) && r.percent(95 - 4 * density) } else { r.percent(density) };
    (0..nodes(size)).map(cell).map(u8::from).collect()
}

/// The nodes with x ± y ± z a multiple of a number, on a mesh that may be turned.
fn in_sheet(size: Size, node: usize, signs: usize, apart: usize) -> bool {
    let p = place(size, node);
    let sum: usize = (0..3).map(|axis| if signs >> axis & 1 == 0 { p[axis] } else { size[axis] as usize - 1 - p[axis] }).sum();
    sum % apart == apart - 1
}

/// A working node, if there is one.
pub fn working(r: &mut Random, cells: &[u8]) -> Option<usize> {
    let from = r.below(cells.len());
    (0..cells.len()).map(|i| (from + i) % cells.len()).find(|node| cells[*node] == 0)
}

/// A faulty node: one is made faulty where none is.
pub fn faulty(r: &mut Random, cells: &mut [u8]) -> usize {
    let from = r.below(cells.len());
    let found = (0..cells.len()).map(|i| (from + i) % cells.len()).find(|node| cells[*node] == 1);
    let node = found.unwrap_or(from);
    cells[node] = 1;
    node
}

/// Every set of so many causes, given as bits: small sets more often, since in a large one the first cause hides the others.
pub fn combinations(causes: u32, each: usize) -> impl Iterator<Item = u32> {
    (0..1 << causes).flat_map(move |set: u32| {
        let times = match set.count_ones() {
            0 | 1 => 16,
            2 => 4,
            _ => 1,
        };
        std::iter::repeat(set).take(times * each)
    })
}

/// A number that is `most` or less with a bit more, or at or past a limit.
pub fn above(r: &mut Random, most: u32) -> u32 {
    match r.below(4) {
        0 => most + 1,
        1 => most.saturating_add(r.between(1, 300) as u32),
        2 => r.pick(&[1 << 8, 1 << 16, 1 << 31, u32::MAX]).max(most + 1),
        _ => {
            let bit = r.between(8, 31);
            (r.below(most as usize + 1) as u32 | 1 << bit).max(most + 1)
        }
    }
}

/// Sizes of which at least one is outside its range.
pub fn bad_size(r: &mut Random, size: Size) -> Size {
    let mut bad = size;
    for _ in 0..r.between(1, 3) {
        let axis = r.below(3);
        let least = if axis == 2 { 1 } else { 2 };
        bad[axis] = if r.percent(40) { r.below(least) as u32 } else { above(r, 16) };
    }
    bad
}

/// A count that is not this one.
pub fn other_count(r: &mut Random, count: usize) -> usize {
    match r.below(6) {
        0 => 0,
        1 => count - 1,
        2 => count + 1,
        3 => 2 * count,
        4 => 7 * count,
        _ => (count + r.between(1, 40)) ^ r.below(2),
    }
}

/// So many bytes, the old ones first.
pub fn resize(r: &mut Random, bytes: &mut Vec<u8>, count: usize) {
    while bytes.len() < count {
        bytes.push(u8::from(r.percent(20)));
    }
    bytes.truncate(count);
}

/// Makes one to three cells bad.
pub fn spoil(r: &mut Random, cells: &mut [u8]) {
    for _ in 0..r.between(1, 3) {
        if !cells.is_empty() {
            let node = r.below(cells.len());
            cells[node] = r.pick(&[2, 3, 4, 127, 128, 254, 255]);
        }
    }
}

/// A room with at least `need` of some unit, filled with anything.
pub fn room(r: &mut Random, need: usize, unit: usize) -> Vec<u8> {
    let more = r.pick(&[0, 0, 1, 2, 3, 17]);
    r.bytes((need + more) * unit)
}

/// A room that is too short for `need` of some unit.
pub fn short_room(r: &mut Random, need: usize, unit: usize) -> Vec<u8> {
    let short = r.pick(&[1, 1, 2, need]).min(need);
    r.bytes((need - short) * unit)
}
