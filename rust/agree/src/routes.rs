//! Verdict, route and what is reached: all pairs of nodes on small meshes, random pairs up to 16 × 16 × 16, and the causes to refuse.
use crate::call::Call;
use crate::comparison::{Comparison, Tally};
use crate::maps::{self, nodes, Size};
use crate::random::Random;

/// How many maps of each mesh up to 4 × 4 × 3 have all their pairs asked.
const SMALL_MAPS: usize = 6;
/// How many maps of other sizes have `PAIRS` of their pairs asked.
const MAPS: usize = 6_400;
const PAIRS: usize = 8;

impl Comparison {
    /// The three calls on a pair; where there is a route, the verdict at each of its nodes.
    fn pair(&mut self, r: &mut Random, size: Size, start: usize, end: usize, cells: &[u8], every_node: bool) {
        let [w, h, d] = size;
        let numbers = |start: usize| [w, h, d, start as u32, end as u32];
        let hops = self.case(Call::Verdict, &numbers(start), &[cells])[2] as usize;
        let out = if r.percent(5) { maps::short_room(r, nodes(size), 1) } else { maps::room(r, nodes(size), 1) };
        self.case(Call::Reached, &numbers(start), &[cells, &out]);
        let out = if r.percent(10) { maps::short_room(r, hops + 1, 2) } else { maps::room(r, hops + 1, 2) };
        let answer = self.case(Call::Route, &numbers(start), &[cells, &out]);
        if every_node && answer[0] == 0 {
            let node = |i: usize| (answer[3 + i / 2] >> (16 * (i % 2)) & 0xFFFF) as usize;
            for i in 1..answer[2] as usize {
                self.case(Call::Verdict, &numbers(node(i)), &[cells]);
            }
        }
    }

    /// All causes of a set at once: 1 sizes, 2 length, 4 cell, 8 start, 16 end, 32 start faulty, 64 end faulty, 128 no path, 256 room.
    fn refused_route(&mut self, r: &mut Random, causes: u32) {
        let has = |cause: u32| causes & cause != 0;
        let good = maps::size(r);
        let count = nodes(good);
        let mut cells: Vec<u8> = if has(128) { vec![1; count] } else { vec![0; count] };
        let (start, end) = (r.below(count), r.below(count));
        cells[start] = u8::from(has(32));
        cells[end] = u8::from(has(64));
        let [w, h, d] = if has(1) { maps::bad_size(r, good) } else { good };
        if has(2) {
            let other = maps::other_count(r, count);
            maps::resize(r, &mut cells, other);
        }
        if has(4) {
            maps::spoil(r, &mut cells);
        }
        let start = if has(8) { maps::above(r, count as u32 - 1) } else { start as u32 };
        let end = if has(16) { maps::above(r, count as u32 - 1) } else { end as u32 };
        let numbers = [w, h, d, start, end];
        if !has(256) {
            self.case(Call::Verdict, &numbers, &[&cells]);
        }
        let out = if has(256) { Vec::new() } else { r.bytes(2 * 46) };
        self.case(Call::Route, &numbers, &[&cells, &out]);
        let out = if has(256) { maps::short_room(r, count, 1) } else { maps::room(r, count, 1) };
        self.case(Call::Reached, &numbers, &[&cells, &out]);
    }
}

/// All pairs on every mesh up to 4 × 4 × 3.
pub fn small(all: &mut Comparison, job: usize, jobs: usize) {
    let mut r = Random::new(3000 + job as u64);
    for shape in (job..27).step_by(jobs) {
        let size = [2 + shape % 3, 2 + shape / 3 % 3, 1 + shape / 9].map(|n| n as u32);
        for _ in 0..SMALL_MAPS {
            let cells = maps::cells(&mut r, size);
            for start in 0..nodes(size) {
                for end in 0..nodes(size) {
                    let every_node = r.percent(20);
                    all.pair(&mut r, size, start, end, &cells, every_node);
                }
            }
        }
    }
}

/// Random pairs, mostly of working nodes; on one map in five up to 16 × 16 × 16, most of these sparse and asked from corner to corner too.
pub fn random(all: &mut Comparison, job: usize, jobs: usize) {
    let mut r = Random::new(4000 + job as u64);
    for i in (job..MAPS).step_by(jobs) {
        let large = i / jobs % 5 == 0;
        let size = if large { maps::any_size(&mut r) } else { maps::size(&mut r) };
        let cells = if large && r.percent(70) { maps::sparse(&mut r, size) } else { maps::cells(&mut r, size) };
        for _ in 0..PAIRS {
            let end = |r: &mut Random| maps::working(r, &cells).filter(|_| !r.percent(3)).unwrap_or_else(|| r.below(cells.len()));
            let (start, end) = if large && r.percent(40) { corners(&mut r, size) } else { (end(&mut r), end(&mut r)) };
            all.pair(&mut r, size, start, end, &cells, true);
        }
    }
}

/// Two opposite corners, now and then on an edge instead.
fn corners(r: &mut Random, size: Size) -> (usize, usize) {
    let (mut start, mut end) = ([0; 3], [0; 3]);
    for axis in 0..3 {
        let last = size[axis] as usize - 1;
        (start[axis], end[axis]) = r.pick(&[(0, last), (0, last), (last, 0), (last, 0), (last, last), (0, 0)]);
    }
    let node = |[x, y, z]: [usize; 3]| x + size[0] as usize * (y + size[1] as usize * z);
    (node(start), node(end))
}

pub fn refusals(all: &mut Comparison) {
    let mut r = Random::new(5000);
    for causes in maps::combinations(9, 15) {
        all.refused_route(&mut r, causes);
    }
}

pub fn expect(tallies: &[Tally]) {
    tallies[Call::Verdict as usize].expect(100_000, 500, &[1, 2, 4, 5, 9, 10]);
    tallies[Call::Route as usize].expect(50_000, 500, &[1, 2, 3, 4, 5, 9, 10]);
    tallies[Call::Reached as usize].expect(70_000, 500, &[1, 2, 3, 4, 5, 9]);
}
