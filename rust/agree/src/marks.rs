//! Marks and components: random maps of every shape and density in every orientation, and every combination of causes to refuse.
use crate::call::Call;
use crate::comparison::{Comparison, Tally};
use crate::maps::{self, nodes, Size};
use crate::random::Random;

/// How many maps are scattered over all shapes, besides one for each shape.
const MAPS: usize = 17_000;
const SHAPES: usize = 15 * 15 * 16;
/// Bytes of a record.
const RECORD: usize = 8;

impl Comparison {
    fn marks(&mut self, r: &mut Random, size: Size, orientation: u32, cells: &[u8]) {
        let [w, h, d] = size;
        self.case(Call::Marks, &[w, h, d, orientation], &[cells, &maps::room(r, nodes(size), 1)]);
    }

    /// Components with room for all, and now and then with a row that just suffices, and with one that is too short by one.
    fn components(&mut self, r: &mut Random, size: Size, orientation: u32, cells: &[u8]) {
        let [w, h, d] = size;
        let table = maps::room(r, nodes(size), 2);
        let mut with_row = |row: &[u8]| self.case(Call::Components, &[w, h, d, orientation], &[cells, &table, row])[2] as usize;
        let count = with_row(&maps::room(r, nodes(size), RECORD));
        if r.percent(10) {
            with_row(&r.bytes(RECORD * count));
            if count > 0 {
                with_row(&r.bytes(RECORD * (count - 1)));
            }
        }
    }

    /// A map in some orientations: all eight where it is small.
    fn map(&mut self, r: &mut Random, size: Size) {
        let cells = maps::cells(r, size);
        let few = nodes(size) > 256;
        for orientation in 0..8 {
            if !few || r.percent(25) {
                self.marks(r, size, orientation, &cells);
                self.components(r, size, orientation, &cells);
            }
        }
    }

    /// All causes of a set at once: 1 sizes, 2 length, 4 cell, 8 orientation, 16 room, 32 the row's room.
    fn refused(&mut self, r: &mut Random, causes: u32) {
        let has = |cause: u32| causes & cause != 0;
        let good = maps::size(r);
        let count = nodes(good);
        let mut cells = maps::cells(r, good);
        let [w, h, d] = if has(1) { maps::bad_size(r, good) } else { good };
        if has(2) {
            let other = maps::other_count(r, count);
            maps::resize(r, &mut cells, other);
        }
        if has(4) {
            maps::spoil(r, &mut cells);
        }
        let orientation = if has(8) { maps::above(r, 7) } else { r.below(8) as u32 };
        let room = |r: &mut Random, short: bool, unit| if short { maps::short_room(r, count, unit) } else { maps::room(r, count, unit) };
        if !has(32) {
            let out = room(r, has(16), 1);
            self.case(Call::Marks, &[w, h, d, orientation], &[&cells, &out]);
        }
        let (table, row) = (room(r, has(16), 2), if has(32) { Vec::new() } else { room(r, false, RECORD) });
        self.case(Call::Components, &[w, h, d, orientation], &[&cells, &table, &row]);
    }
}

/// Every shape, one in `jobs` of them, and as many of the other maps.
pub fn maps(all: &mut Comparison, job: usize, jobs: usize) {
    let mut r = Random::new(1000 + job as u64);
    for shape in (job..SHAPES).step_by(jobs) {
        all.map(&mut r, [2 + shape % 15, 2 + shape / 15 % 15, 1 + shape / 225].map(|n| n as u32));
    }
    for _ in (job..MAPS).step_by(jobs) {
        let size = maps::size(&mut r);
        all.map(&mut r, size);
    }
}

pub fn refusals(all: &mut Comparison) {
    let mut r = Random::new(2000);
    for causes in maps::combinations(6, 25) {
        all.refused(&mut r, causes);
    }
}

pub fn expect(tallies: &[Tally]) {
    for call in [Call::Marks, Call::Components] {
        // small maps in all orientations, the others in two of eight
        tallies[call as usize].expect(100_000, 300, &[1, 2, 3, 4, 5]);
    }
}
