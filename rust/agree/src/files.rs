//! Map files: what is written, and read back; notes of every class of length; each bit of a trailer flipped; every truncation; and bytes that
//! are no file.
use crate::call::Call;
use crate::comparison::{Comparison, Tally};
use crate::maps::{self, nodes, Size};
use crate::random::Random;
use crate::request::lent;

const FILES: usize = 3_000;
const NOISE: usize = 20_000;
const LONGEST: usize = 65_536;

fn trailer(size: Size) -> Vec<u8> {
    let mut bytes: Vec<u8> = size.map(|n| n as u8).to_vec();
    bytes.push(0);
    bytes.extend((nodes(size) as u32 + 12).to_le_bytes());
    bytes.extend(*b"FLD1");
    bytes
}

pub fn file(notes: &[u8], size: Size, cells: &[u8]) -> Vec<u8> {
    [notes, cells, &trailer(size)].concat()
}

impl Comparison {
    fn read(&mut self, file: &[u8], room: &[u8]) {
        self.case(Call::ReadMap, &[], &[file, room]);
    }

    /// Reads into a room that is long enough for any map, or for this one, or now and then too short.
    fn read_any(&mut self, r: &mut Random, file: &[u8], count: usize) {
        let room = match r.below(8) {
            0 => maps::short_room(r, count, 1),
            1 => r.bytes(4096),
            _ => maps::room(r, count, 1),
        };
        self.read(file, &room);
    }

    fn written(&mut self, r: &mut Random, size: Size) {
        let [w, h, d] = size;
        let cells = maps::cells(r, size);
        let room = maps::room(r, nodes(size) + 12, 1);
        let answer = self.case(Call::WriteMap, &[w, h, d], &[&cells, &room]);
        let out = lent(Call::WriteMap, &answer, room.len());
        self.read_any(r, &out[..answer[2] as usize], nodes(size));
    }

    fn damaged(&mut self, r: &mut Random) {
        let size = maps::size(r);
        let cells = maps::cells(r, size);
        let notes = r.below(30);
        let good = file(&r.bytes(notes), size, &cells);
        let room = r.bytes(4096);
        let begin = good.len() - 12;
        for bit in 0..96 {
            let mut bad = good.clone();
            bad[begin + bit / 8] ^= 1 << (bit % 8);
            self.read(&bad, &room);
        }
        for cut in 0..=good.len() {
            self.read(&good[cut..], &room);
            self.read(&good[..cut], &room);
        }
    }

    /// All causes of a set at once: 1 mark, 2 zero byte, 4 sizes, 8 distance, 16 too few bytes, 32 room, 64 cell.
    fn refused_file(&mut self, r: &mut Random, causes: u32) {
        let has = |cause: u32| causes & cause != 0;
        let size = maps::size(r);
        let count = nodes(size);
        let mut cells = maps::cells(r, size);
        if has(64) {
            maps::spoil(r, &mut cells);
        }
        let mut end = trailer(size);
        if has(1) {
            end[8 + r.below(4)] ^= 1 << r.below(8);
        }
        if has(2) {
            end[3] = r.between(1, 255) as u8;
        }
        if has(4) {
            let axis = r.below(3);
            end[axis] = r.pick(&[0, if axis == 2 { 0 } else { 1 }, 17, 18, 32, 128, 255]);
        }
        if has(8) {
            end[4 + r.below(4)] ^= 1 << r.below(8);
        }
        if has(16) {
            let short = r.between(1, count);
            cells.drain(..short);
        }
        let notes = if has(16) { 0 } else { r.below(20) };
        let bytes = [r.bytes(notes), cells, end].concat();
        let room = if has(32) { maps::short_room(r, count, 1) } else { maps::room(r, count, 1) };
        self.read(&bytes, &room);
    }

    /// All causes of a set at once: 1 sizes, 2 length, 4 cell, 8 room.
    fn refused_map(&mut self, r: &mut Random, causes: u32) {
        let has = |cause: u32| causes & cause != 0;
        let good = maps::size(r);
        let mut cells = maps::cells(r, good);
        let [w, h, d] = if has(1) { maps::bad_size(r, good) } else { good };
        if has(2) {
            let other = maps::other_count(r, nodes(good));
            maps::resize(r, &mut cells, other);
        }
        if has(4) {
            maps::spoil(r, &mut cells);
        }
        let out = if has(8) { maps::short_room(r, nodes(good) + 12, 1) } else { maps::room(r, nodes(good) + 12, 1) };
        self.case(Call::WriteMap, &[w, h, d], &[&cells, &out]);
    }
}

pub fn good(all: &mut Comparison) {
    let mut r = Random::new(8000);
    for i in 0..FILES {
        let size = if i % 10 == 0 { maps::any_size(&mut r) } else { maps::size(&mut r) };
        all.written(&mut r, size);
    }
    for size in [[2, 2, 1], [5, 5, 1], [3, 4, 5], [16, 16, 16]] {
        let most = LONGEST - 12 - nodes(size);
        for notes in [0, 1, 2, 3, 4, 11, 12, 13, 255, 256, 257, 4095, 4096, 32768, most - 1, most, most + 1, most + 2] {
            let cells = maps::cells(&mut r, size);
            let bytes = file(&r.bytes(notes), size, &cells);
            all.read_any(&mut r, &bytes, nodes(size));
        }
    }
}

pub fn bad(all: &mut Comparison) {
    let mut r = Random::new(9000);
    for _ in 0..40 {
        all.damaged(&mut r);
    }
    for _ in 0..NOISE {
        let count = r.below(64);
        let mut bytes = r.bytes(count);
        if r.percent(70) {
            bytes.extend([r.below(6), r.below(6), r.below(4), r.below(2), r.below(130), 0, 0, 0].map(|n| n as u8));
            bytes.extend(*b"FLD1");
        }
        let room = r.below(80);
        let room = r.bytes(room);
        all.read(&bytes, &room);
    }
    for causes in maps::combinations(7, 25) {
        all.refused_file(&mut r, causes);
    }
    for causes in maps::combinations(4, 25) {
        all.refused_map(&mut r, causes);
    }
}

pub fn expect(tallies: &[Tally]) {
    tallies[Call::ReadMap as usize].expect(3_000, 100, &[1, 3, 4, 11]);
    tallies[Call::WriteMap as usize].expect(3_000, 100, &[1, 2, 3, 4]);
}
