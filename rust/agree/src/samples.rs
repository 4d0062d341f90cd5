//! The scope paper's "Samples with numbers", asked like any other case: the search program's answer must be the paper's too.
use crate::call::Call;
use crate::comparison::Comparison;
use crate::library::stop;
use crate::maps::{nodes, Size};
use crate::request::lent;

const P: Size = [5, 5, 1];
const CORNER: Size = [4, 4, 1];
const TEN: Size = [10, 10, 10];

fn map(size: Size, faulty: &[[u32; 3]]) -> Vec<u8> {
    let mut cells = vec![0; nodes(size)];
    for [x, y, z] in faulty {
        cells[(x + size[0] * (y + size[1] * z)) as usize] = 1;
    }
    cells
}

/// "Map P is 5 × 5 × 1 with (2,1) and (1,2) faulty."
fn p() -> Vec<u8> {
    map(P, &[[2, 1, 0], [1, 2, 0]])
}

fn is<T: PartialEq + std::fmt::Debug>(sample: u32, answer: T, paper: T) {
    if answer != paper {
        stop(&format!("SAMPLE {sample}: the search program answers {answer:?}, the paper {paper:?}"));
    }
}

impl Comparison {
    fn marks_of(&mut self, size: Size, orientation: u32, cells: &[u8]) -> Vec<u8> {
        let [w, h, d] = size;
        let answer = self.case(Call::Marks, &[w, h, d, orientation], &[cells, &vec![9; cells.len()]]);
        lent(Call::Marks, &answer, cells.len())
    }

    /// For each component the count of its nodes, and of the first the least and greatest coordinates too.
    fn components_of(&mut self, size: Size, orientation: u32, cells: &[u8]) -> (Vec<u16>, Vec<u8>) {
        let [w, h, d] = size;
        let buffers = [cells, &vec![9; 2 * cells.len()], &vec![9; 8 * cells.len()]];
        let answer = self.case(Call::Components, &[w, h, d, orientation], &buffers);
        let row = lent(Call::Components, &answer, 10 * cells.len() + 3).split_off((2 * cells.len() + 3) / 4 * 4);
        let counts = row.chunks_exact(8).take(answer[2] as usize).map(|r| u16::from_le_bytes([r[0], r[1]])).collect();
        (counts, row[2..8].to_vec())
    }

    fn verdict_of(&mut self, start: u32, end: u32) -> Vec<u32> {
        self.case(Call::Verdict, &[5, 5, 1, start, end], &[&p()])
    }

    fn route_of(&mut self, start: u32, end: u32) -> Vec<u16> {
        let answer = self.case(Call::Route, &[5, 5, 1, start, end], &[&p(), &[9; 92]]);
        let bytes = lent(Call::Route, &answer, 2 * answer[2] as usize);
        bytes.chunks_exact(2).map(|b| u16::from_le_bytes([b[0], b[1]])).collect()
    }

    fn outstanding_of(&mut self, state: &[u8]) -> u32 {
        self.case(Call::Outstanding, &[4, 4, 1, 0], &[state])[2]
    }

    fn heard_by(&mut self, listener: u32, direction: u32, word: u32, state: &mut Vec<u8>) -> u32 {
        let answer = self.case(Call::Hear, &[4, 4, 1, 0, listener, direction, word], &[state]);
        *state = lent(Call::Hear, &answer, state.len());
        answer[0]
    }
}

pub fn all(all: &mut Comparison) {
    let mut bytes = vec![0; 25];
    (bytes[6], bytes[12], bytes[7], bytes[11]) = (2, 4, 1, 1);
    is(1, all.marks_of(P, 0, &p()), bytes);
    is(2, all.marks_of(P, 1, &p()), p());
    let cross = map([3, 3, 1], &[[1, 0, 0], [0, 1, 0], [2, 1, 0], [1, 2, 0]]);
    is(10, all.marks_of([3, 3, 1], 0, &cross), vec![2, 1, 0, 1, 6, 1, 0, 1, 4]);
    let bytes = all.marks_of(TEN, 0, &ten());
    is(12, [bytes[555], bytes[755], bytes[566]], [2, 4, 0]);
    is(1, all.components_of(P, 0, &p()), (vec![4], vec![1, 1, 0, 2, 2, 0]));
    is(2, all.components_of(P, 1, &p()).0, vec![2]);
    let mut counts = all.components_of(TEN, 0, &ten()).0;
    counts.sort_unstable();
    is(12, counts, vec![1, 9]);
    is(3, all.verdict_of(0, 24), vec![0, 0, 8, 5]);
    is(3, all.verdict_of(1, 24)[3], 1);
    is(4, all.verdict_of(6, 24), vec![10, 0, 0, 0]);
    is(4, all.verdict_of(6, 6), vec![0, 0, 0, 0]);
    is(5, all.verdict_of(5, 6)[2], 1);
    is(6, all.verdict_of(0, 12), vec![10, 0, 0, 0]);
    is(6, all.verdict_of(12, 24)[2], 4);
    is(7, all.verdict_of(2, 17), vec![10, 0, 0, 0]);
    is(8, all.verdict_of(24, 0), vec![0, 0, 8, 10]);
    is(9, all.verdict_of(7, 24), vec![9, 0, 0, 0]);
    is(9, all.verdict_of(25, 7), vec![5, 0, 0, 0]);
    is(3, all.route_of(0, 24), vec![0, 1, 2, 3, 4, 9, 14, 19, 24]);
    is(4, all.route_of(6, 6), vec![6]);
    is(8, all.route_of(24, 0), vec![24, 23, 22, 21, 20, 15, 10, 5, 0]);
    let cells = map(CORNER, &[[2, 1, 0], [1, 2, 0], [0, 2, 0]]);
    let answer = all.case(Call::Fresh, &[4, 4, 1, 0], &[&cells, &[9; 112]]);
    let mut state = lent(Call::Fresh, &answer, 112);
    is(11, all.outstanding_of(&state), 4);
    is(11, all.heard_by(4, 0, 4, &mut state), 8);
    is(11, all.heard_by(4, 0, 2, &mut state), 0);
    is(11, (state[7 * 4], all.outstanding_of(&state)), (2, 5));
    for (listener, direction, word) in [(0, 2, 2), (1, 2, 2), (5, 1, 2), (11, 1, 4), (14, 3, 4)] {
        is(11, all.heard_by(listener, direction, word, &mut state), 0);
    }
    is(11, all.outstanding_of(&state), 0);
}

/// Sample 12.
fn ten() -> Vec<u8> {
    map(TEN, &[[5, 5, 6], [6, 5, 5], [5, 6, 5], [6, 7, 5], [7, 6, 5], [5, 4, 7], [4, 5, 7], [7, 8, 4]])
}
