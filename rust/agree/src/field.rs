//! The talking nodes: random gossips, every state compared after every call; states damaged in every byte and by every value; and the causes
//! to refuse.
use crate::call::Call;
use crate::comparison::{Comparison, Tally};
use crate::maps::{self, nodes, place, Size};
use crate::random::Random;
use crate::request::lent;

const GOSSIPS: usize = 2_100;
/// Of these, so many on meshes up to the greatest.
const LARGE: usize = 24;
const DAMAGED: usize = 16;

/// A mesh, an orientation, and a state of it.
struct Field {
    size: Size,
    orientation: u32,
    state: Vec<u8>,
}

impl Field {
    fn neighbour(&self, node: usize, direction: usize) -> Option<usize> {
        let [w, h, _] = self.size.map(|n| n as usize);
        let by = [1, w, w * h][direction / 2];
        let at = place(self.size, node)[direction / 2];
        if direction % 2 == 0 {
            (at + 1 < self.size[direction / 2] as usize).then(|| node + by)
        } else {
            (at > 0).then(|| node - by)
        }
    }

    fn own(&self, node: usize) -> u32 {
        self.state[7 * node].into()
    }

    fn heard(&self, node: usize, direction: usize) -> u32 {
        self.state[7 * node + 1 + direction].into()
    }

    fn numbers(&self) -> [u32; 4] {
        let [w, h, d] = self.size;
        [w, h, d, self.orientation]
    }

    /// The working pairs: listener, direction, speaker.
    fn pairs(&self) -> Vec<(usize, usize, usize)> {
        let mut pairs = Vec::new();
        for node in 0..nodes(self.size) {
            for direction in 0..6 {
                if let Some(speaker) = self.neighbour(node, direction) {
                    if self.own(node) != 1 && self.own(speaker) != 1 {
                        pairs.push((node, direction, speaker));
                    }
                }
            }
        }
        pairs
    }
}

impl Comparison {
    fn fresh(&mut self, r: &mut Random, size: Size, cells: &[u8], orientation: u32) -> Field {
        let [w, h, d] = size;
        let room = r.bytes(7 * nodes(size));
        let answer = self.case(Call::Fresh, &[w, h, d, orientation], &[cells, &room]);
        Field { size, orientation, state: lent(Call::Fresh, &answer, room.len()) }
    }

    /// A word is heard; the state goes on as it then is.
    fn hear(&mut self, field: &mut Field, listener: usize, direction: usize, word: u32) {
        let [w, h, d, o] = field.numbers();
        let answer = self.case(Call::Hear, &[w, h, d, o, listener as u32, direction as u32, word], &[&field.state]);
        field.state = lent(Call::Hear, &answer, field.state.len());
    }

    fn outstanding(&mut self, field: &Field) -> u32 {
        self.case(Call::Outstanding, &field.numbers(), &[&field.state])[2]
    }

    /// Any of the calls: mostly a word that the speaker holds, or held, or holds in part; sometimes one that is refused, or a question.
    fn any_call(&mut self, r: &mut Random, field: &mut Field) {
        let count = nodes(field.size);
        let (node, direction) = (r.below(count), r.below(6));
        match r.below(20) {
            0 => {
                self.outstanding(field);
            }
            1 => {
                let [w, h, d, o] = field.numbers();
                let o = if r.percent(50) { r.below(8) as u32 } else { o };
                self.case(Call::Sound, &[w, h, d, o], &[&field.state]);
            }
            2 => {
                let at = r.below(field.state.len());
                let kept = field.state[at];
                field.state[at] = r.pick(&[0, 1, 2, 4, 6, 8, 3, 255]);
                let [w, h, d, o] = field.numbers();
                self.case(Call::Hear, &[w, h, d, o, node as u32, direction as u32, 2], &[&field.state]);
                field.state[at] = kept;
            }
            3 => self.hear(field, node, direction, r.pick(&[0, 2, 4, 6])),
            4 => self.hear(field, r.pick(&[node, count, count + 1]), r.pick(&[direction, 6, 7]), r.pick(&[2, 1, 3, 8, 256, 1 << 31])),
            _ => {
                let pairs = field.pairs();
                let news = pairs.iter().copied().find(|(listener, j, q)| field.own(*q) != field.heard(*listener, *j) && r.percent(30));
                let (listener, direction, speaker) = match news {
                    Some(pair) => pair,
                    None if pairs.is_empty() => return,
                    None => r.pick(&pairs),
                };
                let word = field.own(speaker) & r.pick(&[0, 2, 4, 6, 6, 6]);
                self.hear(field, listener, direction, word);
            }
        }
    }

    /// Fresh, then any calls; then, for one in four, each pair by turns until nothing is outstanding.
    fn gossip(&mut self, r: &mut Random, size: Size, calls: usize) {
        let cells = maps::cells(r, size);
        let orientation = r.below(8) as u32;
        let mut field = self.fresh(r, size, &cells, orientation);
        for _ in 0..calls {
            self.any_call(r, &mut field);
        }
        if r.percent(25) {
            while self.outstanding(&field) > 0 {
                for (listener, direction, speaker) in field.pairs() {
                    if field.heard(listener, direction) != field.own(speaker) && r.percent(80) || r.percent(1) {
                        let word = field.own(speaker);
                        self.hear(&mut field, listener, direction, word);
                    }
                }
            }
        }
    }

    /// Each byte of a small state, with each value that it does not have.
    fn each_byte(&mut self, r: &mut Random) {
        let size = r.pick(&[[2, 2, 1], [3, 2, 1], [2, 2, 2], [3, 3, 1], [3, 2, 2], [2, 3, 2], [4, 3, 1]]);
        let cells: Vec<u8> = (0..nodes(size)).map(|_| u8::from(r.percent(35))).collect();
        let orientation = r.below(8) as u32;
        let mut field = self.fresh(r, size, &cells, orientation);
        for _ in 0..r.below(40) {
            self.any_call(r, &mut field);
        }
        for (at, kept) in field.state.clone().into_iter().enumerate() {
            for value in 0..=255 {
                field.state[at] = value;
                self.case(Call::Sound, &field.numbers(), &[&field.state]);
                if value <= 9 {
                    self.outstanding(&field);
                    let [w, h, d, o] = field.numbers();
                    let (listener, direction) = (r.below(nodes(size)) as u32, r.below(6) as u32);
                    self.case(Call::Hear, &[w, h, d, o, listener, direction, r.pick(&[0, 2, 4, 6])], &[&field.state]);
                }
            }
            field.state[at] = kept;
        }
    }

    /// A node fails in the state, with its neighbours told or not: sound again, or not sound in a way that takes several bytes to see.
    fn failed_node(&mut self, r: &mut Random) {
        let size = maps::size(r);
        let cells = maps::cells(r, size);
        let orientation = r.below(8) as u32;
        let mut field = self.fresh(r, size, &cells, orientation);
        let node = r.below(nodes(size));
        field.state[7 * node..7 * node + 7].copy_from_slice(&[1, 0, 0, 0, 0, 0, 0]);
        for direction in 0..6 {
            if let Some(q) = field.neighbour(node, direction) {
                if field.own(q) != 1 && r.percent(95) {
                    field.state[7 * q + 1 + (direction ^ 1)] = 1;
                    if r.percent(40) {
                        field.state[7 * q] |= r.pick(&[0, 2, 4]);
                    }
                }
            }
        }
        self.case(Call::Sound, &field.numbers(), &[&field.state]);
        self.outstanding(&field);
    }

    /// All causes of a set at once: 1 sizes, 2 length, 4 orientation, 8 listener, 16 direction, 32 word, 64 not sound, 128 no pair, 256 not held.
    fn refused_word(&mut self, r: &mut Random, causes: u32) {
        let has = |cause: u32| causes & cause != 0;
        let good = maps::size(r);
        let mut cells = maps::cells(r, good);
        maps::faulty(r, &mut cells);
        let orientation = r.below(8) as u32;
        let mut field = self.fresh(r, good, &cells, orientation);
        let (mut listener, mut direction, mut word) = (0, 0, 0);
        for _ in 0..60 {
            (listener, direction, word) = (r.below(cells.len()) as u32, r.below(6) as u32, r.pick(&[0, 2, 4, 6]));
            let speaker = field.neighbour(listener as usize, direction as usize);
            let pair = field.own(listener as usize) != 1 && speaker.map_or(false, |q| field.own(q) != 1);
            let held = speaker.map_or(true, |q| word & !field.own(q) == 0);
            if pair != has(128) && (!pair || held != has(256)) {
                break;
            }
        }
        let size = if has(1) { maps::bad_size(r, good) } else { good };
        if has(64) {
            let at = r.below(field.state.len());
            field.state[at] ^= r.pick(&[2, 4, 8, 16, 128]);
        }
        if has(2) {
            let count = r.pick(&[0, 1, 6]).min(nodes(good) - 1);
            let other = r.pick(&[7 * nodes(good) - 1, 7 * nodes(good) + 1, nodes(good), 7 * count, 7 * nodes(good) + 4]);
            maps::resize(r, &mut field.state, other);
        }
        let number = |r: &mut Random, bad: bool, value: u32, most: u32| if bad { maps::above(r, most) } else { value };
        let o = number(r, has(4), orientation, 7);
        let k = number(r, has(8), listener, nodes(good) as u32 - 1);
        let j = number(r, has(16), direction, 5);
        let word = if has(32) { r.pick(&[1, 3, 5, 7, 8, 10, 256, 258, 65538, 1 << 31, u32::MAX]) } else { word };
        let [w, h, d] = size;
        self.case(Call::Hear, &[w, h, d, o, k, j, word], &[&field.state]);
        if causes & !0b100_0111 == 0 {
            self.case(Call::Sound, &[w, h, d, o], &[&field.state]);
            self.case(Call::Outstanding, &[w, h, d, o], &[&field.state]);
        }
    }

    /// All causes of a set at once: 1 sizes, 2 the cells' length, 4 the state's length, 8 cell, 16 orientation.
    fn refused_fresh(&mut self, r: &mut Random, causes: u32) {
        let has = |cause: u32| causes & cause != 0;
        let good = maps::size(r);
        let count = nodes(good);
        let mut cells = maps::cells(r, good);
        let [w, h, d] = if has(1) { maps::bad_size(r, good) } else { good };
        if has(2) {
            let other = maps::other_count(r, count);
            maps::resize(r, &mut cells, other);
        }
        if has(8) {
            maps::spoil(r, &mut cells);
        }
        let room = if has(4) { r.pick(&[0, count, 7 * count - 1, 7 * count + 1, 7 * count + 4, 14 * count]) } else { 7 * count };
        let orientation = if has(16) { maps::above(r, 7) } else { r.below(8) as u32 };
        let state = r.bytes(room);
        self.case(Call::Fresh, &[w, h, d, orientation], &[&cells, &state]);
    }
}

pub fn gossips(all: &mut Comparison, job: usize, jobs: usize) {
    let mut r = Random::new(6000 + job as u64);
    for i in (job..GOSSIPS).step_by(jobs) {
        if i < LARGE {
            let size = maps::any_size(&mut r);
            all.gossip(&mut r, size, 40);
        } else {
            let size = maps::size(&mut r);
            let calls = r.between(20, 160);
            all.gossip(&mut r, size, calls);
        }
    }
}

pub fn damaged(all: &mut Comparison) {
    let mut r = Random::new(7000);
    for _ in 0..DAMAGED {
        all.each_byte(&mut r);
    }
    for _ in 0..3000 {
        all.failed_node(&mut r);
    }
    for causes in maps::combinations(9, 10) {
        all.refused_word(&mut r, causes);
    }
    for causes in maps::combinations(5, 20) {
        all.refused_fresh(&mut r, causes);
    }
}

pub fn expect(tallies: &[Tally]) {
    tallies[Call::Fresh as usize].expect(2_000, 100, &[1, 2, 4, 5]);
    tallies[Call::Sound as usize].expect(5_000, 100, &[1, 2, 5, 6]);
    tallies[Call::Outstanding as usize].expect(5_000, 100, &[1, 2, 5, 6]);
    tallies[Call::Hear as usize].expect(100_000, 100, &[1, 2, 5, 6, 7, 8]);
}
