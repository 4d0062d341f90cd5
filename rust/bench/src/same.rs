//! Holds the bit rows to the library before they are timed: meshes of every size, all orientations, ends anywhere, and inputs that are refused.
use crate::bits;
use crate::cases::{count, counted, done, fields, nothing};
use crate::inputs::Random;
use crate::timing::Fields;
use dukthari::{calls, Sizes};

/// One input for the four calls, and how many places are lent to be written.
#[derive(Debug)]
struct Input {
    size: [u32; 3],
    orientation: u32,
    start: u32,
    end: u32,
    cells: Vec<u8>,
    room: usize,
}

pub fn check() {
    let mut r = Random::new(0x5DEE_CE66_D012_3457);
    for i in 0..15 * 15 * 16 {
        let size = [2 + i % 15, 2 + i / 15 % 15, 1 + i / 225];
        let nodes = size.iter().product::<u32>() as usize;
        let percent = [2, 10, 30, 60][r.below(4)];
        let cells: Vec<u8> = (0..nodes).map(|_| u8::from(r.below(100) < percent)).collect();
        for orientation in 0..8 {
            let [start, end] = [0; 2].map(|_| r.below(nodes) as u32);
            let mut input = Input { size, orientation, start, end, cells: cells.clone(), room: nodes + 3 };
            for _ in 0..3 {
                compare(&input);
                input.spoil(&mut r);
            }
        }
    }
}

impl Input {
    /// Makes one more thing wrong, or lends less.
    fn spoil(&mut self, r: &mut Random) {
        let nodes = self.cells.len();
        match r.below(7) {
            0 => self.size[r.below(3)] = [0, 1, 17, u32::MAX][r.below(4)],
            1 => self.cells.truncate(nodes - 1),
            2 => self.cells.push(0),
            3 => self.cells[r.below(nodes)] = 2 + r.below(254) as u8,
            4 => self.orientation = 8 + r.below(100) as u32,
            5 => self.end = (nodes + r.below(100)) as u32,
            _ => self.room = r.below(nodes),
        }
    }

    fn sizes(&self) -> Sizes {
        let [w, h, d] = self.size;
        Sizes { w, h, d }
    }
}

fn compare(input: &Input) {
    let (s, size, cells) = (input.sizes(), input.size, &input.cells[..]);
    let (o, start, end) = (input.orientation, input.start, input.end);
    agree("dk_marks", input, |out| done(calls::marks(s, o, cells, out)), |out| fields(bits::marks(size, o, cells, out), nothing));
    agree(
        "dk_verdict",
        input,
        |_: &mut [u8]| {
            let a = calls::verdict(s, start, end, cells);
            [a.refusal, a.bad, a.hops, a.offered, 0]
        },
        |_| fields(bits::verdict(size, start, end, cells), |v| [v.hops, v.offered, 0]),
    );
    agree(
        "dk_route",
        input,
        |out| counted(calls::route(s, start, end, cells, out)),
        |out| fields(bits::route(size, start, end, cells, out), count),
    );
    agree(
        "dk_reached",
        input,
        |out| counted(calls::reached(s, start, end, cells, out)),
        |out| fields(bits::reached(size, start, end, cells, out), count),
    );
}

/// Lends the same to both sides, and stops where their answers differ or what they have written.
fn agree<T: Copy + From<u8> + PartialEq>(
    call: &str,
    input: &Input,
    library: impl Fn(&mut [T]) -> Fields,
    bits: impl Fn(&mut [T]) -> Fields,
) {
    let (mut ours, mut theirs) = (vec![T::from(9); input.room], vec![T::from(9); input.room]);
    let (a, b) = (library(&mut ours), bits(&mut theirs));
    if a != b || ours != theirs {
        println!("DISAGREE: {call}: the library answers {a:?}, bit rows {b:?}, on {input:?}");
        std::process::exit(1);
    }
}
