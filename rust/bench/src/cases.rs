//! Each call on maps, states and files: the library beside plain Rust; marks and routes beside plain Rust or bit rows.
use crate::inputs::{corners, maps, near, neighbour, settled, Cube, Pair};
use crate::timing::{Case, Fields, Row};
use dukthari::answers::{Counted, Done};
use dukthari::{calls, Component};
use plain::{Refused, Verdict};
use std::time::Instant;

/// In a hundred nodes so many are faulty: all of these on the largest mesh, and one density on smaller ones, to see how cost grows.
fn densities(cube: Cube) -> &'static [usize] {
    if cube.side == 16 {
        &[0, 2, 10, 30, 50]
    } else {
        &[10]
    }
}

pub fn done(a: Done) -> Fields {
    [a.refusal, a.bad, 0, 0, 0]
}

pub fn counted(a: Counted) -> Fields {
    [a.refusal, a.bad, a.count, 0, 0]
}

/// The fields of the other side's answer, from its value's.
pub fn fields<T>(answer: Result<T, Refused>, value: impl Fn(T) -> [u32; 3]) -> Fields {
    match answer {
        Ok(granted) => {
            let [a, b, c] = value(granted);
            [0, 0, a, b, c]
        }
        Err(r) => [r.number, r.bad, 0, 0, 0],
    }
}

pub fn nothing(_: ()) -> [u32; 3] {
    [0; 3]
}

pub fn count(n: usize) -> [u32; 3] {
    [n as u32, 0, 0]
}

pub fn marks(cube: Cube, theirs: impl Fn([u32; 3], u32, &[u8], &mut [u8]) -> Result<(), Refused>, rows: &mut Vec<Row>) {
    for &percent in densities(cube) {
        let maps = maps(cube, percent, 16);
        let input = |i: usize| (i as u32 % 8, &maps[i / 8][..]);
        let library = |i: usize, out: &mut Vec<u8>| {
            let (orientation, cells) = input(i);
            done(calls::marks(cube.sizes(), orientation, cells, out))
        };
        let other = |i: usize, out: &mut Vec<u8>| {
            let (orientation, cells) = input(i);
            fields(theirs(cube.size(), orientation, cells, out), nothing)
        };
        rows.push(
            Case {
                cube,
                call: "dk_marks",
                input: format!("{percent} %"),
                inputs: 128,
                library: &library,
                other: &other,
                same: |a, b| a == b,
            }
            .run(vec![9; cube.nodes()], vec![9; cube.nodes()]),
        );
    }
}

pub fn components(cube: Cube, rows: &mut Vec<Row>) {
    for &percent in densities(cube) {
        let maps = maps(cube, percent, 16);
        let input = |i: usize| (i as u32 % 8, &maps[i / 8][..]);
        let library = |i: usize, (table, row): &mut (Vec<u16>, Vec<Component>)| {
            let (orientation, cells) = input(i);
            counted(calls::components(cube.sizes(), orientation, cells, table, row))
        };
        let plain = |i: usize, (table, row): &mut (Vec<u16>, Vec<plain::Component>)| {
            let (orientation, cells) = input(i);
            fields(plain::components(cube.size(), orientation, cells, table, row), count)
        };
        let same = |(t, r): &(Vec<u16>, Vec<Component>), (u, s): &(Vec<u16>, Vec<plain::Component>)| {
            let equal = |(a, b): (&Component, &plain::Component)| (a.count, a.least, a.greatest) == (b.count, b.least, b.greatest);
            t == u && r.iter().zip(s).all(equal)
        };
        rows.push(
            Case { cube, call: "dk_components", input: format!("{percent} %"), inputs: 128, library: &library, other: &plain, same }.run(
                (vec![9; cube.nodes()], vec![Component::default(); cube.nodes()]),
                (vec![9; cube.nodes()], vec![plain::Component::default(); cube.nodes()]),
            ),
        );
    }
}

/// The pairs that the calls on routes are timed on.
fn pairs(cube: Cube) -> Vec<(String, Vec<Pair>)> {
    let corner = |percent: &usize| (format!("{percent} %, corner to corner"), corners(cube, *percent));
    if cube.side < 16 {
        return vec![corner(&10)];
    }
    let mut all: Vec<_> = [0, 2, 10, 30].iter().map(corner).collect();
    all.push(("10 %, 2 hops".to_string(), near(cube, 10, [1, 1, 0])));
    all.push(("10 %, 6 hops".to_string(), near(cube, 10, [2, 2, 2])));
    all
}

pub fn verdict(cube: Cube, theirs: impl Fn([u32; 3], u32, u32, &[u8]) -> Result<Verdict, Refused>, rows: &mut Vec<Row>) {
    for (input, pairs) in pairs(cube) {
        let library = |i: usize, (): &mut ()| {
            let p = &pairs[i];
            let a = calls::verdict(cube.sizes(), p.start, p.end, &p.cells);
            [a.refusal, a.bad, a.hops, a.offered, 0]
        };
        let other = |i: usize, (): &mut ()| {
            let p = &pairs[i];
            fields(theirs(cube.size(), p.start, p.end, &p.cells), |v| [v.hops, v.offered, 0])
        };
        rows.push(
            Case { cube, call: "dk_verdict", input, inputs: pairs.len(), library: &library, other: &other, same: |(), ()| true }
                .run((), ()),
        );
    }
}

pub fn route(cube: Cube, theirs: impl Fn([u32; 3], u32, u32, &[u8], &mut [u16]) -> Result<usize, Refused>, rows: &mut Vec<Row>) {
    for (input, pairs) in pairs(cube) {
        let library = |i: usize, out: &mut Vec<u16>| {
            let p = &pairs[i];
            counted(calls::route(cube.sizes(), p.start, p.end, &p.cells, out))
        };
        let other = |i: usize, out: &mut Vec<u16>| {
            let p = &pairs[i];
            fields(theirs(cube.size(), p.start, p.end, &p.cells, out), count)
        };
        rows.push(
            Case { cube, call: "dk_route", input, inputs: pairs.len(), library: &library, other: &other, same: |a, b| a == b }
                .run(vec![9; 46], vec![9; 46]),
        );
    }
}

pub fn reached(cube: Cube, theirs: impl Fn([u32; 3], u32, u32, &[u8], &mut [u8]) -> Result<usize, Refused>, rows: &mut Vec<Row>) {
    for (input, pairs) in pairs(cube) {
        let library = |i: usize, out: &mut Vec<u8>| {
            let p = &pairs[i];
            counted(calls::reached(cube.sizes(), p.start, p.end, &p.cells, out))
        };
        let other = |i: usize, out: &mut Vec<u8>| {
            let p = &pairs[i];
            fields(theirs(cube.size(), p.start, p.end, &p.cells, out), count)
        };
        rows.push(
            Case { cube, call: "dk_reached", input, inputs: pairs.len(), library: &library, other: &other, same: |a, b| a == b }
                .run(vec![9; cube.nodes()], vec![9; cube.nodes()]),
        );
    }
}

pub fn fresh(cube: Cube, rows: &mut Vec<Row>) {
    for &percent in densities(cube) {
        let maps = maps(cube, percent, 16);
        let library = |i: usize, state: &mut Vec<u8>| done(calls::fresh(cube.sizes(), 5, &maps[i], state));
        let plain = |i: usize, state: &mut Vec<u8>| fields(plain::fresh(cube.size(), 5, &maps[i], state), nothing);
        rows.push(
            Case {
                cube,
                call: "dk_fresh",
                input: format!("{percent} %"),
                inputs: 16,
                library: &library,
                other: &plain,
                same: |a, b| a == b,
            }
            .run(vec![9; 7 * cube.nodes()], vec![9; 7 * cube.nodes()]),
        );
    }
}

pub fn sound(cube: Cube, rows: &mut Vec<Row>) {
    for &percent in densities(cube) {
        let s = settled(cube, percent);
        let library = |_: usize, (): &mut ()| done(calls::sound(cube.sizes(), s.orientation, &s.state));
        let plain = |_: usize, (): &mut ()| fields(plain::sound(cube.size(), s.orientation, &s.state), nothing);
        let input = format!("{percent} %, settled");
        rows.push(Case { cube, call: "dk_sound", input, inputs: 1, library: &library, other: &plain, same: |(), ()| true }.run((), ()));
    }
}

pub fn outstanding(cube: Cube, rows: &mut Vec<Row>) {
    for &percent in densities(cube) {
        let s = settled(cube, percent);
        let library = |_: usize, (): &mut ()| counted(calls::outstanding(cube.sizes(), s.orientation, &s.state));
        let plain = |_: usize, (): &mut ()| fields(plain::outstanding(cube.size(), s.orientation, &s.state), count);
        let input = format!("{percent} %, settled");
        rows.push(
            Case { cube, call: "dk_outstanding", input, inputs: 1, library: &library, other: &plain, same: |(), ()| true }.run((), ()),
        );
    }
}

pub fn hear(cube: Cube, rows: &mut Vec<Row>) {
    for &percent in densities(cube) {
        let s = settled(cube, percent);
        let word = |i: usize| s.words[i * 619 % s.words.len()];
        let library = |i: usize, state: &mut Vec<u8>| {
            let (listener, direction, word) = word(i);
            done(calls::hear(cube.sizes(), s.orientation, listener, direction, word, state))
        };
        let plain = |i: usize, state: &mut Vec<u8>| {
            let (listener, direction, word) = word(i);
            fields(plain::hear(cube.size(), s.orientation, listener, direction, word, state), nothing)
        };
        let input = format!("{percent} %, settled");
        rows.push(
            Case { cube, call: "dk_hear", input, inputs: 64, library: &library, other: &plain, same: |a, b| a == b }
                .run(s.state.clone(), s.state.clone()),
        );
    }
}

pub fn read_map(cube: Cube, rows: &mut Vec<Row>) {
    let files: Vec<Vec<u8>> = maps(cube, 10, 16).iter().map(|cells| file(cube, cells)).collect();
    let library = |i: usize, cells: &mut Vec<u8>| {
        let a = calls::read_map(&files[i], cells);
        [a.refusal, a.bad, a.w, a.h, a.d]
    };
    let plain = |i: usize, cells: &mut Vec<u8>| fields(plain::read_map(&files[i], cells), |s| s);
    rows.push(
        Case {
            cube,
            call: "dk_read_map",
            input: format!("{} bytes", cube.nodes() + 12),
            inputs: 16,
            library: &library,
            other: &plain,
            same: |a, b| a == b,
        }
        .run(vec![9; cube.nodes()], vec![9; cube.nodes()]),
    );
}

fn file(cube: Cube, cells: &[u8]) -> Vec<u8> {
    let mut out = vec![0; cells.len() + 12];
    plain::write_map(cube.size(), cells, &mut out).unwrap();
    out
}

pub fn write_map(cube: Cube, rows: &mut Vec<Row>) {
    let maps = maps(cube, 10, 16);
    let library = |i: usize, out: &mut Vec<u8>| counted(calls::write_map(cube.sizes(), &maps[i], out));
    let plain = |i: usize, out: &mut Vec<u8>| fields(plain::write_map(cube.size(), &maps[i], out), count);
    rows.push(
        Case {
            cube,
            call: "dk_write_map",
            input: format!("{} bytes", cube.nodes() + 12),
            inputs: 16,
            library: &library,
            other: &plain,
            same: |a, b| a == b,
        }
        .run(vec![9; cube.nodes() + 12], vec![9; cube.nodes() + 12]),
    );
}

/// Every word on every link, round after round, until nothing is outstanding.
pub fn gossip() {
    let cube = Cube { side: 16 };
    let cells = maps(cube, 30, 1).remove(0);
    let mut state = vec![0; 7 * cube.nodes()];
    let begun = Instant::now();
    assert_eq!(cube.sizes().fresh(0, &cells, &mut state), Ok(()));
    let (mut rounds, mut words) = (0, 0);
    while cube.sizes().outstanding(0, &state) != Ok(0) {
        rounds += 1;
        for node in (0..cube.nodes()).filter(|node| cells[*node] == 0) {
            for direction in 0..6 {
                if let Some(q) = neighbour(cube, node, direction).filter(|q| cells[*q] == 0) {
                    let word = state[7 * q];
                    assert_eq!(cube.sizes().hear(0, node as u32, direction as u32, word.into(), &mut state), Ok(()));
                    words += 1;
                }
            }
        }
    }
    let seconds = begun.elapsed().as_secs_f64();
    println!();
    println!("A whole gossip of 4,096 nodes, 30 % of them faulty: {rounds} full rounds, {words} words heard, {seconds:.2} s.");
}
