//! The calls on numbers and places: the library beside plain Rust.
use crate::cases::fields;
use crate::inputs::{places, Cube};
use crate::timing::{Case, Row};
use dukthari::{calls, Place};

pub fn number(cube: Cube, rows: &mut Vec<Row>) {
    let places = places(cube);
    let library = |i: usize, (): &mut ()| {
        let [x, y, z] = places[i];
        let a = calls::number(cube.sizes(), Place { x, y, z });
        [a.refusal, 0, a.node, 0, 0]
    };
    let plain = |i: usize, (): &mut ()| fields(plain::number(cube.size(), places[i]), |node| [node, 0, 0]);
    let input = "every place".to_string();
    rows.push(
        Case { cube, call: "dk_number", input, inputs: cube.nodes(), library: &library, other: &plain, same: |(), ()| true }.run((), ()),
    );
}

pub fn place(cube: Cube, rows: &mut Vec<Row>) {
    let library = |i: usize, (): &mut ()| {
        let a = calls::place(cube.sizes(), i as u32);
        [a.refusal, 0, a.x, a.y, a.z]
    };
    let plain = |i: usize, (): &mut ()| fields(plain::place(cube.size(), i as u32), |place| place);
    let input = "every node".to_string();
    rows.push(
        Case { cube, call: "dk_place", input, inputs: cube.nodes(), library: &library, other: &plain, same: |(), ()| true }.run((), ()),
    );
}

pub fn step(cube: Cube, rows: &mut Vec<Row>) {
    let steps: Vec<_> = places(cube).into_iter().flat_map(|place| (0..6).map(move |direction| (place, direction))).collect();
    let library = |i: usize, (): &mut ()| {
        let ([x, y, z], direction) = steps[i];
        let a = calls::step(cube.sizes(), Place { x, y, z }, direction);
        [a.refusal, a.there, a.x, a.y, a.z]
    };
    let plain = |i: usize, (): &mut ()| {
        let (place, direction) = steps[i];
        match plain::step(cube.size(), place, direction) {
            Ok(Some([x, y, z])) => [0, 1, x, y, z],
            Ok(None) => [0; 5],
            Err(r) => [r.number, 0, 0, 0, 0],
        }
    };
    let input = "every place and direction".to_string();
    rows.push(
        Case { cube, call: "dk_step", input, inputs: steps.len(), library: &library, other: &plain, same: |(), ()| true }.run((), ()),
    );
}
