//! Times each call of the library against plain Rust on the same input, in one run: the results are compared first, then short runs of the two
//! take turns, and the table has the median of each, the ratio, and its spread. A second table has marks and routes against bit rows. Words after
//! the name choose calls by a part of their names; `--pictures FOLDER` draws the ratios to plain Rust, and how cost grows, as speed.svg and
//! growth.svg.

mod bits;
mod cases;
mod inputs;
mod picture;
mod places;
mod same;
mod timing;

use inputs::Cube;
use timing::Row;

/// A call, and what times it on a mesh.
type Timed = (&'static str, fn(Cube, &mut Vec<Row>));

const PLAIN: [Timed; 14] = [
    ("dk_number", places::number),
    ("dk_place", places::place),
    ("dk_step", places::step),
    ("dk_marks", |cube, rows| cases::marks(cube, plain::marks, rows)),
    ("dk_components", cases::components),
    ("dk_verdict", |cube, rows| cases::verdict(cube, plain::verdict, rows)),
    ("dk_route", |cube, rows| cases::route(cube, plain::route, rows)),
    ("dk_reached", |cube, rows| cases::reached(cube, plain::reached, rows)),
    ("dk_fresh", cases::fresh),
    ("dk_sound", cases::sound),
    ("dk_outstanding", cases::outstanding),
    ("dk_hear", cases::hear),
    ("dk_read_map", cases::read_map),
    ("dk_write_map", cases::write_map),
];

const BITS: [Timed; 4] = [
    ("dk_marks", |cube, rows| cases::marks(cube, bits::marks, rows)),
    ("dk_verdict", |cube, rows| cases::verdict(cube, bits::verdict, rows)),
    ("dk_route", |cube, rows| cases::route(cube, bits::route, rows)),
    ("dk_reached", |cube, rows| cases::reached(cube, bits::reached, rows)),
];

fn stop(why: &str) -> ! {
    eprintln!("{why}");
    std::process::exit(1);
}

/// Times calls on each mesh, those that are wanted, and prints the table.
fn table(other: &str, calls: &[Timed], wanted: &dyn Fn(&str) -> bool) -> Vec<Row> {
    println!("| Call | Mesh | Input | Library, ns | {other}, ns | Ratio | Half of the ratios in |");
    println!("|---|---|---|---|---|---|---|");
    let mut rows = Vec::new();
    for (_, time) in calls.iter().filter(|(call, _)| wanted(call)) {
        for side in [16, 12, 8, 4] {
            time(Cube { side }, &mut rows);
        }
    }
    rows
}

fn main() {
    let (mut chosen, mut folder) = (Vec::new(), None);
    let mut words = std::env::args().skip(1);
    while let Some(word) = words.next() {
        match &word[..] {
            "--pictures" => folder = Some(words.next().unwrap_or_else(|| stop("--pictures wants the name of a folder"))),
            part if PLAIN.iter().any(|(call, _)| call.contains(part)) => chosen.push(word),
            part => stop(&format!("no call has {part} in its name; usage: rust/measure [CALL..] [--pictures FOLDER]")),
        }
    }
    let wanted = |call: &str| chosen.is_empty() || chosen.iter().any(|part| call.contains(&part[..]));
    let rows = table("Plain Rust", &PLAIN, &wanted);
    if BITS.iter().any(|(call, _)| wanted(call)) {
        same::check();
        println!();
        table("Bit rows in safe Rust", &BITS, &wanted);
    }
    if ["dk_fresh", "dk_outstanding", "dk_hear"].iter().all(|call| wanted(call)) {
        cases::gossip();
    }
    if let Some(folder) = folder {
        for (name, text) in [("speed", picture::ratios(&rows)), ("growth", picture::growth(&rows))] {
            let file = format!("{folder}/{name}.svg");
            std::fs::write(&file, text).unwrap_or_else(|e| stop(&format!("{file}: {e}")));
        }
    }
}
