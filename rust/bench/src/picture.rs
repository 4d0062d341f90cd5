//! Two pictures. The ratios: a row for each case, a dot at its ratio, a bar over half of the pairs of runs, and a line where the two are equal.
//! And how cost grows: the library's time for each call on meshes of four sizes, both axes by factors.
use crate::timing::Row;
use std::fmt::Write;

const LEFT: f64 = 330.0;
const WIDE: f64 = 520.0;
const HIGH: usize = 18;

/// The picture's first lines, up to its title.
fn begin(wide: f64, high: usize, title: &str) -> String {
    format!(
        r##"<svg xmlns="http://www.w3.org/2000/svg" width="{wide}" height="{high}" font-family="sans-serif" font-size="12">
<rect width="100%" height="100%" fill="white"/>
<text x="10" y="20" font-size="14">{title}</text>
"##
    )
}

/// Where a ratio stands, from 0 to 1.25; what is above that is drawn at the edge.
fn x(ratio: f64) -> f64 {
    LEFT + WIDE * ratio.min(1.25) / 1.25
}

pub fn ratios(rows: &[Row]) -> String {
    let bottom = 40 + HIGH * rows.len();
    let mut text = begin(LEFT + WIDE + 60.0, bottom + 30, "Time of the library by that of plain Rust; left of 1 the library is the faster");
    for ratio in [0.0, 0.25, 0.5, 0.75, 1.0, 1.25] {
        let (at, colour) = (x(ratio), if ratio == 1.0 { "#c00" } else { "#ccc" });
        let y = bottom + 16;
        writeln!(text, r##"<line x1="{at}" y1="30" x2="{at}" y2="{bottom}" stroke="{colour}"/>"##).unwrap();
        writeln!(text, r##"<text x="{at}" y="{y}" text-anchor="middle">{ratio}</text>"##).unwrap();
    }
    for (i, row) in rows.iter().enumerate() {
        let (y, line) = (44 + HIGH * i, 48 + HIGH * i);
        let [low, high] = row.spread.map(x);
        let (dot, number) = (x(row.ratio), LEFT + WIDE + 12.0);
        write!(text, r##"<text x="10" y="{line}">{}, {}: {}</text>"##, row.call, row.cube, row.input).unwrap();
        write!(text, r##"<line x1="{low:.1}" y1="{y}" x2="{high:.1}" y2="{y}" stroke="#38c" stroke-width="5" stroke-opacity="0.4"/>"##)
            .unwrap();
        write!(text, r##"<circle cx="{dot:.1}" cy="{y}" r="4" fill="#146"/>"##).unwrap();
        writeln!(text, r##"<text x="{number}" y="{line}">{:.2}</text>"##, row.ratio).unwrap();
    }
    text + "</svg>\n"
}

/// The largest mesh's number of nodes stands at the right, each factor of ten of time as high as the others, from 1 ns to 100 µs.
fn spot(nodes: f64, ns: f64) -> (f64, f64) {
    (60.0 + 560.0 * (nodes / 64.0).ln() / 64f64.ln(), 560.0 - 100.0 * ns.log10())
}

/// The rows that were timed on every mesh: the first input of each call that the smallest mesh has too.
fn grown(rows: &[Row]) -> Vec<Vec<&Row>> {
    let smallest = rows.iter().filter(|row| row.cube.side == 4);
    let same = |a: &Row, b: &Row| a.call == b.call && (a.input == b.input || a.input.ends_with("bytes"));
    smallest.map(|small| rows.iter().filter(|row| same(row, small)).collect()).collect()
}

pub fn growth(rows: &[Row]) -> String {
    let mut text = begin(780.0, 610, "Time of a call of the library by the number of nodes, 10 % of them faulty");
    for (power, word) in ["1 ns", "10 ns", "100 ns", "1 µs", "10 µs", "100 µs"].iter().enumerate() {
        let y = spot(64.0, 10f64.powi(power as i32)).1;
        writeln!(text, r##"<line x1="60" y1="{y:.0}" x2="620" y2="{y:.0}" stroke="#ccc"/><text x="10" y="{:.0}">{word}</text>"##, y + 4.0)
            .unwrap();
    }
    for side in [4, 8, 12, 16] {
        let x = spot((side * side * side) as f64, 1.0).0;
        writeln!(text, r##"<line x1="{x:.0}" y1="60" x2="{x:.0}" y2="560" stroke="#ccc"/>"##).unwrap();
        writeln!(text, r##"<text x="{x:.0}" y="580" text-anchor="middle">{side} × {side} × {side}</text>"##).unwrap();
    }
    let mut lines: Vec<(f64, &str, String)> = Vec::new();
    for rows in grown(rows) {
        let spots: Vec<(f64, f64)> = rows.iter().map(|row| spot(row.cube.nodes() as f64, row.library)).collect();
        let path: Vec<String> = spots.iter().map(|(x, y)| format!("{x:.1},{y:.1}")).collect();
        lines.push((spots[0].1, rows[0].call, path.join(" ")));
    }
    lines.sort_by(|a, b| a.0.total_cmp(&b.0));
    let mut last = 0.0;
    for (i, (y, call, path)) in lines.iter().enumerate() {
        let colour = ["#146", "#c50", "#083", "#60a", "#a03", "#077"][i % 6];
        last = f64::max(last + 14.0, *y + 4.0);
        writeln!(text, r##"<polyline points="{path}" fill="none" stroke="{colour}" stroke-width="1.5"/>"##).unwrap();
        writeln!(text, r##"<text x="628" y="{last:.0}" fill="{colour}">{call}</text>"##).unwrap();
    }
    text + "</svg>\n"
}
