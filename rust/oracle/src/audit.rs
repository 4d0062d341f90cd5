//! The page that the program `meshaudit` prints for a map file and a log, from the words of the request alone.
use crate::mapfile::read_map;
use crate::routes::{reached, route, verdict};
use std::fmt::Write;

const LEGEND: &str = "
A direct route goes from neighbour to neighbour through nodes that can be used, and each step leads towards the end.
Where there is none, a picture shows the nodes between start and end:

  S  the start                                 #  cannot be used
  o  reached by steps towards the end          .  not reached
  E  the end

It is drawn from the start: each step towards the end goes to the right, down, or to the same place in the next layer.
Why it is a proof: each such step from S or from an o leads to an o or to a #. So whoever steps only towards the end
stays on the nodes marked o, and E is not one of them: no direct route exists.

";

fn reason(number: u32) -> &'static str {
    match number {
        1 => "1: a size is outside its range",
        4 => "4: a cell is above 1",
        5 => "5: the mesh has no node of that number",
        9 => "9: the start or the end is faulty",
        10 => "10: no path",
        11 => "11: the file is no map file",
        _ => unreachable!("refusal {number}"),
    }
}

/// A decimal number of 32 bits.
fn number(word: &[u8]) -> Option<u32> {
    word.iter().try_fold(0u32, |n, byte| {
        let digit = byte.is_ascii_digit().then(|| u32::from(byte - b'0'))?;
        n.checked_mul(10)?.checked_add(digit)
    })
}

/// "`start end` to a line, blank lines and `#` comments skipped"
fn transfer(line: &[u8]) -> Option<Option<[u32; 2]>> {
    let told = line.split(|byte| *byte == b'#').next().unwrap_or(&[]);
    let words: Vec<&[u8]> = told.split(|byte| b" \t\r".contains(byte)).filter(|word| !word.is_empty()).collect();
    match words[..] {
        [] => None,
        [start, end] => Some(number(start).and_then(|s| number(end).map(|e| [s, e]))),
        _ => Some(None),
    }
}

fn place([w, h, _]: [u32; 3], node: u32) -> [u32; 3] {
    [node % w, node / w % h, node / w / h]
}

/// From a to b, both with.
fn steps(a: u32, b: u32) -> Vec<u32> {
    if a <= b {
        (a..=b).collect()
    } else {
        (b..=a).rev().collect()
    }
}

fn picture(size: [u32; 3], cells: &[u8], start: u32, end: u32) -> String {
    let mut seen = vec![0; cells.len()];
    reached(size, start, end, cells, &mut seen);
    let (s, e) = (place(size, start), place(size, end));
    let mut text = format!("  S is at ({}, {}, {}), E at ({}, {}, {}); steps towards the end:", s[0], s[1], s[2], e[0], e[1], e[2]);
    for (axis, name) in ["x", "y", "z"].iter().enumerate() {
        if s[axis] != e[axis] {
            write!(text, " {}{name}", if s[axis] < e[axis] { '+' } else { '-' }).unwrap();
        }
    }
    text.push('\n');
    let node = |x: u32, y: u32, z: u32| x + size[0] * (y + size[1] * z);
    let columns = steps(s[0], e[0]);
    for z in steps(s[2], e[2]) {
        let heads: String = columns.iter().map(|x| format!(" {x:>2}")).collect();
        writeln!(text, "  layer z {z}\n    x     {heads}").unwrap();
        for y in steps(s[1], e[1]) {
            let symbol = |x: &u32| match node(*x, y, z) {
                k if k == start => "  S",
                k if k == end => "  E",
                k if seen[k as usize] == 1 => "  o",
                k if cells[k as usize] == 1 => "  #",
                _ => "  .",
            };
            let row: String = columns.iter().map(symbol).collect();
            writeln!(text, "    y {y:>2}  {row}   nodes {} to {}", node(s[0], y, z), node(e[0], y, z)).unwrap();
        }
    }
    text
}

/// The page for a map file and a log.
pub fn audit(file: &[u8], log: &[u8]) -> String {
    let mut room = vec![0; 4096];
    let [refusal, _, w, h, d] = read_map(file, &mut room);
    if refusal != 0 {
        return format!("the map is refused, {}\n", reason(refusal));
    }
    let (size, cells) = ([w, h, d], &room[..(w * h * d) as usize]);
    let mut text = format!("mesh {w} x {h} x {d}; the node at (x, y, z) has the number x + {w} * (y + {h} * z)\n{LEGEND}");
    if log.len() > 65_536 {
        return text + "the log is longer than 65536 bytes: none of it was read\n";
    }
    let mut lines: Vec<&[u8]> = log.split(|byte| *byte == b'\n').collect();
    if lines.last().map_or(false, |line| line.is_empty()) {
        lines.pop();
    }
    let (mut granted, mut pathless, mut refused, mut unread) = (0, 0, 0, 0);
    for (i, line) in lines.iter().enumerate() {
        let line_number = i + 1;
        match transfer(line) {
            None => {}
            Some(None) => {
                unread += 1;
                writeln!(text, "line {line_number}: no pair of numbers").unwrap();
            }
            Some(Some([start, end])) => {
                write!(text, "line {line_number}: {start} to {end}: ").unwrap();
                let [number, _, hops, _] = verdict(size, start, end, cells);
                if number == 0 {
                    granted += 1;
                    let mut nodes = vec![0; hops as usize + 1];
                    route(size, start, end, cells, &mut nodes);
                    let nodes: String = nodes.iter().map(|node| format!(" {node}")).collect();
                    writeln!(text, "granted, hops {hops}, route{nodes}").unwrap();
                } else {
                    writeln!(text, "refused {}", reason(number)).unwrap();
                    if number == 10 {
                        pathless += 1;
                        text += &picture(size, cells, start, end);
                    } else {
                        refused += 1;
                    }
                }
            }
        }
    }
    let lines = lines.len();
    writeln!(text, "totals: lines {lines}, granted {granted}, refused for no path {pathless}, refused otherwise {refused}, no pair of numbers {unread}")
        .unwrap();
    text
}

/// For a program in C: whether a page is that for a map file and a log. Where it is not, the first line that differs is printed.
///
/// # Safety
///
/// Each pointer leads to so many bytes.
#[no_mangle]
pub unsafe extern "C" fn oracle_page(
    map: *const u8,
    map_len: usize,
    log: *const u8,
    log_len: usize,
    page: *const u8,
    page_len: usize,
) -> bool {
    let bytes = |from: *const u8, count| if count == 0 { &[][..] } else { std::slice::from_raw_parts(from, count) };
    let page = String::from_utf8_lossy(bytes(page, page_len));
    let expected = audit(bytes(map, map_len), bytes(log, log_len));
    if let Some((line, want)) = page.lines().zip(expected.lines()).find(|(line, want)| line != want) {
        println!("printed: {line}\nnot: {want}");
    }
    page == expected
}
