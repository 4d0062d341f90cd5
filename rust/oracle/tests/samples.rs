//! "Samples with numbers": all twelve of the scope paper, and the report on map P.
use oracle::components::{components, Component};
use oracle::field::{fresh, hear, outstanding};
use oracle::listing::listing;
use oracle::mapfile::{read_map, write_map};
use oracle::marks::marks;
use oracle::report::report;
use oracle::routes::{reached, route, verdict};

const P: [u32; 3] = [5, 5, 1];
const NOTHING: Component = Component { count: 0, least: [0; 3], greatest: [0; 3] };

fn map(size: [u32; 3], faulty: &[[u32; 3]]) -> Vec<u8> {
    let mut cells = vec![0; (size[0] * size[1] * size[2]) as usize];
    for [x, y, z] in faulty {
        cells[(x + size[0] * (y + size[1] * z)) as usize] = 1;
    }
    cells
}

/// "Map P is 5 × 5 × 1 with (2,1) and (1,2) faulty."
fn p() -> Vec<u8> {
    map(P, &[[2, 1, 0], [1, 2, 0]])
}

fn marks_of(size: [u32; 3], orientation: u32, cells: &[u8]) -> Vec<u8> {
    let mut out = vec![9; cells.len()];
    assert_eq!(marks(size, orientation, cells, &mut out), [0, 0]);
    out
}

fn components_of(size: [u32; 3], orientation: u32, cells: &[u8]) -> (Vec<u16>, Vec<Component>) {
    let (mut table, mut row) = (vec![99; cells.len()], vec![NOTHING; cells.len()]);
    let [refusal, bad, count] = components(size, orientation, cells, &mut table, &mut row);
    assert_eq!([refusal, bad], [0, 0]);
    row.truncate(count as usize);
    (table, row)
}

fn route_of(start: u32, end: u32) -> Vec<u16> {
    let mut out = [99; 46];
    let [refusal, _, count] = route(P, start, end, &p(), &mut out);
    assert_eq!(refusal, 0);
    out[..count as usize].to_vec()
}

#[test]
fn sample_1() {
    let mut bytes = vec![0; 25];
    (bytes[6], bytes[12], bytes[7], bytes[11]) = (2, 4, 1, 1);
    assert_eq!(marks_of(P, 0, &p()), bytes);
    let (table, row) = components_of(P, 0, &p());
    assert_eq!(row, [Component { count: 4, least: [1, 1, 0], greatest: [2, 2, 0] }]);
    assert_eq!(table, bytes.iter().map(|b| u16::from(*b != 0)).collect::<Vec<_>>());
}

#[test]
fn sample_2() {
    assert_eq!(marks_of(P, 1, &p()), p());
    assert_eq!(components_of(P, 1, &p()).1, [Component { count: 2, least: [1, 1, 0], greatest: [2, 2, 0] }]);
}

#[test]
fn samples_3_to_9() {
    assert_eq!(verdict(P, 0, 24, &p()), [0, 0, 8, 5]);
    assert_eq!(route_of(0, 24), [0, 1, 2, 3, 4, 9, 14, 19, 24]);
    assert_eq!(verdict(P, 1, 24, &p()), [0, 0, 7, 1]);
    assert_eq!(verdict(P, 6, 24, &p()), [10, 0, 0, 0]);
    assert_eq!(verdict(P, 6, 6, &p()), [0, 0, 0, 0]);
    assert_eq!(route_of(6, 6), [6]);
    assert_eq!(verdict(P, 5, 6, &p()), [0, 0, 1, 1]);
    assert_eq!(verdict(P, 0, 12, &p()), [10, 0, 0, 0]);
    assert_eq!(verdict(P, 12, 24, &p())[..3], [0, 0, 4]);
    assert_eq!(verdict(P, 2, 17, &p()), [10, 0, 0, 0]);
    assert_eq!(verdict(P, 24, 0, &p()), [0, 0, 8, 10]);
    assert_eq!(route_of(24, 0), [24, 23, 22, 21, 20, 15, 10, 5, 0]);
    assert_eq!(verdict(P, 7, 24, &p()), [9, 0, 0, 0]);
    assert_eq!(verdict(P, 25, 7, &p()), [5, 0, 0, 0]);
}

/// What is reached from 6 towards 24 is 6 alone: both ways on are faulty. From 2 towards 17 there is one way, and it ends at 7.
#[test]
fn reached_on_p() {
    let mut out = vec![9; 26];
    assert_eq!(reached(P, 6, 24, &p(), &mut out), [0, 0, 1]);
    assert!((0..25).all(|node| out[node] == u8::from(node == 6)) && out[25] == 9);
    assert_eq!(reached(P, 2, 17, &p(), &mut out), [0, 0, 1]);
    assert_eq!(reached(P, 0, 24, &p(), &mut out), [0, 0, 22]); // all but 7, 11 and 12
}

#[test]
fn sample_10() {
    let cells = map([3, 3, 1], &[[1, 0, 0], [0, 1, 0], [2, 1, 0], [1, 2, 0]]);
    assert_eq!(marks_of([3, 3, 1], 0, &cells), [2, 1, 0, 1, 6, 1, 0, 1, 4]);
}

#[test]
fn sample_11() {
    let size = [4, 4, 1];
    let cells = map(size, &[[2, 1, 0], [1, 2, 0], [0, 2, 0]]);
    let mut state = vec![9; 7 * 16];
    assert_eq!(fresh(size, 0, &cells, &mut state), [0, 0]);
    assert_eq!(outstanding(size, 0, &state), [0, 0, 4]);
    assert_eq!(hear(size, 0, 4, 0, 4, &mut state), [8, 0]);
    assert_eq!(hear(size, 0, 4, 0, 2, &mut state), [0, 0]);
    assert_eq!(state[7 * 4], 2);
    assert_eq!(outstanding(size, 0, &state), [0, 0, 5]);
    for (listener, direction, word) in [(0, 2, 2), (1, 2, 2), (5, 1, 2), (11, 1, 4), (14, 3, 4)] {
        assert_eq!(hear(size, 0, listener, direction, word, &mut state), [0, 0]);
    }
    assert_eq!(outstanding(size, 0, &state), [0, 0, 0]);
}

#[test]
fn sample_12() {
    let size = [10, 10, 10];
    let cells = map(size, &[[5, 5, 6], [6, 5, 5], [5, 6, 5], [6, 7, 5], [7, 6, 5], [5, 4, 7], [4, 5, 7], [7, 8, 4]]);
    let bytes = marks_of(size, 0, &cells);
    assert_eq!([bytes[555], bytes[755], bytes[566]], [2, 4, 0]);
    let mut counts: Vec<u16> = components_of(size, 0, &cells).1.iter().map(|c| c.count).collect();
    counts.sort_unstable();
    assert_eq!(counts, [1, 9]);
}

/// What the proved program `samplerun` is held to is this program's text.
#[test]
fn the_run_of_sample_12() {
    assert_eq!(listing(include_bytes!("../../../crates/samplerun/stdin")), include_str!("../../../crates/samplerun/stdout"));
}

#[test]
fn the_file_of_p_and_its_report() {
    let mut file = vec![9; 40];
    assert_eq!(write_map(P, &p(), &mut file), [0, 0, 37]);
    assert_eq!(file[25..], [5, 5, 1, 0, 37, 0, 0, 0, 0x46, 0x4C, 0x44, 0x31, 9, 9, 9]);
    let mut cells = vec![9; 26];
    assert_eq!(read_map(&file[..37], &mut cells), [0, 0, 5, 5, 1]);
    assert!(cells[..25] == p()[..] && cells[25] == 9);
    let text = "mesh 5 5 1 faulty 2
octant 0 useless 1 cannot-reach 1 components 1
octant 1 useless 0 cannot-reach 0 components 1
octant 2 useless 0 cannot-reach 0 components 1
octant 3 useless 1 cannot-reach 1 components 1
";
    assert_eq!(report(&file[..37]), text);
    assert_eq!(report(&file), "refused 11\n");
}

/// The page for the auditor on cases 3 to 9, and on a deep map.
#[test]
fn the_audit() {
    let page = |map: &[u8], log: &[u8]| oracle::audit::audit(map, log);
    let printed = include_str!("../../../crates/meshaudit/stdout");
    let quarter = page(include_bytes!("../../../maps/p.map"), include_bytes!("../../../maps/quarter.log"));
    let deep = page(include_bytes!("../../../maps/deep.map"), include_bytes!("../../../maps/deep.log"));
    assert!(printed.starts_with(&format!("log quarter.log\nmap p.map\n{quarter}log deep.log\nmap deep.map\n{deep}")));
}

/// The maps for people are those that the proved programs are run on.
#[test]
fn the_maps() {
    let file = |path: &str| std::fs::read(format!("../../{path}")).unwrap_or_else(|e| panic!("{path}: {e}"));
    for name in ["p", "sample10", "sample12", "case11", "large"] {
        assert!(file(&format!("maps/{name}.map")) == file(&format!("crates/meshreports/data/{name}.map")), "{name}");
    }
    for (map, run) in [
        ("p.map", "meshreport/stdin"),
        ("p.map", "gossip/stdin"),
        ("sample12.map", "samplerun/stdin"),
        ("p.map", "meshaudit/data/p.map"),
        ("quarter.log", "meshaudit/data/quarter.log"),
        ("deep.map", "meshaudit/data/deep.map"),
        ("deep.log", "meshaudit/data/deep.log"),
        ("corridor.map", "gossips/data/corridor.map"),
    ] {
        assert!(file(&format!("maps/{map}")) == file(&format!("crates/{run}")), "{map}: {run}");
    }
}
