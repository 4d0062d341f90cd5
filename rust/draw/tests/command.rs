//! The command as people use it: both ways, from a file and from standard input, and what it says of what it cannot take.
use std::ffi::OsStr;
use std::io::Write;
use std::path::{Path, PathBuf};
use std::process::{Command, Output, Stdio};
use std::{env, fs, process};

/// Runs the command with this standard input.
fn draw<W: AsRef<OsStr>>(arguments: &[W], input: &[u8]) -> Output {
    let mut command = Command::new(env!("CARGO_BIN_EXE_draw"));
    command.args(arguments).stdin(Stdio::piped()).stdout(Stdio::piped()).stderr(Stdio::piped());
    let mut running = command.spawn().unwrap();
    running.stdin.take().unwrap().write_all(input).ok();
    running.wait_with_output().unwrap()
}

fn said(output: &Output) -> (bool, String, String) {
    let text = |bytes: &[u8]| String::from_utf8_lossy(bytes).into_owned();
    (output.status.success(), text(&output.stdout), text(&output.stderr))
}

/// A file of these bytes, for one test.
fn file(name: &str, bytes: &[u8]) -> PathBuf {
    let path = env::temp_dir().join(format!("draw-{}-{name}", process::id()));
    fs::write(&path, bytes).unwrap();
    path
}

/// maps/*.map, each with the drawing that stands beside it.
fn maps() -> Vec<(PathBuf, PathBuf)> {
    let folder = Path::new(env!("CARGO_MANIFEST_DIR")).join("../../maps");
    let names = fs::read_dir(folder).unwrap().map(|entry| entry.unwrap().path());
    let maps: Vec<PathBuf> = names.filter(|path| path.extension().map_or(false, |end| end == "map")).collect();
    assert!(maps.len() >= 5, "{maps:?}");
    maps.into_iter().map(|map| (map.with_extension("txt"), map)).collect()
}

#[test]
fn each_map_has_its_drawing() {
    for (drawing, map) in maps() {
        let text = fs::read(&drawing).unwrap_or_else(|e| panic!("{}: {e}: make it by ./draw text {}", drawing.display(), map.display()));
        let drawn = draw(&["text", map.to_str().unwrap()], b"");
        assert!(drawn.status.success() && drawn.stdout == text, "{} is not the drawing of {}", drawing.display(), map.display());
        let made = draw(&["map", drawing.to_str().unwrap()], b"");
        assert!(made.status.success() && made.stdout == fs::read(&map).unwrap(), "{}", map.display());
    }
}

#[test]
fn standard_input_is_as_good() {
    let made = draw(&["map", "-"], b"..\n.#\n");
    assert_eq!(made.stdout, b"\0\0\0\x01\x02\x02\x01\0\x10\0\0\0FLD1");
    let drawn = draw(&["text", "-"], &made.stdout);
    assert_eq!(said(&drawn), (true, "..\n.#\n".into(), "".into()));
}

#[test]
fn a_bad_drawing_is_refused_by_line_and_column() {
    let path = file("short.txt", b"...\n...\n\n...\n..\n");
    let output = draw(&["map", path.to_str().unwrap()], b"");
    let want = format!("draw: {}: line 5, column 3: this row's length is 2, that of the first 3\n", path.display());
    assert_eq!(said(&output), (false, "".into(), want));
    fs::remove_file(path).unwrap();
    let output = draw(&["map", "-"], b"..\n.?\n");
    assert_eq!(said(&output), (false, "".into(), "draw: -: line 2, column 2: '?' is neither '.' (works) nor '#' (faulty)\n".into()));
    let output = draw(&["map", "-"], b"..\n.\xff\n");
    assert_eq!(said(&output), (false, "".into(), "draw: -: a drawing is text, and this is not\n".into()));
}

#[test]
fn a_bad_map_is_refused_by_its_number() {
    let refused = |file: &[u8]| said(&draw(&["text", "-"], file)).2;
    assert_eq!(refused(b"no map"), "draw: -: refused 11: no map file: its length, mark, zero byte or distance is wrong\n");
    let bad = refused(b"\0\0\x09\x01\x02\x02\x01\0\x10\0\0\0FLD1");
    assert_eq!(bad, "draw: -: refused 4: a cell is neither 0 (works) nor 1 (faulty), the first at node 2\n");
    let bad = refused(b"\0\0\0\0\x01\x02\x01\0\x10\0\0\0FLD1");
    assert_eq!(bad, "draw: -: refused 1: width and height must be 2 to 16, depth 1 to 16\n");
}

#[test]
fn help_and_usage() {
    let (helped, help, _) = said(&draw(&["--help"], b""));
    assert!(helped && help.starts_with("usage: ./draw map DRAWING > MAP"));
    assert_eq!(said(&draw::<&str>(&[], b"")).1, help);
    let example = help.split("are faulty:\n").nth(1).unwrap().replace(' ', "");
    let made = draw(&["map", "-"], example.as_bytes()).stdout;
    assert_eq!(said(&draw(&["text", "-"], &made)).1, "..#\n...\n\n...\n#..\n");
    let (understood, _, usage) = said(&draw(&["map"], b""));
    assert!(!understood && usage.starts_with("draw: usage"));
    let (found, _, missing) = said(&draw(&["text", "no such file"], b""));
    assert!(!found && missing.starts_with("draw: no such file: "));
}

#[test]
fn a_file_too_long_is_refused() {
    let long = vec![b'\n'; 65_536];
    let good = [&b"..\n..\n"[..], &long[..65_530]].concat();
    assert!(draw(&["map", "-"], &good).status.success());
    let output = draw(&["map", "-"], &[&good[..], b"\n"].concat());
    assert_eq!(said(&output), (false, "".into(), "draw: -: a drawing has at most 65536 bytes\n".into()));
    let end = b"\0\0\0\x01\x02\x02\x01\0\x10\0\0\0FLD1";
    let good = [&long[..65_520], end].concat();
    assert_eq!(said(&draw(&["text", "-"], &good)), (true, "..\n.#\n".into(), "".into()));
    let output = draw(&["text", "-"], &[&long[..65_521], end].concat());
    assert!(said(&output).2.starts_with("draw: -: refused 11: "));
}

#[cfg(target_os = "linux")]
#[test]
fn a_failed_write_is_told() {
    for (drawing, map) in maps() {
        for (way, name) in [("map", drawing), ("text", map)] {
            let full = fs::OpenOptions::new().write(true).open("/dev/full").unwrap();
            let output = Command::new(env!("CARGO_BIN_EXE_draw")).arg(way).arg(&name).stdout(full).output().unwrap();
            let (done, _, why) = said(&output);
            assert!(!done && why.starts_with("draw: standard output: "), "{way} {}: {why}", name.display());
        }
    }
}

#[cfg(unix)]
#[test]
fn a_file_name_may_be_any_bytes() {
    use std::os::unix::ffi::OsStrExt;
    let output = draw(&[OsStr::new("text"), OsStr::from_bytes(b"no such \xff file")], b"");
    assert_eq!(output.status.code(), Some(1));
    assert!(said(&output).2.starts_with("draw: no such \u{fffd} file: "));
}
