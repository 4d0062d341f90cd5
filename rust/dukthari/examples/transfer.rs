//! May a transfer go, and by which way? `transfer MAP START END` reads a map file and prints the hops and the nodes of the route, or why it was
//! refused. Status: 0 granted, 1 refused, 2 what was asked could not be read, or the answer not be written.
use dukthari::{Map, Refusal, Route};
use std::env;
use std::ffi::{OsStr, OsString};
use std::fs::File;
use std::io::{self, Read, Write};
use std::path::Path;
use std::process::ExitCode;

/// A node's number; the largest of all, which no mesh has, where the word is none.
fn node(word: &str) -> u32 {
    word.parse().ok().filter(|_| !word.starts_with('+')).unwrap_or(u32::MAX)
}

fn route(file: &[u8], start: &str, end: &str) -> Result<Route, Refusal> {
    Map::from_file(file)?.route(node(start), node(end))
}

/// A file's bytes; of one that is longer than any map file, one byte more than the longest has.
fn read(name: &OsStr) -> io::Result<Vec<u8>> {
    let mut file = Vec::new();
    File::open(name)?.take(65_536 + 1).read_to_end(&mut file)?;
    Ok(file)
}

fn write(line: &str) -> io::Result<()> {
    let mut to = io::stdout();
    writeln!(to, "{line}").and_then(|()| to.flush())
}

fn main() -> ExitCode {
    let words: Vec<OsString> = env::args_os().skip(1).collect();
    let (name, start, end) = match &words[..] {
        [name, start, end] => (name, start.to_string_lossy(), end.to_string_lossy()),
        _ => {
            eprintln!("usage: transfer MAP START END");
            return ExitCode::from(2);
        }
    };
    let file = match read(name) {
        Ok(file) => file,
        Err(error) => {
            eprintln!("transfer: {}: {error}", Path::new(name).display());
            return ExitCode::from(2);
        }
    };
    let (line, status) = match route(&file, &start, &end) {
        Ok(route) => {
            let nodes: String = route.iter().map(|node| format!(" {node}")).collect();
            (format!("{} hops:{nodes}", route.hops()), ExitCode::SUCCESS)
        }
        Err(refusal) => (refusal.to_string(), ExitCode::FAILURE),
    };
    match write(&line) {
        Ok(()) => status,
        Err(error) => {
            eprintln!("transfer: standard output: {error}");
            ExitCode::from(2)
        }
    }
}
