//! `draw map DRAWING` writes the map file of a text drawing to standard output, `draw text MAP` the drawing of a map file. Files are read and
//! written by the proved library.
use dukthari::{BadDrawing, Map};
use std::ffi::OsString;
use std::fs::File;
use std::io::{Read, Write};
use std::path::Path;
use std::process::ExitCode;
use std::{env, io, str};

const HELP: &str = "\
usage: ./draw map DRAWING > MAP    the map file of a text drawing
       ./draw text MAP             the text drawing of a map file
A file named - is standard input.

In a drawing . is a node that works and # one that is faulty. A line is a row of nodes, x rising to the right. The rows of a layer follow
each other, y rising downwards. A blank line stands between layers, z rising. A row has 2 to 16 nodes, a layer 2 to 16 rows, a drawing 1 to
16 layers; all rows are of one length and all layers of one height. A mesh of 3 x 2 x 2 in which (2, 0, 0) and (0, 1, 1) are faulty:

    ..#
    ...

    ...
    #..
";

/// The longest file that is read, a map or a drawing.
const LONGEST: u64 = 65_536;

/// What standard output is to get, or what is wrong.
fn drawn(words: &[OsString]) -> Result<Vec<u8>, String> {
    match words {
        [] => Ok(HELP.into()),
        [word] if word == "-h" || word == "--help" => Ok(HELP.into()),
        [word, name] if word == "map" => map(Path::new(name)).map_err(|why| format!("{}: {why}", Path::new(name).display())),
        [word, name] if word == "text" => text(Path::new(name)).map_err(|why| format!("{}: {why}", Path::new(name).display())),
        _ => Err("usage: ./draw map DRAWING > MAP, or ./draw text MAP; --help says more".into()),
    }
}

/// The map file of a drawing.
fn map(name: &Path) -> Result<Vec<u8>, String> {
    let bytes = read(name)?;
    if bytes.len() as u64 > LONGEST {
        return Err(format!("a drawing has at most {LONGEST} bytes"));
    }
    let text = str::from_utf8(&bytes).map_err(|_| "a drawing is text, and this is not")?;
    let map: Map = text.parse().map_err(|bad: BadDrawing| bad.to_string())?;
    Ok(map.to_file())
}

/// The drawing of a map file.
fn text(name: &Path) -> Result<Vec<u8>, String> {
    let map = Map::from_file(&read(name)?).map_err(|refusal| refusal.to_string())?;
    Ok(map.to_string().into())
}

/// A file's bytes; of one that is longer than the longest, one byte more than that.
fn read(name: &Path) -> Result<Vec<u8>, String> {
    let mut bytes = Vec::new();
    let read = if name.as_os_str() == "-" {
        io::stdin().take(LONGEST + 1).read_to_end(&mut bytes)
    } else {
        File::open(name).and_then(|file| file.take(LONGEST + 1).read_to_end(&mut bytes))
    };
    read.map(|_| bytes).map_err(|error| error.to_string())
}

fn write(bytes: &[u8]) -> Result<(), String> {
    let mut to = io::stdout();
    to.write_all(bytes).and_then(|()| to.flush()).map_err(|error| format!("standard output: {error}"))
}

fn main() -> ExitCode {
    let words: Vec<OsString> = env::args_os().skip(1).collect();
    match drawn(&words).and_then(|bytes| write(&bytes)) {
        Ok(()) => ExitCode::SUCCESS,
        Err(why) => {
            eprintln!("draw: {why}");
            ExitCode::FAILURE
        }
    }
}
