//! The report's text: a program that prints the report on each file that it is given, under the file's name, is held to the search program's
//! text, on good files of every kind and on damaged ones.
use crate::files::file;
use crate::maps::{self, nodes};
use crate::programs::{self, Kinds};
use crate::random::Random;

const FILES: usize = 3_200;
const AT_ONCE: usize = 200;

/// A map file; or one that is damaged, cut, too long, or no map file at all.
pub fn any_file(r: &mut Random) -> Vec<u8> {
    let size = if r.percent(3) { maps::any_size(r) } else { maps::size(r) };
    let mut cells = maps::cells(r, size);
    if r.percent(8) {
        maps::spoil(r, &mut cells);
    }
    let notes = r.pick(&[0, 0, 0, 0, 0, 1, 5, 100]);
    let mut bytes = file(&r.bytes(notes), size, &cells);
    let end = bytes.len() - 12;
    match r.below(20) {
        0 => bytes[end + r.below(12)] ^= 1 << r.below(8),
        1 => bytes.truncate(r.below(end + 12)),
        2 => bytes = bytes.split_off(r.below(end + 12)),
        3 => {
            let notes = 65_536 - 12 - nodes(size) + r.pick(&[0, 0, 1, 2, 5000]);
            bytes = file(&r.bytes(notes), size, &cells);
        }
        4 => {
            let count = r.below(40);
            bytes = r.bytes(count);
        }
        5 => bytes[end + r.below(3)] = r.pick(&[0, 1, 17, 255]),
        _ => {}
    }
    bytes
}

pub fn compare(words: &[String]) {
    programs::compare("files of the report", &["granted", "refused 1", "refused 4", "refused 11"], |folder| {
        let mut r = Random::new(10_000);
        let mut agreed = Kinds::new();
        for first in (0..FILES).step_by(AT_ONCE) {
            let mut names = Vec::new();
            let mut text = String::new();
            for i in first..first + AT_ONCE {
                let bytes = any_file(&mut r);
                let name = format!("{i}.map");
                std::fs::write(folder.join(&name), &bytes)?;
                let report = oracle::report::report(&bytes);
                text += &format!("{name}\n{report}");
                names.push(name);
                let kind = if report.starts_with("refused") { report.trim() } else { "granted" };
                *agreed.entry(kind.to_string()).or_insert(0) += 1;
            }
            programs::hold("the report", folder, words, &names, &text)?;
        }
        Ok(agreed)
    });
}
