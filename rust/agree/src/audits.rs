//! The auditor's page: a program that prints it for each pair of a map file and a log is held to the search program's text, on logs that people
//! would write, and on bytes that are hardly a log.
use crate::files::file;
use crate::maps::{self, nodes, Size};
use crate::programs::{self, Kinds};
use crate::random::Random;
use crate::reports::any_file;

const LOGS: usize = 2_400;
const AT_ONCE: usize = 60;

/// A word of a line: mostly the number of a node.
fn word(r: &mut Random, size: Size) -> String {
    match r.below(30) {
        0 => r.pick(&[0, 1, 4095, 4096, 65_536, u32::MAX, u32::MAX - 1]).to_string(),
        1 => r
            .pick(&["4294967296", "99999999999999999999999", "00000000000007", "-1", "+2", "3.0", "x", "0x4", "1_0", "\u{e9}", "7,"])
            .to_string(),
        2..=4 => r.below(nodes(size) + 3).to_string(),
        _ => r.below(nodes(size)).to_string(),
    }
}

fn line(r: &mut Random, size: Size) -> String {
    let gap = |r: &mut Random| r.pick(&[" ", " ", " ", "\t", "  ", " \t ", "\r"]);
    let mut text = r.pick(&["", "", "", " ", "\t"]).to_string();
    for _ in 0..r.pick(&[0, 1, 2, 2, 2, 2, 2, 2, 2, 3]) {
        text += &word(r, size);
        text += gap(r);
    }
    text += r.pick(&["", "", "", "# 1 2", "#", "\r", "#\t3 4 #"]);
    text
}

fn any_log(r: &mut Random, size: Size) -> Vec<u8> {
    if r.percent(5) {
        let bytes = r.pick(&[0, 1, 7, 300]);
        return r.bytes(bytes).iter().map(|b| b" 0123456789\t\r\n##x"[*b as usize % 17]).collect();
    }
    let mut log: Vec<u8> = (0..r.below(25)).flat_map(|_| (line(r, size) + "\n").into_bytes()).collect();
    match r.below(40) {
        0 => log.resize(65_536, b' '),
        1 => log.resize(65_537, b'\n'),
        2..=9 => log.truncate(log.len().saturating_sub(1)),
        _ => {}
    }
    log
}

/// What a page is about.
fn kind(page: &str) -> &'static str {
    let has = |words: &str| page.contains(words);
    if has("the map is refused") {
        "refused maps"
    } else if has("none of it was read") {
        "logs too long"
    } else if has(": no path") {
        "pages with a picture"
    } else {
        "other pages"
    }
}

pub fn compare(words: &[String]) {
    programs::compare("pages of the audit", &["refused maps", "logs too long", "pages with a picture", "other pages"], |folder| {
        let mut r = Random::new(20_000);
        let mut agreed = Kinds::new();
        for first in (0..LOGS).step_by(AT_ONCE) {
            let mut names = Vec::new();
            let mut text = String::new();
            for i in first..first + AT_ONCE {
                let size = maps::size(&mut r);
                let map = if r.percent(12) {
                    any_file(&mut r)
                } else {
                    let cells = maps::cells(&mut r, size);
                    file(&[], size, &cells)
                };
                let log = any_log(&mut r, size);
                let page = oracle::audit::audit(&map, &log);
                let (map_name, log_name) = (format!("{i}.map"), format!("{i}.log"));
                std::fs::write(folder.join(&map_name), &map)?;
                std::fs::write(folder.join(&log_name), &log)?;
                text += &format!("log {log_name}\nmap {map_name}\n{page}");
                names.extend([map_name, log_name]);
                *agreed.entry(kind(&page).to_string()).or_insert(0) += 1;
            }
            programs::hold("the audit", folder, words, &names, &text)?;
        }
        Ok(agreed)
    });
}
