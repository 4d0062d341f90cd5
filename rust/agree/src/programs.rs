//! Programs that print text for files: what they print is held to what is expected, in a folder of its own.
use crate::library::stop;
use std::collections::BTreeMap;
use std::io::Result;
use std::path::Path;
use std::process::Command;

/// How many of each kind agreed.
pub type Kinds = BTreeMap<String, usize>;

/// Runs a program on files of a folder.
pub fn hold(what: &str, folder: &Path, words: &[String], names: &[String], text: &str) -> Result<()> {
    let done = Command::new(&words[0]).args(&words[1..]).args(names).current_dir(folder).output()?;
    let printed = String::from_utf8_lossy(&done.stdout);
    if !done.status.success() || printed != text {
        let line = printed.lines().zip(text.lines()).position(|(a, b)| a != b).unwrap_or(0);
        let (a, b) = (printed.lines().nth(line), text.lines().nth(line));
        stop(&format!("DISAGREE: {what}, {}: line {line} is {a:?}, searched {b:?}, {}", names[0], done.status));
    }
    Ok(())
}

/// Compares in a folder that is made for it, and says what agreed; each of the kinds must have been met.
pub fn compare(what: &str, kinds: &[&str], compared: impl FnOnce(&Path) -> Result<Kinds>) {
    let folder = std::env::temp_dir().join(format!("dukthari-{}", std::process::id()));
    let agreed = std::fs::create_dir(&folder).and_then(|()| compared(&folder));
    let _ = std::fs::remove_dir_all(&folder);
    let agreed = agreed.unwrap_or_else(|e| stop(&format!("{what} cannot be compared: {e}")));
    if agreed.len() != kinds.len() || kinds.iter().any(|kind| agreed.get(*kind).copied().unwrap_or(0) < 30) {
        stop(&format!("TOO LITTLE ASKED: {what}: {agreed:?}"));
    }
    let counts: Vec<String> = agreed.iter().map(|(kind, count)| format!("{kind}: {count}")).collect();
    println!("{what}: {} agreed; {}", agreed.values().sum::<usize>(), counts.join("; "));
}
