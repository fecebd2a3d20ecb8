//! Programs run in a folder.

use std::path::Path;
use std::process::Command;

/// Runs a program and gives what it wrote; its messages where it failed.
pub fn tool<W: AsRef<str>>(folder: &Path, words: &[W]) -> Result<String, String> {
    let words: Vec<&str> = words.iter().map(AsRef::as_ref).collect();
    let done = Command::new(words[0]).args(&words[1..]).env("LC_ALL", "C").current_dir(folder).output();
    let output = done.map_err(|error| format!("{}: {error}", words[0]))?;
    match output.status.success() {
        true => Ok(String::from_utf8_lossy(&output.stdout).into_owned()),
        false => Err(format!("{}: {}", words.join(" "), String::from_utf8_lossy(&output.stderr).trim())),
    }
}

pub fn read(folder: &Path, name: &str) -> Result<Vec<u8>, String> {
    std::fs::read(folder.join(name)).map_err(|error| format!("{name}: {error}"))
}

pub fn write(folder: &Path, name: &str, bytes: &[u8]) -> Result<(), String> {
    std::fs::write(folder.join(name), bytes).map_err(|error| format!("{name}: {error}"))
}

/// The symbols with addresses that `nm` lists, in its order.
pub fn symbols(folder: &Path, file: &str) -> Result<Vec<(String, u64)>, String> {
    let listed = tool(folder, &["nm", file])?;
    let row = |line: &str| match line.split_whitespace().collect::<Vec<&str>>()[..] {
        [address, _, name] => Some((name.to_string(), u64::from_str_radix(address, 16).ok()?)),
        _ => None,
    };
    Ok(listed.lines().filter_map(row).collect())
}
