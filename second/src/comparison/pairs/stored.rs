//! Stored pairs: the texts of two traces, the lines that comparing them must
//! print, and those of the same traces in memory, by the number asked.

use std::collections::BTreeMap;
use std::fs;
use std::io;
use std::path::Path;

use crate::text::assemble::assemble_whole;

/// A stored pair by its files: NAME.first.text, NAME.second.text, NAME.lines,
/// and NAME.FROM.lent for some numbers.
pub struct StoredPair {
    pub name: String,
    pub first: Vec<u8>,
    pub second: Vec<u8>,
    pub lines: String,
    pub lent: Vec<(u64, String)>,
}

impl StoredPair {
    pub fn traces(&self) -> [&[u8]; 2] {
        [&self.first, &self.second]
    }
}

fn wrong(said: String) -> io::Error {
    io::Error::new(io::ErrorKind::InvalidData, said)
}

/// The pairs of some folders, by name. One that lacks a file is no pair.
pub fn stored_pairs(folders: &[String]) -> io::Result<Vec<StoredPair>> {
    let mut all = Vec::new();
    for folder in folders {
        all.extend(pairs_of(Path::new(folder))?);
    }
    Ok(all)
}

fn pairs_of(folder: &Path) -> io::Result<Vec<StoredPair>> {
    let mut pairs: BTreeMap<String, BTreeMap<String, Vec<u8>>> = BTreeMap::new();
    let named = |path: &Path, fault: io::Error| wrong(format!("{}: {}", path.display(), fault));
    for entry in fs::read_dir(folder).map_err(|fault| named(folder, fault))? {
        let path = entry?.path();
        let file = path.file_name().unwrap_or_default().to_string_lossy();
        let (name, part) = file
            .split_once('.')
            .ok_or_else(|| wrong(format!("{}: no file of a pair", path.display())))?;
        let bytes = fs::read(&path).map_err(|fault| named(&path, fault))?;
        let parts = pairs.entry(name.to_string()).or_default();
        parts.insert(part.to_string(), bytes);
    }
    let made = pairs.into_iter().map(|(name, parts)| {
        let made = read_pair(&name, parts);
        made.map_err(|reason| wrong(format!("{}/{}: {}", folder.display(), name, reason)))
    });
    made.collect()
}

/// A pair from its files by what follows its name.
fn read_pair(name: &str, mut parts: BTreeMap<String, Vec<u8>>) -> Result<StoredPair, String> {
    let mut take = |part: &str| {
        let bytes = parts.remove(part);
        bytes.ok_or_else(|| format!("it has no .{}", part))
    };
    let trace = |text: Vec<u8>| assemble_whole(&text).map_err(|fault| fault.to_string());
    let text = |bytes: Vec<u8>| String::from_utf8(bytes).map_err(|fault| fault.to_string());
    let mut pair = StoredPair {
        name: name.to_string(),
        first: trace(take("first.text")?)?,
        second: trace(take("second.text")?)?,
        lines: text(take("lines")?)?,
        lent: Vec::new(),
    };
    for (part, bytes) in parts {
        let number = part
            .strip_suffix(".lent")
            .and_then(|from| from.parse().ok());
        let number = number.ok_or_else(|| format!(".{} is no file of a pair", part))?;
        pair.lent.push((number, text(bytes)?));
    }
    if pair.lent.is_empty() {
        return Err("it has no .FROM.lent".to_string());
    }
    Ok(pair)
}
