//! A sample small enough to be kept: evenly out of each family, none of the longest commands.
use std::collections::BTreeMap;
use std::fs;
use std::io::{Error, Result};
use std::path::Path;

/// A telegram of the greatest length still fits into a command of this length.
const LONGEST_COMMAND: usize = 560;
const LONGEST_FILE: usize = 1 << 20;

/// Of the files in `inside`, at most `each` commands of each family, into `to`.
pub fn make(inside: &Path, to: &Path, each: usize) -> Result<usize> {
    let mut families: BTreeMap<String, String> = BTreeMap::new();
    let mut files = fs::read_dir(inside)?.map(|entry| Ok(entry?.path())).collect::<Result<Vec<_>>>()?;
    files.sort();
    for file in files {
        let name = file.file_name().unwrap_or_default().to_string_lossy();
        let family = name.rsplit_once('-').map_or(&*name, |(family, _)| family).to_string();
        families.entry(family).or_default().push_str(&fs::read_to_string(&file)?);
    }
    let mut sample: Vec<&str> = Vec::new();
    for text in families.values() {
        let commands: Vec<&str> = text.lines().filter(|line| line.len() <= LONGEST_COMMAND).collect();
        let count = commands.len().min(each);
        sample.extend((0..count).map(|place| commands[place * commands.len() / count]));
    }
    let text = sample.join("\n") + "\n";
    if text.len() > LONGEST_FILE {
        return Err(Error::other("the sample is too long for one input of the bench"));
    }
    fs::write(to, text)?;
    Ok(sample.len())
}
