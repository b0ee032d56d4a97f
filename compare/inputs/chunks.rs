//! The commands, written into files that stay within the bench's limits. A command is written once only.
use std::collections::hash_map::DefaultHasher;
use std::collections::{BTreeMap, HashSet};
use std::fs;
use std::hash::{Hash, Hasher};
use std::io::Result;
use std::path::PathBuf;

const LONGEST_FILE: usize = 1 << 20;
const LONGEST_LINE: usize = 16_384;

pub struct Chunks {
    folder: PathBuf,
    /// Of each family the commands not yet in a file, and the number of its files.
    families: BTreeMap<&'static str, (String, usize)>,
    seen: HashSet<u64>,
}

impl Chunks {
    pub fn new(folder: PathBuf) -> Result<Self> {
        fs::create_dir_all(&folder)?;
        Ok(Chunks { folder, families: BTreeMap::new(), seen: HashSet::new() })
    }

    pub fn count(&self) -> usize {
        self.seen.len()
    }

    pub fn push(&mut self, family: &'static str, command: &str) {
        assert!(command.len() <= LONGEST_LINE, "a line of {} bytes in {family}", command.len());
        let mut hash = DefaultHasher::new();
        command.hash(&mut hash);
        if !self.seen.insert(hash.finish()) {
            return;
        }
        let (text, _) = self.families.entry(family).or_default();
        if text.len() + command.len() + 1 > LONGEST_FILE {
            self.close(family);
        }
        let (text, _) = self.families.entry(family).or_default();
        text.push_str(command);
        text.push('\n');
    }

    fn close(&mut self, family: &'static str) {
        let (text, files) = self.families.get_mut(family).expect("a family that was begun");
        let file = self.folder.join(format!("{family}-{files:03}"));
        fs::write(&file, &*text).unwrap_or_else(|error| panic!("{} cannot be written: {error}", file.display()));
        text.clear();
        *files += 1;
    }

    pub fn finish(mut self) -> usize {
        let families: Vec<&'static str> = self.families.keys().copied().collect();
        for family in families {
            self.close(family);
        }
        self.count()
    }
}

pub fn hex(bytes: &[u8]) -> String {
    if bytes.is_empty() {
        return "-".to_string();
    }
    bytes.iter().map(|byte| format!("{byte:02X}")).collect()
}
